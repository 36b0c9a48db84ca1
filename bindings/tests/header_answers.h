/*
 * Answers beside what they must be. Where one differs a line names it, and
 * failed is set.
 */
#ifndef HEADER_ANSWERS_H
#define HEADER_ANSWERS_H

#include <roomscript.h>

#include <stdio.h>

static int failed = 0;

static void note(const char *what, int holds) {
    if (!holds) {
        printf("%s: not as it must be\n", what);
        failed = 1;
    }
}

/* The first two fields of every answer, beside what they must be. */
static void first(const char *what, uint32_t number, uint64_t place, uint32_t due, uint64_t at) {
    if (number != due || place != at) {
        printf("%s: number %u, place %llu\n", what, (unsigned)number, (unsigned long long)place);
        failed = 1;
    }
}

static void expect_script(const char *what, roomscript_script script, uint32_t version,
                          uint64_t terms) {
    first(what, script.number, script.place, 0, 0);
    note(what, script.version == version && script.terms == terms);
}

static void expect_not_read(const char *what, roomscript_script script, uint32_t number,
                            uint64_t place) {
    first(what, script.number, script.place, number, place);
    note(what, script.version == 0 && script.terms == 0);
}

static void expect_terms(const char *what, roomscript_terms judged, uint64_t terms) {
    first(what, judged.number, judged.place, 0, 0);
    note(what, judged.terms == terms);
}

static void expect_refused(const char *what, roomscript_terms judged, uint32_t number,
                           uint64_t place) {
    first(what, judged.number, judged.place, number, place);
    note(what, judged.terms == 0);
}

static void expect_bytes(const char *what, roomscript_bytes written, uint64_t bytes) {
    first(what, written.number, written.place, 0, 0);
    note(what, written.bytes == bytes);
}

static void expect_not_written(const char *what, roomscript_bytes written, uint32_t number,
                               uint64_t place) {
    first(what, written.number, written.place, number, place);
    note(what, written.bytes == 0);
}

static void expect_ran(const char *what, roomscript_ran ran, int32_t answer, uint64_t cells) {
    first(what, ran.number, ran.place, 0, 0);
    note(what, ran.answer == answer && ran.cells == cells);
}

static void expect_not_run(const char *what, roomscript_ran ran, uint32_t number, uint64_t place) {
    first(what, ran.number, ran.place, number, place);
    note(what, ran.answer == 0 && ran.cells == 0);
}

static void expect_unchecked(const char *what, roomscript_ran_unchecked ran, int32_t answer,
                             uint64_t cells) {
    first(what, ran.number, ran.place, 0, 0);
    note(what, ran.fault == 0 && ran.answer == answer && ran.cells == cells);
}

static void expect_stopped(const char *what, roomscript_ran_unchecked ran, uint32_t fault,
                           uint32_t number, uint64_t place) {
    first(what, ran.number, ran.place, number, place);
    note(what, ran.fault == fault && ran.answer == 0 && ran.cells == 0);
}

static void expect_called(const char *what, roomscript_called called, uint64_t terms,
                          int32_t answer, uint64_t cells) {
    first(what, called.number, called.place, 0, 0);
    note(what, called.terms == terms && called.answer == answer && called.cells == cells);
}

static void expect_not_called(const char *what, roomscript_called called, uint32_t number,
                              uint64_t place) {
    first(what, called.number, called.place, number, place);
    note(what, called.terms == 0 && called.answer == 0 && called.cells == 0);
}

#endif
