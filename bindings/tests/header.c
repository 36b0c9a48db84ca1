/*
 * Every function from C: on E1 (LANGUAGE 8.2), on some refusals and faults, on
 * a script of version 2, on empty buffers, and under other sets than the
 * language's own.
 */
#include <roomscript.h>

#include "header_answers.h"

#include <string.h>

#define BASE roomscript_base
#define ROWS ROOMSCRIPT_ROW_NUMBERS(ROOMSCRIPT_BASE_TERMS)
#define STORE ROOMSCRIPT_STORE_NUMBERS(ROOMSCRIPT_BASE_VARIABLES, ROOMSCRIPT_BASE_BOXES)
#define READINGS ROOMSCRIPT_READINGS_LEN
#define NEWEST ROOMSCRIPT_NEWEST_VERSION

static const uint8_t E1[25] = {
    0x52, 0x43, 0x53, 0x00, 0x01, 0x0B, 0x04, 0x08, 0x00, 0x02, 0x00, 0x08, 0x01,
    0x02, 0x01, 0x08, 0x02, 0x05, 0x00, 0x00, 0x0A, 0x02, 0x01, 0x01, 0x00};

/* let v0=box 7; let v1=move v0; copy *v0 */
static const uint8_t E3[23] = {0x52, 0x43, 0x53, 0x00, 0x01, 0x0B, 0x03, 0x08,
                               0x00, 0x07, 0x01, 0x00, 0x00, 0x00, 0x07, 0x08,
                               0x01, 0x04, 0x00, 0x00, 0x03, 0x00, 0x01};

/* let v0=box 7; let v1=move *v0; *v0=8; copy *v0 */
static const uint8_t E4[31] = {0x52, 0x43, 0x53, 0x00, 0x01, 0x0B, 0x04, 0x08,
                               0x00, 0x07, 0x01, 0x00, 0x00, 0x00, 0x07, 0x08,
                               0x01, 0x04, 0x00, 0x01, 0x09, 0x00, 0x01, 0x01,
                               0x00, 0x00, 0x00, 0x08, 0x03, 0x00, 0x01};

/* let v0=reading 0; let v1=reading 1; sum v0, v1 */
static const uint8_t SUM[20] = {0x52, 0x43, 0x53, 0x00, 0x02, 0x0B, 0x03, 0x08, 0x00, 0x02,
                                0x00, 0x08, 0x01, 0x02, 0x01, 0x0D, 0x00, 0x00, 0x01, 0x00};

static const int32_t GIVEN[READINGS] = {185, 200, 0, 0, 0, 0, 0, 0};

static uint32_t rows[ROWS];
static uint32_t store[STORE];

/* Whether each number from one place to another is this one. */
static int all(const uint32_t *numbers, size_t from, size_t to, uint32_t value) {
    while (from < to && numbers[from] == value) {
        from++;
    }
    return from == to;
}

static void junk(void) {
    size_t at;
    for (at = 0; at < ROWS; at++) {
        rows[at] = 9;
    }
    for (at = 0; at < STORE; at++) {
        store[at] = 9;
    }
}

static void form(void) {
    static uint8_t output[ROOMSCRIPT_MAX_BYTES];
    expect_script("read", roomscript_read(BASE, NEWEST, E1, sizeof E1, rows, ROWS), 1, 8);
    expect_terms("judge_rows", roomscript_judge_rows(BASE, rows, ROWS), 8);
    expect_bytes("length", roomscript_length(BASE, 1, rows, ROWS), 25);
    expect_bytes("write", roomscript_write(BASE, 1, rows, ROWS, output, sizeof output), 25);
    note("bytes written", memcmp(output, E1, sizeof E1) == 0);
    expect_not_written("short output", roomscript_write(BASE, 1, rows, ROWS, output, 24), 5, 0);
    expect_not_read("short script", roomscript_read(BASE, NEWEST, E1, 24, rows, ROWS), 12, 24);
    expect_refused("no rows", roomscript_judge_rows(BASE, rows, 0), 2, 0);
    expect_refused("rows of 0", roomscript_judge_rows(BASE, rows, ROWS), 12, 0);
}

/* Each version is read by those who know it, and written where it is asked for. */
static void versions(void) {
    static uint8_t output[sizeof SUM];
    roomscript_called called;
    note("the newest version", NEWEST == 2);
    junk();
    expect_not_read("SUM by none", roomscript_read(BASE, 0, SUM, sizeof SUM, rows, ROWS), 11, 3);
    note("rows after SUM by none", all(rows, 0, ROWS, 0));
    junk();
    expect_not_read("SUM by 1", roomscript_read(BASE, 1, SUM, sizeof SUM, rows, ROWS), 11, 3);
    note("rows after SUM by 1", all(rows, 0, ROWS, 0));
    expect_script("E1 by 1", roomscript_read(BASE, 1, E1, sizeof E1, rows, ROWS), 1, 8);
    expect_script("SUM by 2", roomscript_read(BASE, 2, SUM, sizeof SUM, rows, ROWS), 2, 6);
    expect_script("SUM by all", roomscript_read(BASE, UINT32_MAX, SUM, sizeof SUM, rows, ROWS), 2,
                  6);
    note("the row of a sum", rows[25] == 13 && rows[26] == 0 && rows[27] == 0 && rows[28] == 1 &&
                                 rows[29] == 0);
    expect_terms("judge SUM", roomscript_judge_rows(BASE, rows, ROWS), 6);
    expect_not_written("write version 3",
                       roomscript_write(BASE, 3, rows, ROWS, output, sizeof output), 11, 0);
    expect_not_written("write version 1",
                       roomscript_write(BASE, 1, rows, ROWS, output, sizeof output), 13, 5);
    note("bytes not written", output[0] == 0 && output[4] == 0);
    expect_bytes("write version 2", roomscript_write(BASE, 2, rows, ROWS, output, sizeof output),
                 20);
    note("bytes of SUM", memcmp(output, SUM, sizeof SUM) == 0);
    expect_terms("check SUM", roomscript_check(BASE, rows, ROWS), 6);
    expect_ran("run SUM", roomscript_run(BASE, rows, ROWS, GIVEN, READINGS, store, STORE), 385, 0);
    expect_unchecked("SUM unchecked",
                     roomscript_run_unchecked(BASE, rows, ROWS, GIVEN, READINGS, store, STORE), 385,
                     0);
    called = roomscript_call(BASE, SUM, sizeof SUM, GIVEN, READINGS, rows, ROWS, store, STORE);
    expect_called("call of SUM", called, 6, 385, 0);
}

/* Words on each side of rows, to see that nothing is written there. */
#define GUARD 32

/* The length, and then an output of just that length. The rows stay as they are. */
static void lengths(void) {
    static uint32_t words[GUARD + ROWS + GUARD], before[GUARD + ROWS + GUARD];
    static uint8_t output[sizeof SUM + 1];
    uint32_t *lent = words + GUARD;
    roomscript_bytes told;
    size_t at;
    for (at = 0; at < GUARD + ROWS + GUARD; at++) {
        words[at] = (uint32_t)at * 0x9E3779B1u | 1;
    }
    expect_script("read SUM", roomscript_read(BASE, 2, SUM, sizeof SUM, lent, ROWS), 2, 6);
    memcpy(before, words, sizeof words);
    expect_not_written("length in version 0", roomscript_length(BASE, 0, lent, ROWS), 11, 0);
    expect_not_written("length in version 1", roomscript_length(BASE, 1, lent, ROWS), 13, 5);
    expect_not_written("length in version 3", roomscript_length(BASE, 3, lent, ROWS), 11, 0);
    expect_not_written("length of few rows", roomscript_length(BASE, 2, lent, ROWS - 1), 2, 0);
    expect_not_written("length of many rows", roomscript_length(BASE, 2, lent, ROWS + 1), 2, 0);
    told = roomscript_length(BASE, 2, lent, ROWS);
    expect_bytes("length in version 2", told, 20);
    note("rows after length", memcmp(words, before, sizeof words) == 0);
    output[20] = 9;
    expect_not_written("a byte less",
                       roomscript_write(BASE, 2, lent, ROWS, output, told.bytes - 1), 5, 0);
    note("output of a byte less", output[0] == 0 && output[18] == 0);
    expect_bytes("as many bytes", roomscript_write(BASE, 2, lent, ROWS, output, told.bytes), 20);
    note("output of as many bytes", memcmp(output, SUM, sizeof SUM) == 0 && output[20] == 9);
    lent[ROWS - 1] = 1;
    expect_not_written("length of rows left", roomscript_length(BASE, 2, lent, ROWS), 19, 511);
    memset(lent, 0, ROWS * sizeof lent[0]);
    expect_not_written("length of rows of 0", roomscript_length(BASE, 2, lent, ROWS), 12, 0);
    note("rows of 0 after length", all(lent, 0, ROWS, 0));
    memcpy(lent, before + GUARD, ROWS * sizeof lent[0]);
    note("words around the rows", memcmp(words, before, sizeof words) == 0);
}

/* let v0=reading 0; choice v0 {box 7; 7} {8}, with each branch. */
static void choices(void) {
    static const uint8_t CHOICE[34] = {0x52, 0x43, 0x53, 0, 2, 0x0B, 2, 8, 0, 2, 0, 0x0C, 0, 0,
                                       0x0B, 2, 7, 1, 0, 0, 0, 7, 1, 0, 0, 0, 7,
                                       0x0B, 1, 1, 0, 0, 0, 8};
    static const int32_t zeros[READINGS];
    expect_script("read CHOICE", roomscript_read(BASE, 2, CHOICE, 34, rows, ROWS), 2, 10);
    expect_ran("first", roomscript_run(BASE, rows, ROWS, GIVEN, READINGS, store, STORE), 7, 1);
    expect_ran("second", roomscript_run(BASE, rows, ROWS, zeros, READINGS, store, STORE), 8, 0);
}

/* Where a field of an answer stands. */
#define AT(answer, field, offset) (offsetof(roomscript_##answer, field) == (offset))

/* The struct that each function answers: number and place first. */
static void layout(void) {
    note("roomscript_script", sizeof(roomscript_script) == 32 && AT(script, number, 0) &&
                                  AT(script, place, 8) && AT(script, version, 16) &&
                                  AT(script, terms, 24));
    note("roomscript_terms", sizeof(roomscript_terms) == 24 && AT(terms, number, 0) &&
                                 AT(terms, place, 8) && AT(terms, terms, 16));
    note("roomscript_bytes", sizeof(roomscript_bytes) == 24 && AT(bytes, number, 0) &&
                                 AT(bytes, place, 8) && AT(bytes, bytes, 16));
    note("roomscript_ran", sizeof(roomscript_ran) == 32 && AT(ran, number, 0) &&
                               AT(ran, place, 8) && AT(ran, answer, 16) && AT(ran, cells, 24));
    note("roomscript_ran_unchecked",
         sizeof(roomscript_ran_unchecked) == 32 && AT(ran_unchecked, number, 0) &&
             AT(ran_unchecked, place, 8) && AT(ran_unchecked, fault, 16) &&
             AT(ran_unchecked, answer, 20) && AT(ran_unchecked, cells, 24));
    note("roomscript_called", sizeof(roomscript_called) == 40 && AT(called, number, 0) &&
                                  AT(called, place, 8) && AT(called, terms, 16) &&
                                  AT(called, answer, 24) && AT(called, cells, 32));
}

static void check_and_run(void) {
    junk();
    expect_script("read E1", roomscript_read(BASE, NEWEST, E1, sizeof E1, rows, ROWS), 1, 8);
    expect_terms("check E1", roomscript_check(BASE, rows, ROWS), 8);
    expect_refused("check no rows", roomscript_check(BASE, rows, 0), 2, 0);
    expect_not_run("no store", roomscript_run(BASE, rows, ROWS, GIVEN, READINGS, store, 0), 3, 0);
    expect_not_run("no readings", roomscript_run(BASE, rows, ROWS, GIVEN, 7, store, STORE), 4, 0);
    expect_script("read E3", roomscript_read(BASE, NEWEST, E3, sizeof E3, rows, ROWS), 1, 7);
    expect_refused("check E3", roomscript_check(BASE, rows, ROWS), 33, 6);
    expect_not_run("run E3", roomscript_run(BASE, rows, ROWS, GIVEN, READINGS, store, STORE), 33,
                   6);
    note("store after refusals", all(store, 0, STORE, 9));
    expect_script("read E4", roomscript_read(BASE, NEWEST, E4, sizeof E4, rows, ROWS), 1, 9);
    expect_ran("run E4", roomscript_run(BASE, rows, ROWS, GIVEN, READINGS, store, STORE), 8, 1);
    note("store after E4", all(store, 0, 192, 0) && store[192] == 2 && all(store, 193, STORE, 0));
}

static void run_unchecked(void) {
    static const uint32_t fault[6] = {1, 0, 0, 1, 2, 0};
    junk();
    expect_script("read E1", roomscript_read(BASE, NEWEST, E1, sizeof E1, rows, ROWS), 1, 8);
    expect_stopped("no store, unchecked",
                   roomscript_run_unchecked(BASE, rows, ROWS, GIVEN, READINGS, store, 0), 0, 3, 0);
    expect_stopped("no readings, unchecked",
                   roomscript_run_unchecked(BASE, rows, ROWS, GIVEN, 7, store, STORE), 0, 4, 0);
    note("store before an unchecked run", all(store, 0, STORE, 9));
    expect_unchecked("E1 unchecked",
                     roomscript_run_unchecked(BASE, rows, ROWS, GIVEN, READINGS, store, STORE), 1,
                     0);
    note("store after E1", all(store, 0, STORE, 0));
    expect_script("read E3", roomscript_read(BASE, NEWEST, E3, sizeof E3, rows, ROWS), 1, 7);
    expect_stopped("E3 unchecked",
                   roomscript_run_unchecked(BASE, rows, ROWS, GIVEN, READINGS, store, STORE), 1, 60,
                   6);
    note("variables after E3", memcmp(store, fault, sizeof fault) == 0);
    note("cell after E3", store[192] == 1 && store[193] == 1 && store[194] == 7);
    note("the rest after E3", all(store, 6, 192, 0) && all(store, 195, STORE, 0));
}

static void call(void) {
    roomscript_called called;
    junk();
    expect_not_called("call without rows",
                      roomscript_call(BASE, E1, 25, GIVEN, READINGS, rows, 0, store, STORE), 2, 0);
    note("after no rows", all(rows, 0, ROWS, 9) && all(store, 0, STORE, 9));
    expect_not_called("call of a short script",
                      roomscript_call(BASE, E1, 24, GIVEN, READINGS, rows, ROWS, store, STORE),
                      12, 24);
    note("after a short script", all(rows, 0, ROWS, 0) && all(store, 0, STORE, 9));
    expect_not_called("call of E3",
                      roomscript_call(BASE, E3, 23, GIVEN, READINGS, rows, ROWS, store, STORE),
                      33, 6);
    note("after E3", rows[0] == 11 && rows[1] == 3 && all(store, 0, STORE, 9));
    called = roomscript_call(BASE, E1, 25, GIVEN, READINGS, rows, ROWS, store, STORE);
    expect_called("call of E1", called, 8, 1, 0);
    note("after E1", rows[0] == 11 && rows[1] == 4 && all(store, 0, STORE, 0));
}

/* An empty buffer is the address of one element, and length 0. */
static void empty(void) {
    static uint8_t bytes[1] = {9};
    static uint32_t numbers[1] = {9};
    static const int32_t none[1] = {9};
    junk();
    expect_not_read("read no bytes", roomscript_read(BASE, NEWEST, bytes, 0, rows, ROWS), 12, 0);
    note("rows after no bytes", all(rows, 0, ROWS, 0));
    expect_not_read("read into no rows", roomscript_read(BASE, NEWEST, E1, 25, numbers, 0), 2, 0);
    expect_refused("judge no rows", roomscript_judge_rows(BASE, numbers, 0), 2, 0);
    expect_not_written("length of no rows", roomscript_length(BASE, 1, numbers, 0), 2, 0);
    expect_not_written("write no rows", roomscript_write(BASE, 1, numbers, 0, bytes, 0), 2, 0);
    expect_refused("check no rows", roomscript_check(BASE, numbers, 0), 2, 0);
    expect_script("read E1", roomscript_read(BASE, NEWEST, E1, 25, rows, ROWS), 1, 8);
    expect_not_written("write to no output", roomscript_write(BASE, 1, rows, ROWS, bytes, 0), 5, 0);
    expect_not_run("run no rows", roomscript_run(BASE, numbers, 0, none, 0, numbers, 0), 2, 0);
    expect_not_run("run on no store",
                   roomscript_run(BASE, rows, ROWS, GIVEN, READINGS, numbers, 0), 3, 0);
    expect_not_run("run with no readings",
                   roomscript_run(BASE, rows, ROWS, none, 0, store, STORE), 4, 0);
    expect_stopped("unchecked on no store",
                   roomscript_run_unchecked(BASE, rows, ROWS, GIVEN, READINGS, numbers, 0), 0, 3,
                   0);
    expect_stopped("unchecked with no readings",
                   roomscript_run_unchecked(BASE, rows, ROWS, none, 0, store, STORE), 0, 4, 0);
    expect_not_called("call of no bytes",
                      roomscript_call(BASE, bytes, 0, GIVEN, READINGS, rows, ROWS, store, STORE),
                      12, 0);
    expect_not_called("call with nothing",
                      roomscript_call(BASE, bytes, 0, none, 0, numbers, 0, store, 0), 2, 0);
    note("the element of an empty buffer",
         bytes[0] == 9 && numbers[0] == 9 && all(store, 0, STORE, 9));
}

/* A set has 16 bytes, and each of its numbers arrives. */
static void sets(void) {
    static const roomscript_limits fits = {7, 2, 1, 4};
    static const roomscript_limits terms = {6, 2, 1, 4}, variables = {7, 1, 1, 4};
    static const roomscript_limits boxes = {7, 2, 0, 4}, levels = {7, 2, 1, 2};
    const size_t fitting = ROOMSCRIPT_ROW_NUMBERS(fits.terms);
    const size_t small = ROOMSCRIPT_STORE_NUMBERS(fits.variables, fits.boxes);
    note("a set", sizeof(roomscript_limits) == 16 && fitting == 35 && small == 9);
    note("the base", BASE.terms == 512 && BASE.variables == 64 && BASE.boxes == 64 &&
                         BASE.levels == 16 && ROWS == 2560 && STORE == 384);
    junk();
    expect_not_read("a term too many", roomscript_read(terms, NEWEST, E3, 23, rows, 30), 16, 20);
    expect_not_read("a variable too many", roomscript_read(variables, NEWEST, E3, 23, rows, 35),
                    14, 16);
    expect_not_read("a box too many", roomscript_read(boxes, NEWEST, E3, 23, rows, 35), 17, 9);
    expect_not_read("a level too many", roomscript_read(levels, NEWEST, E3, 23, rows, 35), 15, 9);
    expect_script("read E3 as it fits", roomscript_read(fits, NEWEST, E3, 23, rows, fitting), 1, 7);
    note("rows after that", rows[30] == 3 && rows[31] == 0 && rows[32] == 1 &&
                                all(rows, fitting, ROWS, 9));
    expect_terms("judge E3", roomscript_judge_rows(fits, rows, fitting), 7);
    expect_bytes("length of E3", roomscript_length(fits, 1, rows, fitting), 23);
    expect_refused("check E3", roomscript_check(fits, rows, fitting), 33, 6);
    expect_not_run("run E3 as it fits",
                   roomscript_run(fits, rows, fitting, GIVEN, READINGS, store, small), 33, 6);
    note("store after that", all(store, 0, STORE, 9));
    expect_stopped("E3 as it fits, unchecked",
                   roomscript_run_unchecked(fits, rows, fitting, GIVEN, READINGS, store, small), 1,
                   60, 6);
    note("the cell after E3", store[6] == 1 && store[7] == 1 && store[8] == 7 && store[9] == 9);
    expect_refused("the base's rows", roomscript_check(fits, rows, ROWS), 2, 0);
    expect_not_run("the base's store",
                   roomscript_run(fits, rows, fitting, GIVEN, READINGS, store, STORE), 3, 0);
}

static void largest(void) {
    static const roomscript_limits most = {4096, 128, 128, 32};
    static uint32_t many[ROOMSCRIPT_ROW_NUMBERS(4096)], big[ROOMSCRIPT_STORE_NUMBERS(128, 128)];
    const size_t length = sizeof many / sizeof many[0], size = sizeof big / sizeof big[0];
    roomscript_called called;
    note("the largest lengths", length == 20480 && size == 768);
    called = roomscript_call(most, E1, 25, GIVEN, READINGS, many, length, big, size);
    expect_called("call of E1 under the largest set", called, 8, 1, 0);
    expect_bytes("length of E1 under the largest set", roomscript_length(most, 2, many, length),
                 25);
    expect_terms("check E1 under the largest set", roomscript_check(most, many, length), 8);
    expect_ran("run E1 under the largest set",
               roomscript_run(most, many, length, GIVEN, READINGS, big, size), 1, 0);
    note("store of the largest set", all(big, 0, size, 0));
    expect_refused("rows of the largest set", roomscript_check(BASE, many, length), 2, 0);
}

/* 74 comes before every other number, and nothing lent is changed. */
static void outside(void) {
    static const roomscript_limits sets[] = {
        {0, 64, 64, 16},    {4097, 64, 64, 16}, {512, 0, 64, 16},  {512, 129, 64, 16},
        {512, 64, 129, 16}, {512, 64, 64, 0},   {512, 64, 64, 33}, {UINT32_MAX, 64, 64, 16}};
    static uint8_t output[1] = {9};
    size_t at;
    junk();
    for (at = 0; at < sizeof sets / sizeof sets[0]; at++) {
        expect_not_read("read", roomscript_read(sets[at], NEWEST, E1, 25, rows, ROWS), 74, 0);
        expect_refused("judge_rows", roomscript_judge_rows(sets[at], rows, 0), 74, 0);
        expect_not_written("length", roomscript_length(sets[at], 1, rows, ROWS), 74, 0);
        expect_not_written("write", roomscript_write(sets[at], 1, rows, ROWS, output, 1), 74, 0);
        expect_refused("check", roomscript_check(sets[at], rows, ROWS), 74, 0);
        expect_not_run("run", roomscript_run(sets[at], rows, 0, GIVEN, 7, store, 0), 74, 0);
        expect_stopped("run_unchecked",
                       roomscript_run_unchecked(sets[at], rows, 0, GIVEN, 7, store, 0), 0, 74, 0);
        expect_not_called("call", roomscript_call(sets[at], E1, 25, GIVEN, 7, rows, 0, store, 0),
                          74, 0);
    }
    note("after sets outside the ranges",
         output[0] == 9 && all(rows, 0, ROWS, 9) && all(store, 0, STORE, 9));
}

int main(void) {
    form();
    versions();
    lengths();
    choices();
    layout();
    check_and_run();
    run_unchecked();
    call();
    empty();
    sets();
    largest();
    outside();
    return failed;
}
