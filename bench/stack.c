/*
 * How much stack a function takes: its name and the four numbers of a set of
 * limits as the arguments, a script on standard input, the bytes on standard
 * output.
 *
 * The function is called in a thread whose stack was painted before, and the
 * lowest byte that is painted over afterwards is looked for. The thread calls
 * nothing else before that, so that what is counted is the library's frames
 * and one small frame around them.
 */
#define _POSIX_C_SOURCE 200809L

#include <roomscript.h>

#include <pthread.h>
#include <stdio.h>
#include <stdlib.h>
#include <string.h>

#define PAINTED ((size_t)16 << 20)
#define PAINT 0xA5
#define ROWS rows, ROOMSCRIPT_ROW_NUMBERS(limits.terms)
#define STORE store, ROOMSCRIPT_STORE_NUMBERS(limits.variables, limits.boxes)
#define READINGS readings, ROOMSCRIPT_READINGS_LEN

/* Long enough for the largest set. */
static uint32_t rows[ROOMSCRIPT_ROW_NUMBERS(4096)];
static uint32_t store[ROOMSCRIPT_STORE_NUMBERS(128, 128)];
static const int32_t readings[ROOMSCRIPT_READINGS_LEN];
static roomscript_limits limits;
static uint8_t output[ROOMSCRIPT_MAX_BYTES];
static uint8_t script[ROOMSCRIPT_MAX_BYTES];
static size_t length;
static uint32_t version;

static void do_read(void) {
    roomscript_read(limits, ROOMSCRIPT_NEWEST_VERSION, script, length, ROWS);
}
static void do_judge_rows(void) { roomscript_judge_rows(limits, ROWS); }
static void do_length(void) { roomscript_length(limits, version, ROWS); }
static void do_write(void) { roomscript_write(limits, version, ROWS, output, sizeof output); }
static void do_check(void) { roomscript_check(limits, ROWS); }
static void do_run(void) { roomscript_run(limits, ROWS, READINGS, STORE); }
static void do_run_unchecked(void) { roomscript_run_unchecked(limits, ROWS, READINGS, STORE); }
static void do_call(void) { roomscript_call(limits, script, length, READINGS, ROWS, STORE); }

static const struct {
    const char *name;
    void (*act)(void);
} operations[] = {{"read", do_read},
                  {"judge_rows", do_judge_rows},
                  {"length", do_length},
                  {"write", do_write},
                  {"check", do_check},
                  {"run", do_run},
                  {"run_unchecked", do_run_unchecked},
                  {"call", do_call}};

/* Volatile, so that the calls and the look at the stack stay where they are. */
static void (*volatile chosen)(void);
static volatile unsigned char *stack;
static size_t taken;

static void *measured(void *unused) {
    volatile unsigned char top = 0;
    volatile unsigned char *low = stack;
    chosen();
    while (*low == PAINT) {
        low++;
    }
    taken = (size_t)(&top - low);
    return unused;
}

/* Finds the function and the set, which must be within the buffers. */
static int asked(int count, char **words) {
    size_t at;
    if (count != 6) {
        return 0;
    }
    for (at = 0; at < sizeof operations / sizeof operations[0]; at++) {
        if (strcmp(words[1], operations[at].name) == 0) {
            chosen = operations[at].act;
        }
    }
    limits.terms = (uint32_t)strtoul(words[2], NULL, 10);
    limits.variables = (uint32_t)strtoul(words[3], NULL, 10);
    limits.boxes = (uint32_t)strtoul(words[4], NULL, 10);
    limits.levels = (uint32_t)strtoul(words[5], NULL, 10);
    return chosen != NULL && limits.terms <= 4096 && limits.variables <= 128 && limits.boxes <= 128;
}

int main(int count, char **words) {
    pthread_attr_t attributes;
    pthread_t thread;
    roomscript_script read;
    void *memory;
    if (!asked(count, words)) {
        return 1;
    }
    length = fread(script, 1, sizeof script, stdin);
    /* Those who take rows find them here. */
    read = roomscript_read(limits, ROOMSCRIPT_NEWEST_VERSION, script, length, ROWS);
    version = read.version;
    if (read.number != 0 || posix_memalign(&memory, 4096, PAINTED) != 0) {
        return 1;
    }
    memset(memory, PAINT, PAINTED);
    stack = memory;
    if (pthread_attr_init(&attributes) != 0 ||
        pthread_attr_setstack(&attributes, memory, PAINTED) != 0 ||
        pthread_create(&thread, &attributes, measured, NULL) != 0 ||
        pthread_join(thread, NULL) != 0) {
        return 1;
    }
    printf("%zu\n", taken);
    return 0;
}
