/*
 * Room scripts: the functions of the proved library. LANGUAGE 6.2 cites a
 * paragraph of docs/LANGUAGE.md, which defines the language.
 *
 * A script is a run of bytes; term rows are the same script as numbers, five
 * uint32_t per term: kind, then operands in byte order (a number as its 32
 * bits), unused fields 0, unused rows 0. Terms are numbered from 0 in byte
 * order.
 *
 * Scripts have a version. Version 1 has the kinds 1 to 11, and version 2 adds
 * two. Kind 12 is the choice on the number at a place: of the two blocks in it,
 * its branches, the first runs if the number is not 0, and otherwise the
 * second. Kind 13 is the sum of the numbers at two places, held to the ends of
 * the range of an int32_t. The bytes of a script tell its version, and its rows
 * do not: roomscript_read answers it, and roomscript_length and
 * roomscript_write are told it. All others that take rows take those of every
 * version.
 *
 * Every function takes a set of limits first, and the lengths of rows and store
 * follow from it. It answers on every input, without allocation, and changes no
 * memory but the buffers that it takes without const. It keeps no pointer. It
 * takes less than 72,000 bytes of stack with roomscript_base, and less than
 * 131,000 with the largest set, most of it for choices and blocks in each
 * other.
 *
 * A buffer is a pointer and then a length in elements. The pointer is never
 * NULL and is aligned for its elements, for length 0 too; all of the length
 * can be read and, without const, written. A buffer taken without const
 * overlaps no other.
 *
 * For an empty buffer pass length 0 and the address of any object of the
 * element's type, as an array of one element; nothing is read or written
 * there. NULL will not do, nor malloc(0), which may be NULL. A script without
 * bytes:
 *
 *     uint8_t none[1] = {0};
 *     uint32_t rows[ROOMSCRIPT_ROW_NUMBERS(ROOMSCRIPT_BASE_TERMS)];
 *     roomscript_read(roomscript_base, ROOMSCRIPT_NEWEST_VERSION, none, 0,
 *                     rows, ROOMSCRIPT_ROW_NUMBERS(ROOMSCRIPT_BASE_TERMS));
 *
 * answers number 12 and place 0.
 */
#ifndef ROOMSCRIPT_H
#define ROOMSCRIPT_H

#include <stddef.h>
#include <stdint.h>

#ifdef __cplusplus
extern "C" {
#endif

/* The most bytes of a script, under every set of limits. */
#define ROOMSCRIPT_MAX_BYTES 32768
/* The newest version that there is; the oldest is 1. */
#define ROOMSCRIPT_NEWEST_VERSION 2
/* The fields of one term row and of one store row. */
#define ROOMSCRIPT_FIELDS 5
#define ROOMSCRIPT_STORE_FIELDS 3
/* The number of readings. */
#define ROOMSCRIPT_READINGS_LEN 8

/*
 * A set of limits, passed by value (LANGUAGE 2.8): the most terms, 1 to 4,096;
 * the variables, 1 to 128, numbered from 0; the most box terms, 0 to 128, each
 * of which takes a cell; the deepest level of a term, 1 to 32, the outermost
 * block being on level 1.
 *
 * A set with one of the four outside its range is refused with 74 at place 0,
 * before every other number, and nothing lent is changed. A script accepted
 * under a set is accepted under each in the ranges that is nowhere smaller,
 * with the same terms, answer and cells (LANGUAGE 7.7).
 */
typedef struct roomscript_limits {
    uint32_t terms;
    uint32_t variables;
    uint32_t boxes;
    uint32_t levels;
} roomscript_limits;

/* The language's own set, which the program roomcheck hands in. */
#define ROOMSCRIPT_BASE_TERMS 512
#define ROOMSCRIPT_BASE_VARIABLES 64
#define ROOMSCRIPT_BASE_BOXES 64
#define ROOMSCRIPT_BASE_LEVELS 16
static const roomscript_limits roomscript_base = {
    ROOMSCRIPT_BASE_TERMS, ROOMSCRIPT_BASE_VARIABLES, ROOMSCRIPT_BASE_BOXES,
    ROOMSCRIPT_BASE_LEVELS};

/*
 * The lengths of rows and store, from the numbers of a set: constant where
 * these are. They are computed in a size_t, so that those of a set outside the
 * ranges do not wrap.
 */
#define ROOMSCRIPT_ROW_NUMBERS(terms) ((size_t)(terms) * ROOMSCRIPT_FIELDS)
#define ROOMSCRIPT_STORE_NUMBERS(variables, boxes) \
    (((size_t)(variables) + (boxes)) * ROOMSCRIPT_STORE_FIELDS)

/*
 * Every answer is a struct that begins with number and place. Where number is 0
 * there is neither a refusal nor a fault: place is 0, and the fields after it
 * tell what came of the call, by the same names everywhere. Where number is not
 * 0, nothing is answered: number and place are those of the refusal, or of the
 * fault, which only roomscript_run_unchecked can meet, and the fields after
 * them are 0, but for fault, which is 1 where it is a fault. Compare answers
 * field by field: some structs have unused bytes between fields.
 *
 * Refusals 1 to 5 and 74 are the caller's, with place 0 and no lent memory
 * changed: 74 is given before every other number, of 1 to 4 the lowest, and 5,
 * which roomscript_write alone gives, after the rows. Refusals 10 to 19 are
 * about the form of the script; their place is a byte offset from reading and a
 * row from rows; but 11 from roomscript_length and roomscript_write is the
 * caller's, with place 0, after 74 and 2 and before the rows. Refusals 30 to 43
 * are the author's; their place is the term (LANGUAGE 5.2 to 5.5).
 */

/* What came of reading: the version of the script, and its number of terms. */
typedef struct roomscript_script {
    uint32_t number;
    uint64_t place;
    uint32_t version;
    uint64_t terms;
} roomscript_script;

/* What came of judging rows, or of the check: the number of terms. */
typedef struct roomscript_terms {
    uint32_t number;
    uint64_t place;
    uint64_t terms;
} roomscript_terms;

/*
 * What came of asking for the length, or of writing: the length of the script
 * in bytes.
 */
typedef struct roomscript_bytes {
    uint32_t number;
    uint64_t place;
    uint64_t bytes;
} roomscript_bytes;

/*
 * Reads a script into term rows and answers its version and the number of
 * terms (LANGUAGE 6.2).
 *
 * A script is the mark RCS, a 16-bit version, high byte first, and one term, a
 * block: at most 32,768 bytes, and within the limits of the set. After success
 * all of rows is written: the rows of the terms in byte order, then rows of 0.
 *
 * newest is the newest version that the caller knows: scripts of the versions 1
 * to newest are read, as far as there are any. More than
 * ROOMSCRIPT_NEWEST_VERSION counts as that, and with 0 no script is read.
 *
 * Refusals by the caller, at place 0, with rows unchanged, in this order:
 *   74: the set is outside the ranges; 1: the script is over 32,768 bytes; 2:
 *   rows is not 5 times the set's terms long.
 * Refusals by the bytes, with a byte offset, leaving all of rows 0:
 *   10: the mark differs, at the first such byte; 11: a version that is not
 *   known, at 3;
 *   12: the script ended, at its length;
 *   13: an unknown kind, one of a later version than the script's among them;
 *   14: an operand out of range, a variable from the set's number on; 15: too
 *   deep; 16: too many terms; 17: too many boxes; 18: the outermost term or a
 *   branch of a choice is no block; all at the byte judged;
 *   19: bytes are left, at the first of them.
 * They are met as the bytes come, the version once both its bytes are there;
 * at a kind byte the order is 12, 13, 18, 16, 15, 17.
 */
roomscript_script roomscript_read(roomscript_limits limits, uint32_t newest,
                                  const uint8_t *script, size_t script_len,
                                  uint32_t *rows, size_t rows_len);

/*
 * Judges term rows and answers the number of terms (LANGUAGE 6.3).
 *
 * Rows are accepted exactly where roomscript_read could have made them, of a
 * script of whatever version. Nothing lent is changed.
 *
 * Refusals by the caller, at place 0, in this order:
 *   74: the set is outside the ranges; 2: rows is not 5 times the set's terms
 *   long.
 * Refusals by the rows, with the row as the place:
 *   12: kind 0 where a term is due, or the rows are used up (the place is then
 *   the set's number of terms);
 *   13: an unknown kind; 14: an operand out of range, a variable from the set's
 *   number on, or an unused field that is not 0; 15: too deep; 17: too many
 *   boxes; 18: the outermost term or a branch of a choice is no block;
 *   19: a row after the end is not all 0, at the first such row.
 * The order is that of reading. 16 is never met: the rows are used up first.
 */
roomscript_terms roomscript_judge_rows(roomscript_limits limits,
                                       const uint32_t *rows, size_t rows_len);

/*
 * Answers the length in bytes of the script of a version that term rows
 * describe (LANGUAGE 6.4).
 *
 * roomscript_write fills so many bytes: it takes an output of this length or a
 * greater one, and refuses a shorter one with 5. There are at most 32,768 of
 * them, and as many in each version that has the kinds of the rows. Nothing
 * lent is changed.
 *
 * Refusals, those of roomscript_write without 5, in this order:
 *   74: the set is outside the ranges, at place 0;
 *   2: rows is not 5 times the set's terms long, at place 0;
 *   11: there is no such version, at place 0;
 *   12 to 15 and 17 to 19, with the row, as from roomscript_judge_rows, but
 *   that a kind of a later version is 13.
 */
roomscript_bytes roomscript_length(roomscript_limits limits, uint32_t version,
                                   const uint32_t *rows, size_t rows_len);

/*
 * Writes the script of a version that term rows describe and answers its length
 * in bytes (LANGUAGE 6.4).
 *
 * After success the first bytes of output are the script, and reading them
 * gives version and rows back; bytes past the script stay unchanged. The same
 * rows in two versions differ in the bytes of the version alone. The length can
 * be asked for first, with roomscript_length.
 *
 * Every refusal leaves output unchanged. In this order:
 *   74: the set is outside the ranges, at place 0;
 *   2: rows is not 5 times the set's terms long, at place 0;
 *   11: there is no such version, at place 0;
 *   12 to 15 and 17 to 19, with the row, as from roomscript_judge_rows, but
 *   that a kind of a later version is 13;
 *   5: output is shorter than the script, at place 0.
 */
roomscript_bytes roomscript_write(roomscript_limits limits, uint32_t version,
                                  const uint32_t *rows, size_t rows_len,
                                  uint8_t *output, size_t output_len);

/*
 * Judges term rows by the ownership rules and answers the number of terms
 * (LANGUAGE 6.5).
 *
 * A script is accepted where its rows are of the right form and the rules
 * refuse no term of it. It then runs without a fault, whatever the readings.
 * Nothing lent is changed. roomscript_run checks by itself.
 *
 * Refusals, in this order:
 *   74: the set is outside the ranges, at place 0;
 *   2: rows is not 5 times the set's terms long, at place 0;
 *   12 to 15 and 17 to 19, with the row, as from roomscript_judge_rows.
 * Then by the author, with the term:
 *   30: the number of a let is taken;
 *   31: the root of a place is not in scope; 32: its chain is not long enough;
 *   33: something is moved away on the path or of the value;
 *   34: reading the root is barred by an exclusive borrow; 35: writing it is
 *   barred by a borrow; only a borrow that a variable in use holds bars (3.34);
 *   36: a shared link is passed where only box and exclusive links may be;
 *   37: a copy of neither a number nor a shared borrow; 38: a move passes a
 *   borrow link;
 *   39: other link kinds than the assigned place has, no number in a below, a
 *   sum or a choice, or other link kinds in one branch of a choice than in the
 *   other;
 *   40: a borrowed root does not live in the block of a variable that may be
 *   finally written or in one around it, or lives in the block that ends;
 *   41: no value where one is needed; 42: more than 8 links;
 *   43: the answer is no number, at term 0.
 * Terms are judged in the order of a run, and of a choice both branches
 * (LANGUAGE 3.1). A term whose inner term is refused is refused with the inner
 * number and term.
 */
roomscript_terms roomscript_check(roomscript_limits limits,
                                  const uint32_t *rows, size_t rows_len);

/* What came of a run: the number that the script gives, and the cells taken. */
typedef struct roomscript_ran {
    uint32_t number;
    uint64_t place;
    int32_t answer;
    uint64_t cells;
} roomscript_ran;

/*
 * Checks term rows and runs them on store (LANGUAGE 6.6).
 *
 * The store is rows of state, value kind and payload, first those of the set's
 * variables and then those of its cells, as many as boxes: the row of cell c is
 * the number of variables plus c (LANGUAGE 4.1). States: 0 closed, 1 open, 2
 * given back (4.2). Value kinds: 0 empty, 1 a number, 2 the owner of a cell, 3
 * a reference to a row (4.3). A run first sets all of it to 0, whatever it
 * held.
 *
 * Only rows that roomscript_check accepts run. They meet no fault, whichever
 * branches they take, take a cell for every box term that runs and give each
 * back: afterwards store is all 0 but the cells taken, which are 2, 0, 0
 * (LANGUAGE 7.4).
 *
 * Every refusal leaves store unchanged. By the caller, at place 0, in this
 * order:
 *   74: the set is outside the ranges; 2: rows is not 5 times the set's terms
 *   long; 3: store is not 3 times its variables and boxes together; 4: readings
 *   is not 8 long.
 * Then by the rows, with the row:
 *   12 to 15 and 17 to 19, as from roomscript_judge_rows.
 * Then by the author, with the term:
 *   30 to 43, as from roomscript_check.
 */
roomscript_ran roomscript_run(roomscript_limits limits,
                              const uint32_t *rows, size_t rows_len,
                              const int32_t *readings, size_t readings_len,
                              uint32_t *store, size_t store_len);

/*
 * What came of an unchecked run: as of a run, and whether it met a fault. Where
 * fault is 1, number is the fault's number, 60 to 63, and place the term that
 * was acting; the run began, and store is as the run left it. Where fault is 0,
 * a number that is not 0 is a refusal's.
 */
typedef struct roomscript_ran_unchecked {
    uint32_t number;
    uint64_t place;
    uint32_t fault;
    int32_t answer;
    uint64_t cells;
} roomscript_ran_unchecked;

/*
 * Runs term rows on store without a check (LANGUAGE 6.7).
 *
 * It is for lessons and tests that show what goes wrong where a script runs
 * that roomscript_check refuses: the fault that it meets, and the store that
 * the fault leaves. It takes less time, since it checks nothing, and it may
 * meet a fault, so it is not for scripts that come from elsewhere. For every
 * other use there is roomscript_run.
 *
 * The store is that of roomscript_run, and is first set to 0 here too. Where
 * roomscript_check accepts the rows, answer, cells and store are those of
 * roomscript_run.
 *
 * Refusals, with store unchanged, in this order:
 *   74, 2, 3 and 4, at place 0, and 12 to 15 and 17 to 19, with the row, as
 *   from roomscript_run.
 * Faults, met only by rows that roomscript_check does not accept, with the
 * term (for a block's drops and closings the block), leaving store as the run
 * rules had it:
 *   60: a location that is closed, given back or empty;
 *   61: a value of the wrong kind, or an answer that is no number (term 0,
 *   after closing);
 *   62: a let on a row already open; 63: a cell given back twice.
 */
roomscript_ran_unchecked roomscript_run_unchecked(
    roomscript_limits limits,
    const uint32_t *rows, size_t rows_len,
    const int32_t *readings, size_t readings_len,
    uint32_t *store, size_t store_len);

/*
 * What came of a whole call: the number of terms, the number that the script
 * gives, and the cells taken.
 */
typedef struct roomscript_called {
    uint32_t number;
    uint64_t place;
    uint64_t terms;
    int32_t answer;
    uint64_t cells;
} roomscript_called;

/*
 * Reads a script into rows and then runs it on store (LANGUAGE 6.8).
 *
 * It reads every version that there is. Where all lengths are right it answers
 * as roomscript_read and then roomscript_run do, and leaves rows and store as
 * they do; the lengths of store and readings are judged before the bytes. So it
 * checks before it runs, and meets no fault. After success rows holds the
 * script, and store is all 0 but the cells taken, which are 2, 0, 0.
 *
 * Refusals by the caller, at place 0, with nothing lent changed, in this order:
 *   74: the set is outside the ranges; 1: the script is over 32,768 bytes; 2:
 *   rows is not 5 times the set's terms long; 3: store is not 3 times its
 *   variables and boxes together; 4: readings is not 8 long.
 * Refusals by the bytes, with a byte offset, leaving all of rows 0 and store
 * unchanged:
 *   10 to 19, as from roomscript_read with ROOMSCRIPT_NEWEST_VERSION.
 * Refusals by the author, with the term, where rows holds the script and store
 * is unchanged:
 *   30 to 43, as from roomscript_check.
 */
roomscript_called roomscript_call(roomscript_limits limits,
                                  const uint8_t *script, size_t script_len,
                                  const int32_t *readings, size_t readings_len,
                                  uint32_t *rows, size_t rows_len,
                                  uint32_t *store, size_t store_len);

#ifdef __cplusplus
}
#endif

#endif
