/* One call of a function of the terminal: what it is passed, what it answers, and both libraries run on it. */
#ifndef CALL_H
#define CALL_H

#include <stdbool.h>
#include <stddef.h>
#include <stdint.h>

enum function {
    LETTER,
    PLAN,
    FRACTIONAL_PLAN,
    STAGED_PLAN,
    SEQUENTIAL_PLAN,
    VARIABLES_PLAN,
    SINGLE,
    STAGED,
    SEQUENTIAL,
    CURTAILED,
    UPPER,
    LOWER,
    BOTH,
    SIGMA_UPPER,
    SIGMA_LOWER,
    SIGMA_BOTH,
    FRACTIONAL,
    CLOSE_SINGLE,
    CLOSE_STAGED,
    CLOSE_FRACTIONAL,
    CLOSE_CURTAILED,
    NEXT,
    LIST,
    CHECK_BOOK,
    WRITE_BOOK,
    COUNT_ENTRIES,
    READ_ENTRY,
    SCREEN,
    FUNCTIONS
};

enum { BOOK_ROOM = 40000, SAMPLE_ROOM = 40000, LIST_ROOM = 64000, RECORD_ROOM = 12, RECORD = 10, ROW = 42 };

/* The record's clean run, the letter and the column of its plan; and its bytes before them, that a history tells. */
enum { CLEAN = 7, CLEAN_LETTER, CLEAN_COLUMN, TOLD = 7 };

/*
 * The sections of a book, of which the first four are always there, if only with a count of 0, and the fifth only with
 * entries; and the entries of one as a list of rows.
 */
enum { SECTIONS = 5, COUNTED_SECTIONS = 4, VARIABLES_SECTION = 3, SIGMA_SECTION = 4 };

struct list {
    size_t len;
    uint8_t bytes[LIST_ROOM];
};

/*
 * Everything that a function could be passed; each takes what it has a parameter for. Readings and histories are lent
 * as the sample. Of two limits the column and the limit are those of the upper one. The bytes lent for a row of stages
 * or of an entry, for severities, or for a book, are out_len, at most SAMPLE_ROOM.
 */
struct call {
    enum function function;
    uint32_t size, level, column, lower_column, severity, sigma, resubmitted, event, section, nth;
    int32_t limit, lower_limit;
    unsigned items_with_points; /* after how many the book's staged plan still adds 3, for a supply; passed to none */
    size_t book_len, sample_len, record_len, out_len;
    uint8_t book[BOOK_ROOM], sample[SAMPLE_ROOM], record[RECORD_ROOM];
    struct list lists[SECTIONS];
};

/* Everything that a function could write, with guard bytes around each. There is no padding. */
struct answer {
    uint64_t guard_0;
    double mean;
    uint64_t guard_1;
    double variance;
    uint64_t guard_2;
    uint16_t n, guard_3[3], ac, guard_4[3], used, guard_5[3], ha, guard_6[3], hr, guard_7[3], g, guard_8[3];
    uint16_t nt, guard_9[3], at, guard_10[3], k, guard_11[3], table_n, guard_12[3];
    uint32_t written, guard_13, count, guard_14, numbers, guard_15;
    uint8_t letter, guard_16[7], stages, guard_17[7], accepted, guard_18[7], both, guard_19[7], byte, guard_20[15];
    uint8_t share, guard_21[7], cut, guard_22[7], record[RECORD_ROOM], guard_23[20];
};

/* A lot with an empty book and no sample yet. */
void set_lot(struct call *call, enum function function, uint32_t size, uint32_t level, uint32_t column,
             uint32_t severity);

/*
 * Runs the proved function and the reference on one call, holds one to the other, counts it, and gives the status,
 * that of LIST or any other. The answer is the proved function's, and so are the out_len bytes of last_out.
 */
uint64_t run_both(const struct call *call, struct answer *answer);
const uint8_t *last_out(void);

/* Whether the function takes a record and the lot's severity from it. */
bool takes_record(enum function function);

/* The total of the call's sample. */
unsigned sample_total(const struct call *call);

/* Notes a difference that run_both cannot see, and prints the first ones. */
void report(const char *what, const struct call *call);

/* Prints the counts per function; false where there was a difference or something never occurred. */
bool summary(void);

#endif
