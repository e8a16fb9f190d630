/* Every mixture of what a lot can be refused for, in each function that takes one: which number is given, and first. */
#include "book.h"
#include "cases.h"
#include "curtail.h"
#include "draw.h"
#include "sides.h"

#include <string.h>

enum { NORMAL, TIGHTENED, REDUCED, STOPPED, UNKNOWN, SEVERITIES };

static struct call call;
static struct answer answer;

/* ---- a book with a small plan of each kind for a lot of 501 to 1,200 at level II, AQL 1.0, at each severity */

static void put_numbers(const unsigned *numbers, unsigned n) {
    for (unsigned i = 0; i < n; i++)
        put_book(&call, numbers[i]);
}

static void put_small_book(void) {
    static const unsigned reduced[] = {8, 10, 2, 0}, staged[] = {2, 1, 1, 0, 2, 1, 2}, gauged[] = {2, 1000};
    static const unsigned sequential[] = {500, 500, 50000, 4, 2};
    static const struct {
        const unsigned *numbers;
        unsigned n;
    } bodies[] = {{staged, 7}, {sequential, 5}, {gauged, 2}, {gauged, 2}};
    call.book_len = 0;
    put_book(&call, 1);
    put_numbers(reduced, 4);
    for (unsigned section = 0; section < 4; section++) {
        put_book(&call, 3);
        for (unsigned severity = NORMAL; severity <= REDUCED; severity++) {
            const unsigned key[] = {severity, 8, 10};
            put_numbers(key, 3);
            put_numbers(bodies[section].numbers, bodies[section].n);
        }
    }
}

/* The small book, one with no entries, the small book with a byte left over, and one that is too long. */
enum { SMALL, EMPTY, BROKEN, LONG, BOOKS };

static void put_kind_of_book(unsigned kind) {
    put_small_book();
    if (kind == EMPTY)
        memset(call.book, 0, call.book_len = 8);
    if (kind == BROKEN)
        call.book[call.book_len++] = 0;
    if (kind == LONG)
        memset(call.book, 0, call.book_len = 32769);
}

/* ---- samples: two that decide some plan, and some that decide none */

enum { SAMPLES = 6 };

static void put_kind_of_sample(unsigned kind) {
    static const struct {
        uint8_t bytes[7];
        unsigned len;
    } samples[SAMPLES] = {{{0, 0}, 2},    {{0, 0, 0, 0}, 4}, {{0}, 0},
                          {{1, 0, 1}, 3}, {{1, 0, 2, 0}, 4}, {{0xe9, 3, 1, 0}, 4}};
    memcpy(call.sample, samples[kind].bytes, 7);
    call.sample_len = samples[kind].len;
}

/* ---- records: in range but for the severity, short, kept from before there were fractions, long, a clean run of 3 */

enum { KEPT, SHORT, OLD, LONG_RECORD, NOT_CLEAN, RECORDS };

static void put_kind_of_record(unsigned kind) {
    static const unsigned lengths[RECORDS] = {RECORD, RECORD - 1, TOLD, RECORD + 1, RECORD};
    memset(call.record, 0, sizeof call.record);
    call.record[0] = (uint8_t)call.severity;
    call.record[CLEAN] = kind == NOT_CLEAN ? 3 : 0;
    call.record_len = lengths[kind];
}

/* ---- the mixtures */

/* What is refused before a sample is looked at, but for a plan that the book lacks; 0 where nothing is. */
static unsigned early_refusal(unsigned book) {
    bool kept = takes_record(call.function);
    uint32_t severity = kept ? call.record[0] : call.severity;
    if (call.function == LETTER)
        return call.size < 2 ? 2 : call.level > 6 ? 3 : 0;
    if (book == BROKEN || book == LONG)
        return 12;
    if (severity > STOPPED || (kept && (call.record_len != RECORD || call.record[CLEAN] > 2)))
        return 1;
    if (call.size < 2)
        return 2;
    if (call.level > 6)
        return 3;
    if (call.column > 25 || (has_two_limits(call.function) && call.lower_column > 25))
        return 4;
    return severity == STOPPED ? 5 : severity == REDUCED && is_curtailed(call.function) ? 6 : 0;
}

static void run_mixture(unsigned book) {
    unsigned number = early_refusal(book);
    uint64_t status = run_both(&call, &answer);
    if (number != 0 && (status & 255) != number)
        report("12 is given first, then the lowest number", &call);
    if (number == 0 && status != 0 && (status & 255) < 6)
        report("a number that does not apply is given", &call);
}

/* Few with a book that is too long: it is copied at every call. */
static bool in_brief(unsigned book) {
    return book == LONG && is_of_t07(call.function);
}

static void every_sample(unsigned book) {
    for (unsigned sample = 0; sample < (in_brief(book) ? 1 : SAMPLES); sample++) {
        put_kind_of_sample(sample);
        call.out_len = sample % 2 == 0 ? ROW : ROW - 1;
        run_mixture(book);
    }
}

/* A lower column that has a plan, and one that is none. */
static void every_lower_column(unsigned book) {
    static const uint32_t columns[] = {10, 26};
    unsigned count = has_two_limits(call.function) && !in_brief(book) ? 2 : 1;
    for (unsigned column = 0; column < count; column++) {
        call.lower_column = columns[column];
        every_sample(book);
    }
}

static void every_lot(unsigned book) {
    static const uint32_t sizes[] = {0, 1, 2, 1000}, levels[] = {5, 7, 256 + 5}, columns[] = {10, 15, 16, 26, 256 + 10};
    for (unsigned size = 0; size < 4; size++)
        for (unsigned level = 0; level < 3; level++)
            for (unsigned column = 0; column < 5; column++) {
                call.size = sizes[size];
                call.level = levels[level];
                call.column = columns[column];
                every_lower_column(book);
            }
}

/* The functions before NEXT do, and no others. */
static bool takes_lot(enum function f) {
    return f < NEXT;
}

static void every_function(unsigned book, unsigned record) {
    for (int f = 0; f < FUNCTIONS; f++) {
        call.function = (enum function)f;
        if (takes_lot(call.function) && (record == KEPT || takes_record(call.function)))
            every_lot(book);
    }
}

void refusal_cases(void) {
    draw_fixed();
    memset(&call, 0, sizeof call);
    call.lower_limit = -1;
    call.sigma = 1;
    for (unsigned book = 0; book < BOOKS; book++) {
        put_kind_of_book(book);
        for (unsigned record = 0; record < (book == LONG ? 1u : RECORDS); record++)
            for (call.severity = 0; call.severity < SEVERITIES; call.severity++) {
                put_kind_of_record(record);
                every_function(book, record);
            }
    }
}
