/* The sizes of a plan beside each other. See sizes.h. */
#include "sizes.h"

#include "../../include/hipomoake.h"

#include <stdio.h>

bool tells_size(enum function f) {
    return f == PLAN || f == FRACTIONAL_PLAN;
}

/* ---- where the plan came from, and how its lot stands to the size that it has there */

enum { TABLE, BOOK, FRACTION, KINDS };
enum { FEWER, ONE_FEWER, AS_MANY, ONE_MORE, MORE, LOW_BITS, LOTS };

static const char *const kinds[KINDS] = {"table", "book", "fraction"};
static const char *const lots[LOTS] = {"fewer", "one fewer", "as many", "one more", "more", "not more in 16 bits"};
static unsigned long counted[KINDS][LOTS];

static unsigned kind_of(const struct call *c, const struct answer *a) {
    if (c->severity == HM_REDUCED)
        return BOOK;
    return c->function == FRACTIONAL_PLAN && a->share != 0 ? FRACTION : TABLE;
}

static void count_lot(const struct call *c, const struct answer *a) {
    int64_t over = (int64_t)c->size - a->table_n;
    unsigned lot = over < -1 ? FEWER : over == -1 ? ONE_FEWER : over == 0 ? AS_MANY : over == 1 ? ONE_MORE : MORE;
    counted[kind_of(c, a)][lot]++;
    if (c->size > 65535 && (c->size & 65535) <= a->table_n)
        counted[kind_of(c, a)][LOW_BITS]++;
}

/* ---- the size there */

/* Section 1 begins the book, and its entries have four numbers each: letter, column, n, Ac. */
static unsigned book_size(const struct call *c, unsigned letter) {
    for (unsigned i = 0; i < HM_NUMBER_AT(c->book, 0); i++)
        if (HM_NUMBER_AT(c->book, 1 + 4 * i) == letter && HM_NUMBER_AT(c->book, 2 + 4 * i) == c->column)
            return HM_NUMBER_AT(c->book, 3 + 4 * i);
    return 0;
}

/* The letter that is told gives the size, that of a fraction too; a letter that is none gives 0. */
static unsigned size_of_letter(unsigned letter) {
    static const unsigned sizes[] = {2, 3, 5, 8, 13, 20, 32, 50, 80, 125, 200, 315, 500, 800, 1250, 2000, 3150};
    return letter <= HM_LETTER_S ? sizes[letter] : 0;
}

void hold_to_sizes(const struct call *c, const struct answer *a) {
    unsigned size = c->severity == HM_REDUCED ? book_size(c, a->letter) : size_of_letter(a->letter);
    if (a->table_n != size)
        report("T-05: the table's own size is that of the letter told, under reduced that of the book's entry", c);
    if (a->cut != (c->size <= size))
        report("T-05: cut is 1 exactly where the lot has no more items than the table's own size", c);
    if (a->n != (c->size < size ? c->size : size))
        report("T-05: n is the smaller of the lot and the table's own size", c);
    count_lot(c, a);
}

/* ---- what was counted */

/* A fraction's own size is at most one item above the lot: 3, of letter B, in a lot of 2. */
bool summary_of_sizes(void) {
    bool ok = true;
    printf("lots beside the plan's own size:");
    for (unsigned kind = 0; kind < KINDS; kind++) {
        unsigned first = kind == FRACTION ? ONE_FEWER : FEWER;
        printf("%s %s", kind > 0 ? ";" : "", kinds[kind]);
        for (unsigned lot = first; lot < LOTS; lot++) {
            printf("%s %s %lu", lot > first ? "," : "", lots[lot], counted[kind][lot]);
            ok = ok && counted[kind][lot] != 0;
        }
    }
    printf("%s\n", ok ? "" : "  SOMETHING NEVER OCCURRED");
    return ok;
}
