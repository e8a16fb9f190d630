/* The worked cases of T-05: plans that are the whole lot, and plans that are not, with the size before the cut. */
#include "book.h"
#include "cases.h"
#include "draw.h"

enum { NORMAL, TIGHTENED, REDUCED };
enum { WHOLE_AC = 0, HALF = 2, THIRD = 3 };
enum { S1 = 0, II = 5, III = 6 };
enum { A, B, C, D, E, F, G, H, J, K, L, M, N, P, Q, R, S };

static struct call call;
static struct answer answer;

static void expect(bool holds, const char *what) {
    if (!holds)
        report(what, &call);
}

/* Runs the call; the share is told in the mode of fractions alone. */
static void expect_plan(unsigned letter, unsigned n, unsigned ac, unsigned table_n, unsigned cut) {
    expect(run_both(&call, &answer) == 0, "T-05: a plan");
    expect(answer.letter == letter && answer.n == n && answer.ac == ac, "T-05: letter, n and Ac as before");
    expect(answer.table_n == table_n, "T-05: the table's own size");
    expect(answer.cut == cut, "T-05: whether the size was cut to the lot");
}

/* ---- the tables */

struct table_case {
    uint32_t size, level, column, severity;
    unsigned letter, n, ac, table_n, cut;
};

static const struct table_case tables[] = {
    /* document 01's own: n 10 is the whole lot, and the table's size at letter K is 125 */
    {10, II, 5, NORMAL, K, 10, 0, 125, 1},
    /* the same table size for one item fewer, as many and one more; the smallest lot, and the last under letter F */
    {124, II, 5, NORMAL, K, 124, 0, 125, 1},
    {125, II, 5, NORMAL, K, 125, 0, 125, 1},
    {126, II, 5, NORMAL, K, 125, 0, 125, 0},
    {2, II, 5, NORMAL, K, 2, 0, 125, 1},
    {150, II, 5, NORMAL, K, 125, 0, 125, 0},
    /* tightened has another size for the same lots */
    {10, II, 5, TIGHTENED, L, 10, 0, 200, 1},
    {126, II, 5, TIGHTENED, L, 126, 0, 200, 1},
    {199, II, 5, TIGHTENED, L, 199, 0, 200, 1},
    {200, II, 5, TIGHTENED, L, 200, 0, 200, 1},
    {201, II, 5, TIGHTENED, L, 200, 0, 200, 0},
    /* no arrow: the smallest size in the smallest lot */
    {2, II, 14, NORMAL, A, 2, 0, 2, 1},
    {3, II, 14, NORMAL, A, 2, 0, 2, 0},
    /* an arrow up from B to A: the size is A's 2 and not B's 3 */
    {2, III, 14, NORMAL, A, 2, 0, 2, 1},
    {3, III, 14, NORMAL, A, 2, 0, 2, 0},
    {2, III, 15, TIGHTENED, A, 2, 0, 2, 1},
    {3, III, 15, TIGHTENED, A, 2, 0, 2, 0},
    /* arrows down from A to C: the size is C's 5, with its Ac of 1 */
    {2, II, 15, NORMAL, C, 2, 1, 5, 1},
    {4, II, 15, NORMAL, C, 4, 1, 5, 1},
    {5, II, 15, NORMAL, C, 5, 1, 5, 1},
    {6, II, 15, NORMAL, C, 5, 1, 5, 0},
    /* an Ac above n stays */
    {2, II, 25, NORMAL, A, 2, 30, 2, 1},
    {3, II, 25, NORMAL, A, 2, 30, 2, 0},
    {2, III, 25, NORMAL, B, 2, 44, 3, 1},
    {3, III, 25, TIGHTENED, B, 3, 41, 3, 1},
    {4, III, 25, TIGHTENED, B, 3, 41, 3, 0},
    /* the largest sizes that lots are cut from */
    {1249, II, 0, NORMAL, Q, 1249, 0, 1250, 1},
    {1250, II, 0, NORMAL, Q, 1250, 0, 1250, 1},
    {1251, II, 0, NORMAL, Q, 1250, 0, 1250, 0},
    {2, S1, 0, TIGHTENED, R, 2, 0, 2000, 1},
    {1999, II, 0, TIGHTENED, R, 1999, 0, 2000, 1},
    {2000, II, 0, TIGHTENED, R, 2000, 0, 2000, 1},
    {2001, II, 0, TIGHTENED, R, 2000, 0, 2000, 0},
    {500001, III, 2, TIGHTENED, S, 3150, 1, 3150, 0},
    /* lots that are small, or as large as the size, in their low 8, 16 or 31 bits alone, or by a sign */
    {256, II, 5, NORMAL, K, 125, 0, 125, 0},
    {266, II, 5, NORMAL, K, 125, 0, 125, 0},
    {32768, II, 5, NORMAL, N, 500, 1, 500, 0},
    {65536, II, 5, NORMAL, N, 500, 1, 500, 0},
    {65546, II, 5, NORMAL, N, 500, 1, 500, 0},
    {66035, II, 5, NORMAL, N, 500, 1, 500, 0},
    {66036, II, 5, NORMAL, N, 500, 1, 500, 0},
    {131074, S1, 5, NORMAL, K, 125, 0, 125, 0},
    {527438, III, 2, TIGHTENED, S, 3150, 1, 3150, 0},
    {2147483648, II, 0, NORMAL, Q, 1250, 0, 1250, 0},
    {2147483658, II, 0, NORMAL, Q, 1250, 0, 1250, 0},
    {4294901760, II, 0, NORMAL, Q, 1250, 0, 1250, 0},
    {4294967295, II, 0, NORMAL, Q, 1250, 0, 1250, 0},
};

static void whole_by_tables(void) {
    for (unsigned i = 0; i < sizeof tables / sizeof *tables; i++) {
        const struct table_case *p = &tables[i];
        set_lot(&call, PLAN, p->size, p->level, p->column, p->severity);
        expect_plan(p->letter, p->n, p->ac, p->table_n, p->cut);
    }
}

/* ---- a book: its entry's n, whatever size the letter has in the tables */

struct book_case {
    uint32_t size, level, column;
    unsigned letter, book_n, ac, n, cut;
};

static const struct book_case books[] = {
    {1000, II, 10, J, 32, 1, 32, 0},
    {1000, II, 10, J, 80, 2, 80, 0},
    {1000, II, 10, J, 999, 1, 999, 0},
    {1000, II, 10, J, 1000, 1, 1000, 1},
    {1000, II, 10, J, 1001, 1, 1000, 1},
    {1000, II, 10, J, 3150, 65534, 1000, 1},
    /* letter B, whose own size is 3; the table of normal inspection goes on to K's 125 */
    {10, II, 5, B, 50, 0, 10, 1},
    {10, II, 5, B, 9, 0, 9, 0},
    {10, II, 5, B, 3, 0, 3, 0},
    /* an n of 1 is below any lot, also where the letter's own size is not */
    {2, II, 10, A, 1, 0, 1, 0},
    {2, III, 10, B, 1, 0, 1, 0},
    {1000, II, 10, J, 1, 0, 1, 0},
    {4294967295, III, 0, R, 1, 0, 1, 0},
    /* the smallest lot, and the largest n of a book */
    {2, II, 10, A, 2, 0, 2, 1},
    {2, II, 10, A, 3, 0, 2, 1},
    {3, II, 10, A, 2, 0, 2, 0},
    {3149, II, 0, K, 3150, 0, 3149, 1},
    {3150, II, 0, K, 3150, 0, 3150, 1},
    {3151, II, 0, K, 3150, 0, 3150, 0},
    /* lots that are small, or as large as n, in their low 16 bits alone, or by a sign */
    {65537, II, 10, N, 1, 0, 1, 0},
    {65556, II, 10, N, 32, 1, 32, 0},
    {65568, II, 10, N, 32, 1, 32, 0},
    {4294967295, III, 10, R, 3150, 1, 3150, 0},
};

/* Reduced inspection has no fractions: its plan is the same in both modes. */
static void whole_by_book(void) {
    for (unsigned i = 0; i < sizeof books / sizeof *books; i++) {
        const struct book_case *p = &books[i];
        const unsigned book[] = {1, p->letter, p->column, p->book_n, p->ac, 0, 0, 0};
        set_lot(&call, PLAN, p->size, p->level, p->column, REDUCED);
        call.book_len = 0;
        for (unsigned j = 0; j < 8; j++)
            put_book(&call, book[j]);
        expect_plan(p->letter, p->n, p->ac, p->book_n, p->cut);
        call.function = FRACTIONAL_PLAN;
        expect_plan(p->letter, p->n, p->ac, p->book_n, p->cut);
        expect(answer.share == WHOLE_AC, "T-05: no fraction under reduced");
    }
}

/* ---- fractions: the size of the lot's own letter, where the old plan has that of the letter an arrow goes to */

struct fraction_case {
    uint32_t size, level, column, severity;
    unsigned letter, n, share, table_n, cut;
};

static const struct fraction_case fractions[] = {
    /* every fraction that is the whole lot: A in a lot of 2, B in lots of 2 and 3; and those of one item more */
    {2, II, 15, NORMAL, A, 2, THIRD, 2, 1},
    {3, II, 15, NORMAL, A, 2, THIRD, 2, 0},
    {2, III, 14, NORMAL, B, 2, THIRD, 3, 1},
    {3, III, 14, NORMAL, B, 3, THIRD, 3, 1},
    {4, III, 14, NORMAL, B, 3, THIRD, 3, 0},
    {2, III, 15, NORMAL, B, 2, HALF, 3, 1},
    {3, III, 15, NORMAL, B, 3, HALF, 3, 1},
    {4, III, 15, NORMAL, B, 3, HALF, 3, 0},
    {2, III, 15, TIGHTENED, B, 2, THIRD, 3, 1},
    {3, III, 15, TIGHTENED, B, 3, THIRD, 3, 1},
    {4, III, 15, TIGHTENED, B, 3, THIRD, 3, 0},
    /* the arrow down goes to a size that is the whole lot, the fraction does not: C's 5 is not asked */
    {5, II, 15, NORMAL, A, 2, THIRD, 2, 0},
    {5, III, 15, NORMAL, B, 3, HALF, 3, 0},
    {9, III, 13, NORMAL, C, 5, THIRD, 5, 0},
    /* low 16 bits alone */
    {65538, S1, 12, NORMAL, D, 8, THIRD, 8, 0},
    {65544, S1, 12, NORMAL, D, 8, THIRD, 8, 0},
    {526288, III, 0, NORMAL, R, 2000, THIRD, 2000, 0},
    {4294903760, III, 1, TIGHTENED, R, 2000, THIRD, 2000, 0},
    /* a whole Ac in this mode */
    {10, II, 5, NORMAL, K, 10, WHOLE_AC, 125, 1},
    {125, II, 5, NORMAL, K, 125, WHOLE_AC, 125, 1},
    {126, II, 5, NORMAL, K, 125, WHOLE_AC, 125, 0},
    {200, II, 5, TIGHTENED, L, 200, WHOLE_AC, 200, 1},
};

static void whole_by_fractions(void) {
    for (unsigned i = 0; i < sizeof fractions / sizeof *fractions; i++) {
        const struct fraction_case *p = &fractions[i];
        set_lot(&call, FRACTIONAL_PLAN, p->size, p->level, p->column, p->severity);
        expect_plan(p->letter, p->n, 0, p->table_n, p->cut);
        expect(answer.share == p->share, "T-05: the share");
    }
}

/* ---- T-05 changes no verdict: the whole lot is judged, with its Ac, and no sample of the table's size is */

static void whole_lots_judged(void) {
    set_lot(&call, SINGLE, 4, II, 15, NORMAL);
    for (unsigned items = 1; items <= 5; items++) {
        put_item(&call, items == 1);
        uint64_t status = run_both(&call, &answer);
        expect(status == (items == 4 ? 0 : 7), "T-05: all items of a lot of 4 are its sample");
        expect(status != 0 || (answer.accepted == 1 && answer.used == 4), "T-05: one of them passes, by the Ac of C");
    }
}

void whole_lot_cases(void) {
    draw_fixed();
    whole_by_tables();
    whole_by_book();
    whole_by_fractions();
    whole_lots_judged();
}
