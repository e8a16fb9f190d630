/* T-05 whole: every size of the tables and of a book, each beside lots about that large. */
#include "book.h"
#include "cases.h"
#include "draw.h"
#include "reference.h"

#include <string.h>

enum { REDUCED = 2, LEVELS = 7, COLUMNS = 26, LEVEL_II = 5, AQL_1_0 = 10, MOST_BOOK_N = 3150 };

static struct call call;
static struct answer answer;

static void expect(bool holds, const char *what) {
    if (!holds)
        report(what, &call);
}

/* What a lot has beyond the items that its low bits tell: nothing, 2^16, 2^31 and 2^32 - 2^16. */
static const uint32_t beyond[] = {0, 0x10000, 0x80000000, 0xffff0000};
enum { BEYOND = sizeof beyond / sizeof *beyond };

/* Both modes; n, the table's own size and the cut are held to each other by run_both. */
static void both_modes(void) {
    struct answer old;
    call.function = PLAN;
    expect(run_both(&call, &old) == 0, "T-05: every lot has a plan by the tables");
    call.function = FRACTIONAL_PLAN;
    if (run_both(&call, &answer) == 0 && answer.share == 0)
        expect(answer.table_n == old.table_n && answer.cut == old.cut, "T-05: a whole Ac has one plan in both modes");
}

/* Every level, column and severity of the tables for a lot. */
static void every_plan(uint32_t size) {
    call.size = size;
    for (call.level = 0; call.level < LEVELS; call.level++)
        for (call.column = 0; call.column < COLUMNS; call.column++)
            for (call.severity = 0; call.severity < REDUCED; call.severity++)
                both_modes();
}

static void every_table_size(void) {
    static const uint32_t sizes[] = {2, 3, 5, 8, 13, 20, 32, 50, 80, 125, 200, 315, 500, 800, 1250, 2000, 3150};
    memset(&call, 0, sizeof call);
    call.book_len = 8;
    for (unsigned i = 0; i < sizeof sizes / sizeof *sizes; i++)
        for (unsigned j = 0; j < BEYOND; j++)
            for (unsigned beside = 0; beside < 3; beside++)
                if (beyond[j] + sizes[i] + beside - 1 >= 2)
                    every_plan(beyond[j] + sizes[i] + beside - 1);
}

/* A lot under reduced, and a book with one entry for it. */
static void put_lot(uint32_t size, unsigned n) {
    uint8_t letter = 0;
    ref_letter(size, LEVEL_II, &letter);
    const unsigned book[] = {1, letter, AQL_1_0, n, 1, 0, 0, 0};
    call.size = size;
    call.book_len = 0;
    for (unsigned i = 0; i < 8; i++)
        put_book(&call, book[i]);
}

/* A lot of one item fewer than n, as many or one more; past 16 bits as many alone. */
static void every_book_size(void) {
    set_lot(&call, PLAN, 2, LEVEL_II, AQL_1_0, REDUCED);
    for (unsigned n = 1; n <= MOST_BOOK_N; n++)
        for (unsigned lot = 0; lot < BEYOND + 2; lot++) {
            uint32_t size = lot < BEYOND ? beyond[lot] + n : lot == BEYOND ? n - 1 : n + 1;
            if (size < 2)
                continue;
            put_lot(size, n);
            call.function = (n + lot) % 2 == 0 ? PLAN : FRACTIONAL_PLAN;
            expect(run_both(&call, &answer) == 0 && answer.table_n == n, "T-05: the book's own n");
            expect(answer.cut == (size <= n), "T-05: cut by the book's own n");
        }
}

void every_size(void) {
    draw_fixed();
    every_table_size();
    every_book_size();
}
