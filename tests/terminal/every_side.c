/* T-07, what is small enough to try whole: margins, columns, spreads, limits, readings, n, lots and mixtures. */
#include "book.h"
#include "cases.h"
#include "draw.h"
#include "reference.h"
#include "sides.h"

#include <string.h>

enum { NORMAL, STOPPED = 3, LEVEL_II = 5, LEVEL_III = 6, LETTER_J = 8, LOT_OF_J = 1000, MILLION = 1000000 };

static struct call call;
static struct answer answer;

static const enum function four[] = {BOTH, SIGMA_UPPER, SIGMA_LOWER, SIGMA_BOTH};
enum { FOUR = 4 };

static void expect(bool holds, const char *what) {
    if (!holds)
        report(what, &call);
}

static void put_entry(unsigned letter, unsigned column, unsigned n, unsigned k) {
    const unsigned entry[] = {NORMAL, letter, column, n, k};
    for (unsigned i = 0; i < 5; i++)
        put_book(&call, entry[i]);
}

/* The function's section, to which so many entries are to be appended: in each book it is the last that has any. */
static void begin_plans(unsigned count) {
    unsigned section = section_of(call.function);
    call.book_len = 0;
    for (unsigned i = 0; i < section; i++)
        put_book(&call, 0);
    put_book(&call, count);
}

/* A book with a plan at column 5 for both sides, and limits that are out of the way of readings about 0. */
static void begin(enum function function, unsigned n, unsigned k) {
    call.function = function;
    call.size = LOT_OF_J;
    call.level = LEVEL_II;
    call.column = call.lower_column = 5;
    call.severity = NORMAL;
    call.limit = function == SIGMA_LOWER ? -1000 : 1000;
    call.lower_limit = -1000;
    call.sigma = 1;
    begin_plans(1);
    put_entry(LETTER_J, 5, n, k);
}

/* So many readings that come to a sum, each as near to the others as it can be. */
static void set_readings(int n, int sum) {
    call.sample_len = 0;
    for (int left = n; left > 0; left--) {
        int reading = sum / left;
        put_item(&call, (unsigned)reading & 65535);
        sum -= reading;
    }
}

/* ---- margins one unit short of what is needed, exactly that, and one more; the other side is far away */

static void every_step(enum function function, int n, unsigned k, unsigned sigma) {
    int units = (int)((k * sigma * (unsigned)n + MILLION - 1) / MILLION);
    begin(function, (unsigned)n, k);
    call.sigma = sigma;
    for (unsigned side = 0; side < (function == SIGMA_BOTH ? 2 : 1); side++)
        for (int over = -1; over <= 1; over++) {
            bool lower = function == SIGMA_LOWER || (function == SIGMA_BOTH && side == 1);
            call.limit = function == SIGMA_LOWER ? -10 : lower ? 1000 : 10;
            call.lower_limit = lower ? -10 : -1000;
            set_readings(n, lower ? -10 * n + units + over : 10 * n - units - over);
            expect(run_both(&call, &answer) == 0, "T-07: any margin is judged");
            expect(answer.accepted == (over >= 0), "T-07: accepted from the margin on that K and sigma need");
        }
}

static void every_margin(void) {
    static const unsigned ks[] = {1, 250, 1000, 1677, 4000}, sigmas[] = {1, 500, 999, 1000};
    for (int n = 2; n <= 50; n++)
        for (unsigned i = 0; i < 20; i++)
            every_step(four[1 + ((unsigned)n + i) % 3], n, ks[i / 4], sigmas[i % 4]);
    for (int n = 2; n <= 50; n++)
        for (unsigned f = 1; f < FOUR; f++)
            every_step(four[f], n, 1000, 1000);
}

/* ---- every two columns, on plans of 3 readings at the even ones, of 4 at the odd ones, and none at 7 */

static uint64_t status_of_columns(uint32_t upper, uint32_t lower) {
    if (upper > 25 || lower > 25)
        return 4;
    if (call.severity == STOPPED)
        return 5;
    if (upper > 15 || lower > 15 || upper == 7 || lower == 7 || upper % 2 != lower % 2)
        return 6;
    return upper % 2 == 0 ? 0 : 7;
}

/* Three readings of 2 have a margin of 6 to a limit of 4 and to one of 0: enough for K up to 2,000 and sigma 1. */
static unsigned k_of(unsigned column) {
    return 250 * (column + 1);
}

static void every_two_columns(enum function function) {
    begin(function, 3, 1);
    begin_plans(15);
    for (unsigned column = 0; column < 16; column++)
        if (column != 7)
            put_entry(LETTER_J, column, column % 2 == 0 ? 3 : 4, k_of(column));
    call.limit = 4;
    call.lower_limit = 0;
    call.sigma = 1000;
    set_readings(3, function == BOTH ? 3 : 6);
    for (unsigned i = 0; i < 2 * 28 * 28; i++) {
        call.severity = i % 2 == 0 ? NORMAL : STOPPED;
        call.column = i / 2 / 28;
        call.lower_column = i / 2 % 28;
        uint64_t status = status_of_columns(call.column, call.lower_column);
        expect(run_both(&call, &answer) == status, "T-07: 4 and 6 for either column, 5 between them");
        if (status == 0 && function == SIGMA_BOTH)
            expect(answer.accepted == (k_of(call.column) <= 2000 && k_of(call.lower_column) <= 2000),
                   "T-07: each side by the K of its own column");
    }
}

/* ---- every sigma: two units for four readings are enough up to 500 */

static void every_sigma(void) {
    static const uint32_t large[] = {65535, 65536, 65537, 66036, 0x7fffffff, 0x80000000, 0x80000001, 0xffffffff};
    for (unsigned f = 1; f < FOUR; f++) {
        begin(four[f], 4, 1000);
        call.limit = four[f] == SIGMA_LOWER ? -1 : 1;
        set_readings(4, four[f] == SIGMA_LOWER ? -2 : 2);
        for (unsigned i = 0; i <= 1010 + sizeof large / sizeof *large; i++) {
            call.sigma = i <= 1010 ? i : large[i - 1011];
            bool in_range = call.sigma >= 1 && call.sigma <= 1000;
            expect(run_both(&call, &answer) == (in_range ? 0 : 9), "T-07: sigma is 1 to 1,000");
            expect(!in_range || answer.accepted == (call.sigma <= 500), "T-07: a larger sigma needs a larger margin");
        }
    }
}

/* ---- every two limits at the ends and about 0, and readings at each place of a sample */

static const int32_t edges[] = {-65536, -1002, -1001, -1000, -999, -1, 0, 1, 999, 1000, 1001, 1002, 65536};
enum { EDGES = sizeof edges / sizeof *edges };

static bool in_gauge(int32_t number) {
    return number >= -1000 && number <= 1000;
}

static void every_two_limits(enum function function) {
    begin(function, 2, 1);
    set_readings(2, 0);
    for (unsigned i = 0; i < EDGES * EDGES; i++) {
        call.limit = edges[i / EDGES];
        call.lower_limit = edges[i % EDGES];
        bool in_range = in_gauge(call.limit) &&
                        (!has_two_limits(function) || (in_gauge(call.lower_limit) && call.lower_limit < call.limit));
        expect(run_both(&call, &answer) == (in_range ? 0 : 9), "T-07: both limits in range, the lower below the upper");
    }
}

static void every_reading(enum function function) {
    static const int readings[] = {-32768, -1256, -1002, -1001, -1000, -999, 999, 1000, 1001, 1002, 1255, 32767};
    begin(function, 5, 1);
    for (unsigned i = 0; i < sizeof readings / sizeof *readings; i++)
        for (unsigned place = 0; place < 5; place++) {
            set_readings(5, 0);
            call.sample[2 * place] = (uint8_t)readings[i];
            call.sample[2 * place + 1] = (uint8_t)((unsigned)readings[i] >> 8);
            expect(run_both(&call, &answer) == (in_gauge(readings[i]) ? 0 : 9), "T-07: each reading in range");
        }
}

/* ---- every mixture of what is 7 and 9 */

static void every_mixture(enum function function) {
    static const int32_t lower_limits[] = {-1000, -1001, 1000, 1001};
    static const uint32_t sigmas[] = {1, 0, 1001};
    for (unsigned i = 0; i < 2 * 2 * 2 * 4 * 3; i++) {
        bool short_of = i % 2, reading = i / 2 % 2, limit = i / 4 % 2;
        bool lower = has_two_limits(function) && i / 8 % 4 > 0, sigma = is_sigma(function) && i / 32 > 0;
        begin(function, 3, 1);
        set_readings(3, reading ? 3003 : 0);
        call.sample_len -= short_of ? 1 : 0;
        call.limit = limit ? 1001 : call.limit;
        call.lower_limit = lower_limits[i / 8 % 4];
        call.sigma = sigmas[i / 32];
        expect(run_both(&call, &answer) == (short_of                             ? 7
                                            : reading || limit || lower || sigma ? 9
                                                                                 : 0),
               "T-07: 7, then 9 for any of its reasons");
    }
}

/* ---- every n of one side beside others of the other, and beside its lot */

static void every_two_ns(enum function function) {
    for (unsigned n = 2; n <= 50; n++) {
        const unsigned others[] = {n - 1, n, n + 1, 2, 50};
        for (unsigned i = 0; i < 5; i++) {
            if (others[i] < 2 || others[i] > 50)
                continue;
            begin(function, n, 1);
            begin_plans(2);
            put_entry(LETTER_J, 5, n, 1);
            put_entry(LETTER_J, 6, others[i], 1);
            call.lower_column = 6;
            uint64_t status = n == others[i] ? 0 : 6;
            set_readings((int)n, 0);
            expect(run_both(&call, &answer) == status && (status != 0 || answer.used == n),
                   "T-07: one n for both sides");
            set_readings((int)others[i], 0);
            expect(run_both(&call, &answer) == status, "T-07: n that differs, with the readings of the other side");
        }
    }
}

static void every_lot(enum function function) {
    for (uint32_t n = 2; n <= 50; n++)
        for (uint32_t size = n - 1; size <= n + 1; size++) {
            uint8_t letter = 0;
            begin(function, n, 1);
            ref_letter(size, LEVEL_II, &letter);
            call.size = size;
            begin_plans(1);
            put_entry(letter, 5, n, 1);
            set_readings((int)n, 0);
            expect(run_both(&call, &answer) == (size < 2 ? 2 : size < n ? 6 : 0), "T-07: n is at most the lot");
        }
}

/* Each letter's own plan: 2 readings for A, 17 for R. */
static void every_letter(enum function function) {
    static const uint32_t sizes[] = {8,    15,   25,    50,    90,     150,    280,        500,
                                     1200, 3200, 10000, 35000, 150000, 500000, 4294967295, 4294967295};
    begin(function, 2, 1);
    begin_plans(16);
    for (unsigned letter = 0; letter < 16; letter++)
        put_entry(letter, 5, 2 + letter, 1);
    for (unsigned letter = 0; letter < 16; letter++) {
        call.size = sizes[letter];
        call.level = letter < 15 ? LEVEL_II : LEVEL_III;
        set_readings((int)letter + 2, 0);
        expect(run_both(&call, &answer) == (letter + 2 > call.size ? 6 : 0), "T-07: a plan by the letter of Table 1");
        expect(letter + 2 > call.size || answer.used == letter + 2, "T-07: the plan of that letter");
    }
}

void every_side(void) {
    draw_fixed();
    memset(&call, 0, sizeof call);
    every_margin();
    every_sigma();
    for (unsigned f = 0; f < FOUR; f++) {
        every_two_limits(four[f]);
        every_reading(four[f]);
        every_mixture(four[f]);
        every_lot(four[f]);
        every_letter(four[f]);
        if (has_two_limits(four[f])) {
            every_two_columns(four[f]);
            every_two_ns(four[f]);
        }
    }
}
