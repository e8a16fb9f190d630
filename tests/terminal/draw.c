/* Calls drawn at random. See draw.h. */
#include "draw.h"

#include "book.h"
#include "curtail.h"
#include "packed.h"
#include "reference.h"
#include "rows.h"
#include "sides.h"
#include "sizes.h"

#include <string.h>

enum { MOST_ITEM_COLUMN = 15, MOST_COLUMN = 25, LETTER_R = 15, TIGHTENED = 1, STOPPED = 3 };

/* What a drawn sample is to be. */
enum mood { ANY, GOOD, BAD };

static uint64_t case_seed;

uint64_t draw_case_seed(void) {
    return case_seed;
}

void draw_fixed(void) {
    case_seed = 0;
}

/* ---- the lot */

static uint32_t any_number(void) {
    static const uint32_t odd[] = {0,   1,   2,     3,     4,     7,          26,         255,
                                   256, 257, 65535, 65536, 65541, 0x7fffffff, 0x80000000, 0xffffffff};
    return one_in(2) ? PICK(odd) : draw_number() >> below(32);
}

static uint32_t draw_size(void) {
    static const uint32_t edges[] = {2,    8,     9,     15,    16,    25,     26,     50,     51,     90,
                                     91,   150,   151,   280,   281,   500,    501,    1200,   1201,   3200,
                                     3201, 10000, 10001, 35000, 35001, 150000, 150001, 500000, 500001, 0xffffffff};
    if (one_in(40))
        return any_number();
    if (one_in(30))
        return PICK(edges);
    if (one_in(3))
        return edges[below(16)];
    return one_in(4) ? between(2, 500) : between(2, 60);
}

static bool in_mode(enum function f) {
    return f == FRACTIONAL_PLAN || f == FRACTIONAL || f == CLOSE_FRACTIONAL;
}

/* A column at which the lot's letter has a fraction at some severity, or one beside those. */
static void aim_at_fraction(struct call *c) {
    uint8_t letter;
    unsigned s = between(14, 18);
    if (ref_letter(c->size, c->level, &letter) == 0 && s >= letter && s - letter <= MOST_COLUMN)
        c->column = s - letter;
}

/* As many items as the own size of the plan it had, or one fewer or more; at times only in the low 16 bits. */
static void aim_at_size(struct call *c) {
    static const uint8_t no_book[8] = {0};
    uint8_t letter, cut;
    uint16_t n, ac, table_n;
    uint32_t status =
        ref_plan(c->size, c->level, c->column, c->severity, no_book, sizeof no_book, &letter, &n, &ac, &table_n, &cut);
    if (status == 0)
        c->size = table_n - 1u + below(3) + (one_in(8) ? between(1, 65535) << 16 : 0);
}

static void draw_lot(struct call *c) {
    bool low_columns = c->function == SEQUENTIAL || judges_readings(c->function) || c->function == SEQUENTIAL_PLAN ||
                       c->function == VARIABLES_PLAN;
    c->size = only_told(c) && one_in(2) ? between(2, 20000) : draw_size();
    c->level = one_in(60) ? any_number() : below(7);
    c->column = one_in(60) ? any_number() : low_columns && !one_in(20) ? below(16) : below(26);
    c->lower_column = one_in(3) ? c->column : one_in(40) ? any_number() : one_in(20) ? below(26) : below(16);
    c->severity = one_in(60) ? any_number() : one_in(40) ? STOPPED : below(3);
    if (in_mode(c->function) ? !one_in(6) : takes_record(c->function) && one_in(4))
        aim_at_fraction(c);
    if ((in_mode(c->function) || is_curtailed(c->function)) && one_in(2))
        c->severity = below(2);
    if (tells_size(c->function) && one_in(4))
        aim_at_size(c);
}

/* ---- the record */

/* A record in range of the given severity, often one lot from a change. */
static void draw_sound_record(struct call *c, unsigned severity) {
    memset(c->record, 0, sizeof c->record);
    c->record_len = RECORD;
    c->record[0] = (uint8_t)severity;
    c->record[1] = (uint8_t)(severity != 0 ? 0 : one_in(2) ? between(24, 30) : below(31));
    c->record[2] = (uint8_t)(severity != 1 ? 0 : one_in(2) ? 4 : below(5));
    c->record[3] = (uint8_t)(severity != 1 ? 0 : one_in(2) ? 4 : below(5));
    c->record[4] = (uint8_t)(severity != 0 || one_in(3) ? 0 : 1u << below(5));
    c->record[5] = (uint8_t)!one_in(3);
    c->record[6] = (uint8_t)!one_in(3);
}

static void set_clean(struct call *c, unsigned run, unsigned letter, unsigned column) {
    c->record[CLEAN] = (uint8_t)run;
    c->record[CLEAN_LETTER] = (uint8_t)letter;
    c->record[CLEAN_COLUMN] = (uint8_t)column;
}

/* A clean run on the lot's own fraction, or on any of the severity. Beyond tightened it is out of range. */
static void draw_clean_run(struct call *c) {
    uint8_t letter = 0;
    unsigned third = 15u + c->record[0], s = third + below(2), on = between(s - 15, LETTER_R);
    bool lots = ref_letter(c->size, c->level, &letter) == 0 && c->column <= MOST_ITEM_COLUMN && !one_in(3);
    if (lots && (letter + c->column == third || letter + c->column == third + 1)) {
        on = letter;
        s = letter + c->column;
    }
    set_clean(c, between(1, 2), on, s - on);
}

/* The ways in which a clean run can be out of range; some leave it in range, on another plan. */
static void damage_clean_run(struct call *c) {
    static const uint8_t over[][2] = {{0, 16}, {0, 17}, {1, 16}};
    unsigned tightened = c->record[0] == TIGHTENED, at = below(tightened ? 3 : 1), run = between(1, 2);
    switch (below(7)) {
    case 0:
        c->record[CLEAN] = 3;
        break;
    case 1:
        c->record[CLEAN] = 0;
        break;
    case 2:
        set_clean(c, run, 0, 0);
        break;
    case 3:
        set_clean(c, run, LETTER_R + 1, below(tightened + 1));
        break;
    case 4:
        set_clean(c, run, over[at][0], over[at][1]);
        break;
    case 5:
        c->record[CLEAN_COLUMN] ^= 1;
        break;
    default:
        c->record[0] = (uint8_t)below(4);
        memset(c->record + 1, 0, 4);
    }
}

static void draw_record(struct call *c) {
    static const uint8_t edges[] = {0, 1, 2, 3, 4, 5, 15, 16, 17, 24, 30, 31, 32, 33, 48, 64, 128, 255};
    draw_sound_record(c, c->severity <= STOPPED ? c->severity : below(4));
    if (c->record[0] <= TIGHTENED ? !one_in(3) : one_in(30))
        draw_clean_run(c);
    if (one_in(12))
        damage_clean_run(c);
    if (c->severity > STOPPED || one_in(12))
        c->record[below(RECORD)] = PICK(edges);
    if (one_in(60))
        c->record_len = below(RECORD_ROOM + 1);
}

/* ---- samples of items */

static void set_item(struct call *c, size_t item, unsigned number) {
    c->sample[2 * item] = (uint8_t)number;
    c->sample[2 * item + 1] = (uint8_t)(number >> 8);
}

/* Appends n items that come to the total, as near as items can, and gives what they come to. */
static unsigned put_items(struct call *c, unsigned n, unsigned total) {
    unsigned most = c->column > MOST_ITEM_COLUMN ? 65535 : 1, wanted = total;
    for (unsigned left = n; left > 0; left--) {
        unsigned item = most == 1 ? below(left) < total : below(total / left * 2 + 2);
        if (left == 1 || item > total)
            item = total;
        if (item > most)
            item = most;
        put_item(c, item);
        total -= item;
    }
    return wanted - total;
}

/* A total near the acceptance number, and near that of the column before, which is some two thirds of it. */
static unsigned total_near(unsigned ac, unsigned n, enum mood mood) {
    if (mood == GOOD)
        return one_in(16) ? ac : below(ac / 2 + 1);
    if (mood == BAD)
        return ac + 1 + below(2);
    unsigned low = ac * 2 / 3;
    return one_in(8) ? below(2 * n + 1) : between(low > 0 ? low - 1 : 0, ac + 1);
}

static void draw_single_sample(struct call *c, enum mood mood) {
    uint8_t letter, cut;
    uint16_t n, ac, table_n;
    uint32_t status =
        ref_plan(c->size, c->level, c->column, c->severity, c->book, c->book_len, &letter, &n, &ac, &table_n, &cut);
    if (status == 0)
        put_items(c, n, total_near(ac, n, mood));
    else
        put_items(c, below(20), below(3));
}

/* A full sample whose total passes Ac early, late, at the very last item, or not. */
static void draw_items_to_curtail(struct call *c, unsigned n, unsigned ac) {
    if (one_in(6)) {
        put_items(c, n - 1, ac);
        put_item(c, below(2));
    } else {
        put_items(c, n, one_in(2) ? ac + between(1, 2 * ac + 2) : total_near(ac, n, ANY));
    }
    if (c->column > MOST_ITEM_COLUMN && one_in(6))
        set_item(c, below(n), one_in(2) ? 65535 : ac + 1);
}

/* Ends with the item that decides; at times a sample goes on to n all the same. */
static void draw_curtailed_sample(struct call *c, enum mood mood) {
    uint8_t letter, cut;
    uint16_t n, ac, table_n;
    uint32_t status =
        ref_plan(c->size, c->level, c->column, c->severity, c->book, c->book_len, &letter, &n, &ac, &table_n, &cut);
    if (status != 0) {
        put_items(c, below(20), below(3));
        return;
    }
    if (mood == ANY)
        draw_items_to_curtail(c, n, ac);
    else
        put_items(c, n, total_near(ac, n, mood));
    if (mood != ANY || !one_in(8))
        curtail(c, n, ac);
}

/* On a fraction the total is 0, 1 or 2. */
static void draw_fractional_sample(struct call *c, enum mood mood) {
    uint8_t letter, share, cut;
    uint16_t n, ac, table_n;
    uint32_t status = ref_fractional_plan(c->size, c->level, c->column, c->severity, c->book, c->book_len, &letter, &n,
                                          &ac, &share, &table_n, &cut);
    if (status != 0)
        put_items(c, below(20), below(3));
    else if (share == 0)
        put_items(c, n, total_near(ac, n, mood));
    else
        put_items(c, n, mood == GOOD ? one_in(6) : mood == BAD ? between(1, 2) : below(3));
}

/* A running total at or beside one of the stage's two numbers. */
static unsigned stage_goal(const struct plans *p, unsigned stage, enum mood mood) {
    bool mark = p->ac[stage] == 65535;
    unsigned goals[] = {mark ? 0 : p->ac[stage], mark ? 1 : p->ac[stage] + 1, p->re[stage] > 0 ? p->re[stage] - 1 : 0,
                        p->re[stage]};
    if (mood == GOOD)
        return one_in(8) ? goals[1] : goals[0];
    return mood == BAD ? goals[2 + below(2)] : goals[below(4)];
}

/* Ends with the stage that decides. */
static void draw_staged_sample(struct call *c, const struct plans *p, enum mood mood) {
    unsigned total = 0;
    for (unsigned i = 0; i < p->stages; i++) {
        unsigned goal = stage_goal(p, i, mood);
        total += put_items(c, p->size[i], goal > total ? goal - total : 0);
        if ((p->ac[i] != 65535 && total <= p->ac[i]) || total >= p->re[i])
            return;
    }
}

/* Ends with the item that decides. */
static void draw_sequential_sample(struct call *c, const struct plans *p) {
    static const unsigned rates[] = {0, 5000, 20000, 100000};
    unsigned rate = one_in(2) ? PICK(rates) : p->g, total = 0;
    for (unsigned n = 1; n <= p->nt; n++) {
        unsigned item = below(100000) < rate;
        put_item(c, item);
        total += item;
        unsigned line = p->g * n, count = 100000 * total;
        if (count + 100 * p->ha <= line || count >= line + 100 * p->hr)
            return;
    }
}

/* An item that is not 0 or 1; some have 0 or 1 as their low byte. */
static unsigned illegal_item(void) {
    static const unsigned items[] = {2, 3, 255, 256, 257, 512, 32768, 65535};
    return PICK(items);
}

static void damage_sample(struct call *c) {
    size_t items = c->sample_len / 2;
    switch (below(8)) {
    case 0:
        c->sample_len -= items > 0 ? 2 : 0;
        break;
    case 1:
        c->sample_len = below((uint32_t)c->sample_len + 1);
        break;
    case 2:
        put_item(c, one_in(2) ? illegal_item() : below(2));
        break;
    case 3:
        c->sample_len -= items > 0;
        break;
    case 4:
        c->sample[c->sample_len++] = (uint8_t)below(256);
        break;
    case 5:
        c->sample_len = 0;
        break;
    default:
        if (items > 0)
            set_item(c, below((uint32_t)items), illegal_item());
        if (items > 0 && one_in(3))
            c->sample_len -= between(1, 2);
    }
}

static void draw_items(struct call *c, const struct plans *p, enum mood mood) {
    c->sample_len = 0;
    if (c->function == SINGLE || c->function == CLOSE_SINGLE)
        draw_single_sample(c, mood);
    else if (c->function == FRACTIONAL || c->function == CLOSE_FRACTIONAL)
        draw_fractional_sample(c, mood);
    else if (is_curtailed(c->function))
        draw_curtailed_sample(c, mood);
    else if (c->function != SEQUENTIAL && p->there[1])
        draw_staged_sample(c, p, mood);
    else if (c->function == SEQUENTIAL && p->there[2])
        draw_sequential_sample(c, p);
    else
        put_items(c, below(20), below(3));
}

/* ---- readings and limits */

static void put_reading(struct call *c, int reading) {
    put_item(c, (unsigned)reading & 65535);
}

static int any_reading(int around, unsigned spread) {
    int reading = around + (int)below(2 * spread + 1) - (int)spread;
    return reading < -1000 ? -1000 : reading > 1000 ? 1000 : reading;
}

static int divide_down(int number, int by) {
    return number >= 0 ? number / by : -((by - 1 - number) / by);
}

/* 0, or at times one less or more. */
static int beside(void) {
    return one_in(3) ? (int)below(3) - 1 : 0;
}

/*
 * Readings a - d, a and a + d in such numbers that K is met exactly at the limit; then the limit may move by one. A
 * second K may be met exactly as well.
 */
static bool draw_exact_readings(struct call *c, unsigned n, const struct plans *p) {
    int j = (int)between(1, 20), d = 4 * j, a = (int)below(401) - 200;
    int t = (int)(p->upper.k / 250) * j, lower_t = (int)(p->lower.k / 250) * j;
    if (n % 2 == 0 || p->upper.k % 250 != 0)
        return false;
    for (unsigned i = 0; i < n; i++)
        put_reading(c, i == n / 2 ? a : i < n / 2 ? a - d : a + d);
    c->limit = (c->function == LOWER ? a - t : a + t) + beside();
    c->lower_limit = a - lower_t + beside();
    return true;
}

static void draw_readings(struct call *c, unsigned n) {
    static const unsigned spreads[] = {0, 1, 5, 50, 300, 2000};
    unsigned spread = PICK(spreads);
    int around = any_reading(0, 900), away = any_reading(0, spread * 4 + 2);
    for (unsigned i = 0; i < n; i++)
        put_reading(c, any_reading(around, spread));
    c->limit = any_reading(around, 0) + (one_in(4) ? 0 : c->function == LOWER ? -away : away);
    if (one_in(12))
        c->limit = one_in(2) ? 1000 : -1000;
}

/* The whole units from the mean to the nearest limit whose margin is enough for K; the spread is n W - S S. */
static int units_away(int64_t n, int64_t spread, int64_t k) {
    int64_t low = 0, high = 4000;
    while (low < high) {
        int64_t away = (low + high) / 2;
        if (1000000 * away * away * (n - 1) * n >= k * k * spread)
            high = away;
        else
            low = away + 1;
    }
    return (int)low;
}

/* Both limits within a unit of where they begin to accept; at times one of them is elsewhere. */
static void draw_limits(struct call *c, const struct plans *p, int n) {
    int64_t sum = 0, squares = 0;
    for (int i = 0; i < n; i++) {
        int64_t reading = (int16_t)(c->sample[2 * i] | (unsigned)c->sample[2 * i + 1] << 8);
        sum += reading;
        squares += reading * reading;
    }
    int mean = n > 0 ? divide_down((int)sum, n) : 0;
    c->limit = any_reading(mean + units_away(n, n * squares - sum * sum, p->upper.k), 1);
    c->lower_limit = any_reading(mean - units_away(n, n * squares - sum * sum, p->lower.k), 1);
    if (one_in(8))
        c->limit = one_in(2) ? 1000 : any_reading(mean, 200);
    if (one_in(8))
        c->lower_limit = one_in(2) ? -1000 : any_reading(mean, 200);
    if (c->lower_limit >= c->limit && !one_in(6))
        c->lower_limit = any_reading(c->limit - 300, 299);
}

/* ---- readings beside limits that are a known spread away */

/* How many whole units a margin needs at least. */
static int units_for(const struct call *c, unsigned n, unsigned k) {
    return (int)((k * c->sigma * n + 999999) / 1000000);
}

/* Readings that come to a sum, as near as their range lets them; each two may move apart. */
static void put_readings(struct call *c, unsigned n, int sum) {
    static const unsigned spreads[] = {0, 1, 20, 700};
    unsigned spread = PICK(spreads);
    int low = divide_down(sum, (int)n), over = sum - low * (int)n;
    for (unsigned i = 0; i < n; i += 2) {
        int first = low + ((int)i < over), second = low + ((int)i + 1 < over), apart = (int)below(spread + 1);
        if (i + 1 == n || first + apart > 1000 || second - apart < -1000)
            apart = 0;
        put_reading(c, any_reading(first + apart, 0));
        if (i + 1 < n)
            put_reading(c, any_reading(second - apart, 0));
    }
}

/* The margin is mostly what is needed, or a unit less or more; the lower limit is the nearest that has its own. */
static void draw_known(struct call *c, const struct plans *p, unsigned n) {
    static const uint32_t sigmas[] = {1, 2, 125, 200, 250, 400, 500, 800, 999, 1000, 1000, 1000};
    c->sigma = one_in(3) ? between(1, 1000) : PICK(sigmas);
    c->limit = one_in(20) ? 1000 : one_in(20) ? -1000 : any_reading(0, 990);
    c->lower_limit = c->limit - 1;
    if (n == 0)
        return;
    int whole = (int)n * c->limit, margin = units_for(c, n, p->upper.k) + (one_in(2) ? 0 : (int)below(3) - 1);
    if (one_in(5))
        margin = any_reading(0, one_in(2) ? 4 * n : 1000);
    int sum = c->function == SIGMA_LOWER ? whole + margin : whole - margin;
    put_readings(c, n, sum);
    c->lower_limit = divide_down(sum - units_for(c, n, p->lower.k), (int)n) + beside();
    if (c->lower_limit >= c->limit && !one_in(6))
        c->lower_limit = any_reading(c->limit - 3, 2);
}

static int32_t any_limit(void) {
    static const int32_t limits[] = {1001, -1001, INT32_MAX, INT32_MIN, 65536, -65536, 66036, 1000, -1000};
    return one_in(4) ? (int32_t)draw_number() : PICK(limits);
}

/* A limit that is out of range, or at an end of it; limits that are equal or crossed; a spread that is none. */
static void damage_limits(struct call *c) {
    static const uint32_t sigmas[] = {0, 0, 1, 1000, 1001, 1001, 1255, 65536, 65537, 66036, 0x80000001, 0xffffffff};
    unsigned kind = below(is_sigma(c->function) ? 5 : has_two_limits(c->function) ? 3 : 1);
    int32_t limit = c->limit;
    if (kind > 2)
        c->sigma = one_in(8) ? draw_number() : PICK(sigmas);
    else if (kind == 0 || !has_two_limits(c->function))
        c->limit = any_limit();
    else if (kind == 1)
        c->lower_limit = any_limit();
    else {
        c->limit = one_in(2) ? limit : c->lower_limit;
        c->lower_limit = limit;
    }
}

static void damage_readings(struct call *c) {
    static const int readings[] = {1001, -1001, 32767, -32768, 1000, -1000, 1255, -1256};
    if (one_in(3) || (is_of_t07(c->function) && one_in(4)))
        damage_limits(c);
    else if (one_in(2) && c->sample_len >= 2)
        set_item(c, below((uint32_t)c->sample_len / 2), (unsigned)PICK(readings) & 65535);
    else
        damage_sample(c);
}

/* How many readings: the plan's, or what the screen takes and a little more. */
static unsigned readings_for(const struct call *c, const struct plans *p) {
    static const unsigned edges[] = {0, 1, 2, 49, 50, 51, 52, 100};
    if (c->function == SCREEN)
        return one_in(6) ? PICK(edges) : between(1, 50);
    if (p->upper.n > 0 && p->lower.n > 0)
        return one_in(2) ? p->upper.n : p->lower.n;
    return p->upper.n + p->lower.n > 0 ? p->upper.n + p->lower.n : below(20);
}

static void draw_gauged(struct call *c, const struct plans *p) {
    unsigned n = readings_for(c, p);
    c->sample_len = 0;
    if (is_sigma(c->function))
        draw_known(c, p, n);
    else if (c->function == SCREEN || !one_in(2) || !draw_exact_readings(c, n, p)) {
        draw_readings(c, n);
        if (c->function == BOTH)
            draw_limits(c, p, (int)n);
    }
    if (one_in(5))
        damage_readings(c);
}

/* ---- histories */

/* Moves the record of a drawn history by a byte; false where that is refused. */
static bool goes_on(uint8_t *record, uint8_t byte) {
    return ref_next(record, RECORD, byte) == 0;
}

/*
 * Mostly a history that goes on, since bytes that would be refused are drawn again; at times one is kept, or any byte.
 * Some have few orders and few lots not accepted, so that they go deep into a stay.
 */
static void draw_history(struct call *c) {
    static const uint8_t steady[] = {0, 0, 0, 0, 0, 0, 0, 1, 1, 2, 3, 4, 5, 7, 9}, poor[] = {0, 2, 3, 3, 4, 9};
    uint8_t record[RECORD] = {0}, byte;
    size_t wanted = one_in(20) ? below(1500) : below(48);
    unsigned kind = below(3), bad_in = one_in(3) ? 20 : 100000;
    for (c->sample_len = 0; c->sample_len < wanted;) {
        byte = kind == 0 ? PICK(steady) : kind == 1 ? PICK(poor) : (uint8_t)below(10);
        if (one_in(bad_in))
            byte = (uint8_t)(one_in(2) ? between(9, 12) : below(256));
        if (goes_on(record, byte) || one_in(bad_in))
            c->sample[c->sample_len++] = byte;
    }
}

/* ---- entries */

/* A section, and the place of an entry in it, or beside its last; at times any numbers. */
static void draw_place(struct call *c) {
    uint32_t count = 0;
    c->section = one_in(12) ? any_number() : one_in(12) ? SECTIONS : below(SECTIONS);
    ref_count_entries(c->book, c->book_len, c->section, &count);
    c->nth = one_in(12) ? any_number() : one_in(4) ? count + below(2) : count > 0 ? below(count) : 0;
}

static void draw_entries(struct call *c) {
    if (c->function == COUNT_ENTRIES || c->function == READ_ENTRY)
        draw_place(c);
    if (c->function != WRITE_BOOK)
        return;
    draw_rows(c);
    if (one_in(2))
        damage_rows(c);
}

/* ---- room */

/* How many bytes the call's function writes where it is answered; the book of rows that are too many is cut. */
static size_t bytes_written(const struct call *c) {
    static struct packed packed;
    if (c->function == LIST)
        return c->sample_len;
    if (c->function == READ_ENTRY)
        return 2 * row_numbers[c->section < SECTIONS ? c->section : below(SECTIONS)];
    if (c->function != WRITE_BOOK)
        return ROW;
    pack_rows(c, &packed);
    return packed.len < SAMPLE_ROOM - 20 ? packed.len : SAMPLE_ROOM - 20;
}

/* A buffer for as many bytes as are written, or for fewer, or for more. */
static void draw_room(struct call *c) {
    size_t written = bytes_written(c);
    c->out_len = written;
    if (one_in(4))
        c->out_len += below(20);
    else if (one_in(4))
        c->out_len -= written > 0 && one_in(2) ? 1 : below((uint32_t)written + 1);
    if (one_in(100))
        c->out_len = 0;
}

/* ---- a case */

static enum function draw_function(void) {
    static const uint8_t often[FUNCTIONS] = {
        [LETTER] = 1,         [PLAN] = 7,        [FRACTIONAL_PLAN] = 4, [STAGED_PLAN] = 5,     [SEQUENTIAL_PLAN] = 3,
        [VARIABLES_PLAN] = 3, [SINGLE] = 8,      [STAGED] = 11,         [SEQUENTIAL] = 10,     [UPPER] = 6,
        [LOWER] = 6,          [FRACTIONAL] = 5,  [CLOSE_SINGLE] = 8,    [CLOSE_STAGED] = 7,    [CLOSE_FRACTIONAL] = 6,
        [NEXT] = 4,           [LIST] = 1,        [CHECK_BOOK] = 4,      [WRITE_BOOK] = 6,      [COUNT_ENTRIES] = 1,
        [READ_ENTRY] = 3,     [SCREEN] = 1,      [CURTAILED] = 3,       [CLOSE_CURTAILED] = 4, [BOTH] = 3,
        [SIGMA_UPPER] = 2,    [SIGMA_LOWER] = 2, [SIGMA_BOTH] = 3};
    unsigned at = below(127), f = 0;
    for (; at >= often[f]; f++)
        at -= often[f];
    return (enum function)f;
}

static void draw_sample(struct call *c, const struct plans *p) {
    if (judges_readings(c->function) || c->function == SCREEN) {
        draw_gauged(c, p);
        return;
    }
    draw_items(c, p, ANY);
    if (one_in(is_curtailed(c->function) ? 3 : 5))
        damage_sample(c);
    if (one_in(25))
        damage_sample(c);
}

void draw_case(struct call *c) {
    struct plans plans;
    case_seed = draw_state();
    c->function = draw_function();
    draw_lot(c);
    c->resubmitted = one_in(4) ? any_number() : 0;
    c->event = one_in(20) ? any_number() : below(13);
    draw_record(c);
    draw_book(c, false, &plans);
    if (c->function == LIST)
        draw_history(c);
    else
        draw_sample(c, &plans);
    draw_entries(c);
    draw_room(c);
    if (one_in(c->function == CHECK_BOOK ? 2 : 10))
        damage_book(c);
}

static void draw_small_lot(struct call *c) {
    c->size = one_in(4) ? between(2, 500) : between(2, 60);
    c->level = below(7);
}

/* A lot on the plan of the record's clean run, of any size and level that have its letter; else on any fraction. */
static void go_on_with_run(struct call *c) {
    uint8_t letter;
    if (c->record[CLEAN] == 0 || one_in(8)) {
        aim_at_fraction(c);
        return;
    }
    for (unsigned tries = 0; tries < 1000; tries++) {
        if (ref_letter(c->size, c->level, &letter) == 0 && letter == c->record[CLEAN_LETTER])
            break;
        draw_small_lot(c);
    }
    c->column = c->record[CLEAN_COLUMN];
}

void draw_next_lot(struct call *c, bool good) {
    struct plans plans;
    case_seed = draw_state();
    draw_small_lot(c);
    c->column = below(26);
    c->severity = c->record[0];
    c->resubmitted = one_in(8);
    if (c->function == CLOSE_FRACTIONAL ? !one_in(10) : one_in(4))
        go_on_with_run(c);
    draw_book(c, true, &plans);
    c->items_with_points = plans.size[0] + (plans.stages > 2 ? plans.size[1] + plans.size[2] : 0);
    draw_items(c, &plans, good ? GOOD : BAD);
}
