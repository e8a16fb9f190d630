/* Plan books drawn at random. See book.h. */
#include "book.h"

#include "draw.h"
#include "reference.h"
#include "sides.h"
#include "sizes.h"

#include <string.h>

enum { MARK = 65535, MOST_ITEM_COLUMN = 15 };

const unsigned key_numbers[SECTIONS] = {2, 3, 3, 3, 3}, most_column[SECTIONS] = {25, 25, 15, 15, 15};

/* Where the parts of the book drawn last stand, so that damage can aim; a fifth section that it lacks, at its end. */
static struct {
    size_t count_at[SECTIONS];
    unsigned entries;
    struct {
        unsigned section;
        size_t key, body;
    } entry[MOST_ENTRIES];
} layout;

static void put(uint8_t *bytes, size_t *len, unsigned number) {
    bytes[(*len)++] = (uint8_t)number;
    bytes[(*len)++] = (uint8_t)(number >> 8);
}

void put_book(struct call *c, unsigned number) {
    put(c->book, &c->book_len, number);
}

void put_item(struct call *c, unsigned number) {
    put(c->sample, &c->sample_len, number);
}

/* The fifth section has a count only where it has an entry. */
void set_entry(struct call *c, unsigned section, const unsigned *numbers, unsigned n) {
    c->book_len = 0;
    for (unsigned i = 0; i < COUNTED_SECTIONS || i == section; i++) {
        put_book(c, i == section);
        for (unsigned j = 0; i == section && j < n; j++)
            put_book(c, numbers[j]);
    }
}

static unsigned least_of(unsigned a, unsigned b) {
    return a < b ? a : b;
}

static unsigned most_of(unsigned a, unsigned b) {
    return a > b ? a : b;
}

bool only_told(const struct call *c) {
    return c->function == STAGED_PLAN || c->function == SEQUENTIAL_PLAN || c->function == VARIABLES_PLAN;
}

/* A sample size for the lot: mostly small, at times the whole lot or one more. */
static unsigned draw_total(const struct call *c, unsigned usual, unsigned most) {
    if (c->size < most && one_in(6))
        return c->size + one_in(3);
    if (only_told(c) && one_in(2))
        return between(1, most_of(1, least_of(c->size, most)));
    if (one_in(500))
        return between(1, most);
    return between(1, least_of(most_of(c->size, 1), usual));
}

/* ---- bodies */

/* A size above the lot is cut to it; where no sample is to be drawn it is any, or one below the lot. */
static void draw_reduced(struct call *c, struct plans *p) {
    p->reduced_n = most_of(draw_total(c, 30, 3150), 1);
    if (tells_size(c->function) && one_in(4))
        p->reduced_n = one_in(2) ? between(1, 3150) : least_of(most_of(c->size, 2) - 1, 3150);
    p->reduced_ac = one_in(20) ? between(0, 65534) : one_in(20) ? 65534 : below(5);
    put_book(c, p->reduced_n);
    put_book(c, p->reduced_ac);
}

static void draw_stage_sizes(const struct call *c, struct plans *p) {
    unsigned total = most_of(draw_total(c, 40, 2000), 1);
    p->stages = total < 3 || one_in(3) ? 2 : between(2, least_of(total, STAGES));
    if (one_in(100))
        p->stages = between(2, STAGES);
    for (unsigned i = 0; i < p->stages; i++) {
        unsigned left = p->stages - 1 - i;
        p->size[i] = total > left + 1 ? between(1, most_of(1, least_of(total - left, 2 * total / p->stages))) : 1;
        if (left == 0 && total > 0)
            p->size[i] = least_of(total, 2000);
        total -= least_of(total, p->size[i]);
    }
}

/* Both rows rise towards the last stage, whose Re is Ac + 1; marks stand before the numbers. */
void draw_stage_numbers(struct plans *p, unsigned last) {
    unsigned marks = one_in(2) ? below(p->stages) : 0, ac = 0, re = one_in(10) ? 0 : 1;
    for (unsigned i = 0; i < p->stages; i++) {
        if (i >= marks)
            ac = i + 1 == p->stages ? last : one_in(2) ? ac : between(ac, last);
        re = most_of(re, i < marks ? 0 : ac + 1);
        re = i + 1 == p->stages ? last + 1 : between(least_of(re, last + 1), last + 1);
        p->ac[i] = i < marks ? MARK : ac;
        p->re[i] = re;
    }
}

static unsigned draw_last_ac(const struct call *c) {
    unsigned last = c->column > MOST_ITEM_COLUMN ? below(12) : below(5);
    if (one_in(100))
        last = one_in(2) ? 65533 : below(65534);
    return last;
}

static void draw_staged(struct call *c, struct plans *p) {
    draw_stage_sizes(c, p);
    draw_stage_numbers(p, draw_last_ac(c));
    put_book(c, p->stages);
    for (unsigned i = 0; i < p->stages; i++)
        put_book(c, p->size[i]);
    for (unsigned i = 0; i < p->stages; i++) {
        put_book(c, p->ac[i]);
        put_book(c, p->re[i]);
    }
}

/* Half of the plans have round figures, so that a count falls on a line exactly. */
static void draw_sequential_lines(struct plans *p) {
    static const unsigned round[] = {5000, 10000, 12500, 20000, 25000, 50000, 60000};
    bool is_round = one_in(2);
    p->g = is_round ? round[below(7)] : between(1, one_in(2) ? 20000 : 60000);
    p->ha = is_round ? 500 * between(1, 4) : between(1, 3000);
    p->hr = is_round ? 500 * between(1, 4) : between(1, 3000);
    if (one_in(50))
        p->ha = between(1, 65535);
    if (one_in(50))
        p->hr = between(1, 65535);
}

void draw_curtailment(struct plans *p) {
    unsigned line = p->g * p->nt, under = 100 * p->ha, over = line + 100 * p->hr;
    unsigned low = line > under ? (line - under) / 100000 : 0, high = (over + 99999) / 100000 - 1;
    p->at = one_in(3) ? low : one_in(2) ? high : between(low, high);
}

static void draw_sequential(struct call *c, struct plans *p) {
    draw_sequential_lines(p);
    p->nt = most_of(draw_total(c, 60, 3150), 1);
    draw_curtailment(p);
    put_book(c, p->ha);
    put_book(c, p->hr);
    put_book(c, p->g);
    put_book(c, p->nt);
    put_book(c, p->at);
}

/* The plan of the other side, where there is one, mostly has the same n, or else one that is near it. */
static void draw_gauge(struct call *c, struct gauge *gauge, const struct gauge *other) {
    unsigned n = most_of(draw_total(c, 50, 50), 2);
    if (other->n > 0 && !one_in(20))
        n = one_in(8) ? most_of(other->n + 2 * below(2), 3) - 1 : other->n;
    gauge->n = least_of(n, 50);
    gauge->k = one_in(2) ? 250 * between(1, 16) : between(1, 4000);
    put_book(c, gauge->n);
    put_book(c, gauge->k);
}

/* ---- sections */

typedef uint16_t key[3];

/* The lot's key with one number moved, or any key; the numbers that the section lacks are 0. */
static void draw_key(key k, const key lots, unsigned section) {
    static const unsigned most[] = {2, 15};
    unsigned moved = below(3), at = moved + 1;
    for (unsigned i = 0; i < 3; i++) {
        unsigned limit = i < 2 ? most[i] : most_column[section];
        k[i] = (uint16_t)least_of(lots[i], limit);
        if (i == moved)
            k[i] = (uint16_t)least_of(one_in(2) ? k[i] + 1u : k[i] - (k[i] > 0 ? 1u : 0u), limit);
        if (one_in(at + 2))
            k[i] = (uint16_t)below(limit + 1);
    }
    if (key_numbers[section] == 2)
        k[0] = 0;
}

/* Inserts a key in its place; a key that is there already is left out. */
static unsigned insert_key(key *keys, unsigned n, const key k) {
    unsigned at = 0;
    for (; at < n; at++) {
        int order = 0;
        for (unsigned i = 0; i < 3 && order == 0; i++)
            order = (int)keys[at][i] - (int)k[i];
        if (order == 0)
            return n;
        if (order > 0)
            break;
    }
    memmove(keys + at + 1, keys + at, (n - at) * sizeof *keys);
    memcpy(keys[at], k, sizeof(key));
    return n + 1;
}

static unsigned draw_keys(key *keys, const key lots, unsigned section, bool with_lots) {
    unsigned n = 0, others = one_in(400) ? below(60) : below(3);
    key k;
    if (with_lots) {
        memcpy(k, lots, sizeof(key));
        if (key_numbers[section] == 2)
            k[0] = 0;
        n = insert_key(keys, n, k);
    }
    for (unsigned i = 0; i < others; i++) {
        draw_key(k, lots, section);
        n = insert_key(keys, n, k);
    }
    return n;
}

/* The lot's own keys: under its column, and under its lower one, where the function has two. */
struct keys {
    key lots, lower;
};

static bool same_key(unsigned section, const key a, const key b) {
    unsigned skip = 3 - key_numbers[section];
    return memcmp(a + skip, b + skip, sizeof(key) - skip * sizeof *a) == 0;
}

/* An entry that the function judges by is kept; a single one may be that of both sides. */
static void draw_gauged(struct call *c, unsigned section, const key k, const struct keys *own, struct plans *p) {
    static const struct gauge none = {0, 0};
    struct gauge any;
    bool judged = section == section_of(c->function), upper = judged && same_key(section, k, own->lots);
    bool lower = judged && has_two_limits(c->function) && same_key(section, k, own->lower);
    if (!upper && !lower) {
        draw_gauge(c, &any, &none);
        return;
    }
    draw_gauge(c, upper ? &p->upper : &p->lower, upper ? &p->lower : &p->upper);
    if (upper && lower)
        p->lower = p->upper;
}

static void draw_body(struct call *c, unsigned section, struct plans *p) {
    static void (*const draws[])(struct call *, struct plans *) = {draw_reduced, draw_staged, draw_sequential};
    draws[section](c, p);
}

static void draw_entry(struct call *c, unsigned section, const key k, const struct keys *own, struct plans *plans) {
    struct plans other;
    bool is_lots = same_key(section, k, own->lots);
    layout.entry[layout.entries].section = section;
    layout.entry[layout.entries].key = c->book_len;
    for (unsigned i = 3 - key_numbers[section]; i < 3; i++)
        put_book(c, k[i]);
    layout.entry[layout.entries++].body = c->book_len;
    if (section >= VARIABLES_SECTION)
        draw_gauged(c, section, k, own, plans);
    else
        draw_body(c, section, is_lots ? plans : &other);
    if (is_lots)
        plans->there[section] = true;
}

static unsigned draw_own_keys(const struct call *c, key *keys, const struct keys *own, unsigned section, bool sure) {
    bool fits = own->lots[2] <= most_column[section], two = has_two_limits(c->function);
    unsigned n = draw_keys(keys, own->lots, section, fits && (sure || !one_in(12)));
    if (two && section == section_of(c->function) && own->lower[2] <= most_column[section] && !one_in(12))
        n = insert_key(keys, n, own->lower);
    return n;
}

/* A book of four sections is as sound as one of five. */
static bool draws_section(const struct call *c, unsigned section) {
    return section < COUNTED_SECTIONS || (is_sigma(c->function) ? !one_in(12) : one_in(4));
}

void draw_book(struct call *c, bool sure, struct plans *plans) {
    uint8_t letter = (uint8_t)below(16);
    ref_letter(c->size, c->level, &letter);
    key keys[64];
    struct keys own = {{(uint16_t)(c->severity <= 2 ? c->severity : below(3)), letter,
                        (uint16_t)(c->column <= 25 ? c->column : below(26))},
                       {0, letter, (uint16_t)(c->lower_column <= 25 ? c->lower_column : below(26))}};
    own.lower[0] = own.lots[0];
    memset(plans, 0, sizeof *plans);
    c->book_len = 0;
    layout.entries = 0;
    for (unsigned section = 0; section < SECTIONS; section++) {
        unsigned n = draws_section(c, section) ? draw_own_keys(c, keys, &own, section, sure) : 0;
        layout.count_at[section] = c->book_len;
        if (section < COUNTED_SECTIONS || n > 0)
            put_book(c, n);
        for (unsigned i = 0; i < n; i++)
            draw_entry(c, section, keys[i], &own, plans);
    }
}

/* ---- damage */

static unsigned number_in(const struct call *c, size_t at) {
    return c->book[at] | (unsigned)c->book[at + 1] << 8;
}

static void set_number(struct call *c, size_t at, unsigned number) {
    if (at + 2 <= c->book_len) {
        c->book[at] = (uint8_t)number;
        c->book[at + 1] = (uint8_t)(number >> 8);
    }
}

unsigned edge_number(unsigned present) {
    static const unsigned edges[] = {0,  1,    2,    3,    7,    8,    15,   16,    25,    26,    49,   50,
                                     51, 2000, 2001, 3150, 3151, 4000, 4001, 60000, 60001, 65534, 65535};
    if (one_in(2))
        return (present + (one_in(2) ? 1 : 65535)) & 65535;
    return edges[below(sizeof edges / sizeof *edges)];
}

static void damage_number(struct call *c) {
    size_t at = 2 * (size_t)below((uint32_t)c->book_len / 2 + 1);
    if (at + 2 <= c->book_len)
        set_number(c, at, edge_number(number_in(c, at)));
}

/* Swaps or repeats the keys of two neighbours; at times a number of the later one is out of range as well. */
static void damage_keys(struct call *c) {
    if (layout.entries < 2)
        return;
    unsigned i = between(1, layout.entries - 1);
    size_t a = layout.entry[i - 1].key, b = layout.entry[i].key, bytes = 2 * key_numbers[layout.entry[i].section];
    uint8_t swapped[6];
    if (layout.entry[i - 1].section != layout.entry[i].section || b + bytes > c->book_len)
        return;
    memcpy(swapped, c->book + a, bytes);
    if (one_in(2))
        memcpy(c->book + a, c->book + b, bytes);
    memcpy(c->book + b, swapped, bytes);
    if (one_in(4))
        set_number(c, b + bytes - 2, edge_number(26));
}

/* A key number of one entry set to an edge. */
static void damage_key(struct call *c) {
    if (layout.entries > 0) {
        unsigned i = below(layout.entries);
        size_t at = layout.entry[i].key + 2 * below(key_numbers[layout.entry[i].section]);
        if (at + 2 <= c->book_len)
            set_number(c, at, edge_number(number_in(c, at)));
    }
}

/* A mark, or an edge, among the numbers of a staged entry. */
static void damage_stage(struct call *c) {
    for (unsigned i = 0; i < layout.entries; i++) {
        size_t body = layout.entry[i].body;
        if (layout.entry[i].section != 1 || body + 2 > c->book_len || one_in(2))
            continue;
        unsigned stages = number_in(c, body);
        if (stages < 2 || stages > STAGES)
            return;
        size_t at = body + 2 + 2 * stages + 4 * below(stages) + 2 * one_in(2);
        if (at + 2 <= c->book_len)
            set_number(c, at, one_in(2) ? MARK : edge_number(number_in(c, at)));
        return;
    }
}

/* At of a sequential entry, or the number before it, moved to and past the ends of its range. */
static void damage_curtailment(struct call *c) {
    for (unsigned i = 0; i < layout.entries; i++) {
        size_t at = layout.entry[i].body + 8;
        if (layout.entry[i].section != 2 || at + 2 > c->book_len || one_in(2))
            continue;
        set_number(c, at, (number_in(c, at) + between(0, 6) - 3) & 65535);
        return;
    }
}

static void damage_length(struct call *c) {
    if (one_in(2)) {
        c->book_len = below((uint32_t)c->book_len + 1);
    } else {
        unsigned more = between(1, 4);
        for (unsigned i = 0; i < more; i++)
            c->book[c->book_len++] = (uint8_t)(one_in(2) ? 0 : below(256));
    }
}

static void damage_count(struct call *c) {
    size_t at = layout.count_at[below(SECTIONS)];
    if (at + 2 <= c->book_len)
        set_number(c, at, one_in(8) ? below(65536) : (number_in(c, at) + (one_in(2) ? 1 : 65535)) & 65535);
}

/* Bytes after the last section: 0, or any. */
static void put_bytes(struct call *c, unsigned bytes) {
    bool zeros = one_in(2);
    for (; bytes > 0; bytes--)
        c->book[c->book_len++] = (uint8_t)(zeros ? 0 : below(256));
}

/* After the fourth section a lone byte, or a count of 0 with nothing after it or anything; or bytes after the fifth. */
static void damage_fifth(struct call *c) {
    size_t at = layout.count_at[SIGMA_SECTION];
    unsigned kind = below(4);
    if (at > c->book_len)
        return;
    if (kind < 2 || (kind == 2 && at + 2 > c->book_len))
        c->book_len = at;
    if (kind == 0)
        put_bytes(c, 1);
    else if (kind < 3 && c->book_len == at)
        put_book(c, 0);
    else if (kind < 3)
        set_number(c, at, 0);
    if (kind > 1)
        put_bytes(c, below(13));
}

static void damage_byte(struct call *c) {
    if (c->book_len > 0)
        c->book[below((uint32_t)c->book_len)] = (uint8_t)below(256);
}

void damage_book(struct call *c) {
    static void (*const damages[])(struct call *) = {damage_number, damage_number,      damage_keys,   damage_key,
                                                     damage_stage,  damage_stage,       damage_length, damage_count,
                                                     damage_byte,   damage_curtailment, damage_fifth};
    unsigned times = one_in(6) ? between(2, 3) : 1;
    for (unsigned i = 0; i < times; i++)
        damages[below(sizeof damages / sizeof *damages)](c);
}
