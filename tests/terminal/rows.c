/* Entries of a book as rows of numbers. See rows.h. */
#include "rows.h"

#include "../../include/hipomoake.h"
#include "book.h"
#include "draw.h"
#include "packed.h"

#include <string.h>

enum { MARK = 65535 };

const unsigned row_numbers[SECTIONS] = {4, ROW_NUMBERS, 8, 5, 5};

/* ---- rows in a list */

void clear_rows(struct call *c) {
    for (unsigned i = 0; i < SECTIONS; i++)
        c->lists[i].len = 0;
}

size_t rows_in(const struct call *c, unsigned section) {
    return c->lists[section].len / (2 * row_numbers[section]);
}

static uint8_t *number_in(struct call *c, unsigned section, size_t row, unsigned place) {
    return c->lists[section].bytes + 2 * (row * row_numbers[section] + place);
}

static unsigned get_row(struct call *c, unsigned section, size_t row, unsigned place) {
    const uint8_t *number = number_in(c, section, row, place);
    return number[0] | (unsigned)number[1] << 8;
}

void set_row(struct call *c, unsigned section, size_t row, unsigned place, unsigned number) {
    uint8_t *at = number_in(c, section, row, place);
    at[0] = (uint8_t)number;
    at[1] = (uint8_t)(number >> 8);
}

void put_row(struct call *c, unsigned section, const unsigned *numbers) {
    size_t row = rows_in(c, section);
    c->lists[section].len += 2 * row_numbers[section];
    for (unsigned i = 0; i < row_numbers[section]; i++)
        set_row(c, section, row, i, numbers[i]);
}

/* The nth key of a section, in order. */
static void set_key(struct call *c, unsigned section, size_t row, unsigned nth_key) {
    unsigned columns = most_column[section] + 1, keys = key_numbers[section];
    if (keys == 3)
        set_row(c, section, row, 0, nth_key / columns / 16);
    set_row(c, section, row, keys - 2, nth_key / columns % 16);
    set_row(c, section, row, keys - 1, nth_key % columns);
}

void put_rows(struct call *c, unsigned section, const unsigned *numbers, unsigned rows) {
    for (unsigned key = 0; key < rows; key++) {
        put_row(c, section, numbers);
        set_key(c, section, rows_in(c, section) - 1, key);
    }
}

/* ---- sound rows: any number of a range, and often its ends */

static unsigned within(unsigned least, unsigned most) {
    return one_in(5) ? least : one_in(4) ? most : between(least, most);
}

static void draw_reduced(unsigned *body) {
    body[0] = within(1, 3150);
    body[1] = one_in(2) ? below(9) : within(0, 65534);
}

/* What stands past the stages is 0, or the mark, or anything. */
static void draw_stages(unsigned *body) {
    static const unsigned last_acs[] = {0, 1, 3, 9, 300, 65532, 65533};
    struct plans p = {.stages = between(2, STAGES)};
    unsigned past = below(3);
    for (unsigned i = 1; i < ROW_NUMBERS - STAGES_PLACE; i++)
        body[i] = past == 0 ? 0 : past == 1 ? MARK : below(65536);
    draw_stage_numbers(&p, PICK(last_acs));
    body[0] = p.stages;
    for (unsigned i = 0; i < p.stages; i++) {
        body[1 + i] = within(1, 2000);
        body[1 + STAGES + i] = p.ac[i];
        body[1 + 2 * STAGES + i] = p.re[i];
    }
}

static void draw_lines(unsigned *body) {
    struct plans p = {.ha = within(1, 65535), .hr = within(1, 65535), .g = within(1, 60000), .nt = within(1, 3150)};
    if (one_in(2)) {
        p.ha = 500 * between(1, 4);
        p.hr = 500 * between(1, 4);
        p.g = 12500 * between(1, 4);
    }
    draw_curtailment(&p);
    body[0] = p.ha;
    body[1] = p.hr;
    body[2] = p.g;
    body[3] = p.nt;
    body[4] = p.at;
}

static void draw_gauge(unsigned *body) {
    body[0] = within(2, 50);
    body[1] = within(1, 4000);
}

static unsigned keys_of(unsigned section) {
    return (key_numbers[section] == 3 ? 3 : 1) * 16 * (most_column[section] + 1);
}

static void draw_row(struct call *c, unsigned section, unsigned nth_key) {
    static void (*const draws[SECTIONS])(unsigned *) = {draw_reduced, draw_stages, draw_lines, draw_gauge, draw_gauge};
    unsigned numbers[ROW_NUMBERS] = {0};
    draws[section](numbers + key_numbers[section]);
    put_row(c, section, numbers);
    set_key(c, section, rows_in(c, section) - 1, nth_key);
}

/* ---- lists of them */

/* Rows whose keys are next to each other, or apart, from the first key on, or the last, or any. */
static void draw_list(struct call *c, unsigned section, unsigned rows) {
    static const unsigned gaps[] = {1, 2, 16, 26, 100, 500};
    unsigned keys = keys_of(section), gap = PICK(gaps), key = one_in(4) ? 0 : one_in(6) ? keys - 1 : below(keys);
    for (; rows > 0 && key < keys; rows--, key += between(1, gap))
        draw_row(c, section, key);
}

/* A row under every key of a section. */
static void draw_all_keys(struct call *c, unsigned section) {
    c->lists[section].len = 0;
    for (unsigned key = 0; key < keys_of(section); key++)
        draw_row(c, section, key);
}

void draw_long_rows(struct call *c, size_t wanted) {
    size_t left = wanted - 2 * COUNTED_SECTIONS;
    clear_rows(c);
    draw_list(c, HM_SEQUENTIAL_SECTION, below(20));
    draw_list(c, SIGMA_SECTION, one_in(2) ? below(20) : 0);
    left -= c->lists[HM_SEQUENTIAL_SECTION].len + c->lists[SIGMA_SECTION].len;
    left -= c->lists[SIGMA_SECTION].len > 0 ? 2 : 0;
    for (unsigned key = 0; key < keys_of(HM_STAGED_SECTION) && left > 400; key++) {
        draw_row(c, HM_STAGED_SECTION, key);
        left -= 8 + 6 * get_row(c, HM_STAGED_SECTION, key, STAGES_PLACE);
    }
    /* 8 bytes for each of the reduced singles and 10 for each of the variables make up any even number from 30 on */
    unsigned gauges = left / 2 % 4;
    for (unsigned key = 0; key < gauges; key++)
        draw_row(c, HM_VARIABLES_SECTION, key);
    for (unsigned key = 0; key < (left - 10 * gauges) / 8; key++)
        draw_row(c, HM_REDUCED_SECTION, key);
}

void draw_rows(struct call *c) {
    if (one_in(300)) {
        draw_long_rows(c, LONGEST_BOOK - 8 + 2 * below(9));
        return;
    }
    clear_rows(c);
    for (unsigned section = 0; section < SECTIONS; section++)
        draw_list(c, section, one_in(4) ? 0 : one_in(3) ? 1 : one_in(100) ? below(60) : below(6));
    if (one_in(500))
        draw_all_keys(c, below(SECTIONS));
}

/* ---- damage */

/* Any row of any list that has one; false where none has. */
static bool pick_row(struct call *c, unsigned *section, size_t *row) {
    *section = below(SECTIONS);
    for (unsigned i = 0; i < SECTIONS && rows_in(c, *section) == 0; i++)
        *section = (*section + 1) % SECTIONS;
    size_t rows = rows_in(c, *section);
    *row = rows > 0 ? below((uint32_t)rows) : 0;
    return rows > 0;
}

static void damage_number(struct call *c) {
    unsigned section;
    size_t row;
    if (!pick_row(c, &section, &row))
        return;
    unsigned place = below(row_numbers[section]);
    set_row(c, section, row, place, edge_number(get_row(c, section, row, place)));
}

/* Numbers of stages that there are not; some have a low byte or a low bit that there is. */
static void damage_stages(struct call *c) {
    static const unsigned stages[] = {0, 1, 8, 9, 10, 255, 256, 258, 263, 32770, 65535, 2, 7};
    size_t rows = rows_in(c, HM_STAGED_SECTION);
    if (rows > 0)
        set_row(c, HM_STAGED_SECTION, below((uint32_t)rows), STAGES_PLACE, PICK(stages));
}

/* A mark, an edge, or the number of the stage before or after, among the numbers of a stage or of one past the last. */
static void damage_stage(struct call *c) {
    static const unsigned places[] = {SIZE_PLACE, AC_PLACE, AC_PLACE, RE_PLACE, RE_PLACE};
    size_t rows = rows_in(c, HM_STAGED_SECTION);
    if (rows == 0)
        return;
    size_t row = below((uint32_t)rows);
    unsigned first = PICK(places), stage = below(STAGES), other = (stage + (one_in(2) ? 1 : STAGES - 1)) % STAGES;
    unsigned number = edge_number(get_row(c, HM_STAGED_SECTION, row, first + stage));
    if (one_in(3))
        number = one_in(2) ? MARK : get_row(c, HM_STAGED_SECTION, row, first + other);
    set_row(c, HM_STAGED_SECTION, row, first + stage, number);
}

static void damage_last_number(struct call *c) {
    size_t rows = rows_in(c, HM_SEQUENTIAL_SECTION);
    if (rows == 0)
        return;
    size_t row = below((uint32_t)rows);
    set_row(c, HM_SEQUENTIAL_SECTION, row, 7, (get_row(c, HM_SEQUENTIAL_SECTION, row, 7) + between(0, 6) - 3) & 65535);
}

/* A key that is that of the row before, but for one number at times, which is one less or one more. */
static void damage_key(struct call *c) {
    unsigned section;
    size_t row;
    if (!pick_row(c, &section, &row) || row == 0)
        return;
    memcpy(number_in(c, section, row, 0), number_in(c, section, row - 1, 0), 2 * key_numbers[section]);
    if (one_in(3))
        return;
    unsigned place = below(key_numbers[section]), number = get_row(c, section, row, place);
    set_row(c, section, row, place, (number + (one_in(3) ? 1 : 65535)) & 65535);
}

static void swap_keys(struct call *c) {
    unsigned section;
    size_t row;
    uint8_t swapped[6];
    if (!pick_row(c, &section, &row) || row == 0)
        return;
    size_t bytes = 2 * key_numbers[section];
    memcpy(swapped, number_in(c, section, row, 0), bytes);
    memcpy(number_in(c, section, row, 0), number_in(c, section, row - 1, 0), bytes);
    memcpy(number_in(c, section, row - 1, 0), swapped, bytes);
}

/* The last row loses a byte, a number or many; or part of a row follows it. */
static void cut_short(struct call *c) {
    unsigned section = below(SECTIONS), row = 2 * row_numbers[section];
    struct list *list = &c->lists[section];
    size_t lost = one_in(3) ? 1 : one_in(2) ? 2 : between(1, one_in(4) ? 3 * row : row);
    if (one_in(3)) {
        draw_bytes(list->bytes + list->len, row);
        if (rows_in(c, section) > 0 && one_in(2))
            memcpy(list->bytes + list->len, list->bytes + list->len - row, row);
        list->len += row;
        lost = one_in(3) ? row - 1 : lost;
    }
    list->len -= lost < list->len ? lost : list->len;
}

static void scramble(struct call *c) {
    struct list *list = &c->lists[below(SECTIONS)];
    list->len = below(200);
    draw_bytes(list->bytes, list->len);
}

void damage_rows(struct call *c) {
    static void (*const damages[])(struct call *) = {
        damage_number, damage_number, damage_number, damage_stages, damage_stage, damage_stage, damage_last_number,
        damage_key,    damage_key,    swap_keys,     cut_short,     cut_short,    scramble};
    unsigned times = one_in(3) ? between(2, 4) : 1;
    for (unsigned i = 0; i < times; i++)
        PICK(damages)(c);
}
