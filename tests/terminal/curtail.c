/* Curtailed samples beside full ones. See curtail.h. */
#include "curtail.h"

#include "../../include/hipomoake.h"
#include "draw.h"
#include "reference.h"

#include <stdio.h>
#include <string.h>

enum { MOST_ITEM_COLUMN = 15, MOST_N = 3150 };

bool is_curtailed(enum function f) {
    return f == CURTAILED || f == CLOSE_CURTAILED;
}

void curtail(struct call *c, unsigned n, unsigned ac) {
    unsigned total = 0, items = 0;
    for (; items < n && total <= ac; items++)
        total += HM_NUMBER_AT(c->sample, items);
    c->sample_len = 2 * (size_t)items;
}

/* ---- how a sample ends: by an answer, then by 7, then by 8 */

enum ending {
    ACCEPTED,
    LOST_FIRST,
    LOST_BETWEEN,
    LOST_LAST,
    MISSING,
    HALF_MISSING,
    GOES_ON,
    GOES_ON_ILLEGAL,
    HALF_AFTER,
    ILLEGAL_LAST,
    ILLEGAL_BEFORE,
    ENDINGS
};

static const char *const names[ENDINGS] = {"accepted at n",   "lost at the first", "between",     "at n",
                                           "7: ends early",   "by half an item",   "goes on",     "by an illegal",
                                           "by half an item", "8: at the last",    "or before it"};

/* By column, items or nonconformities, and by whether n is the whole lot. */
static unsigned long ended[2][2][ENDINGS];

static unsigned most_item(const struct call *c) {
    return c->column <= MOST_ITEM_COLUMN ? 1 : 65535;
}

/* The items that are there after the end are looked at here alone, to tell what was drawn. */
static enum ending ending_after(const struct call *c, size_t end, unsigned n, bool lost) {
    size_t items = c->sample_len / 2;
    if (items > end)
        return HM_NUMBER_AT(c->sample, end) > most_item(c) ? GOES_ON_ILLEGAL : GOES_ON;
    if (c->sample_len % 2 != 0)
        return HALF_AFTER;
    return !lost ? ACCEPTED : end == 1 ? LOST_FIRST : end == n ? LOST_LAST : LOST_BETWEEN;
}

static enum ending ending_of(const struct call *c, unsigned n, unsigned ac) {
    size_t items = c->sample_len / 2, at = 0;
    unsigned total = 0;
    for (; at < n && total <= ac; at++) {
        if (at == items)
            return c->sample_len % 2 != 0 ? HALF_MISSING : MISSING;
        if (HM_NUMBER_AT(c->sample, at) > most_item(c))
            return at + 1 == items ? ILLEGAL_LAST : ILLEGAL_BEFORE;
        total += HM_NUMBER_AT(c->sample, at);
    }
    return ending_after(c, at, n, total > ac);
}

/* ---- the full count */

/* A full sample that begins as the curtailed one and goes on with good items, with the worst, or with any. */
static void fill_up(const struct call *c, unsigned n, uint8_t *sample) {
    unsigned kind = below(3), most = most_item(c);
    memcpy(sample, c->sample, c->sample_len);
    for (size_t at = c->sample_len; at < 2 * (size_t)n; at += 2) {
        unsigned item = kind == 0 ? 0 : kind == 1 ? most : below(most + 1);
        sample[at] = (uint8_t)item;
        sample[at + 1] = (uint8_t)(item >> 8);
    }
}

/* The verdict of the full count and, for a closed lot, the byte and the record after it. */
static bool is_full_count(const struct call *c, const struct answer *a, const uint8_t *sample, size_t len) {
    uint8_t record[RECORD], accepted = 2, byte = 0;
    uint16_t used = 0;
    if (c->function == CURTAILED)
        return hm_single(c->size, c->level, c->column, c->severity, c->book, c->book_len, sample, len, &accepted,
                         &used) == 0 &&
               accepted == a->accepted;
    memcpy(record, c->record, RECORD);
    return hm_close_single(record, RECORD, c->resubmitted, c->size, c->level, c->column, c->book, c->book_len, sample,
                           len, &accepted, &used, &byte) == 0 &&
           accepted == a->accepted && byte == a->byte && memcmp(record, a->record, RECORD) == 0;
}

void hold_to_full_count(const struct call *c, uint64_t status, const struct answer *a) {
    static uint8_t sample[2 * MOST_N];
    uint32_t severity = c->function == CURTAILED ? c->severity : c->record[0];
    uint8_t letter, cut;
    uint16_t n, ac, table_n;
    if (status != 0 && status != 7 && status != 8)
        return;
    if (severity > 1 ||
        ref_plan(c->size, c->level, c->column, severity, c->book, c->book_len, &letter, &n, &ac, &table_n, &cut) != 0) {
        report("a curtailed sample is looked at where the tables have no plan", c);
        return;
    }
    enum ending ending = ending_of(c, n, ac);
    ended[c->column > MOST_ITEM_COLUMN][n == c->size][ending]++;
    if (status != (ending < MISSING ? 0 : ending < ILLEGAL_LAST ? 7 : 8))
        report("a curtailed sample ends where its total passes Ac, or at n", c);
    if (status != 0 || ending >= MISSING)
        return;
    fill_up(c, n, sample);
    if (2 * (size_t)a->used != c->sample_len || !is_full_count(c, a, sample, 2 * (size_t)n))
        report("the full count of a sample that begins so says something else", c);
}

/* ---- what was counted */

bool summary_of_curtailed(void) {
    bool all = true;
    for (unsigned over = 0; over < 2; over++) {
        bool ok = true;
        printf("curtailed, %s, and in whole lots:", over == 0 ? "items" : "nonconformities");
        for (unsigned i = 0; i < (over == 0 ? ENDINGS : ILLEGAL_LAST); i++) {
            if (over == 1 && i == GOES_ON_ILLEGAL)
                continue;
            printf("%s %s %lu %lu", i > 0 ? "," : "", names[i], ended[over][0][i], ended[over][1][i]);
            ok = ok && ended[over][0][i] != 0 && ended[over][1][i] != 0;
        }
        printf("%s\n", ok ? "" : "  SOMETHING NEVER OCCURRED");
        all = all && ok;
    }
    return all;
}
