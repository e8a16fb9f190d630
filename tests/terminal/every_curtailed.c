/*
 * T-04 whole on small plans: of every full sample each beginning is tried, by bytes, and the one that is answered is
 * held to the full count.
 */
#include "book.h"
#include "cases.h"
#include "draw.h"

#include <string.h>

enum { NORMAL, TIGHTENED };
enum { LEVEL_II = 5, LEVEL_III = 6, LETTER_F = 5, LETTER_G = 6, RESUBMITTED = 4 };

static struct call call;
static struct answer answer;

static void expect(bool holds, const char *what) {
    if (!holds)
        report(what, &call);
}

/* Items are tried from 0 up to the most. */
struct plan {
    uint32_t size, level, column, severity;
    unsigned n, ac, most;
};

static const struct plan plans[] = {
    /* cut to the lot */
    {2, LEVEL_II, 14, NORMAL, 2, 0, 1},
    {10, LEVEL_II, 5, NORMAL, 10, 0, 1},
    {4, LEVEL_II, 15, NORMAL, 4, 1, 1},
    {7, LEVEL_II, 6, TIGHTENED, 7, 0, 1},
    {2, LEVEL_III, 16, NORMAL, 2, 1, 3},
    {3, LEVEL_III, 17, NORMAL, 3, 2, 3},
    /* items */
    {8, LEVEL_II, 15, NORMAL, 5, 1, 1},
    {8, LEVEL_II, 15, TIGHTENED, 2, 0, 1},
    {25, LEVEL_II, 15, TIGHTENED, 8, 1, 1},
    {50, LEVEL_II, 15, NORMAL, 8, 2, 1},
    {90, LEVEL_II, 15, NORMAL, 13, 3, 1},
    /* nonconformities */
    {50, LEVEL_II, 16, NORMAL, 8, 3, 1},
    {50, LEVEL_II, 16, TIGHTENED, 8, 2, 1},
    {8, LEVEL_II, 17, NORMAL, 2, 1, 3},
    {8, LEVEL_II, 17, TIGHTENED, 3, 1, 3},
    {8, LEVEL_II, 20, NORMAL, 2, 5, 3},
    {15, LEVEL_II, 18, NORMAL, 3, 3, 3},
    {15, LEVEL_II, 17, TIGHTENED, 3, 1, 3},
    {25, LEVEL_II, 17, NORMAL, 5, 3, 3},
    {25, LEVEL_II, 17, TIGHTENED, 5, 2, 3},
};

/* Records to close on, by severity: a fresh one, one from a change by any lot, and one with a clean run. */
enum { RECORDS = 3 };
static const uint8_t records[2][RECORDS][RECORD] = {
    {{NORMAL}, {NORMAL, 28, 0, 0, 8, 1, 1}, {NORMAL, 9, 0, 0, 16, 1, 0, 2, LETTER_F, 10}},
    {{TIGHTENED}, {TIGHTENED, 0, 4, 4, 0, 1, 1}, {TIGHTENED, 0, 2, 1, 0, 0, 1, 1, LETTER_G, 10}},
};

/* What a sample's beginnings were answered so far: how often, the last verdict, and what closing by it told. */
struct found {
    unsigned times;
    uint8_t accepted, byte[RECORDS], record[RECORDS][RECORD];
};

/* The call on one of the severity's records. */
static uint64_t run_on(const struct plan *p, enum function function, unsigned record) {
    call.function = function;
    memcpy(call.record, records[p->severity][record], RECORD);
    return run_both(&call, &answer);
}

static void close_beginning(const struct plan *p, struct found *found) {
    for (unsigned i = 0; i < RECORDS; i++) {
        expect(run_on(p, CLOSE_CURTAILED, i) == 0 && answer.accepted == found->accepted, "T-04: closed as judged");
        expect(2u * answer.used == call.sample_len, "T-04: the items read");
        found->byte[i] = answer.byte;
        memcpy(found->record[i], answer.record, RECORD);
        call.resubmitted = 1;
        expect(run_on(p, CLOSE_CURTAILED, i) == 0 && answer.byte == RESUBMITTED, "T-04: a resubmitted lot");
        expect(memcmp(answer.record, call.record, RECORD) == 0, "T-04: a resubmitted lot moves nothing");
        call.resubmitted = 0;
    }
}

/* A beginning of so many items, of which the last took the total there from what it was before. */
static void try_beginning(const struct plan *p, unsigned items, unsigned before, unsigned total, struct found *found) {
    bool ends = total > p->ac ? before <= p->ac : items == p->n;
    call.sample_len = 2 * (size_t)items;
    uint64_t status = run_on(p, CURTAILED, 0);
    expect(status == (ends ? 0 : 7), "T-04: answered where the total passes Ac, or at n");
    if (status == 0) {
        found->times++;
        found->accepted = answer.accepted;
        expect(answer.accepted == (total <= p->ac) && answer.used == items, "T-04: verdict and items read");
        close_beginning(p, found);
    }
    call.sample[call.sample_len++] = (uint8_t)below(2);
    found->times += run_on(p, CURTAILED, 0) == 0;
    found->times += run_on(p, CLOSE_CURTAILED, 0) == 0;
}

/* The whole sample: counted in full, and with an item too many. */
static void hold_full(const struct plan *p, struct found *found) {
    call.sample_len = 2 * (size_t)p->n;
    expect(found->times == 1, "T-04: one beginning of a full sample is answered");
    expect(run_on(p, SINGLE, 0) == 0 && answer.accepted == found->accepted, "T-04: accepted as by the full count");
    for (unsigned i = 0; i < RECORDS; i++) {
        expect(run_on(p, CLOSE_SINGLE, i) == 0 && answer.accepted == found->accepted,
               "T-04: closed as by the full count");
        expect(answer.byte == found->byte[i], "T-04: the byte of the full count");
        expect(memcmp(answer.record, found->record[i], RECORD) == 0, "T-04: the record of the full count");
    }
    put_item(&call, below(p->most + 1));
    expect(run_on(p, CURTAILED, 0) == 7, "T-04: an item past n");
}

/* Each item in turn; what was told of the beginnings so far goes with every sample that begins so. */
static void every_sample(const struct plan *p, unsigned items, unsigned before, unsigned total, struct found found) {
    try_beginning(p, items, before, total, &found);
    if (items == p->n) {
        hold_full(p, &found);
        return;
    }
    for (unsigned item = 0; item <= p->most; item++) {
        call.sample_len = 2 * (size_t)items;
        put_item(&call, item);
        every_sample(p, items + 1, total, total + item, found);
    }
}

void every_curtailed(void) {
    draw_fixed();
    for (unsigned i = 0; i < sizeof plans / sizeof *plans; i++) {
        const struct plan *p = &plans[i];
        set_lot(&call, PLAN, p->size, p->level, p->column, p->severity);
        expect(run_both(&call, &answer) == 0 && answer.n == p->n && answer.ac == p->ac, "T-04: n and Ac");
        call.record_len = RECORD;
        every_sample(p, 0, 0, 0, (struct found){0});
    }
}
