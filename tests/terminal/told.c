/* A supply as it was told. See told.h. */
#include "told.h"

#include <string.h>

/* What the lot enters beside its byte: only the mode of fractions enters a sample that can count as clean. */
static struct entered lot_entered(const struct call *c) {
    struct entered lot = {1, 0, (uint8_t)c->column, 0};
    if (c->function != CLOSE_FRACTIONAL)
        return (struct entered){0, 0, 0, 0};
    ref_letter(c->size, c->level, &lot.letter);
    lot.total = sample_total(c);
    return lot;
}

/* Only one nonconforming item is judged by the lots before. */
static void hold_verdict(const struct told *told, const struct call *c, const struct answer *a) {
    unsigned read = ref_read_verdict(told->history, told->entered, told->len);
    if (read != 2 && read != a->accepted)
        report("the verdict is not that of the written reading of all that was entered", c);
}

/* The history alone tells the record but for its clean run. */
static void hold_record(const struct told *told, const struct call *c, const struct answer *a) {
    uint8_t record[RECORD];
    if (ref_read_record(told->history, told->entered, told->len, record) != 0)
        report("the written reading refuses what was answered", c);
    else if (memcmp(record, a->record, TOLD) != 0)
        report("the record is not that of the written reading of the whole history", c);
    else if (memcmp(record + TOLD, a->record + TOLD, RECORD - TOLD) != 0)
        report("the clean run is not that of the written reading of all that was entered", c);
}

void tell(struct told *told, const struct call *c, const struct answer *a) {
    told->entered[told->len] = lot_entered(c);
    if (told->entered[told->len].total == 1)
        hold_verdict(told, c, a);
    told->history[told->len++] = c->function == NEXT ? (uint8_t)c->event : a->byte;
    hold_record(told, c, a);
}
