/* A supply as it was told: a history byte for each call that was answered, and what its lot entered beside the byte. */
#ifndef TOLD_H
#define TOLD_H

#include "call.h"
#include "reference.h"

struct told {
    size_t len;
    uint8_t history[SAMPLE_ROOM];
    struct entered entered[SAMPLE_ROOM];
};

/*
 * Appends a call of NEXT or of a function that closes a lot, with its answer, and holds it to the written reading of
 * all that was told: its verdict, where one item on a fraction does not conform, and the record after it.
 */
void tell(struct told *told, const struct call *call, const struct answer *answer);

#endif
