/*
 * Where a curtailed sample ends, and what T-04 says of its answer: that of the full count on a sample that begins so.
 */
#ifndef CURTAIL_H
#define CURTAIL_H

#include "call.h"

/* Whether the function takes a curtailed sample. */
bool is_curtailed(enum function function);

/* Cuts the call's sample, of n items, off after the item at which its total passes Ac, where it does. */
void curtail(struct call *call, unsigned n, unsigned ac);

/* Holds an answer to what the archive itself says of a full sample, and counts how the curtailed one ended. */
void hold_to_full_count(const struct call *call, uint64_t status, const struct answer *answer);

/* Prints what was counted; false where something never occurred. */
bool summary_of_curtailed(void);

#endif
