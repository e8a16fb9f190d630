/*
 * The size that a plan is told with, beside its lot and the table's or the book's own, by a second rule: T-05's own
 * sentences, with no arrow followed.
 */
#ifndef SIZES_H
#define SIZES_H

#include "call.h"

/* Whether the function tells the table's own size, and whether it was cut to the lot. */
bool tells_size(enum function function);

/* Holds n, table_n and cut of an answered plan to each other, to the lot and to the letter told, and counts them. */
void hold_to_sizes(const struct call *call, const struct answer *answer);

/* Prints what was counted; false where something never occurred. */
bool summary_of_sizes(void);

#endif
