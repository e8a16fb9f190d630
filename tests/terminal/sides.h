/*
 * Readings beside one limit or two, by second rules: the numbers of the sections in a walk of its own, sigma's limit on
 * the sum, and what the archive itself says of one side alone and of everything mirrored.
 */
#ifndef SIDES_H
#define SIDES_H

#include "call.h"

/* Whether the function takes a known spread; has two limits; is one of the four with either; judges readings at all. */
bool is_sigma(enum function function);
bool has_two_limits(enum function function);
bool is_of_t07(enum function function);
bool judges_readings(enum function function);

/* The section whose plans the function judges readings by. */
unsigned section_of(enum function function);

/* Holds the status and the verdict of one of the four, and counts why it was refused or how near the limits it was. */
void hold_to_sides(const struct call *call, uint64_t status, const struct answer *answer);

/* Prints what was counted; false where something never occurred. */
bool summary_of_sides(void);

#endif
