/* Calls drawn at random. Most reach deep: a sound book with an entry under the lot's key, and a sample that fits it. */
#ifndef DRAW_H
#define DRAW_H

#include "call.h"
#include "random.h"

/* The seed that draws the present case again; 0 for a fixed one, after draw_fixed. */
uint64_t draw_case_seed(void);
void draw_fixed(void);

/* Any call of any function. */
void draw_case(struct call *call);

/*
 * The next lot of a supply, closed on the call's record: a book that has its plans, and a sample that fits, mostly good
 * or mostly bad. The function is one that closes a lot; CLOSE_FRACTIONAL mostly goes on with the plan of the record's
 * clean run.
 */
void draw_next_lot(struct call *call, bool good);

#endif
