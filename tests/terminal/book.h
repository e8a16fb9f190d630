/* Plan books drawn at random, sound and damaged. */
#ifndef BOOK_H
#define BOOK_H

#include "call.h"

enum { MOST_ENTRIES = 320, STAGES = 7 };

/* A plan for readings; n is 0 where there is none. */
struct gauge {
    unsigned n, k;
};

/*
 * The bodies that a drawn book holds under the lot's own key, and which of them there are. For readings those of the
 * section that the function judges by: under its column, or its upper one, and under its lower one where it has two.
 */
struct plans {
    bool there[SECTIONS];
    unsigned reduced_n, reduced_ac;
    unsigned stages, size[STAGES], ac[STAGES], re[STAGES];
    unsigned ha, hr, g, nt, at;
    struct gauge upper, lower;
};

/* How many numbers the key of a section has, and the last column in it. */
extern const unsigned key_numbers[SECTIONS], most_column[SECTIONS];

/* Whether the call asks for a plan of the book and draws nothing, so that its numbers may be large. */
bool only_told(const struct call *call);

/* Draws a sound book for the call's lot; where it is sure, each section has an entry under the lot's key. */
void draw_book(struct call *call, bool sure, struct plans *plans);

/* Damages the book that was drawn last. */
void damage_book(struct call *call);

/* Parts of a sound entry: Ac and Re for the plan's stages, up to the Ac of the last one; At for its other figures. */
void draw_stage_numbers(struct plans *plans, unsigned last);
void draw_curtailment(struct plans *plans);

/* A number at an edge of some range, or beside the number that stands there. */
unsigned edge_number(unsigned present);

/* Appends a number to the call's book or sample. */
void put_book(struct call *call, unsigned number);
void put_item(struct call *call, unsigned number);

/* Makes the call's book one that has a single entry, with these numbers, in the section counted from 0. */
void set_entry(struct call *call, unsigned section, const unsigned *numbers, unsigned n);

#endif
