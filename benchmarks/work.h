/* The work that is timed: what each piece needs, made once, and one run of it by either side. */
#ifndef WORK_H
#define WORK_H

#include "sides.h"

struct work {
    const char *name, *unit;
    size_t full;    /* the size that is timed and judged; a tenth of it shows how the work grows */
    size_t counted; /* the size at which instructions are counted */
    double most_ns; /* what the proved side may take at its full size; 0 where only the ratio is a goal */
    void (*prepare)(size_t size);
    uint64_t (*run)(const struct side *side); /* gives a digest of all that was answered */
};

enum { WORKS = 15 };
extern const struct work works[WORKS];

/* Prints lines for lotlog: lots, orders and now and then a line of no known form. */
void print_lines(size_t lines);

#endif
