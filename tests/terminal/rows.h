/* Entries of a book as rows of numbers: put one by one, and drawn at random, sound and damaged. */
#ifndef ROWS_H
#define ROWS_H

#include "call.h"

/* The most numbers of a row; and the places in a staged one of its number of stages, first size, first Ac, first Re. */
enum { ROW_NUMBERS = 25, STAGES_PLACE = 3, SIZE_PLACE = 4, AC_PLACE = 11, RE_PLACE = 18 };

/* How many numbers a row of a section has. */
extern const unsigned row_numbers[SECTIONS];

void clear_rows(struct call *call);

/* Appends a row to the list of a section; or so many, which have its numbers but for their keys, from the first on. */
void put_row(struct call *call, unsigned section, const unsigned *numbers);
void put_rows(struct call *call, unsigned section, const unsigned *numbers, unsigned rows);

/* Sets a number of a row, counted from 0, that is whole in the list. */
void set_row(struct call *call, unsigned section, size_t row, unsigned place, unsigned number);

/* How many whole rows a list has. */
size_t rows_in(const struct call *call, unsigned section);

/* Lists of sound rows, mostly short; and such lists whose book has as many bytes as wanted, 1,000 to 40,000, even. */
void draw_rows(struct call *call);
void draw_long_rows(struct call *call, size_t wanted);

/* Damages some rows, or cuts lists short. */
void damage_rows(struct call *call);

#endif
