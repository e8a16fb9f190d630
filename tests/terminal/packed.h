/*
 * The book that lists of rows make, packed number by number with nothing checked. What the archive's reader says of it,
 * the archive's writer has to say of the rows: an entry has the same checks in both.
 */
#ifndef PACKED_H
#define PACKED_H

#include "call.h"

enum { LONGEST_BOOK = 32768, MOST_ROWS = SECTIONS * LIST_ROOM / 8 };

/* Where one of the rows is cut short, the book of those before it. */
struct packed {
    bool cut;
    unsigned cut_section, entries, section_of[MOST_ROWS];
    size_t len, entry_at[MOST_ROWS];
    uint8_t bytes[SECTIONS * (LIST_ROOM + 2)];
};

void pack_rows(const struct call *call, struct packed *packed);

/* Holds what hm_write_book answered to what hm_check_book says of the packed book, and counts it. */
void hold_to_reader(const struct call *call, uint64_t status, const struct answer *answer);

/* Prints what was counted; false where something never occurred. */
bool summary_of_books(void);

#endif
