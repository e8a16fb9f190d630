/* The book that lists of rows make. See packed.h. */
#include "packed.h"

#include "../../include/hipomoake.h"
#include "book.h"
#include "rows.h"

#include <stdio.h>
#include <string.h>

/* ---- packing */

static void pack_number(struct packed *p, const uint8_t *row, unsigned place) {
    memcpy(p->bytes + p->len, row + 2 * place, 2);
    p->len += 2;
}

/* No book holds more stages than seven; their number alone breaks it. */
static unsigned stages_in(const uint8_t *row) {
    unsigned stages = HM_NUMBER_AT(row, STAGES_PLACE);
    return stages < STAGES ? stages : STAGES;
}

static void pack_row(struct packed *p, unsigned section, const uint8_t *row) {
    bool staged = section == HM_STAGED_SECTION;
    unsigned stages = staged ? stages_in(row) : 0, alike = staged ? SIZE_PLACE + stages : row_numbers[section];
    p->section_of[p->entries] = section;
    p->entry_at[p->entries++] = p->len;
    for (unsigned i = 0; i < alike; i++)
        pack_number(p, row, i);
    for (unsigned i = 0; i < stages; i++) {
        pack_number(p, row, AC_PLACE + i);
        pack_number(p, row, RE_PLACE + i);
    }
}

void pack_rows(const struct call *c, struct packed *p) {
    p->cut = false;
    p->len = p->entries = 0;
    for (unsigned section = 0; section < SECTIONS; section++) {
        size_t row = 2 * row_numbers[section], len = p->cut ? 0 : c->lists[section].len, rows = len / row;
        if (section < COUNTED_SECTIONS || rows > 0) {
            p->bytes[p->len++] = (uint8_t)rows;
            p->bytes[p->len++] = (uint8_t)(rows >> 8);
        }
        for (size_t i = 0; i < rows; i++)
            pack_row(p, section, c->lists[section].bytes + i * row);
        if (len % row != 0) {
            p->cut = true;
            p->cut_section = section;
        }
    }
}

/* ---- what the reader says */

static struct {
    unsigned long bad[SECTIONS], cut[SECTIONS], bad_beside_room, room, length, exact, more, longest, of_four, of_five;
} books;

static unsigned entry_with(const struct packed *p, size_t place) {
    unsigned entry = 0;
    while (entry + 1 < p->entries && p->entry_at[entry + 1] <= place)
        entry++;
    return entry;
}

/* The status that the rows must have, which is counted. */
static uint64_t status_of(const struct packed *p, size_t room) {
    uint32_t read = hm_check_book(p->bytes, p->len);
    unsigned bad = read != 0 ? entry_with(p, HM_PLACE(read)) : p->entries;
    if (read == 0 && !p->cut) {
        books.room += p->len > room;
        books.exact += p->len == room;
        books.more += p->len < room;
        books.longest += p->len <= room && p->len == LONGEST_BOOK;
        bool five = p->entries > 0 && p->section_of[p->entries - 1] == SIGMA_SECTION;
        books.of_four += p->len <= room && !five;
        books.of_five += p->len <= room && five;
        return p->len > room ? 11 : 0;
    }
    books.bad[read != 0 ? p->section_of[bad] : p->cut_section]++;
    if (read == 0)
        books.cut[p->cut_section]++;
    books.bad_beside_room += p->len > room;
    return 12 | (uint64_t)bad << 8;
}

void hold_to_reader(const struct call *c, uint64_t status, const struct answer *a) {
    static struct packed packed;
    pack_rows(c, &packed);
    /* of a book that is over the longest the reader says that alone */
    if (packed.len > LONGEST_BOOK) {
        books.length += status == 11 && packed.len <= c->out_len;
        if (status == 0)
            report("a book that is too long is written", c);
        return;
    }
    if (status != status_of(&packed, c->out_len))
        report("the writer does not say of the rows what the reader says of their book", c);
    else if (status == 0 && (a->written != packed.len || memcmp(last_out(), packed.bytes, packed.len) != 0))
        report("the book is not that of the rows", c);
}

/* ---- what was counted */

/* Prints a count for each list; false where one of them is 0. */
static bool print_lists(const char *what, const unsigned long counted[SECTIONS]) {
    bool ok = true;
    printf(", %s", what);
    for (unsigned i = 0; i < SECTIONS; i++) {
        printf(" %lu", counted[i]);
        ok = ok && counted[i] != 0;
    }
    return ok;
}

bool summary_of_books(void) {
    bool ok = books.exact != 0 && books.more != 0 && books.longest != 0 && books.room != 0 && books.length != 0;
    printf("books: %lu in the very room, %lu in more, %lu of %d bytes, %lu too long for the room, %lu for any",
           books.exact, books.more, books.longest, LONGEST_BOOK, books.room, books.length);
    printf(", %lu of four sections, %lu of five", books.of_four, books.of_five);
    ok = books.of_four != 0 && books.of_five != 0 && ok;
    ok = print_lists("bad entries by list", books.bad) && ok;
    ok = print_lists("of these cut short", books.cut) && ok;
    printf(", beside a short room %lu", books.bad_beside_room);
    ok = books.bad_beside_room != 0 && ok;
    printf("%s\n", ok ? "" : "  SOMETHING NEVER OCCURRED");
    return ok;
}
