/* T-03: from a book to its rows and back, and from rows to their book and back, by the functions of the archive. */
#include "../../include/hipomoake.h"
#include "book.h"
#include "cases.h"
#include "draw.h"
#include "packed.h"
#include "rows.h"

#include <string.h>

enum { DRAWN = 1000, MOST_COUNT = 3 * 16 * 26 };

static struct call call;
static struct answer answer;
static struct list read[SECTIONS];

static void expect(bool holds, const char *what) {
    if (!holds)
        report(what, &call);
}

/* ---- from a book */

static void read_section(unsigned section) {
    struct list *list = &read[section];
    call.function = COUNT_ENTRIES;
    call.section = section;
    expect(run_both(&call, &answer) == 0, "the entries of a sound book are counted");
    uint32_t count = answer.count <= MOST_COUNT ? answer.count : 0;
    expect(count == answer.count, "there are no more entries than keys");
    call.function = READ_ENTRY;
    call.out_len = HM_ENTRY_BYTES;
    list->len = 0;
    for (call.nth = 0; call.nth < count; call.nth++) {
        expect(run_both(&call, &answer) == 0 && answer.numbers == row_numbers[section], "an entry of a sound book");
        memcpy(list->bytes + list->len, last_out(), 2 * row_numbers[section]);
        list->len += 2 * row_numbers[section];
    }
    expect(run_both(&call, &answer) == 6, "there is no entry past the count");
}

static void read_book(void) {
    for (unsigned section = 0; section < SECTIONS; section++)
        read_section(section);
}

/* The rows that were read, in exactly the room of their book, are its very bytes. */
static void write_again(void) {
    for (unsigned section = 0; section < SECTIONS; section++) {
        call.lists[section].len = read[section].len;
        memcpy(call.lists[section].bytes, read[section].bytes, read[section].len);
    }
    call.function = WRITE_BOOK;
    call.out_len = call.book_len;
    expect(run_both(&call, &answer) == 0, "the rows of a sound book are written in its room");
    expect(answer.written == call.book_len, "a book that is read and written has its length");
    expect(memcmp(last_out(), call.book, call.book_len) == 0, "a book that is read and written has its bytes");
    call.out_len--;
    expect(run_both(&call, &answer) == 11, "a book needs its room");
}

static void book_and_back(void) {
    read_book();
    write_again();
}

/* ---- from rows: their book is sound, and its rows are those that were written, with 0 past the stages */

static void clear_past_stages(void) {
    for (size_t row = 0; row < rows_in(&call, HM_STAGED_SECTION); row++) {
        unsigned stages = HM_NUMBER_AT(call.lists[HM_STAGED_SECTION].bytes + HM_ENTRY_BYTES * row, STAGES_PLACE);
        for (unsigned i = stages; i < STAGES; i++) {
            set_row(&call, HM_STAGED_SECTION, row, SIZE_PLACE + i, 0);
            set_row(&call, HM_STAGED_SECTION, row, AC_PLACE + i, 0);
            set_row(&call, HM_STAGED_SECTION, row, RE_PLACE + i, 0);
        }
    }
}

/* The book that is written becomes the call's; false where there is none. */
static bool write_rows(void) {
    call.function = WRITE_BOOK;
    call.out_len = LONGEST_BOOK + below(100);
    bool written = run_both(&call, &answer) == 0 && answer.written > 0 && answer.written <= LONGEST_BOOK;
    expect(written, "sound rows are written");
    if (!written)
        return false;
    call.book_len = answer.written;
    memcpy(call.book, last_out(), call.book_len);
    call.function = CHECK_BOOK;
    expect(run_both(&call, &answer) == 0, "a written book is sound");
    return true;
}

static void rows_and_back(void) {
    if (!write_rows())
        return;
    read_book();
    clear_past_stages();
    for (unsigned section = 0; section < SECTIONS; section++) {
        const struct list *written = &call.lists[section];
        expect(read[section].len == written->len, "a written book has as many entries as there were rows");
        expect(memcmp(read[section].bytes, written->bytes, written->len) == 0, "a written book gives back its rows");
    }
    write_again();
}

/* ---- what is drawn: many short ones, and one of the longest */

static void draw_any_book(void) {
    struct plans plans;
    call.function = one_in(2) ? STAGED_PLAN : CHECK_BOOK;
    call.size = between(2, one_in(2) ? 60 : 20000);
    call.level = below(7);
    call.column = below(26);
    call.severity = below(3);
    draw_book(&call, one_in(2), &plans);
}

static void draw_few_rows(void) {
    size_t rows;
    do {
        draw_rows(&call);
        rows = 0;
        for (unsigned section = 0; section < SECTIONS; section++)
            rows += rows_in(&call, section);
    } while (rows > 100);
}

void round_trips(void) {
    draw_fixed();
    memset(&call, 0, sizeof call);
    for (unsigned i = 0; i < DRAWN; i++) {
        draw_any_book();
        book_and_back();
        draw_few_rows();
        rows_and_back();
    }
    draw_long_rows(&call, LONGEST_BOOK);
    rows_and_back();
}
