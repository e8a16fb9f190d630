/* Calls written as words. See words.h. */
#include "words.h"

#include "book.h"
#include "reference.h"
#include "sides.h"

enum { AQL_1_0 = 10, AQL_1_5 = 11, LETTER_E = 4, LETTER_F = 5, LETTER_H = 7, LETTER_J = 8 };

/* ---- the book: two stages of one item, a sequential plan that one item decides, two readings */

static void put_numbers(struct call *c, const unsigned *numbers, unsigned n) {
    for (unsigned i = 0; i < n; i++)
        put_book(c, numbers[i]);
}

static void put_body(struct call *c, unsigned section) {
    static const unsigned reduced[] = {3, 0}, staged[] = {2, 1, 1, 0, 2, 1, 2};
    static const unsigned sequential[] = {500, 500, 50000, 4, 2}, gauged[] = {2, 1000};
    static const unsigned *const bodies[SECTIONS] = {reduced, staged, sequential, gauged, gauged};
    static const unsigned lengths[SECTIONS] = {2, 7, 5, 2, 2};
    put_numbers(c, bodies[section], lengths[section]);
}

static void put_reduced(struct call *c) {
    put_book(c, 2 * (LETTER_J - LETTER_E + 1));
    for (unsigned letter = LETTER_E; letter <= LETTER_J; letter++)
        for (unsigned column = AQL_1_0; column <= AQL_1_5; column++) {
            put_book(c, letter);
            put_book(c, column);
            put_body(c, 0);
        }
}

void put_words_book(struct call *c) {
    c->book_len = 0;
    put_reduced(c);
    for (unsigned section = 1; section < SECTIONS; section++) {
        unsigned last = section == SIGMA_SECTION ? LETTER_F : LETTER_H;
        put_book(c, 3 * (last - LETTER_F + 1));
        for (unsigned severity = 0; severity < 3; severity++)
            for (unsigned letter = LETTER_F; letter <= last; letter++) {
                const unsigned key[] = {severity, letter, AQL_1_0};
                put_numbers(c, key, 3);
                put_body(c, section);
            }
    }
}

/* ---- the words */

/* Sizes that have the letters E to J at level II, and at level I. */
static void put_lot(struct call *c, char letter) {
    static const struct {
        char letter;
        uint32_t size, level;
    } lots[] = {{'E', 80, 5},  {'F', 100, 5}, {'G', 200, 5},  {'H', 300, 5},  {'J', 600, 5},
                {'e', 200, 4}, {'f', 400, 4}, {'g', 1000, 4}, {'h', 2000, 4}, {'j', 5000, 4}};
    unsigned i = 0;
    while (lots[i].letter != letter)
        i++;
    c->size = lots[i].size;
    c->level = lots[i].level;
}

static enum function function_of(char kind) {
    switch (kind) {
    case 'o':
        return CLOSE_SINGLE;
    case 's':
        return CLOSE_STAGED;
    case 'c':
        return CLOSE_CURTAILED;
    case 'q':
        return SEQUENTIAL;
    case 'v':
        return UPPER;
    case 'w':
        return BOTH;
    case 'k':
        return SIGMA_UPPER;
    case 'x':
        return SIGMA_BOTH;
    case 'b':
        return NEXT;
    default:
        return CLOSE_FRACTIONAL;
    }
}

/* How many items the plan takes: staged goes on after a bad item, curtailed ends with the one that is too many. */
static unsigned items_for(const struct call *c, unsigned bad) {
    uint8_t letter, share, cut;
    uint16_t n = 0, ac = 0, table_n;
    if (c->function == SEQUENTIAL)
        return 1;
    if (c->function == CLOSE_STAGED)
        return bad > 0 ? 2 : 1;
    if (c->function == CLOSE_SINGLE || c->function == CLOSE_CURTAILED)
        ref_plan(c->size, c->level, c->column, c->record[0], c->book, c->book_len, &letter, &n, &ac, &table_n, &cut);
    else
        ref_fractional_plan(c->size, c->level, c->column, c->record[0], c->book, c->book_len, &letter, &n, &ac, &share,
                            &table_n, &cut);
    return c->function == CLOSE_CURTAILED && bad > ac ? ac + 1u : n;
}

/* The first items are bad; of two readings that are alike, bad ones are above the limit, or above the upper one. */
static void put_sample(struct call *c, unsigned bad) {
    bool readings = judges_readings(c->function);
    unsigned n = readings ? 2 : items_for(c, bad);
    c->limit = 1;
    c->lower_limit = -1;
    c->lower_column = c->column;
    c->sigma = 1000;
    c->sample_len = 0;
    for (unsigned i = 0; i < n; i++)
        put_item(c, readings ? 2 * bad : i < bad);
}

const char *put_word(struct call *c, const char *word) {
    c->resubmitted = *word == 'r' ? 4 : 0;
    word += *word == 'r';
    c->function = function_of(*word);
    word += c->function != CLOSE_FRACTIONAL;
    c->severity = c->record[0];
    c->record_len = RECORD;
    if (c->function == NEXT) {
        c->event = (uint32_t)(*word - '0');
        return word + 1;
    }
    put_lot(c, *word++);
    c->column = *word == '\'' ? AQL_1_5 : AQL_1_0;
    word += *word == '\'';
    put_sample(c, (unsigned)(*word - '0'));
    return word + 1;
}
