/* Lists of histories that are not drawn: the worked ones, every short one, every room, and one of over 2^24 bytes. */
#include "../../include/hipomoake.h"
#include "cases.h"
#include "draw.h"
#include "reference.h"

#include <stdlib.h>
#include <string.h>

enum { NORMAL, TIGHTENED, REDUCED, STOPPED, KNOWN = 10 };

static struct call call;
static struct answer answer;

static void begin(void) {
    memset(&call, 0, sizeof call);
    call.function = LIST;
}

/* Appends a history that is written as bytes a space apart, each with x and how many of it there are, or one. */
static void put_history(const char *text) {
    char *end;
    for (; *text != '\0'; text = *end == ' ' ? end + 1 : end) {
        uint8_t byte = (uint8_t)strtoul(text, &end, 10);
        for (unsigned long n = *end == 'x' ? strtoul(end + 1, &end, 10) : 1; n > 0; n--)
            call.sample[call.sample_len++] = byte;
    }
}

static void expect_list(uint64_t status, const char *what) {
    if (run_both(&call, &answer) != status)
        report(what, &call);
}

/* ---- worked: the list and the record moved byte by byte end at the severity */

static void expect_end(const char *history, unsigned severity) {
    uint8_t record[RECORD] = HM_FRESH_RECORD;
    begin();
    put_history(history);
    call.out_len = call.sample_len;
    expect_list(0, "a worked history is listed");
    if (last_out()[call.sample_len - 1] != severity)
        report("the severity after a worked history, listed", &call);
    for (size_t i = 0; i < call.sample_len; i++)
        if (hm_next(record, RECORD, call.sample[i]) != 0 || record[0] != last_out()[i])
            report("the severity after a byte of a worked history, by the record", &call);
}

static void worked_histories(void) {
    expect_end("3 0x3 3", TIGHTENED);
    expect_end("3 0x4 3", NORMAL);
    expect_end("5 7 0x10", REDUCED);
    expect_end("5 7 0x9", NORMAL);
    expect_end("5 7 3x7", STOPPED);
    expect_end("5 7 3x7 9", TIGHTENED);
    /* steady and permission stay through changes of severity; each history, and one that is a byte short of it */
    expect_end("5 7 3x2 0x15", REDUCED);
    expect_end("5 7 3x2 0x14", NORMAL);
    expect_end("5 7 3x7 9 0x15", REDUCED);
    expect_end("5 7 3x7 9 0x14", NORMAL);
    expect_end("5 7 0x10 3 0x10", REDUCED);
    expect_end("5 7 0x10 3 0x9", NORMAL);
    expect_end("3x2 5 7 0x15", REDUCED);
    expect_end("3x2 5 7 0x14", NORMAL);
    expect_end("3x7 5 7 9 0x15", REDUCED);
    expect_end("3x7 5 7 9 0x14", NORMAL);
    expect_end("0x10 7 5", REDUCED);
    expect_end("0x10 7", NORMAL);
}

/* A history's status has the byte's place. */
static void worked_refusals(void) {
    static const struct {
        const char *history;
        unsigned number, place;
    } worked[] = {
        {"10", 1, 0},         {"255", 1, 0},   {"0 0 10", 1, 2},   {"0 10 9", 1, 1},
        {"3x7 5 7 10", 1, 9}, {"3x7 0", 5, 7}, {"3x7 4", 5, 7},    {"3x7 0 1 2 3 9 10", 5, 7},
        {"9", 10, 0},         {"0 9", 10, 1},  {"3x7 9 9", 10, 8}, {"5 7 0x10 9 9", 10, 12},
    };
    for (unsigned i = 0; i < sizeof worked / sizeof *worked; i++) {
        begin();
        put_history(worked[i].history);
        for (call.out_len = 0; call.out_len <= call.sample_len; call.out_len++)
            expect_list(worked[i].number | worked[i].place << 8, "a worked history is refused, whatever its buffer");
    }
}

/* ---- every history of a few bytes after another, byte 10 standing for all that are unknown; then a short buffer */

static void every_ending(size_t more) {
    call.out_len = call.sample_len;
    uint64_t status = run_both(&call, &answer);
    if (call.out_len > 0 && status == 0) {
        call.out_len--;
        expect_list(11, "a buffer that is one short");
    }
    if (more == 0 || status != 0)
        return;
    call.sample_len++;
    for (uint8_t byte = 0; byte <= KNOWN; byte++) {
        call.sample[call.sample_len - 1] = byte;
        every_ending(more - 1);
    }
    call.sample_len--;
}

static void every_history(void) {
    /* one from a change, or just after one: reduced, tightened, normal, stopped; and a window that is nearly full */
    static const char *const starts[] = {"5 7 0x9",  "5 7 0x10", "5 7 0x10 1", "7 5 0x9 4", "1x14 7 5",
                                         "5 7 1x14", "5 7 1x15", "0x10 1",     "3 0x3",     "3 0x4",
                                         "3x2 0x4",  "3x5 0x4",  "3x6",        "3x7",       "3x7 9"};
    begin();
    every_ending(4);
    for (unsigned i = 0; i < sizeof starts / sizeof *starts; i++) {
        begin();
        put_history(starts[i]);
        every_ending(3);
    }
}

static void every_unknown_byte(void) {
    begin();
    put_history("0 5 10");
    call.out_len = call.sample_len;
    for (unsigned byte = KNOWN; byte < 256; byte++) {
        call.sample[2] = (uint8_t)byte;
        expect_list(1 | 2 << 8, "a byte over 9 is of no known form");
    }
}

static void every_room(void) {
    begin();
    put_history("5 7 0x10 3 0x7 3x5");
    for (call.out_len = 0; call.out_len <= call.sample_len + 20; call.out_len++)
        expect_list(call.out_len < call.sample_len ? 11 : 0, "a buffer as long as the history is enough");
}

/* ---- a history whose bad byte has a place of over 24 bits: clean lots that have no permission, then any bytes */

enum { LONG = (1 << 24) + 300, BAD_AT = (1 << 24) + 261 };

static void hold_long(const uint8_t *history, uint8_t *listed, uint8_t *expected, size_t room, uint64_t status) {
    memset(listed, 77, LONG);
    memset(expected, 77, LONG);
    if (ref_list(history, LONG, expected, room) != status)
        report("the reference's status of a history of over 2^24 bytes", &call);
    if (hm_list(history, LONG, listed, room) != status)
        report("the status of a history of over 2^24 bytes", &call);
    if (memcmp(listed, expected, LONG) != 0)
        report("the list of a history of over 2^24 bytes", &call);
}

static void long_history(void) {
    uint8_t *history = malloc(LONG), *listed = malloc(LONG), *expected = malloc(LONG), record[RECORD] = {0, 30};
    begin();
    if (history == NULL || listed == NULL || expected == NULL) {
        report("no memory for a history of over 2^24 bytes", &call);
    } else {
        memset(history, 0, LONG);
        for (size_t i = 1 << 24; i < LONG;) {
            history[i] = (uint8_t)below(KNOWN);
            i += ref_next(record, RECORD, history[i]) == 0;
        }
        hold_long(history, listed, expected, LONG, 0);
        hold_long(history, listed, expected, LONG - 1, 11);
        history[BAD_AT] = KNOWN;
        hold_long(history, listed, expected, LONG - 1, 1 | (uint64_t)BAD_AT << 8);
    }
    free(history);
    free(listed);
    free(expected);
}

void history_cases(void) {
    draw_fixed();
    worked_histories();
    worked_refusals();
    every_history();
    every_unknown_byte();
    every_room();
    long_history();
}
