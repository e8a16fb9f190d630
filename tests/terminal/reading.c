/*
 * The written reading of a history. It keeps no record: each figure is counted back from the end of the present stay,
 * and it shares no code with the record of reference.c. See reference.h.
 */
#include "reference.h"

#include <stdbool.h>

enum { NORMAL, TIGHTENED, REDUCED, STOPPED };
enum { ADD_3, ADD_2, SCORE_0, NOT_ACCEPTED, RESUBMITTED, STEADY, NOT_STEADY, PERMISSION, WITHDRAWN, CORRECTIVE };

struct stay {
    unsigned severity;
    size_t start;
};

static bool is_original(uint8_t byte) {
    return byte <= NOT_ACCEPTED;
}

/* The last five original lots of the stay as bits, the newest in bit 0, 1 for one not accepted. */
static unsigned last_five(const uint8_t *history, size_t start, size_t end) {
    unsigned bits = 0, lots = 0;
    while (end > start && lots < 5) {
        uint8_t byte = history[--end];
        if (is_original(byte))
            bits |= (unsigned)(byte == NOT_ACCEPTED) << lots++;
    }
    return bits;
}

/* Whether at least two of the bits are 1. */
static bool two_of(unsigned bits) {
    return (bits & (bits - 1)) != 0;
}

/* The accepted lots of the stay after the last one not accepted. */
static unsigned accepted_in_a_row(const uint8_t *history, size_t start, size_t end) {
    unsigned lots = 0;
    while (end > start && history[end - 1] != NOT_ACCEPTED)
        lots += is_original(history[--end]);
    return lots;
}

static unsigned not_accepted_in(const uint8_t *history, size_t start, size_t end) {
    unsigned lots = 0;
    while (end > start)
        lots += history[--end] == NOT_ACCEPTED;
    return lots;
}

/* The points of the stay after its last score 0, cut to 30: once there, no earlier lot counts. */
static unsigned points_in(const uint8_t *history, size_t start, size_t end) {
    unsigned points = 0;
    while (end > start && points < 30) {
        uint8_t byte = history[--end];
        if (byte == SCORE_0 || byte == NOT_ACCEPTED)
            break;
        points += byte == ADD_3 ? 3 : byte == ADD_2 ? 2 : 0;
    }
    return points > 30 ? 30 : points;
}

/* As last ordered, else no, as at the start. */
static bool as_ordered(const uint8_t *history, size_t end, uint8_t yes, uint8_t no) {
    while (end > 0) {
        uint8_t byte = history[--end];
        if (byte == yes || byte == no)
            return byte == yes;
    }
    return false;
}

static unsigned refused_byte(unsigned severity, uint8_t byte) {
    if (byte > CORRECTIVE)
        return 1;
    if (byte <= RESUBMITTED && severity == STOPPED)
        return 5;
    return byte == CORRECTIVE && severity != STOPPED ? 10 : 0;
}

/* The severity after the byte before end, which is the last of the stay. */
static unsigned severity_after(const uint8_t *history, struct stay stay, size_t end) {
    uint8_t byte = history[end - 1];
    bool ends_reduced = byte == NOT_ACCEPTED || byte == NOT_STEADY || byte == WITHDRAWN;
    switch (stay.severity) {
    case NORMAL:
        if (byte == NOT_ACCEPTED && two_of(last_five(history, stay.start, end)))
            return TIGHTENED;
        if (byte != RESUBMITTED && points_in(history, stay.start, end) == 30 &&
            as_ordered(history, end, STEADY, NOT_STEADY) && as_ordered(history, end, PERMISSION, WITHDRAWN))
            return REDUCED;
        return NORMAL;
    case TIGHTENED:
        if (accepted_in_a_row(history, stay.start, end) == 5)
            return NORMAL;
        return not_accepted_in(history, stay.start, end) == 5 ? STOPPED : TIGHTENED;
    case REDUCED:
        return ends_reduced ? NORMAL : REDUCED;
    default:
        return byte == CORRECTIVE ? TIGHTENED : STOPPED;
    }
}

/* Reads the whole history from nothing; out, where it is lent, gets the severity after each byte. */
static uint64_t read_stays(const uint8_t *history, size_t len, struct stay *stay, uint8_t *out) {
    *stay = (struct stay){NORMAL, 0};
    for (size_t i = 0; i < len; i++) {
        unsigned number = refused_byte(stay->severity, history[i]);
        if (number != 0)
            return number | (uint64_t)i << 8;
        unsigned severity = severity_after(history, *stay, i + 1);
        if (severity != stay->severity)
            *stay = (struct stay){severity, i + 1};
        if (out != NULL)
            out[i] = (uint8_t)severity;
    }
    return 0;
}

uint64_t ref_read_list(const uint8_t *history, size_t len, uint8_t *severities, size_t room) {
    struct stay stay;
    uint64_t status = read_stays(history, len, &stay, NULL);
    if (status != 0)
        return status;
    return room < len ? 11 : read_stays(history, len, &stay, severities);
}

/* ---- the clean run: what was entered beside the bytes, read back from the newest original lot */

/* How many lots, this one included, have one nonconforming item among them at most; 0 where the box is no fraction. */
static unsigned lots_of_share(const struct entered *lot, unsigned severity) {
    static const unsigned rows[][2] = {[NORMAL] = {15, 16}, [TIGHTENED] = {16, 17}};
    unsigned s = (unsigned)lot->letter + lot->column;
    if (!lot->in_mode || lot->column > 15 || severity > TIGHTENED)
        return 0;
    return s == rows[severity][0] ? 3 : s == rows[severity][1] ? 2 : 0;
}

/* The place of the newest original lot of the stay before end, or end where there is none. */
static size_t newest_before(const uint8_t *history, size_t start, size_t end) {
    for (size_t i = end; i > start; i--)
        if (is_original(history[i - 1]))
            return i - 1;
    return end;
}

/* Whether the newest original lots of the stay before end, that many of them, were clean on the fraction of the lot. */
static bool newest_clean(const uint8_t *history, const struct entered *entered, struct stay stay, size_t end,
                         unsigned lots, const struct entered *on) {
    for (; lots > 0; lots--) {
        size_t newest = newest_before(history, stay.start, end);
        if (newest == end || lots_of_share(&entered[newest], stay.severity) == 0 || entered[newest].total != 0)
            return false;
        if (entered[newest].letter != on->letter || entered[newest].column != on->column)
            return false;
        end = newest;
    }
    return true;
}

/* The clean run stands on the plan of the newest original lot. */
static void read_clean(const uint8_t *history, const struct entered *entered, struct stay stay, size_t len,
                       uint8_t clean[3]) {
    size_t newest = newest_before(history, stay.start, len);
    clean[0] = clean[1] = clean[2] = 0;
    if (newest == len || !newest_clean(history, entered, stay, len, 1, &entered[newest]))
        return;
    clean[0] = newest_clean(history, entered, stay, len, 2, &entered[newest]) ? 2 : 1;
    clean[1] = entered[newest].letter;
    clean[2] = entered[newest].column;
}

unsigned ref_read_verdict(const uint8_t *history, const struct entered *entered, size_t len) {
    struct stay stay;
    const struct entered *lot = &entered[len];
    if (read_stays(history, len, &stay, NULL) != 0)
        return 2;
    unsigned lots = lots_of_share(lot, stay.severity);
    if (lots == 0 || lot->total != 1)
        return lots == 0 ? 2 : lot->total == 0;
    return newest_clean(history, entered, stay, len, lots - 1, lot);
}

uint64_t ref_read_record(const uint8_t *history, const struct entered *entered, size_t len, uint8_t record[10]) {
    struct stay stay;
    uint64_t status = read_stays(history, len, &stay, NULL);
    if (status != 0)
        return status;
    bool normal = stay.severity == NORMAL, tightened = stay.severity == TIGHTENED;
    record[0] = (uint8_t)stay.severity;
    record[1] = normal ? (uint8_t)points_in(history, stay.start, len) : 0;
    record[2] = tightened ? (uint8_t)accepted_in_a_row(history, stay.start, len) : 0;
    record[3] = tightened ? (uint8_t)not_accepted_in(history, stay.start, len) : 0;
    record[4] = normal ? (uint8_t)last_five(history, stay.start, len) : 0;
    record[5] = as_ordered(history, len, STEADY, NOT_STEADY);
    record[6] = as_ordered(history, len, PERMISSION, WITHDRAWN);
    read_clean(history, entered, stay, len, record + 7);
    return 0;
}
