/*
 * lotlog in plain C: document 01's program, with T-05's W, by getline and printf on the independent reading's plans and
 * record (tests/terminal/reference.c). tests/lotlog-random compares the proved program with it, and benchmarks/run
 * times both.
 */
#define _GNU_SOURCE
#include "../terminal/reference.h"

#include <stdbool.h>
#include <stdio.h>
#include <stdlib.h>
#include <string.h>

enum { STEADY = 5, NOT_STEADY, PERMISSION, WITHDRAWN, CORRECTIVE };
enum { RECORD_BYTES = 10, SEVERITY = 0, SCORE = 1, MOST_FIELDS = 5 };

static uint8_t record[RECORD_BYTES];

/* A decimal number without leading zeros, at most 4,294,967,295, that fills the field. */
static bool read_number(const char *field, size_t len, uint32_t *number) {
    uint64_t value = 0;
    if (len == 0 || len > 10 || (field[0] == '0' && len > 1))
        return false;
    for (size_t i = 0; i < len; i++) {
        if (field[i] < '0' || field[i] > '9')
            return false;
        value = 10 * value + (uint64_t)(field[i] - '0');
    }
    *number = (uint32_t)value;
    return value <= UINT32_MAX;
}

/* The numbers after the line's letter, each after one space: how many there are, or -1. */
static int read_numbers(const char *line, size_t len, uint32_t *numbers) {
    int n = 0;
    for (size_t at = 1; at < len;) {
        const char *end = memchr(line + at + 1, ' ', len - at - 1);
        size_t next = end != NULL ? (size_t)(end - line) : len;
        if (n == MOST_FIELDS || line[at] != ' ' || !read_number(line + at + 1, next - at - 1, &numbers[n]))
            return -1;
        n++;
        at = next;
    }
    return n;
}

/* The event of an order, or CORRECTIVE + 1. */
static unsigned order_event(char letter, int n, const uint32_t *numbers) {
    if (letter == 'C' && n == 0)
        return CORRECTIVE;
    if (letter == 'S' && n == 1 && numbers[0] <= 1)
        return numbers[0] == 1 ? STEADY : NOT_STEADY;
    if (letter == 'P' && n == 1 && numbers[0] <= 1)
        return numbers[0] == 1 ? PERMISSION : WITHDRAWN;
    return CORRECTIVE + 1;
}

static void print_refusal(unsigned long no, uint32_t number) {
    printf("%lu refused %u\n", no, (unsigned)number);
}

/* A W straight after n says that n is the whole lot. */
static void log_lot(unsigned long no, bool resubmitted, const uint32_t *numbers) {
    uint8_t severity = record[SEVERITY], letter, cut, accepted;
    uint16_t n, ac, table_n;
    uint32_t number = ref_close_total(record, sizeof record, resubmitted, numbers[0], numbers[1], numbers[2],
                                      numbers[3], &letter, &n, &ac, &table_n, &cut, &accepted);
    if (number != 0)
        print_refusal(no, number);
    else
        printf("%lu %c %c %u%s %u %s %c %u\n", no, "NTR"[severity], "ABCDEFGHJKLMNPQRS"[letter], n, cut ? "W" : "", ac,
               accepted ? "accept" : "reject", "NTRX"[record[SEVERITY]], record[SCORE]);
}

/* An event over CORRECTIVE is refused as of no known form. */
static void log_order(unsigned long no, unsigned event) {
    uint32_t number = ref_next(record, sizeof record, event);
    if (number != 0)
        print_refusal(no, number);
    else
        printf("%lu order %c %u\n", no, "NTRX"[record[SEVERITY]], record[SCORE]);
}

int main(void) {
    char *line = NULL;
    size_t room = 0;
    ssize_t got;
    uint32_t numbers[MOST_FIELDS];
    puts("no sev let n ac verdict next score");
    for (unsigned long no = 1; (got = getline(&line, &room, stdin)) > 0; no++) {
        size_t len = (size_t)got - (line[got - 1] == '\n');
        int n = len > 0 ? read_numbers(line, len, numbers) : -1;
        if (n == 4 && (line[0] == 'L' || line[0] == 'R'))
            log_lot(no, line[0] == 'R', numbers);
        else
            log_order(no, n < 0 ? CORRECTIVE + 1 : order_event(line[0], n, numbers));
    }
    free(line);
    return fflush(stdout) != 0;
}
