/*
 * Lines for lotlog, drawn at random: lots and orders of a supply that goes well and badly by turns, and lines that are
 * damaged or long. Usage: lines SEED COUNT [drip]. After an odd seed the last line lacks its newline. With drip they
 * are written in small pieces, with a pause after each.
 */
#define _GNU_SOURCE
#include "../terminal/random.h"
#include "../terminal/reference.h"

#include <stdio.h>
#include <stdlib.h>
#include <string.h>
#include <time.h>
#include <unistd.h>

enum { LONGEST = 100000, ROOM = LONGEST + 256, KNOWN_LENGTH = 45 };

static char line[ROOM];
static size_t len;

/* ---- lots and orders */

static uint32_t any_number(void) {
    uint32_t bits = below(32);
    return draw_number() >> bits;
}

static uint32_t draw_size(void) {
    static const uint32_t edges[] = {0,    1,     2,     8,     9,     15,     16,     25,     26,     50,         51,
                                     90,   91,    150,   151,   280,   281,    500,    501,    1200,   1201,       3200,
                                     3201, 10000, 10001, 35000, 35001, 150000, 150001, 500000, 500001, 4294967295u};
    return one_in(4) ? PICK(edges) : one_in(2) ? between(2, 200) : between(2, 100000);
}

/* What the normal or the tightened table has for a lot; where it has nothing, a small plan. */
struct plan {
    uint16_t n, ac, table_n;
};

static struct plan draw_plan(uint32_t size, uint32_t level, uint32_t column) {
    static const uint8_t no_book[8] = {0};
    struct plan plan = {5, 1, 5};
    uint8_t letter, cut;
    ref_plan(size, level, column, below(2), no_book, sizeof no_book, &letter, &plan.n, &plan.ac, &plan.table_n, &cut);
    return plan;
}

/* As many items as a table size, or one fewer or more; at times only in the low 16 bits. */
static uint32_t size_beside(uint32_t table_n) {
    return table_n - 1 + below(3) + (one_in(10) ? between(1, 65535) << 16 : 0);
}

/* A total at or beside the Ac of the plan, or at most two thirds of it, or any. */
static uint32_t draw_total(struct plan plan, bool good) {
    if (one_in(60))
        return one_in(2) ? plan.n + below(2) : any_number();
    if (one_in(4))
        return between(plan.ac > 0 ? plan.ac - 1u : 0u, plan.ac + 1u);
    return good ? below(plan.ac * 2u / 3 + 1) : plan.ac + 1u + below(3);
}

static void draw_lot(bool good) {
    char letter = one_in(8) ? 'R' : 'L';
    uint32_t size = draw_size(), level = one_in(50) ? any_number() : below(7);
    uint32_t column = one_in(50) ? any_number() : below(26);
    if (one_in(6))
        size = size_beside(draw_plan(size, level, column).table_n);
    uint32_t total = draw_total(draw_plan(size, level, column), good);
    len = (size_t)sprintf(line, "%c %u %u %u %u", letter, (unsigned)size, (unsigned)level, (unsigned)column,
                          (unsigned)total);
}

static void draw_order(void) {
    char letter = one_in(2) ? 'S' : 'P';
    uint32_t number = one_in(12) ? below(12) : !one_in(3);
    len = one_in(2) ? (size_t)sprintf(line, "C") : (size_t)sprintf(line, "%c %u", letter, (unsigned)number);
}

/* ---- damage */

static void insert(size_t at, const char *bytes, size_t n) {
    memmove(line + at + n, line + at, len - at);
    memcpy(line + at, bytes, n);
    len += n;
}

static void insert_text(size_t at, const char *text) {
    insert(at, text, strlen(text));
}

/* The place after a space of the line, or its end where there is none. */
static size_t field_start(void) {
    size_t starts[8], n = 0;
    for (size_t i = 0; i < len && n < 8; i++)
        if (line[i] == ' ')
            starts[n++] = i + 1;
    return n == 0 ? len : starts[below((uint32_t)n)];
}

static void damage_space(void) {
    static const char *const others[] = {"\t", "  ", ",", "\v", "", " 0", " +", " \t"};
    size_t at = field_start();
    if (at < len) {
        memmove(line + at - 1, line + at, len - at);
        len--;
        insert_text(at - 1, PICK(others));
    }
}

static void damage_number(void) {
    static const char *const numbers[] = {"4294967295",
                                          "4294967296",
                                          "4294967297",
                                          "42949672950",
                                          "99999999999",
                                          "18446744073709551616",
                                          "18446744073709551617",
                                          "00",
                                          "6",
                                          "7",
                                          "25",
                                          "26",
                                          "-1",
                                          "+1",
                                          "1.0",
                                          "1e3",
                                          "0x1",
                                          ""};
    size_t at = field_start(), end = at;
    while (end < len && line[end] != ' ')
        end++;
    memmove(line + at, line + end, len - end);
    len -= end - at;
    insert_text(at, PICK(numbers));
}

static void damage_byte(void) {
    static const char likely[] = " 0123456789LRSPC\t\r\n+-.,xlrspc";
    size_t at = below((uint32_t)len + 1);
    char byte = one_in(4) ? (char)below(256) : PICK(likely);
    if (one_in(3) || at == len) {
        insert(at, &byte, 1);
    } else if (one_in(2)) {
        line[at] = byte;
    } else {
        memmove(line + at, line + at + 1, len - at - 1);
        len--;
    }
}

/* A line that is as long as one of a known form can be, a little less or more, or far longer. */
static void make_long(void) {
    size_t wanted = one_in(60) ? between(1000, LONGEST) : one_in(3) ? between(60, 1000) : KNOWN_LENGTH - 3 + below(8);
    if (one_in(3))
        len = (size_t)sprintf(line, "L 4294967295 4294967295 4294967295 429496729");
    char byte = (char)(one_in(3) ? ' ' : one_in(2) ? line[0] : (char)between('0', '9'));
    while (len < wanted)
        line[len++] = byte;
}

static void damage_line(void) {
    static const char *const added[] = {" ", " 0", "\r", "\t", " 1 1", "0", "\\", "  "};
    size_t at = one_in(3) ? 0 : len;
    switch (below(9)) {
    case 0:
        len = 0;
        break;
    case 1:
        damage_space();
        break;
    case 2:
        insert_text(at, PICK(added));
        break;
    case 3:
        damage_number();
        break;
    case 4:
        len = one_in(2) ? below((uint32_t)len + 1) : field_start() - (len > 1);
        break;
    case 5:
        make_long();
        break;
    default:
        damage_byte();
    }
}

static void draw_line(bool good) {
    if (one_in(8))
        draw_order();
    else
        draw_lot(good);
    if (one_in(10))
        damage_line();
    if (one_in(60))
        damage_line();
}

/* ---- writing */

static void put(const char *bytes, size_t n, bool drip) {
    static const struct timespec pause = {0, 300000};
    while (drip && n > 0) {
        size_t most = between(1, 24), piece = n < most ? n : most;
        if (write(STDOUT_FILENO, bytes, piece) != (ssize_t)piece)
            exit(1);
        nanosleep(&pause, NULL);
        bytes += piece;
        n -= piece;
    }
    if (n > 0 && fwrite(bytes, 1, n, stdout) != n)
        exit(1);
}

int main(int argc, char **argv) {
    uint64_t seed = argc > 2 ? strtoull(argv[1], NULL, 0) : 0;
    unsigned long count = argc > 2 ? strtoul(argv[2], NULL, 0) : 0;
    bool drip = argc > 3 && strcmp(argv[3], "drip") == 0, good = true, open = seed % 2 == 1;
    /* what is drawn must not depend on the pieces that it is written in */
    draw_seed(seed * 0x9e3779b97f4a7c15u + 1);
    for (unsigned long i = 0; i < count; i++) {
        if (one_in(25))
            good = !one_in(3);
        draw_line(good);
        if (i + 1 < count || !open)
            line[len++] = '\n';
        uint64_t state = draw_state();
        put(line, len, drip);
        draw_seed(state);
    }
    return fflush(stdout) != 0;
}
