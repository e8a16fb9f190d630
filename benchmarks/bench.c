/*
 * Times the proved side and plain C on the same input, alternately, and prints a table of medians. Usage:
 *   bench time ROUNDS judged|emulated PROVED PLAIN LINES TENTH OUT   two programs lotlog, their two inputs, an output;
 *                              from 5 to 1,000 rounds
 *   bench name WORK            the work's name, and the size at which it is counted
 *   bench count WORK SIDE      the work once by one side (0 proved, 1 plain C), or only made ready (2)
 *   bench lines N              N lines for lotlog
 */
#define _GNU_SOURCE
#include "work.h"

#include <fcntl.h>
#include <stdbool.h>
#include <stdio.h>
#include <stdlib.h>
#include <string.h>
#include <sys/resource.h>
#include <sys/wait.h>
#include <time.h>
#include <unistd.h>

/* Rounds are taken in blocks of both sizes by turns, so that a machine that slows down slows both. */
enum { MOST_ROUNDS = 1000, BLOCKS = 5, FULL = 0, TENTH, SIZES };

static const double most_ratio = 1.2, sample_ns = 2e6;

static unsigned rounds;

/* Processor time, so that what else the machine does is not measured. */
static double now(void) {
    struct timespec t;
    clock_gettime(CLOCK_PROCESS_CPUTIME_ID, &t);
    return 1e9 * (double)t.tv_sec + (double)t.tv_nsec;
}

static int ascending(const void *a, const void *b) {
    double x = *(const double *)a, y = *(const double *)b;
    return (x > y) - (x < y);
}

static double median(double *times) {
    qsort(times, rounds, sizeof *times, ascending);
    return times[rounds / 2];
}

/* ---- one piece of work */

static double time_runs(const struct work *work, unsigned side, unsigned runs) {
    static volatile uint64_t kept;
    double start = now();
    for (unsigned i = 0; i < runs; i++)
        kept = work->run(&sides[side]);
    (void)kept;
    return (now() - start) / runs;
}

/* Runs until a sample is long enough for the clock. */
static unsigned runs_for(const struct work *work) {
    unsigned runs = 1;
    while (runs < 1u << 24 && time_runs(work, PLAIN, runs) * runs < sample_ns)
        runs *= 2;
    return runs;
}

static void make_ready(const struct work *work, size_t size) {
    work->prepare(size);
    if (work->run(&sides[PROVED]) != work->run(&sides[PLAIN])) {
        fprintf(stderr, "bench: the two sides answer differently: %s\n", work->name);
        exit(1);
    }
}

static void time_work(const struct work *work, double medians[SIZES][SIDES]) {
    static double times[SIZES][SIDES][MOST_ROUNDS];
    unsigned runs[SIZES] = {0};
    for (unsigned block = 0; block < BLOCKS; block++)
        for (unsigned size = 0; size < SIZES; size++) {
            make_ready(work, size == FULL ? work->full : work->full / 10);
            if (block == 0)
                runs[size] = runs_for(work);
            for (unsigned round = block * rounds / BLOCKS; round < (block + 1) * rounds / BLOCKS; round++)
                for (unsigned side = 0; side < SIDES; side++)
                    times[size][side][round] = time_runs(work, side, runs[size]);
        }
    for (unsigned size = 0; size < SIZES; size++)
        for (unsigned side = 0; side < SIDES; side++)
            medians[size][side] = median(times[size][side]);
}

/* ---- the two programs */

static const char *output;

static void run_program(const char *program, const char *input) {
    int in = open(input, O_RDONLY), out = open(output, O_WRONLY | O_CREAT | O_TRUNC, 0666);
    if (in < 0 || out < 0 || dup2(in, 0) < 0 || dup2(out, 1) < 0)
        _exit(126);
    execl(program, program, (char *)NULL);
    _exit(127);
}

static double time_program(const char *program, const char *input) {
    struct rusage used;
    int status;
    pid_t child = fork();
    if (child == 0)
        run_program(program, input);
    if (child < 0 || wait4(child, &status, 0, &used) < 0 || !WIFEXITED(status) || WEXITSTATUS(status) != 0) {
        fprintf(stderr, "bench: %s did not run\n", program);
        exit(1);
    }
    return 1e9 * (double)(used.ru_utime.tv_sec + used.ru_stime.tv_sec) +
           1e3 * (double)(used.ru_utime.tv_usec + used.ru_stime.tv_usec);
}

static void time_programs(char *const programs[SIDES], char *const inputs[SIZES], double medians[SIZES][SIDES]) {
    static double times[SIZES][SIDES][MOST_ROUNDS];
    for (unsigned round = 0; round < rounds; round++)
        for (unsigned size = 0; size < SIZES; size++)
            for (unsigned side = 0; side < SIDES; side++)
                times[size][side][round] = time_program(programs[side], inputs[size]);
    for (unsigned size = 0; size < SIZES; size++)
        for (unsigned side = 0; side < SIDES; side++)
            medians[size][side] = median(times[size][side]);
}

/* ---- the table */

static void print_time(double ns) {
    if (ns < 1e4)
        printf("%.0f ns | ", ns);
    else if (ns < 1e6)
        printf("%.1f µs | ", ns / 1e3);
    else
        printf("%.2f ms | ", ns / 1e6);
}

static void print_name(const char *name, size_t size, const char *unit) {
    if (size < 1000)
        printf("%s | %zu %s", name, size, unit);
    else if (size < 1000000)
        printf("%s | %zu,%03zu %s", name, size / 1000, size % 1000, unit);
    else
        printf("%s | %zu,%03zu,%03zu %s", name, size / 1000000, size / 1000 % 1000, size % 1000, unit);
}

static void print_row(double medians[SIZES][SIDES], double most_ns, bool judged) {
    const double *full = medians[FULL], *tenth = medians[TENTH];
    double ratio = full[PROVED] / full[PLAIN], growth = full[PROVED] / tenth[PROVED];
    bool met = ratio <= most_ratio && growth <= 10 * most_ratio && (most_ns == 0 || full[PROVED] < most_ns);
    printf(" | ");
    print_time(full[PROVED]);
    print_time(full[PLAIN]);
    printf("%.2f | %.1f | %.1f | %s |\n", ratio, growth, full[PLAIN] / tenth[PLAIN],
           !judged ? "emulated, not judged"
           : met   ? "met"
                   : "missed");
    fflush(stdout);
}

static void print_table(bool judged, char *const programs[SIDES], char *const inputs[SIZES]) {
    double medians[SIZES][SIDES];
    puts("| work | size | proved | plain C | ratio | proved × 10 | plain C × 10 | goal |");
    puts("|---|---|---|---|---|---|---|---|");
    for (unsigned i = 0; i < WORKS; i++) {
        time_work(&works[i], medians);
        printf("| ");
        print_name(works[i].name, works[i].full, works[i].unit);
        print_row(medians, works[i].most_ns, judged);
    }
    time_programs(programs, inputs, medians);
    printf("| lotlog | 100,000 lines");
    print_row(medians, 0, judged);
}

int main(int argc, char **argv) {
    const char *what = argc > 2 ? argv[1] : "";
    unsigned long number = argc > 2 ? strtoul(argv[2], NULL, 10) : 0;
    if (strcmp(what, "time") == 0 && argc == 9 && number >= BLOCKS && number <= MOST_ROUNDS) {
        rounds = (unsigned)number;
        output = argv[8];
        print_table(strcmp(argv[3], "judged") == 0, argv + 4, argv + 6);
    } else if (strcmp(what, "lines") == 0 && argc == 3) {
        print_lines(number);
    } else if (strcmp(what, "name") == 0 && argc == 3 && number < WORKS) {
        print_name(works[number].name, works[number].counted, works[number].unit);
    } else if (strcmp(what, "count") == 0 && argc == 4 && number < WORKS) {
        unsigned long side = strtoul(argv[3], NULL, 10);
        works[number].prepare(works[number].counted);
        return side < SIDES && works[number].run(&sides[side]) == 1;
    } else {
        fprintf(stderr, "usage: see benchmarks/bench.c\n");
        return 2;
    }
    return 0;
}
