/*
 * Compares the proved library (libterminal.a, hm_ functions) with an independent reading of the documents
 * (reference.c). Usage: compare [SEED [CASES]]. Its status is 0 only where nothing differed and everything that can
 * occur did.
 */
#include "cases.h"
#include "draw.h"

#include <stdio.h>
#include <stdlib.h>

enum { CASES = 1420000, SUPPLIES = 12, SUPPLY_EVENTS = 3000 };

int main(int argc, char **argv) {
    static struct call call;
    struct answer answer;
    unsigned long long seed = argc > 1 ? strtoull(argv[1], NULL, 0) : 0x2859183142239510u;
    unsigned long cases = argc > 2 ? strtoul(argv[2], NULL, 0) : CASES;
    printf("seed 0x%016llx, %lu cases, %d supplies of %d events\n", seed, cases, SUPPLIES, SUPPLY_EVENTS);
    draw_seed(seed);
    for (unsigned long i = 0; i < cases; i++) {
        draw_case(&call);
        run_both(&call, &answer);
    }
    bool ok = long_supplies(SUPPLIES, SUPPLY_EVENTS);
    published_cases();
    exhaustive_cases();
    fraction_cases();
    every_fraction();
    every_stage();
    writing_cases();
    every_entry();
    round_trips();
    curtailed_cases();
    every_curtailed();
    whole_lot_cases();
    every_size();
    limit_cases();
    fifth_section_cases();
    every_side();
    refusal_cases();
    history_cases();
    ok = summary() && ok;
    printf("%s\n", ok ? "the proved library and the reference agree" : "FAILED");
    return ok ? 0 : 1;
}
