/* A xorshift generator. See random.h. */
#include "random.h"

#include <string.h>

static uint64_t state = 1;

void draw_seed(uint64_t seed) {
    state = seed != 0 ? seed : 1;
}

uint64_t draw_state(void) {
    return state;
}

static uint64_t draw(void) {
    state ^= state << 13;
    state ^= state >> 7;
    state ^= state << 17;
    return state * 0x2545f4914f6cdd1du;
}

uint32_t draw_number(void) {
    return (uint32_t)(draw() >> 32);
}

uint32_t below(uint32_t n) {
    return (uint32_t)((uint64_t)draw_number() * n >> 32);
}

uint32_t between(uint32_t low, uint32_t high) {
    return low + below(high - low + 1);
}

bool one_in(uint32_t n) {
    return below(n) == 0;
}

void draw_bytes(uint8_t *bytes, size_t len) {
    for (size_t i = 0; i < len; i += 8) {
        uint64_t bits = draw();
        memcpy(bytes + i, &bits, len - i < 8 ? len - i : 8);
    }
}
