/* A xorshift generator, for what is drawn at random. */
#ifndef RANDOM_H
#define RANDOM_H

#include <stdbool.h>
#include <stddef.h>
#include <stdint.h>

/* The state is 1 at first. What draw_state gives is the seed that draws the same again. */
void draw_seed(uint64_t seed);
uint64_t draw_state(void);

uint32_t draw_number(void);
uint32_t below(uint32_t n);                    /* 0 to n - 1 */
uint32_t between(uint32_t low, uint32_t high); /* both included */
bool one_in(uint32_t n);
void draw_bytes(uint8_t *bytes, size_t len);

/* Any element of an array. */
#define PICK(array) (array)[below(sizeof(array) / sizeof *(array))]

#endif
