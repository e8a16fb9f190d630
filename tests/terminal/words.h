/*
 * Calls written as words, at AQL 1.0 and level II, on a record:
 *   F1    a lot of letter F, one of whose items does not conform, closed in the mode of fractions
 *   F'1   the same at AQL 1.5
 *   f1    the same, of another size and level that have the letter
 *   oF1   closed in the old mode        sF1   closed by stages
 *   cF1   closed in the old mode, curtailed
 *   rF1, roF1, rsF1, rcF1   resubmitted
 *   qF1   judged on a sequential plan   vF1   judged on a variables plan      wF1   the same between two limits
 *   kF1   judged on a sigma plan        xF1   the same between two limits
 *   b3    entered as history byte 3, with no sample
 * Letters are E to J. Their own boxes at AQL 1.0 and 1.5:
 *                 E          F          G          H          J
 *   normal        0    1/3   1/3  1/2   1/2  1     1    2     2    3
 *   tightened     down 0     0    1/3   1/3  1/2   1/2  1     1    2
 */
#ifndef WORDS_H
#define WORDS_H

#include "call.h"

/* A book with the reduced plans of all letters, and the other plans of F to H at AQL 1.0, sigma plans of F alone. */
void put_words_book(struct call *call);

/* Sets all but the call's record and book to what the word says, and gives what stands after it. */
const char *put_word(struct call *call, const char *word);

#endif
