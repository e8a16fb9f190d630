/* The cases that are not drawn one by one. Each holds the proved library to what is written, by run_both and report. */
#ifndef CASES_H
#define CASES_H

#include <stdbool.h>

/* What the standards, T-07's source among them, and document 01 publish, and the worked cases of T-02. */
void published_cases(void);

/* Every letter and plan of the tables, every row of stages, every record by every event, and the longest books. */
void exhaustive_cases(void);

/* The worked cases of T-01, and annex A of ISO 2859-1 in the mode of fractions. */
void fraction_cases(void);

/* Every fraction by every run and total, every clean run in a record by every event, every short run of mixed calls. */
void every_fraction(void);

/* T-02: every stage of every number of stages, accepted there and not, by every record but stopped and clean runs. */
void every_stage(void);

/* T-03, and its five lists since T-07: rows and books written out, positions of bad entries, the longest books. */
void writing_cases(void);

/* T-03: every number of a row at its edges, every order of keys, every cut, every room, every mixture of refusals. */
void every_entry(void);

/* T-03: drawn books read as rows and written again, and drawn rows written and read back. */
void round_trips(void);

/* T-04: worked samples, the record after them, reduced and stopped, and refusals in their order. */
void curtailed_cases(void);

/* T-04: every full sample of small plans has one beginning that is answered, and as the full count is. */
void every_curtailed(void);

/* T-05: worked plans that are the whole lot and plans that are not, by the tables, a book and a fraction. */
void whole_lot_cases(void);

/* T-05: every size of the tables and of a book beside lots of as many items, fewer and more, and past 16 bits. */
void every_size(void);

/* T-07: worked verdicts beside one limit and two, by both methods, refusals in their order, and old books. */
void limit_cases(void);

/* T-07: worked and broken books of five sections, every beginning and tail of one, and each function that takes one. */
void fifth_section_cases(void);

/* T-07: every margin beside what is needed, every two columns, limits and n, every sigma, reading, lot and mixture. */
void every_side(void);

/* Every mixture of what a lot can be refused for, in each function that takes one. */
void refusal_cases(void);

/* Worked histories, every short one from a fresh record and from others, every room, and one of over 2^24 bytes. */
void history_cases(void);

/*
 * Long supplies from a fresh record, with a history of what each closed lot is told to be. Each record is held to a
 * fresh reading of the whole history so far, and the list of the history to the severities. False where some change of
 * severity never occurred.
 */
bool long_supplies(unsigned supplies, unsigned events);

#endif
