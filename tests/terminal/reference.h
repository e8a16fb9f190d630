/*
 * A plain reading of document 01, and of T-01 to T-05 and T-07 of document 02, in C, written from the documents alone.
 * A ref_ function answers as the hm_ function of the same name in hipomoake.h must. The last ones have none: lotlog's
 * closing, and the written reading of a history.
 */
#ifndef REFERENCE_H
#define REFERENCE_H

#include <stddef.h>
#include <stdint.h>

uint32_t ref_letter(uint32_t size, uint32_t level, uint8_t *letter);
uint32_t ref_plan(uint32_t size, uint32_t level, uint32_t column, uint32_t severity, const uint8_t *book,
                  size_t book_len, uint8_t *letter, uint16_t *n, uint16_t *ac, uint16_t *table_n, uint8_t *cut);
uint32_t ref_fractional_plan(uint32_t size, uint32_t level, uint32_t column, uint32_t severity, const uint8_t *book,
                             size_t book_len, uint8_t *letter, uint16_t *n, uint16_t *ac, uint8_t *share,
                             uint16_t *table_n, uint8_t *cut);
uint32_t ref_staged_plan(uint32_t size, uint32_t level, uint32_t column, uint32_t severity, const uint8_t *book,
                         size_t book_len, uint8_t *letter, uint8_t *stages, uint8_t *row, size_t row_len);
uint32_t ref_sequential_plan(uint32_t size, uint32_t level, uint32_t column, uint32_t severity, const uint8_t *book,
                             size_t book_len, uint8_t *letter, uint16_t *ha, uint16_t *hr, uint16_t *g, uint16_t *nt,
                             uint16_t *at);
uint32_t ref_variables_plan(uint32_t size, uint32_t level, uint32_t column, uint32_t severity, const uint8_t *book,
                            size_t book_len, uint8_t *letter, uint16_t *n, uint16_t *k);
uint32_t ref_single(uint32_t size, uint32_t level, uint32_t column, uint32_t severity, const uint8_t *book,
                    size_t book_len, const uint8_t *sample, size_t sample_len, uint8_t *accepted, uint16_t *used);
uint32_t ref_staged(uint32_t size, uint32_t level, uint32_t column, uint32_t severity, const uint8_t *book,
                    size_t book_len, const uint8_t *sample, size_t sample_len, uint8_t *accepted, uint16_t *used);
uint32_t ref_sequential(uint32_t size, uint32_t level, uint32_t column, uint32_t severity, const uint8_t *book,
                        size_t book_len, const uint8_t *sample, size_t sample_len, uint8_t *accepted, uint16_t *used);
uint32_t ref_curtailed(uint32_t size, uint32_t level, uint32_t column, uint32_t severity, const uint8_t *book,
                       size_t book_len, const uint8_t *sample, size_t sample_len, uint8_t *accepted, uint16_t *used);
uint32_t ref_variables_upper(uint32_t size, uint32_t level, uint32_t column, uint32_t severity, const uint8_t *book,
                             size_t book_len, const uint8_t *readings, size_t readings_len, int32_t limit,
                             uint8_t *accepted, uint16_t *used);
uint32_t ref_variables_lower(uint32_t size, uint32_t level, uint32_t column, uint32_t severity, const uint8_t *book,
                             size_t book_len, const uint8_t *readings, size_t readings_len, int32_t limit,
                             uint8_t *accepted, uint16_t *used);
uint32_t ref_variables_both(uint32_t size, uint32_t level, uint32_t upper_column, uint32_t lower_column,
                            uint32_t severity, const uint8_t *book, size_t book_len, const uint8_t *readings,
                            size_t readings_len, int32_t upper, int32_t lower, uint8_t *accepted, uint16_t *used);
uint32_t ref_sigma_upper(uint32_t size, uint32_t level, uint32_t column, uint32_t severity, const uint8_t *book,
                         size_t book_len, const uint8_t *readings, size_t readings_len, int32_t limit, uint32_t sigma,
                         uint8_t *accepted, uint16_t *used);
uint32_t ref_sigma_lower(uint32_t size, uint32_t level, uint32_t column, uint32_t severity, const uint8_t *book,
                         size_t book_len, const uint8_t *readings, size_t readings_len, int32_t limit, uint32_t sigma,
                         uint8_t *accepted, uint16_t *used);
uint32_t ref_sigma_both(uint32_t size, uint32_t level, uint32_t upper_column, uint32_t lower_column, uint32_t severity,
                        const uint8_t *book, size_t book_len, const uint8_t *readings, size_t readings_len,
                        int32_t upper, int32_t lower, uint32_t sigma, uint8_t *accepted, uint16_t *used);
uint32_t ref_fractional(const uint8_t *record, size_t record_len, uint32_t size, uint32_t level, uint32_t column,
                        const uint8_t *book, size_t book_len, const uint8_t *sample, size_t sample_len,
                        uint8_t *accepted, uint16_t *used);
uint32_t ref_close_single(uint8_t *record, size_t record_len, uint32_t resubmitted, uint32_t size, uint32_t level,
                          uint32_t column, const uint8_t *book, size_t book_len, const uint8_t *sample,
                          size_t sample_len, uint8_t *accepted, uint16_t *used, uint8_t *byte);
uint32_t ref_close_staged(uint8_t *record, size_t record_len, uint32_t resubmitted, uint32_t size, uint32_t level,
                          uint32_t column, const uint8_t *book, size_t book_len, const uint8_t *sample,
                          size_t sample_len, uint8_t *accepted, uint16_t *used, uint8_t *byte);
uint32_t ref_close_fractional(uint8_t *record, size_t record_len, uint32_t resubmitted, uint32_t size, uint32_t level,
                              uint32_t column, const uint8_t *book, size_t book_len, const uint8_t *sample,
                              size_t sample_len, uint8_t *accepted, uint16_t *used, uint8_t *byte);
uint32_t ref_close_curtailed(uint8_t *record, size_t record_len, uint32_t resubmitted, uint32_t size, uint32_t level,
                             uint32_t column, const uint8_t *book, size_t book_len, const uint8_t *sample,
                             size_t sample_len, uint8_t *accepted, uint16_t *used, uint8_t *byte);
uint32_t ref_next(uint8_t *record, size_t record_len, uint32_t event);
uint64_t ref_list(const uint8_t *history, size_t len, uint8_t *severities, size_t room);
uint32_t ref_check_book(const uint8_t *book, size_t book_len);
uint32_t ref_write_book(const uint8_t *reduced, size_t reduced_len, const uint8_t *staged, size_t staged_len,
                        const uint8_t *sequential, size_t sequential_len, const uint8_t *variables,
                        size_t variables_len, const uint8_t *sigma, size_t sigma_len, uint8_t *out, size_t out_len,
                        uint32_t *written);
uint32_t ref_count_entries(const uint8_t *book, size_t book_len, uint32_t section, uint32_t *count);
uint32_t ref_read_entry(const uint8_t *book, size_t book_len, uint32_t section, uint32_t nth, uint8_t *row,
                        size_t row_len, uint32_t *numbers);
uint32_t ref_screen(const uint8_t *readings, size_t readings_len, double *mean, double *variance, uint8_t *both);

/*
 * lotlog's closing: a total in place of the sample, and no book, so that a lot under reduced is refused by 6. It tells
 * the plan as well, whole.
 */
uint32_t ref_close_total(uint8_t *record, size_t record_len, uint32_t resubmitted, uint32_t size, uint32_t level,
                         uint32_t column, uint32_t total, uint8_t *letter, uint16_t *n, uint16_t *ac, uint16_t *table_n,
                         uint8_t *cut, uint8_t *accepted);

/*
 * What stands beside a history byte for the clean run: in the mode of fractions, the lot's own letter, its column and
 * the sample's total; all 0 beside an order, and beside a lot that entered as its byte, or with a sample of another
 * mode.
 */
struct entered {
    uint8_t in_mode, letter, column;
    uint32_t total;
};

/*
 * The written reading of a history: each figure is counted afresh from the bytes of the present stay. The list as
 * ref_list has it, and the record after the whole history, or the status of the first bad byte with nothing written.
 * The record's last three bytes need what was entered; the rest of it the bytes alone tell.
 */
uint64_t ref_read_list(const uint8_t *history, size_t len, uint8_t *severities, size_t room);
uint64_t ref_read_record(const uint8_t *history, const struct entered *entered, size_t len, uint8_t record[10]);

/*
 * The written reading of a verdict: 1 or 0 for the lot at len, whose own box is a fraction, from all that was entered
 * before it, with no record; 2 where that box is no fraction at the severity after the history.
 */
unsigned ref_read_verdict(const uint8_t *history, const struct entered *entered, size_t len);

#endif
