/* The two sides that are timed, function for function: the proved archive and plain C. */
#ifndef SIDES_H
#define SIDES_H

#include <stddef.h>
#include <stdint.h>

/* The verdict on a sample, by its plan. */
typedef uint32_t judge(uint32_t size, uint32_t level, uint32_t column, uint32_t severity, const uint8_t *book,
                       size_t book_len, const uint8_t *sample, size_t sample_len, uint8_t *accepted, uint16_t *used);

/* The book of five lists of rows. */
typedef uint32_t writer(const uint8_t *reduced, size_t reduced_len, const uint8_t *staged, size_t staged_len,
                        const uint8_t *sequential, size_t sequential_len, const uint8_t *variables,
                        size_t variables_len, const uint8_t *sigma, size_t sigma_len, uint8_t *out, size_t out_len,
                        uint32_t *written);

enum { PROVED, PLAIN, SIDES };

struct side {
    uint32_t (*plan)(uint32_t size, uint32_t level, uint32_t column, uint32_t severity, const uint8_t *book,
                     size_t book_len, uint8_t *letter, uint16_t *n, uint16_t *ac, uint16_t *table_n, uint8_t *cut);
    uint32_t (*fractional_plan)(uint32_t size, uint32_t level, uint32_t column, uint32_t severity, const uint8_t *book,
                                size_t book_len, uint8_t *letter, uint16_t *n, uint16_t *ac, uint8_t *share,
                                uint16_t *table_n, uint8_t *cut);
    judge *single, *curtailed, *staged, *sequential;
    uint32_t (*variables)(uint32_t size, uint32_t level, uint32_t column, uint32_t severity, const uint8_t *book,
                          size_t book_len, const uint8_t *readings, size_t readings_len, int32_t limit,
                          uint8_t *accepted, uint16_t *used);
    uint32_t (*variables_both)(uint32_t size, uint32_t level, uint32_t upper_column, uint32_t lower_column,
                               uint32_t severity, const uint8_t *book, size_t book_len, const uint8_t *readings,
                               size_t readings_len, int32_t upper, int32_t lower, uint8_t *accepted, uint16_t *used);
    uint32_t (*sigma_both)(uint32_t size, uint32_t level, uint32_t upper_column, uint32_t lower_column,
                           uint32_t severity, const uint8_t *book, size_t book_len, const uint8_t *readings,
                           size_t readings_len, int32_t upper, int32_t lower, uint32_t sigma, uint8_t *accepted,
                           uint16_t *used);
    uint32_t (*close_fractional)(uint8_t *record, size_t record_len, uint32_t resubmitted, uint32_t size,
                                 uint32_t level, uint32_t column, const uint8_t *book, size_t book_len,
                                 const uint8_t *sample, size_t sample_len, uint8_t *accepted, uint16_t *used,
                                 uint8_t *byte);
    uint32_t (*check_book)(const uint8_t *book, size_t book_len);
    writer *write_book;
    uint64_t (*list)(const uint8_t *history, size_t len, uint8_t *severities, size_t room);
};

extern const struct side sides[SIDES];

#endif
