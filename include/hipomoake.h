/*
 * Hipomoake for C: acceptance sampling by attributes (single, in full or curtailed, with fractional acceptance numbers
 * or without; staged; sequential) and by variables (s method, or sigma method where the spread is known; one limit or
 * two), with the severity record of a supply and the severities of its history.
 *
 * THE ARCHIVE. `rt lib`, in the folder crates/terminal, writes out/libterminal.a there, for Linux on x86-64 (x86-64-v2).
 * On an Arm machine, link with a cross compiler (x86_64-linux-gnu-gcc -static) and run the program under an emulator
 * (qemu-x86_64 -cpu max).
 *
 * STATUS. Every function returns a uint32_t: 0 (HM_ANSWERED) when it answered; else the number of its refusal in the
 * low byte (HM_NUMBER) and the refusal's place in the 24 bits above (HM_PLACE). hm_list alone returns a uint64_t, with
 * 56 bits for the place (HM_LIST_NUMBER, HM_LIST_PLACE). A place is the byte of a broken book, or of a history, or the
 * position of a bad entry; elsewhere it is 0. On a refusal nothing is written: all memory holds what it held before the
 * call. Of several reasons to refuse, HM_BROKEN_BOOK is given first, then the lowest number, but for two walks: a
 * staged, sequential or curtailed sample gives whichever of HM_BAD_LENGTH and HM_BAD_ITEM is met first, and a history
 * its first bad byte before HM_SHORT_BUFFER. No number passed by value is out of bounds: garbage is refused, never
 * undefined.
 *
 * MEMORY. All memory is the caller's. A function keeps no pointer after it returns, allocates nothing, and has no
 * state of its own: calls on different memory may run at the same time. Pointers are never null (a length of 0 still
 * takes a valid pointer), out-parameters are aligned as their types ask, and what is written overlaps nothing else
 * that is passed. Byte arrays need no alignment. Lengths count bytes.
 *
 * NUMBERS IN BYTES. A number in a book, a sample, a row of readings, of stages or of an entry is 16 bits, low byte
 * first. A reading is in two's complement.
 *
 * THE LOT, in every function that takes one:
 *   size      items in the lot, 2 or more
 *   level     inspection level, HM_LEVEL_S1 to HM_LEVEL_III
 *   column    AQL, HM_AQL_0_010 to HM_AQL_1000; to HM_AQL_10 nonconforming items are counted, above nonconformities
 *   severity  HM_NORMAL, HM_TIGHTENED, HM_REDUCED or HM_STOPPED; a function that takes a record takes it from there
 *   book      the plan book, checked whole at every call and every severity; a bench without one lends HM_NO_BOOK
 *
 * THE SAMPLE, in functions on attributes: the items in the order inspected, one number each; to HM_AQL_10 each is 0
 * (conforms) or 1 (does not), above it the item's nonconformities, 0 to 65,535. A single sample has exactly the plan's
 * n items. A staged sample ends with the stage that decides, a sequential one with the item that decides. A curtailed
 * one ends with the item at which its total passes the single plan's Ac, where it does, and else at n.
 *
 * THE BOOK: at most HM_BOOK_BYTES bytes, sections in this order, each after its count of entries; nothing follows. The
 * first four are always there, the fifth where anything follows the fourth: a book without it has no sigma plans.
 * An entry's numbers up to the bar are its key; keys rise strictly within a section, compared from the first number.
 *   1  reduced singles  letter column | n Ac                                n 1 to 3,150, Ac to 65,534
 *   2  staged           severity letter column | stages size.. Ac Re Ac Re..
 *                       stages 2 to 7, each size 1 to 2,000, Re to 65,534; neither Ac nor Re falls from stage to stage,
 *                       Ac is under Re, the last Re is Ac + 1. An Ac of HM_MARK (no acceptance at that stage) is exempt
 *                       from these, stands only before stages with a number, and never at the last.
 *   3  sequential       severity letter column | hA hR g nt At
 *                       hA and hR in thousandths, 1 or more; g in hundred-thousandths, 1 to 60,000; nt 1 to 3,150;
 *                       floor(g nt - hA) <= At < ceiling(g nt + hR)
 *   4  variables        severity letter column | n K                        n 2 to 50, K (k in thousandths) 1 to 4,000
 *   5  sigma            as 4, for readings whose spread is known; where it is there it has an entry or more
 * Severity is HM_NORMAL to HM_REDUCED; letter, HM_LETTER_A to HM_LETTER_R, is that of Table 1 for the lot's size and
 * level (hm_letter); column is 0 to 25 in sections 1 and 2, 0 to 15 in 3 to 5. The place of a broken book is the
 * lowest that applies: a number out of range, at its start; two numbers that break a rule, at the later; a key that
 * does not rise, at the entry's first number; a fifth count of 0, at that count; bytes after section 5, at the first; a
 * number missing or half there, at the length: so one stray byte after section 4 is half a fifth count.
 *
 * ENTRIES AS ROWS. A book need not be typed: hm_write_book makes one from its entries, and hm_read_entry shows an entry
 * of one. In both an entry is a row of numbers, two bytes each, which begins with its key:
 *   reduced singles  letter column n Ac                                     HM_REDUCED_NUMBERS, 4
 *   staged           severity letter column stages, seven sizes, seven Ac, seven Re; what stands past the entry's own
 *                    stages counts for nothing, and is shown as 0           HM_STAGED_NUMBERS, 25
 *   sequential       severity letter column hA hR g nt At                   HM_SEQUENTIAL_NUMBERS, 8
 *   variables        severity letter column n K                             HM_VARIABLES_NUMBERS, 5
 *   sigma            the same                                               HM_SIGMA_NUMBERS, 5
 * After its first four numbers a staged row is as hm_staged_plan tells one: HM_STAGE_SIZE(HM_ENTRY_STAGES(row), stage),
 * and so HM_STAGE_AC and HM_STAGE_RE.
 *
 * THE RECORD: HM_RECORD_BYTES bytes, one record for each supply, which starts as HM_FRESH_RECORD. In order:
 * severity; score (0 to 30); run (accepted in a row, 0 to 4) and count (not accepted, 0 to 4) of a tightened stay;
 * window (the last five lots of a normal stay as bits, the newest in bit 0, 1 for one not accepted, at most one such);
 * steady; permission (each 0 or 1); clean run (0 to 2), and the letter and the column of the fraction it stands on.
 * Score and window are 0 outside normal, run and count outside tightened, letter and column beside a clean run of 0;
 * beside 1 or 2 they are a fraction at the record's severity, to HM_LETTER_R and HM_AQL_10. Keep it as it is between
 * calls; only the functions below change it. A record kept from before there were fractions has 7 bytes: three zero
 * bytes after them bring it up.
 *
 * FRACTIONS: a mode of single sampling, which the caller chooses lot by lot: hm_fractional_plan, hm_fractional and
 * hm_close_fractional. With s the code of the letter of Table 1 (hm_letter) plus the column, a lot is on a fraction at
 *   normal      s 15: one third    s 16: one half
 *   tightened   s 16: one third    s 17: one half
 * where the tables have arrows between Ac 0 and Ac 1. Its plan has that letter and the letter's own size, cut to the
 * lot. Above HM_AQL_10 a fraction is refused by HM_NO_PLAN. Any other lot is on the plan of hm_plan in this mode too.
 *   A sample with no nonconforming item is clean, and accepts. One with two or more is not accepted. One with one is
 * accepted on one half after a clean run of 1 or 2, on one third after 2, if the run stands on the lot's own letter and
 * column; else not. For the score a fraction counts as Ac 0.
 *   The clean run counts original lots, newest first and at most 2, that were closed by hm_close_fractional with clean
 * samples on one fraction since the severity last changed. So a clean sample on a fraction adds 1 to a run on that
 * fraction, and makes it 1 where there is none or it stands on another: a lot of another letter or column starts the
 * run again, one of another size or level under the same letter goes on with it. It is cleared, with its letter and
 * column, by a sample that is not clean, also where it is accepted; by any other original lot: on a whole Ac, closed by
 * hm_close_single, hm_close_curtailed or hm_close_staged (also a lot that would be on the same fraction), or entered by
 * hm_next as a byte; and by a change of severity, for the lot that changes it as well. Orders that leave the severity,
 * resubmitted lots, and sequential, variables and sigma lots leave the run as it is; a resubmitted lot is judged by the
 * run as it stands.
 *
 * THE HISTORY of a supply: one byte for each lot and each order, HM_ACCEPTED_ADD_3 to HM_CORRECTIVE, from a fresh
 * record on. The functions that close a lot tell its byte; the byte of hm_next is its event. A bench that keeps the
 * bytes of all that was answered can have its severities again from hm_list. Bytes do not tell the clean run.
 *   An original lot accepted under normal adds to the score: on a single plan 2 where Ac is 0 or 1, and 3 where Ac is 2
 * or more and the total is also within the Ac that the normal table has one column tighter at the letter of the plan;
 * on a staged plan 3 where it is accepted at the first of two stages, or at stage 1, 2 or 3 of three or more. Else it
 * takes the score to 0.
 *
 * EXAMPLE. Close an original lot of 1,000 at level II, AQL 1.0, on the record of its supply:
 *
 *     static const uint8_t no_book[] = HM_NO_BOOK;
 *     uint8_t supply[HM_RECORD_BYTES] = HM_FRESH_RECORD, sample[2 * 80] = {0}, accepted, byte;
 *     uint16_t used;
 *     sample[2 * 17] = 1;                                          // the 18th item does not conform
 *     uint32_t status = hm_close_single(supply, sizeof supply, HM_ORIGINAL, 1000, HM_LEVEL_II, HM_AQL_1_0, no_book,
 *                                       sizeof no_book, sample, sizeof sample, &accepted, &used, &byte);
 *     if (status != HM_ANSWERED)
 *         printf("refused %u at %u\n", (unsigned)HM_NUMBER(status), (unsigned)HM_PLACE(status));
 *     else
 *         printf("%s, %u items, next severity %u\n", accepted ? "accepted" : "not accepted", used,
 *                supply[HM_RECORD_SEVERITY]);
 */
#ifndef HIPOMOAKE_H
#define HIPOMOAKE_H

#include <stddef.h>
#include <stdint.h>

/* The parts of a status, and of the status of hm_list. */
#define HM_NUMBER(status) ((uint32_t)(status)&0xffu)
#define HM_PLACE(status) ((uint32_t)(status) >> 8)
#define HM_LIST_NUMBER(status) ((uint32_t)((uint64_t)(status)&0xffu))
#define HM_LIST_PLACE(status) ((uint64_t)(status) >> 8)

/* clang-format off */

/* The number of an answer, and the refusal numbers. */
enum {
    HM_ANSWERED     = 0,
    HM_UNKNOWN      = 1,  /* a severity over 3, an event or history byte over 9, a record out of range or length */
    HM_BAD_SIZE     = 2,  /* a lot size under 2 */
    HM_BAD_LEVEL    = 3,  /* a level over HM_LEVEL_III */
    HM_BAD_COLUMN   = 4,  /* a column over HM_AQL_1000; of two columns, either */
    HM_IS_STOPPED   = 5,  /* any lot, resubmitted ones too, while inspection is stopped */
    HM_NO_PLAN      = 6,  /* no book entry under the lot's key; a staged total, nt or the n of readings above the size;
                             a fraction at a column over HM_AQL_10; no such entry to read; a curtailed sample under
                             HM_REDUCED; two limits whose entries differ in n */
    HM_BAD_LENGTH   = 7,  /* a sample of the wrong length, half an item included; a curtailed one that stops before
                             the deciding item or n, or goes on past it; for hm_screen not 1 to 50 readings */
    HM_BAD_ITEM     = 8,  /* an item over 1 where items are 0 or 1 */
    HM_BAD_READING  = 9,  /* a reading or a limit not in -1,000 to 1,000; sigma not in 1 to 1,000; of two limits, a
                             lower one that is not below the upper */
    HM_NOT_STOPPED  = 10, /* a corrective order when inspection is not stopped */
    HM_SHORT_BUFFER = 11, /* fewer severities lent than the history has bytes; a row too short for a staged plan or an
                             entry; a book longer than the buffer lent for it, or than HM_BOOK_BYTES */
    HM_BROKEN_BOOK  = 12  /* the book breaks its layout, at the byte that is the place; over its length, at 32,768; of
                             entries to write, a bad one, at its position */
};

/* Inspection levels. */
enum { HM_LEVEL_S1, HM_LEVEL_S2, HM_LEVEL_S3, HM_LEVEL_S4, HM_LEVEL_I, HM_LEVEL_II, HM_LEVEL_III };

/* AQL columns, 0 to 25: HM_AQL_0_65 is AQL 0.65, HM_AQL_1_0 is AQL 1.0, HM_AQL_10 is AQL 10. */
enum {
    HM_AQL_0_010, HM_AQL_0_015, HM_AQL_0_025, HM_AQL_0_040, HM_AQL_0_065, HM_AQL_0_10, HM_AQL_0_15, HM_AQL_0_25,
    HM_AQL_0_40, HM_AQL_0_65, HM_AQL_1_0, HM_AQL_1_5, HM_AQL_2_5, HM_AQL_4_0, HM_AQL_6_5, HM_AQL_10,
    HM_AQL_15, HM_AQL_25, HM_AQL_40, HM_AQL_65, HM_AQL_100, HM_AQL_150, HM_AQL_250, HM_AQL_400, HM_AQL_650, HM_AQL_1000
};

/* Severities: what a record's first byte holds, what hm_list writes, and what the functions without a record take. */
enum { HM_NORMAL, HM_TIGHTENED, HM_REDUCED, HM_STOPPED };

/* Code letters, 0 to 16; I and O are no letters. HM_LETTERS[letter] is the letter itself. */
enum {
    HM_LETTER_A, HM_LETTER_B, HM_LETTER_C, HM_LETTER_D, HM_LETTER_E, HM_LETTER_F, HM_LETTER_G, HM_LETTER_H, HM_LETTER_J,
    HM_LETTER_K, HM_LETTER_L, HM_LETTER_M, HM_LETTER_N, HM_LETTER_P, HM_LETTER_Q, HM_LETTER_R, HM_LETTER_S
};
#define HM_LETTERS "ABCDEFGHJKLMNPQRS"

/* The bytes of a history: what hm_next takes as an event, and what a closed lot stands for. */
enum {
    HM_ACCEPTED_ADD_3   = 0, /* an original lot accepted, its score adding 3 */
    HM_ACCEPTED_ADD_2   = 1, /* an original lot accepted, its score adding 2 */
    HM_ACCEPTED_SCORE_0 = 2, /* an original lot accepted, its score going to 0; outside normal, any accepted one */
    HM_NOT_ACCEPTED     = 3, /* an original lot not accepted */
    HM_RESUBMITTED      = 4, /* a resubmitted lot, whatever its verdict: it changes nothing */
    HM_STEADY           = 5, /* order: production is steady */
    HM_NOT_STEADY       = 6, /* order: it is not, or no longer */
    HM_PERMISSION       = 7, /* order: reduced inspection is permitted */
    HM_WITHDRAWN        = 8, /* order: it is not, or no longer */
    HM_CORRECTIVE       = 9  /* order: corrective action was taken; only while stopped */
};

/* What the functions that close a lot take as resubmitted: this, or HM_RESUBMITTED. */
enum { HM_ORIGINAL = 0 };

/* What hm_fractional_plan tells as share: a whole Ac, or a fraction. */
enum { HM_WHOLE_AC = 0, HM_ONE_HALF = 2, HM_ONE_THIRD = 3 };

/* A record's length, the places in it that a bench shows, and the record of a new supply, for its initializer. */
#define HM_RECORD_BYTES 10
#define HM_RECORD_SEVERITY 0
#define HM_RECORD_SCORE 1
#define HM_RECORD_CLEAN_RUN 7
#define HM_RECORD_CLEAN_LETTER 8
#define HM_RECORD_CLEAN_COLUMN 9
#define HM_FRESH_RECORD { 0, 0, 0, 0, 0, 0, 0, 0, 0, 0 }

/* The longest book, the Ac that means no acceptance at its stage, and a book with no entries, for its initializer. */
#define HM_BOOK_BYTES 32768
#define HM_MARK 65535
#define HM_NO_BOOK { 0, 0, 0, 0, 0, 0, 0, 0 }

/* A number in bytes, counted from 0; and those of a row of hm_staged_plan: seven sizes, seven Ac, seven Re. */
#define HM_NUMBER_AT(bytes, at) ((uint16_t)((bytes)[2 * (at)] | (bytes)[2 * (at) + 1] << 8))
#define HM_STAGED_ROW_BYTES 42
#define HM_STAGE_SIZE(row, stage) HM_NUMBER_AT(row, stage)
#define HM_STAGE_AC(row, stage) HM_NUMBER_AT(row, 7 + (stage))
#define HM_STAGE_RE(row, stage) HM_NUMBER_AT(row, 14 + (stage))

/* The sections of a book by number (section 1 of THE BOOK is 0 here), how many numbers a row of each has, bytes enough
   for any row, and where in a staged entry's row the row of its stages begins. */
enum { HM_REDUCED_SECTION, HM_STAGED_SECTION, HM_SEQUENTIAL_SECTION, HM_VARIABLES_SECTION, HM_SIGMA_SECTION };
enum {
    HM_REDUCED_NUMBERS = 4, HM_STAGED_NUMBERS = 25, HM_SEQUENTIAL_NUMBERS = 8, HM_VARIABLES_NUMBERS = 5,
    HM_SIGMA_NUMBERS = 5
};
#define HM_ENTRY_BYTES 50
#define HM_ENTRY_STAGES(row) ((row) + 8)

/* clang-format on */

#ifdef __cplusplus
extern "C" {
#endif

/* ---- plans: what to draw */

/*
 * The letter of Table 1 for a lot, under which a book has its plans.
 *   letter  HM_LETTER_A to HM_LETTER_R
 * Refuses 2 3.
 */
uint32_t hm_letter(uint32_t size, uint32_t level, uint8_t *letter);

/*
 * The single sampling plan for a lot. Under reduced it comes from the book.
 *   letter   the letter that gives the size, HM_LETTER_A to HM_LETTER_S; under reduced that of Table 1
 *   n        items to inspect: table_n, or the whole lot where the lot has no more items than table_n
 *   ac       accept when the sample's total is at most this
 *   table_n  the table's own size, under reduced the book's, as it stands there
 *   cut      1 where the lot has no more items than table_n, also where it has as many: n is the whole lot; else 0
 * Refuses 1 2 3 4 5 6 12.
 *   table_n and cut came later, here and in hm_fractional_plan: every caller passes both, and is compiled anew. An
 * object made with an older header still links, and must not be used: it passes no place for them.
 */
uint32_t hm_plan(uint32_t size, uint32_t level, uint32_t column, uint32_t severity, const uint8_t *book,
                 size_t book_len, uint8_t *letter, uint16_t *n, uint16_t *ac, uint16_t *table_n, uint8_t *cut);

/*
 * The single sampling plan for a lot in the mode of fractions.
 *   letter, n, ac, table_n, cut
 *          as of hm_plan where share is HM_WHOLE_AC
 *   share  HM_WHOLE_AC, which is 0; else HM_ONE_HALF, 2, or HM_ONE_THIRD, 3: then letter is that of Table 1, table_n
 *          its size, n and cut by that size as of hm_plan, and ac 0
 * Refuses 1 2 3 4 5 6 12; 6 also for a fraction at a column over 15.
 */
uint32_t hm_fractional_plan(uint32_t size, uint32_t level, uint32_t column, uint32_t severity, const uint8_t *book,
                            size_t book_len, uint8_t *letter, uint16_t *n, uint16_t *ac, uint8_t *share,
                            uint16_t *table_n, uint8_t *cut);

/*
 * The staged plan for a lot, from the book.
 *   letter  that of Table 1
 *   stages  2 to 7
 *   row     sizes, Ac and Re of the stages (HM_STAGE_SIZE, HM_STAGE_AC, HM_STAGE_RE, of a stage counted from 0), and 0
 *           in the places past the last; only the first HM_STAGED_ROW_BYTES bytes are written. After each stage a
 *           running total of at most Ac accepts (none does where Ac is HM_MARK), one of at least Re rejects
 * Refuses 1 2 3 4 5 6 11 12.
 */
uint32_t hm_staged_plan(uint32_t size, uint32_t level, uint32_t column, uint32_t severity, const uint8_t *book,
                        size_t book_len, uint8_t *letter, uint8_t *stages, uint8_t *row, size_t row_len);

/*
 * The sequential plan for a lot, from the book: after item n with total D, accept when D <= g n - hA, reject when
 * D >= g n + hR; at item nt accept when D <= At, else reject.
 *   letter  that of Table 1
 *   ha, hr  in thousandths
 *   g       in hundred-thousandths
 * Refuses 1 2 3 4 5 6 12.
 */
uint32_t hm_sequential_plan(uint32_t size, uint32_t level, uint32_t column, uint32_t severity, const uint8_t *book,
                            size_t book_len, uint8_t *letter, uint16_t *ha, uint16_t *hr, uint16_t *g, uint16_t *nt,
                            uint16_t *at);

/*
 * The variables plan (s method) for a lot, from the book.
 *   letter  that of Table 1
 *   n       readings to take
 *   k       in thousandths
 * Refuses 1 2 3 4 5 6 12.
 */
uint32_t hm_variables_plan(uint32_t size, uint32_t level, uint32_t column, uint32_t severity, const uint8_t *book,
                           size_t book_len, uint8_t *letter, uint16_t *n, uint16_t *k);

/* ---- verdicts that move no record */

/*
 * Judge a sample by the lot's single plan, its staged plan, its sequential plan.
 *   accepted  1 or 0
 *   used      items used: all of the sample
 * Each refuses 1 2 3 4 5 6 7 8 12.
 */
uint32_t hm_single(uint32_t size, uint32_t level, uint32_t column, uint32_t severity, const uint8_t *book,
                   size_t book_len, const uint8_t *sample, size_t sample_len, uint8_t *accepted, uint16_t *used);
uint32_t hm_staged(uint32_t size, uint32_t level, uint32_t column, uint32_t severity, const uint8_t *book,
                   size_t book_len, const uint8_t *sample, size_t sample_len, uint8_t *accepted, uint16_t *used);
uint32_t hm_sequential(uint32_t size, uint32_t level, uint32_t column, uint32_t severity, const uint8_t *book,
                       size_t book_len, const uint8_t *sample, size_t sample_len, uint8_t *accepted, uint16_t *used);

/*
 * Judge a curtailed sample by the lot's single plan (n and Ac of hm_plan), under normal or tightened: counting stops at
 * the item at which the total passes Ac, since the lot is then lost, whatever the rest would hold; an accepted lot is
 * still counted to n. The lot is accepted or not as hm_single says of any legal full sample that begins so.
 *   accepted  1 or 0
 *   used      items used: all of the sample; n where the lot is accepted
 * A terminal that asks after each item, from the first on, with all items so far, goes on while it hears HM_BAD_LENGTH
 * and stops at the first answer: with anything more the sample is HM_BAD_LENGTH again, and stays so. At n items it
 * means that the end was passed; hm_single judges those. Where the lot is to be closed then, ask with the severity of
 * its record, record[HM_RECORD_SEVERITY].
 * Refuses 1 2 3 4 5 6 7 8 12; 6 under HM_REDUCED, whatever the book has: there the sample is counted in full; 7 for a
 * sample that stops before the deciding item or n, or goes on past it.
 */
uint32_t hm_curtailed(uint32_t size, uint32_t level, uint32_t column, uint32_t severity, const uint8_t *book,
                      size_t book_len, const uint8_t *sample, size_t sample_len, uint8_t *accepted, uint16_t *used);

/*
 * Judge readings by the lot's variables plan (s method) against an upper or a lower limit.
 *   readings  exactly the plan's n, in gauge units from nominal, each -1,000 to 1,000
 *   limit     in the same units, -1,000 to 1,000
 *   accepted  1 or 0
 *   used      the plan's n
 * Each refuses 1 2 3 4 5 6 7 9 12.
 */
uint32_t hm_variables_upper(uint32_t size, uint32_t level, uint32_t column, uint32_t severity, const uint8_t *book,
                            size_t book_len, const uint8_t *readings, size_t readings_len, int32_t limit,
                            uint8_t *accepted, uint16_t *used);
uint32_t hm_variables_lower(uint32_t size, uint32_t level, uint32_t column, uint32_t severity, const uint8_t *book,
                            size_t book_len, const uint8_t *readings, size_t readings_len, int32_t limit,
                            uint8_t *accepted, uint16_t *used);

/*
 * The same with a known spread (sigma method), by the plan of the book's fifth section: with the sum S of the readings
 * an upper limit U accepts when 1,000,000 (n U - S) >= K sigma n, a lower one L when 1,000,000 (S - n L) >= K sigma n.
 * How many readings to take is the n of that plan, as the book has it (hm_read_entry, HM_SIGMA_SECTION).
 *   sigma  the spread in thousandths of a gauge unit, 1 to 1,000: choose the unit no finer than the spread
 * Each refuses 1 2 3 4 5 6 7 9 12; 6 also where the book has no fifth section.
 */
uint32_t hm_sigma_upper(uint32_t size, uint32_t level, uint32_t column, uint32_t severity, const uint8_t *book,
                        size_t book_len, const uint8_t *readings, size_t readings_len, int32_t limit, uint32_t sigma,
                        uint8_t *accepted, uint16_t *used);
uint32_t hm_sigma_lower(uint32_t size, uint32_t level, uint32_t column, uint32_t severity, const uint8_t *book,
                        size_t book_len, const uint8_t *readings, size_t readings_len, int32_t limit, uint32_t sigma,
                        uint8_t *accepted, uint16_t *used);

/*
 * Judge readings against two separate limits, by the s method or with a known spread: the lot is accepted where the
 * upper limit accepts with the K under the upper column, and the lower limit with the K under the lower column. Both
 * columns are looked up under the lot's severity and letter; they may be the same. That is still no combined control,
 * one AQL over both limits, which this library does not have: lots that combined control rejects can pass here.
 *   upper_column, lower_column
 *                 the AQL of each limit, as column elsewhere
 *   readings      exactly the n that both plans have: that of hm_variables_plan, or of the book's sigma plans
 *   upper, lower  in gauge units from nominal, -1,000 to 1,000, the lower below the upper
 *   sigma         of hm_sigma_both: as above
 *   accepted      1 or 0
 *   used          the n that both plans have
 * Each refuses 1 2 3 4 5 6 7 9 12; 4 for either column; 6 where either has no entry, the two differ in n, or n is
 * above the size. (In the tables of ISO 3951-1 n differs by AQL within a letter, so that most pairs of columns typed
 * from them are 6. In its older edition the n of the s method is the letter's; that of the sigma method is not.)
 */
uint32_t hm_variables_both(uint32_t size, uint32_t level, uint32_t upper_column, uint32_t lower_column,
                           uint32_t severity, const uint8_t *book, size_t book_len, const uint8_t *readings,
                           size_t readings_len, int32_t upper, int32_t lower, uint8_t *accepted, uint16_t *used);
uint32_t hm_sigma_both(uint32_t size, uint32_t level, uint32_t upper_column, uint32_t lower_column, uint32_t severity,
                       const uint8_t *book, size_t book_len, const uint8_t *readings, size_t readings_len,
                       int32_t upper, int32_t lower, uint32_t sigma, uint8_t *accepted, uint16_t *used);

/*
 * Judge a sample in the mode of fractions, at the severity and by the clean run of a record, which stays as it is.
 *   accepted  1 or 0
 *   used      items used: all of the sample
 * Refuses 1 2 3 4 5 6 7 8 12; 6 also for a fraction at a column over 15.
 */
uint32_t hm_fractional(const uint8_t *record, size_t record_len, uint32_t size, uint32_t level, uint32_t column,
                       const uint8_t *book, size_t book_len, const uint8_t *sample, size_t sample_len,
                       uint8_t *accepted, uint16_t *used);

/* ---- the record and the history of a supply */

/*
 * Judge a sample at the record's severity, by the lot's single plan (hm_close_curtailed: a curtailed sample), its
 * staged plan, or its single plan in the mode of fractions, and move the record by the verdict. A resubmitted lot is
 * judged alike and leaves the record as it is. A curtailed sample moves the record as any legal full one that begins
 * so. hm_close_curtailed may be called after each item too: its first answer closes the lot, and has to be the last
 * call for it. The record, and so the plan, may have changed, and the same items can close another lot.
 *   resubmitted  HM_ORIGINAL, which is 0, for an original lot; HM_RESUBMITTED, or anything else, for a resubmitted one
 *   accepted     1 or 0
 *   used         items used: all of the sample
 *   byte         the history byte that the lot stands for, HM_ACCEPTED_ADD_3 to HM_RESUBMITTED
 * Each refuses 1 2 3 4 5 6 7 8 12; hm_close_fractional gives 6 also for a fraction at a column over 15,
 * hm_close_curtailed under HM_REDUCED, whatever the book has: there the lot is closed by hm_close_single.
 */
uint32_t hm_close_single(uint8_t *record, size_t record_len, uint32_t resubmitted, uint32_t size, uint32_t level,
                         uint32_t column, const uint8_t *book, size_t book_len, const uint8_t *sample,
                         size_t sample_len, uint8_t *accepted, uint16_t *used, uint8_t *byte);
uint32_t hm_close_staged(uint8_t *record, size_t record_len, uint32_t resubmitted, uint32_t size, uint32_t level,
                         uint32_t column, const uint8_t *book, size_t book_len, const uint8_t *sample,
                         size_t sample_len, uint8_t *accepted, uint16_t *used, uint8_t *byte);
uint32_t hm_close_fractional(uint8_t *record, size_t record_len, uint32_t resubmitted, uint32_t size, uint32_t level,
                             uint32_t column, const uint8_t *book, size_t book_len, const uint8_t *sample,
                             size_t sample_len, uint8_t *accepted, uint16_t *used, uint8_t *byte);
uint32_t hm_close_curtailed(uint8_t *record, size_t record_len, uint32_t resubmitted, uint32_t size, uint32_t level,
                            uint32_t column, const uint8_t *book, size_t book_len, const uint8_t *sample,
                            size_t sample_len, uint8_t *accepted, uint16_t *used, uint8_t *byte);

/*
 * Move the record by one event, HM_ACCEPTED_ADD_3 to HM_CORRECTIVE: an order, or an attributes lot judged elsewhere,
 * its byte chosen by its points (THE HISTORY, above). Such a lot clears the clean run unless it is resubmitted. Never a
 * lot judged on a sequential, variables or sigma plan: those enter neither the record nor the history.
 * Refuses 1 5 10.
 */
uint32_t hm_next(uint8_t *record, size_t record_len, uint32_t event);

/*
 * The severity after each byte of a history of any length, from a fresh record.
 *   severities  gets len of them; the rest of its room bytes stays
 * Refuses 1 5 10, at the first bad byte, counted from 0 (one past 2^56 - 1 is told as that); then 11.
 */
uint64_t hm_list(const uint8_t *history, size_t len, uint8_t *severities, size_t room);

/* ---- the book and the screen */

/* Check a book, as each function that takes one does first. Refuses 12. */
uint32_t hm_check_book(const uint8_t *book, size_t book_len);

/*
 * Write the book of these entries: five lists of rows, each row right after the one before it. Within a list the keys
 * rise, as in a book. A section with no entries is a list of length 0, its pointer valid all the same; where the fifth
 * list is empty, the book has no fifth section.
 *   out      gets the book; its bytes past the book stay. HM_BOOK_BYTES are enough for any book
 *   written  how many bytes the book has
 * Refuses 12 at the first bad entry: a number out of range, a rule broken, a key that does not rise after the row
 * before it, or a row cut short at the end of its list. Its place is the entry's position, counted from 0 through the
 * five lists. Then 11, for a book longer than out, or than HM_BOOK_BYTES.
 *   The fifth list came later: every caller passes it, and is compiled anew. An object made with an older header still
 * links, and must not be used: it passes no list where this function takes one.
 */
uint32_t hm_write_book(const uint8_t *reduced, size_t reduced_len, const uint8_t *staged, size_t staged_len,
                       const uint8_t *sequential, size_t sequential_len, const uint8_t *variables, size_t variables_len,
                       const uint8_t *sigma, size_t sigma_len, uint8_t *out, size_t out_len, uint32_t *written);

/*
 * How many entries a section of a book has, HM_REDUCED_SECTION to HM_SIGMA_SECTION; one that is not there has 0.
 * Refuses 12.
 */
uint32_t hm_count_entries(const uint8_t *book, size_t book_len, uint32_t section, uint32_t *count);

/*
 * The entry of a section that is nth from its first, counted from 0, as a row. The book is checked whole at each call.
 *   row      gets the row, two bytes a number; its bytes past the row stay. HM_ENTRY_BYTES are enough for any
 *   numbers  how many numbers the row has, by its section: 4, 25, 8, 5 or 5
 * Refuses 12; then 6 where there is no such entry; then 11 where row has fewer bytes than the section's rows: 8, 50,
 * 16, 10 or 10.
 */
uint32_t hm_read_entry(const uint8_t *book, size_t book_len, uint32_t section, uint32_t nth, uint8_t *row,
                       size_t row_len, uint32_t *numbers);

/*
 * The figures for the screen, of 1 to 50 readings of -1,000 to 1,000.
 *   mean      sum / n, rounded once
 *   variance  (n W - S S) / (n (n - 1)) of the sum S and the sum of squares W, rounded once; one reading has none,
 *             and *variance then stays as it was
 *   both      1 where there is a variance, 0 where there is the mean alone
 * Refuses 7 9.
 */
uint32_t hm_screen(const uint8_t *readings, size_t readings_len, double *mean, double *variance, uint8_t *both);

#ifdef __cplusplus
}
#endif

#endif
