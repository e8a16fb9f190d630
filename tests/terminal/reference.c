/*
 * A plain reading of document 01, section by section, with the record kept from lot to lot, and of document 02: the
 * fractions of T-01, the score of T-02, the written book of T-03, the curtailed count of T-04, the table's own size of
 * T-05, and the two limits and the known spread of T-07. See reference.h.
 */
#include "reference.h"

#include <stdbool.h>
#include <string.h>

enum { NORMAL, TIGHTENED, REDUCED, STOPPED };
enum { ADD_3, ADD_2, SCORE_0, NOT_ACCEPTED, RESUBMITTED, STEADY, NOT_STEADY, PERMISSION, WITHDRAWN, CORRECTIVE };
enum { MARK = 65535, MOST_STAGES = 7, MOST_BOOK = 32768, ITEMS_COLUMN = 15, LETTER_A = 0, LETTER_E = 4, LETTER_R = 15 };
enum { MOST_CLEAN = 2 };

#define MOST_PLACE (((uint64_t)1 << 56) - 1)

static unsigned number_at(const uint8_t *bytes, size_t at) {
    return bytes[at] | (unsigned)bytes[at + 1] << 8;
}

/* ---- codes: Table 1 */

struct band {
    uint32_t up_to;
    char letters[8];
};

static const struct band table_1[] = {
    {8, "AAAAAAB"},     {15, "AAAAABC"},    {25, "AABBBCD"},     {50, "ABBCCDE"},     {90, "BBCCCEF"},
    {150, "BBCDDFG"},   {280, "BCDEEGH"},   {500, "BCDEFHJ"},    {1200, "CCEFGJK"},   {3200, "CDEGHKL"},
    {10000, "CDFGJLM"}, {35000, "CDFHKMN"}, {150000, "DEGJLNP"}, {500000, "DEGJMPQ"}, {UINT32_MAX, "DEHKNQR"},
};

/* The letters skip I and O. */
static unsigned letter_code(char letter) {
    return (unsigned)(letter - 'A' - (letter > 'I') - (letter > 'O'));
}

static unsigned table_letter(uint32_t size, uint32_t level) {
    const struct band *band = table_1;
    while (size > band->up_to)
        band++;
    return letter_code(band->letters[level]);
}

/* ---- single plans: the master tables */

enum { UP = -1, DOWN = -2 };

static const uint16_t table_sizes[] = {2, 3, 5, 8, 13, 20, 32, 50, 80, 125, 200, 315, 500, 800, 1250, 2000, 3150};

/* A box is an acceptance number, UP or DOWN. */
static int normal_box(unsigned letter, unsigned column) {
    static const uint8_t ac[] = {1, 2, 3, 5, 7, 10, 14, 21, 30, 44};
    unsigned s = letter + column;
    if (s < 14)
        return DOWN;
    if (s == 14)
        return 0;
    if (s == 15)
        return letter == LETTER_A ? DOWN : UP;
    if (s == 16)
        return letter == LETTER_R ? UP : DOWN;
    if (s > 26 || (s > 24 && letter > LETTER_E))
        return UP;
    return ac[s - 17];
}

static int tightened_box(unsigned letter, unsigned column) {
    static const uint8_t ac[] = {1, 2, 3, 5, 8, 12, 18, 27, 41};
    unsigned s = letter + column;
    if (s < 15)
        return DOWN;
    if (s == 15)
        return 0;
    if (s == 16)
        return letter == LETTER_A ? DOWN : UP;
    if (s == 17)
        return DOWN;
    if (s > 26 || (s > 24 && letter > LETTER_E))
        return UP;
    return ac[s - 18];
}

/*
 * Of a fraction the share is 2 or 3, for one half and one third, and Ac is 0; of any other plan the share is 0. The
 * last two figures are known where the lot is: the size before it was cut to the lot, and 1 or 0 for whether it was.
 */
struct single_plan {
    unsigned letter, n, ac, share, table_n, cut;
};

static struct single_plan table_plan(unsigned letter, unsigned column, unsigned severity) {
    int (*box_at)(unsigned, unsigned) = severity == NORMAL ? normal_box : tightened_box;
    int box;
    while ((box = box_at(letter, column)) < 0)
        letter += box == UP ? -1u : 1u;
    return (struct single_plan){letter, table_sizes[letter], (unsigned)box, 0, 0, 0};
}

/* The share of a box: a third and then a half stand between Ac 0 and Ac 1. 0 where the box is no fraction. */
static unsigned share_at(unsigned letter, unsigned column, unsigned severity) {
    unsigned s = letter + column, third = severity == NORMAL ? 15 : 16;
    if (severity > TIGHTENED)
        return 0;
    return s == third ? 3 : s == third + 1 ? 2 : 0;
}

/* ---- the plan book: checking. A fault is a place in the book, or SOUND. */

#define SOUND ((size_t)-1)

struct stretch {
    const uint8_t *bytes;
    size_t len, at;
};

struct kind {
    unsigned keys;
    uint16_t most[3];
    size_t (*check_body)(struct stretch *);
    unsigned least_count;
};

/* Takes the next number; its own place is the fault where it is out of range. */
static size_t take(struct stretch *s, unsigned least, unsigned most, unsigned *number) {
    *number = 0;
    if (s->len - s->at < 2)
        return s->len;
    *number = number_at(s->bytes, s->at);
    if (*number < least || *number > most)
        return s->at;
    s->at += 2;
    return SOUND;
}

static size_t check_reduced(struct stretch *s) {
    unsigned n, ac;
    size_t fault = take(s, 1, 3150, &n);
    return fault != SOUND ? fault : take(s, 0, 65534, &ac);
}

/* Takes Ac and Re of one stage; before holds those of the stage before (Ac MARK and Re 0 before the first). */
static size_t check_stage(struct stretch *s, bool last, unsigned before[2]) {
    unsigned ac, re;
    bool after_number = before[0] != MARK;
    size_t fault = take(s, after_number ? before[0] : 0, after_number || last ? MARK - 1 : MARK, &ac);
    if (fault != SOUND)
        return fault;
    unsigned least = ac != MARK && ac + 1 > before[1] ? ac + 1 : before[1];
    unsigned most = last ? ac + 1 : 65534;
    if ((fault = take(s, least, most < 65534 ? most : 65534, &re)) != SOUND)
        return fault;
    before[0] = ac;
    before[1] = re;
    return SOUND;
}

static size_t check_staged(struct stretch *s) {
    unsigned stages, size, before[2] = {MARK, 0};
    size_t fault = take(s, 2, MOST_STAGES, &stages);
    for (unsigned i = 0; fault == SOUND && i < stages; i++)
        fault = take(s, 1, 2000, &size);
    for (unsigned i = 0; fault == SOUND && i < stages; i++)
        fault = check_stage(s, i + 1 == stages, before);
    return fault;
}

/* floor(g nt - hA) <= At < ceiling(g nt + hR), in hundred-thousandths and with no negative division. */
static bool curtailed_soundly(unsigned ha, unsigned hr, unsigned g, unsigned nt, unsigned at) {
    int64_t line = (int64_t)g * nt, bound = (int64_t)at * 100000;
    bool below = line - 100 * (int64_t)ha < bound + 100000;
    bool above = bound < line + 100 * (int64_t)hr;
    return below && above;
}

static size_t check_sequential(struct stretch *s) {
    unsigned ha, hr, g, nt, at;
    size_t fault, place;
    if ((fault = take(s, 1, 65535, &ha)) != SOUND || (fault = take(s, 1, 65535, &hr)) != SOUND ||
        (fault = take(s, 1, 60000, &g)) != SOUND || (fault = take(s, 1, 3150, &nt)) != SOUND)
        return fault;
    place = s->at;
    if ((fault = take(s, 0, 65535, &at)) != SOUND)
        return fault;
    return curtailed_soundly(ha, hr, g, nt, at) ? SOUND : place;
}

static size_t check_variables(struct stretch *s) {
    unsigned n, k;
    size_t fault = take(s, 2, 50, &n);
    return fault != SOUND ? fault : take(s, 1, 4000, &k);
}

enum { REDUCED_SINGLES, STAGED, SEQUENTIAL, VARIABLES, SIGMA, SECTIONS };

/* Sigma plans are laid out as the variables plans. Their section holds at least one entry where it is there. */
static const struct kind kinds[SECTIONS] = {
    {2, {15, 25}, check_reduced, 0},      {3, {2, 15, 25}, check_staged, 0},    {3, {2, 15, 15}, check_sequential, 0},
    {3, {2, 15, 15}, check_variables, 0}, {3, {2, 15, 15}, check_variables, 1},
};

/* Negative, 0 or positive, as the key at a is before, equal to or after the key at b. */
static int compare_keys(const uint8_t *bytes, unsigned keys, size_t a, size_t b) {
    for (unsigned i = 0; i < keys; i++) {
        int difference = (int)number_at(bytes, a + 2 * i) - (int)number_at(bytes, b + 2 * i);
        if (difference != 0)
            return difference;
    }
    return 0;
}

/* A key that is not whole cannot fail to rise: the number that it lacks is reported. */
static size_t check_key(struct stretch *s, const struct kind *kind, size_t before) {
    unsigned number;
    bool whole = s->len - s->at >= 2 * kind->keys;
    if (before != SOUND && whole && compare_keys(s->bytes, kind->keys, before, s->at) >= 0)
        return s->at;
    for (unsigned i = 0; i < kind->keys; i++) {
        size_t fault = take(s, 0, kind->most[i], &number);
        if (fault != SOUND)
            return fault;
    }
    return SOUND;
}

static size_t check_section(struct stretch *s, const struct kind *kind) {
    unsigned count;
    size_t fault = take(s, kind->least_count, 65535, &count), before = SOUND;
    for (unsigned i = 0; fault == SOUND && i < count; i++) {
        size_t start = s->at;
        fault = check_key(s, kind, before);
        if (fault == SOUND)
            fault = kind->check_body(s);
        before = start;
    }
    return fault;
}

/* A checked book: where each section's count stands, the sigma section's at the end where it is not there. */
struct book {
    const uint8_t *bytes;
    size_t len, section[SECTIONS];
};

static size_t open_book(struct book *book, const uint8_t *bytes, size_t len) {
    struct stretch s = {bytes, len, 0};
    if (len > MOST_BOOK)
        return MOST_BOOK;
    book->bytes = bytes;
    book->len = len;
    for (unsigned i = 0; i < SECTIONS; i++) {
        book->section[i] = s.at;
        if (i == SIGMA && s.at == len)
            break;
        size_t fault = check_section(&s, &kinds[i]);
        if (fault != SOUND)
            return fault;
    }
    return s.at < len ? s.at : SOUND;
}

/* ---- the plan book: looking up. Only a sound book is looked into. */

static size_t body_bytes(const uint8_t *bytes, unsigned section, size_t body) {
    static const uint8_t fixed[SECTIONS] = {4, 0, 10, 4, 4};
    return section == STAGED ? 2 + 6 * (size_t)number_at(bytes, body) : fixed[section];
}

static unsigned entries_in(const struct book *book, unsigned section) {
    size_t at = book->section[section];
    return at < book->len ? number_at(book->bytes, at) : 0;
}

/* The place of the body under the key, or SOUND where there is none. */
static size_t find_body(const struct book *book, unsigned section, const unsigned *key) {
    unsigned keys = kinds[section].keys, count = entries_in(book, section);
    size_t at = book->section[section] + 2;
    for (unsigned i = 0; i < count; i++) {
        unsigned same = 0;
        while (same < keys && number_at(book->bytes, at + 2 * same) == key[same])
            same++;
        at += 2 * keys;
        if (same == keys)
            return at;
        at += body_bytes(book->bytes, section, at);
    }
    return SOUND;
}

/* ---- a lot, and what is refused before its plan is known */

/* Where there are two limits, the column is that of the upper one; elsewhere the lower column is 0. */
struct lot {
    uint32_t size, level, column, lower_column, severity;
    unsigned letter;
    struct book book;
};

static uint32_t refuse(unsigned number, size_t place) {
    return number | (uint32_t)place << 8;
}

static uint32_t check_lot(struct lot *lot) {
    if (lot->severity > STOPPED)
        return 1;
    if (lot->size < 2)
        return 2;
    if (lot->level > 6)
        return 3;
    if (lot->column > 25 || lot->lower_column > 25)
        return 4;
    if (lot->severity == STOPPED)
        return 5;
    lot->letter = table_letter(lot->size, lot->level);
    return 0;
}

static uint32_t open_lot(struct lot *lot, const uint8_t *book, size_t book_len) {
    size_t fault = open_book(&lot->book, book, book_len);
    return fault != SOUND ? refuse(12, fault) : check_lot(lot);
}

static size_t find_for_lot(const struct lot *lot, unsigned section) {
    const unsigned key[] = {lot->severity, lot->letter, lot->column};
    return find_body(&lot->book, section, key + 3 - kinds[section].keys);
}

/* ---- samples */

struct verdict {
    unsigned accepted, used, total, stage;
};

struct sample {
    const uint8_t *bytes;
    size_t len;
    unsigned most_item;
};

static struct sample sample_for(const struct lot *lot, const uint8_t *bytes, size_t len) {
    return (struct sample){bytes, len, lot->column <= ITEMS_COLUMN ? 1 : 65535};
}

/* Adds items first to first + n - 1 to the total; refuses the first that is missing, half there or too large. */
static uint32_t add_items(const struct sample *sample, unsigned first, unsigned n, unsigned *total) {
    size_t there = sample->len / 2 < first + n ? sample->len / 2 : first + n;
    for (size_t i = first; i < there; i++) {
        unsigned item = number_at(sample->bytes, 2 * i);
        if (item > sample->most_item)
            return 8;
        *total += item;
    }
    return there < first + n ? 7 : 0;
}

/* ---- single sampling */

/* A size that equals the lot is cut as well: the sample is then the whole lot. */
static void cut_to_lot(const struct lot *lot, struct single_plan *plan) {
    plan->table_n = plan->n;
    plan->cut = plan->n >= lot->size;
    if (plan->cut)
        plan->n = lot->size;
}

static uint32_t find_single(const struct lot *lot, struct single_plan *plan) {
    if (lot->severity == REDUCED) {
        size_t body = find_for_lot(lot, REDUCED_SINGLES);
        if (body == SOUND)
            return 6;
        plan->letter = lot->letter;
        plan->n = number_at(lot->book.bytes, body);
        plan->ac = number_at(lot->book.bytes, body + 2);
        plan->share = 0;
    } else {
        *plan = table_plan(lot->letter, lot->column, lot->severity);
    }
    cut_to_lot(lot, plan);
    return 0;
}

/* Judges a single sample by the acceptance number that applies to it. */
static uint32_t judge_items(const struct lot *lot, const uint8_t *bytes, size_t len, unsigned n, unsigned ac,
                            struct verdict *verdict) {
    struct sample sample = sample_for(lot, bytes, len);
    if (len != 2 * (size_t)n)
        return 7;
    *verdict = (struct verdict){0, n, 0, 1};
    uint32_t status = add_items(&sample, 0, n, &verdict->total);
    verdict->accepted = verdict->total <= ac;
    return status;
}

static uint32_t judge_single(const struct lot *lot, const uint8_t *bytes, size_t len, struct single_plan *plan,
                             struct verdict *verdict) {
    uint32_t status = find_single(lot, plan);
    return status != 0 ? status : judge_items(lot, bytes, len, plan->n, plan->ac, verdict);
}

/* ---- single sampling, curtailed: by the tables alone, item by item until the lot is lost or the sample whole */

static uint32_t judge_curtailed(const struct lot *lot, const uint8_t *bytes, size_t len, struct single_plan *plan,
                                struct verdict *verdict) {
    struct sample sample = sample_for(lot, bytes, len);
    if (lot->severity == REDUCED)
        return 6;
    uint32_t status = find_single(lot, plan);
    *verdict = (struct verdict){1, 0, 0, 1};
    while (status == 0 && verdict->accepted && verdict->used < plan->n) {
        status = add_items(&sample, verdict->used, 1, &verdict->total);
        verdict->used++;
        verdict->accepted = verdict->total <= plan->ac;
    }
    if (status == 0 && len > 2 * (size_t)verdict->used)
        return 7;
    return status;
}

/* ---- single sampling with fractions: the box of the lot's own letter, where that is one */

static uint32_t find_fractional(const struct lot *lot, struct single_plan *plan) {
    unsigned share = share_at(lot->letter, lot->column, lot->severity);
    if (share == 0)
        return find_single(lot, plan);
    if (lot->column > ITEMS_COLUMN)
        return 6;
    *plan = (struct single_plan){lot->letter, table_sizes[lot->letter], 0, share, 0, 0};
    cut_to_lot(lot, plan);
    return 0;
}

/* The clean run of a record: how many original lots, held at 2, and the letter and column of their plan. */
struct clean {
    uint8_t run, letter, column;
};

static const struct clean no_clean = {0, 0, 0};

/* How many clean lots on the lot's own plan came right before it. */
static unsigned clean_before(const struct clean *clean, const struct lot *lot) {
    return clean->letter == lot->letter && clean->column == lot->column ? clean->run : 0;
}

/* One item in so many lots: a fraction lets one pass where all the others of that many are clean. */
static unsigned applicable_ac(const struct single_plan *plan, unsigned clean_lots) {
    return plan->share == 0 ? plan->ac : clean_lots + 1 >= plan->share;
}

static uint32_t judge_fractional(const struct lot *lot, const struct clean *clean, const uint8_t *bytes, size_t len,
                                 struct single_plan *plan, struct verdict *verdict) {
    uint32_t status = find_fractional(lot, plan);
    if (status != 0)
        return status;
    return judge_items(lot, bytes, len, plan->n, applicable_ac(plan, clean_before(clean, lot)), verdict);
}

/* The clean run that an original lot leaves, where the severity stays. */
static struct clean clean_after(const struct clean *clean, const struct lot *lot, const struct single_plan *plan,
                                const struct verdict *verdict) {
    unsigned run = clean_before(clean, lot) + 1;
    if (plan->share == 0 || verdict->total > 0)
        return no_clean;
    return (struct clean){run < MOST_CLEAN ? run : MOST_CLEAN, (uint8_t)lot->letter, (uint8_t)lot->column};
}

/* ---- staged sampling */

struct staged_plan {
    unsigned stages;
    uint16_t size[MOST_STAGES], ac[MOST_STAGES], re[MOST_STAGES];
};

static uint32_t find_staged(const struct lot *lot, struct staged_plan *plan) {
    const uint8_t *bytes = lot->book.bytes;
    size_t body = find_for_lot(lot, STAGED);
    unsigned all = 0;
    if (body == SOUND)
        return 6;
    plan->stages = number_at(bytes, body);
    for (unsigned i = 0; i < plan->stages; i++) {
        size_t numbers = body + 2 + 2 * plan->stages + 4 * i;
        plan->size[i] = (uint16_t)number_at(bytes, body + 2 + 2 * i);
        plan->ac[i] = (uint16_t)number_at(bytes, numbers);
        plan->re[i] = (uint16_t)number_at(bytes, numbers + 2);
        all += plan->size[i];
    }
    return all > lot->size ? 6 : 0;
}

static uint32_t judge_staged(const struct lot *lot, const uint8_t *bytes, size_t len, struct staged_plan *plan,
                             struct verdict *verdict) {
    struct sample sample = sample_for(lot, bytes, len);
    uint32_t status = find_staged(lot, plan);
    if (status != 0)
        return status;
    *verdict = (struct verdict){0, 0, 0, 0};
    for (unsigned i = 0; i < plan->stages; i++) {
        if ((status = add_items(&sample, verdict->used, plan->size[i], &verdict->total)) != 0)
            return status;
        verdict->used += plan->size[i];
        verdict->stage = i + 1;
        verdict->accepted = plan->ac[i] != MARK && verdict->total <= plan->ac[i];
        if (verdict->accepted || verdict->total >= plan->re[i])
            break;
    }
    return len == 2 * (size_t)verdict->used ? 0 : 7;
}

/* ---- sequential sampling */

struct sequential_plan {
    unsigned ha, hr, g, nt, at;
};

static uint32_t find_sequential(const struct lot *lot, struct sequential_plan *plan) {
    const uint8_t *bytes = lot->book.bytes;
    size_t body = find_for_lot(lot, SEQUENTIAL);
    if (body == SOUND)
        return 6;
    plan->ha = number_at(bytes, body);
    plan->hr = number_at(bytes, body + 2);
    plan->g = number_at(bytes, body + 4);
    plan->nt = number_at(bytes, body + 6);
    plan->at = number_at(bytes, body + 8);
    return plan->nt > lot->size ? 6 : 0;
}

/* Decides after item n with the total, all in hundred-thousandths; false where inspection goes on. */
static bool sequential_decides(const struct sequential_plan *plan, unsigned n, unsigned total, unsigned *accepted) {
    uint64_t line = (uint64_t)plan->g * n, count = (uint64_t)total * 100000;
    if (n == plan->nt) {
        *accepted = total <= plan->at;
        return true;
    }
    *accepted = count + 100 * (uint64_t)plan->ha <= line;
    return *accepted || count >= line + 100 * (uint64_t)plan->hr;
}

static uint32_t judge_sequential(const struct lot *lot, const uint8_t *bytes, size_t len, struct verdict *verdict) {
    struct sequential_plan plan;
    struct sample sample = sample_for(lot, bytes, len);
    uint32_t status = find_sequential(lot, &plan);
    if (status != 0)
        return status;
    *verdict = (struct verdict){0, 0, 0, 0};
    do {
        if ((status = add_items(&sample, verdict->used, 1, &verdict->total)) != 0)
            return status;
        verdict->used++;
    } while (!sequential_decides(&plan, verdict->used, verdict->total, &verdict->accepted));
    return len == 2 * (size_t)verdict->used ? 0 : 7;
}

/* ---- variables, s method, and the screen */

struct sums {
    int64_t n, sum, squares;
};

static bool in_gauge(int32_t reading) {
    return reading >= -1000 && reading <= 1000;
}

static uint32_t add_readings(const uint8_t *readings, unsigned n, struct sums *sums) {
    *sums = (struct sums){n, 0, 0};
    for (unsigned i = 0; i < n; i++) {
        int32_t reading = (int16_t)number_at(readings, 2 * (size_t)i);
        if (!in_gauge(reading))
            return 9;
        sums->sum += reading;
        sums->squares += (int64_t)reading * reading;
    }
    return 0;
}

/* n W - S S, that is n (n - 1) times the variance. */
static int64_t spread(const struct sums *sums) {
    return sums->n * sums->squares - sums->sum * sums->sum;
}

/* The margin is n U - S or S - n L. The largest product is below 2^61. */
static bool margin_suffices(int64_t margin, const struct sums *sums, int64_t k) {
    return margin >= 0 && 1000000 * margin * margin * (sums->n - 1) >= k * k * sums->n * spread(sums);
}

struct variables_plan {
    unsigned n, k;
};

/* The section is that of the variables plans, or of the sigma plans. */
static uint32_t find_variables(const struct lot *lot, unsigned section, struct variables_plan *plan) {
    size_t body = find_for_lot(lot, section);
    if (body == SOUND)
        return 6;
    plan->n = number_at(lot->book.bytes, body);
    plan->k = number_at(lot->book.bytes, body + 2);
    return plan->n > lot->size ? 6 : 0;
}

static uint32_t judge_variables(struct lot *lot, const uint8_t *readings, size_t len, int32_t limit, int side,
                                unsigned *accepted, unsigned *used) {
    struct variables_plan plan;
    struct sums sums;
    uint32_t status = find_variables(lot, VARIABLES, &plan);
    if (status != 0)
        return status;
    if (len != 2 * (size_t)plan.n)
        return 7;
    if (add_readings(readings, plan.n, &sums) != 0 || !in_gauge(limit))
        return 9;
    *accepted = margin_suffices(side * (sums.n * limit - sums.sum), &sums, plan.k);
    *used = plan.n;
    return 0;
}

/* ---- variables, sigma method: sigma and k are both in thousandths, so that their product is in millionths */

static bool sigma_in_range(uint32_t sigma) {
    return sigma >= 1 && sigma <= 1000;
}

/* Both products are below 2^37. The right one is above 0, so that a margin below 0 never suffices. */
static bool known_suffices(int64_t margin, int64_t n, int64_t k, int64_t sigma) {
    return 1000000 * margin >= k * sigma * n;
}

static uint32_t judge_sigma(const struct lot *lot, const uint8_t *readings, size_t len, int32_t limit, uint32_t sigma,
                            int side, struct verdict *verdict) {
    struct variables_plan plan;
    struct sums sums;
    uint32_t status = find_variables(lot, SIGMA, &plan);
    if (status != 0)
        return status;
    if (len != 2 * (size_t)plan.n)
        return 7;
    if (add_readings(readings, plan.n, &sums) != 0 || !in_gauge(limit) || !sigma_in_range(sigma))
        return 9;
    verdict->accepted = known_suffices(side * (sums.n * limit - sums.sum), sums.n, plan.k, sigma);
    verdict->used = plan.n;
    return 0;
}

/* ---- variables by either method between two limits, each with a K of its own */

/* What the readings are held to. The section tells the method; sigma is looked at in the sigma method alone. */
struct gauge {
    unsigned section;
    int32_t upper, lower;
    uint32_t sigma;
};

static bool gauge_in_range(const struct gauge *gauge) {
    if (!in_gauge(gauge->upper) || !in_gauge(gauge->lower) || gauge->lower >= gauge->upper)
        return false;
    return gauge->section != SIGMA || sigma_in_range(gauge->sigma);
}

/* Each side has the entry under its own column; one sample serves both, so that they need one n. */
static uint32_t find_sides(const struct lot *lot, unsigned section, struct variables_plan *upper,
                           struct variables_plan *lower) {
    struct lot below = *lot;
    below.column = lot->lower_column;
    if (find_variables(lot, section, upper) != 0 || find_variables(&below, section, lower) != 0)
        return 6;
    return upper->n != lower->n ? 6 : 0;
}

static bool side_accepts(const struct gauge *gauge, const struct sums *sums, int64_t margin, unsigned k) {
    if (gauge->section == SIGMA)
        return known_suffices(margin, sums->n, k, gauge->sigma);
    return margin_suffices(margin, sums, k);
}

static uint32_t judge_both(const struct lot *lot, const struct gauge *gauge, const uint8_t *readings, size_t len,
                           struct verdict *verdict) {
    struct variables_plan upper, lower;
    struct sums sums;
    uint32_t status = find_sides(lot, gauge->section, &upper, &lower);
    if (status != 0)
        return status;
    if (len != 2 * (size_t)upper.n)
        return 7;
    if (add_readings(readings, upper.n, &sums) != 0 || !gauge_in_range(gauge))
        return 9;
    verdict->accepted = side_accepts(gauge, &sums, sums.n * gauge->upper - sums.sum, upper.k) &&
                        side_accepts(gauge, &sums, sums.sum - sums.n * gauge->lower, lower.k);
    verdict->used = upper.n;
    return 0;
}

uint32_t ref_screen(const uint8_t *readings, size_t readings_len, double *mean, double *variance, uint8_t *both) {
    struct sums sums;
    if (readings_len < 2 || readings_len > 100 || readings_len % 2 != 0)
        return 7;
    uint32_t status = add_readings(readings, (unsigned)(readings_len / 2), &sums);
    if (status != 0)
        return status;
    *mean = (double)sums.sum / (double)sums.n;
    *both = sums.n > 1;
    if (sums.n > 1)
        *variance = (double)spread(&sums) / (double)(sums.n * (sums.n - 1));
    return 0;
}

/* ---- the severity record */

struct record {
    uint8_t severity, score, run, count, window, steady, permission;
    struct clean clean;
};

static unsigned ones(unsigned bits) {
    unsigned n = 0;
    for (; bits != 0; bits &= bits - 1)
        n++;
    return n;
}

/* Table 1 gives no letter after R. */
static bool clean_in_range(const struct clean *clean, unsigned severity) {
    if (clean->run == 0)
        return clean->letter == 0 && clean->column == 0;
    if (clean->run > MOST_CLEAN || clean->letter > LETTER_R || clean->column > ITEMS_COLUMN)
        return false;
    return share_at(clean->letter, clean->column, severity) != 0;
}

/* False where the lent record is out of range. */
static bool read_record(struct record *r, const uint8_t *bytes, size_t len) {
    if (len != sizeof *r)
        return false;
    memcpy(r, bytes, sizeof *r);
    if (r->severity > STOPPED || r->score > 30 || r->run > 4 || r->count > 4 || r->window > 31 || ones(r->window) > 1)
        return false;
    if (r->severity != NORMAL && (r->score != 0 || r->window != 0))
        return false;
    if (r->severity != TIGHTENED && (r->run != 0 || r->count != 0))
        return false;
    return r->steady <= 1 && r->permission <= 1 && clean_in_range(&r->clean, r->severity);
}

static void start_stay(struct record *r, uint8_t severity) {
    *r = (struct record){severity, 0, 0, 0, 0, r->steady, r->permission, no_clean};
}

static void step_normal_lot(struct record *r, unsigned event) {
    unsigned points = event == ADD_3 ? 3 : 2, score = r->score + points;
    r->window = (uint8_t)((2 * r->window + (event == NOT_ACCEPTED)) % 32);
    r->score = event == SCORE_0 || event == NOT_ACCEPTED ? 0 : (uint8_t)(score > 30 ? 30 : score);
    if (ones(r->window) >= 2)
        start_stay(r, TIGHTENED);
}

static void step_tightened_lot(struct record *r, unsigned event) {
    if (event == NOT_ACCEPTED) {
        r->run = 0;
        if (++r->count == 5)
            start_stay(r, STOPPED);
    } else if (++r->run == 5) {
        start_stay(r, NORMAL);
    }
}

static void step_lot(struct record *r, unsigned event) {
    if (r->severity == NORMAL)
        step_normal_lot(r, event);
    else if (r->severity == TIGHTENED)
        step_tightened_lot(r, event);
    else if (event == NOT_ACCEPTED)
        start_stay(r, NORMAL);
}

static void step_order(struct record *r, unsigned event) {
    if (event == STEADY || event == NOT_STEADY)
        r->steady = event == STEADY;
    else if (event == PERMISSION || event == WITHDRAWN)
        r->permission = event == PERMISSION;
    else
        start_stay(r, TIGHTENED);
    if (r->severity == REDUCED && (event == NOT_STEADY || event == WITHDRAWN))
        start_stay(r, NORMAL);
}

/* Moves the record by an event, or gives the number of the refusal. The clean run only ends here, with its stay. */
static uint32_t step(struct record *r, unsigned event) {
    if (event <= RESUBMITTED && r->severity == STOPPED)
        return 5;
    if (event == CORRECTIVE && r->severity != STOPPED)
        return 10;
    if (event == RESUBMITTED)
        return 0;
    if (event < RESUBMITTED)
        step_lot(r, event);
    else
        step_order(r, event);
    if (r->severity == NORMAL && r->score == 30 && r->steady && r->permission)
        start_stay(r, REDUCED);
    return 0;
}

/* ---- what a closed lot is to the record: a history byte. Only normal has a score; elsewhere no points are told. */

static unsigned single_event(const struct lot *lot, const struct single_plan *plan, const struct verdict *verdict) {
    if (!verdict->accepted)
        return NOT_ACCEPTED;
    if (lot->severity != NORMAL)
        return SCORE_0;
    if (plan->ac < 2)
        return ADD_2;
    return (int)verdict->total <= normal_box(plan->letter, lot->column - 1) ? ADD_3 : SCORE_0;
}

/* A double plan earns its points at the first stage alone, a multiple one by the third. */
static unsigned staged_event(const struct lot *lot, const struct staged_plan *plan, const struct verdict *verdict) {
    unsigned last_stage = plan->stages == 2 ? 1 : 3;
    if (!verdict->accepted)
        return NOT_ACCEPTED;
    return lot->severity == NORMAL && verdict->stage <= last_stage ? ADD_3 : SCORE_0;
}

/* ---- the entries: plans */

uint32_t ref_letter(uint32_t size, uint32_t level, uint8_t *letter) {
    if (size < 2)
        return 2;
    if (level > 6)
        return 3;
    *letter = (uint8_t)table_letter(size, level);
    return 0;
}

static uint32_t tell_single(uint32_t status, const struct single_plan *plan, uint8_t *letter, uint16_t *n, uint16_t *ac,
                            uint16_t *table_n, uint8_t *cut) {
    if (status != 0)
        return status;
    *letter = (uint8_t)plan->letter;
    *n = (uint16_t)plan->n;
    *ac = (uint16_t)plan->ac;
    *table_n = (uint16_t)plan->table_n;
    *cut = (uint8_t)plan->cut;
    return 0;
}

uint32_t ref_plan(uint32_t size, uint32_t level, uint32_t column, uint32_t severity, const uint8_t *book,
                  size_t book_len, uint8_t *letter, uint16_t *n, uint16_t *ac, uint16_t *table_n, uint8_t *cut) {
    struct lot lot = {.size = size, .level = level, .column = column, .severity = severity};
    struct single_plan plan;
    uint32_t status = open_lot(&lot, book, book_len);
    return tell_single(status == 0 ? find_single(&lot, &plan) : status, &plan, letter, n, ac, table_n, cut);
}

uint32_t ref_fractional_plan(uint32_t size, uint32_t level, uint32_t column, uint32_t severity, const uint8_t *book,
                             size_t book_len, uint8_t *letter, uint16_t *n, uint16_t *ac, uint8_t *share,
                             uint16_t *table_n, uint8_t *cut) {
    struct lot lot = {.size = size, .level = level, .column = column, .severity = severity};
    struct single_plan plan;
    uint32_t status = open_lot(&lot, book, book_len);
    status = tell_single(status == 0 ? find_fractional(&lot, &plan) : status, &plan, letter, n, ac, table_n, cut);
    if (status == 0)
        *share = (uint8_t)plan.share;
    return status;
}

/* One number of a row of 21: seven sizes, seven Ac, seven Re, two bytes each, low byte first. */
static void put_number(uint8_t *row, unsigned at, unsigned number) {
    row[2 * at] = (uint8_t)(number & 255);
    row[2 * at + 1] = (uint8_t)(number >> 8);
}

uint32_t ref_staged_plan(uint32_t size, uint32_t level, uint32_t column, uint32_t severity, const uint8_t *book,
                         size_t book_len, uint8_t *letter, uint8_t *stages, uint8_t *row, size_t row_len) {
    struct lot lot = {.size = size, .level = level, .column = column, .severity = severity};
    struct staged_plan plan = {0};
    uint32_t status = open_lot(&lot, book, book_len);
    if (status == 0)
        status = find_staged(&lot, &plan);
    if (status == 0 && row_len < 2 * 3 * MOST_STAGES)
        status = 11;
    if (status != 0)
        return status;
    *letter = (uint8_t)lot.letter;
    *stages = (uint8_t)plan.stages;
    for (unsigned i = 0; i < MOST_STAGES; i++) {
        put_number(row, i, plan.size[i]);
        put_number(row, MOST_STAGES + i, plan.ac[i]);
        put_number(row, 2 * MOST_STAGES + i, plan.re[i]);
    }
    return 0;
}

uint32_t ref_sequential_plan(uint32_t size, uint32_t level, uint32_t column, uint32_t severity, const uint8_t *book,
                             size_t book_len, uint8_t *letter, uint16_t *ha, uint16_t *hr, uint16_t *g, uint16_t *nt,
                             uint16_t *at) {
    struct lot lot = {.size = size, .level = level, .column = column, .severity = severity};
    struct sequential_plan plan;
    uint32_t status = open_lot(&lot, book, book_len);
    if (status == 0)
        status = find_sequential(&lot, &plan);
    if (status != 0)
        return status;
    *letter = (uint8_t)lot.letter;
    *ha = (uint16_t)plan.ha;
    *hr = (uint16_t)plan.hr;
    *g = (uint16_t)plan.g;
    *nt = (uint16_t)plan.nt;
    *at = (uint16_t)plan.at;
    return 0;
}

uint32_t ref_variables_plan(uint32_t size, uint32_t level, uint32_t column, uint32_t severity, const uint8_t *book,
                            size_t book_len, uint8_t *letter, uint16_t *n, uint16_t *k) {
    struct lot lot = {.size = size, .level = level, .column = column, .severity = severity};
    struct variables_plan plan;
    uint32_t status = open_lot(&lot, book, book_len);
    if (status == 0)
        status = find_variables(&lot, VARIABLES, &plan);
    if (status != 0)
        return status;
    *letter = (uint8_t)lot.letter;
    *n = (uint16_t)plan.n;
    *k = (uint16_t)plan.k;
    return 0;
}

/* ---- the entries: verdicts */

static uint32_t answer(uint32_t status, const struct verdict *verdict, uint8_t *accepted, uint16_t *used) {
    if (status == 0) {
        *accepted = (uint8_t)verdict->accepted;
        *used = (uint16_t)verdict->used;
    }
    return status;
}

uint32_t ref_single(uint32_t size, uint32_t level, uint32_t column, uint32_t severity, const uint8_t *book,
                    size_t book_len, const uint8_t *sample, size_t sample_len, uint8_t *accepted, uint16_t *used) {
    struct lot lot = {.size = size, .level = level, .column = column, .severity = severity};
    struct single_plan plan;
    struct verdict verdict;
    uint32_t status = open_lot(&lot, book, book_len);
    if (status == 0)
        status = judge_single(&lot, sample, sample_len, &plan, &verdict);
    return answer(status, &verdict, accepted, used);
}

uint32_t ref_staged(uint32_t size, uint32_t level, uint32_t column, uint32_t severity, const uint8_t *book,
                    size_t book_len, const uint8_t *sample, size_t sample_len, uint8_t *accepted, uint16_t *used) {
    struct lot lot = {.size = size, .level = level, .column = column, .severity = severity};
    struct staged_plan plan;
    struct verdict verdict;
    uint32_t status = open_lot(&lot, book, book_len);
    if (status == 0)
        status = judge_staged(&lot, sample, sample_len, &plan, &verdict);
    return answer(status, &verdict, accepted, used);
}

uint32_t ref_sequential(uint32_t size, uint32_t level, uint32_t column, uint32_t severity, const uint8_t *book,
                        size_t book_len, const uint8_t *sample, size_t sample_len, uint8_t *accepted, uint16_t *used) {
    struct lot lot = {.size = size, .level = level, .column = column, .severity = severity};
    struct verdict verdict;
    uint32_t status = open_lot(&lot, book, book_len);
    if (status == 0)
        status = judge_sequential(&lot, sample, sample_len, &verdict);
    return answer(status, &verdict, accepted, used);
}

uint32_t ref_curtailed(uint32_t size, uint32_t level, uint32_t column, uint32_t severity, const uint8_t *book,
                       size_t book_len, const uint8_t *sample, size_t sample_len, uint8_t *accepted, uint16_t *used) {
    struct lot lot = {.size = size, .level = level, .column = column, .severity = severity};
    struct single_plan plan;
    struct verdict verdict;
    uint32_t status = open_lot(&lot, book, book_len);
    if (status == 0)
        status = judge_curtailed(&lot, sample, sample_len, &plan, &verdict);
    return answer(status, &verdict, accepted, used);
}

/* The side is 1 for an upper limit and -1 for a lower one. */
static uint32_t variables(struct lot lot, const uint8_t *book, size_t book_len, const uint8_t *readings,
                          size_t readings_len, int32_t limit, int side, uint8_t *accepted, uint16_t *used) {
    struct verdict verdict;
    uint32_t status = open_lot(&lot, book, book_len);
    if (status == 0)
        status = judge_variables(&lot, readings, readings_len, limit, side, &verdict.accepted, &verdict.used);
    return answer(status, &verdict, accepted, used);
}

uint32_t ref_variables_upper(uint32_t size, uint32_t level, uint32_t column, uint32_t severity, const uint8_t *book,
                             size_t book_len, const uint8_t *readings, size_t readings_len, int32_t limit,
                             uint8_t *accepted, uint16_t *used) {
    struct lot lot = {.size = size, .level = level, .column = column, .severity = severity};
    return variables(lot, book, book_len, readings, readings_len, limit, 1, accepted, used);
}

uint32_t ref_variables_lower(uint32_t size, uint32_t level, uint32_t column, uint32_t severity, const uint8_t *book,
                             size_t book_len, const uint8_t *readings, size_t readings_len, int32_t limit,
                             uint8_t *accepted, uint16_t *used) {
    struct lot lot = {.size = size, .level = level, .column = column, .severity = severity};
    return variables(lot, book, book_len, readings, readings_len, limit, -1, accepted, used);
}

/* The side is 1 for an upper limit and -1 for a lower one. */
static uint32_t known(struct lot lot, const uint8_t *book, size_t book_len, const uint8_t *readings,
                      size_t readings_len, int32_t limit, uint32_t sigma, int side, uint8_t *accepted, uint16_t *used) {
    struct verdict verdict;
    uint32_t status = open_lot(&lot, book, book_len);
    if (status == 0)
        status = judge_sigma(&lot, readings, readings_len, limit, sigma, side, &verdict);
    return answer(status, &verdict, accepted, used);
}

uint32_t ref_sigma_upper(uint32_t size, uint32_t level, uint32_t column, uint32_t severity, const uint8_t *book,
                         size_t book_len, const uint8_t *readings, size_t readings_len, int32_t limit, uint32_t sigma,
                         uint8_t *accepted, uint16_t *used) {
    struct lot lot = {.size = size, .level = level, .column = column, .severity = severity};
    return known(lot, book, book_len, readings, readings_len, limit, sigma, 1, accepted, used);
}

uint32_t ref_sigma_lower(uint32_t size, uint32_t level, uint32_t column, uint32_t severity, const uint8_t *book,
                         size_t book_len, const uint8_t *readings, size_t readings_len, int32_t limit, uint32_t sigma,
                         uint8_t *accepted, uint16_t *used) {
    struct lot lot = {.size = size, .level = level, .column = column, .severity = severity};
    return known(lot, book, book_len, readings, readings_len, limit, sigma, -1, accepted, used);
}

static uint32_t both(struct lot lot, const uint8_t *book, size_t book_len, const uint8_t *readings, size_t readings_len,
                     const struct gauge *gauge, uint8_t *accepted, uint16_t *used) {
    struct verdict verdict;
    uint32_t status = open_lot(&lot, book, book_len);
    if (status == 0)
        status = judge_both(&lot, gauge, readings, readings_len, &verdict);
    return answer(status, &verdict, accepted, used);
}

uint32_t ref_variables_both(uint32_t size, uint32_t level, uint32_t upper_column, uint32_t lower_column,
                            uint32_t severity, const uint8_t *book, size_t book_len, const uint8_t *readings,
                            size_t readings_len, int32_t upper, int32_t lower, uint8_t *accepted, uint16_t *used) {
    struct lot lot = {size, level, upper_column, lower_column, severity, 0, {0}};
    const struct gauge gauge = {VARIABLES, upper, lower, 0};
    return both(lot, book, book_len, readings, readings_len, &gauge, accepted, used);
}

uint32_t ref_sigma_both(uint32_t size, uint32_t level, uint32_t upper_column, uint32_t lower_column, uint32_t severity,
                        const uint8_t *book, size_t book_len, const uint8_t *readings, size_t readings_len,
                        int32_t upper, int32_t lower, uint32_t sigma, uint8_t *accepted, uint16_t *used) {
    struct lot lot = {size, level, upper_column, lower_column, severity, 0, {0}};
    const struct gauge gauge = {SIGMA, upper, lower, sigma};
    return both(lot, book, book_len, readings, readings_len, &gauge, accepted, used);
}

/* ---- the entries: the record */

uint32_t ref_next(uint8_t *record, size_t record_len, uint32_t event) {
    struct record r;
    if (!read_record(&r, record, record_len) || event > CORRECTIVE)
        return 1;
    if (event < RESUBMITTED)
        r.clean = no_clean;
    uint32_t status = step(&r, event);
    if (status == 0)
        memcpy(record, &r, sizeof r);
    return status;
}

/* A record out of range is refused as a severity over 3 is: after the book and before the lot. */
static uint32_t open_close(struct record *r, const uint8_t *record, size_t record_len, struct lot *lot,
                           const uint8_t *book, size_t book_len) {
    lot->severity = read_record(r, record, record_len) ? r->severity : STOPPED + 1;
    return open_lot(lot, book, book_len);
}

/* Moves the record by what the lot is to it, and tells that as a history byte. An original lot leaves its clean run. */
static void close_lot(uint8_t *record, struct record *r, uint32_t resubmitted, unsigned event, struct clean clean,
                      uint8_t *byte) {
    *byte = (uint8_t)(resubmitted != 0 ? RESUBMITTED : event);
    if (*byte != RESUBMITTED)
        r->clean = clean;
    step(r, *byte);
    memcpy(record, r, sizeof *r);
}

uint32_t ref_close_single(uint8_t *record, size_t record_len, uint32_t resubmitted, uint32_t size, uint32_t level,
                          uint32_t column, const uint8_t *book, size_t book_len, const uint8_t *sample,
                          size_t sample_len, uint8_t *accepted, uint16_t *used, uint8_t *byte) {
    struct lot lot = {.size = size, .level = level, .column = column};
    struct record r;
    struct single_plan plan;
    struct verdict verdict;
    uint32_t status = open_close(&r, record, record_len, &lot, book, book_len);
    if (status == 0)
        status = judge_single(&lot, sample, sample_len, &plan, &verdict);
    if (status == 0)
        close_lot(record, &r, resubmitted, single_event(&lot, &plan, &verdict), no_clean, byte);
    return answer(status, &verdict, accepted, used);
}

uint32_t ref_close_staged(uint8_t *record, size_t record_len, uint32_t resubmitted, uint32_t size, uint32_t level,
                          uint32_t column, const uint8_t *book, size_t book_len, const uint8_t *sample,
                          size_t sample_len, uint8_t *accepted, uint16_t *used, uint8_t *byte) {
    struct lot lot = {.size = size, .level = level, .column = column};
    struct record r;
    struct staged_plan plan;
    struct verdict verdict;
    uint32_t status = open_close(&r, record, record_len, &lot, book, book_len);
    if (status == 0)
        status = judge_staged(&lot, sample, sample_len, &plan, &verdict);
    if (status == 0)
        close_lot(record, &r, resubmitted, staged_event(&lot, &plan, &verdict), no_clean, byte);
    return answer(status, &verdict, accepted, used);
}

uint32_t ref_fractional(const uint8_t *record, size_t record_len, uint32_t size, uint32_t level, uint32_t column,
                        const uint8_t *book, size_t book_len, const uint8_t *sample, size_t sample_len,
                        uint8_t *accepted, uint16_t *used) {
    struct lot lot = {.size = size, .level = level, .column = column};
    struct record r;
    struct single_plan plan;
    struct verdict verdict;
    uint32_t status = open_close(&r, record, record_len, &lot, book, book_len);
    if (status == 0)
        status = judge_fractional(&lot, &r.clean, sample, sample_len, &plan, &verdict);
    return answer(status, &verdict, accepted, used);
}

uint32_t ref_close_fractional(uint8_t *record, size_t record_len, uint32_t resubmitted, uint32_t size, uint32_t level,
                              uint32_t column, const uint8_t *book, size_t book_len, const uint8_t *sample,
                              size_t sample_len, uint8_t *accepted, uint16_t *used, uint8_t *byte) {
    struct lot lot = {.size = size, .level = level, .column = column};
    struct record r;
    struct single_plan plan;
    struct verdict verdict;
    uint32_t status = open_close(&r, record, record_len, &lot, book, book_len);
    if (status == 0)
        status = judge_fractional(&lot, &r.clean, sample, sample_len, &plan, &verdict);
    if (status == 0)
        close_lot(record, &r, resubmitted, single_event(&lot, &plan, &verdict),
                  clean_after(&r.clean, &lot, &plan, &verdict), byte);
    return answer(status, &verdict, accepted, used);
}

/* A lot that is lost has no points, and one that is not was counted whole: the total tells all that the score needs. */
uint32_t ref_close_curtailed(uint8_t *record, size_t record_len, uint32_t resubmitted, uint32_t size, uint32_t level,
                             uint32_t column, const uint8_t *book, size_t book_len, const uint8_t *sample,
                             size_t sample_len, uint8_t *accepted, uint16_t *used, uint8_t *byte) {
    struct lot lot = {.size = size, .level = level, .column = column};
    struct record r;
    struct single_plan plan;
    struct verdict verdict;
    uint32_t status = open_close(&r, record, record_len, &lot, book, book_len);
    if (status == 0)
        status = judge_curtailed(&lot, sample, sample_len, &plan, &verdict);
    if (status == 0)
        close_lot(record, &r, resubmitted, single_event(&lot, &plan, &verdict), no_clean, byte);
    return answer(status, &verdict, accepted, used);
}

uint32_t ref_close_total(uint8_t *record, size_t record_len, uint32_t resubmitted, uint32_t size, uint32_t level,
                         uint32_t column, uint32_t total, uint8_t *letter, uint16_t *n, uint16_t *ac, uint16_t *table_n,
                         uint8_t *cut, uint8_t *accepted) {
    struct lot lot = {.size = size, .level = level, .column = column};
    struct record r;
    struct single_plan plan;
    struct verdict verdict;
    uint8_t byte;
    lot.severity = read_record(&r, record, record_len) ? r.severity : STOPPED + 1;
    uint32_t status = check_lot(&lot);
    if (status == 0)
        status = lot.severity == REDUCED ? 6 : find_single(&lot, &plan);
    if (status == 0 && column <= ITEMS_COLUMN && total > plan.n)
        status = 8;
    if (status != 0)
        return status;
    verdict = (struct verdict){total <= plan.ac, plan.n, total, 1};
    close_lot(record, &r, resubmitted, single_event(&lot, &plan, &verdict), no_clean, &byte);
    *accepted = (uint8_t)verdict.accepted;
    return tell_single(0, &plan, letter, n, ac, table_n, cut);
}

/* ---- the entries: a history, listed by a record that is moved by each byte */

/* The status of the first bad byte, or 0; out, where it is lent, gets the severity after each byte. */
static uint64_t walk(const uint8_t *history, size_t len, uint8_t *out) {
    struct record r = {0};
    for (size_t i = 0; i < len; i++) {
        unsigned number = history[i] > CORRECTIVE ? 1 : step(&r, history[i]);
        if (number != 0)
            return number | (i < MOST_PLACE ? i : MOST_PLACE) << 8;
        if (out != NULL)
            out[i] = r.severity;
    }
    return 0;
}

/* A refusal writes nothing, so the whole history is read before the first severity is written. */
uint64_t ref_list(const uint8_t *history, size_t len, uint8_t *severities, size_t room) {
    uint64_t status = walk(history, len, NULL);
    if (status != 0)
        return status;
    return room < len ? 11 : walk(history, len, severities);
}

/* ---- the entries: the book */

uint32_t ref_check_book(const uint8_t *book, size_t book_len) {
    struct book opened;
    size_t fault = open_book(&opened, book, book_len);
    return fault == SOUND ? 0 : refuse(12, fault);
}

/* ---- the entries: a book as rows. A row has its entry's numbers; a staged one has seven sizes, seven Ac, seven Re. */

enum { SIZES = 8, ACS = SIZES + 2 * MOST_STAGES, RES = ACS + 2 * MOST_STAGES, STAGED_ROW = RES + 2 * MOST_STAGES };

static const uint8_t row_bytes[SECTIONS] = {8, STAGED_ROW, 16, 10, 10};

struct rows {
    const uint8_t *bytes;
    size_t len;
};

/* How long the entry is in a book. Up to its number of stages an entry and its row are alike. */
static size_t entry_bytes(const uint8_t *bytes, unsigned section, size_t at) {
    size_t key = 2 * (size_t)kinds[section].keys;
    return key + body_bytes(bytes, section, at + key);
}

/* Whether Ac and Re can stand after those of the stage before (Ac MARK and Re 0 before the first). */
static bool stage_holds(unsigned ac, unsigned re, const unsigned before[2], bool last) {
    if (re < before[1] || re > 65534)
        return false;
    if (ac == MARK)
        return before[0] == MARK && !last;
    if (before[0] != MARK && ac < before[0])
        return false;
    return last ? re == ac + 1 : re > ac;
}

static bool stages_hold(const uint8_t *row) {
    unsigned stages = number_at(row, SIZES - 2), before[2] = {MARK, 0};
    if (stages < 2 || stages > MOST_STAGES)
        return false;
    for (unsigned i = 0; i < stages; i++) {
        unsigned size = number_at(row, SIZES + 2 * i);
        unsigned ac = number_at(row, ACS + 2 * i), re = number_at(row, RES + 2 * i);
        if (size < 1 || size > 2000 || !stage_holds(ac, re, before, i + 1 == stages))
            return false;
        before[0] = ac;
        before[1] = re;
    }
    return true;
}

/* Whether a book can hold the row that is whole at a place in its list. */
static bool row_holds(const uint8_t *rows, unsigned section, size_t at) {
    struct stretch s = {rows, at + row_bytes[section], at};
    if (check_key(&s, &kinds[section], at > 0 ? at - row_bytes[section] : SOUND) != SOUND)
        return false;
    return section == STAGED ? stages_hold(rows + at) : kinds[section].check_body(&s) == SOUND;
}

/* How many rows of the list come before the first bad one, and how long they are in a book. */
static size_t count_rows(const struct rows *list, unsigned section, size_t *len) {
    size_t at = 0;
    while (list->len - at >= row_bytes[section] && row_holds(list->bytes, section, at)) {
        *len += entry_bytes(list->bytes, section, at);
        at += row_bytes[section];
    }
    return at / row_bytes[section];
}

/* In a book Ac and Re stand stage by stage, and there are no places past the last. */
static uint8_t *write_staged(const uint8_t *row, uint8_t *out) {
    unsigned stages = number_at(row, SIZES - 2);
    memcpy(out, row, SIZES + 2 * stages);
    out += SIZES + 2 * stages;
    for (unsigned i = 0; i < stages; i++, out += 4) {
        memcpy(out, row + ACS + 2 * i, 2);
        memcpy(out + 2, row + RES + 2 * i, 2);
    }
    return out;
}

/* Every other row is its entry, so that their list is the section but for the count. */
static uint8_t *write_section(const struct rows *list, unsigned section, uint8_t *out) {
    put_number(out, 0, (unsigned)(list->len / row_bytes[section]));
    out += 2;
    if (section != STAGED) {
        memcpy(out, list->bytes, list->len);
        return out + list->len;
    }
    for (size_t at = 0; at < list->len; at += STAGED_ROW)
        out = write_staged(list->bytes + at, out);
    return out;
}

/* A section that holds at least one entry, where it is there, is not there for none. */
static bool is_written(const struct rows *list, unsigned section) {
    return list->len > 0 || kinds[section].least_count == 0;
}

uint32_t ref_write_book(const uint8_t *reduced, size_t reduced_len, const uint8_t *staged, size_t staged_len,
                        const uint8_t *sequential, size_t sequential_len, const uint8_t *variables,
                        size_t variables_len, const uint8_t *sigma, size_t sigma_len, uint8_t *out, size_t out_len,
                        uint32_t *written) {
    const struct rows lists[SECTIONS] = {{reduced, reduced_len},
                                         {staged, staged_len},
                                         {sequential, sequential_len},
                                         {variables, variables_len},
                                         {sigma, sigma_len}};
    size_t position = 0, len = 0;
    for (unsigned i = 0; i < SECTIONS; i++) {
        len += is_written(&lists[i], i) ? 2 : 0;
        size_t rows = count_rows(&lists[i], i, &len);
        position += rows;
        if (rows * row_bytes[i] < lists[i].len)
            return refuse(12, position);
    }
    if (len > out_len || len > MOST_BOOK)
        return 11;
    for (unsigned i = 0; i < SECTIONS; i++)
        if (is_written(&lists[i], i))
            out = write_section(&lists[i], i, out);
    *written = (uint32_t)len;
    return 0;
}

uint32_t ref_count_entries(const uint8_t *book, size_t book_len, uint32_t section, uint32_t *count) {
    struct book opened;
    size_t fault = open_book(&opened, book, book_len);
    if (fault != SOUND)
        return refuse(12, fault);
    *count = section < SECTIONS ? entries_in(&opened, section) : 0;
    return 0;
}

static void show_staged(const uint8_t *entry, uint8_t *row) {
    unsigned stages = number_at(entry, SIZES - 2);
    const uint8_t *numbers = entry + SIZES + 2 * stages;
    memset(row, 0, STAGED_ROW);
    memcpy(row, entry, SIZES + 2 * stages);
    for (unsigned i = 0; i < stages; i++) {
        memcpy(row + ACS + 2 * i, numbers + 4 * i, 2);
        memcpy(row + RES + 2 * i, numbers + 4 * i + 2, 2);
    }
}

uint32_t ref_read_entry(const uint8_t *book, size_t book_len, uint32_t section, uint32_t nth, uint8_t *row,
                        size_t row_len, uint32_t *numbers) {
    struct book opened;
    size_t fault = open_book(&opened, book, book_len), at;
    if (fault != SOUND)
        return refuse(12, fault);
    if (section >= SECTIONS || nth >= entries_in(&opened, section))
        return 6;
    if (row_len < row_bytes[section])
        return 11;
    for (at = opened.section[section] + 2; nth > 0; nth--)
        at += entry_bytes(book, section, at);
    if (section == STAGED)
        show_staged(book + at, row);
    else
        memcpy(row, book + at, row_bytes[section]);
    *numbers = row_bytes[section] / 2;
    return 0;
}
