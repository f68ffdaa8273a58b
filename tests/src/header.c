/*
 * Replays the rows of crates/replay/stdin whose call is in fogatise.h, through the C interface: the oracle's answers of the Rust.
 * A row is a line of hexadecimal words: the call's number, its arguments, its answer; crates/replay says which stand where.
 * Usage: header < ROWS. Prints how many rows were replayed, and each that differs. Exits 1 if one does.
 */
#include "fogatise.h"
#include <stdint.h>
#include <stdio.h>
#include <string.h>

enum { MOST = 1 << 14, ENTRIES = 4096, FIT_WORDS = 33 };

static uint64_t row[MOST];
static size_t words;

/* ---- the arguments */

static double number(size_t i) {
    double x;
    memcpy(&x, &row[i], sizeof x);
    return x;
}

static fog_shelf shelf(size_t i) { return (fog_shelf){number(i), number(i + 1), number(i + 2)}; }

/* The slice whose length is word i; its entries stand behind. Answers the place behind it. */
static size_t floats(size_t i, double *entries) {
    const size_t length = row[i];
    for (size_t k = 0; k < length; k++) entries[k] = number(i + 1 + k);
    return i + 1 + length;
}

static size_t wholes(size_t i, uint32_t *entries) {
    const size_t length = row[i];
    for (size_t k = 0; k < length; k++) entries[k] = (uint32_t)row[i + 1 + k];
    return i + 1 + length;
}

static fog_fit fit(size_t i) {
    fog_fit f;
    memset(&f, 0, sizeof f);
    f.error_model = (uint8_t)row[i];
    f.genome_model = (uint8_t)row[i + 1];
    f.error_params.shape_present = (uint8_t)row[i + 2];
    f.shelf_present = (uint8_t)row[i + 3];
    f.fit_window_end = row[i + 4];
    f.best_iterations = row[i + 5];
    f.w_error = number(i + 6);
    f.w_single = number(i + 7);
    f.w_repeat = number(i + 8);
    f.mean = number(i + 9);
    f.dispersion = number(i + 10);
    f.target_mode = number(i + 11);
    f.error_params.singleton_probability = number(i + 12);
    f.error_params.tail_exponent = number(i + 13);
    f.error_params.weibull_shape = number(i + 14);
    f.shelf = shelf(i + 15);
    f.repeat_ratio = number(i + 18);
    f.genome_kmers = number(i + 19);
    f.error_kmers = number(i + 20);
    f.repeat_kmers = number(i + 21);
    f.log_likelihood = number(i + 22);
    f.bic = number(i + 23);
    f.deviance = number(i + 24);
    for (size_t k = 0; k < 3; k++) {
        f.component_log_window_masses[k] = number(i + 25 + k);
        f.component_log_totals[k] = number(i + 28 + k);
    }
    f.observed_total = number(i + 31);
    f.full_distinct_total = number(i + 32);
    return f;
}

/* ---- the answer: each word is held against the row's, from word `at` on */

static size_t at;
static int same;

static void whole(uint64_t answer) {
    same = same && at < words && row[at] == answer;
    at++;
}

/* NaNs are one value. */
static void real(double answer) {
    const double wanted = at < words ? number(at) : 0.0;
    same = same && at < words && (memcmp(&answer, &wanted, sizeof answer) == 0 || (answer != answer && wanted != wanted));
    at++;
}

static void reals(const double *answers, size_t length) {
    for (size_t i = 0; i < length; i++) real(answers[i]);
}

static void numbered(fog_number answer) {
    whole(answer.number);
    real(answer.value);
}

static void candidate(const fog_fit *f) {
    whole(f->error_model);
    whole(f->genome_model);
    whole(f->error_params.shape_present);
    whole(f->shelf_present);
    whole(f->fit_window_end);
    whole(f->best_iterations);
    const double parameters[] = {f->w_error, f->w_single, f->w_repeat, f->mean, f->dispersion, f->target_mode,
                                 f->error_params.singleton_probability, f->error_params.tail_exponent, f->error_params.weibull_shape,
                                 f->shelf.share, f->shelf.alpha, f->shelf.beta, f->repeat_ratio};
    reals(parameters, sizeof parameters / sizeof *parameters);
    const double totals[] = {f->genome_kmers, f->error_kmers, f->repeat_kmers, f->log_likelihood, f->bic, f->deviance};
    reals(totals, sizeof totals / sizeof *totals);
    reals(f->component_log_window_masses, 3);
    reals(f->component_log_totals, 3);
    real(f->observed_total);
    real(f->full_distinct_total);
}

static void fitted(fog_fit_answer answer) {
    whole(answer.number);
    candidate(&answer.fit);
}

/* ---- the calls, by the oracle's numbers */

static double table[ENTRIES], theta[ENTRIES];
static uint32_t bins[ENTRIES];

static void shelf_log_table(void) {
    at = floats(6, table);
    const fog_written answer = fog_shelf_log_table(number(1), shelf(2), row[5], table, row[6]);
    whole(answer.number);
    whole(answer.items);
    reals(table, row[6]);
}

/* Behind word i: window end, peak, families, list, bins, table. */
static size_t problem(size_t i, size_t *bins_at, size_t *table_at) {
    *bins_at = floats(i + 4, theta);
    *table_at = wholes(*bins_at, bins);
    return floats(*table_at, table);
}

static void cost(void) {
    size_t b, t;
    at = problem(2, &b, &t);
    numbered(fog_cost(bins, row[b], number(1), row[2], row[3], (uint8_t)row[4], (uint8_t)row[5], theta, row[6], table, row[t]));
    reals(table, row[t]);
}

static void unpack(void) {
    size_t b, t;
    at = problem(4, &b, &t);
    fitted(fog_unpack(bins, row[b], number(1), row[4], row[5], (uint8_t)row[6], (uint8_t)row[7], theta, row[8], number(2), row[3], table,
                      row[t]));
    reals(table, row[t]);
}

static double costs[ENTRIES];
static uint8_t converged[ENTRIES], caps[ENTRIES];
static size_t places[ENTRIES], lengths[ENTRIES];
static uint64_t iterations[ENTRIES];

static size_t flags(size_t i, uint8_t *entries) {
    for (size_t k = 0; k < row[i]; k++) entries[k] = (uint8_t)row[i + 1 + k];
    return i + 1 + row[i];
}

static size_t sizes(size_t i, size_t *entries) {
    for (size_t k = 0; k < row[i]; k++) entries[k] = row[i + 1 + k];
    return i + 1 + row[i];
}

static size_t counts(size_t i, uint64_t *entries) {
    memcpy(entries, &row[i + 1], row[i] * sizeof *entries);
    return i + 1 + row[i];
}

static void attempted(fog_attempt_answer answer, size_t room) {
    const fog_attempt *a = &answer.attempt;
    const size_t stands = answer.number == 0 && row[7] != 0 ? row[4] + 1 : 0;
    whole(answer.number);
    whole(a->error_model);
    whole(a->genome_model);
    whole(a->has_candidate);
    whole(a->rejection_present);
    whole(a->rejection);
    whole(a->total_iterations);
    whole(a->capped_starts);
    candidate(&a->candidate);
    reals(table + stands, room - stands);
}

/* Any other byte for a yes. */
static uint8_t other(uint8_t flag, size_t i) { return flag == 0 ? 0 : (uint8_t)(2 + i % 254); }

static size_t shorter(size_t a, size_t b) { return a < b ? a : b; }

/*
 * Scale, valley, limit, a problem whose list holds the numbers of all lists, six columns; then the attempt, and the table from where it
 * stands. Once over the columns, and once over as many run structs as the shortest column has, with other bytes for the flags.
 */
static void attempt(void) {
    static fog_run runs[ENTRIES];
    size_t b, t;
    const size_t first = problem(4, &b, &t), second = flags(first, converged), third = floats(second, costs), fourth = sizes(third, places);
    const size_t fifth = sizes(fourth, lengths), sixth = counts(fifth, iterations), answer = flags(sixth, caps);
    at = answer;
    attempted(fog_attempt_from_numbers(bins, row[b], number(1), row[4], row[2], row[5], (uint8_t)row[6], (uint8_t)row[7], number(3), converged,
                                       row[first], costs, row[second], places, row[third], lengths, row[fourth], iterations, row[fifth], caps,
                                       row[sixth], theta, row[8], table, row[t]),
              row[t]);

    const size_t n = shorter(shorter(shorter(row[first], row[second]), shorter(row[third], row[fourth])), shorter(row[fifth], row[sixth]));
    for (size_t i = 0; i < n; i++)
        runs[i] = (fog_run){other(converged[i], i), costs[i], places[i], lengths[i], iterations[i], other(caps[i], i + n)};
    const fog_setup setup = {number(1), row[4], row[2], row[5], (uint8_t)row[6], (uint8_t)row[7], number(3)};
    problem(4, &b, &t);
    at = answer;
    attempted(fog_attempt_from(bins, row[b], setup, runs, n, theta, row[8], table, row[t]), row[t]);
}

static void heights(void) {
    const fog_heights answer = fog_component_heights(fit(1), row[1 + FIT_WORDS]);
    at = FIT_WORDS + 2;
    whole(answer.number);
    real(answer.error);
    real(answer.single);
    real(answer.repeat);
}

static void error_mode(void) {
    const fog_count answer = fog_error_mode(fit(1));
    whole(answer.number);
    whole(answer.count);
}

static void cutoff(fog_cutoff answer) {
    whole(answer.number);
    whole(answer.cutoff);
}

static void sure_cutoff(fog_sure_cutoff answer) {
    whole(answer.number);
    whole(answer.walk);
    whole(answer.sure);
    whole(answer.cutoff);
}

/* Whether the call is one of the header's; `at` stands behind its arguments. */
static int called(void) {
    same = 1;
    at = 2;
    switch (row[0]) {
    case 1: return real(fog_exp(number(1))), 1;
    case 2: return real(fog_ln(number(1))), 1;
    case 3: return real(fog_expm1(number(1))), 1;
    case 4: return real(fog_lgamma(number(1))), 1;
    case 38: return at = 4, real(fog_ln_dnbinom(number(1), number(2), number(3))), 1;
    case 41: return at = 3, whole(fog_discrete_nb_mode(number(1), number(2))), 1;
    case 42: return at = 4, numbered(fog_log_nb_mass(number(1), number(2), row[3])), 1;
    case 44: return real(fog_shelf_trials(number(1))), 1;
    case 45: return at = 5, real(fog_ln_dbetabinom(number(1), number(2), number(3), number(4))), 1;
    case 46: return shelf_log_table(), 1;
    case 47: return at = 8, real(fog_ln_single_copy(number(1), number(2), number(3), (uint8_t)row[4], shelf(5))), 1;
    case 49:
        at = floats(7, table);
        return real(fog_mix_single_copy(number(1), number(2), (uint8_t)row[3], shelf(4), table, row[7])), 1;
    case 50:
        at = floats(8, table);
        return numbered(fog_single_copy_log_mass(number(1), number(2), (uint8_t)row[3], shelf(4), table, row[8], row[7])), 1;
    case 64: return cost(), 1;
    case 65: return unpack(), 1;
    case 66: return at = 1 + FIT_WORDS, real(fog_component_total_ratio(fit(1))), 1;
    case 67: return at = 1 + FIT_WORDS, real(fog_mode_roundtrip_error(fit(1))), 1;
    case 68: return at = 1 + FIT_WORDS, whole(fog_primary_mode(fit(1))), 1;
    case 69: return at = 1 + FIT_WORDS, whole(fog_repeat_mode(fit(1))), 1;
    case 70: return at = 1 + FIT_WORDS, error_mode(), 1;
    case 71: return heights(), 1;
    case 85: return at = 2 + FIT_WORDS, cutoff(fog_hole_cutoff(fit(1), number(1 + FIT_WORDS))), 1;
    case 86: return at = 2 + FIT_WORDS, sure_cutoff(fog_hole_cutoff_sure(fit(1), number(1 + FIT_WORDS))), 1;
    case 87: return at = 1 + FIT_WORDS, cutoff(fog_crossover(fit(1))), 1;
    case 88: return whole(fog_parameter_count((uint8_t)row[1])), 1;
    case 89: return whole(fog_extra_parameters((uint8_t)row[1])), 1;
    case 90: return at = 3, whole(fog_list_length((uint8_t)row[1], (uint8_t)row[2])), 1;
    case 91: return at = 1 + FIT_WORDS, cutoff(fog_error_floor_cutoff(fit(1))), 1;
    case 105: return attempt(), 1;
    default: return 0;
    }
}

/* ---- the histogram file, whose rows the oracle keeps elsewhere */

static int file_differs(void) {
    const uint8_t wanted[6] = {0x01, 0x03, 0xac, 0x02, 0x00, 0x05};
    uint32_t read[3] = {0, 0, 0};
    uint8_t bytes[8] = {0};
    const fog_file whole_file = fog_read_histogram(wanted, 6, read, 3), broken = fog_read_histogram(wanted, 5, read, 3);
    const fog_written written = fog_write_histogram(read, 3, bytes, 8);
    return whole_file.number != 0 || whole_file.items != 3 || read[0] != 300 || read[1] != 0 || read[2] != 5 || broken.number != 3
        || broken.place != 5 || broken.items != 0 || written.number != 0 || written.items != 6 || memcmp(bytes, wanted, 6) != 0;
}

/* ---- the search, in tests/src/searches.c: how many answers are others */

int searches_differ(void);

/* ---- the rows */

/* The next row; 0 at the end, and -1 for a line that is none. */
static int next_row(void) {
    char letter;
    while ((words = 0, scanf(" %c", &letter)) == 1) {
        if (letter == '#') {
            if (scanf("%*[^\n]") < 0) return 0;
            continue;
        }
        ungetc(letter, stdin);
        for (int behind = ' '; behind == ' '; behind = getchar())
            if (words == MOST || scanf("%" "llx", (unsigned long long *)&row[words++]) != 1) return -1;
        return 1;
    }
    return 0;
}

int main(void) {
    unsigned rows = 0, differences = 0;
    int got;
    while ((got = next_row()) == 1) {
        if (!called()) continue;
        rows++;
        if (!same || at != words) {
            differences++;
            fprintf(stderr, "header: row %u, call %llu: another answer\n", rows, (unsigned long long)row[0]);
        }
    }
    if (got < 0) {
        fputs("header: a line is no row\n", stderr);
        return 1;
    }
    differences += file_differs() + searches_differ();
    printf("header: %u rows and a search through the C interface, %u differences\n", rows, differences);
    return rows == 0 || differences != 0;
}
