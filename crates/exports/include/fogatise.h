/*
 * Fogatise for C and Rust: the static library that `tools/build exports` writes. Link it alone: it has the four routines too.
 *
 * Every function ends and answers for every argument, NaN and infinities included. None keeps a pointer, allocates, or reads or writes
 * anything but its arguments, so any of them may be called from several threads at once. A cost keeps up to 32 KiB of numbers on the stack.
 *
 * The library is for x86-64. The processor is assumed to be as it is when a program starts: it rounds to nearest, underflow is gradual, and
 * floating-point exceptions are masked. Infinities and NaNs are ordinary values here, so feenableexcept would end a program in the middle
 * of a cost; -ffast-math, and linking with it, switches gradual underflow off and changes answers.
 *
 * A table, a list and the bins are a pointer and the number of entries. The pointer is never null, even where there are no entries or the
 * call reads none, it is aligned as C aligns the type, and what one call is lent does not overlap. A NaN that comes back may have any sign
 * and payload.
 *
 * A flag is a byte: where it is handed in, 0 says no and every other byte yes; where it comes back or is written, it is 0 or 1.
 *
 * docs/GLOSSARY.md says what valley, peak, shelf, window end and scale are.
 *
 * From a histogram file to cutoffs:
 *
 *   fog_read_histogram              the bins: bin i is the number of distinct k-mers with the count i + 1
 *   valley, peak, window end        the caller's: the count of the dip behind the errors, and the count of the highest bin behind it. On a
 *                                   smooth spectrum the valley is the first count from 2 on with fewer k-mers than the next; noise can put
 *                                   it too low, so look at it. The original fits up to the smaller of 6 * peak and bins - 1
 *   fog_empirical_shelf_share       what a search with a shelf starts from
 *   then for each pair of families:
 *     fog_fit_starts                the lists from which to search. The original's seeds are 2, 8 and 15, its shapes 0.5, 3, 0.75, 4; its
 *                                   hint is 2 where the caller has none
 *     fog_begin_searches            the first simplex of each start
 *     fog_run_searches              as many iterations of each as are wanted; again and again, over what was stored
 *     fog_report_searches           what the runs have come to, in the arrays of a run table
 *     fog_attempt_from_numbers      over those, or fog_attempt_from over runs as structs; the original's mass limit is 1.1. A search of the
 *                                   caller's own lowers fog_cost_prepared, with fog_prepare_window once for a window end
 *   fog_select_fit                  the fit that is used
 *   fog_hole_cutoff_sure            the largest cutoff that a budget allows; cut there, or at the valley where that is smaller.
 *                                   fog_crossover and fog_error_floor_cutoff to compare it with
 */
#ifndef FOGATISE_H
#define FOGATISE_H

#include <stddef.h>
#include <stdint.h>

#ifdef __cplusplus
extern "C" {
#endif

/*
 * An answer that can refuse: number 0 and the value, or the number that comes back instead, and the value 0.
 *
 *    1  the peak, the valley or the number of bins is below 2
 *    2  the bins, the peak, the valley, a count, the window end or the number of runs is above 65,535; bins for a file above 2,047
 *    3  the file is none, or is broken: fog_read_histogram alone, with the place
 *    4  all bins are zero
 *    5  the window end is 0, or beyond the bins where the call takes bins
 *    6  every recovered bin in the window is zero
 *    7  the list, or a converged run's, has the wrong length for its families, or does not lie in the lists; a table of error starts is not
 *       one or more rows of three; the shapes are not pairs; the starts of a search are not a whole number of lists
 *    8  a log probability scanned for the error mode is a NaN
 *    9  the mass limit is not finite or is below 1; a converged run's cost is not finite or not above 0
 *   10  a lent table or buffer is too short for the answer, for the shelf table, or for the runs of a search
 *
 * Each applies only to calls that take the thing named. Where several apply, the first of these comes back. A refusal leaves lent memory
 * as it was.
 */
typedef struct {
    uint8_t number;
    double value;
} fog_number;

enum {
    FOG_TOO_SMALL = 1,
    FOG_TOO_LARGE = 2,
    FOG_BROKEN_FILE = 3,
    FOG_ALL_BINS_ZERO = 4,
    FOG_NO_WINDOW = 5,
    FOG_NOTHING_RECOVERED = 6,
    FOG_WRONG_LENGTH = 7,
    FOG_NAN_SCANNED = 8,
    FOG_WRONG_LIMIT_OR_COST = 9,
    FOG_TOO_SHORT = 10
};

/* The same of a call that writes: number 0 and how many entries it wrote. */
typedef struct {
    uint8_t number;
    size_t items;
} fog_written;

/* The same of a call that answers with a whole number. */
typedef struct {
    uint8_t number;
    uint64_t count;
} fog_count;

/* The same of three heights. */
typedef struct {
    uint8_t number;
    double error;
    double single;
    double repeat;
} fog_heights;

/* The same of a cutoff: number 0 and the cutoff, which is 2 at least, or 0 for none. */
typedef struct {
    uint8_t number;
    uint16_t cutoff;
} fog_cutoff;

/* The same cutoff, with walk 1 where the walk started, and sure 1 where the guarantee below holds of it; 0 otherwise. */
typedef struct {
    uint8_t number;
    uint8_t walk;
    uint8_t sure;
    uint16_t cutoff;
} fog_sure_cutoff;

/* The families. Any number but 0 is the second. */
enum { FOG_FREE_SINGLETON_WEIBULL = 0, FOG_SINGLETON_PARETO = 1 };
enum { FOG_NEGATIVE_BINOMIAL = 0, FOG_SHELF_NEGATIVE_BINOMIAL = 1 };

/*
 * The shelf under the single-copy lobe: its share of the component, and the beta-binomial's two shapes. Where a call takes `present`
 * beside it, 0 says that there is no shelf, and any other number that there is one.
 */
typedef struct {
    double share;
    double alpha;
    double beta;
} fog_shelf;

/*
 * The error component. Count 1 has the probability p = singleton_probability, a count n from 2 on (1 - p) (S(n) - S(n + 1)). With the
 * exponent a and the shape c, S(n) is exp(-a ((n - 1)^c - 1) / c), Weibull-like, where shape_present is not 0, and (n - 1)^-a, a Pareto,
 * otherwise.
 */
typedef struct {
    double singleton_probability;
    double tail_exponent;
    uint8_t shape_present;
    double weibull_shape;
} fog_errors;

/*
 * A fit. Arrays go error, single-copy, repeat. Logarithms are natural. What is not there is 0 beside its presence. Whether there is a shape
 * or a shelf is said by its presence alone, never by a family. The sample is what the recovered bins count, the library what the bins count.
 */
typedef struct {
    uint8_t error_model;
    uint8_t genome_model;
    double w_error; /* the three weights: parts of the k-mers in the window, 1 to fit_window_end */
    double w_single;
    double w_repeat;
    double mean; /* of the single-copy lobe, in counts */
    double dispersion; /* of both lobes: the variance over the mean */
    double target_mode; /* the mode that the list asks for, in counts, not rounded; fog_primary_mode has the one that came of it */
    fog_errors error_params;
    uint8_t shelf_present;
    fog_shelf shelf;
    double repeat_ratio; /* the repeat lobe's mean over the single-copy mean */
    double genome_kmers; /* distinct k-mers of the library at all counts, 0 too: weight * observed_total / window mass; single copies */
    double error_kmers;
    double repeat_kmers;
    double log_likelihood; /* minus the cost that was handed in: of the sample's k-mers in the window, each with its log probability */
    double bic; /* list length * ln(the sample's k-mers in the window) - 2 * log_likelihood */
    double deviance; /* the sum over the sample's bins o in the window of 2 o ln(o / expected); +inf where nothing was expected */
    size_t fit_window_end;
    uint64_t best_iterations; /* as handed in */
    double component_log_window_masses[3]; /* the log of the part of each component that lies in the window */
    double component_log_totals[3]; /* the logs of error_kmers, genome_kmers, repeat_kmers */
    double observed_total; /* the recovered bins in the window times the scale */
    double full_distinct_total; /* the sum of all bins as they came */
} fog_fit;

/* Number 0 and a fit, or a number and a fit with every field 0. */
typedef struct {
    uint8_t number;
    fog_fit fit;
} fog_fit_answer;

/*
 * Number 0 and what the validator says: reason 0 for a valid fit, or the first of the ten rules that turns it away. Or a number, and reason
 * 0.
 */
typedef struct {
    uint8_t number;
    uint8_t reason;
} fog_verdict;

/*
 * Why a fit is not used: no run converged, or one of the validator's rules. Any other number is the first. In a verdict 0 is a valid fit; in
 * an attempt rejection_present says first whether there is a reason.
 */
enum {
    FOG_OPTIMISATION_FAILED = 0,
    FOG_NON_FINITE_LIKELIHOOD = 1,
    FOG_INVALID_COMPONENTS = 2,
    FOG_INVALID_WINDOW_MASS = 3,
    FOG_COMPONENT_MASS_EXCEEDED = 4,
    FOG_UNSTABLE_MODE_PARAMETERISATION = 5,
    FOG_GENOME_LOBE_OUTSIDE_FIT_WINDOW = 6,
    FOG_ERROR_MODE_PAST_VALLEY = 7,
    FOG_PRIMARY_MODE_OUTSIDE_BAND = 8,
    FOG_REPEAT_MODE_TOO_EARLY = 9,
    FOG_POSITIVE_LOG_LIKELIHOOD = 10
};

/*
 * What one pair of families came to: its valid fit of lowest cost, or else the rejected one and why. has_candidate is 0 where no run
 * converged, rejection_present 0 where the candidate is valid; any other number says that there is one.
 */
typedef struct {
    uint8_t error_model;
    uint8_t genome_model;
    uint8_t has_candidate;
    fog_fit candidate;
    uint8_t rejection_present;
    uint8_t rejection;
    uint64_t total_iterations;
    uint32_t capped_starts;
} fog_attempt;

/* The numbers of an attempt: the spectrum's scale and window end, what the validator asks, and the families. */
typedef struct {
    double scale;
    size_t window_end;
    size_t valley;
    size_t peak;
    uint8_t error;
    uint8_t genome;
    double mass_limit;
} fog_setup;

/*
 * A run of the search. Its parameter list is the `length` numbers from `place` on of the lists that are handed over beside it. Where
 * converged is 0, cost, place and length are not looked at.
 */
typedef struct {
    uint8_t converged;
    double cost;
    size_t place;
    size_t length;
    uint64_t iterations;
    uint8_t hit_cap;
} fog_run;

/* Number 0 and the attempt; or a number, and an attempt with every field 0. */
typedef struct {
    uint8_t number;
    fog_attempt attempt;
} fog_attempt_answer;

/* found 1 and the fit, or found 0 and a fit with every field 0. */
typedef struct {
    uint8_t found;
    fog_fit fit;
} fog_selected;

/* Number 0 and how many bins were read; number 3 and the place of the file's first fault, in bytes from 0; or number 10. */
typedef struct {
    uint8_t number;
    size_t items;
    size_t place;
} fog_file;

/* ---- the four routines, step by step as docs/ROUTINES.md has them; special values follow ISO C Annex F */

/* e^x, never negative. */
double fog_exp(double x);

/* The natural logarithm: -inf at either zero, a NaN below. */
double fog_ln(double x);

/* e^x - 1; a zero keeps its sign. */
double fog_expm1(double x);

/* ln |Gamma(x)|: +inf at 0, at the negative whole numbers and at either infinity; +0 at 1 and 2. */
double fog_lgamma(double x);

/* ---- log densities */

/* The negative binomial with this mean and variance dispersion * mean, at x; a Poisson where dispersion is at most 1 + 1e-9. */
double fog_ln_dnbinom(double x, double mean, double dispersion);

/* The beta-binomial over so many trials, at x; -inf above the trials. */
double fog_ln_dbetabinom(double x, double trials, double alpha, double beta);

/* The single-copy component at a count: its lobe, and the shelf where there is one. */
double fog_ln_single_copy(double count, double mean, double dispersion, uint8_t present, fog_shelf shelf);

/*
 * The same from the lobe's log density, with the shelf read from its table at the count cut to a whole number: entry 0 for a NaN or a
 * count below 0, and -inf behind the table's end. So lend exactly the entries that fog_shelf_log_table wrote, and not the room behind them.
 * Without a shelf it answers `lobe`.
 */
double fog_mix_single_copy(double lobe, double count, uint8_t present, fog_shelf shelf, const double *table, size_t length);

/* ---- mode and trials */

/* The negative binomial's mode: floor(mean - (dispersion - 1)); 0 where that is below 0 or not finite, 2^64-1 where it is 2^64 or more. */
uint64_t fog_discrete_nb_mode(double mean, double dispersion);

/* The shelf's trials: the mean, rounded with halves away from zero, and 1 at least; 1 for a NaN. */
double fog_shelf_trials(double mean);

/* ---- window masses: the log of the mass on the counts 1 to `top` */

/* Of the negative binomial. Refusals 2 and 5. */
fog_number fog_log_nb_mass(double mean, double dispersion, size_t top);

/*
 * Of the single-copy component. The shelf's part is the sum of the table's entries 1 to `top`, or to the table's end where that comes
 * first; entries behind `top` are not read. Lend exactly the entries that fog_shelf_log_table wrote. Refusals 2 and 5.
 */
fog_number fog_single_copy_log_mass(double mean, double dispersion, uint8_t present, fog_shelf shelf, const double *table, size_t length,
                                    size_t top);

/* ---- the shelf table */

/*
 * Writes the shelf's log density at the counts 0 to min(trials, top), where trials is fog_shelf_trials(mean), each entry worked out from
 * the one before, and answers how many entries that is. What lies behind them stays as it was. `length` is the room: refusals 2, 5 and
 * 10, the last where there is less room than min(trials, top) + 1.
 */
fog_written fog_shelf_log_table(double mean, fog_shelf shelf, size_t top, double *table, size_t length);

/* ---- parameter lists
 *
 * A list, theta, is what a search moves: any numbers, of which each stands for a parameter in its range. S(v) is 1 / (1 + e^-v), which
 * lies between 0 and 1. n is fog_parameter_count: 7 for Weibull, 6 for Pareto.
 *
 *   theta[0], theta[1]  the weights: 1 : e^theta[0] : e^theta[1] is errors : single copies : repeats inside the window
 *   theta[2]            the single-copy lobe's mode: peak * (0.75 + 0.58 * S(theta[2]))
 *   theta[3]            the dispersion of both lobes: 1 + e^theta[3]; the single-copy mean is mode + dispersion - 1
 *   theta[4]            the tail exponent of the errors: e^theta[4]
 *   theta[5]            the probability of count 1 among the errors: S(theta[5])
 *   theta[6]            Weibull alone: the tail's shape, e^theta[6]
 *   theta[n]            the repeats' mean over the single-copy mean: 1.5 + 0.5 * S(theta[n])
 *   theta[n + 1]        with a shelf: its share of the single-copy k-mers, 0.5 * S(theta[n + 1])
 *   theta[n + 2]        with a shelf: the retained fraction m, the part of coverage that its k-mers keep: 0.3 + 0.7 * S(theta[n + 2])
 *   theta[n + 3]        with a shelf: the concentration k = 1/m + (20 - 1/m) * S(theta[n + 3]); then alpha = m * k and beta = (1 - m) * k
 */

/* The list's entries before the genome family's own: 7 for Weibull, 6 for Pareto. */
size_t fog_parameter_count(uint8_t error);

/* The genome family's own: 1, and 4 with a shelf. */
size_t fog_extra_parameters(uint8_t genome);

/* Their sum: Weibull 8, Weibull with shelf 11, Pareto 7, Pareto with shelf 10. */
size_t fog_list_length(uint8_t error, uint8_t genome);

/* ---- cost and fit: bin i holds count i + 1 */

/*
 * The negative log-likelihood of the counts 1 to window_end at the parameters of a list. It is +inf where a parameter can't be used, the
 * mode does not come back, a log window mass is above 1e-12 or not finite, or the log-likelihood is not finite or above 0. Where the
 * dispersion is between 1 + 1e-9 and about 1.02, rounding alone lifts a mass above that at scattered points, so a search that ends there
 * is worth another start with theta[3] = -25, a Poisson.
 *
 * It is of the sample. The bins are the library's: of a sketch, its counts times the scale. Each is divided by the scale, how many k-mers
 * of the library one of the sample stands for, and rounded with halves away from zero; a scale that is not finite or is below 1 becomes 1.
 * Counts that were never multiplied, an exact table's or a sketch's own, go in with the scale 1: no number tells of a second division. The
 * peak is the count of the spectrum's single-copy peak, around which theta[2] moves the mode. With a shelf family `table` needs window_end
 * + 1 entries: the shelf table, min(trials, window_end) + 1 entries, is built in front, and stays there, unless the cost is +inf for the
 * parameters alone; what lies behind stays as it was. Refusals 1, 2, 4, 5, 6, 7 and 10.
 */
fog_number fog_cost(const uint32_t *bins, size_t bins_length, double scale, size_t window_end, size_t peak, uint8_t error, uint8_t genome,
                    const double *theta, size_t theta_length, double *table, size_t table_length);

/*
 * What the costs of one window have in common: ln n and lgamma(n + 1) for n from 0 to window_end + 1, 2 (window_end + 2) entries in front of
 * `out`; what lies behind stays. Refusals 2, 5 and 10.
 */
fog_written fog_prepare_window(size_t window_end, double *out, size_t length);

/*
 * fog_cost, faster: `ready` is as fog_prepare_window filled it for this window end, and then the answer and the table are fog_cost's, bit
 * for bit. Over another slice it still ends and answers, but means nothing. Refusal 10 also where `ready` has fewer than
 * 2 (window_end + 2) entries.
 */
fog_number fog_cost_prepared(const uint32_t *bins, size_t bins_length, double scale, size_t window_end, size_t peak, uint8_t error,
                             uint8_t genome, const double *theta, size_t theta_length, const double *ready, size_t ready_length,
                             double *table, size_t table_length);

/*
 * A converged list as a fit, with its cost and its iterations. Neither is worked out again: the likelihood and the BIC rest on the cost that
 * is handed in, so hand in what fog_cost answered for this list, these bins, this scale, window and peak. The rest is as in fog_cost, but
 * that a shelf table is always built.
 */
fog_fit_answer fog_unpack(const uint32_t *bins, size_t bins_length, double scale, size_t window_end, size_t peak, uint8_t error,
                          uint8_t genome, const double *theta, size_t theta_length, double cost, uint64_t iterations, double *table,
                          size_t table_length);

/* ---- what is read off a fit */

/* How many distinct k-mers of the library the fit expects of each component at a count. Refusal 2. At count 0 the error's is a NaN. */
fog_heights fog_component_heights(fog_fit fit, size_t count);

/*
 * The same at each count from 1 to `last`, three numbers for each (error, single, repeat), into the front of `out`; answers how many numbers
 * that is, 3 * last. What lies behind them stays as it was. `length` is the room: refusals 2 and 10. Much faster than one call a count.
 */
fog_written fog_component_heights_to(fog_fit fit, size_t last, double *out, size_t length);

/* The count in the window where the error component is highest, the later of equals. Refusals 2, 5 and 8. */
fog_count fog_error_mode(fog_fit fit);

/* The single-copy lobe's mode, and the repeat lobe's. */
uint64_t fog_primary_mode(fog_fit fit);
uint64_t fog_repeat_mode(fog_fit fit);

/* How far the mode that mean and dispersion give back lies from target_mode. */
double fog_mode_roundtrip_error(fog_fit fit);

/* The components' totals over the spectrum's distinct k-mers. */
double fog_component_total_ratio(fog_fit fit);

/* ---- cutoffs: k-mers with a count below the cutoff are removed, those at the cutoff stay
 *
 * Cut at the valley, or at the hole cutoff where that is smaller: the hole cutoff is the largest that keeps the genome whole up to the
 * budget, and each smaller one keeps it too. The program pick answers so, with none where the hole cutoff is none. The crossover and the
 * error floor say where the errors end; a cutoff below the floor leaves errors in.
 */

/*
 * The hole cutoff: the largest cutoff that removes at most `budget` single-copy k-mers of the library by the fit, and 2 at least. What a
 * cutoff removes is the sum of the single-copy probabilities below it, from count 0 on, so k-mers that no read shows use up the budget
 * too; the budget over genome_kmers is the allowed share. At 2, the least cutoff, the removed part may exceed the budget.
 *
 * None is not "keep everything": every cutoff up to the ceiling, the smaller of the rounded mean and the window end, removes at most the
 * budget (a budget that is a NaN too); or no walk starts, where genome_kmers is 0 or less, the mean is not finite or is below 2, or the
 * window end is below 2. fog_hole_cutoff_sure tells these apart. Refusals 2 and 5.
 */
fog_cutoff fog_hole_cutoff(fog_fit fit, double budget);

/*
 * The same cutoff, and whether it is sure. Where sure is 1 this is proved, in exact arithmetic on the probabilities: a cutoff of 3 or more
 * removes at most the allowed share and one part in 2^36 of it; with any cutoff the sum up to and including it, enlarged by one part in
 * 2^36, exceeds the allowed share; with none the sum below the ceiling (the smaller of the rounded mean and the window end) is at most
 * that share and one part in 2^36 of it. It is sure exactly where the walk starts, the allowed share is finite, and each probability from
 * count 0 to the ceiling lies between 0 and 2. Refusals 2 and 5.
 */
fog_sure_cutoff fog_hole_cutoff_sure(fog_fit fit, double budget);

/*
 * The crossover: the first count where the single-copy component stands above the error component, below the rounded mean and the window
 * end, and 2 at least; none where there is no such count, where the mean is not finite or is below 2, or the window end is below 2.
 * Refusals 2 and 5.
 */
fog_cutoff fog_crossover(fog_fit fit);

/*
 * The error floor: one past the last count of the window where the error component stands at least as high as the single-copy component at
 * its own mode, 65,535 at most and 2 at least. It is never none. Refusals 2 and 5.
 */
fog_cutoff fog_error_floor_cutoff(fog_fit fit);

/* ---- from histogram to starts */

/*
 * The bins as the sample had them: each divided by the scale and rounded with halves away from zero, into the first of the lent ones; a
 * scale that is not finite or is below 1 becomes 1. The lent ones past the last bin stay as they were. Refusals 1, 2 and 10.
 */
fog_written fog_recover_bins(const uint32_t *bins, size_t bins_length, double scale, uint32_t *out, size_t out_length);

/*
 * The shelf share that a search starts from, over the recovered bins: twice the k-mers at counts valley to peak/2, cut to a whole number,
 * over those at counts valley to 2*peak, held to 0.01 .. 0.4; 0.05 where the latter are none. Counts past the bins have no k-mers. A valley
 * behind the peak is no refusal. Refusals 1 and 2.
 */
fog_number fog_empirical_shelf_share(const uint32_t *bins, size_t bins_length, double scale, size_t valley, size_t peak);

/*
 * Two lent tables of error starts, for the two families: rows of tail exponent, singleton probability and shape, which the Pareto family
 * does not read. 7 where the length of either is not a positive multiple of 3, and 0 otherwise.
 */
uint8_t fog_start_tables_refusal(const double *pareto, size_t pareto_length, const double *weibull, size_t weibull_length);

/*
 * Writes every start of a search, each a parameter list of fog_list_length(error, genome) numbers, one behind the other: for each seed and
 * then for the hint, the error starts of the family's table; with a shelf family, for each of those the shapes. That is (seeds + 1) * rows
 * * (pairs of shapes, with a shelf family) starts, and none for a shelf family without shapes. The answer counts numbers, not starts:
 * divided by the list's length it is the number of starts. What lies behind them stays as it was.
 *
 * A seed is a dispersion to start from, and the hint is one more; a hint that is not finite or not above 1 becomes 2. Each is then held to
 * 1.001 at least, a NaN too. `shapes` are pairs of retained fraction and concentration, the m and k of theta[n + 2] and theta[n + 3], and
 * not alpha and beta. The share lies inside 0 .. 0.5, a retained fraction inside 0.3 .. 1, a concentration inside 1/m .. 20; outside of
 * these a start holds NaNs or infinities, and no number says so.
 *
 * fog_fit_starts has the original's tables of tail exponent, singleton probability and shape: for Pareto 1.5 0.8 and 2.5 0.95; for Weibull
 * 1.5 0.8 0.05, 2.5 0.9 0.5 and 2.0 0.95 1.0. fog_fit_starts_lent has the lent ones. Refusals 7 and 10, 7 whichever families are asked.
 */
fog_written fog_fit_starts(uint8_t error, uint8_t genome, const double *seeds, size_t seeds_length, double hint, double share,
                           const double *shapes, size_t shapes_length, double *out, size_t out_length);
fog_written fog_fit_starts_lent(uint8_t error, uint8_t genome, const double *pareto, size_t pareto_length, const double *weibull,
                                size_t weibull_length, const double *seeds, size_t seeds_length, double hint, double share,
                                const double *shapes, size_t shapes_length, double *out, size_t out_length);

/* ---- the search
 *
 * Nelder and Mead's method over fog_cost, for many runs at once, one from each start. With w = fog_list_length(error, genome) + 1, a simplex
 * is w rows of w numbers, one behind the other; a row is a cost, and then the list that has it. Of run i, from 0 on,
 *
 *   simplexes   has its simplex, the w * w numbers from i * w * w on
 *   iterations  at i, how many iterations it has made
 *   stopped     at i, a byte: 0 where the test has not stopped it, any other where it has; a call writes 0 or 1
 *
 * That is all that is to be stored of runs that are to go on later: the numbers bit for bit, and of each byte of `stopped` whether it is 0.
 * `ready` and `table` are scratch: what they hold before a call does not matter.
 *
 * An iteration orders the rows by cost, the earlier first on ties. Then the worst gives way to its reflection in the centroid of the others,
 * or to a point twice or half as far behind the centroid, or half the way back from there, by what they cost; where none of these is taken,
 * every row but the best goes half the way to the best. Before each iteration, the rows being in order, comes the test: the run stops where
 * the mean squared deviation of its costs is below 1e-8; where a cost is infinite it goes on. The cap, 1,000 iterations and 2,000 with a
 * shelf family, ends a run untested.
 *
 * Sizes, for `runs` runs: `simplexes` runs * w * w, `iterations` and `stopped` runs, `ready` 2 (window_end + 2), and with a shelf family
 * `table` window_end + 1 entries; each may have more. An answer is the number of runs. Then what lies behind the last run stays as it was,
 * the front of `ready` holds what fog_prepare_window writes, and with a shelf family the first window_end + 1 entries of `table` hold
 * anything; what lies behind them stays as it was, and with a plain family all of `table`.
 */

/*
 * Makes a run of each start: its simplex is the start and, for each number of it in turn, the start with 0.5 added to that number; it has
 * made 0 iterations, and nothing has stopped it. `starts` is what fog_fit_starts wrote, or any other lists, one behind the other: the
 * number of runs is starts_length over the list's length, and may be 0.
 *
 * The bins, the scale, the window end, the peak and the families are as in fog_cost. Refusals 1, 2 (also more than 65,535 starts), 4, 5, 6,
 * 7 (starts_length is not a multiple of the list's length) and 10.
 */
fog_written fog_begin_searches(const uint32_t *bins, size_t bins_length, double scale, size_t window_end, size_t peak, uint8_t error,
                               uint8_t genome, const double *starts, size_t starts_length, double *simplexes, size_t simplexes_length,
                               uint64_t *iterations, size_t iterations_length, uint8_t *stopped, size_t stopped_length, double *ready,
                               size_t ready_length, double *table, size_t table_length);

/*
 * Each of the first `runs` runs goes on for at most `limit` turns. A turn is the test, and an iteration where it does not stop the run. A
 * run that has stopped or has come to its cap stays as it is, its byte of `stopped` written as 0 or 1, so a limit of 2,000 or more ends every
 * run. A call with the limit n and then one with m leave in `simplexes`, `iterations` and `stopped` what one call with n + m leaves, bit for
 * bit.
 *
 * The bins, the scale, the window end, the peak and the families are those that the runs were begun with: no number tells of others. The
 * costs in `simplexes` are taken as they stand there. Refusals 1, 2 (also more than 65,535 runs), 4, 5, 6 and 10.
 */
fog_written fog_run_searches(const uint32_t *bins, size_t bins_length, double scale, size_t window_end, size_t peak, uint8_t error,
                             uint8_t genome, size_t runs, uint64_t limit, double *simplexes, size_t simplexes_length, uint64_t *iterations,
                             size_t iterations_length, uint8_t *stopped, size_t stopped_length, double *ready, size_t ready_length,
                             double *table, size_t table_length);

/*
 * What each of the first `runs` runs has come to, in five arrays of `runs` entries; each may have more, which stay as they were. For run i
 *
 *   converged   1 where the test has stopped it and its cost is finite and above 0, else 0
 *   costs       the least cost in its simplex
 *   places      where the list with that cost starts in `simplexes`: the earlier row on ties
 *   lengths     the length of that list
 *   caps        1 where the cap has ended it, else 0: its iterations are as many, and the test has not stopped it
 *
 * A run that is still to go on has neither converged nor come to its cap. With `iterations` as the sixth array, and `simplexes` as `lists`,
 * these go into fog_attempt_from_numbers as they are; hand it `runs` as the length of each of the six. The answer is the number of runs.
 * Refusals 2 (more than 65,535 runs) and 10 (`simplexes` is shorter than runs * w * w, or another array than `runs`).
 */
fog_written fog_report_searches(uint8_t error, uint8_t genome, size_t runs, const double *simplexes, size_t simplexes_length,
                                const uint64_t *iterations, size_t iterations_length, const uint8_t *stopped, size_t stopped_length,
                                uint8_t *converged, size_t converged_length, double *costs, size_t costs_length, size_t *places,
                                size_t places_length, size_t *lengths, size_t lengths_length, uint8_t *caps, size_t caps_length);

/* ---- which fit is used */

/*
 * Whether a fit is to be believed: the first of the rules that turns it away.
 *
 *    1  the log-likelihood, BIC or deviance is not finite
 *    2  a weight is outside 0 to 1 or a NaN, the mean not finite or not above 0, the dispersion not finite or below 1, or the shelf invalid
 *    3  a component's log mass in the window is not finite or above 1e-12
 *    4  the log of the components' total over the spectrum's is above ln(mass_limit), or a NaN
 *    5  fog_mode_roundtrip_error is above 0.5 or a NaN
 *    6  the primary mode is 0 or above the window end
 *    7  the error mode is above the valley, or a log probability scanned for it is a NaN
 *    8  mode + 1 < 0.75 * peak, or mode > (0.75 + 0.58) * peak, of the primary mode
 *    9  the repeat mode is not above the primary one
 *   10  the log-likelihood is above 0
 *
 * Refusals 1, 2, 5 and 9; the window end is the fit's.
 */
fog_verdict fog_validate_fit(fog_fit fit, size_t valley, size_t peak, double mass_limit);

/*
 * What one pair of families came to, over a run table of six arrays, one entry for each run; it has as many runs as the shortest of them.
 * The parameter list of run i is the lengths[i] numbers of lists from places[i] on. Whether a run converged is the caller's word, and its
 * cost is not worked out again; in the original a run has converged where the search stopped by itself, not by its cap, with a cost that
 * is finite and above 0. A run that did not converge counts for its iterations and its cap alone. Of the others the valid one of lowest
 * cost is the candidate, the earlier on ties; with none valid, the one of lowest cost with the reason of its rejection; with no run
 * converged there is none, and the reason is 0. Iterations are added up and stop at 2^64 - 1.
 *
 * Refusals 1, 2 (also more than 65,535 runs), 4, 5, 6, 7 (a converged run's list has the wrong length or does not lie in lists), 9 (a
 * converged run's cost is not finite or not above 0; the mass limit) and 10. A refusal leaves `table`, the shelf's, as it is, and so does
 * a plain genome family. With a shelf its first window_end + 1 entries hold anything afterwards.
 */
fog_attempt_answer fog_attempt_from_numbers(const uint32_t *bins, size_t bins_length, double scale, size_t window_end, size_t valley,
                                            size_t peak, uint8_t error, uint8_t genome, double mass_limit, const uint8_t *converged,
                                            size_t converged_length, const double *costs, size_t costs_length, const size_t *places,
                                            size_t places_length, const size_t *lengths, size_t lengths_length,
                                            const uint64_t *iterations, size_t iterations_length, const uint8_t *caps, size_t caps_length,
                                            const double *lists, size_t lists_length, double *table, size_t table_length);

/* What fog_attempt_from_numbers answers over the six fields of the runs, with the numbers in one struct. */
fog_attempt_answer fog_attempt_from(const uint32_t *bins, size_t bins_length, fog_setup setup, const fog_run *runs, size_t runs_length,
                                    const double *lists, size_t lists_length, double *table, size_t table_length);

/* 1 where there is a candidate and no rejection, else 0. */
uint8_t fog_is_valid(fog_attempt attempt);

/*
 * The valid candidate of lowest BIC, the attempts being gone through in order: a later one takes the place of the best only where its BIC
 * is below the best's by more than 1e-9 * (1 + the larger |BIC|). A NaN or an infinite BIC neither takes the place of another nor gives its
 * own up.
 */
fog_selected fog_select_fit(fog_attempt first, fog_attempt second, fog_attempt third, fog_attempt fourth);

/* ---- the histogram file */

/*
 * Reads a file of `length` bytes into the first of the lent bins: 3 with its place for a file that is not one, then 10 for fewer than the
 * file's bins. Nothing is written on either, and the bins past the last stay as they were. 2,047 bins hold any file.
 */
fog_file fog_read_histogram(const uint8_t *file, size_t length, uint32_t *bins, size_t bins_length);

/*
 * Writes the file of some bins into the first of the lent bytes: 1 for fewer than 2 bins, 2 for more than 2,047, 10 where the bytes are too
 * few. The bytes past the file stay as they were. 10,238 bytes hold any file.
 */
fog_written fog_write_histogram(const uint32_t *bins, size_t bins_length, uint8_t *file, size_t length);

#ifdef __cplusplus
}
#endif

#endif
