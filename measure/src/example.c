/*
 * From a histogram file to a fit and its cutoff, by the C interface alone.
 * Usage: example FILE VALLEY PEAK. Prints each step. Exits 1 if something is refused or no fit is valid.
 *
 * The library has no search of its own yet, so a small one stands here: each number of a list is moved up and down by a step, what lowers the
 * cost is kept, and the step is halved where nothing does.
 */
#include "fogatise.h"
#include <math.h>
#include <stdio.h>
#include <stdlib.h>

enum { MOST_BINS = 2047, MOST_BYTES = 10238, MOST_NUMBERS = 11, SEEDS = 2, SHAPES = 1, MOST_STARTS = 9 };

typedef struct {
    uint32_t bins[MOST_BINS];
    size_t length, window_end, valley, peak;
    double scale;
} spectrum;

/* A configuration: an error family and a genome family. */
typedef struct {
    uint8_t error, genome;
    const char *name;
} families;

static const families configurations[4] = {
    {FOG_FREE_SINGLETON_WEIBULL, FOG_NEGATIVE_BINOMIAL, "Weibull"},
    {FOG_FREE_SINGLETON_WEIBULL, FOG_SHELF_NEGATIVE_BINOMIAL, "Weibull with shelf"},
    {FOG_SINGLETON_PARETO, FOG_NEGATIVE_BINOMIAL, "Pareto"},
    {FOG_SINGLETON_PARETO, FOG_SHELF_NEGATIVE_BINOMIAL, "Pareto with shelf"},
};

/* The shelf table is built here in every cost. */
static double table[MOST_BINS + 1];

static void refused(const char *call, unsigned number) {
    fprintf(stderr, "example: %s is refused, number %u\n", call, number);
    exit(1);
}

/* ---- the spectrum */

static void read_spectrum(const char *name, spectrum *s) {
    static uint8_t bytes[MOST_BYTES];
    FILE *file = fopen(name, "rb");
    if (!file) {
        perror(name);
        exit(1);
    }
    const size_t length = fread(bytes, 1, sizeof bytes, file);
    fclose(file);
    const fog_file read = fog_read_histogram(bytes, length, s->bins, MOST_BINS);
    if (read.number) {
        fprintf(stderr, "example: %s is refused, number %u at %zu\n", name, read.number, read.place);
        exit(1);
    }
    s->length = s->window_end = read.items;
    s->scale = 1.0;
    printf("%zu bins, valley %zu, peak %zu, window end %zu\n", s->length, s->valley, s->peak, s->window_end);
}

static double cost(const spectrum *s, families f, const double *theta) {
    const fog_number answer = fog_cost(s->bins, s->length, s->scale, s->window_end, s->peak, f.error, f.genome, theta,
                                       fog_list_length(f.error, f.genome), table, MOST_BINS + 1);
    if (answer.number) refused("fog_cost", answer.number);
    return answer.value;
}

/* ---- the search */

/* Moves one number of the list, and keeps the better of the two moves where it is below the cost. */
static double moved(const spectrum *s, families f, double *theta, size_t i, double step, double now) {
    const double held = theta[i];
    theta[i] = held + step;
    const double up = cost(s, f, theta);
    if (up < now) return up;
    theta[i] = held - step;
    const double down = cost(s, f, theta);
    if (down < now) return down;
    theta[i] = held;
    return now;
}

static double searched(const spectrum *s, families f, double *theta, uint64_t *rounds) {
    double now = cost(s, f, theta);
    for (double step = 0.5; step > 1e-3;) {
        const double before = now;
        for (size_t i = 0; i < fog_list_length(f.error, f.genome); i++) now = moved(s, f, theta, i, step, now);
        if (!(now < before)) step *= 0.5;
        ++*rounds;
    }
    return now;
}

/* ---- one configuration: a run from every start, from two dispersions and a hint, and what the runs come to */

/* The run table: an entry for each run, and the lists one behind the other. */
typedef struct {
    uint8_t converged[MOST_STARTS], caps[MOST_STARTS];
    double costs[MOST_STARTS], lists[MOST_STARTS * MOST_NUMBERS];
    size_t places[MOST_STARTS], lengths[MOST_STARTS], length, numbers;
    uint64_t iterations[MOST_STARTS];
} runs;

static void search_all(const spectrum *s, families f, double share, runs *r) {
    const double seeds[SEEDS] = {1.5, 3.0}, shapes[2 * SHAPES] = {0.6, 5.0};
    const size_t numbers = fog_list_length(f.error, f.genome);
    const fog_written written = fog_fit_starts(f.error, f.genome, seeds, SEEDS, 2.0, share, shapes, 2 * SHAPES, r->lists,
                                               MOST_STARTS * MOST_NUMBERS);
    if (written.number) refused("fog_fit_starts", written.number);
    r->numbers = written.items;
    r->length = written.items / numbers;
    for (size_t i = 0; i < r->length; i++) {
        r->places[i] = i * numbers;
        r->lengths[i] = numbers;
        r->iterations[i] = 0;
        r->costs[i] = searched(s, f, r->lists + r->places[i], &r->iterations[i]);
        r->converged[i] = r->costs[i] > 0 && r->costs[i] < INFINITY;
        r->caps[i] = 0;
    }
}

static fog_attempt attempt(const spectrum *s, families f, double share) {
    static runs r;
    search_all(s, f, share, &r);
    const fog_attempt_answer answer = fog_attempt_from_numbers(
        s->bins, s->length, s->scale, s->window_end, s->valley, s->peak, f.error, f.genome, 2.0, r.converged, r.length, r.costs, r.length,
        r.places, r.length, r.lengths, r.length, r.iterations, r.length, r.caps, r.length, r.lists, r.numbers, table, MOST_BINS + 1);
    if (answer.number) refused("fog_attempt_from_numbers", answer.number);
    const fog_attempt a = answer.attempt;
    printf("%-18s  %zu runs, %llu rounds, ", f.name, r.length, (unsigned long long)a.total_iterations);
    if (a.has_candidate) printf("log-likelihood %.3f, BIC %.3f, ", a.candidate.log_likelihood, a.candidate.bic);
    if (a.rejection_present)
        printf("rejected by rule %u\n", a.rejection);
    else
        puts("valid");
    fflush(stdout);
    return a;
}

static void show(const fog_fit *fit) {
    const fog_heights heights = fog_component_heights(*fit, (size_t)fog_primary_mode(*fit));
    printf("weights             errors %.4f, single copies %.4f, repeats %.4f\n", fit->w_error, fit->w_single, fit->w_repeat);
    printf("single-copy lobe    mean %.3f, dispersion %.3f, mode %llu\n", fit->mean, fit->dispersion,
           (unsigned long long)fog_primary_mode(*fit));
    printf("repeat lobe         %.3f times the mean, mode %llu\n", fit->repeat_ratio, (unsigned long long)fog_repeat_mode(*fit));
    printf("k-mers              genome %.0f, errors %.0f, repeats %.0f\n", fit->genome_kmers, fit->error_kmers, fit->repeat_kmers);
    printf("heights at the mode errors %.1f, single copies %.1f, repeats %.1f\n", heights.error, heights.single, heights.repeat);
}

static void show_cutoff(const fog_fit *fit, double budget) {
    const fog_sure_cutoff hole = fog_hole_cutoff_sure(*fit, budget);
    if (hole.number) refused("fog_hole_cutoff_sure", hole.number);
    if (hole.cutoff)
        printf("hole cutoff         %u for a budget of %.0f k-mers, %s\n", hole.cutoff, budget, hole.sure ? "sure" : "not sure");
    else
        printf("hole cutoff         none for a budget of %.0f k-mers\n", budget);
}

int main(int count, char **words) {
    static spectrum s;
    if (count != 4) {
        fputs("usage: example FILE VALLEY PEAK\n", stderr);
        return 1;
    }
    s.valley = strtoul(words[2], NULL, 10);
    s.peak = strtoul(words[3], NULL, 10);
    read_spectrum(words[1], &s);

    const fog_number share = fog_empirical_shelf_share(s.bins, s.length, s.scale, s.valley, s.peak);
    if (share.number) refused("fog_empirical_shelf_share", share.number);
    printf("shelf share         %.4f\n", share.value);

    fog_attempt attempts[4];
    for (size_t i = 0; i < 4; i++) attempts[i] = attempt(&s, configurations[i], share.value);
    const fog_selected chosen = fog_select_fit(attempts[0], attempts[1], attempts[2], attempts[3]);
    if (!chosen.found) {
        puts("no fit is valid");
        return 1;
    }
    show(&chosen.fit);
    show_cutoff(&chosen.fit, 100.0);
    show_cutoff(&chosen.fit, 1000.0);
    printf("crossover           %u, error floor %u\n", fog_crossover(chosen.fit).cutoff, fog_error_floor_cutoff(chosen.fit).cutoff);
    return 0;
}
