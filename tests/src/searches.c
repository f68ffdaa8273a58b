/*
 * The search through the C interface, whose rows the oracle keeps elsewhere: two starts of an easy spectrum, begun, run in parts and at
 * once, reported, and handed on to an attempt; each flag by every byte that says yes; and a refusal of each call.
 */
#include "fogatise.h"
#include <stdint.h>
#include <string.h>

enum { BINS = 28, PEAK = 9, RUNS = 2, LENGTH = 7, WIDTH = LENGTH + 1, SQUARE = WIDTH * WIDTH, ROOM = 2 * (BINS + 2) };

static const uint32_t bins[BINS] = {21130, 1591, 624, 412, 392, 436, 494, 539, 557, 545, 508, 453, 389, 323,
                                    262,   208,  163, 127, 98,  76,  60,  47,  37,  29,  23,  18,  15,  11};

/* What is stored of the runs, with an entry behind the last run; and the scratch. */
typedef struct {
    double simplexes[RUNS * SQUARE + 1];
    uint64_t iterations[RUNS + 1];
    uint8_t stopped[RUNS + 1];
} state;

static double ready[ROOM], table[1], starts[RUNS * LENGTH];

static fog_written begun(state *s, size_t starts_length) {
    return fog_begin_searches(bins, BINS, 1.0, BINS, PEAK, FOG_SINGLETON_PARETO, FOG_NEGATIVE_BINOMIAL, starts, starts_length, s->simplexes,
                              RUNS * SQUARE + 1, s->iterations, RUNS + 1, s->stopped, RUNS + 1, ready, ROOM, table, 1);
}

static fog_written run(state *s, size_t runs, uint64_t limit) {
    return fog_run_searches(bins, BINS, 1.0, BINS, PEAK, FOG_SINGLETON_PARETO, FOG_NEGATIVE_BINOMIAL, runs, limit, s->simplexes,
                            RUNS * SQUARE + 1, s->iterations, RUNS + 1, s->stopped, RUNS + 1, ready, ROOM, table, 1);
}

static int same(const state *a, const state *b) {
    return memcmp(a->simplexes, b->simplexes, sizeof a->simplexes) == 0 && memcmp(a->iterations, b->iterations, sizeof a->iterations) == 0
        && memcmp(a->stopped, b->stopped, sizeof a->stopped) == 0;
}

static int is(fog_written answer, uint8_t number, size_t items) { return answer.number == number && answer.items == items; }

/* Each row of a first simplex: the start, or the start with 0.5 added to one of its numbers, behind its cost. */
static int begins(const state *s) {
    for (size_t row = 0; row < RUNS * WIDTH; row++) {
        double list[LENGTH];
        memcpy(list, &starts[row / WIDTH * LENGTH], sizeof list);
        if (row % WIDTH != 0) list[row % WIDTH - 1] += 0.5;
        const fog_number cost = fog_cost(bins, BINS, 1.0, BINS, PEAK, FOG_SINGLETON_PARETO, FOG_NEGATIVE_BINOMIAL, list, LENGTH, table, 1);
        if (cost.number != 0 || memcmp(&s->simplexes[row * WIDTH], &cost.value, sizeof cost.value) != 0) return 0;
        if (memcmp(&s->simplexes[row * WIDTH + 1], list, sizeof list) != 0) return 0;
    }
    return s->iterations[0] == 0 && s->iterations[1] == 0 && s->stopped[0] == 0 && s->stopped[1] == 0;
}

/* Every byte but 0 says that a run has stopped: the run stays as it is, and its byte becomes 1. */
static int stays(const state *begun) {
    for (int byte = 1; byte < 256; byte++) {
        state s = *begun;
        s.stopped[0] = (uint8_t)byte;
        if (!is(run(&s, RUNS, 1), 0, RUNS) || s.stopped[0] != 1 || s.iterations[0] != 0 || s.iterations[1] != 1) return 0;
        if (memcmp(s.simplexes, begun->simplexes, SQUARE * sizeof *s.simplexes) != 0) return 0;
    }
    return 1;
}

typedef struct {
    uint8_t converged[RUNS], caps[RUNS];
    double costs[RUNS];
    size_t places[RUNS], lengths[RUNS];
} columns;

static fog_attempt_answer attempted(const state *s, const columns *c) {
    return fog_attempt_from_numbers(bins, BINS, 1.0, BINS, 5, PEAK, FOG_SINGLETON_PARETO, FOG_NEGATIVE_BINOMIAL, 1.1,
                                    c->converged, RUNS, c->costs, RUNS, c->places, RUNS, c->lengths, RUNS, s->iterations,
                                    RUNS, c->caps, RUNS, s->simplexes, RUNS * SQUARE, table, 1);
}

static fog_attempt_answer over_structs(const state *s, const columns *c) {
    const fog_setup setup = {1.0, BINS, 5, PEAK, FOG_SINGLETON_PARETO, FOG_NEGATIVE_BINOMIAL, 1.1};
    fog_run runs[RUNS];
    for (size_t i = 0; i < RUNS; i++)
        runs[i] = (fog_run){c->converged[i], c->costs[i], c->places[i], c->lengths[i], s->iterations[i], c->caps[i]};
    return fog_attempt_from(bins, BINS, setup, runs, RUNS, s->simplexes, RUNS * SQUARE, table, 1);
}

static int attempts(fog_attempt_answer answer, double least, uint32_t capped, const state *s) {
    const fog_attempt *a = &answer.attempt;
    return answer.number == 0 && a->has_candidate == 1 && a->candidate.log_likelihood == -least && a->capped_starts == capped
        && a->total_iterations == s->iterations[0] + s->iterations[1] && fog_is_valid(*a) == (a->rejection_present == 0);
}

/* The second run alone has converged, and the first alone has come to its cap, by every byte but 0. */
static int every_byte(const state *s, const columns *reported) {
    for (int byte = 1; byte < 256; byte++) {
        columns c = *reported;
        c.converged[0] = 0;
        c.converged[1] = c.caps[0] = (uint8_t)byte;
        if (!attempts(attempted(s, &c), c.costs[1], 1, s) || !attempts(over_structs(s, &c), c.costs[1], 1, s)) return 0;
    }
    return 1;
}

static int reports(const state *s, size_t length) {
    columns c = {{5, 5}, {7, 7}, {0.0, 0.0}, {0, 0}, {0, 0}};
    const fog_written answer = fog_report_searches(FOG_SINGLETON_PARETO, FOG_NEGATIVE_BINOMIAL, RUNS, s->simplexes, RUNS * SQUARE, s->iterations,
                                                   RUNS, s->stopped, RUNS, c.converged, RUNS, c.costs, RUNS, c.places, RUNS,
                                                   c.lengths, RUNS, c.caps, length);
    if (length < RUNS)
        return is(answer, FOG_TOO_SHORT, 0) && c.converged[0] == 5 && c.caps[0] == 7 && c.costs[0] == 0.0 && c.places[0] == 0;

    /* Both have stopped, and the test leaves the best row in front. */
    for (size_t i = 0; i < RUNS; i++)
        if (c.converged[i] != 1 || c.caps[i] != 0 || c.lengths[i] != LENGTH || c.places[i] != i * SQUARE + 1
            || c.costs[i] != s->simplexes[i * SQUARE])
            return 0;
    const double least = c.costs[0] < c.costs[1] ? c.costs[0] : c.costs[1];
    return is(answer, 0, RUNS) && attempts(attempted(s, &c), least, 0, s) && attempts(over_structs(s, &c), least, 0, s)
        && every_byte(s, &c);
}

/* How many of the search's answers are others. */
int searches_differ(void) {
    static state whole, parts, kept;
    const double seeds[1] = {1.5}, shapes[2] = {0.6, 5.0};
    double made[4 * LENGTH];
    int differences = 0;
    differences += !is(fog_fit_starts(FOG_SINGLETON_PARETO, FOG_NEGATIVE_BINOMIAL, seeds, 1, 3.0, 0.1, shapes, 2, made, 4 * LENGTH), 0, 4 * LENGTH);
    memcpy(starts, made, sizeof starts);
    whole.simplexes[RUNS * SQUARE] = -1.0;
    whole.iterations[RUNS] = 9;
    whole.stopped[RUNS] = 7;
    kept = whole;

    differences += !is(begun(&whole, LENGTH + 1), FOG_WRONG_LENGTH, 0) || !same(&whole, &kept);
    differences += !is(begun(&whole, RUNS * LENGTH), 0, RUNS) || !begins(&whole);
    parts = kept = whole;
    differences += !is(run(&whole, 65536, 1), FOG_TOO_LARGE, 0) || !is(run(&whole, RUNS + 1, 1), FOG_TOO_SHORT, 0) || !same(&whole, &kept);
    differences += !is(run(&whole, RUNS, 8), 0, RUNS) || same(&whole, &kept) || whole.iterations[0] != 8 || whole.iterations[1] != 8;
    differences += !stays(&kept);
    differences += !is(run(&parts, RUNS, 3), 0, RUNS) || !is(run(&parts, RUNS, 5), 0, RUNS) || !same(&whole, &parts);
    differences += !is(run(&whole, RUNS, 2000), 0, RUNS) || whole.stopped[0] != 1 || whole.stopped[1] != 1;
    differences += whole.simplexes[RUNS * SQUARE] != -1.0 || whole.iterations[RUNS] != 9 || whole.stopped[RUNS] != 7;
    differences += !reports(&whole, RUNS) || !reports(&whole, RUNS - 1);
    whole.stopped[0] = 2;
    whole.stopped[1] = 255;
    differences += !reports(&whole, RUNS);
    return differences;
}
