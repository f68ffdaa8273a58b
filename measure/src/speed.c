/* The speed of the four routines against glibc and the Rust crate libm, as a Markdown table.
   Usage: speed [DIVISOR], which divides the number of calls. Exits 1 if a bar is missed. */
#include <gnu/libc-version.h>
#include <stdio.h>
#include <stdlib.h>
#include <time.h>
#include "draw.h"
#include "routines.h"

double rust_exp(double);
double rust_log(double);
double rust_expm1(double);
double rust_lgamma(double);

/* A run has turns of both sides, each of a millisecond or so: what else the machine does then slows both alike. */
enum { INPUTS = 4096, PASSES = 30, TURNS = 100, RUNS = 9 };

typedef double function(double);

struct contest {
    const char *name, *inputs;
    draw_fn *draw;
    double a, b;
    function *ours, *glibc, *rust;
    double glibc_bar, rust_bar; /* 0: none */
};

static const struct contest contests[] = {
    {"exp", "[-30, 5]", uniform, -30, 5, fog_exp, exp, rust_exp, 1.2, 0},
    {"exp", "[-700, 700]", uniform, -700, 700, fog_exp, exp, rust_exp, 0, 0},
    {"expm1", "[-30, 5]", uniform, -30, 5, fog_expm1, expm1, rust_expm1, 1.2, 0},
    {"expm1", "[-700, 700]", uniform, -700, 700, fog_expm1, expm1, rust_expm1, 0, 0},
    {"ln", "[1e-3, 1e3]", uniform, 1e-3, 1e3, fog_ln, log, rust_log, 1.4, 0},
    {"ln", "[1e-3, 1e3], log-uniform", log_uniform, 1e-3, 1e3, fog_ln, log, rust_log, 1.4, 0},
    {"ln", "[0.9, 1.1]", uniform, 0.9, 1.1, fog_ln, log, rust_log, 0, 0},
    {"lgamma", "[0.5, 2000]", uniform, 0.5, 2000, fog_lgamma, lgamma, rust_lgamma, 0, 1.0},
};

static double inputs[INPUTS];
static volatile double sink;

/* Nanoseconds of processor time for a call. */
static double turn(function *f)
{
    struct timespec start, end;
    clock_gettime(CLOCK_PROCESS_CPUTIME_ID, &start);
    for (int p = 0; p < PASSES; p++) {
        double sum = 0;
        for (int i = 0; i < INPUTS; i++) sum += f(inputs[i]);
        sink = sum;
    }
    clock_gettime(CLOCK_PROCESS_CPUTIME_ID, &end);
    return ((end.tv_sec - start.tv_sec) * 1e9 + (end.tv_nsec - start.tv_nsec)) / PASSES / INPUTS;
}

static void run(function *ours, function *other, int turns, double *our_time, double *other_time)
{
    *our_time = *other_time = 0;
    for (int i = 0; i < turns; i++) {
        *our_time += turn(ours) / turns;
        *other_time += turn(other) / turns;
    }
}

static int compare(const void *a, const void *b)
{
    double x = *(const double *)a, y = *(const double *)b;
    return (x > y) - (x < y);
}

static double median(double values[RUNS])
{
    qsort(values, RUNS, sizeof *values, compare);
    return values[RUNS / 2];
}

static int race(const struct contest *c, const char *name, function *other, double bar, int turns)
{
    double ours[RUNS], others[RUNS], ratios[RUNS];
    turn(c->ours);
    turn(other);
    for (int i = 0; i < RUNS; i++) {
        run(c->ours, other, turns, &ours[i], &others[i]);
        ratios[i] = ours[i] / others[i];
    }
    double ratio = median(ratios);
    int missed = bar && ratio > bar;
    printf("| %s | %s | %.2f | %s | %.2f | %.3f (%.3f–%.3f) | ", c->name, c->inputs, median(ours), name, median(others),
           ratio, ratios[0], ratios[RUNS - 1]);
    if (bar) printf("%.1f %s |\n", bar, missed ? "**missed**" : "met");
    else printf("none |\n");
    fflush(stdout);
    return missed;
}

int main(int argc, char **argv)
{
    int divisor = argc > 1 ? atoi(argv[1]) : 1, turns = TURNS / divisor, missed = 0;

    printf("## Speed\n\n");
    printf("Nanoseconds a call, on %d inputs drawn before; medians of %d runs, ours and the other by turns, "
           "and of their ratios (lowest–highest). glibc %s, Rust libm %s.\n\n",
           INPUTS, RUNS, gnu_get_libc_version(), RUST_LIBM);
    if (divisor > 1) printf("**Quick run: 1/%d of the calls.**\n\n", divisor);
    printf("| function | inputs | ours | other | other's | ratio | bar |\n|---|---|---|---|---|---|---|\n");
    for (size_t k = 0; k < sizeof contests / sizeof *contests; k++) {
        const struct contest *c = &contests[k];
        fprintf(stderr, "speed: %s, %s\n", c->name, c->inputs);
        seed(k);
        for (int i = 0; i < INPUTS; i++) inputs[i] = c->draw(c->a, c->b);
        missed += race(c, "glibc", c->glibc, c->glibc_bar, turns);
        missed += race(c, "Rust libm", c->rust, c->rust_bar, turns);
    }
    printf("\n");
    return missed > 0;
}
