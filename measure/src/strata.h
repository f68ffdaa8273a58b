/* The strata of each function. A stratum's inputs are drawn from a seed of its own. */
#include "draw.h"

struct stratum {
    const char *name;
    draw_fn *draw;
    double a, b;
    uint64_t inputs;
};

static const double listed[] = {
    0.0, -0.0, INFINITY, -INFINITY, NAN, -NAN,
    0x1p-1074, -0x1p-1074, 0x0.fffffffffffffp-1022, -0x0.fffffffffffffp-1022, 0x1p-1022, -0x1p-1022,
    0x1.fffffffffffffp1023, -0x1.fffffffffffffp1023, 0x1p1023, -0x1p1023, 0x1p1000,
    0x1.fffffffffffffp-1, 1, 0x1.0000000000001p0, 0x1.fffffffffffffp0, 2, 0x1.0000000000001p1,
    0.5, 1.5, 3, 4, 0x1.fffffffffffffp1, 8, 0x1.fffffffffffffp2, 12, 0x1p52, 0x1p53,
    -0x1.fffffffffffffp-1, -1, -0x1.0000000000001p0, -0.5, -1.5, -2, -3, -4, -1e6, -0x1p52, -0x1.0000000000001p52, -0x1p53,
    0x1.62e42fefa39efp9, 0x1.62e42fefa39fp9, -0x1.6232bdd7abcd2p9, -0x1.6232bdd7abcd3p9,
    -0x1.74910d52d3051p9, -0x1.74910d52d3052p9, 746, -746, 1e300, -1e300,
};

enum { LISTED = sizeof listed / sizeof *listed };

static double from_list(double a, double b)
{
    static unsigned i;
    (void)a, (void)b;
    return listed[i++ % LISTED];
}

#define M(millions) ((uint64_t)((millions) * 1000000))
#define TINY 0x1p-1074
#define SUBNORMAL 0x0.fffffffffffffp-1022

static const struct stratum exp_strata[] = {
    {"special values", from_list, 0, 0, LISTED},
    {"all bit patterns", any, 0, 0, M(2)},
    {"near 0, ±2^-1074 to ±1/2", signed_log_uniform, TINY, 0.5, M(1)},
    {"subnormal inputs", signed_log_uniform, TINY, SUBNORMAL, M(0.5)},
    {"near ±1", near_either, -1, 1, M(0.5)},
    {"[-1, 1]", uniform, -1, 1, M(1)},
    {"near (k+1/2)·ln2/32", near_half_step, 746, 0, M(2)},
    {"near k·ln2", near_ln2, 746, 0, M(1)},
    {"[-30, 5]", uniform, -30, 5, M(2)},
    {"[-700, 700]", uniform, -700, 700, M(2)},
    {"[709, 709.9], overflow", uniform, 709, 709.9, M(1)},
    {"[-746, -708], underflow", uniform, -746, -708, M(1)},
    {"subnormal results", uniform, -745.2, -708.4, M(1)},
    {"near the overflow threshold", near, 0x1.62e42fefa39efp9, 0, M(0.5)},
    {"near the underflow thresholds", near_either, -0x1.6232bdd7abcd2p9, -0x1.74910d52d3051p9, M(0.5)},
    {0}
};

static const struct stratum ln_strata[] = {
    {"special values", from_list, 0, 0, LISTED},
    {"all bit patterns", any, 0, 0, M(3)},
    {"near 0, ±2^-1074 to ±1/2", signed_log_uniform, TINY, 0.5, M(1)},
    {"subnormal inputs", log_uniform, TINY, SUBNORMAL, M(1)},
    {"near 1", near, 1, 0, M(1)},
    {"near 2^k", near_power, 1, 0, M(1)},
    {"near sqrt(1/2)·2^k", near_power, 0x1.6a09e667f3bcdp-1, 0, M(1)},
    {"near the cut 0x1.6bp-1·2^k", near_power, 0x1.6bp-1, 0, M(1)},
    {"near the pieces beside 1", near_either, 0x1.ffp-1, 0x1.01p0, M(1)},
    {"[0.98, 1.04], the pieces about 1", uniform, 0.98, 1.04, M(4)},
    {"[0.69, 0.72], about the cut", uniform, 0.69, 0.72, M(1)},
    {"[1.38, 1.43], about the cut", uniform, 1.38, 1.43, M(1)},
    {"[0.9, 1.1]", uniform, 0.9, 1.1, M(2)},
    {"[0.5, 2]", uniform, 0.5, 2, M(2)},
    {"[1e-3, 1e3]", uniform, 1e-3, 1e3, M(2)},
    {"[1e-3, 1e3], log-uniform", log_uniform, 1e-3, 1e3, M(2)},
    {0}
};

static const struct stratum expm1_strata[] = {
    {"special values", from_list, 0, 0, LISTED},
    {"all bit patterns", any, 0, 0, M(2)},
    {"near 0, ±2^-1074 to ±1/2", signed_log_uniform, TINY, 0.5, M(1)},
    {"near 0, ±2^-60 to ±1/2", signed_log_uniform, 0x1p-60, 0.5, M(2)},
    {"subnormal inputs and results", signed_log_uniform, TINY, SUBNORMAL, M(0.5)},
    {"near ±1", near_either, -1, 1, M(0.5)},
    {"[-1, 1]", uniform, -1, 1, M(2)},
    {"near (k+1/2)·ln2/32", near_half_step, 746, 0, M(1)},
    {"near (k+1/2)·ln2/32, [-40, 40]", near_half_step, 40, 0, M(1)},
    {"near k·ln2", near_ln2, 746, 0, M(1)},
    {"[-30, 5]", uniform, -30, 5, M(2)},
    {"[-700, 700]", uniform, -700, 700, M(1)},
    {"[709, 709.9], overflow", uniform, 709, 709.9, M(1)},
    {"[-746, -708]", uniform, -746, -708, M(0.5)},
    {"near the overflow threshold", near, 0x1.62e42fefa39efp9, 0, M(0.5)},
    {0}
};

static const struct stratum lgamma_strata[] = {
    {"special values", from_list, 0, 0, LISTED},
    {"all bit patterns", any, 0, 0, M(1)},
    {"2^-1074 to 2^1000, log-uniform", log_uniform, TINY, 0x1p1000, M(1)},
    {"near 0, ±2^-1074 to ±1/2", signed_log_uniform, TINY, 0.5, M(0.3)},
    {"subnormal inputs", signed_log_uniform, TINY, SUBNORMAL, M(0.2)},
    {"(0, 4)", uniform, TINY, 4, M(2)},
    {"near 1", near, 1, 0, M(0.5)},
    {"near 2", near, 2, 0, M(0.5)},
    {"near 3", near, 3, 0, M(0.5)},
    {"near 4", near, 4, 0, M(0.5)},
    {"near 8", near, 8, 0, M(0.5)},
    {"[4, 8)", uniform, 4, 8, M(1.5)},
    {"[8, 12)", uniform, 8, 12, M(2.5)},
    {"[12, 2000]", uniform, 12, 2000, M(1.5)},
    {"2000 to 2^60, log-uniform", log_uniform, 2000, 0x1p60, M(0.5)},
    {"2^60 to 2^1000, log-uniform", log_uniform, 0x1p60, 0x1p1000, M(0.5)},
    {"[-30, 0)", uniform, -30, 0, M(0.3)},
    {"near the wholes of [-30, -1]", near_whole, -30, -1, M(0.1)},
    {"-2^-1074 to -2^52, log-uniform", negative_log_uniform, TINY, 0x1p52, M(0.2)},
    {0}
};
