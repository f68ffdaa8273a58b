/* The single-copy probabilities of a fit and their sums in 200-bit arithmetic, for measure/cutoffs.
   Each is worked out from the one before, by the ratio of consecutive terms; `exact_direct` works one out by itself. */
#include <mpfr.h>
#include <stdint.h>
#include <stdlib.h>

enum { BITS = 200, LAST = 4096 };

typedef struct {
    double mean, dispersion;
    uint8_t shelf;
    double share, alpha, beta;
} exact_fit;

static mpfr_t probability[LAST + 1], sum[LAST + 1];
static mpfr_t r, q, lobe, beside, t, u;
static const mpfr_rnd_t N = MPFR_RNDN;

void exact_begin(void)
{
    for (int i = 0; i <= LAST; i++) mpfr_inits2(BITS, probability[i], sum[i], (mpfr_ptr)0);
    mpfr_inits2(BITS, r, q, lobe, beside, t, u, (mpfr_ptr)0);
}

static int is_poisson(const exact_fit *f) { return f->dispersion <= 1.0 + 1e-9; }

/* to += sign * ln Gamma(a + b + c) */
static void add_lngamma(mpfr_t to, int sign, double a, double b, double c)
{
    mpfr_set_d(u, a, N);
    mpfr_add_d(u, u, b, N);
    mpfr_add_d(u, u, c, N);
    mpfr_lngamma(u, u, N);
    (sign > 0 ? mpfr_add : mpfr_sub)(to, to, u, N);
}

/* r = mean / (dispersion - 1) and q = 1 - 1 / dispersion */
static void begin_lobe(const exact_fit *f)
{
    mpfr_set_d(q, f->dispersion, N);
    mpfr_d_div(q, 1.0, q, N);
    mpfr_d_sub(q, 1.0, q, N);
    mpfr_set_d(t, f->dispersion, N);
    mpfr_sub_ui(t, t, 1, N);
    mpfr_d_div(r, f->mean, t, N);
}

/* dispersion^-r, or e^-mean */
static void first_lobe(const exact_fit *f)
{
    if (is_poisson(f)) {
        mpfr_set_d(t, -f->mean, N);
    } else {
        mpfr_set_d(t, f->dispersion, N);
        mpfr_log(t, t, N);
        mpfr_mul(t, t, r, N);
        mpfr_neg(t, t, N);
    }
    mpfr_exp(lobe, t, N);
}

/* from count x to x + 1 */
static void next_lobe(const exact_fit *f, unsigned long x)
{
    if (is_poisson(f)) {
        mpfr_mul_d(lobe, lobe, f->mean, N);
    } else {
        mpfr_add_ui(t, r, x, N);
        mpfr_mul(lobe, lobe, t, N);
        mpfr_mul(lobe, lobe, q, N);
    }
    mpfr_div_ui(lobe, lobe, x + 1, N);
}

static void first_beside(const exact_fit *f, double trials)
{
    mpfr_set_zero(beside, 1);
    add_lngamma(beside, 1, trials, f->beta, 0);
    add_lngamma(beside, 1, f->alpha, f->beta, 0);
    add_lngamma(beside, -1, trials, f->alpha, f->beta);
    add_lngamma(beside, -1, f->beta, 0, 0);
    mpfr_exp(beside, beside, N);
}

static void next_beside(const exact_fit *f, double trials, unsigned long x)
{
    mpfr_mul_d(beside, beside, trials - x, N);
    mpfr_set_d(t, f->alpha, N);
    mpfr_add_ui(t, t, x, N);
    mpfr_mul(beside, beside, t, N);
    mpfr_set_d(t, f->beta, N);
    mpfr_add_d(t, t, trials - x - 1, N);
    mpfr_div(beside, beside, t, N);
    mpfr_div_ui(beside, beside, x + 1, N);
}

static void mix(mpfr_t to, const exact_fit *f)
{
    mpfr_set(to, lobe, N);
    if (!f->shelf) return;
    mpfr_set_d(t, f->share, N);
    mpfr_d_sub(u, 1.0, t, N);
    mpfr_mul(to, to, u, N);
    mpfr_mul(t, t, beside, N);
    mpfr_add(to, to, t, N);
}

/* Counts 0 to last, which is at most the trials. */
void exact_fill(const exact_fit *f, double trials, unsigned long last)
{
    if (last > LAST) abort();
    begin_lobe(f);
    first_lobe(f);
    if (f->shelf) first_beside(f, trials);
    for (unsigned long x = 0; x <= last; x++) {
        mix(probability[x], f);
        if (x == 0) mpfr_set(sum[0], probability[0], N);
        else mpfr_add(sum[x], sum[x - 1], probability[x], N);
        next_lobe(f, x);
        if (f->shelf && x < last) next_beside(f, trials, x);
    }
}

/* The first c from 1 to ceiling - 1 whose sum through c exceeds budget / kmers, 2 at least; 0 for none. */
uint64_t exact_cutoff(double budget, double kmers, unsigned long ceiling)
{
    mpfr_set_d(t, budget, N);
    mpfr_div_d(t, t, kmers, N);
    for (unsigned long c = 1; c < ceiling; c++)
        if (mpfr_greater_p(sum[c], t)) return c < 2 ? 2 : c;
    return 0;
}

/* The budget nearest to what the sum through c stands for. */
double exact_edge(unsigned long c, double kmers)
{
    mpfr_mul_d(t, sum[c], kmers, N);
    return mpfr_get_d(t, N);
}

static double relative(double computed, mpfr_t exact)
{
    mpfr_set_d(t, computed, N);
    mpfr_sub(t, t, exact, N);
    mpfr_div(t, t, exact, N);
    return mpfr_get_d(t, N);
}

double exact_error(unsigned long c, double computed) { return relative(computed, probability[c]); }

double exact_sum_error(unsigned long c, double computed) { return relative(computed, sum[c]); }

/* How far the probability of x is from the one that log gammas give, relative to it. */
double exact_direct(const exact_fit *f, double trials, unsigned long x)
{
    begin_lobe(f);
    first_lobe(f);
    mpfr_log(lobe, lobe, N);
    if (is_poisson(f)) {
        mpfr_set_d(t, f->mean, N);
        mpfr_log(t, t, N);
    } else {
        mpfr_log(t, q, N);
        mpfr_add_ui(u, r, x, N);
        mpfr_lngamma(u, u, N);
        mpfr_add(lobe, lobe, u, N);
        mpfr_lngamma(u, r, N);
        mpfr_sub(lobe, lobe, u, N);
    }
    mpfr_mul_ui(t, t, x, N);
    mpfr_add(lobe, lobe, t, N);
    add_lngamma(lobe, -1, x, 1, 0);
    mpfr_exp(lobe, lobe, N);
    if (f->shelf) {
        first_beside(f, trials);
        mpfr_log(beside, beside, N);
        add_lngamma(beside, 1, trials, 1, 0);
        add_lngamma(beside, -1, x, 1, 0);
        add_lngamma(beside, -1, trials - x, 1, 0);
        add_lngamma(beside, 1, x, f->alpha, 0);
        add_lngamma(beside, -1, f->alpha, 0, 0);
        add_lngamma(beside, 1, trials - x, f->beta, 0);
        add_lngamma(beside, -1, trials, f->beta, 0);
        mpfr_exp(beside, beside, N);
    }
    mix(lobe, f);
    mpfr_sub(t, lobe, probability[x], N);
    mpfr_div(t, t, probability[x], N);
    return mpfr_get_d(t, N);
}
