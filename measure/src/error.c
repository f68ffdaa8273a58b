/* The error of the four routines against MPFR, stratum by stratum, as Markdown tables.
   Usage: error [DIVISOR], which divides the number of inputs. Exits 1 if a bar is missed. */
#include <mpfr.h>
#include <stdio.h>
#include <stdlib.h>
#include <time.h>
#include "routines.h"
#include "strata.h"

enum { PRECISION = 200, LGAMMA_PRECISION = 128, REGIONS = 4 };

enum unit { ULP, RATIO };

struct region {
    const char *name;
    enum unit unit;
    double bar; /* 0: none */
};

struct function {
    const char *name;
    double (*ours)(double);
    int (*exact)(mpfr_ptr, mpfr_srcptr, mpfr_rnd_t);
    mpfr_prec_t precision;
    const struct stratum *strata;
    const struct region *regions;
    int (*region_of)(double);
};

struct worst {
    uint64_t inputs;
    double error, at;
};

static int exact_lgamma(mpfr_ptr y, mpfr_srcptr x, mpfr_rnd_t round)
{
    int sign;
    return mpfr_lgamma(y, &sign, x, round);
}

static const struct region everywhere[REGIONS] = {{"", ULP, 1.0}};

static int only_region(double x)
{
    (void)x;
    return 0;
}

static const struct region lgamma_regions[REGIONS] = {
    {"0 < x < 8", RATIO, 4e-15},
    {"8 <= x <= 2^1000", ULP, 3.0},
    {"x > 2^1000", ULP, 0},
    {"x <= 0 or NaN", RATIO, 0},
};

static int lgamma_region(double x)
{
    if (x > 0x1p1000) return 2;
    if (x >= 8) return 1;
    if (x > 0) return 0;
    return 3;
}

static const struct function functions[] = {
    {"exp", fog_exp, mpfr_exp, PRECISION, exp_strata, everywhere, only_region},
    {"ln", fog_ln, mpfr_log, PRECISION, ln_strata, everywhere, only_region},
    {"expm1", fog_expm1, mpfr_expm1, PRECISION, expm1_strata, everywhere, only_region},
    {"lgamma", fog_lgamma, exact_lgamma, LGAMMA_PRECISION, lgamma_strata, lgamma_regions, lgamma_region},
};

static mpfr_t difference, scale;

static double in_ulps(mpfr_srcptr exact)
{
    mpfr_exp_t e = -1022;
    if (!mpfr_zero_p(exact) && mpfr_get_exp(exact) - 1 > e) e = mpfr_get_exp(exact) - 1;
    mpfr_mul_2si(difference, difference, 52 - e, MPFR_RNDN);
    return fabs(mpfr_get_d(difference, MPFR_RNDA));
}

static double as_ratio(mpfr_srcptr exact)
{
    mpfr_abs(scale, exact, MPFR_RNDN);
    mpfr_add_ui(scale, scale, 1, MPFR_RNDN);
    mpfr_div(difference, difference, scale, MPFR_RNDN);
    return fabs(mpfr_get_d(difference, MPFR_RNDA));
}

/* Infinite for a wrong special value: NaN, infinity or the sign of an exact zero. */
static double error_of(double computed, mpfr_srcptr exact, enum unit unit)
{
    double rounded = mpfr_get_d(exact, MPFR_RNDN);
    if (isnan(rounded)) return isnan(computed) ? 0 : INFINITY;
    if (isnan(computed)) return INFINITY;
    if (isinf(computed) || mpfr_inf_p(exact)) return computed == rounded ? 0 : INFINITY;
    if (mpfr_zero_p(exact) && computed == 0) return signbit(computed) == signbit(rounded) ? 0 : INFINITY;
    mpfr_set_d(difference, computed, MPFR_RNDN);
    mpfr_sub(difference, difference, exact, MPFR_RNDN);
    return unit == ULP ? in_ulps(exact) : as_ratio(exact);
}

static void note(struct worst *w, uint64_t inputs, double error, double at)
{
    if (w->inputs == 0 || error > w->error) {
        w->error = error;
        w->at = at;
    }
    w->inputs += inputs;
}

static void measure(const struct function *f, const struct stratum *s, uint64_t inputs, struct worst worst[REGIONS])
{
    mpfr_t x, exact;
    mpfr_init2(x, 53);
    mpfr_init2(exact, f->precision);
    for (uint64_t i = 0; i < inputs; i++) {
        double at = s->draw(s->a, s->b);
        int r = f->region_of(at);
        mpfr_set_d(x, at, MPFR_RNDN);
        f->exact(exact, x, MPFR_RNDN);
        note(&worst[r], 1, error_of(f->ours(at), exact, f->regions[r].unit), at);
    }
    mpfr_clears(x, exact, (mpfr_ptr)0);
}

/* A wrong special value is a miss where there is no bar, too. */
static int missed(const struct worst *w, const struct region *r)
{
    return w->inputs && (isinf(w->error) || (r->bar && w->error > r->bar));
}

static const char *shown(double error, enum unit unit)
{
    static char text[2][64];
    static int turn;
    turn ^= 1;
    snprintf(text[turn], sizeof *text, unit == ULP ? "%.4g ulp" : "%.3g·(1+\\|v\\|)", error);
    return text[turn];
}

static void print_row(const struct function *f, const struct stratum *s, const struct worst *w, const struct region *r)
{
    printf("| %s | %s%s%s | %llu | %s%s | `%a` `%016llx` |\n", f->name, s->name, *r->name ? "; " : "", r->name,
           (unsigned long long)w->inputs, shown(w->error, r->unit), missed(w, r) ? " **missed**" : "", w->at,
           (unsigned long long)to_bits(w->at));
    fflush(stdout);
}

static void measure_all(const struct function *f, uint64_t divisor, struct worst total[REGIONS])
{
    for (const struct stratum *s = f->strata; s->name; s++) {
        struct worst worst[REGIONS] = {0};
        clock_t start = clock();
        seed(1000 * (f - functions) + (s - f->strata));
        measure(f, s, s->draw == from_list ? s->inputs : s->inputs / divisor, worst);
        fprintf(stderr, "error: %s, %s: %.1f s\n", f->name, s->name, (double)(clock() - start) / CLOCKS_PER_SEC);
        for (int r = 0; r < REGIONS; r++) {
            if (!worst[r].inputs) continue;
            print_row(f, s, &worst[r], &f->regions[r]);
            note(&total[r], worst[r].inputs, worst[r].error, worst[r].at);
        }
    }
}

static int print_summary(const struct function *f, const struct worst total[REGIONS])
{
    int misses = 0;
    for (int r = 0; r < REGIONS; r++) {
        const struct region *region = &f->regions[r];
        if (!total[r].inputs) continue;
        int miss = missed(&total[r], region);
        misses += miss;
        printf("| %s | %s | %llu | %s | %s | %s |\n", f->name, *region->name ? region->name : "every x",
               (unsigned long long)total[r].inputs, shown(total[r].error, region->unit),
               region->bar ? shown(region->bar, region->unit) : "none", miss ? "**missed**" : region->bar ? "met" : "");
    }
    return misses;
}

int main(int argc, char **argv)
{
    enum { FUNCTIONS = sizeof functions / sizeof *functions };
    struct worst total[FUNCTIONS][REGIONS] = {0};
    uint64_t divisor = argc > 1 ? strtoull(argv[1], 0, 10) : 1;
    int misses = 0;

    mpfr_inits2(PRECISION, difference, scale, (mpfr_ptr)0);
    printf("## Error\n\n");
    printf("Each value against MPFR %s, correctly rounded to %d bits (lgamma: %d). v is the exact value.\n\n",
           mpfr_get_version(), PRECISION, LGAMMA_PRECISION);
    if (divisor > 1) printf("**Quick run: 1/%llu of the inputs.**\n\n", (unsigned long long)divisor);
    printf("| function | stratum | inputs | max error | at |\n|---|---|---|---|---|\n");
    for (int i = 0; i < FUNCTIONS; i++) measure_all(&functions[i], divisor, total[i]);
    printf("\n| function | where | inputs | max error | bar | |\n|---|---|---|---|---|---|\n");
    for (int i = 0; i < FUNCTIONS; i++) misses += print_summary(&functions[i], total[i]);
    printf("\n");
    return misses > 0;
}
