/* A generator and the ways to draw an input. The two parameters are each draw's own. */
#include <math.h>
#include <stdint.h>
#include <string.h>

typedef double draw_fn(double, double);

static inline uint64_t to_bits(double x)
{
    uint64_t u;
    memcpy(&u, &x, sizeof u);
    return u;
}

static inline double from_bits(uint64_t u)
{
    double x;
    memcpy(&x, &u, sizeof x);
    return x;
}

static uint64_t state;

static inline void seed(uint64_t s) { state = s; }

/* splitmix64 */
static inline uint64_t next(void)
{
    uint64_t z = state += 0x9e3779b97f4a7c15;
    z = (z ^ (z >> 30)) * 0xbf58476d1ce4e5b9;
    z = (z ^ (z >> 27)) * 0x94d049bb133111eb;
    return z ^ (z >> 31);
}

static inline double with_sign(double x) { return next() & 1 ? x : -x; }

static inline double uniform(double a, double b) { return a + (b - a) * (next() >> 11) * 0x1p-53; }

static inline double any(double a, double b)
{
    (void)a, (void)b;
    return from_bits(next());
}

/* Each double of [a, b], 0 <= a < b, is as likely as another: log-uniform but for the steps in a binade. */
static inline double log_uniform(double a, double b)
{
    return from_bits(to_bits(a) + next() % (to_bits(b) - to_bits(a) + 1));
}

static inline double signed_log_uniform(double a, double b) { return with_sign(log_uniform(a, b)); }

static inline double negative_log_uniform(double a, double b) { return -log_uniform(a, b); }

/* 0 to 2^40 ulps away from x, each power of 2 as likely as another. */
static inline double near(double x, double unused)
{
    (void)unused;
    uint64_t ulps = next() >> (24 + next() % 40);
    return from_bits(to_bits(x) + (next() & 1 ? ulps : -ulps));
}

static inline double near_either(double a, double b) { return near(next() & 1 ? a : b, 0); }

/* Near x * 2^k for every k that gives a normal number. */
static inline double near_power(double x, double unused)
{
    (void)unused;
    return near(ldexp(x, (int)(next() % 2046) - 1022 + (x < 1)), 0);
}

/* Near a whole number of [a, b]. */
static inline double near_whole(double a, double b) { return near(floor(uniform(a, b + 1)), 0); }

static const long double ln2 = 0.693147180559945309417232121458176568L;

/* Near (k + 1/2) * ln2/32, in [-a, a]. */
static inline double near_half_step(double a, double unused)
{
    (void)unused;
    uint64_t k = next() % (uint64_t)(a * 32 / ln2);
    return with_sign(near((k + 0.5L) * ln2 / 32, 0));
}

/* Near k * ln2, k not 0, in [-a, a]. */
static inline double near_ln2(double a, double unused)
{
    (void)unused;
    uint64_t k = 1 + next() % (uint64_t)(a / ln2);
    return with_sign(near(k * ln2, 0));
}
