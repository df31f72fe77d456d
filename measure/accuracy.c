// Holds the functions of the static library to MPFR: the largest error by range, and the values that are exact.
// accuracy [full] [SEED]; exit status 1 where a limit is passed, 2 on bad usage.
#include <emmintrin.h>
#include <inttypes.h>
#include <math.h>
#include <mpfr.h>
#include <stdbool.h>
#include <stdint.h>
#include <stdio.h>
#include <stdlib.h>
#include <string.h>
#include <sys/mman.h>
#include <sys/wait.h>
#include <unistd.h>

double probit_exp(double), probit_log(double), probit_log1p(double), probit_erfc(double), probit_lgamma(double), probit_cos(double), probit_sqrt(double);
double probit_hypot(double, double);

static uint64_t bits(double x) { uint64_t b; memcpy(&b, &x, 8); return b; }
static double number(uint64_t b) { double x; memcpy(&x, &b, 8); return x; }

// The generator is set anew for each block of points, so the points do not depend on the number of processes.
enum { BLOCK = 256 };
static uint64_t seed = 20261115, state;
static uint64_t mix(uint64_t z) {
    z += 0x9e3779b97f4a7c15;
    z = (z ^ (z >> 30)) * 0xbf58476d1ce4e5b9;
    z = (z ^ (z >> 27)) * 0x94d049bb133111eb;
    return z ^ (z >> 31);
}
static uint64_t any(void) { return mix(state++); }
static uint64_t below(uint64_t n) { return any() % n; }
static double unit(void) { return (double)(any() >> 11) * 0x1p-53; }
static double between(double lo, double hi) { return lo + (hi - lo) * unit(); }
static double sign(double x) { return any() & 1 ? x : -x; }
static double scaled(int lo, int hi) { return ldexp(1 + unit(), lo + (int)below(hi - lo + 1)); }
static double whatever(void) { for (;;) { double x = number(any()); if (isfinite(x)) return x; } }
static double subnormal(void) { return number(1 + (any() >> (12 + below(52)))); }
// d places up or down in order of size; x itself where that would pass zero or leave the numbers
static double step(double x, long d) {
    double y = number(bits(x) + (uint64_t)d);
    return isfinite(y) && y != 0 && signbit(y) == signbit(x) ? y : x;
}
static double random_step(double x, long d) { return step(x, (long)below(2 * d + 1) - d); }
// Of `total` listed points the i-th of n: each of them where n is the total, else one of each n-th part.
static long listed(long i, long n, long total) {
    return n >= total ? i % total : (long)((__int128)i * total / n) + (long)below(total / n);
}

// The rules below set the point that is tried next: A, and B for hypot.
static double A, B;

static void exp_every(long i, long n) { (void)i, (void)n; A = whatever(); }
static void exp_scaled(long i, long n) { (void)i, (void)n; A = sign(scaled(-60, 9)); }
static void exp_whole(long i, long n) { (void)i, (void)n; A = between(-745.2, 709.8); }
static void exp_fit(long i, long n) { (void)i, (void)n; A = between(-33, 2.1); }
static void exp_short(long i, long n) { (void)i, (void)n; A = between(-0.375, 0.375); }
static void exp_ends(long i, long n) { long k = listed(i, n, 8002); A = step(k % 2 ? 0.375 : -0.375, k / 2 - 2000); }
enum { HALVES = 137600 + 131080 + 1 };
static void exp_halves(long i, long n) {
    long k = listed(i, n, HALVES * 7L), m = k / 7 - 137600;
    A = m == 0 ? 0.0 : step((double)m * 0x1.62e42fefa39efp-8, k % 7 - 3);
}
static void exp_top(long i, long n) { A = step(0x1.62e42fefa39efp+9, listed(i, n, 2001) - 1000); }
static void exp_bottom(long i, long n) {
    static const double at[] = {-708.39641853226408, -744.44007192138126, -745.13321910194122};
    long k = listed(i, n, 6003);
    A = step(at[k % 3], k / 3 - 1000);
}
static void exp_low(long i, long n) { (void)i, (void)n; A = between(-745.2, -708.3); }
static void exp_gone(long i, long n) { (void)i, (void)n; A = between(-746.5, -744); }
static void exp_tiny(long i, long n) { (void)i, (void)n; A = sign(any() & 1 ? subnormal() : scaled(-1022, -50)); }

static void log_every(long i, long n) { (void)i, (void)n; do A = fabs(whatever()); while (A == 0); }
static void log_scaled(long i, long n) { (void)i, (void)n; A = scaled(-60, -1); }
static void log_unit(long i, long n) { (void)i, (void)n; do A = unit(); while (A == 0); }
static void log_middle(long i, long n) { (void)i, (void)n; A = between(0.5, 2); }
static void log_about(long i, long n) { (void)i, (void)n; A = 1 + sign(scaled(-52, -2)); }
static void log_next(long i, long n) { long k = listed(i, n, 1L << 18), d = k / 2 + 1; A = step(1, k % 2 ? d : -d); }
static const uint64_t OFF = 0x3fe6555500000000;
static void log_rows(long i, long n) {
    long k = listed(i, n, 64L * 2045 * 5), j = k % 64, d = k / 64 % 5 - 2, e = k / 320 - 1021;
    A = step(number(OFF + ((uint64_t)j << 46) + ((uint64_t)e << 52)), d);
}
static void log_ends(long i, long n) { long k = listed(i, n, 64L * 1001); A = step(number(OFF + ((uint64_t)(k % 64) << 46)), k / 64 - 500); }
static void log_powers(long i, long n) { long k = listed(i, n, 2098L * 7); A = step(ldexp(1, (int)(k / 7) - 1074), k % 7 - 3); }
static void log_subnormal(long i, long n) { (void)i, (void)n; A = subnormal(); }

static void log1p_every(long i, long n) { (void)i, (void)n; do A = whatever(); while (A == 0 || A <= -1); }
static void log1p_scaled(long i, long n) { (void)i, (void)n; A = sign(scaled(-60, -1)); }
static void log1p_unit(long i, long n) { (void)i, (void)n; do A = between(-1, 1); while (A == 0 || A == -1); }
static void log1p_above(long i, long n) { (void)i, (void)n; A = scaled(0, 60); }
static void log1p_exp(long i, long n) { (void)i, (void)n; A = probit_exp(between(-40, 40)); }
static void log1p_far_exp(long i, long n) { (void)i, (void)n; A = probit_exp(between(-745, 709.7)); }
static void log1p_bottom(long i, long n) { (void)i, (void)n; A = -1 + scaled(-53, -2); }
static void log1p_next(long i, long n) { A = step(-1, -1 - listed(i, n, 1L << 17)); }
// 1 + x is the middle of two f64, or next to it: its rounding loses most
static void log1p_middles(long i, long n) {
    long k = listed(i, n, 2000L * 2 * 101);
    A = step((k % 2 ? 1 : -1) * ((double)(k / 2 % 2000) + 0.5) * (k % 2 ? 0x1p-52 : 0x1p-53), k / 4000 - 50);
}
static void log1p_powers(long i, long n) {
    long k = listed(i, n, 120L * 2 * 1001);
    int e = (int)(k / 2 % 120) - 60;
    A = step(k % 2 && e < 0 ? -ldexp(1, e) : ldexp(1, e), k / 240 - 500);
}
static void log1p_ends(long i, long n) {
    long k = listed(i, n, 64L * 70 * 101), j = k % 64, e = k / 64 % 70 - 10;
    A = step(number(OFF + ((uint64_t)j << 46) + ((uint64_t)e << 52)) - 1, k / 4480 - 50);
}
static void log1p_subnormal(long i, long n) { (void)i, (void)n; A = sign(subnormal()); }

static void erfc_every(long i, long n) { (void)i, (void)n; A = whatever(); }
static void erfc_scaled(long i, long n) { (void)i, (void)n; A = sign(scaled(-70, -1)); }
static void erfc_rows(long i, long n) { (void)i, (void)n; A = between(0, 5.72); }
static void erfc_minus(long i, long n) { (void)i, (void)n; A = between(-6, 0); }
static void erfc_two(long i, long n) { (void)i, (void)n; A = between(-30, -5.7); }
static void erfc_tail(long i, long n) { (void)i, (void)n; A = between(5.6, 26.6); }
static void erfc_low(long i, long n) { (void)i, (void)n; A = between(26.5, 28); }
static void erfc_ends(long i, long n) {
    long k = listed(i, n, 92L * 2 * 501), j = k % 92;
    double x = ((double)j + 0.5) / 16;
    A = step(k / 92 % 2 ? x : -x, k / 184 - 250);
}
static void erfc_borders(long i, long n) {
    static const double at[] = {5.71, 5.71875, 5.72, 5.75, 6, -5.71, -5.71875, -5.72, -5.75, -5.8635847487551677, -6, 0x1p-1074, -0x1p-1074, 0x1p-54, -0x1p-53, -0x1p-54};
    long k = listed(i, n, 16L * 401);
    A = step(at[k % 16], k / 16 - 200);
}
static void erfc_last(long i, long n) {
    static const double at[] = {26.5, 26.543258454250981, 27, 27.22601711110837, 28};
    long k = listed(i, n, 5L * 401);
    A = step(at[k % 5], k / 5 - 200);
}

// where the largest errors were found, and their neighbours
static void erfc_hard(long i, long n) {
    static const double at[] = {18.447978493698344, 24.2250870249051, 26.543323769826969, 26.545993957461985};
    long k = listed(i, n, 4L * 101);
    A = step(at[k % 4], k / 4 - 50);
}

static void pair_within(int d) {
    A = whatever();
    int e;
    frexp(A, &e);
    B = sign(ldexp(1 + unit(), e - 1 + (int)below(2 * d + 1) - d));
    if (!isfinite(B)) B = A;
}
static void hypot_every(long i, long n) { (void)i, (void)n; A = whatever(), B = whatever(); }
static void hypot_near(long i, long n) { (void)i, (void)n; pair_within(60); }
static void hypot_alike(long i, long n) { (void)i, (void)n; pair_within(2); }
static void hypot_unit(long i, long n) { (void)i, (void)n; A = unit(), B = unit(); }
static void hypot_low(long i, long n) { (void)i, (void)n; A = sign(number(any() >> (10 + below(53)))), B = sign(number(any() >> (10 + below(53)))); }
static void hypot_about(long i, long n) {
    (void)i, (void)n;
    int e = (any() & 1 ? 510 : -450) + (int)below(21) - 10;
    A = sign(ldexp(1 + unit(), e)), B = sign(ldexp(1 + unit(), e + (int)below(9) - 4));
}
static void hypot_borders(long i, long n) {
    (void)i, (void)n;
    int e = any() & 1 ? 510 : -450;
    double x = random_step(ldexp(1, e), 1000), y = ldexp(1 + unit(), e - 1 - (int)below(56));
    if (below(4) == 0) y = random_step(ldexp(1, e), 1000);
    if (any() & 1) A = x, B = y; else A = y, B = x;
}
static void hypot_high(long i, long n) {
    (void)i, (void)n;
    A = sign(scaled(1020, 1023)), B = sign(scaled(1016, 1023));
}
static void hypot_circle(double r) { double t = unit() * 1.5707; A = random_step(r * cos(t), 2), B = sign(random_step(r * sin(t), 2)); }
static void hypot_top(long i, long n) { (void)i, (void)n; hypot_circle(0x1.fffffffffffffp+1023); }
static void hypot_bottom(long i, long n) { (void)i, (void)n; hypot_circle(0x1p-1022); }
static void hypot_zero(long i, long n) {
    (void)i, (void)n;
    A = below(4) ? whatever() : sign(subnormal()), B = sign(0);
    if (any() & 1) { double t = A; A = B, B = t; }
}

static void lgamma_whole(long i, long n) { (void)n; A = (double)(i + 1); }
static void lgamma_million(long i, long n) { A = (double)(1002 + listed(i, n, 999000)); }
static void cos_points(long i, long n) { (void)n; A = (0x1.921fb54442d18p+1 * ((double)(i + 1) - 0.25)) / (16.0 + 0.5); }

static mpfr_t X, Z, Y, D;
struct function {
    const char *name;
    double (*one)(double);
    double (*two)(double, double);
    int (*exact)(mpfr_t, const mpfr_t, mpfr_rnd_t);
    double limit, limit_below;
    bool top;  // plus infinity exactly where the exact result is 2^1024 or more
};
// docs/RULES.md gives hypot no limit below the normal range; it is held to 2 there too, and log1p to the nearest
static const struct function EXP = {"exp", probit_exp, NULL, mpfr_exp, 2, 4, true};
static const struct function LOG = {"log", probit_log, NULL, mpfr_log, 2, 0, false};
static const struct function LOG1P = {"log1p", probit_log1p, NULL, mpfr_log1p, 2, 0.5, false};
static const struct function ERFC = {"erfc", probit_erfc, NULL, mpfr_erfc, 4, 4, false};
static const struct function HYPOT = {"hypot", NULL, probit_hypot, NULL, 2, 2, false};
static const struct function LGAMMA = {"lgamma", probit_lgamma, NULL, mpfr_lngamma, 4, 0, false};
static const struct function COS = {"cos", probit_cos, NULL, mpfr_cos, 2, 0, false};

// Where the exact result lies. A range names the kinds it must meet, so that none of its checks is empty.
enum kind { NORMAL, LOW, HIGH, KINDS };
enum { N = 1, L = 2, H = 4 };
struct range {
    const struct function *function;
    const char *name;
    void (*point)(long i, long n);
    long few, many;
    int must;
};
static const struct range ranges[] = {
    {&EXP, "every exponent, both signs", exp_every, 30000, 1500000, N | L | H},
    {&EXP, "2^-60 to 2^10, both signs", exp_scaled, 40000, 2000000, N | H},
    {&EXP, "-745.2 to 709.8", exp_whole, 40000, 2000000, N | L},
    {&EXP, "-33 to 2.1", exp_fit, 40000, 2000000, N},
    {&EXP, "-3/8 to 3/8", exp_short, 40000, 2000000, N},
    {&EXP, "next to -3/8 and 3/8", exp_ends, 4000, 8002, N},
    {&EXP, "next to multiples of (ln 2)/128", exp_halves, 40000, HALVES * 7L, N | L},
    {&EXP, "next to 1024 ln 2", exp_top, 2001, 2001, N | H},
    {&EXP, "next to ln 2^-1022, 2^-1074, 2^-1075", exp_bottom, 6003, 6003, N | L},
    {&EXP, "-745.2 to -708.3", exp_low, 20000, 1000000, L},
    {&EXP, "-746.5 to -744", exp_gone, 5000, 100000, L},
    {&EXP, "2^-1074 to 2^-50, both signs", exp_tiny, 20000, 500000, N},

    {&LOG, "every exponent", log_every, 40000, 3000000, N},
    {&LOG, "2^-60 to 1", log_scaled, 40000, 2000000, N},
    {&LOG, "0 to 1", log_unit, 40000, 2000000, N},
    {&LOG, "1/2 to 2", log_middle, 40000, 2000000, N},
    {&LOG, "1 plus and minus 2^-52 to 2^-1", log_about, 30000, 1000000, N},
    {&LOG, "2^17 next to 1, each side", log_next, 20000, 1L << 18, N},
    {&LOG, "next to row ends, every exponent", log_rows, 20000, 64L * 2045 * 5, N},
    {&LOG, "500 next to row ends, each side", log_ends, 10000, 64L * 1001, N},
    {&LOG, "next to every power of two", log_powers, 5000, 2098L * 7, N},
    {&LOG, "subnormal", log_subnormal, 20000, 1000000, N},

    {&ERFC, "every exponent, both signs", erfc_every, 20000, 2000000, N | L},
    {&ERFC, "2^-70 to 1, both signs", erfc_scaled, 5000, 1000000, N},
    {&ERFC, "0 to 5.72", erfc_rows, 20000, 5000000, N},
    {&ERFC, "-6 to 0", erfc_minus, 10000, 2000000, N},
    {&ERFC, "-30 to -5.7", erfc_two, 2000, 200000, N},
    {&ERFC, "5.6 to 26.6", erfc_tail, 2000, 3000000, N},
    {&ERFC, "26.5 to 28", erfc_low, 600, 500000, N | L},
    {&ERFC, "next to row ends, both signs", erfc_ends, 8000, 92L * 2 * 501, N},
    {&ERFC, "next to 5.71 to 6, -5.71 to -6, 0", erfc_borders, 3000, 16L * 401, N},
    {&ERFC, "next to 26.5, 26.54, 27, 27.23, 28", erfc_last, 400, 5L * 401, N | L},

    {&HYPOT, "every exponent", hypot_every, 50000, 2000000, N},
    {&HYPOT, "exponents within 60", hypot_near, 60000, 3000000, N | L | H},
    {&HYPOT, "exponents within 2", hypot_alike, 60000, 2000000, N | L | H},
    {&HYPOT, "0 to 1", hypot_unit, 40000, 1000000, N},
    {&HYPOT, "subnormal and a little above", hypot_low, 40000, 1000000, N | L},
    {&HYPOT, "about 2^510 and 2^-450", hypot_about, 40000, 1000000, N},
    {&HYPOT, "next to 2^510 and 2^-450", hypot_borders, 40000, 500000, N},
    {&HYPOT, "2^1016 and above", hypot_high, 40000, 1000000, N | H},
    {&HYPOT, "result next to 2^1024", hypot_top, 20000, 500000, N | H},
    {&HYPOT, "result next to 2^-1022", hypot_bottom, 20000, 300000, N | L},
    {&HYPOT, "one is zero", hypot_zero, 10000, 300000, N | L},

    {&LGAMMA, "whole 1 to 1001", lgamma_whole, 1001, 1001, N},
    {&COS, "pi (k - 1/4)/16.5, k = 1 to 16", cos_points, 16, 16, N},

    // last, since a range's points are drawn by its place here
    {&ERFC, "next to the largest found", erfc_hard, 404, 404, N | L},

    {&LOG1P, "every exponent, above -1", log1p_every, 20000, 2000000, N | L},
    {&LOG1P, "2^-60 to 1, both signs", log1p_scaled, 20000, 2000000, N},
    {&LOG1P, "-1 to 1", log1p_unit, 20000, 2000000, N},
    {&LOG1P, "1 to 2^61", log1p_above, 10000, 500000, N},
    {&LOG1P, "exp of -40 to 40", log1p_exp, 20000, 1500000, N},
    {&LOG1P, "exp of -745 to 709.7", log1p_far_exp, 10000, 500000, N | L},
    {&LOG1P, "-1 plus 2^-53 to 1/2", log1p_bottom, 10000, 500000, N},
    {&LOG1P, "2^17 next to -1", log1p_next, 10000, 1L << 17, N},
    {&LOG1P, "1 + x next to middles, up to 2000 from 1", log1p_middles, 20000, 2000L * 2 * 101, N},
    {&LOG1P, "next to 2^-60 to 2^59, both signs", log1p_powers, 20000, 120L * 2 * 1001, N},
    {&LOG1P, "1 + x next to row ends, 2^-10 to 2^59", log1p_ends, 20000, 64L * 70 * 101, N},
    {&LOG1P, "subnormal, both signs", log1p_subnormal, 5000, 200000, L},
    {&LGAMMA, "whole 1002 to 1000001", lgamma_million, 5000, 999000, N},
};

// The error in units of the last place of the exact result in Y; below the normal range in units of 2^-1074.
// A wrong sign, a NaN and a misplaced infinity count as infinite.
static double error(const struct function *f, double got, enum kind *kind) {
    if (mpfr_zero_p(Y)) {  // also where MPFR itself underflows
        *kind = f->limit_below > 0 ? LOW : NORMAL;
        return isnan(got) || signbit(got) ? INFINITY : ldexp(got, 1074);
    }
    bool high = mpfr_inf_p(Y) || mpfr_get_exp(Y) > 1024;
    *kind = high ? HIGH : mpfr_get_exp(Y) <= -1022 ? LOW : NORMAL;
    if (isnan(got) || signbit(got) != (mpfr_sgn(Y) < 0)) return INFINITY;
    if (high && isinf(got)) return 0;
    if (mpfr_inf_p(Y) || (f->top && high != isinf(got))) return INFINITY;
    // without `top` infinity stands for 2^1024, and units above that are those just below it
    if (isinf(got)) mpfr_set_si_2exp(D, got < 0 ? -1 : 1, 1024, MPFR_RNDN);
    else mpfr_set_d(D, got, MPFR_RNDN);
    mpfr_sub(D, D, Y, MPFR_RNDN);
    long place = *kind == HIGH ? 971 : *kind == LOW ? -1074 : mpfr_get_exp(Y) - 53;
    mpfr_div_2si(D, D, place, MPFR_RNDN);
    return fabs(mpfr_get_d(D, MPFR_RNDN));
}

struct worst { long points; double error, a, b; };
static void worse(struct worst *w, const struct worst *v) {
    if (v->points > 0 && (w->points == 0 || v->error > w->error)) w->error = v->error, w->a = v->a, w->b = v->b;
    w->points += v->points;
}

// The blocks of a range whose number leaves the rest `part` by `parts`.
static void measure(long index, long n, long part, long parts, struct worst out[KINDS]) {
    const struct range *r = &ranges[index];
    for (long block = part; block * BLOCK < n; block += parts) {
        state = mix(mix(seed + (uint64_t)index) + (uint64_t)block);
        for (long i = block * BLOCK; i < n && i < (block + 1) * BLOCK; i++) {
            B = 0;
            r->point(i, n);
            double got;
            mpfr_set_d(X, A, MPFR_RNDN);
            if (r->function->two) {
                mpfr_set_d(Z, B, MPFR_RNDN);
                mpfr_hypot(Y, X, Z, MPFR_RNDN);
                got = r->function->two(A, B);
            } else {
                r->function->exact(Y, X, MPFR_RNDN);
                got = r->function->one(A);
            }
            enum kind kind;
            struct worst v = {1, 0, A, B};
            v.error = error(r->function, got, &kind);
            worse(&out[kind], &v);
        }
    }
}

static long checks, failed;
static void row(const char *function, const char *range, long points, const char *error, const char *where, const char *limit, bool ok) {
    checks++;
    failed += !ok;
    printf("%-7s %-51s %8ld  %-8s %-47s %-11s %s\n", function, range, points, error, where, limit, ok ? "ok" : "FAILED");
    fflush(stdout);
}

static void rows(long index, const struct worst found[KINDS]) {
    static const char *const kinds[] = {"", ", below normal", ", 2^1024 or more"};
    const struct range *r = &ranges[index];
    const struct function *f = r->function;
    for (int k = 0; k < KINDS; k++) {
        const struct worst *w = &found[k];
        if (w->points == 0 && !(r->must & 1 << k)) continue;
        char name[80], err[32], where[64], limit[32];
        double most = k == LOW ? f->limit_below : f->limit;
        snprintf(name, sizeof name, "%s%s", r->name, kinds[k]);
        snprintf(err, sizeof err, isinf(w->error) ? "wrong" : w->error < 1000 ? "%.4f" : "%.2e", w->error);
        if (f->two) snprintf(where, sizeof where, "%.17g %.17g", w->a, w->b);
        else snprintf(where, sizeof where, "%.17g", w->a);
        if (k == LOW) snprintf(limit, sizeof limit, "%g x 2^-1074", most);
        else if (k == HIGH && f->top) snprintf(limit, sizeof limit, "+inf");
        else snprintf(limit, sizeof limit, "%g", most);
        row(f->name, name, w->points, w->points ? err : "none", w->points ? where : "no point met", limit, w->points > 0 && w->error <= most);
    }
}

// Two processes in the large run; the answers come back through a shared page.
static void run_range(long index, bool full) {
    long n = full ? ranges[index].many : ranges[index].few, parts = full && n >= 100000 ? 2 : 1;
    struct worst found[KINDS] = {0};
    struct worst *other = NULL;
    pid_t child = 0;
    if (parts == 2) {
        other = mmap(NULL, sizeof found, PROT_READ | PROT_WRITE, MAP_SHARED | MAP_ANONYMOUS, -1, 0);
        if (other == MAP_FAILED || (child = fork()) < 0) { perror("accuracy"); exit(2); }
        if (child == 0) { measure(index, n, 1, 2, other); _exit(0); }
    }
    measure(index, n, 0, parts, found);
    if (parts == 2) {
        int status;
        if (waitpid(child, &status, 0) < 0 || status != 0) { fprintf(stderr, "accuracy: the second process was stopped\n"); exit(1); }
        for (int k = 0; k < KINDS; k++) worse(&found[k], &other[k]);
        munmap(other, sizeof found);
    }
    rows(index, found);
}

static double hardware_root(double x) { __m128d v = _mm_set_sd(x); return _mm_cvtsd_f64(_mm_sqrt_sd(v, v)); }
static double root_every(long i) { (void)i; return fabs(whatever()); }
static double root_subnormal(long i) { (void)i; return subnormal(); }
static double root_power(long i) { return step(ldexp(1, (int)(i / 3) - 1074), i % 3 - 1); }
static double root_square(long i) {
    (void)i;
    double m = (double)(any() >> (38 + below(24)));
    return random_step(ldexp(m * m + (m == 0), 2 * ((int)below(800) - 400)), 3);
}
// roots next to the middle of two f64, where rounding is hardest
static double root_middle(long i) {
    (void)i;
    long double m = (long double)(any() >> 11 | UINT64_C(1) << 52) + 0.5L;
    return random_step(ldexp((double)(m * m), 2 * ((int)below(800) - 400)), 1);
}
static double below_minus_one(long i) { double x = i & 1 ? -scaled(0, 60) : number(any() | UINT64_C(1) << 63); return x < -1 ? x : step(-1, 1 + i); }
static double negative(long i) { (void)i; double x = any() & 7 ? fabs(whatever()) : subnormal(); return x == 0 ? -1 : -x; }

// For sqrt bit for bit against the hardware; for a negative argument NaN.
static void count(const char *function, const char *range, double (*f)(double), double (*want)(double), double (*point)(long), long n) {
    static uint64_t number_of_row;
    long wrong = 0;
    double at = 0;
    state = mix(mix(seed - ++number_of_row));
    for (long i = 0; i < n; i++) {
        double x = point(i), got = f(x);
        if (want ? bits(got) == bits(want(x)) : isnan(got)) continue;
        if (wrong++ == 0) at = x;
    }
    char err[32], where[32] = "";
    snprintf(err, sizeof err, "%ld off", wrong);
    if (wrong) snprintf(where, sizeof where, "%.17g", at);
    row(function, range, n, err, where, want ? "same bits" : "NaN", wrong == 0);
}

static long values;
static void value(const char *call, double got, double want) {
    checks++, values++;
    if (isnan(want) ? isnan(got) : bits(got) == bits(want)) return;
    failed++;
    printf("%s gives %.17g, not %.17g  FAILED\n", call, got, want);
}
#define VALUE(call, want) value(#call, probit_##call, want)

static void exact_values(void) {
    VALUE(exp(0.0), 1.0); VALUE(exp(-0.0), 1.0);
    VALUE(exp(-INFINITY), 0.0); VALUE(exp(INFINITY), INFINITY);
    VALUE(log(1.0), 0.0); VALUE(log(0.0), -INFINITY); VALUE(log(-0.0), -INFINITY);
    VALUE(log(-1.0), NAN); VALUE(log(-0x1p-1074), NAN); VALUE(log(-INFINITY), NAN); VALUE(log(INFINITY), INFINITY);
    VALUE(log1p(0.0), 0.0); VALUE(log1p(-0.0), -0.0); VALUE(log1p(-1.0), -INFINITY); VALUE(log1p(INFINITY), INFINITY);
    VALUE(log1p(-0x1.0000000000001p+0), NAN); VALUE(log1p(-2.0), NAN); VALUE(log1p(-INFINITY), NAN);
    VALUE(erfc(0.0), 1.0); VALUE(erfc(-0.0), 1.0); VALUE(erfc(-INFINITY), 2.0); VALUE(erfc(INFINITY), 0.0);
    VALUE(lgamma(1.0), 0.0); VALUE(lgamma(2.0), 0.0);
    VALUE(sqrt(0.0), 0.0); VALUE(sqrt(-0.0), -0.0); VALUE(sqrt(4.0), 2.0); VALUE(sqrt(0x1p-1074), 0x1p-537);
    VALUE(sqrt(-1.0), NAN); VALUE(sqrt(INFINITY), INFINITY); VALUE(sqrt(-INFINITY), NAN);
    VALUE(hypot(INFINITY, INFINITY), INFINITY); VALUE(hypot(-INFINITY, 1.0), INFINITY); VALUE(hypot(0.0, -INFINITY), INFINITY);
    VALUE(hypot(0.0, 0.0), 0.0); VALUE(hypot(-0.0, -0.0), 0.0);

    // quiet and signalling, either sign, least and most payload
    static const uint64_t nans[] = {0x7ff8000000000000, 0xfff8000000000000, 0x7ff0000000000001, 0xfff0000000000001, 0x7fffffffffffffff, 0xffffffffffffffff};
    static const double beside[] = {0.0, -0.0, 1.0, -1.0, 0x1p-1074, 0x1p-500, 0x1p600, -0x1.fffffffffffffp+1023};
    for (size_t i = 0; i < sizeof nans / sizeof *nans; i++) {
        double nan = number(nans[i]);
        VALUE(exp(nan), NAN); VALUE(log(nan), NAN); VALUE(log1p(nan), NAN); VALUE(erfc(nan), NAN); VALUE(lgamma(nan), NAN); VALUE(cos(nan), NAN); VALUE(sqrt(nan), NAN);
        VALUE(hypot(nan, nan), NAN);
        for (size_t j = 0; j < sizeof beside / sizeof *beside; j++) {
            double x = beside[j];
            VALUE(hypot(nan, x), NAN); VALUE(hypot(x, nan), NAN);
        }
        VALUE(hypot(INFINITY, nan), INFINITY); VALUE(hypot(nan, INFINITY), INFINITY);
        VALUE(hypot(-INFINITY, nan), INFINITY); VALUE(hypot(nan, -INFINITY), INFINITY);
    }
    printf("exact values: %ld\n", values);
}

int main(int argc, char **argv) {
    bool full = argc > 1 && strcmp(argv[1], "full") == 0;
    int next = full ? 2 : 1;
    if (argc > next) {
        char *end;
        seed = strtoull(argv[next], &end, 0);
        if (argc > next + 1 || end == argv[next] || *end) { fprintf(stderr, "usage: accuracy [full] [SEED]\n"); return 2; }
    }
    // MPFR rounds each result right to 120 bits: what it leaves is below 2^-66 of a last place, next to a zero of the
    // function too.
    mpfr_inits2(53, X, Z, (mpfr_ptr)0);
    mpfr_inits2(120, Y, D, (mpfr_ptr)0);

    printf("%s run, seed %" PRIu64 ", MPFR %s\n", full ? "large" : "small", seed, mpfr_get_version());
    printf("errors in units of the last place of the exact result; below the normal range in units of 2^-1074\n");
    printf("%-7s %-51s %8s  %-8s %-47s %s\n", "", "range", "points", "largest", "where", "limit");
    for (size_t i = 0; i < sizeof ranges / sizeof *ranges; i++) run_range((long)i, full);
    long k = full ? 1 : 10;
    count("sqrt", "every exponent", probit_sqrt, hardware_root, root_every, 1000000 / k);
    count("sqrt", "subnormal", probit_sqrt, hardware_root, root_subnormal, 200000 / k);
    count("sqrt", "next to every power of two", probit_sqrt, hardware_root, root_power, 2098 * 3);
    count("sqrt", "next to squares", probit_sqrt, hardware_root, root_square, 200000 / k);
    count("sqrt", "next to squares of middles of two f64", probit_sqrt, hardware_root, root_middle, 200000 / k);
    count("sqrt", "negative, every exponent", probit_sqrt, NULL, negative, 100000 / k);
    count("log", "negative, every exponent", probit_log, NULL, negative, 100000 / k);
    count("log1p", "below -1", probit_log1p, NULL, below_minus_one, 100000 / k);
    exact_values();
    printf("accuracy: %ld checks, %ld failed\n", checks, failed);
    return failed > 0;
}
