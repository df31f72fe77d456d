// Times the static library's functions beside those of libm 0.2.1 and glibc, over the arguments that fits have.
// Exit status 1 where a target is missed, 2 where the contestants do not compute the same thing.
#include <math.h>
#include <stdbool.h>
#include <stdint.h>
#include <stdio.h>
#include <time.h>

typedef double one(double);
typedef double two(double, double);
struct set {
    one *exp, *log, *erfc, *lgamma, *cos, *sqrt;
    two *hypot;
};
one probit_exp, probit_log, probit_erfc, probit_lgamma, probit_cos, probit_sqrt;
one libm_exp, libm_log, libm_erfc, libm_lgamma, libm_cos, libm_sqrt;
two probit_hypot, libm_hypot;

// All are called through pointers that the compiler cannot see through, so each call costs the same.
enum { OURS, LIBM, GLIBC, SETS };
static struct set sets[SETS] = {
    {probit_exp, probit_log, probit_erfc, probit_lgamma, probit_cos, probit_sqrt, probit_hypot},
    {libm_exp, libm_log, libm_erfc, libm_lgamma, libm_cos, libm_sqrt, libm_hypot},
    {exp, log, erfc, lgamma, cos, sqrt, hypot},
};

enum { POINTS = 2048, PASSES = 4, REPEATS = 200 };
static double in[POINTS], in2[POINTS];
static volatile double sink;

static double seconds(void) {
    struct timespec t;
    clock_gettime(CLOCK_MONOTONIC, &t);
    return (double)t.tv_sec + 1e-9 * (double)t.tv_nsec;
}
static double unit(void) {
    static uint64_t s = 88172645463325252;
    s ^= s << 13, s ^= s >> 7, s ^= s << 17;
    return ((double)(s >> 12) + 0.5) * 0x1p-52;
}

// For x and for -x the log of the lower tail and the density over the tail, in the steps of `normal` above -8.
struct sides { double log_left, mills_left, log_right, mills_right; };
static inline void side(const struct set *f, double x, double *log_cdf, double *mills) {
    double log_phi = -0.5 * x * x - 0.5 * 1.8378770664093453;
    double cdf = 0.5 * f->erfc(-x / 0x1.6a09e667f3bcdp+0);
    *log_cdf = f->log(cdf);
    *mills = f->exp(log_phi - *log_cdf);
}
static __attribute__((noinline)) struct sides normal_pair(const struct set *f, double x) {
    struct sides r;
    side(f, x, &r.log_left, &r.mills_left);
    side(f, -x, &r.log_right, &r.mills_right);
    return r;
}

// A row names its function by a letter: h is hypot, n the pair.
static one *pick(const struct set *f, char which) {
    switch (which) {
    case 'e': return f->exp;
    case 'l': return f->log;
    case 'c': return f->erfc;
    case 'g': return f->lgamma;
    case 'o': return f->cos;
    default: return f->sqrt;
    }
}
static double call(const struct set *f, char which, int i) {
    if (which == 'h') return f->hypot(in[i], in2[i]);
    if (which != 'n') return pick(f, which)(in[i]);
    struct sides r = normal_pair(f, in[i]);
    return r.log_left + r.mills_left + r.log_right + r.mills_right;
}

// Chained: the argument takes up 0 times the last result, so a call waits for the one before. Seconds for PASSES
// passes.
static double run(const struct set *f, char which, bool chained) {
    double s = 0, start = seconds();
    if (which == 'n') {
        for (int k = 0; k < PASSES; k++)
            for (int i = 0; i < POINTS; i++) {
                struct sides r = normal_pair(f, chained ? in[i] + s * 0.0 : in[i]);
                double t = (r.log_left + r.mills_left) + (r.log_right + r.mills_right);
                s = chained ? t : s + t;
            }
    } else if (which == 'h') {
        two *g = f->hypot;
        if (chained)
            for (int k = 0; k < PASSES; k++) for (int i = 0; i < POINTS; i++) s = g(in[i] + s * 0.0, in2[i]);
        else
            for (int k = 0; k < PASSES; k++) for (int i = 0; i < POINTS; i++) s += g(in[i], in2[i]);
    } else {
        one *g = pick(f, which);
        if (chained)
            for (int k = 0; k < PASSES; k++) for (int i = 0; i < POINTS; i++) s = g(in[i] + s * 0.0);
        else
            for (int k = 0; k < PASSES; k++) for (int i = 0; i < POINTS; i++) s += g(in[i]);
    }
    double end = seconds();
    sink = s;
    return end - start;
}

static int missed, unequal;
// target 0: none
static void row(const char *name, char which, double target) {
    for (int i = 0; i < POINTS; i++) {
        double want = call(&sets[GLIBC], which, i);
        for (int c = 0; c < GLIBC; c++)
            if (!(fabs(call(&sets[c], which, i) - want) <= 1e-12 * fabs(want) + 1e-14)) {
                printf("%-26s not timed: %s differs from glibc at %.17g\n", name, c == OURS ? "ours" : "libm", in[i]);
                unequal++;
                return;
            }
    }
    // The contestants take turns within a repetition, so that noise meets all alike; the best turn counts.
    double best[SETS][2];
    for (int c = 0; c < SETS; c++) best[c][0] = best[c][1] = INFINITY;
    for (int k = 0; k < REPEATS; k++)
        for (int turn = 0; turn < SETS; turn++)
            for (int chained = 0; chained < 2; chained++) {
                int c = (k + turn) % SETS;
                double t = run(&sets[c], which, chained) / (PASSES * (double)POINTS) * 1e9;
                if (t < best[c][chained]) best[c][chained] = t;
            }
    double ratio = best[OURS][1] / best[LIBM][1];
    printf("%-26s", name);
    for (int c = 0; c < SETS; c++) printf(" %7.1f %7.1f ", best[c][0], best[c][1]);
    printf(" %6.2f %6.2f", best[OURS][0] / best[LIBM][0], ratio);
    if (target > 0) {
        printf("  %5.2f %s", target, ratio <= target ? "ok" : "MISSED");
        missed += ratio > target;
    }
    printf("\n");
    fflush(stdout);
}
#define FILL(first) for (int i = 0; i < POINTS; i++) in[i] = (first)

int main(void) {
    printf("ns a call: independent, then chained; best of %d turns of %d calls\n", REPEATS, PASSES * POINTS);
    printf("%-26s %15s  %15s  %15s   ours/libm\n", "", "ours", "libm 0.2.1", "glibc");
    printf("%-26s %7s %7s  %7s %7s  %7s %7s  %6s %6s  %s\n", "", "indep.", "chained", "indep.", "chained", "indep.", "chained", "indep.", "chain.", "target (chained)");
    FILL(-33 + 35.1 * unit());
    row("exp, -33 to 2.1", 'e', 0.75);
    FILL(-0.375 + 0.75 * unit());
    row("exp, -3/8 to 3/8", 'e', 0.75);
    FILL(unit());
    row("log, 0 to 1", 'l', 1.0);
    FILL(5.6 * unit());
    row("erfc, 0 to 5.6", 'c', 0.45);
    FILL(-5.6 + 11.2 * unit());
    row("erfc, -5.6 to 5.6", 'c', 0.45);
    FILL(6 + 20 * unit());
    row("erfc, 6 to 26", 'c', 0);
    FILL(1 + floor(20 * unit()));
    row("lgamma, whole 1 to 20", 'g', 0);
    FILL(1 + floor(1001 * unit()));
    row("lgamma, whole 1 to 1001", 'g', 0);
    FILL(0x1.921fb54442d18p+1 * unit());
    row("cos, 0 to pi", 'o', 0);
    FILL(unit());
    for (int i = 0; i < POINTS; i++) in2[i] = unit();
    row("hypot, 0 to 1", 'h', 0);
    FILL(1000 * unit());
    row("sqrt, 0 to 1000", 's', 0);
    FILL(-5 + 10 * (i + 0.5) / POINTS);
    row("normal(x) with normal(-x)", 'n', 0.6);
    printf("speed: %d targets missed, %d rows not timed\n", missed, unequal);
    return unequal ? 2 : missed > 0;
}
