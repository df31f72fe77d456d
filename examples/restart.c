/* A fit taken up where it stopped. Fits a request, and asks the objective at the reported means and variances, which
 * gives the reported likelihood, gradient and Hessian to the bit. Says whether the SDs' squares are the variances: an
 * SD is a rounded root, and they need not be. Then shows the coordinates with their standard errors.
 * restart < REQUEST: a request as the text program reads it. restart ITERATIONS < REQUEST: also stops the fit after
 * so many iterations, starts a new one from its means and SDs, and holds where that ends against the fit that was not
 * stopped.
 * Exit status: 1 the reported point gives other bits, 2 the request has no fit or bad usage. */
#include <inttypes.h>
#include <stdio.h>
#include <stdlib.h>
#include <string.h>

#include "inverse.h"
#include "probit.h"
#include "probit_names.h"

struct fit {
    uint64_t end, counts[PROBIT_FIT_COUNTS];
    double numbers[PROBIT_FIT_NUMBERS];
};

static double bounds[PROBIT_BOUNDS], tolerance;
static uint64_t asked[PROBIT_REQUEST_NUMBERS];
static uint32_t litters[PROBIT_REQUEST_LITTERS];
static size_t length;

static struct fit fitted(const double *from, uint64_t iterations) {
    struct fit f;
    f.end = probit_fit(from, PROBIT_BOUNDS, tolerance, asked[PROBIT_REQUEST_EVALUATIONS], iterations, asked[PROBIT_REQUEST_QUADRATURE], litters, length,
                       f.numbers, PROBIT_FIT_NUMBERS, f.counts, PROBIT_FIT_COUNTS);
    return f;
}

static uint64_t bits(double x) {
    uint64_t n;
    memcpy(&n, &x, sizeof n);
    return x == x ? n : 0x7ff8000000000000; /* any NaN counts as any other */
}

static int same(const double *a, const double *b, size_t n) {
    for (size_t i = 0; i < n; i++)
        if (bits(a[i]) != bits(b[i])) return 0;
    return 1;
}

/* Whether the objective at these variances gives the reported likelihood, gradient and Hessian. */
static int given(const struct fit *f, const double *variances) {
    const double *x = f->numbers;
    double point[N] = {x[PROBIT_MEAN_0], x[PROBIT_MEAN_1], variances[0], variances[1]}, at[PROBIT_OBJECTIVE_NUMBERS];
    uint64_t used[PROBIT_OBJECTIVE_COUNTS];
    return probit_objective(point, N, litters, length, at, PROBIT_OBJECTIVE_NUMBERS, used, PROBIT_OBJECTIVE_COUNTS) == PROBIT_ANSWERED &&
           same(at + PROBIT_OBJECTIVE_NLL, x + PROBIT_NLL, 1) && same(at + PROBIT_OBJECTIVE_GRADIENT, x + PROBIT_GRADIENT, N) &&
           same(at + PROBIT_OBJECTIVE_HESSIAN, x + PROBIT_HESSIAN, N * N);
}

static int restarted(const struct fit *f) {
    const double *sd = f->numbers + PROBIT_SD_0, *variance = f->numbers + PROBIT_VARIANCE_0;
    double squares[2] = {sd[0] * sd[0], sd[1] * sd[1]};
    int good = given(f, variance);
    printf("fit: %s\nthe objective at the reported means and variances: %s\n", probit_status_name(f->counts[PROBIT_STATUS]), good ? "the reported bits" : "OTHER BITS");
    for (int g = 0; g < 2; g++)
        printf("group %d: variance %016" PRIx64 ", the SD's square %016" PRIx64 ": %s\n", g, bits(variance[g]), bits(squares[g]),
               bits(variance[g]) == bits(squares[g]) ? "the same" : "beside it");
    printf("the objective at the SDs' squares, which it reads by their roots: %s\n", given(f, squares) ? "the reported bits" : "other bits");
    return good;
}

/* Of the coordinates that lie on no bound. */
static void errors(const struct fit *f) {
    static const char *const names[N] = {"mean 0", "mean 1", "variance 0", "variance 1"};
    const double *x = f->numbers, at[N] = {x[PROBIT_MEAN_0], x[PROBIT_MEAN_1], x[PROBIT_VARIANCE_0], x[PROBIT_VARIANCE_1]};
    const uint64_t *marks = f->counts + PROBIT_MEAN_0_ON_BOUND;
    double a[N][N], b[N][N];
    int n = 0, k = 0, to[N], found;
    for (int i = 0; i < N; i++)
        if (!marks[i]) to[n++] = i;
    for (int i = 0; i < n; i++)
        for (int j = 0; j < n; j++) a[i][j] = x[PROBIT_HESSIAN + N * to[i] + to[j]];
    found = inverse(n, a, b);
    printf("standard errors: roots of the inverse of the Hessian over the coordinates on no bound (this example's arithmetic, no promise of the engine)\n");
    for (int i = 0; i < N; i++) {
        printf("  %-10s %13.8f  ", names[i], at[i]);
        if (!marks[i] && found && b[k][k] > 0)
            printf("%.8f\n", sqrt(b[k][k]));
        else
            printf("%s\n", marks[i] ? "on a bound" : "none: the inverse is not positive there");
        k += !marks[i];
    }
}

/* A fit starts at an SD's square. */
static void again(uint64_t iterations) {
    struct fit whole = fitted(bounds, PROBIT_MAX_ITERATIONS), f = fitted(bounds, iterations);
    double from[PROBIT_BOUNDS];
    memcpy(from, bounds, sizeof from);
    for (int i = 0; i < 4; i++) from[3 * i + 2] = f.numbers[PROBIT_MEAN_0 + i];
    struct fit g = fitted(from, PROBIT_MAX_ITERATIONS);
    printf("stopped after %" PRIu64 " iterations and started again from its means and SDs: %s\n", iterations,
           same(whole.numbers, g.numbers, PROBIT_FIT_NUMBERS) ? "ends where the fit ends that was not stopped" : "ends beside the fit that was not stopped");
    for (int i = 0; i < 2; i++) {
        const struct fit *one = i ? &g : &whole;
        printf("  %-13s  variance %016" PRIx64 " %016" PRIx64 "  nll %016" PRIx64 "  %s\n", i ? "started again" : "not stopped", bits(one->numbers[PROBIT_VARIANCE_0]),
               bits(one->numbers[PROBIT_VARIANCE_1]), bits(one->numbers[PROBIT_NLL]), one->end ? probit_ending_name(one->end) : probit_status_name(one->counts[PROBIT_STATUS]));
    }
}

int main(int argc, char **argv) {
    static uint8_t held[PROBIT_HELD], buffer[4096];
    uint64_t state[PROBIT_PART_COUNTS] = {0}, iterations = argc == 2 ? strtoull(argv[1], NULL, 10) : 0;
    struct fit f = {0};
    size_t n;
    int good;
    if (argc > 2 || (argc == 2 && !iterations)) {
        fprintf(stderr, "usage: restart [ITERATIONS] < REQUEST\n");
        return 2;
    }
    while ((n = fread(buffer, 1, sizeof buffer, stdin)) > 0) probit_part(held, PROBIT_HELD, state, PROBIT_PART_COUNTS, buffer, n);
    f.end = probit_finish(held, PROBIT_HELD, state, PROBIT_PART_COUNTS, asked, PROBIT_REQUEST_NUMBERS, litters, PROBIT_REQUEST_LITTERS);
    if (f.end == PROBIT_ANSWERED && asked[PROBIT_REQUEST_COUNT] > PROBIT_MAX_LITTERS) f.end = PROBIT_INVALID_INPUT;
    if (f.end == PROBIT_ANSWERED) {
        length = PROBIT_LITTER_NUMBERS * asked[PROBIT_REQUEST_COUNT];
        memcpy(bounds, asked + PROBIT_REQUEST_BOUNDS, sizeof bounds), memcpy(&tolerance, asked + PROBIT_REQUEST_TOLERANCE, sizeof tolerance);
        f = fitted(bounds, iterations ? iterations : asked[PROBIT_REQUEST_ITERATIONS]);
    }
    if (f.end != PROBIT_ANSWERED) {
        printf("no fit: %s\n", probit_ending_name(f.end));
        return 2;
    }
    good = restarted(&f);
    if (iterations)
        again(iterations);
    else
        errors(&f);
    return !good;
}
