/* Counts per exposure: a published table of damage to ships, incidents over months of service, is fitted by the
 * Gamma-Poisson model.
 * Then the objective at the estimates gives standard errors, and a row's own rate is drawn towards the mean by the
 * rest of the table.
 * counts < TABLE: a line of names, then type,year of construction,period,months of service,incidents, as in
 * ships.csv. */
#include <inttypes.h>
#include <math.h>
#include <stdio.h>

#include "probit.h"
#include "probit_names.h"

int main(void) {
    /* shape and rate in boxes so wide that a fit of real counts ends inside; the start is anywhere in them */
    const double bounds[PROBIT_COUNTS_BOUNDS] = {1e-3, 1e3, 1, 1e-3, 1e6, 1000};
    static uint32_t events[PROBIT_COUNTS_MAX_ROWS];
    static double exposures[PROBIT_COUNTS_MAX_ROWS];
    double fit[PROBIT_COUNTS_FIT_NUMBERS], at[PROBIT_COUNTS_OBJECTIVE_NUMBERS];
    uint64_t counts[PROBIT_COUNTS_FIT_COUNTS], spent[PROBIT_COUNTS_OBJECTIVE_COUNTS], end;
    size_t rows = 0;
    char line[256];
    while (fgets(line, sizeof line, stdin) && rows < PROBIT_COUNTS_MAX_ROWS)
        if (sscanf(line, "%*[A-E],%*u,%*u,%lf,%" SCNu32, exposures + rows, events + rows) == 2) rows++;

    end = probit_counts_fit(bounds, PROBIT_COUNTS_BOUNDS, 1e-9, 200, 200, events, rows, exposures, rows, fit, PROBIT_COUNTS_FIT_NUMBERS, counts, PROBIT_COUNTS_FIT_COUNTS);
    printf("counts: %s, %s\n", probit_ending_name(end), probit_status_name(counts[PROBIT_COUNTS_STATUS]));
    if (end != PROBIT_ANSWERED || counts[PROBIT_COUNTS_STATUS] != PROBIT_CONVERGED) return 1;
    double shape = fit[PROBIT_COUNTS_SHAPE], rate = fit[PROBIT_COUNTS_RATE];
    printf("shape %.6f  rate %.6f  mean rate %.9f  minus the log-likelihood %.9f\n", shape, rate, shape / rate, fit[PROBIT_COUNTS_NLL]);
    printf("%" PRIu64 " rows, %" PRIu64 " evaluations, %" PRIu64 " iterations, %" PRIu64 " passes; the largest slope that is left is %.2g\n", counts[PROBIT_COUNTS_ROWS],
           counts[PROBIT_COUNTS_EVALUATIONS], counts[PROBIT_COUNTS_ITERATIONS], counts[PROBIT_COUNTS_PASSES], fit[PROBIT_COUNTS_NORM]);
    if (counts[PROBIT_COUNTS_SHAPE_ON_BOUND] || counts[PROBIT_COUNTS_RATE_ON_BOUND]) return 1;

    /* The Hessian's inverse is the covariance of log(shape) and log(rate); the mean rate's logarithm is their
     * difference. */
    end = probit_counts_objective(shape, rate, events, rows, exposures, rows, at, PROBIT_COUNTS_OBJECTIVE_NUMBERS, spent, PROBIT_COUNTS_OBJECTIVE_COUNTS);
    const double *h = at + PROBIT_COUNTS_OBJECTIVE_HESSIAN;
    double determinant = h[0] * h[3] - h[1] * h[2];
    if (end != PROBIT_ANSWERED || !(determinant > 0)) return 1;
    printf("standard errors in the logarithm: shape %.6f  rate %.6f  mean rate %.6f\n", sqrt(h[3] / determinant), sqrt(h[0] / determinant),
           sqrt((h[0] + h[1] + h[2] + h[3]) / determinant));
    size_t most = 0;
    for (size_t i = 0; i < rows; i++)
        if (events[i] / exposures[i] > events[most] / exposures[most]) most = i;
    printf("row %zu, %" PRIu32 " in %g: by itself %.6f, beside the others %.6f\n", most + 1, events[most], exposures[most], events[most] / exposures[most],
           (shape + events[most]) / (rate + exposures[most]));
    return 0;
}
