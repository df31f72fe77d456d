/* The intervals of a real fit: Weil's litters of rats are fitted, the covariance of means and SDs is made from the
 * reported Hessian, and the SDs, which are positive by their nature, get their 95 percent log-Wald intervals.
 * intervals < REQUEST: a request as the text program reads it, its numbers in decimal. */
#include <inttypes.h>
#include <stdio.h>
#include <string.h>

#include "inverse.h"
#include "probit.h"
#include "probit_names.h"

int main(void) {
    double bounds[PROBIT_BOUNDS], tolerance = 0, fit[PROBIT_FIT_NUMBERS], numbers[PROBIT_INTERVALS_NUMBERS];
    uint64_t work[3] = {0}, counts[PROBIT_FIT_COUNTS], end;
    uint32_t litters[PROBIT_LITTER_NUMBERS * PROBIT_MAX_LITTERS];
    size_t length = 0;
    char line[256], name[8];
    while (fgets(line, sizeof line, stdin)) {
        int g;
        double low, high, start;
        uint32_t group, affected, pups;
        if (sscanf(line, "%7s %d %lf %lf %lf", name, &g, &low, &high, &start) == 5 && (g == 0 || g == 1)) {
            double *b = bounds + (strcmp(name, "sd") ? 0 : 6) + 3 * g;
            b[0] = low, b[1] = high, b[2] = start;
        } else if (sscanf(line, "work %" SCNu64 " %" SCNu64 " %" SCNu64, work, work + 1, work + 2) == 3 || sscanf(line, "tolerance %lf", &tolerance) == 1) {
        } else if (sscanf(line, "litter %" SCNu32 " %" SCNu32 " %" SCNu32, &group, &affected, &pups) == 3 && length + 3 <= sizeof litters / sizeof *litters) {
            litters[length + PROBIT_AFFECTED] = affected, litters[length + PROBIT_PUPS] = pups, litters[length + PROBIT_GROUP] = group;
            length += PROBIT_LITTER_NUMBERS;
        }
    }
    end = probit_fit(bounds, PROBIT_BOUNDS, tolerance, work[0], work[1], work[2], litters, length, fit, PROBIT_FIT_NUMBERS, counts, PROBIT_FIT_COUNTS);
    printf("fit: %s, %s\n", probit_ending_name(end), probit_status_name(counts[PROBIT_STATUS]));
    if (end != PROBIT_ANSWERED || counts[PROBIT_STATUS] != PROBIT_CONVERGED) return 1;

    /* Its coordinates are means and variances. */
    const double *sd = fit + PROBIT_SD_0;
    double hessian[N][N], covariance[N][N], errors[N];
    memcpy(hessian, fit + PROBIT_HESSIAN, sizeof hessian);
    if (!inverse(N, hessian, covariance)) return 1;
    /* From variances to SDs: the derivative of a root is 1 / (2 SD). Rounding is evened out, so that the two halves
     * agree. */
    double slope[N] = {1, 1, 1 / (2 * sd[0]), 1 / (2 * sd[1])};
    for (int i = 0; i < N; i++)
        for (int j = 0; j <= i; j++) covariance[i][j] = covariance[j][i] = slope[i] * slope[j] * (covariance[i][j] + covariance[j][i]) / 2;
    for (int i = 0; i < N; i++) errors[i] = sqrt(covariance[i][i]);

    /* The means may have either sign and are not marked. */
    uint64_t marks = 1 << PROBIT_SD_0 | 1 << PROBIT_SD_1;
    end = probit_intervals(fit, N, covariance[0], N * N, errors, N, marks, numbers, PROBIT_INTERVALS_NUMBERS);
    printf("intervals: %s\n", probit_ending_name(end));
    for (int i = 0; i < N; i++) {
        const double *v = numbers + PROBIT_INTERVAL * i;
        printf("%s %d  %9.6f  standard error %.6f", i < 2 ? "mean" : "SD  ", i % 2, fit[i], errors[i]);
        if (marks >> i & 1) printf("  in the log %.6f  from %.6f to %.6f", v[PROBIT_LOG_ERROR], v[PROBIT_LOWER], v[PROBIT_UPPER]);
        printf("\n");
    }
    return end != PROBIT_ANSWERED;
}
