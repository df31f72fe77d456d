/* A partner's fit vetted. vet < TEXT: a request as the text program reads it, then the three lines of a claim, its
 * numbers in decimal.
 * Says the verdict on the claim, and what the objective has at the claimed point; then fits the request, and vets
 * what the fit reports.
 * Exit status: 1 the fit's own claim is not accepted with its own norm, 2 the text is not as above or the request has
 * no converged fit. */
#include <stdio.h>
#include <string.h>

#include "probit.h"
#include "probit_names.h"

static double bounds[PROBIT_BOUNDS], tolerance;
static uint64_t asked[PROBIT_REQUEST_NUMBERS];
static uint32_t litters[PROBIT_REQUEST_LITTERS];
static size_t length;

static uint64_t vetted(const char *whose, const double *claimed, double *numbers) {
    uint64_t counts[PROBIT_VET_COUNTS];
    uint64_t end = probit_vet(bounds, PROBIT_BOUNDS, tolerance, asked[PROBIT_REQUEST_EVALUATIONS], asked[PROBIT_REQUEST_ITERATIONS], asked[PROBIT_REQUEST_QUADRATURE],
                              litters, length, claimed, PROBIT_CLAIM, numbers, PROBIT_VET_NUMBERS, counts, PROBIT_VET_COUNTS);
    printf("%s: %s (%llu)\n", whose, end == PROBIT_ANSWERED ? "accepted" : probit_ending_name(end), (unsigned long long)end);
    return end;
}

int main(void) {
    static uint8_t held[PROBIT_HELD];
    static char text[PROBIT_HELD + 1];
    uint64_t parts[PROBIT_PART_COUNTS] = {0}, counts[PROBIT_FIT_COUNTS];
    double claimed[PROBIT_CLAIM], numbers[PROBIT_VET_NUMBERS], at[PROBIT_OBJECTIVE_NUMBERS], fit[PROBIT_FIT_NUMBERS];
    size_t n = fread(text, 1, PROBIT_HELD, stdin);
    const char *claim = strstr(text, "\nclaim mean ");
    if (n > PROBIT_MAX_REQUEST || !claim || sscanf(claim, "\nclaim mean %lf %lf\nclaim variance %lf %lf\nclaim nll %lf", claimed, claimed + 1, claimed + 2, claimed + 3, claimed + 4) != 5)
        return 2;
    probit_part(held, PROBIT_HELD, parts, PROBIT_PART_COUNTS, (const uint8_t *)text, claim + 1 - text);
    if (probit_finish(held, PROBIT_HELD, parts, PROBIT_PART_COUNTS, asked, PROBIT_REQUEST_NUMBERS, litters, PROBIT_REQUEST_LITTERS) != PROBIT_ANSWERED) return 2;
    memcpy(bounds, asked + PROBIT_REQUEST_BOUNDS, sizeof bounds);
    memcpy(&tolerance, asked + PROBIT_REQUEST_TOLERANCE, sizeof tolerance);
    length = PROBIT_LITTER_NUMBERS * asked[PROBIT_REQUEST_COUNT];

    vetted("the claim", claimed, numbers);
    if (probit_objective(claimed, PROBIT_POINT, litters, length, at, PROBIT_OBJECTIVE_NUMBERS, counts, PROBIT_OBJECTIVE_COUNTS) == PROBIT_ANSWERED) {
        printf("  claimed is a likelihood of %.17g; the objective there has %.17g\n  its slopes there: %.3g %.3g %.3g %.3g; the tolerance: %.3g\n", claimed[PROBIT_CLAIM_NLL],
               at[PROBIT_OBJECTIVE_NLL], at[1], at[2], at[3], at[4], tolerance);
        claimed[PROBIT_CLAIM_NLL] = at[PROBIT_OBJECTIVE_NLL];
        vetted("the claimed point, with its likelihood here", claimed, numbers);
    }

    if (probit_fit(bounds, PROBIT_BOUNDS, tolerance, asked[PROBIT_REQUEST_EVALUATIONS], asked[PROBIT_REQUEST_ITERATIONS], asked[PROBIT_REQUEST_QUADRATURE], litters, length, fit,
                   PROBIT_FIT_NUMBERS, counts, PROBIT_FIT_COUNTS) != PROBIT_ANSWERED || counts[PROBIT_STATUS] != PROBIT_CONVERGED) return 2;
    double own[PROBIT_CLAIM] = {fit[PROBIT_MEAN_0], fit[PROBIT_MEAN_1], fit[PROBIT_VARIANCE_0], fit[PROBIT_VARIANCE_1], fit[PROBIT_NLL]};
    if (vetted("our own fit", own, numbers) != PROBIT_ANSWERED || numbers[PROBIT_VET_NLL] != fit[PROBIT_NLL] || numbers[PROBIT_VET_NORM] != fit[PROBIT_NORM]) return 1;
    printf("  likelihood %.17g, norm %.3g: those that it reports\n", numbers[PROBIT_VET_NLL], numbers[PROBIT_VET_NORM]);
    return 0;
}
