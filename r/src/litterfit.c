/* The engine's C interface for R: the fit with its curvature, the log-Wald intervals, the version. */
#include <R.h>
#include <Rinternals.h>
#include <R_ext/Rdynload.h>
#include <stdint.h>

#include "probit.h"

static SEXP reals(const double *from, int n) {
    SEXP out = PROTECT(allocVector(REALSXP, n));
    for (int i = 0; i < n; i++) REAL(out)[i] = from[i];
    UNPROTECT(1);
    return out;
}

static SEXP counted(const uint64_t *from, int n) {
    SEXP out = PROTECT(allocVector(REALSXP, n));
    for (int i = 0; i < n; i++) REAL(out)[i] = (double)from[i]; /* below 2^53 */
    UNPROTECT(1);
    return out;
}

/* bounds: 12 numbers. limits: evaluations, iterations, quadrature. litters: affected, pups, group of each.
 * Gives the ending, the numbers and the counts, at the places of probit.h. */
static SEXP fit(SEXP bounds, SEXP tolerance, SEXP limits, SEXP litters) {
    double numbers[PROBIT_FIT_NUMBERS] = {0};
    uint64_t counts[PROBIT_FIT_COUNTS] = {0};
    R_xlen_t n = XLENGTH(litters);
    uint32_t *rows = (uint32_t *)R_alloc(n > 0 ? n : 1, sizeof *rows);
    for (R_xlen_t i = 0; i < n; i++) rows[i] = (uint32_t)INTEGER(litters)[i];
    uint64_t ending = probit_fit(REAL(bounds), XLENGTH(bounds), asReal(tolerance), (uint64_t)REAL(limits)[0], (uint64_t)REAL(limits)[1],
                                 (uint64_t)REAL(limits)[2], rows, n, numbers, PROBIT_FIT_NUMBERS, counts, PROBIT_FIT_COUNTS);
    const char *names[] = {"ending", "numbers", "counts", ""};
    SEXP out = PROTECT(mkNamed(VECSXP, names));
    SET_VECTOR_ELT(out, 0, ScalarInteger((int)ending));
    SET_VECTOR_ELT(out, 1, reals(numbers, PROBIT_FIT_NUMBERS));
    SET_VECTOR_ELT(out, 2, counted(counts, PROBIT_FIT_COUNTS));
    UNPROTECT(1);
    return out;
}

/* Three numbers an estimate, as probit.h has them; a NULL where the engine refuses. */
static SEXP intervals(SEXP estimates, SEXP covariance, SEXP errors, SEXP marks) {
    double numbers[PROBIT_INTERVALS_NUMBERS] = {0};
    uint64_t ending = probit_intervals(REAL(estimates), XLENGTH(estimates), REAL(covariance), XLENGTH(covariance), REAL(errors), XLENGTH(errors),
                                       (uint64_t)asInteger(marks), numbers, PROBIT_INTERVALS_NUMBERS);
    return ending == PROBIT_ANSWERED ? reals(numbers, PROBIT_INTERVAL * (int)XLENGTH(estimates)) : R_NilValue;
}

/* The library's version; whether it fits the header is asked when the package is loaded. */
static SEXP version(void) {
    return ScalarInteger((int)probit_version());
}

static const R_CallMethodDef calls[] = {
    {"fit", (DL_FUNC)&fit, 4}, {"intervals", (DL_FUNC)&intervals, 4}, {"version", (DL_FUNC)&version, 0}, {NULL, NULL, 0}};

void R_init_litterfit(DllInfo *dll) {
    if (probit_version() / 1000 != PROBIT_VERSION / 1000 || probit_version() < PROBIT_VERSION) error("the engine's archive is older than its header");
    R_registerRoutines(dll, NULL, calls, NULL, NULL);
    R_useDynamicSymbols(dll, FALSE);
    R_forceSymbols(dll, TRUE);
}
