/* Endings, reasons, statuses, trials and tests of probit.h in words, for a host's log. The statuses, trials and tests are those that the programs' text has.
 * A number that has no name is "unknown". The strings last for the whole program; nothing is allocated. */
#ifndef PROBIT_NAMES_H
#define PROBIT_NAMES_H

#include "probit.h"

static inline const char *probit_ending_name(uint64_t ending) {
    switch (ending) {
    case PROBIT_ANSWERED: return "answered";
    case PROBIT_INVALID_INPUT: return "invalid input";
    case PROBIT_DOMAIN: return "domain";
    case PROBIT_WORK_BUDGET: return "work budget";
    case PROBIT_FORM: return "form";
    case PROBIT_OUTSIDE_BOX: return "outside the box";
    case PROBIT_LIKELIHOOD_DIFFERS: return "likelihood differs";
    case PROBIT_NORM_ABOVE: return "norm above tolerance";
    case PROBIT_UNSUPPORTED: return "unsupported";
    default: return "unknown";
    }
}

static inline const char *probit_reason_name(uint64_t reason) {
    switch (reason) {
    case PROBIT_NO_REASON: return "none";
    case PROBIT_MODE_NOT_BRACKETED: return "mode not bracketed";
    case PROBIT_MODE_NOT_CONVERGED: return "mode not converged";
    case PROBIT_TAIL_NOT_BOUNDED: return "tail not bounded";
    case PROBIT_NOT_FINITE: return "not finite";
    case PROBIT_REFINEMENT_NOT_CONVERGED: return "refinement not converged";
    case PROBIT_TOTAL_NOT_FINITE: return "total not finite";
    default: return "unknown";
    }
}

static inline const char *probit_status_name(uint64_t status) {
    switch (status) {
    case PROBIT_NO_STATUS: return "none";
    case PROBIT_CONVERGED: return "converged";
    case PROBIT_EVALUATION_LIMIT: return "evaluation-limit";
    case PROBIT_ITERATION_LIMIT: return "iteration-limit";
    case PROBIT_LINE_SEARCH_FAILED: return "line-search-failed";
    default: return "unknown";
    }
}

static inline const char *probit_trial_name(uint64_t trial) {
    switch (trial) {
    case PROBIT_NO_TRIAL: return "none";
    case PROBIT_NOT_DOWNHILL: return "not-downhill";
    case PROBIT_NOT_MOVED: return "not-moved";
    case PROBIT_TOO_LITTLE: return "too-little";
    case PROBIT_BY_DECREASE: return "by-decrease";
    case PROBIT_BY_ROUNDING: return "by-rounding";
    case PROBIT_CUT_OFF: return "cut-off";
    case PROBIT_TRIAL_REFUSED: return "refused";
    default: return "unknown";
    }
}

static inline const char *probit_test_name(uint64_t test) {
    switch (test) {
    case PROBIT_NO_TEST: return "none";
    case PROBIT_TEST_NORM: return "norm";
    case PROBIT_TEST_EVALUATIONS: return "evaluations";
    case PROBIT_TEST_ITERATIONS: return "iterations";
    case PROBIT_TEST_HALVINGS: return "halvings";
    case PROBIT_TEST_CUT_OFF: return "cut-off";
    default: return "unknown";
    }
}

#endif
