/* The litter fit for hosts: a probit-normal binomial model of two groups; and a Gamma-Poisson model of events per exposure. docs/EMBEDDING.md says how to
 * build, link and read.
 *
 * A slice is a pointer and the number of its elements, in that order. The pointer is aligned as C has it for its type; the elements are there for
 * the whole call; no output overlaps an input or the other output. Nothing before or after the given elements is read or written.
 * With length 0 nothing is read or written at all, and the pointer may be null.
 *
 * Every value of every argument is answered: no call fails, none keeps state but in what the host lends, any number of threads may call at once.
 * The f64 arithmetic is the default one: round to nearest, subnormals kept, no exception trapped. docs/EMBEDDING.md says what a host has to keep.
 *
 * Order: version, limits, what answers are made of, then an entry at a time with its own lengths and places. Numbers are never given a second
 * meaning: what is added later gets numbers and names of its own.
 */
#ifndef PROBIT_H
#define PROBIT_H

#include <stddef.h>
#include <stdint.h>

#ifdef __cplusplus
extern "C" {
#endif

/* ---- The version of this interface: 1000 times the first number, and the second. The second rises when something is added, the first when something
 * here changes or goes. A library fits a host if its first number is the header's and its version is no less:
 *   probit_version() / 1000 == PROBIT_VERSION / 1000 && probit_version() >= PROBIT_VERSION */
#define PROBIT_VERSION 1008

uint64_t probit_version(void);

/* ---- Limits. A request past one is PROBIT_INVALID_INPUT. MAX is the highest that is taken, MIN the lowest; a count without a MIN begins at 1. */
#define PROBIT_MAX_LITTERS 128
#define PROBIT_MIN_LITTERS_A_GROUP 2 /* of a fit; the objective and the summary take one litter */
#define PROBIT_MAX_PUPS 1000         /* in one litter */
#define PROBIT_MAX_EVALUATIONS 1000
#define PROBIT_MAX_ITERATIONS 1000
#define PROBIT_MAX_QUADRATURE 20000000
#define PROBIT_MAX_MEAN 8.0 /* means lie within [-8, 8] */
#define PROBIT_MAX_SD 3.0   /* SDs within [0, 3] */
#define PROBIT_MAX_VARIANCE 9.0
#define PROBIT_MAX_REQUEST 8192 /* bytes of a request's text; a longer one is Form */

/* ---- Litters stand one after the other, PROBIT_LITTER_NUMBERS numbers each: the affected pups, all pups, the group, at the places below.
 * A litter line of the text has the group first: group, affected, pups. Group 0 is the control, group 1 the treated.
 * Pups are 1 to PROBIT_MAX_PUPS, affected at most pups. Anything else, a rest of one or two numbers too, is PROBIT_INVALID_INPUT. */
#define PROBIT_LITTER_NUMBERS 3

enum { PROBIT_AFFECTED, PROBIT_PUPS, PROBIT_GROUP };

/* ---- How a call ended: the value of probit_fit, probit_objective, probit_summary, probit_vet and the two of counts, and the number after `refused` in an answer's text.
 * probit_names.h has these, the reasons and the statuses in words, for a log. */
enum {
    PROBIT_ANSWERED = 0,
    PROBIT_INVALID_INPUT = 1, /* a length, a bound, a limit or a litter is not as asked; no evaluation was made */
    PROBIT_DOMAIN = 2,        /* the numbers led nowhere; the reason is one of those below */
    PROBIT_WORK_BUDGET = 3,   /* the limit of quadrature evaluations was met before the answer */
    PROBIT_FORM = 4,          /* in text and archives: the request has not the form, and a line's number stands for the reason; of an archive the line is 0 */
    PROBIT_OUTSIDE_BOX = 5,   /* of a claim alone: a coordinate outside its box, or a NaN; no evaluation was made */
    PROBIT_LIKELIHOOD_DIFFERS = 6, /* of a claim alone: the objective there has another likelihood than the claimed one */
    PROBIT_NORM_ABOVE = 7,    /* of a claim alone: the projected gradient's norm there is above the tolerance */
    PROBIT_UNSUPPORTED = 8    /* of intervals alone: an interval that is not finite, positive and increasing */
};

/* ---- The reason of PROBIT_DOMAIN; 0 with every other ending. */
enum {
    PROBIT_NO_REASON = 0,
    PROBIT_MODE_NOT_BRACKETED = 1,
    PROBIT_MODE_NOT_CONVERGED = 2,
    PROBIT_TAIL_NOT_BOUNDED = 3, /* by a finite number at most its goal */
    PROBIT_NOT_FINITE = 4, /* an integral or a derivative, or the integral is not above zero */
    PROBIT_REFINEMENT_NOT_CONVERGED = 5,
    PROBIT_TOTAL_NOT_FINITE = 6 /* of no litter or row: an entry of the likelihood, the gradient or the Hessian, with all of them summed */
};

/* ---- How an answered fit stopped; a refusal has PROBIT_NO_STATUS. */
enum {
    PROBIT_NO_STATUS = 0,
    PROBIT_CONVERGED = 1, /* exactly if the reported norm is at most the tolerance */
    PROBIT_EVALUATION_LIMIT = 2,
    PROBIT_ITERATION_LIMIT = 3,
    PROBIT_LINE_SEARCH_FAILED = 4
};

/* ---- The fit.
 *
 * bounds: PROBIT_BOUNDS numbers: low, high and start of the mean of group 0, of the mean of group 1, of the SD of group 0, of the SD of group 1.
 *   All are finite, low < high, low <= start <= high; an SD's low and high still differ when squared.
 * tolerance: of the projected gradient's norm; finite and above 0.
 * evaluations, iterations: of the objective and of the descent. Meeting one ends the fit with a status, and the answer so far.
 * quadrature: of evaluations of the integrand. Meeting it is PROBIT_WORK_BUDGET.
 * litters: at least PROBIT_MIN_LITTERS_A_GROUP of each group.
 *
 * numbers (PROBIT_FIT_NUMBERS or more) and counts (PROBIT_FIT_COUNTS or more) get the answer at the places below; elements after them are left as
 * they were. A refusal puts zeros, but for its quadrature evaluations and its reason.
 * With fewer numbers, but PROBIT_FIT_FIRST_NUMBERS or more, the first so many are written and the rest is left as it was: all that version 1002 had.
 * Where bounds_len is not PROBIT_BOUNDS, or a buffer is too short, the value is PROBIT_INVALID_INPUT and nothing is written. */
#define PROBIT_BOUNDS 12
#define PROBIT_FIT_NUMBERS 28
#define PROBIT_FIT_FIRST_NUMBERS 6
#define PROBIT_FIT_COUNTS 10

/* places in numbers, the first of each. The coordinates of gradient (4) and Hessian (16, by rows) are mean 0, mean 1, variance 0, variance 1.
 * probit_objective at the means and the variances gives this likelihood, gradient and Hessian to the bit. The SD is a rounded root: its square may
 * be another number than the variance. */
enum {
    PROBIT_MEAN_0,
    PROBIT_MEAN_1,
    PROBIT_SD_0,
    PROBIT_SD_1,
    PROBIT_NLL,
    PROBIT_NORM,
    PROBIT_VARIANCE_0,
    PROBIT_VARIANCE_1,
    PROBIT_GRADIENT = 8,
    PROBIT_HESSIAN = 12
};

/* places in counts; a mark is 1 where that coordinate lies on one of its bounds, else 0 */
enum {
    PROBIT_STATUS,
    PROBIT_EVALUATIONS, /* of the objective */
    PROBIT_ITERATIONS,
    PROBIT_QUADRATURE, /* evaluations of the integrand */
    PROBIT_LITTER_COUNT,
    PROBIT_REASON,
    PROBIT_MEAN_0_ON_BOUND,
    PROBIT_MEAN_1_ON_BOUND,
    PROBIT_SD_0_ON_BOUND,
    PROBIT_SD_1_ON_BOUND
};

uint64_t probit_fit(const double *bounds, size_t bounds_len, double tolerance, uint64_t evaluations, uint64_t iterations, uint64_t quadrature,
                    const uint32_t *litters, size_t litters_len, double *numbers, size_t numbers_len, uint64_t *counts, size_t counts_len);

/* ---- Why the fit took its steps: probit_fit, and beside it a trial of its line searches and what stopped it (docs/WHY.md is a page for a help desk).
 *
 * number: of the trial, counted from 1 over the whole fit, at most PROBIT_MAX_TRIALS. All other arguments, numbers and counts, and the value, as those of
 *   probit_fit: the fit and its counts are the same.
 * reasons (PROBIT_WHY or more): at the places below. The trial's part is PROBIT_INVALID_INPUT with count 0 where no trial has that number, as 0 and the
 *   number after the last; the refused trial is the last, with the fit's own refusal, count and reason. The other parts stand whatever the number is.
 * Where a length is wrong or a buffer too short, the value is PROBIT_INVALID_INPUT and nothing is written. */
#define PROBIT_MAX_TRIALS 48000
#define PROBIT_WHY 7

/* places in reasons */
enum {
    PROBIT_WHY_TRIAL,        /* what the trial came to, one of those below */
    PROBIT_WHY_BITS,         /* the bits of the number that decided it, an f64; 0 where none did */
    PROBIT_WHY_TRIAL_ENDING, /* PROBIT_ANSWERED where it was made, else the refusal */
    PROBIT_WHY_TRIAL_COUNT,
    PROBIT_WHY_TRIAL_REASON,
    PROBIT_WHY_TEST,  /* the test that stopped the fit, one of those below */
    PROBIT_WHY_LITTER /* the litter at which the fit was refused, counted from 1; 0 where none was */
};

/* what a trial came to, and the number that decided it */
enum {
    PROBIT_NO_TRIAL = 0,
    PROBIT_NOT_DOWNHILL = 1, /* the slope */
    PROBIT_NOT_MOVED = 2,    /* by proof met by no fit */
    PROBIT_TOO_LITTLE = 3,   /* the candidate's likelihood less the bound it missed */
    PROBIT_BY_DECREASE = 4,  /* taken; the slope */
    PROBIT_BY_ROUNDING = 5,  /* taken; the rounding allowance */
    PROBIT_CUT_OFF = 6,      /* by the limit of evaluations of the objective */
    PROBIT_TRIAL_REFUSED = 7
};

/* the test that stopped a fit; a refusal has PROBIT_NO_TEST */
enum {
    PROBIT_NO_TEST = 0,
    PROBIT_TEST_NORM = 1,        /* at the head: the norm is at most the tolerance */
    PROBIT_TEST_EVALUATIONS = 2, /* at the head: the evaluations are spent */
    PROBIT_TEST_ITERATIONS = 3,  /* at the head: the iterations are spent */
    PROBIT_TEST_HALVINGS = 4,    /* 48 trials without a step; the status says whether the evaluations are spent too */
    PROBIT_TEST_CUT_OFF = 5      /* the evaluations were spent before the 48 trials were made */
};

uint64_t probit_why(const double *bounds, size_t bounds_len, double tolerance, uint64_t evaluations, uint64_t iterations, uint64_t quadrature,
                    const uint32_t *litters, size_t litters_len, uint64_t number, double *numbers, size_t numbers_len, uint64_t *counts,
                    size_t counts_len, uint64_t *reasons, size_t reasons_len);

/* ---- The objective at one point: the negative log-likelihood with its derivatives.
 *
 * point: PROBIT_POINT numbers: mean 0, mean 1, variance 0, variance 1.
 * litters: one is enough.
 *
 * numbers (PROBIT_OBJECTIVE_NUMBERS or more): the value, the gradient (4), the Hessian by rows (16), the largest refinement.
 * counts (PROBIT_OBJECTIVE_COUNTS or more): the evaluations of the integrand, the reason.
 * Refusals and lengths as above. The limit is PROBIT_OBJECTIVE_QUADRATURE evaluations, which no valid request reaches. */
#define PROBIT_POINT 4
#define PROBIT_OBJECTIVE_NUMBERS 22
#define PROBIT_OBJECTIVE_COUNTS 2
#define PROBIT_OBJECTIVE_QUADRATURE 8388608

/* places in numbers, the first of each, and in counts */
enum { PROBIT_OBJECTIVE_NLL = 0, PROBIT_OBJECTIVE_GRADIENT = 1, PROBIT_OBJECTIVE_HESSIAN = 5, PROBIT_OBJECTIVE_REFINEMENT = 21 };
enum { PROBIT_OBJECTIVE_EVALUATED = 0, PROBIT_OBJECTIVE_REASON = 1 };

uint64_t probit_objective(const double *point, size_t point_len, const uint32_t *litters, size_t litters_len, double *numbers, size_t numbers_len,
                          uint64_t *counts, size_t counts_len);

/* ---- Another tool's fit, vetted: is what it claims converged here?
 *
 * bounds, tolerance, the three limits and litters: a request, as of probit_fit, and checked in full as there; past its checks no limit is read.
 * claimed: PROBIT_CLAIM numbers: mean 0, mean 1, variance 0, variance 1, the negative log-likelihood.
 *
 * PROBIT_ANSWERED: accepted. The four coordinates lie in their boxes, ends included; the objective is answered there; its likelihood has the claimed
 *   bits; the projected gradient's norm is at most the tolerance. A fit of probit_fit that converged is accepted, with its own norm.
 * Else the first of these that holds: PROBIT_INVALID_INPUT, PROBIT_OUTSIDE_BOX, PROBIT_DOMAIN, PROBIT_LIKELIHOOD_DIFFERS, PROBIT_NORM_ABOVE.
 * Coordinates are compared as numbers: -0 lies at +0. Likelihoods by their bits: -0 and +0 differ, and any NaN is any other.
 *
 * numbers (PROBIT_VET_NUMBERS or more): likelihood and norm; zeros beside a refusal. counts (PROBIT_VET_COUNTS or more): the evaluations of the
 *   integrand, none with PROBIT_INVALID_INPUT and PROBIT_OUTSIDE_BOX, and the reason. Elements after them are left as they were.
 * Where bounds_len is not PROBIT_BOUNDS, claimed_len not PROBIT_CLAIM, or a buffer is too short, the value is PROBIT_INVALID_INPUT and nothing is written. */
#define PROBIT_CLAIM 5
#define PROBIT_VET_NUMBERS 2
#define PROBIT_VET_COUNTS 2

/* places in claimed, in numbers and in counts */
enum { PROBIT_CLAIM_MEAN_0, PROBIT_CLAIM_MEAN_1, PROBIT_CLAIM_VARIANCE_0, PROBIT_CLAIM_VARIANCE_1, PROBIT_CLAIM_NLL };
enum { PROBIT_VET_NLL, PROBIT_VET_NORM };
enum { PROBIT_VET_EVALUATED, PROBIT_VET_REASON };

uint64_t probit_vet(const double *bounds, size_t bounds_len, double tolerance, uint64_t evaluations, uint64_t iterations, uint64_t quadrature,
                    const uint32_t *litters, size_t litters_len, const double *claimed, size_t claimed_len, double *numbers, size_t numbers_len,
                    uint64_t *counts, size_t counts_len);

/* ---- The group summary.
 *
 * counts (PROBIT_SUMMARY_COUNTS or more): of group 0 the litters, affected pups, all pups, and extreme litters, those with none or all of their pups affected, at the places below;
 *   the same of group 1, PROBIT_SUMMARY_GROUP places on.
 * Litters that are not valid give PROBIT_INVALID_INPUT and zeros; a buffer that is too short PROBIT_INVALID_INPUT, and nothing is written. */
#define PROBIT_SUMMARY_COUNTS 8
#define PROBIT_SUMMARY_GROUP 4

enum { PROBIT_SUMMARY_LITTERS, PROBIT_SUMMARY_AFFECTED, PROBIT_SUMMARY_PUPS, PROBIT_SUMMARY_EXTREME };

uint64_t probit_summary(const uint32_t *litters, size_t litters_len, uint64_t *counts, size_t counts_len);

/* ---- Log-Wald intervals: the 95 percent intervals of estimates that are positive by their nature, as SDs are.
 *
 * estimates: 1 to PROBIT_MAX_ESTIMATES. covariance: by rows, as many rows and columns. errors: their standard errors, the roots of its diagonal.
 * marks: bit i marks estimate i as of positive domain. At least one is marked, none past the last. What is not marked is not looked at.
 *
 * numbers (PROBIT_INTERVALS_NUMBERS or more): PROBIT_INTERVAL places an estimate, zeros where it is not marked.
 * PROBIT_INVALID_INPUT, and zeros: a covariance that is not finite, symmetric and positive definite, or a standard error that is not positive or
 *   does not agree with its diagonal; then, marked estimate by marked estimate in their order, one that is not finite and positive.
 * PROBIT_UNSUPPORTED, and zeros: an interval that is not finite, positive and increasing, at its place in that order.
 * Where a length, the dimension or the marks are not as above, the value is PROBIT_INVALID_INPUT and nothing is written. */
#define PROBIT_MAX_ESTIMATES 8
#define PROBIT_INTERVALS_NUMBERS 24
#define PROBIT_INTERVAL 3

enum { PROBIT_LOG_ERROR, PROBIT_LOWER, PROBIT_UPPER };

uint64_t probit_intervals(const double *estimates, size_t estimates_len, const double *covariance, size_t covariance_len, const double *errors,
                          size_t errors_len, uint64_t marks, double *numbers, size_t numbers_len);

/* ---- Archives: up to PROBIT_MAX_ARCHIVE past litters in bytes, with totals in between, so that the summary between two positions is found
 * without walking along them (docs/FORMAT.md has the layout). Litters are counted from 0. The limit of a fit, PROBIT_MAX_LITTERS, does not apply. */
#define PROBIT_MAX_ARCHIVE 4096
#define PROBIT_MAX_ARCHIVE_BYTES 51212

/* The bytes of an archive of that many litters; 0 for more than PROBIT_MAX_ARCHIVE. */
size_t probit_archive_size(size_t litters);

/* Writes the archive of these litters; bytes past it are left as they were. No litter at all is an archive too.
 * PROBIT_INVALID_INPUT, and nothing is written: a litter that is not valid, a rest of one or two numbers, more than PROBIT_MAX_ARCHIVE litters, or
 *   fewer bytes than probit_archive_size says. */
uint64_t probit_archive_write(const uint32_t *litters, size_t litters_len, uint8_t *archive, size_t archive_len);

/* The summary from one position up to but not including another. It reads the trailer, and for each position at most one of the totals and 63 litters.
 *
 * counts (PROBIT_SUMMARY_COUNTS or more): as those of probit_summary. Every refusal but a short buffer puts zeros there; the first that holds is answered:
 *   PROBIT_FORM: the bytes have not the shape of an archive;
 *   PROBIT_INVALID_INPUT: from is above to, or to above the number of litters; then, one of the litters read is not valid;
 *   PROBIT_FORM: a sum past 32 bits, or a difference below 0, as totals that are not right may give.
 * What is not read is not judged: probit_archive_check does that. A buffer that is too short is PROBIT_INVALID_INPUT, and nothing is written. */
uint64_t probit_archive_range(const uint8_t *archive, size_t archive_len, size_t from, size_t to, uint64_t *counts, size_t counts_len);

/* 1 where the archive's shape, every litter and all totals are right, else 0. Of such an archive every range is what probit_summary would count. */
uint64_t probit_archive_check(const uint8_t *archive, size_t archive_len);

/* ---- Counts per exposure: events, each row's over an exposure of its own, as incidents over months of service. A row's rate is drawn from a Gamma
 * distribution with this shape and rate, its events are Poisson with that rate times the exposure. The mean of the rates is shape / rate.
 * The rows' rates are integrated out: what is left is a negative binomial of size shape and mean exposure * shape / rate.
 *
 * events, exposures: as many of each, a row's at one position. Exposures and rates are finite and above 0, all in one unit: which, the host knows.
 * A pass is one turn of the inner loop, one for each event of each row at each evaluation of the objective: so events times evaluations.
 * Refusals put zeros, but for the passes made and the reason. PROBIT_INVALID_INPUT: what is asked here does not hold, and no pass was made; with another
 * number of exposures than events too. PROBIT_DOMAIN with PROBIT_TOTAL_NOT_FINITE, and no other reason.
 * Where bounds_len is not PROBIT_COUNTS_BOUNDS, or a buffer is too short, the value is PROBIT_INVALID_INPUT and nothing is written.
 * Elements after the places are left as they were. */
#define PROBIT_COUNTS_MIN_SHAPE 1e-8
#define PROBIT_COUNTS_MAX_SHAPE 1e6
#define PROBIT_COUNTS_MIN_ROWS 2 /* of a fit; the objective takes one row */
#define PROBIT_COUNTS_MAX_ROWS 4096
#define PROBIT_COUNTS_MAX_EVENTS 1000000 /* in all rows together */
#define PROBIT_COUNTS_MAX_EVALUATIONS 10000
#define PROBIT_COUNTS_MAX_ITERATIONS 10000
#define PROBIT_COUNTS_MAX_PRODUCT 20000000 /* of a fit: events and rows together, times its limit of evaluations; its passes are no more */

/* The fit.
 *
 * bounds: PROBIT_COUNTS_BOUNDS numbers: low, high and start of the shape, then of the rate. low < high, and so their logarithms; low <= start <= high.
 *   The shape's lie from PROBIT_COUNTS_MIN_SHAPE to PROBIT_COUNTS_MAX_SHAPE.
 * tolerance: of the projected gradient's norm, in log(shape) and log(rate); finite and above 0.
 * evaluations, iterations: of the objective and of the descent. Meeting one ends the fit with a status, and the answer so far. */
#define PROBIT_COUNTS_BOUNDS 6
#define PROBIT_COUNTS_FIT_NUMBERS 4
#define PROBIT_COUNTS_FIT_COUNTS 8

/* places in numbers, and in counts; a mark is 1 where that coordinate lies on one of its bounds, else 0 */
enum { PROBIT_COUNTS_SHAPE, PROBIT_COUNTS_RATE, PROBIT_COUNTS_NLL, PROBIT_COUNTS_NORM };
enum {
    PROBIT_COUNTS_STATUS,
    PROBIT_COUNTS_EVALUATIONS, /* of the objective */
    PROBIT_COUNTS_ITERATIONS,
    PROBIT_COUNTS_PASSES,
    PROBIT_COUNTS_ROWS,
    PROBIT_COUNTS_REASON,
    PROBIT_COUNTS_SHAPE_ON_BOUND,
    PROBIT_COUNTS_RATE_ON_BOUND
};

uint64_t probit_counts_fit(const double *bounds, size_t bounds_len, double tolerance, uint64_t evaluations, uint64_t iterations, const uint32_t *events,
                           size_t events_len, const double *exposures, size_t exposures_len, double *numbers, size_t numbers_len, uint64_t *counts,
                           size_t counts_len);

/* The objective at one point: the negative log-likelihood, its gradient (2) and Hessian (4, by rows) in log(shape) and log(rate). */
#define PROBIT_COUNTS_OBJECTIVE_NUMBERS 7
#define PROBIT_COUNTS_OBJECTIVE_COUNTS 2

/* places in numbers, the first of each, and in counts */
enum { PROBIT_COUNTS_OBJECTIVE_NLL = 0, PROBIT_COUNTS_OBJECTIVE_GRADIENT = 1, PROBIT_COUNTS_OBJECTIVE_HESSIAN = 3 };
enum { PROBIT_COUNTS_OBJECTIVE_PASSES = 0, PROBIT_COUNTS_OBJECTIVE_REASON = 1 };

uint64_t probit_counts_objective(double shape, double rate, const uint32_t *events, size_t events_len, const double *exposures, size_t exposures_len,
                                 double *numbers, size_t numbers_len, uint64_t *counts, size_t counts_len);

/* ---- The text entry: the bytes that the program probitfit reads, and those that it prints (docs/FORMAT.md).
 * A request begins
 *   probit-request 1
 *   mean 0 -8.0 8.0 0.0
 * with each f64 in decimal, at most 17 digits, or as the 16 hexadecimal digits of its bits; an answer has the latter.
 *
 * The value is the length of the answer, which stands at the start of out, with no zero after it; the rest of out is left as it was.
 * Where out_len is below PROBIT_TEXT, the value is 0 and nothing is written. No answer of today has more than 343 bytes; the rest is room for
 * lines to come. */
#define PROBIT_TEXT 512

size_t probit_text(const uint8_t *request, size_t request_len, uint8_t *out, size_t out_len);

/* ---- A request that arrives in parts: probit_part for each, empty ones too, then a finishing call: probit_answer for the answer's bytes,
 * probit_finish for the request itself, or one after the other. Cut the bytes anywhere: both say what they say of the joined bytes.
 *
 * The state is the host's: held (PROBIT_HELD bytes, one more than a request may have) and counts (PROBIT_PART_COUNTS), both set to zero to begin,
 * and again for the next request. A state that no call made so is read as what it says: a count of bytes above PROBIT_HELD stands for all of them,
 * and a mark other than 0 for a finished text. No state leads outside the slices.
 *
 * A finishing call sets the mark. Finishing again repeats the answer. A part after it is PROBIT_FORM, with line 0, for that call.
 * A state of another size is PROBIT_INVALID_INPUT, of probit_answer the value 0. In each of these cases nothing is written. */
#define PROBIT_HELD 8193
#define PROBIT_PART_COUNTS 2

/* places in counts */
enum { PROBIT_PART_BYTES, PROBIT_PART_FINISHED };

/* PROBIT_ANSWERED where the part was taken. */
uint64_t probit_part(uint8_t *held, size_t held_len, uint64_t *counts, size_t counts_len, const uint8_t *bytes, size_t bytes_len);

/* The value, out and PROBIT_TEXT as those of probit_text. */
size_t probit_answer(const uint8_t *held, size_t held_len, uint64_t *counts, size_t counts_len, uint8_t *out, size_t out_len);

/* PROBIT_ANSWERED where the text has the form, else PROBIT_FORM. Whether the request is a valid one, the fit says.
 *
 * request (PROBIT_REQUEST_NUMBERS or more): at the places below the line at which the text departs, the number of litters, the bounds in the order of
 *   probit_fit, the three limits and the tolerance; an f64 by its bits. Beside PROBIT_FORM zeros but for the line; else the line is 0.
 * litters (PROBIT_REQUEST_LITTERS or more): the litters in the order of probit_fit, and zeros; of more than PROBIT_MAX_LITTERS the first of them.
 *   Beside PROBIT_FORM those of the lines before the departure.
 * What stands after these places is left as it was. Where a buffer is too short, the value is PROBIT_INVALID_INPUT and nothing is written. */
#define PROBIT_REQUEST_NUMBERS 18
#define PROBIT_REQUEST_LITTERS 384 /* PROBIT_LITTER_NUMBERS for each of PROBIT_MAX_LITTERS */

/* places in request, the first of each */
enum {
    PROBIT_REQUEST_LINE = 0,
    PROBIT_REQUEST_COUNT = 1, /* of litters */
    PROBIT_REQUEST_BOUNDS = 2,
    PROBIT_REQUEST_EVALUATIONS = 14,
    PROBIT_REQUEST_ITERATIONS = 15,
    PROBIT_REQUEST_QUADRATURE = 16,
    PROBIT_REQUEST_TOLERANCE = 17
};

uint64_t probit_finish(const uint8_t *held, size_t held_len, uint64_t *counts, size_t counts_len, uint64_t *request, size_t request_len,
                       uint32_t *litters, size_t litters_len);

#ifdef __cplusplus
}
#endif

#endif
