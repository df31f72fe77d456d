/* The stack that each exported function takes: the bytes below the top of a painted stack that a call, with its
 * caller, left changed, over several requests.
 * Exit status: 1 more than docs/EMBEDDING.md says, 2 a study does not end as it is meant to. */
#include <stdio.h>
#include <stdlib.h>
#include <string.h>
#include <ucontext.h>

#include "probit.h"

enum { STACK = 1 << 20, PAINT = 0xa5, MOST = 128, SAID = 16384 };

static unsigned char stack[STACK] __attribute__((aligned(64)));
static ucontext_t here, there;

static uint32_t litters[3 * MOST];
static size_t litters_len;
static double bounds[PROBIT_BOUNDS], point[PROBIT_POINT], numbers[PROBIT_FIT_NUMBERS];
static uint64_t counts[PROBIT_FIT_COUNTS], quadrature, end;
static char request[8193];
static size_t request_len;
static uint8_t out[PROBIT_TEXT];

static void fit(void) {
    end = probit_fit(bounds, PROBIT_BOUNDS, 1e-6, 200, 200, quadrature, litters, litters_len, numbers, PROBIT_FIT_NUMBERS, counts, PROBIT_FIT_COUNTS);
}

static uint64_t reasons[PROBIT_WHY];

static void why(void) {
    probit_why(bounds, PROBIT_BOUNDS, 1e-6, 200, 200, quadrature, litters, litters_len, 2, numbers, PROBIT_FIT_NUMBERS, counts, PROBIT_FIT_COUNTS, reasons, PROBIT_WHY);
}

static void objective(void) {
    probit_objective(point, PROBIT_POINT, litters, litters_len, numbers, PROBIT_OBJECTIVE_NUMBERS, counts, PROBIT_OBJECTIVE_COUNTS);
}

/* the start claimed, with its likelihood: so the norm is reached */
static void vet(void) {
    double claimed[PROBIT_CLAIM] = {point[0], point[1], point[2], point[3], 0};
    probit_objective(point, PROBIT_POINT, litters, litters_len, numbers, PROBIT_OBJECTIVE_NUMBERS, counts, PROBIT_OBJECTIVE_COUNTS);
    claimed[PROBIT_CLAIM_NLL] = numbers[PROBIT_OBJECTIVE_NLL];
    probit_vet(bounds, PROBIT_BOUNDS, 1e-6, 200, 200, quadrature, litters, litters_len, claimed, PROBIT_CLAIM, numbers, PROBIT_VET_NUMBERS, counts, PROBIT_VET_COUNTS);
}

static void summary(void) { probit_summary(litters, litters_len, counts, PROBIT_SUMMARY_COUNTS); }
static void text(void) { probit_text((uint8_t *)request, request_len, out, sizeof out); }

/* a state that is lent, and what a finishing call fills */
static uint8_t held[PROBIT_HELD];
static uint64_t parts[PROBIT_PART_COUNTS], asked[PROBIT_REQUEST_NUMBERS];
static uint32_t rows[PROBIT_REQUEST_LITTERS];

static void begin(void) { memset(held, 0, sizeof held), memset(parts, 0, sizeof parts); }
static void part(void) { probit_part(held, PROBIT_HELD, parts, PROBIT_PART_COUNTS, (uint8_t *)request, request_len); }
static void finish(void) { probit_finish(held, PROBIT_HELD, parts, PROBIT_PART_COUNTS, asked, PROBIT_REQUEST_NUMBERS, rows, PROBIT_REQUEST_LITTERS); }
static void answer(void) { probit_answer(held, PROBIT_HELD, parts, PROBIT_PART_COUNTS, out, sizeof out); }

/* two estimates, both marked */
static const double estimates[2] = {0.25, 1.0}, covariance[4] = {0.04, 0.01, 0.01, 0.09}, errors[2] = {0.2, 0.3};
static double ends[PROBIT_INTERVALS_NUMBERS];

static void intervals(void) { probit_intervals(estimates, 2, covariance, 4, errors, 2, 3, ends, PROBIT_INTERVALS_NUMBERS); }

/* an archive of the study's litters, as often as its 4,096 hold them; the range reads 63 litters at each end where
 * there are as many */
static uint32_t past[3 * PROBIT_MAX_ARCHIVE];
static uint8_t archive[PROBIT_MAX_ARCHIVE_BYTES];
static size_t kept;

static void keep(void) {
    kept = PROBIT_MAX_ARCHIVE - PROBIT_MAX_ARCHIVE % (litters_len / 3);
    for (size_t i = 0; i < 3 * kept; i++) past[i] = litters[i % litters_len];
    if (probit_archive_write(past, 3 * kept, archive, sizeof archive) || probit_archive_check(archive, probit_archive_size(kept)) != 1) exit(2);
}

static void size(void) { kept += probit_archive_size(kept) == 0; }
static void writes(void) { probit_archive_write(past, 3 * kept, archive, sizeof archive); }
static void range(void) { probit_archive_range(archive, probit_archive_size(kept), 63, kept - 1, counts, PROBIT_SUMMARY_COUNTS); }
static void check(void) { probit_archive_check(archive, probit_archive_size(kept)); }

/* events of the study's litters, their pups as exposures; a fit to its end, and the objective at its start */
static const double box[PROBIT_COUNTS_BOUNDS] = {1e-3, 1e3, 1, 1e-3, 1e3, 1};
static uint32_t events[MOST];
static double exposures[MOST];

static void tally(void) {
    for (size_t i = 0; i < litters_len / 3; i++) events[i] = litters[3 * i + PROBIT_AFFECTED], exposures[i] = litters[3 * i + PROBIT_PUPS];
}

static void counts_fit(void) {
    if (probit_counts_fit(box, PROBIT_COUNTS_BOUNDS, 1e-6, 200, 200, events, litters_len / 3, exposures, litters_len / 3, numbers, PROBIT_COUNTS_FIT_NUMBERS, counts, PROBIT_COUNTS_FIT_COUNTS)) exit(2);
}
static void counts_objective(void) {
    if (probit_counts_objective(1, 1, events, litters_len / 3, exposures, litters_len / 3, numbers, PROBIT_COUNTS_OBJECTIVE_NUMBERS, counts, PROBIT_COUNTS_OBJECTIVE_COUNTS)) exit(2);
}

static size_t taken(void (*f)(void)) {
    size_t clean = 0;
    memset(stack, PAINT, sizeof stack);
    getcontext(&there);
    there.uc_stack.ss_sp = stack;
    there.uc_stack.ss_size = sizeof stack;
    there.uc_link = &here;
    makecontext(&there, f, 0);
    if (swapcontext(&here, &there))
        exit(2);
    while (clean < sizeof stack && stack[clean] == PAINT)
        clean++;
    return sizeof stack - clean;
}

static uint64_t bits(double x) {
    uint64_t n;
    memcpy(&n, &x, sizeof n);
    return n;
}

/* n litters of 5 to 13 pups, affected by halves; the same numbers in each run */
static void study(size_t n, double mean, double sd, uint64_t limit) {
    static const char *const names[] = {"mean 0", "mean 1", "sd 0", "sd 1"};
    uint64_t s = n;
    size_t first;
    litters_len = 3 * n;
    quadrature = limit;
    for (size_t i = 0; i < n; i++) {
        uint32_t total, affected = 0;
        s = s * 6364136223846793005u + 1442695040888963407u;
        total = 5 + (s >> 33) % 9;
        for (uint32_t k = 0; k < total; k++)
            affected += (s >> (20 + k)) & 1;
        litters[3 * i] = affected, litters[3 * i + 1] = total, litters[3 * i + 2] = i % 2;
    }
    for (int i = 0; i < 4; i++) {
        double *b = bounds + 3 * i;
        b[0] = i < 2 ? -8 : 0, b[1] = i < 2 ? 8 : 3, b[2] = i < 2 ? (i ? mean : -mean) : sd;
        point[i] = i < 2 ? b[2] : sd * sd;
    }
    request_len = sprintf(request, "probit-request 1\n");
    for (int i = 0; i < 4; i++)
        request_len += sprintf(request + request_len, "%s %016lx %016lx %016lx\n", names[i], bits(bounds[3 * i]), bits(bounds[3 * i + 1]), bits(bounds[3 * i + 2]));
    request_len += sprintf(request + request_len, "work 200 200 %lu\ntolerance %016lx\n", limit, bits(1e-6));
    first = request_len;
    for (size_t i = 0; i < n; i++)
        request_len += sprintf(request + request_len, "litter %u %u %u\n", litters[3 * i + 2], litters[3 * i], litters[3 * i + 1]);
    request_len += sprintf(request + request_len, "rows %zu at %zu\n", n, first);
}

static const struct {
    const char *name;
    void (*f)(void);
} functions[] = {{"probit_fit", fit}, {"probit_why", why}, {"probit_objective", objective}, {"probit_vet", vet}, {"probit_summary", summary}, {"probit_text", text},
                 {"probit_part", part}, {"probit_finish", finish}, {"probit_answer", answer},
                 {"probit_intervals", intervals}, {"probit_counts_fit", counts_fit}, {"probit_counts_objective", counts_objective},
                 {"probit_archive_size", size}, {"probit_archive_write", writes}, {"probit_archive_range", range}, {"probit_archive_check", check}};

static const struct {
    size_t n;
    double mean, sd;
    uint64_t limit, end;
} studies[] = {
    {4, 0, 0, 20000000, PROBIT_ANSWERED},       {32, 0.1, 0.5, 20000000, PROBIT_ANSWERED}, {MOST, 0.1, 0.5, 20000000, PROBIT_ANSWERED},
    {32, 0.1, 0.5, 1000, PROBIT_WORK_BUDGET},   {3, 0.1, 0.5, 1000, PROBIT_INVALID_INPUT}, {32, 4, 3, 20000000, PROBIT_ANSWERED},
};

int main(void) {
    size_t most = 0;
    for (size_t i = 0; i < sizeof functions / sizeof *functions; i++) {
        size_t worst = 0;
        for (size_t j = 0; j < sizeof studies / sizeof *studies; j++) {
            size_t n;
            study(studies[j].n, studies[j].mean, studies[j].sd, studies[j].limit);
            begin();
            keep();
            tally();
            if (functions[i].f == finish || functions[i].f == answer)
                part();
            n = taken(functions[i].f);
            if (i == 0 && end != studies[j].end) {
                printf("study %zu ends with %lu\n", j, end);
                return 2;
            }
            worst = n > worst ? n : worst;
        }
        printf("%-23s %6zu bytes\n", functions[i].name, worst);
        most = worst > most ? worst : most;
    }
    printf("stack: %zu bytes at most, %d are said to be enough\n", most, SAID);
    return most > SAID;
}
