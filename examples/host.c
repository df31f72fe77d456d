/* A host in C: fits a small study through probit_fit, and through the text entry, which has to give the same bits.
 * host: the fit in words. host request: the study as the text program reads it. host answer: the fit as that program
 * prints it. */
#include <inttypes.h>
#include <stdio.h>
#include <string.h>

#include "probit.h"
#include "probit_names.h"

static const double bounds[PROBIT_BOUNDS] = {
    -3, 3, -1, /* mean 0: low, high, start */
    -3, 3, 0,  /* mean 1 */
    0, 2, 0.5, /* SD 0 */
    0, 2, 0.5, /* SD 1 */
};
static const double tolerance = 1e-6;
static const uint64_t evaluations = 200, iterations = 200, plenty = 20000000;

/* affected, pups, group */
static const uint32_t litters[] = {
    1, 12, 0, 0, 11, 0, 2, 13, 0, 1, 10, 0, 3, 14, 0, 0, 9, 0,
    6, 12, 1, 9, 13, 1, 3, 10, 1, 11, 12, 1, 5, 11, 1, 8, 14, 1,
};
enum { LITTERS = sizeof litters / sizeof *litters };

struct fit {
    uint64_t end;
    double numbers[PROBIT_FIT_NUMBERS];
    uint64_t counts[PROBIT_FIT_COUNTS];
};

static struct fit fit(uint64_t quadrature) {
    struct fit f;
    f.end = probit_fit(bounds, PROBIT_BOUNDS, tolerance, evaluations, iterations, quadrature, litters, LITTERS,
                       f.numbers, PROBIT_FIT_NUMBERS, f.counts, PROBIT_FIT_COUNTS);
    return f;
}

static int same(const struct fit *a, const struct fit *b) {
    return a->end == b->end && !memcmp(a->numbers, b->numbers, sizeof a->numbers) && !memcmp(a->counts, b->counts, sizeof a->counts);
}

/* A NaN's bits are left open by the fit; the text has one for all. */
static uint64_t bits(double x) {
    uint64_t n;
    memcpy(&n, &x, sizeof n);
    return x == x ? n : 0x7ff8000000000000;
}

static size_t request_text(char *out, size_t room, uint64_t quadrature) {
    static const char *const names[] = {"mean 0", "mean 1", "sd 0", "sd 1"};
    size_t n = snprintf(out, room, "probit-request 1\n"), first;
    for (int i = 0; i < 4; i++) {
        const double *b = bounds + 3 * i;
        n += snprintf(out + n, room - n, "%s %016" PRIx64 " %016" PRIx64 " %016" PRIx64 "\n", names[i], bits(b[0]), bits(b[1]), bits(b[2]));
    }
    n += snprintf(out + n, room - n, "work %" PRIu64 " %" PRIu64 " %" PRIu64 "\n", evaluations, iterations, quadrature);
    n += snprintf(out + n, room - n, "tolerance %016" PRIx64 "\n", bits(tolerance));
    first = n;
    for (int i = 0; i < LITTERS; i += PROBIT_LITTER_NUMBERS)
        n += snprintf(out + n, room - n, "litter %" PRIu32 " %" PRIu32 " %" PRIu32 "\n", litters[i + PROBIT_GROUP], litters[i + PROBIT_AFFECTED],
                      litters[i + PROBIT_PUPS]);
    return n + snprintf(out + n, room - n, "rows %d at %zu\n", LITTERS / PROBIT_LITTER_NUMBERS, first);
}

static size_t answer_text(char *out, size_t room, const struct fit *f) {
    const uint64_t *c = f->counts;
    size_t n;
    int marked = 0;
    if (f->end != PROBIT_ANSWERED)
        return snprintf(out, room, "refused %" PRIu64 " %" PRIu64 " %" PRIu64 "\n", f->end, c[PROBIT_QUADRATURE], c[PROBIT_REASON]);
    n = snprintf(out, room, "status %s\nmean %016" PRIx64 " %016" PRIx64 "\n", probit_status_name(c[PROBIT_STATUS]), bits(f->numbers[PROBIT_MEAN_0]),
                 bits(f->numbers[PROBIT_MEAN_1]));
    for (int i = 0; i < 2; i++)
        n += snprintf(out + n, room - n, "sd %016" PRIx64 " %016" PRIx64 "\n", bits(f->numbers[PROBIT_SD_0]), bits(f->numbers[PROBIT_SD_1]));
    n += snprintf(out + n, room - n, "variance %016" PRIx64 " %016" PRIx64 "\n", bits(f->numbers[PROBIT_VARIANCE_0]), bits(f->numbers[PROBIT_VARIANCE_1]));
    n += snprintf(out + n, room - n, "nll %016" PRIx64 "\ngradient %016" PRIx64 "\n", bits(f->numbers[PROBIT_NLL]), bits(f->numbers[PROBIT_NORM]));
    n += snprintf(out + n, room - n, "counts %" PRIu64 " %" PRIu64 " %" PRIu64 "\nlitters %" PRIu64 "\nactive", c[PROBIT_EVALUATIONS],
                  c[PROBIT_ITERATIONS], c[PROBIT_QUADRATURE], c[PROBIT_LITTER_COUNT]);
    for (int i = 0; i < 4; i++)
        if (c[PROBIT_MEAN_0_ON_BOUND + i]) {
            n += snprintf(out + n, room - n, " %d", i);
            marked = 1;
        }
    return n + snprintf(out + n, room - n, "%s\n", marked ? "" : " none");
}

static int text_agrees(uint64_t quadrature, const struct fit *f) {
    char request[4096], expected[PROBIT_TEXT + 1];
    uint8_t answer[PROBIT_TEXT];
    size_t n = request_text(request, sizeof request, quadrature);
    size_t m = probit_text((const uint8_t *)request, n, answer, sizeof answer);
    return m == answer_text(expected, sizeof expected, f) && !memcmp(answer, expected, m);
}

int main(int argc, char **argv) {
    char text[4096];
    uint64_t summary[PROBIT_SUMMARY_COUNTS];
    struct fit f = fit(plenty), exact, below;
    const double *x = f.numbers;
    uint64_t n = f.counts[PROBIT_QUADRATURE];

    if (probit_version() / 1000 != PROBIT_VERSION / 1000 || probit_version() < PROBIT_VERSION) {
        printf("the library has version %" PRIu64 ", the header %d\n", probit_version(), PROBIT_VERSION);
        return 1;
    }
    if (argc == 2 && !strcmp(argv[1], "request"))
        return request_text(text, sizeof text, plenty), fputs(text, stdout) < 0;
    if (argc == 2 && !strcmp(argv[1], "answer"))
        return answer_text(text, sizeof text, &f), fputs(text, stdout) < 0;
    if (f.end != PROBIT_ANSWERED) {
        printf("refused: %s, reason: %s\n", probit_ending_name(f.end), probit_reason_name(f.counts[PROBIT_REASON]));
        return 1;
    }

    probit_summary(litters, LITTERS, summary, PROBIT_SUMMARY_COUNTS);
    for (int g = 0; g < 2; g++) {
        const uint64_t *s = summary + PROBIT_SUMMARY_GROUP * g;
        printf("group %d: %" PRIu64 " litters, %" PRIu64 " of %" PRIu64 " affected; mean %.6f, SD %.6f\n", g, s[PROBIT_SUMMARY_LITTERS],
               s[PROBIT_SUMMARY_AFFECTED], s[PROBIT_SUMMARY_PUPS], x[PROBIT_MEAN_0 + g], x[PROBIT_SD_0 + g]);
    }
    printf("%s after %" PRIu64 " evaluations and %" PRIu64 " iterations; negative log-likelihood %.6f, norm %.9f\n",
           probit_status_name(f.counts[PROBIT_STATUS]), f.counts[PROBIT_EVALUATIONS], f.counts[PROBIT_ITERATIONS], x[PROBIT_NLL], x[PROBIT_NORM]);

    exact = fit(n);
    below = fit(n - 1);
    printf("%" PRIu64 " evaluations of the integrand; with that limit %s; with one less %s, count %" PRIu64 "\n", n,
           same(&f, &exact) ? "the same answer" : "ANOTHER ANSWER", probit_ending_name(below.end), below.counts[PROBIT_QUADRATURE]);
    if (!same(&f, &exact) || below.end != PROBIT_WORK_BUDGET || below.counts[PROBIT_QUADRATURE] != n - 1)
        return 1;

    if (!text_agrees(plenty, &f) || !text_agrees(n - 1, &below)) {
        puts("the text entry DIFFERS");
        return 1;
    }
    puts("the text entry gives the same bits");
    return 0;
}
