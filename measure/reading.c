// Times probit_text on requests whose work limit is too high: each is read whole, and refused without a fit. The
// least of several runs, in the processor's time.
#include <stdio.h>
#include <stdlib.h>
#include <string.h>
#include <time.h>
#include "probit.h"

enum { CALLS = 20000, RUNS = 7 };
static const double ASKED = 10.0;

static double now(void) {
    struct timespec t;
    clock_gettime(CLOCK_PROCESS_CPUTIME_ID, &t);
    return (double)t.tv_sec * 1e6 + (double)t.tv_nsec * 1e-3;
}

// Thirteen f64s in their places, then the litters.
static size_t request(char *to, size_t room, const char *mean, const char *sd, const char *tolerance) {
    char head[700];
    int n = snprintf(head, sizeof head, "probit-request 1\nmean 0 %s\nmean 1 %s\nsd 0 %s\nsd 1 %s\nwork 200 200 20000001\ntolerance %s\n", mean, mean, sd, sd, tolerance);
    size_t at = (size_t)snprintf(to, room, "%s", head);
    for (int i = 0; i < 32; i++)
        at += (size_t)snprintf(to + at, room - at, "litter %d %d %d\n", i / 16, i % 7, 7 + i % 6);
    return at + (size_t)snprintf(to + at, room - at, "rows 32 at %d\n", n);
}

static int timed(const char *name, const char *mean, const char *sd, const char *tolerance) {
    char text[2048];
    uint8_t out[PROBIT_TEXT];
    static const char refused[] = "refused 1 0 0\n";
    size_t length = request(text, sizeof text, mean, sd, tolerance);
    double least = 1e30;
    for (int run = 0; run < RUNS; run++) {
        double start = now();
        for (int call = 0; call < CALLS; call++) {
            size_t n = probit_text((const uint8_t *)text, length, out, sizeof out);
            if (n != sizeof refused - 1 || memcmp(out, refused, n)) {
                fprintf(stderr, "reading: %s is answered by %.*s", name, (int)n, (char *)out);
                exit(2);
            }
        }
        double took = (now() - start) / CALLS;
        if (took < least)
            least = took;
    }
    printf("%6.2f us  %s, %zu bytes\n", least, name, length);
    return least > ASKED;
}

int main(void) {
    int slow = timed("decimals", "-8.0 8.0 0.25", "0.0 3.0 0.5", "0.0000001");
    slow |= timed("decimals of seventeen digits", "-0.1234567890123456 7.1234567890123456 0.1234567890123456", "0.0000000000000000 2.9999999999999999 0.1000000000000001", "0.0000001234567890");
    slow |= timed("the smallest decimals", "-0.0000000000000001 0.0000000000000003 0.0000000000000001", "0.0000000000000001 0.0000000000000003 0.0000000000000001", "0.0000000000000001");
    slow |= timed("hexadecimals", "c020000000000000 4020000000000000 3fd0000000000000", "0000000000000000 4008000000000000 3fe0000000000000", "3e7ad7f29abcaf48");
    return slow;
}
