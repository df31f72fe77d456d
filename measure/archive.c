/* The time of a range in an archive of 64 litters and in one of 4,096, for ranges that read as much: best of several
 * runs, one archive after the other. */
#include <stdio.h>
#include <stdlib.h>
#include <string.h>
#include <time.h>

#include "probit.h"

enum { TURNS = 4000, RUNS = 15 };

static double seconds(void) {
    struct timespec t;
    clock_gettime(CLOCK_PROCESS_CPUTIME_ID, &t);
    return t.tv_sec + 1e-9 * t.tv_nsec;
}

struct archive {
    size_t bytes, from, to;
    double best;
    uint8_t *at;
};

static uint64_t run(struct archive *a, int turns) {
    uint64_t counts[PROBIT_SUMMARY_COUNTS], sum = 0;
    double began = seconds();
    for (int k = 0; k < turns; k++) {
        sum += probit_archive_range(a->at, a->bytes, a->from, a->to, counts, PROBIT_SUMMARY_COUNTS);
        sum += counts[PROBIT_SUMMARY_PUPS];
    }
    double took = (seconds() - began) / turns;
    if (!a->best || took < a->best) a->best = took;
    return sum;
}

static struct archive make(size_t n, size_t from, size_t to) {
    uint32_t *litters = malloc(12 * n);
    struct archive a = {probit_archive_size(n), from, to, 0, NULL};
    a.at = malloc(a.bytes);
    if (!litters || !a.at) exit(2);
    for (size_t i = 0; i < n; i++) litters[3 * i] = i % 10, litters[3 * i + 1] = 10, litters[3 * i + 2] = i % 2;
    if (probit_archive_write(litters, 3 * n, a.at, a.bytes) || probit_archive_check(a.at, a.bytes) != 1) exit(2);
    free(litters);
    return a;
}

int main(void) {
    /* each pair reads as many litters: 63 and 63; none and 63; none and none */
    struct archive pairs[3][2] = {
        {make(64, 63, 63), make(4096, 63, 4095)},
        {make(64, 0, 63), make(4096, 0, 4095)},
        {make(64, 0, 64), make(4096, 0, 4096)},
    };
    uint64_t sum = 0;
    int wrong = 0;
    for (int r = 0; r < RUNS; r++)
        for (int p = 0; p < 3; p++)
            for (int k = 0; k < 2; k++) sum += run(&pairs[p][k], TURNS);
    for (int p = 0; p < 3; p++) {
        struct archive *a = &pairs[p][0], *b = &pairs[p][1];
        double ratio = b->best / a->best;
        printf("64 litters, %zu to %zu: %.0f ns; 4,096 litters, %zu to %zu: %.0f ns; ratio %.2f\n", a->from, a->to, 1e9 * a->best, b->from, b->to, 1e9 * b->best, ratio);
        wrong += ratio > 1.5;
    }
    /* a walk along all litters, for comparison: the full check */
    double began = seconds();
    for (int k = 0; k < 100; k++) sum += probit_archive_check(pairs[0][1].at, pairs[0][1].bytes);
    printf("the full check of 4,096 litters: %.0f ns\n", 1e9 * (seconds() - began) / 100);
    return wrong ? 1 : sum == 1 ? 3 : 0;
}
