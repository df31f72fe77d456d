/* An archive of past litters: written, checked, and asked for the summary between two positions.
 * archive: the walk through all four calls. archive dump N: the bytes of an archive of N litters, as docs/FORMAT.md
 * shows them; of many, the ends alone. */
#include <inttypes.h>
#include <stdio.h>
#include <stdlib.h>
#include <string.h>

#include "probit.h"
#include "probit_names.h"

/* Litters by a rule, so that anybody gets the same bytes. */
static void make(uint32_t *litters, size_t n) {
    for (uint32_t i = 0; i < n; i++) {
        uint32_t pups = 8 + i % 5;
        litters[3 * i + PROBIT_AFFECTED] = i % (pups + 1);
        litters[3 * i + PROBIT_PUPS] = pups;
        litters[3 * i + PROBIT_GROUP] = i % 2;
    }
}

static uint32_t word(const uint8_t *p) { return p[0] | p[1] << 8 | p[2] << 16 | (uint32_t)p[3] << 24; }

static void line(const uint8_t *archive, size_t at, size_t words) {
    printf("%5zu ", at);
    for (size_t k = 0; k < 4 * words; k++) printf(k % 4 ? " %02x" : "  %02x", archive[at + k]);
}

static void dump(const uint8_t *archive, size_t n) {
    for (size_t i = 0; i < n; i++) {
        if (n > 4 && i == 2) printf("   ..\n");
        if (n > 4 && i >= 2 && i + 2 < n) continue;
        line(archive, 12 * i, 3);
        printf("   litter %zu: group %" PRIu32 ", %" PRIu32 " of %" PRIu32 "\n", i, word(archive + 12 * i), word(archive + 12 * i + 4), word(archive + 12 * i + 8));
    }
    for (size_t j = 0; j < n / 64; j++)
        for (size_t g = 0; g < 2; g++) {
            size_t at = 12 * n + 32 * j + 16 * g;
            line(archive, at, 4);
            printf("   the first %zu, group %zu: %" PRIu32 " litters, %" PRIu32 " of %" PRIu32 ", %" PRIu32 " extreme\n", 64 * (j + 1), g, word(archive + at), word(archive + at + 4), word(archive + at + 8), word(archive + at + 12));
        }
    line(archive, 12 * n + 32 * (n / 64), 3);
    printf("   %zu litters, totals from byte %zu, litters from byte 0\n", n, 12 * n);
}

/* The same counts the long way round. */
static int same(const uint32_t *litters, size_t from, size_t to, const uint64_t *counts) {
    uint64_t sums[PROBIT_SUMMARY_COUNTS] = {0};
    for (size_t i = from; i < to; i++) {
        const uint32_t *l = litters + 3 * i;
        uint64_t *s = sums + PROBIT_SUMMARY_GROUP * l[PROBIT_GROUP];
        s[PROBIT_SUMMARY_LITTERS]++;
        s[PROBIT_SUMMARY_AFFECTED] += l[PROBIT_AFFECTED];
        s[PROBIT_SUMMARY_PUPS] += l[PROBIT_PUPS];
        s[PROBIT_SUMMARY_EXTREME] += l[PROBIT_AFFECTED] == 0 || l[PROBIT_AFFECTED] == l[PROBIT_PUPS];
    }
    return !memcmp(sums, counts, sizeof sums);
}

int main(int argc, char **argv) {
    size_t n = argc == 3 && !strcmp(argv[1], "dump") ? strtoul(argv[2], NULL, 10) : PROBIT_MAX_ARCHIVE;
    uint32_t litters[PROBIT_LITTER_NUMBERS * PROBIT_MAX_ARCHIVE];
    static uint8_t archive[PROBIT_MAX_ARCHIVE_BYTES];
    uint64_t counts[PROBIT_SUMMARY_COUNTS], end;
    size_t bytes = probit_archive_size(n);
    if (!bytes) return 2;
    make(litters, n);
    end = probit_archive_write(litters, PROBIT_LITTER_NUMBERS * n, archive, sizeof archive);
    if (end != PROBIT_ANSWERED || probit_archive_check(archive, bytes) != 1) return 1;
    if (argc > 1) {
        dump(archive, n);
        return 0;
    }
    printf("written: %zu litters, %zu bytes; the check says yes\n", n, bytes);
    size_t ends[] = {0, 63, 64, 100, 1000, 4096};
    for (size_t k = 0; k + 1 < sizeof ends / sizeof *ends; k++) {
        end = probit_archive_range(archive, bytes, ends[k], ends[k + 1], counts, PROBIT_SUMMARY_COUNTS);
        if (end != PROBIT_ANSWERED || !same(litters, ends[k], ends[k + 1], counts)) return 1;
        printf("%4zu to %4zu:", ends[k], ends[k + 1]);
        for (int g = 0; g < 2; g++) {
            const uint64_t *c = counts + PROBIT_SUMMARY_GROUP * g;
            printf("  group %d: %" PRIu64 " litters, %" PRIu64 " of %" PRIu64 ", %" PRIu64 " extreme", g, c[0], c[1], c[2], c[3]);
        }
        printf("\n");
    }
    end = probit_archive_range(archive, bytes, 64, 63, counts, PROBIT_SUMMARY_COUNTS);
    printf("  64 to   63: %s\n", probit_ending_name(end));
    if (end != PROBIT_INVALID_INPUT) return 1;
    archive[12 * 200] = 7; /* litter 200 is of group 7 now: ranges that do not read it do not see it, the check does */
    end = probit_archive_range(archive, bytes, 210, 300, counts, PROBIT_SUMMARY_COUNTS);
    printf(" 210 to  300 with litter 200 spoiled: %s; the check says %s\n", probit_ending_name(end), probit_archive_check(archive, bytes) ? "yes" : "no");
    if (end != PROBIT_INVALID_INPUT || probit_archive_check(archive, bytes)) return 1;
    end = probit_archive_range(archive, bytes - 1, 0, 1, counts, PROBIT_SUMMARY_COUNTS);
    printf("   0 to    1 with a byte less: %s\n", probit_ending_name(end));
    return end != PROBIT_FORM;
}
