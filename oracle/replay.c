// Runs framed requests through probit_text. Standard input holds records: a line `request N` and N bytes, then, in a
// stored list, a line `answer M` and M bytes.
// Where an answer stands it is compared; where none stands ours is printed, framed. Exit status: 0 all alike, 1 one
// differs, 2 the input is no list or bad usage.
// replay derivatives: after each fit its gradient and its Hessian, as probit_fit gives them; what the text has too
// has to be the same there.
#include <inttypes.h>
#include <stdint.h>
#include <stdio.h>
#include <stdlib.h>
#include <string.h>

#include "probit.h"

enum { ROOM = 4096, LARGEST = 1 << 24 };

// Reads `WORD N` and N bytes that are freed by the caller. 0 at the end of the input, -1 where something else stands.
static int record(const char *word, uint8_t **bytes, size_t *length) {
    char line[64];
    size_t n = strlen(word);
    unsigned long size;
    if (!fgets(line, sizeof line, stdin))
        return 0;
    if (strncmp(line, word, n) || sscanf(line + n, " %lu", &size) != 1 || size > LARGEST)
        return -1;
    // Exactly as long as the text, so that a tool which watches memory sees a read beyond it.
    *bytes = malloc(size ? size : 1);
    *length = size;
    if (!*bytes || fread(*bytes, 1, size, stdin) != size)
        return -1;
    return 1;
}

static uint64_t bits(double x) {
    uint64_t n;
    memcpy(&n, &x, sizeof n);
    return x == x ? n : 0x7ff8000000000000;
}

// Adds the line with the derivatives to an answer of n bytes, and gives the new length; 0 where the record is not
// what the text says.
static size_t derivatives(const uint8_t *text, size_t length, char *out, size_t n) {
    static uint8_t held[PROBIT_HELD];
    uint64_t state[PROBIT_PART_COUNTS] = {0}, asked[PROBIT_REQUEST_NUMBERS], counts[PROBIT_FIT_COUNTS], end;
    uint32_t litters[PROBIT_REQUEST_LITTERS];
    double bounds[PROBIT_BOUNDS], tolerance, numbers[PROBIT_FIT_NUMBERS];
    char line[64];
    memset(held, 0, sizeof held);
    if (probit_part(held, PROBIT_HELD, state, PROBIT_PART_COUNTS, text, length) != PROBIT_ANSWERED)
        return 0;
    end = probit_finish(held, PROBIT_HELD, state, PROBIT_PART_COUNTS, asked, PROBIT_REQUEST_NUMBERS, litters, PROBIT_REQUEST_LITTERS);
    if (end != PROBIT_ANSWERED || asked[PROBIT_REQUEST_COUNT] > PROBIT_MAX_LITTERS)
        return n;
    memcpy(bounds, asked + PROBIT_REQUEST_BOUNDS, sizeof bounds), memcpy(&tolerance, asked + PROBIT_REQUEST_TOLERANCE, sizeof tolerance);
    end = probit_fit(bounds, PROBIT_BOUNDS, tolerance, asked[PROBIT_REQUEST_EVALUATIONS], asked[PROBIT_REQUEST_ITERATIONS], asked[PROBIT_REQUEST_QUADRATURE], litters,
                     PROBIT_LITTER_NUMBERS * asked[PROBIT_REQUEST_COUNT], numbers, PROBIT_FIT_NUMBERS, counts, PROBIT_FIT_COUNTS);
    if (end != PROBIT_ANSWERED) {
        for (int i = 0; i < PROBIT_FIT_NUMBERS; i++)
            if (bits(numbers[i]))
                return 0;
        return n;
    }
    snprintf(line, sizeof line, "\nvariance %016" PRIx64 " %016" PRIx64 "\n", bits(numbers[PROBIT_VARIANCE_0]), bits(numbers[PROBIT_VARIANCE_1]));
    out[n] = 0;
    if (!strstr(out, line))
        return 0;
    n += sprintf(out + n, "derivatives");
    for (int i = PROBIT_GRADIENT; i < PROBIT_FIT_NUMBERS; i++)
        n += sprintf(out + n, " %016" PRIx64, bits(numbers[i]));
    return n + sprintf(out + n, "\n");
}

static int bad(unsigned long at) {
    fprintf(stderr, "replay: record %lu, from 0, is none\n", at);
    return 2;
}

int main(int argc, char **argv) {
    unsigned long number = 0, wrong = 0, stored = 0;
    int whole = argc == 2 && !strcmp(argv[1], "derivatives");
    if (argc != 1 && !whole) {
        fprintf(stderr, "usage: replay [derivatives] < LIST\n");
        return 2;
    }
    for (;; number++) {
        uint8_t *text, *kept, out[ROOM];
        size_t length, room;
        int got = record("request", &text, &length);
        if (got < 0)
            return bad(number);
        if (got == 0)
            break;
        uint64_t said = probit_text(text, length, out, PROBIT_TEXT);
        if (said > PROBIT_TEXT) {
            fprintf(stderr, "replay: record %lu, from 0: %llu bytes are said to be written\n", number, (unsigned long long)said);
            return 1;
        }
        if (whole && !(said = derivatives(text, length, (char *)out, said))) {
            fprintf(stderr, "replay: record %lu, from 0: the record is not what the text says\n", number);
            return 1;
        }
        int next = getchar();
        if (next != EOF)
            ungetc(next, stdin);
        if (next == 'a') {
            if (record("answer", &kept, &room) != 1)
                return bad(number);
            stored++;
            if (room != said || memcmp(kept, out, room)) {
                wrong++;
                printf("replay: record %lu, from 0\n%.*sis answered by\n%.*sand not by\n%.*s", number, (int)length, (char *)text, (int)said, (char *)out, (int)room,
                       (char *)kept);
            }
            free(kept);
        } else {
            printf("answer %llu\n", (unsigned long long)said);
            fwrite(out, 1, said, stdout);
            // What a crash would keep back.
            fflush(stdout);
        }
        free(text);
    }
    if (stored)
        printf("replay: %lu answers, %lu differ\n", stored, wrong);
    return wrong != 0;
}
