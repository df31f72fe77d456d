/* Calls the archive's functions as oracle/archives.py asks, by numbers on standard input, and puts out what they
 * answered. Little-endian throughout.
 *   A length bytes      the archive that R and C speak of
 *   R from to           the value and eight counts, which were marked before the call
 *   C                   the value
 *   S litters           the value
 *   W numbers litters.. room    the value and the buffer, every byte of which was marked before the call */
#include <stdio.h>
#include <stdlib.h>
#include <string.h>
#include "probit.h"

static uint64_t number(void) {
    uint64_t n;
    if (fread(&n, sizeof n, 1, stdin) != 1) exit(1);
    return n;
}

static void *bytes(size_t n) {
    void *p = malloc(n ? n : 1);
    if (!p || fread(p, 1, n, stdin) != n) exit(1);
    return p;
}

static void put(const void *p, size_t n) {
    if (fwrite(p, 1, n, stdout) != n) exit(1);
}

int main(void) {
    uint8_t *archive = NULL;
    size_t length = 0;
    for (int c; (c = getchar()) != EOF;) {
        uint64_t value = 0;
        if (c == 'A') {
            free(archive);
            length = number();
            archive = bytes(length); /* its own size, so that a tool that guards the heap sees a read past it */
        } else if (c == 'R') {
            uint64_t from = number(), to = number(), counts[9];
            memset(counts, 0xa5, sizeof counts);
            value = probit_archive_range(archive, length, from, to, counts, 8);
            put(&value, sizeof value);
            put(counts, sizeof counts);
        } else if (c == 'C') {
            value = probit_archive_check(archive, length);
            put(&value, sizeof value);
        } else if (c == 'S') {
            value = probit_archive_size(number());
            put(&value, sizeof value);
        } else if (c == 'W') {
            size_t numbers = number();
            uint32_t *litters = bytes(4 * numbers);
            size_t room = number();
            uint8_t *out = malloc(room ? room : 1);
            if (!out) return 1;
            memset(out, 0xa5, room);
            value = probit_archive_write(litters, numbers, out, room);
            put(&value, sizeof value);
            put(out, room);
            free(litters);
            free(out);
        } else {
            return 2;
        }
    }
    return 0;
}
