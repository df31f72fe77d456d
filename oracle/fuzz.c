// One text for the fuzzer: probit_text answers it as the oracle does, departs at the line where the oracle's reader
// does, and keeps within its buffer.
// Cut at random into parts it gets the same answer, the second time too, and a part after that alters nothing.
#include <stdint.h>
#include <stdio.h>
#include <stdlib.h>
#include <string.h>

uint64_t probit_text(const uint8_t *text, size_t text_len, uint8_t *out, size_t out_len);
uint64_t probit_part(uint8_t *held, size_t held_len, uint64_t *counts, size_t counts_len, const uint8_t *bytes, size_t bytes_len);
size_t probit_answer(const uint8_t *held, size_t held_len, uint64_t *counts, size_t counts_len, uint8_t *out, size_t out_len);
int64_t oracle_line(const uint8_t *text, size_t length);
uint64_t oracle_limit(const uint8_t *text, size_t length);
size_t oracle_answer(const uint8_t *text, size_t length, uint8_t *out);

// A longer fit would only take time from the reader; above 20,000,000 a request is refused without work.
enum { LONG = 2000, REFUSED = 20000000, LEAST = 512, GUARD = 64 };

static void wrong(const char *what, const uint8_t *said, size_t n, const uint8_t *kept, size_t m) {
    fprintf(stderr, "fuzz: %s\nours\n%.*s\nthe oracle\n%.*s\n", what, (int)n, (const char *)said, (int)m, (const char *)kept);
    abort();
}

// The cuts are drawn from the text, so that a text which fails fails again.
static void in_parts(const uint8_t *text, size_t length, const uint8_t *whole, size_t n) {
    enum { HELD = 8193 };
    static uint8_t held[HELD + GUARD], after[HELD];
    uint64_t counts[3] = {0, 0, 0xa5}, kept[3], seed = length;
    uint8_t out[LEAST + GUARD];
    for (size_t i = 0; i < length; i++)
        seed = (seed ^ text[i]) * 1099511628211u;
    memset(held, 0, HELD);
    memset(held + HELD, 0xa5, GUARD);
    size_t most = 1 + (seed >> 40) % (length + 1);
    for (size_t at = 0; at < length;) {
        seed = seed * 6364136223846793005u + 1442695040888963407u;
        size_t k = (seed >> 33) % (most + 1);
        k = k < length - at ? k : length - at;
        if (probit_part(held, HELD, counts, 2, text + at, k) != 0)
            wrong("a part is refused", out, 0, whole, n);
        at += k;
    }
    for (int again = 0; again < 2; again++) {
        memset(out, 0xa5, sizeof out);
        size_t m = probit_answer(held, HELD, counts, 2, out, LEAST);
        if (m != n || memcmp(out, whole, n))
            wrong(again ? "the second answer after parts" : "the answer after parts", out, m, whole, n);
        for (size_t i = n; i < sizeof out; i++)
            if (out[i] != 0xa5)
                wrong("bytes beyond the answer after parts are written to", out, LEAST, whole, n);
        memcpy(after, held, HELD), memcpy(kept, counts, sizeof counts);
        if (probit_part(held, HELD, counts, 2, text, length) != 4 || memcmp(after, held, HELD) || memcmp(kept, counts, sizeof counts))
            wrong("a part after finishing is taken", out, m, whole, n);
    }
    for (size_t i = HELD; i < sizeof held; i++)
        if (held[i] != 0xa5)
            wrong("bytes beyond the state are written to", out, LEAST, whole, n);
    if (counts[2] != 0xa5)
        wrong("a count beyond the state is written to", out, LEAST, whole, n);
}

int LLVMFuzzerTestOneInput(const uint8_t *text, size_t length) {
    uint8_t out[LEAST + GUARD], kept[4096], line[64];
    int64_t at = oracle_line(text, length);
    uint64_t limit = oracle_limit(text, length);
    if (at < 0 && limit > LONG && limit <= REFUSED)
        return 0;
    memset(out, 0xa5, sizeof out);
    if (probit_text(text, length, out, LEAST - 1) != 0)
        wrong("a buffer of 511 bytes is taken", out, LEAST, kept, 0);
    for (size_t i = 0; i < sizeof out; i++)
        if (out[i] != 0xa5)
            wrong("a buffer of 511 bytes is written to", out, LEAST, kept, 0);
    size_t n = probit_text(text, length, out, LEAST);
    if (n > LEAST)
        wrong("more is said to be written than there is room for", out, LEAST, kept, 0);
    for (size_t i = n; i < sizeof out; i++)
        if (out[i] != 0xa5)
            wrong("bytes beyond the answer are written to", out, LEAST, kept, 0);
    in_parts(text, length, out, n);
    if (at >= 0) {
        size_t m = (size_t)snprintf((char *)line, sizeof line, "refused 4 0 %lld\n", (long long)at);
        if (m != n || memcmp(line, out, n))
            wrong("the line that departs", out, n, line, m);
        return 0;
    }
    size_t m = oracle_answer(text, length, kept);
    if (m != n || memcmp(kept, out, n))
        wrong("the answer", out, n, kept, m);
    return 0;
}
