/* Requests in parts, through probit_part and the finishing calls, beside probit_text of the joined bytes: every byte
 * and every value.
 * parts FILE [N]: every cut of the first request of the stored list, example A, into two parts; N seeded cuts (else
 * 4) of each of its requests into many, empty ones among them, whose answers have to be the stored ones too; texts
 * about the most bytes; states of another size, and states that no call made;
 * last the time of as many parts of one byte as a request may have.
 * Exit status: 1 something differs or takes too long, 2 the file is no list. */
#include <stdio.h>
#include <stdlib.h>
#include <string.h>
#include <time.h>

#include "probit.h"

enum { PAINT = 0xa5, LARGEST = 20000, SIDE = 64 };
static const double most_ms = 5;
static long calls, wrong;
static uint64_t seed = 20261115;

static uint64_t drawn(uint64_t below) {
    seed = seed * 6364136223846793005u + 1442695040888963407u;
    return (seed >> 33) % below;
}

static void expect(int good, const char *what, size_t a, size_t b) {
    calls++;
    if (!good && wrong++ < 20)
        printf("wrong: %s, %zu %zu\n", what, a, b);
}

/* The state, and what a finishing call writes into, with painted bytes on both sides of each. */
struct state {
    uint8_t before[SIDE], held[PROBIT_HELD], between[SIDE];
    uint64_t counts[PROBIT_PART_COUNTS];
    uint8_t after[SIDE];
};
struct told {
    uint64_t value, request[PROBIT_REQUEST_NUMBERS + 1];
    uint32_t litters[PROBIT_REQUEST_LITTERS + 1];
    size_t length;
    uint8_t out[PROBIT_TEXT + 1];
};

static int painted(const void *p, size_t n) {
    for (size_t i = 0; i < n; i++)
        if (((const uint8_t *)p)[i] != PAINT)
            return 0;
    return 1;
}

static void begin(struct state *s) {
    memset(s, PAINT, sizeof *s);
    memset(s->held, 0, sizeof s->held);
    memset(s->counts, 0, sizeof s->counts);
}

static uint64_t part(struct state *s, const uint8_t *bytes, size_t n) {
    return probit_part(s->held, PROBIT_HELD, s->counts, PROBIT_PART_COUNTS, bytes, n);
}

/* Both finishing calls, in either order. */
static struct told finish(struct state *s, int answer_first) {
    struct told t;
    memset(&t, PAINT, sizeof t);
    if (answer_first)
        t.length = probit_answer(s->held, PROBIT_HELD, s->counts, PROBIT_PART_COUNTS, t.out, PROBIT_TEXT);
    t.value = probit_finish(s->held, PROBIT_HELD, s->counts, PROBIT_PART_COUNTS, t.request, PROBIT_REQUEST_NUMBERS, t.litters, PROBIT_REQUEST_LITTERS);
    if (!answer_first)
        t.length = probit_answer(s->held, PROBIT_HELD, s->counts, PROBIT_PART_COUNTS, t.out, PROBIT_TEXT);
    return t;
}

/* What the answer's text says of the request's form. */
static int form_agrees(const struct told *t) {
    unsigned long line;
    char text[PROBIT_TEXT + 1];
    memcpy(text, t->out, t->length), text[t->length] = 0;
    if (sscanf(text, "refused 4 0 %lu", &line) == 1)
        return t->value == PROBIT_FORM && t->request[PROBIT_REQUEST_LINE] == line && !t->request[PROBIT_REQUEST_COUNT];
    return t->value == PROBIT_ANSWERED && !t->request[PROBIT_REQUEST_LINE];
}

/* The same request by its numbers: probit_fit of what probit_finish tells says what the answer's first line says. */
static int numbers_agree(const struct told *t) {
    double bounds[PROBIT_BOUNDS], tolerance, numbers[PROBIT_FIT_NUMBERS];
    uint64_t counts[PROBIT_FIT_COUNTS], end, n = t->request[PROBIT_REQUEST_COUNT];
    char text[PROBIT_TEXT];
    unsigned long long number, count, reason;
    if (t->value != PROBIT_ANSWERED || n > PROBIT_MAX_LITTERS)
        return 1;
    memcpy(bounds, t->request + PROBIT_REQUEST_BOUNDS, sizeof bounds);
    memcpy(&tolerance, t->request + PROBIT_REQUEST_TOLERANCE, sizeof tolerance);
    end = probit_fit(bounds, PROBIT_BOUNDS, tolerance, t->request[PROBIT_REQUEST_EVALUATIONS], t->request[PROBIT_REQUEST_ITERATIONS],
                     t->request[PROBIT_REQUEST_QUADRATURE], t->litters, PROBIT_LITTER_NUMBERS * n, numbers, PROBIT_FIT_NUMBERS, counts, PROBIT_FIT_COUNTS);
    memcpy(text, t->out, t->length), text[t->length] = 0;
    if (sscanf(text, "refused %llu %llu %llu", &number, &count, &reason) == 3)
        return end == number && counts[PROBIT_QUADRATURE] == count && counts[PROBIT_REASON] == reason;
    uint64_t nll;
    memcpy(&nll, numbers + PROBIT_NLL, sizeof nll);
    const char *said = strstr(text, "nll ");
    return end == PROBIT_ANSWERED && said && strtoull(said + 4, NULL, 16) == nll;
}

/* A text cut at the given places: after its parts both finishing calls, then a part that is refused, then both calls
 * again. */
static void cut(const uint8_t *text, size_t n, const size_t *ends, size_t parts, int answer_first, int numbers, const uint8_t *stored, size_t stored_len) {
    static struct state s, after;
    uint8_t whole[PROBIT_TEXT];
    size_t at = 0, length = probit_text(text, n, whole, sizeof whole);
    int good = 1;
    begin(&s);
    for (size_t i = 0; i < parts; at = ends[i++])
        good &= part(&s, text + at, ends[i] - at) == PROBIT_ANSWERED;
    expect(good && at == n && s.counts[PROBIT_PART_BYTES] == (n < PROBIT_HELD ? n : PROBIT_HELD) && !s.counts[PROBIT_PART_FINISHED], "a part", n, parts);
    struct told first = finish(&s, answer_first);
    expect(first.length == length && !memcmp(first.out, whole, length), "the answer after parts", n, parts);
    expect(form_agrees(&first) && (!numbers || numbers_agree(&first)), "the request after parts", n, parts);
    if (stored)
        expect(first.length == stored_len && !memcmp(first.out, stored, stored_len), "the stored answer", n, parts);
    after = s;
    expect(s.counts[PROBIT_PART_FINISHED] == 1 && part(&s, text, n) == PROBIT_FORM && part(&s, NULL, 0) == PROBIT_FORM && !memcmp(&s, &after, sizeof s),
           "a part after finishing", n, parts);
    struct told second = finish(&s, !answer_first);
    expect(!memcmp(&first, &second, sizeof first) && !memcmp(&s, &after, sizeof s), "finishing again", n, parts);
    expect(painted(s.before, SIDE) && painted(s.between, SIDE) && painted(s.after, SIDE) && painted(first.out + length, sizeof first.out - length) &&
               painted(first.request + PROBIT_REQUEST_NUMBERS, sizeof *first.request) && painted(first.litters + PROBIT_REQUEST_LITTERS, sizeof *first.litters),
           "bytes beside", n, parts);
}

static void into_two(const uint8_t *text, size_t n, const uint8_t *stored, size_t stored_len) {
    for (size_t i = 0; i <= n; i++) {
        size_t ends[] = {i, n};
        cut(text, n, ends, 2, i % 2, 1, stored, stored_len);
    }
}

/* 0: byte by byte; else as many parts as are drawn, up to 40, about half of them empty in every fourth. */
static void into_many(const uint8_t *text, size_t n, int way, const uint8_t *stored, size_t stored_len) {
    static size_t ends[LARGEST + 1];
    size_t parts = 0, at = 0;
    if (way == 0) {
        while (at < n)
            ends[parts++] = ++at;
    } else {
        size_t many = 1 + drawn(40), most = 1 + 2 * n / many;
        while (at < n || drawn(4) == 0) {
            at += drawn(way % 4 == 3 ? 2 : most + 1);
            ends[parts++] = at < n ? at : (at = n);
            if (parts == LARGEST)
                ends[parts - 1] = at = n;
        }
    }
    cut(text, n, ends, parts, way % 2, way == 1, stored, stored_len);
}

/* Sizes: whatever is not as asked, nothing is written. */
static void sizes(void) {
    static struct state s, kept;
    static uint8_t longer[PROBIT_HELD + 1], longer_kept[PROBIT_HELD + 1];
    uint64_t three[] = {0, 0, 0}, request[PROBIT_REQUEST_NUMBERS], request_kept[PROBIT_REQUEST_NUMBERS];
    uint32_t litters[PROBIT_REQUEST_LITTERS], litters_kept[PROBIT_REQUEST_LITTERS];
    uint8_t out[PROBIT_TEXT];
    static const size_t helds[] = {0, 1, PROBIT_HELD - 1, PROBIT_HELD, PROBIT_HELD + 1};
    begin(&s), part(&s, (const uint8_t *)"probit", 6), kept = s;
    memcpy(longer, s.held, sizeof s.held), memcpy(longer_kept, longer, sizeof longer);
    memset(request, PAINT, sizeof request), memset(litters, PAINT, sizeof litters), memset(out, PAINT, sizeof out);
    memcpy(request_kept, request, sizeof request), memcpy(litters_kept, litters, sizeof litters);
    for (size_t i = 0; i < sizeof helds / sizeof *helds; i++)
        for (size_t c = 0; c <= 3; c++) {
            size_t h = helds[i];
            int right = h == PROBIT_HELD && c == PROBIT_PART_COUNTS;
            uint8_t *held = h ? h > PROBIT_HELD ? longer : s.held : NULL;
            uint64_t *counts = c ? c > PROBIT_PART_COUNTS ? three : s.counts : NULL;
            if (!right) {
                expect(probit_part(held, h, counts, c, (const uint8_t *)"x", 1) == PROBIT_INVALID_INPUT, "probit_part of another size", h, c);
                expect(probit_finish(held, h, counts, c, request, PROBIT_REQUEST_NUMBERS, litters, PROBIT_REQUEST_LITTERS) == PROBIT_INVALID_INPUT, "probit_finish of another size", h, c);
                expect(probit_answer(held, h, counts, c, out, sizeof out) == 0, "probit_answer of another size", h, c);
            }
        }
    for (size_t q = 0; q < PROBIT_REQUEST_NUMBERS; q++)
        expect(probit_finish(s.held, PROBIT_HELD, s.counts, PROBIT_PART_COUNTS, request, q, litters, PROBIT_REQUEST_LITTERS) == PROBIT_INVALID_INPUT, "a short request", q, 0);
    for (size_t l = 0; l < PROBIT_REQUEST_LITTERS; l++)
        expect(probit_finish(s.held, PROBIT_HELD, s.counts, PROBIT_PART_COUNTS, request, PROBIT_REQUEST_NUMBERS, litters, l) == PROBIT_INVALID_INPUT, "short litters", l, 0);
    for (size_t o = 0; o < PROBIT_TEXT; o++)
        expect(probit_answer(s.held, PROBIT_HELD, s.counts, PROBIT_PART_COUNTS, out, o) == 0, "a short answer", o, 0);
    expect(!memcmp(&s, &kept, sizeof s) && !memcmp(longer, longer_kept, sizeof longer) && !three[0] && !three[1] && !three[2] && painted(out, sizeof out) &&
               !memcmp(request, request_kept, sizeof request) && !memcmp(litters, litters_kept, sizeof litters), "what a refusal writes", 0, 0);
}

/* States that no call made: any count and any mark. */
static void any_state(void) {
    static const uint64_t counts[] = {0, 1, 8191, 8192, 8193, 8194, 1u << 31, UINT64_MAX - 1, UINT64_MAX};
    static struct state s, kept;
    uint8_t whole[PROBIT_TEXT];
    for (size_t i = 0; i < sizeof counts / sizeof *counts; i++)
        for (int mark = 0; mark < 3; mark++) {
            uint64_t n = counts[i], m = n < PROBIT_HELD ? n : PROBIT_HELD;
            begin(&s);
            for (size_t k = 0; k < PROBIT_HELD; k++)
                s.held[k] = drawn(256);
            s.counts[PROBIT_PART_BYTES] = n, s.counts[PROBIT_PART_FINISHED] = mark == 2 ? UINT64_MAX : (uint64_t)mark, kept = s;
            uint64_t value = part(&s, whole, 3);
            if (mark)
                expect(value == PROBIT_FORM && !memcmp(&s, &kept, sizeof s), "a state that is marked", n, mark);
            else
                expect(value == PROBIT_ANSWERED && s.counts[PROBIT_PART_BYTES] == n + (n >= PROBIT_HELD ? 0 : n + 3 > PROBIT_HELD ? PROBIT_HELD - n : 3) &&
                           !memcmp(s.held, kept.held, m), "a part into any state", n, mark);
            s = kept;
            size_t length = probit_text(s.held, m, whole, sizeof whole);
            struct told t = finish(&s, mark == 1);
            expect(t.length == length && !memcmp(t.out, whole, length) && form_agrees(&t), "finishing any state", n, mark);
            expect(s.counts[PROBIT_PART_BYTES] == n && !memcmp(s.held, kept.held, sizeof s.held) && painted(s.before, SIDE) && painted(s.between, SIDE) &&
                       painted(s.after, SIDE), "what finishing any state writes", n, mark);
        }
}

static double now(void) {
    struct timespec t;
    clock_gettime(CLOCK_PROCESS_CPUTIME_ID, &t);
    return t.tv_sec * 1e3 + t.tv_nsec / 1e6;
}

/* The best of some runs; the parts alone, and with the finishing call. */
static void times(void) {
    static struct state s;
    static uint8_t text[PROBIT_MAX_REQUEST];
    uint8_t out[PROBIT_TEXT];
    double parts = 1e9, whole = 1e9;
    memset(text, '\n', sizeof text);
    for (int run = 0; run < 20; run++) {
        begin(&s);
        double a = now();
        for (size_t i = 0; i < sizeof text; i++)
            part(&s, text + i, 1);
        double b = now();
        probit_answer(s.held, PROBIT_HELD, s.counts, PROBIT_PART_COUNTS, out, sizeof out);
        double c = now();
        parts = b - a < parts ? b - a : parts, whole = c - a < whole ? c - a : whole;
    }
    expect(whole < most_ms, "the time of parts of one byte", whole * 1000, 0);
    printf("parts: %d parts of one byte take %.3f ms, with the finishing call %.3f, less than %.0f is asked for\n", PROBIT_MAX_REQUEST, parts, whole, most_ms);
}

/* `WORD N` and N bytes. 0 at the end of the file. */
static size_t record(FILE *file, const char *word, uint8_t *bytes) {
    char line[64];
    unsigned long size;
    if (!fgets(line, sizeof line, file))
        return (size_t)-1;
    if (strncmp(line, word, strlen(word)) || sscanf(line + strlen(word), " %lu", &size) != 1 || size > LARGEST || fread(bytes, 1, size, file) != size)
        fprintf(stderr, "parts: the file is no list\n"), exit(2);
    return size;
}

int main(int argc, char **argv) {
    static uint8_t text[LARGEST], stored[LARGEST];
    FILE *file = argc > 1 ? fopen(argv[1], "rb") : NULL;
    int ways = argc > 2 ? atoi(argv[2]) : 4;
    size_t n, m, requests = 0;
    if (!file)
        return fprintf(stderr, "usage: parts FILE [N]\n"), 2;
    for (; (n = record(file, "request", text)) != (size_t)-1; requests++) {
        if ((m = record(file, "answer", stored)) == (size_t)-1)
            return fprintf(stderr, "parts: the file is no list\n"), 2;
        if (requests == 0)
            into_two(text, n, stored, m);
        for (int way = 0; way < ways; way++)
            into_many(text, n, way, stored, m);
    }
    fclose(file);
    for (n = PROBIT_MAX_REQUEST - 1; n <= PROBIT_MAX_REQUEST + 3; n++) {
        memset(text, '\n', n);
        for (int way = 0; way < ways; way++)
            into_many(text, n, way, NULL, 0);
    }
    into_many(text, 2 * PROBIT_MAX_REQUEST, 1, NULL, 0), into_many(text, 0, 0, NULL, 0), into_many(text, 0, 1, NULL, 0);
    sizes();
    any_state();
    times();
    printf("parts: %zu requests in parts, %ld comparisons, %ld wrong\n", requests, calls, wrong);
    return wrong != 0;
}
