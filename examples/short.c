/* Every function with short buffers, zero lengths and null pointers of length 0, then on each side of every limit
 * that the header names, and with what is too long.
 * Each slice ends where memory that may be touched ends, or begins where it begins: a read or a write out of it stops
 * the program.
 * Every byte that is not to be written is painted before and looked at after. Under valgrind the slices are blocks of
 * the heap. */
#include <stdio.h>
#include <stdlib.h>
#include <string.h>
#include <sys/mman.h>
#include <unistd.h>

#include "probit.h"

enum { PAINT = 0xa5, ROOM = 1 << 14 };
static long calls, wrong;
static int heap;

/* One slice: `bytes` of it, and what was mapped for it. */
struct lent {
    unsigned char *at, *map;
    size_t bytes, mapped;
};

/* where: 0 at the end, 1 at the start, 2 null if it has no bytes, else at the end */
static struct lent lend(const void *from, size_t bytes, int where) {
    struct lent l = {NULL, NULL, bytes, 0};
    if (where == 2 && !bytes)
        return l;
    if (heap) {
        l.at = l.map = malloc(bytes ? bytes : 1);
    } else {
        size_t page = sysconf(_SC_PAGESIZE);
        l.mapped = ROOM + 2 * page;
        l.map = mmap(NULL, l.mapped, PROT_NONE, MAP_PRIVATE | MAP_ANONYMOUS, -1, 0);
        if (l.map == MAP_FAILED || mprotect(l.map + page, ROOM, PROT_READ | PROT_WRITE))
            perror("short: mmap"), exit(2);
        memset(l.map + page, PAINT, ROOM);
        l.at = l.map + page + (where == 1 ? 0 : ROOM - bytes);
    }
    if (from)
        memcpy(l.at, from, bytes);
    else
        memset(l.at, PAINT, bytes);
    return l;
}

static int painted(const unsigned char *p, size_t n) {
    for (size_t i = 0; i < n; i++)
        if (p[i] != PAINT)
            return 0;
    return 1;
}

/* The slice's bytes from `from` on, and all around it, are as they were painted. */
static int kept(const struct lent *l, size_t from) {
    size_t page = sysconf(_SC_PAGESIZE);
    if (!l->at)
        return 1;
    if (!painted(l->at + from, l->bytes - from))
        return 0;
    return heap || (painted(l->map + page, l->at - l->map - page) && painted(l->at + l->bytes, l->map + page + ROOM - l->at - l->bytes));
}

static void give_back(struct lent *l) {
    if (heap)
        free(l->map);
    else if (l->map)
        munmap(l->map, l->mapped);
}

static void expect(int good, const char *what, size_t a, size_t b, size_t c, size_t d) {
    calls++;
    if (!good && wrong++ < 20)
        printf("wrong: %s at lengths %zu %zu %zu %zu\n", what, a, b, c, d);
}

static const double bounds[PROBIT_BOUNDS + 1] = {-1, 1, 0, -1, 1, 0, 0, 1, 0, 0, 1, 0, 9};
static const double point[PROBIT_POINT + 1] = {0.25, -0.25, 0, 0, 9};
static const uint32_t litters[] = {1, 2, 0, 1, 2, 0, 1, 2, 1, 1, 2, 1, 7};
enum { WHOLE = 12 };
static const char request[] =
    "probit-request 1\n"
    "mean 0 bff0000000000000 3ff0000000000000 0000000000000000\n"
    "mean 1 bff0000000000000 3ff0000000000000 0000000000000000\n"
    "sd 0 0000000000000000 3ff0000000000000 0000000000000000\n"
    "sd 1 0000000000000000 3ff0000000000000 0000000000000000\n"
    "work 10 10 4\ntolerance 3eb0000000000000\n"
    "litter 0 1 2\nlitter 0 1 2\nlitter 1 1 2\nlitter 1 1 2\nrows 4 at 285\n";

static void one_fit(size_t b, size_t l, size_t n, size_t c, int where) {
    struct lent lb = lend(bounds, 8 * b, where), ll = lend(litters, 4 * l, where), ln = lend(NULL, 8 * n, where), lc = lend(NULL, 8 * c, where);
    uint64_t end = probit_fit((double *)lb.at, b, 1e-6, 10, 10, 4, (uint32_t *)ll.at, l, (double *)ln.at, n, (uint64_t *)lc.at, c);
    int fits = b == PROBIT_BOUNDS && n >= PROBIT_FIT_FIRST_NUMBERS && c >= PROBIT_FIT_COUNTS;
    size_t filled = !fits ? 0 : n < PROBIT_FIT_NUMBERS ? PROBIT_FIT_FIRST_NUMBERS : PROBIT_FIT_NUMBERS;
    int answered = fits && l == WHOLE;
    int good = end == (answered ? PROBIT_ANSWERED : PROBIT_INVALID_INPUT);
    good &= kept(&ln, 8 * filled) && kept(&lc, fits ? 8 * PROBIT_FIT_COUNTS : 0);
    good &= (!b || !memcmp(lb.at, bounds, 8 * b)) && (!l || !memcmp(ll.at, litters, 4 * l));
    if (fits)
        good &= ((uint64_t *)lc.at)[PROBIT_QUADRATURE] == (answered ? 4 : 0) && ((uint64_t *)lc.at)[PROBIT_SD_1_ON_BOUND] == (uint64_t)answered;
    expect(good, "probit_fit", b, l, n, c);
    give_back(&lb), give_back(&ll), give_back(&ln), give_back(&lc);
}

/* The start is the answer: no trial, whatever the number. */
static void one_why(size_t b, size_t l, size_t n, size_t c, size_t r, int where) {
    struct lent lb = lend(bounds, 8 * b, where), ll = lend(litters, 4 * l, where), ln = lend(NULL, 8 * n, where), lc = lend(NULL, 8 * c, where), lr = lend(NULL, 8 * r, where);
    uint64_t end = probit_why((double *)lb.at, b, 1e-6, 10, 10, 4, (uint32_t *)ll.at, l, r, (double *)ln.at, n, (uint64_t *)lc.at, c, (uint64_t *)lr.at, r);
    int fits = b == PROBIT_BOUNDS && n >= PROBIT_FIT_FIRST_NUMBERS && c >= PROBIT_FIT_COUNTS && r >= PROBIT_WHY;
    size_t filled = !fits ? 0 : n < PROBIT_FIT_NUMBERS ? PROBIT_FIT_FIRST_NUMBERS : PROBIT_FIT_NUMBERS;
    int answered = fits && l == WHOLE;
    int good = end == (answered ? PROBIT_ANSWERED : PROBIT_INVALID_INPUT);
    good &= kept(&ln, 8 * filled) && kept(&lc, fits ? 8 * PROBIT_FIT_COUNTS : 0) && kept(&lr, fits ? 8 * PROBIT_WHY : 0);
    good &= (!b || !memcmp(lb.at, bounds, 8 * b)) && (!l || !memcmp(ll.at, litters, 4 * l));
    if (fits) {
        const uint64_t said[PROBIT_WHY] = {PROBIT_NO_TRIAL, 0, PROBIT_INVALID_INPUT, 0, 0, answered ? PROBIT_TEST_NORM : PROBIT_NO_TEST, 0};
        good &= !memcmp(lr.at, said, sizeof said) && ((uint64_t *)lc.at)[PROBIT_QUADRATURE] == (answered ? 4 : 0);
    }
    expect(good, "probit_why", b, n, c, r);
    give_back(&lb), give_back(&ll), give_back(&ln), give_back(&lc), give_back(&lr);
}

static void one_objective(size_t p, size_t l, size_t n, size_t c, int where) {
    struct lent lp = lend(point, 8 * p, where), ll = lend(litters, 4 * l, where), ln = lend(NULL, 8 * n, where), lc = lend(NULL, 8 * c, where);
    uint64_t end = probit_objective((double *)lp.at, p, (uint32_t *)ll.at, l, (double *)ln.at, n, (uint64_t *)lc.at, c);
    int fits = p == PROBIT_POINT && n >= PROBIT_OBJECTIVE_NUMBERS && c >= PROBIT_OBJECTIVE_COUNTS;
    int answered = fits && l && l <= WHOLE && l % 3 == 0;
    int good = end == (answered ? PROBIT_ANSWERED : PROBIT_INVALID_INPUT);
    good &= kept(&ln, fits ? 8 * PROBIT_OBJECTIVE_NUMBERS : 0) && kept(&lc, fits ? 8 * PROBIT_OBJECTIVE_COUNTS : 0);
    if (fits)
        good &= ((uint64_t *)lc.at)[0] == (answered ? l / 3 : 0);
    expect(good, "probit_objective", p, l, n, c);
    give_back(&lp), give_back(&ll), give_back(&ln), give_back(&lc);
}

/* the fit of these litters, as it is: ln 2 a litter */
static const double claimed[PROBIT_CLAIM + 1] = {0, 0, 0, 0, 2.772588722239781, 9};

static void one_vet(size_t b, size_t l, size_t p, size_t n, size_t c, int where) {
    struct lent lb = lend(bounds, 8 * b, where), ll = lend(litters, 4 * l, where), lp = lend(claimed, 8 * p, where), ln = lend(NULL, 8 * n, where), lc = lend(NULL, 8 * c, where);
    uint64_t end = probit_vet((double *)lb.at, b, 1e-6, 10, 10, 4, (uint32_t *)ll.at, l, (double *)lp.at, p, (double *)ln.at, n, (uint64_t *)lc.at, c);
    int fits = b == PROBIT_BOUNDS && p == PROBIT_CLAIM && n >= PROBIT_VET_NUMBERS && c >= PROBIT_VET_COUNTS;
    int answered = fits && l == WHOLE;
    int good = end == (answered ? PROBIT_ANSWERED : PROBIT_INVALID_INPUT);
    good &= kept(&ln, fits ? 8 * PROBIT_VET_NUMBERS : 0) && kept(&lc, fits ? 8 * PROBIT_VET_COUNTS : 0);
    good &= (!b || !memcmp(lb.at, bounds, 8 * b)) && (!l || !memcmp(ll.at, litters, 4 * l)) && (!p || !memcmp(lp.at, claimed, 8 * p));
    if (fits)
        good &= ((uint64_t *)lc.at)[PROBIT_VET_EVALUATED] == (answered ? 4 : 0) && ((double *)ln.at)[PROBIT_VET_NLL] == (answered ? claimed[PROBIT_CLAIM_NLL] : 0);
    expect(good, "probit_vet", b, p, n, c);
    give_back(&lb), give_back(&ll), give_back(&lp), give_back(&ln), give_back(&lc);
}

static void one_summary(size_t l, size_t c, int where) {
    struct lent ll = lend(litters, 4 * l, where), lc = lend(NULL, 8 * c, where);
    uint64_t end = probit_summary((uint32_t *)ll.at, l, (uint64_t *)lc.at, c);
    int fits = c >= PROBIT_SUMMARY_COUNTS, answered = fits && l && l <= WHOLE && l % 3 == 0;
    int good = end == (answered ? PROBIT_ANSWERED : PROBIT_INVALID_INPUT) && kept(&lc, fits ? 8 * PROBIT_SUMMARY_COUNTS : 0);
    if (fits)
        good &= ((uint64_t *)lc.at)[0] == (answered ? (l / 3 < 2 ? l / 3 : 2) : 0);
    expect(good, "probit_summary", l, c, 0, 0);
    give_back(&ll), give_back(&lc);
}

/* e estimates of 1 with errors of 1, the identity of e rows in the first v places of the covariance; the first and
 * the last are marked. */
static void one_interval(size_t e, size_t v, size_t s, size_t n, uint64_t marks, int where) {
    enum { MOST = PROBIT_MAX_ESTIMATES + 1 };
    double ones[MOST + 1], covariance[MOST * MOST + 1];
    for (size_t i = 0; i <= MOST; i++)
        ones[i] = 1;
    for (size_t i = 0; i <= MOST * MOST; i++)
        covariance[i] = i % (e + 1) == 0;
    struct lent le = lend(ones, 8 * e, where), lv = lend(covariance, 8 * v, where), ls = lend(ones, 8 * s, where), ln = lend(NULL, 8 * n, where);
    uint64_t end = probit_intervals((double *)le.at, e, (double *)lv.at, v, (double *)ls.at, s, marks, (double *)ln.at, n);
    int answered = e >= 1 && e <= PROBIT_MAX_ESTIMATES && v == e * e && s == e && n >= PROBIT_INTERVALS_NUMBERS && marks && marks >> e == 0;
    int good = end == (answered ? PROBIT_ANSWERED : PROBIT_INVALID_INPUT) && kept(&ln, answered ? 8 * PROBIT_INTERVALS_NUMBERS : 0);
    good &= (!e || !memcmp(le.at, ones, 8 * e)) && (!v || !memcmp(lv.at, covariance, 8 * v)) && (!s || !memcmp(ls.at, ones, 8 * s));
    if (answered)
        for (size_t i = 0; i < PROBIT_MAX_ESTIMATES; i++) {
            const double *x = (double *)ln.at + PROBIT_INTERVAL * i;
            int marked = marks >> i & 1;
            good &= x[PROBIT_LOG_ERROR] == marked && (marked ? 0 < x[PROBIT_LOWER] && x[PROBIT_LOWER] < 1 && 1 < x[PROBIT_UPPER] : !x[PROBIT_LOWER] && !x[PROBIT_UPPER]);
        }
    expect(good, "probit_intervals", e, v, s, n);
    give_back(&le), give_back(&lv), give_back(&ls), give_back(&ln);
}

static void intervals(int where) {
    for (size_t e = 0; e <= PROBIT_MAX_ESTIMATES + 1; e++) {
        uint64_t ends = 1 | (e ? (uint64_t)1 << (e - 1) : 0);
        for (size_t v = e * e - (e > 0); v <= e * e + 1; v++)
            for (size_t s = e - (e > 0); s <= e + 1; s++)
                one_interval(e, v, s, PROBIT_INTERVALS_NUMBERS, ends, where);
        for (size_t n = 0; n <= PROBIT_INTERVALS_NUMBERS + 1; n++)
            one_interval(e, e * e, e, n, ends, where);
        one_interval(e, e * e, e, PROBIT_INTERVALS_NUMBERS, 0, where);
        one_interval(e, e * e, e, PROBIT_INTERVALS_NUMBERS, (uint64_t)1 << e, where);
        one_interval(e, e * e, e, PROBIT_INTERVALS_NUMBERS, 1 | (uint64_t)1 << 63, where);
    }
}

/* The archive of the four litters: 60 bytes. Written into o bytes; then its first a bytes are asked for a range into
 * c counts, and checked. */
enum { ARCHIVE = 12 * 4 + 12 };

static void one_write(size_t l, size_t o, int where) {
    struct lent ll = lend(litters, 4 * l, where), lo = lend(NULL, o, where);
    size_t bytes = probit_archive_size(l / 3);
    uint64_t end = probit_archive_write((uint32_t *)ll.at, l, lo.at, o);
    int answered = l <= WHOLE && l % 3 == 0 && o >= bytes;
    expect(end == (answered ? PROBIT_ANSWERED : PROBIT_INVALID_INPUT) && kept(&lo, answered ? bytes : 0) && (!l || !memcmp(ll.at, litters, 4 * l)), "probit_archive_write", l, o, 0, 0);
    if (answered)
        expect(probit_archive_check(lo.at, bytes) == 1 && probit_archive_check(lo.at, o) == (o == bytes), "probit_archive_check", l, o, 0, 0);
    give_back(&ll), give_back(&lo);
}

static void one_range(const uint8_t *archive, size_t a, size_t from, size_t to, size_t c, int where) {
    struct lent la = lend(archive, a, where), lc = lend(NULL, 8 * c, where);
    uint64_t end = probit_archive_range(la.at, a, from, to, (uint64_t *)lc.at, c);
    int fits = c >= PROBIT_SUMMARY_COUNTS, shaped = a == ARCHIVE, answered = fits && shaped && from <= to && to <= 4;
    int good = end == (!fits ? PROBIT_INVALID_INPUT : !shaped ? PROBIT_FORM : answered ? PROBIT_ANSWERED : PROBIT_INVALID_INPUT);
    good &= kept(&lc, fits ? 8 * PROBIT_SUMMARY_COUNTS : 0) && (!a || !memcmp(la.at, archive, a));
    if (fits) {
        const uint64_t *x = (uint64_t *)lc.at;
        good &= x[PROBIT_SUMMARY_LITTERS] + x[PROBIT_SUMMARY_GROUP + PROBIT_SUMMARY_LITTERS] == (answered ? to - from : 0);
    }
    expect(good, "probit_archive_range", a, from, to, c);
    expect(probit_archive_check(la.at, a) == (uint64_t)shaped, "probit_archive_check", a, 0, 0, 0);
    give_back(&la), give_back(&lc);
}

static void archives(int where) {
    static const size_t ends[] = {0, 1, 2, 3, 4, 5, SIZE_MAX};
    uint8_t archive[ARCHIVE + 1] = {0};
    for (size_t l = 0; l <= WHOLE + 1; l++)
        for (size_t o = 0; o <= ARCHIVE + 2; o++)
            one_write(l, o, where);
    expect(probit_archive_write(litters, WHOLE, archive, ARCHIVE) == PROBIT_ANSWERED && probit_archive_size(4) == ARCHIVE, "probit_archive_write", WHOLE, ARCHIVE, 0, 0);
    for (size_t a = 0; a <= ARCHIVE + 1; a++)
        for (size_t c = 0; c <= PROBIT_SUMMARY_COUNTS + 1; c++)
            one_range(archive, a, 1, 3, c, where);
    for (size_t i = 0; i < sizeof ends / sizeof *ends; i++)
        for (size_t j = 0; j < sizeof ends / sizeof *ends; j++)
            one_range(archive, ARCHIVE, ends[i], ends[j], PROBIT_SUMMARY_COUNTS, where);
}

/* Rows of counts; every fit is over at its start, since the tolerance is above any slope. */
static const double box[PROBIT_COUNTS_BOUNDS + 1] = {0.5, 2, 1, 0.5, 2, 1, 9};
static const uint32_t events[] = {1, 0, 2, 7};
static const double exposures[] = {1, 2, 0.5, 9};
enum { ROWS = 4 };

static uint64_t first_events(size_t n) {
    uint64_t sum = 0;
    for (size_t i = 0; i < n; i++)
        sum += events[i];
    return sum;
}

static void one_counts_fit(size_t b, size_t e, size_t x, size_t n, size_t c, int where) {
    struct lent lb = lend(box, 8 * b, where), le = lend(events, 4 * e, where), lx = lend(exposures, 8 * x, where), ln = lend(NULL, 8 * n, where), lc = lend(NULL, 8 * c, where);
    uint64_t end = probit_counts_fit((double *)lb.at, b, 1e9, 10, 10, (uint32_t *)le.at, e, (double *)lx.at, x, (double *)ln.at, n, (uint64_t *)lc.at, c);
    int fits = b == PROBIT_COUNTS_BOUNDS && n >= PROBIT_COUNTS_FIT_NUMBERS && c >= PROBIT_COUNTS_FIT_COUNTS;
    int answered = fits && e == x && e >= PROBIT_COUNTS_MIN_ROWS;
    int good = end == (answered ? PROBIT_ANSWERED : PROBIT_INVALID_INPUT);
    good &= kept(&ln, fits ? 8 * PROBIT_COUNTS_FIT_NUMBERS : 0) && kept(&lc, fits ? 8 * PROBIT_COUNTS_FIT_COUNTS : 0);
    good &= (!b || !memcmp(lb.at, box, 8 * b)) && (!e || !memcmp(le.at, events, 4 * e)) && (!x || !memcmp(lx.at, exposures, 8 * x));
    if (fits) {
        const uint64_t *k = (uint64_t *)lc.at;
        const double *v = (double *)ln.at;
        good &= k[PROBIT_COUNTS_STATUS] == (answered ? PROBIT_CONVERGED : PROBIT_NO_STATUS) && k[PROBIT_COUNTS_EVALUATIONS] == (uint64_t)answered;
        good &= k[PROBIT_COUNTS_PASSES] == (answered ? first_events(e) : 0) && k[PROBIT_COUNTS_ROWS] == (answered ? e : 0) && !k[PROBIT_COUNTS_REASON];
        good &= v[PROBIT_COUNTS_SHAPE] == answered && v[PROBIT_COUNTS_RATE] == answered && (v[PROBIT_COUNTS_NLL] > 0) == answered;
    }
    expect(good, "probit_counts_fit", b, e, x, n);
    give_back(&lb), give_back(&le), give_back(&lx), give_back(&ln), give_back(&lc);
}

static void one_counts_objective(size_t e, size_t x, size_t n, size_t c, int where) {
    struct lent le = lend(events, 4 * e, where), lx = lend(exposures, 8 * x, where), ln = lend(NULL, 8 * n, where), lc = lend(NULL, 8 * c, where);
    uint64_t end = probit_counts_objective(1, 1, (uint32_t *)le.at, e, (double *)lx.at, x, (double *)ln.at, n, (uint64_t *)lc.at, c);
    int fits = n >= PROBIT_COUNTS_OBJECTIVE_NUMBERS && c >= PROBIT_COUNTS_OBJECTIVE_COUNTS, answered = fits && e == x && e;
    int good = end == (answered ? PROBIT_ANSWERED : PROBIT_INVALID_INPUT);
    good &= kept(&ln, fits ? 8 * PROBIT_COUNTS_OBJECTIVE_NUMBERS : 0) && kept(&lc, fits ? 8 * PROBIT_COUNTS_OBJECTIVE_COUNTS : 0);
    good &= (!e || !memcmp(le.at, events, 4 * e)) && (!x || !memcmp(lx.at, exposures, 8 * x));
    if (fits) {
        const double *v = (double *)ln.at, *h = v + PROBIT_COUNTS_OBJECTIVE_HESSIAN;
        good &= ((uint64_t *)lc.at)[PROBIT_COUNTS_OBJECTIVE_PASSES] == (answered ? first_events(e) : 0) && !((uint64_t *)lc.at)[PROBIT_COUNTS_OBJECTIVE_REASON];
        good &= (v[PROBIT_COUNTS_OBJECTIVE_NLL] > 0) == answered && h[1] == h[2] && (h[1] < 0) == answered && (h[3] > 0) == answered;
    }
    expect(good, "probit_counts_objective", e, x, n, c);
    give_back(&le), give_back(&lx), give_back(&ln), give_back(&lc);
}

static void tallies(int where) {
    for (size_t b = 0; b <= PROBIT_COUNTS_BOUNDS + 1; b++)
        for (size_t n = 0; n <= PROBIT_COUNTS_FIT_NUMBERS + 1; n++)
            for (size_t c = 0; c <= PROBIT_COUNTS_FIT_COUNTS + 1; c++)
                one_counts_fit(b, ROWS, ROWS, n, c, where);
    for (size_t n = 0; n <= PROBIT_COUNTS_OBJECTIVE_NUMBERS + 1; n++)
        for (size_t c = 0; c <= PROBIT_COUNTS_OBJECTIVE_COUNTS + 1; c++)
            one_counts_objective(ROWS, ROWS, n, c, where);
    for (size_t e = 0; e <= ROWS; e++)
        for (size_t x = 0; x <= ROWS; x++) {
            one_counts_fit(PROBIT_COUNTS_BOUNDS, e, x, PROBIT_COUNTS_FIT_NUMBERS, PROBIT_COUNTS_FIT_COUNTS, where);
            one_counts_objective(e, x, PROBIT_COUNTS_OBJECTIVE_NUMBERS, PROBIT_COUNTS_OBJECTIVE_COUNTS, where);
        }
    one_counts_fit(0, 0, 0, 0, 0, where), one_counts_objective(0, 0, 0, 0, where);
}

static void one_text(size_t r, size_t o, int where) {
    struct lent lr = lend(request, r, where), lo = lend(NULL, o, where);
    size_t n = probit_text(lr.at, r, lo.at, o);
    int good = o < PROBIT_TEXT ? n == 0 && kept(&lo, 0) : n > 0 && n <= PROBIT_TEXT && kept(&lo, n);
    if (o >= PROBIT_TEXT)
        good &= !memcmp(lo.at, r < sizeof request - 1 ? "refused 4" : "status co", 9);
    expect(good, "probit_text", r, o, 0, 0);
    give_back(&lr), give_back(&lo);
}

/* As many litters as there may be, and one more. With SDs of 0 each is one evaluation, and one of two pups is at the
 * means' start. */
static void most_litters(void) {
    double numbers[PROBIT_FIT_NUMBERS];
    uint64_t counts[PROBIT_FIT_COUNTS], end;
    uint32_t many[PROBIT_LITTER_NUMBERS * (PROBIT_MAX_LITTERS + 1)];
    for (size_t i = 0; i <= PROBIT_MAX_LITTERS; i++)
        many[3 * i + PROBIT_AFFECTED] = 1, many[3 * i + PROBIT_PUPS] = 2, many[3 * i + PROBIT_GROUP] = i % 2;
    for (size_t n = PROBIT_MAX_LITTERS; n <= PROBIT_MAX_LITTERS + 1; n++) {
        uint64_t refused = n > PROBIT_MAX_LITTERS;
        for (uint64_t limit = 127; limit <= 128; limit++) {
            end = probit_fit(bounds, PROBIT_BOUNDS, 1e-6, 10, 10, limit, many, 3 * n, numbers, PROBIT_FIT_NUMBERS, counts, PROBIT_FIT_COUNTS);
            expect(end == (refused ? PROBIT_INVALID_INPUT : limit < n ? PROBIT_WORK_BUDGET : PROBIT_ANSWERED) && counts[PROBIT_QUADRATURE] == (refused ? 0 : limit), "probit_fit", n, limit, 0, 0);
        }
        end = probit_objective(point, PROBIT_POINT, many, 3 * n, numbers, PROBIT_OBJECTIVE_NUMBERS, counts, PROBIT_OBJECTIVE_COUNTS);
        expect(end == refused && counts[0] == (refused ? 0 : n), "probit_objective", n, 0, 0, 0);
        end = probit_summary(many, 3 * n, counts, PROBIT_SUMMARY_COUNTS);
        expect(end == refused && counts[0] == (refused ? 0 : 64) && counts[6] == (refused ? 0 : 128), "probit_summary", n, 0, 0, 0);
    }
}

/* What is too long is refused by its length: it lies where nothing may be touched. */
static void too_long(void) {
    static const size_t lengths[] = {PROBIT_LITTER_NUMBERS * (PROBIT_MAX_LITTERS + 1), 300000000};
    size_t bytes = sizeof(uint32_t) * lengths[1];
    void *none = mmap(NULL, bytes, PROT_NONE, MAP_PRIVATE | MAP_ANONYMOUS | MAP_NORESERVE, -1, 0);
    double numbers[PROBIT_FIT_NUMBERS];
    static const double claimed[PROBIT_CLAIM];
    uint64_t counts[PROBIT_FIT_COUNTS], reasons[PROBIT_WHY];
    uint8_t out[PROBIT_TEXT];
    if (none == MAP_FAILED)
        perror("short: mmap"), exit(2);
    for (int i = 0; i < 2; i++) {
        size_t n = lengths[i];
        expect(probit_fit(bounds, PROBIT_BOUNDS, 1e-6, 10, 10, 4, none, n, numbers, PROBIT_FIT_NUMBERS, counts, PROBIT_FIT_COUNTS) == PROBIT_INVALID_INPUT, "probit_fit", n, 0, 0, 0);
        expect(probit_objective(point, PROBIT_POINT, none, n, numbers, PROBIT_OBJECTIVE_NUMBERS, counts, PROBIT_OBJECTIVE_COUNTS) == PROBIT_INVALID_INPUT, "probit_objective", n, 0, 0, 0);
        expect(probit_why(bounds, PROBIT_BOUNDS, 1e-6, 10, 10, 4, none, n, 1, numbers, PROBIT_FIT_NUMBERS, counts, PROBIT_FIT_COUNTS, reasons, PROBIT_WHY) == PROBIT_INVALID_INPUT, "probit_why", n, 0, 0, 0);
        expect(probit_vet(bounds, PROBIT_BOUNDS, 1e-6, 10, 10, 4, none, n, claimed, PROBIT_CLAIM, numbers, PROBIT_VET_NUMBERS, counts, PROBIT_VET_COUNTS) == PROBIT_INVALID_INPUT, "probit_vet", n, 0, 0, 0);
        expect(probit_summary(none, n, counts, PROBIT_SUMMARY_COUNTS) == PROBIT_INVALID_INPUT, "probit_summary", n, 0, 0, 0);
    }
    for (int i = 0; i < 2; i++) {
        size_t n = i ? bytes / sizeof(double) : PROBIT_COUNTS_MAX_ROWS + 1;
        expect(probit_counts_fit(box, PROBIT_COUNTS_BOUNDS, 1e9, 10, 10, none, n, none, n, numbers, PROBIT_COUNTS_FIT_NUMBERS, counts, PROBIT_COUNTS_FIT_COUNTS) == PROBIT_INVALID_INPUT, "probit_counts_fit", n, 0, 0, 0);
        expect(probit_counts_objective(1, 1, none, n, none, n, numbers, PROBIT_COUNTS_OBJECTIVE_NUMBERS, counts, PROBIT_COUNTS_OBJECTIVE_COUNTS) == PROBIT_INVALID_INPUT, "probit_counts_objective", n, 0, 0, 0);
    }
    expect(probit_archive_write(none, PROBIT_LITTER_NUMBERS * (PROBIT_MAX_ARCHIVE + 1), out, sizeof out) == PROBIT_INVALID_INPUT, "probit_archive_write", PROBIT_MAX_ARCHIVE + 1, 0, 0, 0);
    expect(probit_archive_size(PROBIT_MAX_ARCHIVE) == PROBIT_MAX_ARCHIVE_BYTES && !probit_archive_size(PROBIT_MAX_ARCHIVE + 1) && !probit_archive_size(SIZE_MAX), "probit_archive_size", 0, 0, 0, 0);
    expect(probit_text(none, PROBIT_MAX_REQUEST + 1, out, sizeof out) == 14 && !memcmp(out, "refused 4 0 0\n", 14), "probit_text", bytes, 0, 0, 0);
    munmap(none, bytes);
}

/* the neighbours of a number that is not below 0 */
static double beside(double x, int64_t by) {
    uint64_t n;
    memcpy(&n, &x, sizeof n), n += by, memcpy(&x, &n, sizeof n);
    return x;
}
static double above(double x) { return beside(x, 1); }
static double below(double x) { return beside(x, -1); }

/* The fit of the four litters with one number of its bounds, one limit or one litter changed; each fit is over after
 * its first evaluation. */
enum what { BOUND, EVALUATIONS, ITERATIONS, QUADRATURE, LITTER };
static void one_limit(enum what what, size_t i, double x, int taken) {
    double b[PROBIT_BOUNDS], numbers[PROBIT_FIT_NUMBERS];
    uint64_t counts[PROBIT_FIT_COUNTS], limit[] = {10, 10, 10};
    uint32_t l[WHOLE];
    memcpy(b, bounds, sizeof b), memcpy(l, litters, sizeof l);
    if (what == BOUND)
        b[i] = x;
    else if (what == LITTER)
        l[i] = x;
    else
        limit[what - EVALUATIONS] = x;
    expect(probit_fit(b, PROBIT_BOUNDS, 1e-6, limit[0], limit[1], limit[2], l, WHOLE, numbers, PROBIT_FIT_NUMBERS, counts, PROBIT_FIT_COUNTS) ==
               (taken ? PROBIT_ANSWERED : PROBIT_INVALID_INPUT), "a limit of probit_fit", what, i, taken, 0);
}

static void one_point(size_t i, double x, int taken) {
    double p[PROBIT_POINT], numbers[PROBIT_OBJECTIVE_NUMBERS];
    uint64_t counts[PROBIT_OBJECTIVE_COUNTS];
    memcpy(p, point, sizeof p);
    p[i] = x;
    expect(probit_objective(p, PROBIT_POINT, litters, WHOLE, numbers, PROBIT_OBJECTIVE_NUMBERS, counts, PROBIT_OBJECTIVE_COUNTS) ==
               (taken ? PROBIT_ANSWERED : PROBIT_INVALID_INPUT), "a limit of probit_objective", i, taken, 0, 0);
}

static void limits(void) {
    static const uint64_t most[] = {PROBIT_MAX_EVALUATIONS, PROBIT_MAX_ITERATIONS, PROBIT_MAX_QUADRATURE};
    static uint8_t text[PROBIT_MAX_REQUEST + 1];
    uint8_t out[PROBIT_TEXT];
    for (int k = 0; k < 3; k++) {
        one_limit(EVALUATIONS + k, 0, 0, 0), one_limit(EVALUATIONS + k, 0, k == 2 ? 4 : 1, 1);
        one_limit(EVALUATIONS + k, 0, most[k], 1), one_limit(EVALUATIONS + k, 0, most[k] + 1, 0);
    }
    for (int g = 0; g < 2; g++) {
        double low = -PROBIT_MAX_MEAN;
        one_limit(BOUND, 3 * g, low, 1), one_limit(BOUND, 3 * g, -above(PROBIT_MAX_MEAN), 0);
        one_limit(BOUND, 3 * g + 1, PROBIT_MAX_MEAN, 1), one_limit(BOUND, 3 * g + 1, above(PROBIT_MAX_MEAN), 0);
        one_limit(BOUND, 6 + 3 * g, -above(0), 0), one_limit(BOUND, 7 + 3 * g, PROBIT_MAX_SD, 1), one_limit(BOUND, 7 + 3 * g, above(PROBIT_MAX_SD), 0);
        one_point(g, PROBIT_MAX_MEAN, 1), one_point(g, low, 1), one_point(g, above(PROBIT_MAX_MEAN), 0), one_point(g, -above(PROBIT_MAX_MEAN), 0);
        one_point(2 + g, PROBIT_MAX_VARIANCE, 1), one_point(2 + g, above(PROBIT_MAX_VARIANCE), 0), one_point(2 + g, -above(0), 0);
    }
    one_limit(LITTER, PROBIT_PUPS, 0, 0), one_limit(LITTER, PROBIT_PUPS, PROBIT_MAX_PUPS + 1, 0);
    one_limit(LITTER, PROBIT_AFFECTED, 3, 0), one_limit(LITTER, PROBIT_GROUP, 2, 0);
    one_limit(LITTER, PROBIT_GROUP, 1, 0); /* one litter of group 0 and three of group 1, where PROBIT_MIN_LITTERS_A_GROUP are asked */
    expect(PROBIT_MIN_LITTERS_A_GROUP == 2 && probit_version() == PROBIT_VERSION, "a constant of the header", 0, 0, 0, 0);
    memset(text, '\n', sizeof text);
    expect(probit_text(text, PROBIT_MAX_REQUEST, out, sizeof out) == 14 && !memcmp(out, "refused 4 0 1\n", 14), "probit_text", PROBIT_MAX_REQUEST, 0, 0, 0);
    expect(probit_text(text, PROBIT_MAX_REQUEST + 1, out, sizeof out) == 14 && !memcmp(out, "refused 4 0 0\n", 14), "probit_text", PROBIT_MAX_REQUEST + 1, 0, 0, 0);
    {
        uint32_t large[] = {PROBIT_MAX_PUPS, PROBIT_MAX_PUPS, 0};
        uint64_t counts[PROBIT_SUMMARY_COUNTS];
        expect(probit_summary(large, 3, counts, PROBIT_SUMMARY_COUNTS) == PROBIT_ANSWERED && counts[PROBIT_SUMMARY_PUPS] == PROBIT_MAX_PUPS, "probit_summary", 1, 0, 0, 0);
        large[PROBIT_AFFECTED]++, large[PROBIT_PUPS]++;
        expect(probit_summary(large, 3, counts, PROBIT_SUMMARY_COUNTS) == PROBIT_INVALID_INPUT, "probit_summary", 1, 0, 0, 0);
    }
}

/* A fit of n rows with their events in the first, over at its start; and the objective there. A limit of 0
 * evaluations asks for the objective alone. */
static void one_tall(size_t n, uint32_t sum, uint64_t evaluations, int taken) {
    static uint32_t many[PROBIT_COUNTS_MAX_ROWS + 1];
    static double units[PROBIT_COUNTS_MAX_ROWS + 1];
    double numbers[PROBIT_COUNTS_OBJECTIVE_NUMBERS];
    uint64_t counts[PROBIT_COUNTS_FIT_COUNTS], end = taken ? PROBIT_ANSWERED : PROBIT_INVALID_INPUT;
    for (size_t i = 0; i < n; i++)
        many[i] = 0, units[i] = 1;
    many[0] = sum;
    if (evaluations)
        expect(probit_counts_fit(box, PROBIT_COUNTS_BOUNDS, 1e300, evaluations, 1, many, n, units, n, numbers, PROBIT_COUNTS_FIT_NUMBERS, counts, PROBIT_COUNTS_FIT_COUNTS) == end &&
                   counts[PROBIT_COUNTS_PASSES] == (taken ? sum : 0), "a limit of probit_counts_fit", n, sum, evaluations, taken);
    else
        expect(probit_counts_objective(1, 1, many, n, units, n, numbers, PROBIT_COUNTS_OBJECTIVE_NUMBERS, counts, PROBIT_COUNTS_OBJECTIVE_COUNTS) == end &&
                   counts[PROBIT_COUNTS_OBJECTIVE_PASSES] == (taken ? sum : 0), "a limit of probit_counts_objective", n, sum, 0, taken);
}

/* The fit of the four rows with one bound changed, and the objective at it. */
static void one_box(size_t i, double x, uint64_t evaluations, uint64_t iterations, int taken) {
    double b[PROBIT_COUNTS_BOUNDS], numbers[PROBIT_COUNTS_OBJECTIVE_NUMBERS];
    uint64_t counts[PROBIT_COUNTS_FIT_COUNTS], end = taken ? PROBIT_ANSWERED : PROBIT_INVALID_INPUT;
    memcpy(b, box, sizeof b);
    b[i] = x;
    expect(probit_counts_fit(b, PROBIT_COUNTS_BOUNDS, 1e300, evaluations, iterations, events, ROWS, exposures, ROWS, numbers, PROBIT_COUNTS_FIT_NUMBERS, counts, PROBIT_COUNTS_FIT_COUNTS) == end,
           "a limit of probit_counts_fit", i, evaluations, iterations, taken);
    if (evaluations == 1 && iterations == 1)
        expect(probit_counts_objective(i < 3 ? x : 1, i < 3 ? 1 : x, events, ROWS, exposures, ROWS, numbers, PROBIT_COUNTS_OBJECTIVE_NUMBERS, counts, PROBIT_COUNTS_OBJECTIVE_COUNTS) == end,
               "a limit of probit_counts_objective", i, taken, 0, 0);
}

static void limits_of_counts(void) {
    static const uint64_t most[] = {PROBIT_COUNTS_MAX_EVALUATIONS, PROBIT_COUNTS_MAX_ITERATIONS};
    one_box(0, PROBIT_COUNTS_MIN_SHAPE, 1, 1, 1), one_box(0, below(PROBIT_COUNTS_MIN_SHAPE), 1, 1, 0);
    one_box(1, PROBIT_COUNTS_MAX_SHAPE, 1, 1, 1), one_box(1, above(PROBIT_COUNTS_MAX_SHAPE), 1, 1, 0);
    one_box(3, above(0), 1, 1, 1), one_box(3, 0, 1, 1, 0);
    one_box(0, 0.5, 0, 1, 0), one_box(0, 0.5, 1, 0, 0);
    one_box(0, 0.5, most[0], 1, 1), one_box(0, 0.5, most[0] + 1, 1, 0), one_box(0, 0.5, 1, most[1], 1), one_box(0, 0.5, 1, most[1] + 1, 0);
    for (uint64_t fit = 0; fit < 2; fit++) {
        size_t least = fit ? PROBIT_COUNTS_MIN_ROWS : 1;
        one_tall(least - 1, 0, fit, 0), one_tall(least, 3, fit, 1);
        one_tall(PROBIT_COUNTS_MAX_ROWS, 3, fit, 1), one_tall(PROBIT_COUNTS_MAX_ROWS + 1, 3, fit, 0);
        one_tall(2, PROBIT_COUNTS_MAX_EVENTS, fit, 1), one_tall(2, PROBIT_COUNTS_MAX_EVENTS + 1, fit, 0);
    }
    one_tall(2, PROBIT_COUNTS_MAX_PRODUCT / 10000 - 2, 10000, 1), one_tall(2, PROBIT_COUNTS_MAX_PRODUCT / 10000 - 1, 10000, 0);
    one_tall(2, (PROBIT_COUNTS_MAX_PRODUCT + 1) / 21 - 2, 21, 0); /* one above */
}

int main(int argc, char **argv) {
    heap = argc == 2 && !strcmp(argv[1], "heap");
    for (int where = 0; where < 3; where++) {
        for (size_t b = 0; b <= PROBIT_BOUNDS + 1; b++)
            for (size_t n = 0; n <= PROBIT_FIT_NUMBERS + 1; n++)
                for (size_t c = 0; c <= PROBIT_FIT_COUNTS + 1; c++)
                    one_fit(b, WHOLE, n, c, where);
        for (size_t b = 0; b <= PROBIT_BOUNDS + 1; b++)
            for (size_t c = 0; c <= PROBIT_FIT_COUNTS + 1; c++)
                for (size_t r = 0; r <= PROBIT_WHY + 1; r++)
                    one_why(b, WHOLE, PROBIT_FIT_NUMBERS, c, r, where);
        for (size_t n = 0; n <= PROBIT_FIT_NUMBERS + 1; n++)
            one_why(PROBIT_BOUNDS, WHOLE, n, PROBIT_FIT_COUNTS, PROBIT_WHY, where);
        for (size_t l = 0; l <= WHOLE + 1; l++) {
            one_why(PROBIT_BOUNDS, l, PROBIT_FIT_NUMBERS, PROBIT_FIT_COUNTS, PROBIT_WHY, where);
            one_fit(PROBIT_BOUNDS, l, PROBIT_FIT_NUMBERS, PROBIT_FIT_COUNTS, where);
            one_objective(PROBIT_POINT, l, PROBIT_OBJECTIVE_NUMBERS, PROBIT_OBJECTIVE_COUNTS, where);
            one_vet(PROBIT_BOUNDS, l, PROBIT_CLAIM, PROBIT_VET_NUMBERS, PROBIT_VET_COUNTS, where);
            for (size_t c = 0; c <= PROBIT_SUMMARY_COUNTS + 1; c++)
                one_summary(l, c, where);
        }
        for (size_t b = 0; b <= PROBIT_BOUNDS + 1; b++)
            for (size_t p = 0; p <= PROBIT_CLAIM + 1; p++)
                for (size_t n = 0; n <= PROBIT_VET_NUMBERS + 1; n++)
                    for (size_t c = 0; c <= PROBIT_VET_COUNTS + 1; c++)
                        one_vet(b, WHOLE, p, n, c, where);
        for (size_t p = 0; p <= PROBIT_POINT + 1; p++)
            for (size_t n = 0; n <= PROBIT_OBJECTIVE_NUMBERS + 1; n++)
                for (size_t c = 0; c <= PROBIT_OBJECTIVE_COUNTS + 1; c++)
                    one_objective(p, WHOLE, n, c, where);
        for (size_t o = 0; o <= PROBIT_TEXT + 1; o++)
            one_text(sizeof request - 1, o, where);
        for (size_t r = 0; r < sizeof request; r++)
            one_text(r, PROBIT_TEXT, where);
        intervals(where);
        archives(where);
        tallies(where);
        one_fit(0, 0, 0, 0, where), one_why(0, 0, 0, 0, 0, where), one_objective(0, 0, 0, 0, where), one_vet(0, 0, 0, 0, 0, where), one_summary(0, 0, where), one_text(0, 0, where);
    }
    most_litters();
    limits();
    limits_of_counts();
    too_long();
    printf("short: %ld calls, %ld wrong\n", calls, wrong);
    return wrong != 0;
}
