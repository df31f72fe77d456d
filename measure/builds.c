// Two builds of the library, loaded side by side: the time of each request's whole answer, old and new in turn, the
// best round of each.
#include <dlfcn.h>
#include <stdint.h>
#include <stdio.h>
#include <stdlib.h>
#include <string.h>
#include <time.h>

typedef uint64_t (*answer)(const unsigned char *, size_t, unsigned char *, size_t);

enum { TEXT = 8192, ANSWER = 4096 };
// Long enough for the clock, short enough that a quiet moment serves a whole round.
static const double ROUND = 0.004;

static double now(void) {
    struct timespec t;
    clock_gettime(CLOCK_PROCESS_CPUTIME_ID, &t);
    return (double)t.tv_sec + 1e-9 * (double)t.tv_nsec;
}

static answer loaded(const char *file) {
    void *library = dlopen(file, RTLD_NOW | RTLD_LOCAL);
    answer f = NULL;
    if (library) *(void **)&f = dlsym(library, "probit_text");
    if (!f) {
        fprintf(stderr, "builds: %s\n", dlerror());
        exit(1);
    }
    return f;
}

static double timed(answer f, const unsigned char *text, size_t n, long calls) {
    unsigned char out[ANSWER];
    double start = now();
    for (long i = 0; i < calls; i++) f(text, n, out, sizeof out);
    return (now() - start) / (double)calls;
}

int main(int count, char **words) {
    answer sides[2] = {loaded(words[1]), loaded(words[2])};
    long rounds = atol(words[3]);
    for (int k = 4; k < count; k++) {
        unsigned char text[TEXT + 1], out[2][ANSWER];
        FILE *file = fopen(words[k], "rb");
        if (!file) {
            fprintf(stderr, "builds: %s cannot be read\n", words[k]);
            return 2;
        }
        size_t n = fread(text, 1, sizeof text, file);
        fclose(file);
        uint64_t length[2];
        for (int s = 0; s < 2; s++) length[s] = sides[s](text, n, out[s], ANSWER);
        if (length[0] != length[1] || memcmp(out[0], out[1], length[0])) printf("the answers to %s differ\n", words[k]);
        long calls = 1 + (long)(ROUND / timed(sides[0], text, n, 1));
        double best[2] = {1e9, 1e9};
        for (long r = 0; r < rounds; r++)
            for (int s = 0; s < 2; s++) {
                int side = (int)(r + s) & 1;
                double t = timed(sides[side], text, n, calls);
                if (t < best[side]) best[side] = t;
            }
        const char *name = strrchr(words[k], '/');
        printf("%-24s old %9.2f us  new %9.2f us  new/old %.4f\n", name ? name + 1 : words[k], 1e6 * best[0], 1e6 * best[1], best[1] / best[0]);
    }
    return 0;
}
