/* What the benchmarks share: a clock, and the time of one call. */
#include <stdint.h>
#include <stdio.h>
#include <string.h>
#include <time.h>

static double now(void) {
    struct timespec t;
    clock_gettime(CLOCK_MONOTONIC, &t);
    return t.tv_sec * 1e9 + t.tv_nsec;
}

/* Nanoseconds of a call with this argument, the best of five passes. Every result must be the expected one. */
static inline void report(const char *name, uint64_t (*call)(unsigned), unsigned argument, uint64_t answer) {
    const int rounds = 1000000;
    uint64_t sum = 0;
    double best = 1e18;
    for (int pass = 0; pass < 5; pass++) {
        double start = now();
        for (int i = 0; i < rounds; i++)
            sum += call(argument);
        double ns = (now() - start) / rounds;
        if (ns < best)
            best = ns;
    }
    printf("%-32s %7.1f ns%s\n", name, best, sum == 5ull * rounds * answer ? "" : "  (another answer)");
}
