/* time NAME FORMULA PROOF SAMPLES: one line of the table. Both checkers judge the two files by turns; a sample is as many calls as take
   a twentieth of a second, and the best sample counts. Time is that of the process, so that other work on the machine matters less. */
#define _POSIX_C_SOURCE 200809L
#include "../include/boxcarousel.h"
#include "checker.h"
#include <stdio.h>
#include <stdlib.h>
#include <string.h>
#include <time.h>

typedef void check(const uint8_t *, size_t, const uint8_t *, size_t, uint32_t *, size_t, uint8_t *, size_t, uint64_t *);

enum { ROOM = 1048577 };

static uint8_t formula[ROOM], proof[ROOM];
static size_t formula_length, proof_length;
static uint32_t words[BOXCAROUSEL_WORDS];
static uint8_t bytes[BOXCAROUSEL_BYTES];

static size_t load(const char *name, uint8_t *to) {
    size_t length;
    FILE *file = fopen(name, "rb");
    if (file == NULL) {
        fprintf(stderr, "time: %s cannot be read\n", name);
        exit(2);
    }
    length = fread(to, 1, ROOM, file);
    fclose(file);
    return length;
}

static double now(void) {
    struct timespec t;
    clock_gettime(CLOCK_PROCESS_CPUTIME_ID, &t);
    return t.tv_sec * 1e3 + t.tv_nsec / 1e6;
}

/* Milliseconds a call, over that many calls. */
static double sample(check *f, unsigned calls, uint64_t out[4]) {
    double start = now();
    for (unsigned i = 0; i < calls; i++)
        f(formula, formula_length, proof, proof_length, words, BOXCAROUSEL_WORDS, bytes, BOXCAROUSEL_BYTES, out);
    return (now() - start) / calls;
}

int main(int count, char **given) {
    static const char *const verdict[] = {"refuted", "held", "refused"};
    check *const both[2] = {plain_check, boxcarousel_check};
    double best[2];
    uint64_t out[2][4];
    unsigned calls, samples = count == 5 ? (unsigned)atoi(given[4]) : 0;
    char answer[100];
    if (samples == 0) {
        fputs("usage: time NAME FORMULA PROOF SAMPLES\n", stderr);
        return 2;
    }
    formula_length = load(given[2], formula);
    proof_length = load(given[3], proof);
    for (int k = 0; k < 2; k++) best[k] = sample(both[k], 1, out[k]);
    calls = best[0] < 50 ? (unsigned)(50 / best[0]) + 1 : 1;
    for (unsigned i = 0; i < samples; i++)
        for (int k = 0; k < 2; k++) {
            double t = sample(both[k], calls, out[k]);
            if (t < best[k]) best[k] = t;
        }
    if (memcmp(out[0], out[1], sizeof out[0]) != 0) {
        fprintf(stderr, "time: %s: the answers differ\n", given[1]);
        return 1;
    }
    snprintf(answer, sizeof answer, "%s %d %d %d", verdict[out[0][0]], (int)out[0][1], (int)out[0][2], (int)out[0][3]);
    printf("%-16s %-20s %10.3f %10.3f %7.2f\n", given[1], answer, best[0], best[1], best[1] / best[0]);
    return 0;
}
