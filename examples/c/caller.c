/* Calls the checker from C on the two files that it is given, or on case A of the paper, and prints the four numbers. */
#include "boxcarousel.h"
#include <inttypes.h>
#include <stdio.h>

/* One byte more than the longest file that the checker takes, so that a longer one is seen. */
enum { ROOM = 1048577 };

static uint8_t formula[ROOM], proof[ROOM];
static uint32_t words[BOXCAROUSEL_WORDS];
static uint8_t bytes[BOXCAROUSEL_BYTES];

static const uint8_t formula_a[] = {0x01, 0, 4, 0, 2, 0, 1, 0x02, 0, 4, 0, 3, 0, 5};
static const uint8_t proof_a[] = {0x13, 0, 2, 0, 3, 0x21, 0, 8, 0, 1, 0, 4, 0, 2, 0, 2, 0x22, 0, 0};

static int load(const char *name, uint8_t *to, size_t *length) {
    FILE *file = fopen(name, "rb");
    int good;
    if (file == NULL) return 0;
    *length = fread(to, 1, ROOM, file);
    good = !ferror(file);
    fclose(file);
    return good;
}

static int tell(const uint8_t *f, size_t n, const uint8_t *p, size_t k) {
    static const char *const verdict[] = {"refuted", "held", "refused"};
    uint64_t out[4];
    if (!boxcarousel(f, n, p, k, words, BOXCAROUSEL_WORDS, bytes, BOXCAROUSEL_BYTES, out)) {
        fputs("caller: the call owes something\n", stderr);
        return 1;
    }
    printf("%s %" PRIu64 " %" PRIu64 " %" PRIu64 "\n", verdict[out[0]], out[1], out[2], out[3]);
    return 0;
}

/* A call that owes something is not made. */
static int owing_calls(void) {
    uint64_t out[4] = {9, 9, 9, 9};
    int made = boxcarousel(formula_a, sizeof formula_a, NULL, 1, words, BOXCAROUSEL_WORDS, bytes, BOXCAROUSEL_BYTES, out)
        + boxcarousel(bytes, 14, proof_a, sizeof proof_a, words, BOXCAROUSEL_WORDS, bytes, BOXCAROUSEL_BYTES, out)
        + boxcarousel(formula_a, sizeof formula_a, proof_a, sizeof proof_a, words, BOXCAROUSEL_WORDS, (uint8_t *)words, 8192, out)
        + boxcarousel(formula_a, sizeof formula_a, proof_a, sizeof proof_a, NULL, BOXCAROUSEL_WORDS, bytes, BOXCAROUSEL_BYTES, out);
    return made == 0 && out[0] == 9;
}

int main(int count, char **names) {
    size_t n, k;
    if (count == 3) {
        if (!load(names[1], formula, &n) || !load(names[2], proof, &k)) {
            fputs("caller: a file cannot be read\n", stderr);
            return 1;
        }
        return tell(formula, n, proof, k);
    }
    if (!owing_calls()) {
        fputs("caller: a call that owes something was made\n", stderr);
        return 1;
    }
    return tell(formula_a, sizeof formula_a, proof_a, sizeof proof_a);
}
