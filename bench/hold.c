/* hold: answers a pack of cases from standard input with the checker in C, a line for each, as the batch program does with the proved one:
   work memory of the lengths asked for, filled with rubbish, and " memory" behind the line if it is not left as the paper says. Each block
   is allocated as long as it is said to be, so that a compiler's checks see the first byte past it. */
#include "checker.h"
#include <inttypes.h>
#include <stdio.h>
#include <stdlib.h>
#include <string.h>

enum { WORDS = 16384, BYTES = 8192, RUBBISH = 0xA5 };

static void *block(size_t size) {
    void *made = malloc(size > 0 ? size : 1);
    if (made == NULL) exit(2);
    memset(made, RUBBISH, size);
    return made;
}

static void load(void *to, size_t size) {
    if (fread(to, 1, size, stdin) != size) {
        fputs("hold: the pack is cut short\n", stderr);
        exit(2);
    }
}

static int left(const uint8_t *memory, size_t size, size_t zeros) {
    for (size_t i = 0; i < size; i++)
        if (memory[i] != (i < zeros ? 0 : RUBBISH)) return 0;
    return 1;
}

static size_t number(const uint8_t *four) {
    return (size_t)four[0] << 24 | (size_t)four[1] << 16 | (size_t)four[2] << 8 | four[3];
}

int main(void) {
    static const char *const verdict[] = {"refuted", "held", "refused"};
    uint8_t head[16];
    size_t got;
    while ((got = fread(head, 1, sizeof head, stdin)) == sizeof head) {
        size_t words_length = number(head), bytes_length = number(head + 4), n = number(head + 8), k = number(head + 12);
        uint8_t *formula = block(n), *proof = block(k), *bytes = block(bytes_length);
        uint32_t *words = block(words_length * sizeof *words);
        uint64_t out[4];
        int right;
        load(formula, n);
        load(proof, k);
        plain_check(formula, n, proof, k, words, words_length, bytes, bytes_length, out);
        right = left((const uint8_t *)words, words_length * sizeof *words, out[1] == 1 ? 0 : WORDS * sizeof *words)
            && left(bytes, bytes_length, out[1] == 1 ? 0 : BYTES);
        printf("%s %" PRIu64 " %" PRIu64 " %" PRIu64 "%s\n", verdict[out[0]], out[1], out[2], out[3], right ? "" : " memory");
        free(formula);
        free(proof);
        free(bytes);
        free(words);
    }
    return got == 0 ? 0 : 2;
}
