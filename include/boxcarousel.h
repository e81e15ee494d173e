/* Boxcarousel: judges a proof that no stowage exists. Link libchecker_c.a, for x86-64 Linux. */
#ifndef BOXCAROUSEL_H
#define BOXCAROUSEL_H

#include <stddef.h>
#include <stdint.h>

#ifdef __cplusplus
extern "C" {
#endif

/* The work memory that a call needs; longer is allowed. What it holds before the call does not matter. */
#define BOXCAROUSEL_WORDS 16384
#define BOXCAROUSEL_BYTES 8192

/* out[0] */
#define BOXCAROUSEL_REFUTED 0
#define BOXCAROUSEL_HELD 1
#define BOXCAROUSEL_REFUSED 2

/* The proved function. out gets the verdict, the reason (0 unless refused), the step and the place (0 unless refused).
   After reason 1 the work memory is as it was; after any other answer its first 16,384 words and 8,192 bytes are zero.
   It takes any bytes and any lengths. What no callee can see, the caller owes: each pointer leads to as many elements as its
   length says, and what is written (words, bytes, out) shares no byte with anything else. boxcarousel() below tests what can be. */
void boxcarousel_check(const uint8_t *formula, size_t formula_length, const uint8_t *proof, size_t proof_length,
                       uint32_t *words, size_t words_length, uint8_t *bytes, size_t bytes_length, uint64_t out[4]);

/* Whether two blocks of memory share no byte. */
static inline int boxcarousel_apart(const void *a, size_t a_size, const void *b, size_t b_size) {
    uintptr_t x = (uintptr_t)a, y = (uintptr_t)b;
    return a_size == 0 || b_size == 0 || (x < y ? a_size <= y - x : b_size <= x - y);
}

/* The same call with what a caller owes tested first: 1, and the answer in out; or 0 and out untouched, where a pointer is null or
   unaligned, a length runs past the end of memory, or a block that is written overlaps another. An empty file may be null. */
static inline int boxcarousel(const uint8_t *formula, size_t formula_length, const uint8_t *proof, size_t proof_length,
                              uint32_t *words, size_t words_length, uint8_t *bytes, size_t bytes_length, uint64_t out[4]) {
    static const uint8_t nothing[1] = {0};
    const size_t most = SIZE_MAX / 2;
    const void *block[5];
    size_t size[5];
    int i, j;
    if (formula_length == 0) formula = nothing;
    if (proof_length == 0) proof = nothing;
    if (words_length > most / sizeof *words) return 0;
    block[0] = formula, size[0] = formula_length;
    block[1] = proof, size[1] = proof_length;
    block[2] = words, size[2] = words_length * sizeof *words;
    block[3] = bytes, size[3] = bytes_length;
    block[4] = out, size[4] = 4 * sizeof *out;
    if ((uintptr_t)words % sizeof *words != 0 || (uintptr_t)out % sizeof *out != 0) return 0;
    for (i = 0; i < 5; i++)
        if (block[i] == NULL || size[i] > most || size[i] > UINTPTR_MAX - (uintptr_t)block[i]) return 0;
    for (i = 2; i < 5; i++)
        for (j = 0; j < i; j++)
            if (!boxcarousel_apart(block[i], size[i], block[j], size[j])) return 0;
    boxcarousel_check(formula, formula_length, proof, proof_length, words, words_length, bytes, bytes_length, out);
    return 1;
}

#ifdef __cplusplus
}
#endif

#endif
