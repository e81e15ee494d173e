/* The checker in C, with the call of the proved one. */
#include <stddef.h>
#include <stdint.h>

void plain_check(const uint8_t *formula, size_t formula_length, const uint8_t *proof, size_t proof_length,
                 uint32_t *words, size_t words_length, uint8_t *bytes, size_t bytes_length, uint64_t out[4]);
