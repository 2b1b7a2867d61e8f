/* The plain C leaves as functions, compiled on their own: the benchmark calls them as it calls the library's. */
#include "leaves.h"

uint16_t c_first_clash(const uint16_t *scope_a, size_t wa, const uint32_t *a, size_t la, const uint16_t *scope_b, size_t wb, const uint32_t *b, size_t lb) {
    return first_clash(scope_a, wa, a, la, scope_b, wb, b, lb);
}

uint16_t c_next(const uint64_t *words, size_t n, uint16_t start, uint16_t end) { return next(words, n, start, end); }

uint16_t c_count(const uint64_t *words, size_t n, uint16_t start, uint16_t end) { return count(words, n, start, end); }
