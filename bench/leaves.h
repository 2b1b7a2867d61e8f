/* The leaves in plain C, to be inlined by the C engine as the compiler likes. */
#ifndef LEAVES_H
#define LEAVES_H
#include "bench.h"

static inline bool fit(uint32_t a, uint32_t b) { return a == b || a == ANY || b == ANY; }

/* The lowest variable of both scopes whose values do not fit; 64 where there is none. */
static inline uint16_t first_clash(const uint16_t *scope_a, size_t wa, const uint32_t *a, size_t la, const uint16_t *scope_b, size_t wb, const uint32_t *b, size_t lb) {
    (void)la, (void)lb;
    uint16_t lowest = NO_VARIABLE;
    for (size_t i = 0; i < wa; i++)
        for (size_t j = 0; j < wb; j++)
            if (scope_a[i] == scope_b[j]) {
                if (!fit(a[i], b[j]) && scope_a[i] < lowest) lowest = scope_a[i];
                break;
            }
    return lowest;
}

static inline uint16_t next(const uint64_t *words, size_t n, uint16_t start, uint16_t end) {
    (void)n;
    for (size_t at = start; at < end; at = (at / 64 + 1) * 64) {
        uint64_t w = words[at / 64] >> (at % 64);
        if (w) {
            size_t g = at + (size_t)__builtin_ctzll(w);
            return g < end ? (uint16_t)g : end;
        }
    }
    return end;
}

/* The ones of end's own word below end. */
static inline unsigned count_below(const uint64_t *words, size_t end) {
    return end % 64 ? (unsigned)__builtin_popcountll(words[end / 64] & ((1ull << end % 64) - 1)) : 0;
}

static inline uint16_t count(const uint64_t *words, size_t n, uint16_t start, uint16_t end) {
    (void)n;
    unsigned total = 0;
    for (size_t i = start / 64; i < end / 64; i++) total += (unsigned)__builtin_popcountll(words[i]);
    return (uint16_t)(total + count_below(words, end) - count_below(words, start));
}
#endif
