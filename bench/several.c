/* Times one choice of k pairs beside k choices of one, in turn and in one run, on the benchmark's networks with all tuples living. The
 * pairs are found by choosing: each is a variable not chosen so far with a value of a tuple that the choices before it leave. Both ways
 * must leave the same marks, supports and counts. */
#include "bench.h"
#include "wakhvosi.h"
#include <math.h>
#include <string.h>
#include <time.h>

enum { ROUNDS = 15, MOST = 8, VARIABLES = 64 };
static const size_t pair_counts[] = {3, MOST};
enum { COUNTS = sizeof pair_counts / sizeof *pair_counts };

/* The lists of one network; on this machine they are their own little-endian bytes. */
static network n;
static uint16_t records[3 * MAX_RELATIONS], supports[MAX_NUMBERS], chosen_variables[MOST];
static uint32_t chosen_values[MOST];
static uint64_t marks[WORDS];

/* What one of the ways leaves. */
typedef struct {
    uint16_t records[3 * MAX_RELATIONS], supports[MAX_NUMBERS];
    uint64_t marks[WORDS];
} leavings;
static leavings left[2];

#define BYTES(at, count) (uint8_t *)(at), sizeof *(at) * (count)
#define LENT                                                                                                                              \
    BYTES(records, 3 * n.relations), BYTES(n.variables, n.variable_count), BYTES(n.values, n.value_count), (uint16_t)n.m,                 \
        BYTES(n.members, n.pairs), BYTES(marks, WORDS), BYTES(supports, MAX_NUMBERS)

static double now(void) {
    struct timespec t;
    clock_gettime(CLOCK_MONOTONIC, &t);
    return (double)t.tv_sec + (double)t.tv_nsec * 1e-9;
}

static double least(double a, double b) { return a < b ? a : b; }

static void all_living(void) {
    memset(marks, 0, sizeof marks);
    memset(supports, 0, sizeof supports);
    for (size_t g = 0; g < tuple_count(&n); g++) marks[g / 64] |= 1ull << (g % 64);
    for (size_t r = 0; r < n.relations; r++) {
        records[3 * r] = (uint16_t)width_of(&n, r);
        records[3 * r + 1] = records[3 * r + 2] = (uint16_t)size_of(&n, r);
    }
}

/* A value that a living tuple has under the variable, if there is one. */
static bool living_value(uint16_t variable, uint32_t *value) {
    for (size_t r = 0; r < n.relations; r++)
        for (size_t column = 0; column < width_of(&n, r); column++)
            for (size_t g = n.tuple_starts[r]; n.variables[n.variable_starts[r] + column] == variable && g < n.tuple_starts[r + 1]; g++)
                if (marks[g / 64] >> (g % 64) & 1) {
                    *value = n.values[n.value_starts[r] + (g - n.tuple_starts[r]) * width_of(&n, r) + column];
                    return true;
                }
    return false;
}

/* How many pairs were found that leave every relation a tuple, at most MOST. */
static size_t find_pairs(void) {
    size_t k = 0;
    all_living();
    wakhvosi_filter(LENT);
    for (uint16_t x = 0; x < VARIABLES && k < MOST; x++) {
        if (!living_value(x, chosen_values + k)) continue;
        if (wakhvosi_kind(wakhvosi_choose(LENT, x, chosen_values[k])) != WAKHVOSI_SETTLED) break;
        chosen_variables[k++] = x;
    }
    return k;
}

static void keep(leavings *l) {
    memcpy(l->records, records, sizeof records), memcpy(l->supports, supports, sizeof supports), memcpy(l->marks, marks, sizeof marks);
}

static double at_once(size_t k) {
    all_living();
    double t = now();
    wakhvosi_choose_several(LENT, BYTES(chosen_variables, k), BYTES(chosen_values, k));
    t = now() - t;
    keep(left);
    return t;
}

static double one_by_one(size_t k) {
    all_living();
    double t = now();
    for (size_t i = 0; i < k; i++) wakhvosi_choose(LENT, chosen_variables[i], chosen_values[i]);
    t = now() - t;
    keep(left + 1);
    return t;
}

static double sums[COUNTS], most[COUNTS];
static size_t timed_networks[COUNTS], differing;

static void timed(const description *d) {
    char name[NAME_SIZE];
    draw_network(&n, d);
    name_network(d, name);
    size_t found = find_pairs();
    printf("%-36s", name);
    for (size_t c = 0; c < COUNTS; c++) {
        size_t k = pair_counts[c];
        if (found < k) continue;
        double once = 1e9, single = 1e9;
        for (int i = 0; i < ROUNDS; i++) once = least(once, at_once(k)), single = least(single, one_by_one(k));
        bool same = !memcmp(left, left + 1, sizeof *left);
        printf("  %zu pairs %8.3f ms %8.3f ms  %.3f%s", k, once * 1e3, single * 1e3, once / single, same ? "" : "  RESULTS DIFFER");
        sums[c] += log(once / single), most[c] = fmax(most[c], once / single), timed_networks[c]++, differing += !same;
    }
    printf("\n");
}

int main(void) {
    printf("the network; of so many pairs: at once, one by one, and the ratio\n");
    for (size_t i = 0; i < suite_count; i++) timed(suite + i);
    for (size_t i = 0; i < growth_count; i++) timed(growth + i);
    for (size_t i = 0; i < with_any_count; i++) timed(with_any + i);
    for (size_t c = 0; c < COUNTS; c++)
        printf("%zu pairs, %zu networks: geometric mean %.3f, most %.3f\n", pair_counts[c], timed_networks[c],
               exp(sums[c] / (double)timed_networks[c]), most[c]);
    return differing != 0;
}
