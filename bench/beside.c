/* Times filter and test of two builds of the library, in turn and in one run, on the benchmark's networks: the one's functions have
 * their names, the other's `before_` in front. Both must give the same answers, marks and supports. The other may be a build from
 * before card 6, whose records have no live count, or from before card 9, whose codes have 16 bits; it is then lent records and codes of
 * its own form, and codes of the kind that is most like the network's where these have more than 16 bits.
 *     beside [any]
 * Networks with any are timed only where that is asked for: a build from before card 4 takes any for a value. */
#include "bench.h"
#include "wakhvosi.h"
#include <math.h>
#include <string.h>
#include <time.h>

#define BOOK const uint8_t *, size_t, const uint8_t *, size_t, uint16_t, const uint8_t *, size_t
uint64_t before_wakhvosi_filter(uint8_t *, size_t, BOOK, uint8_t *, size_t, uint8_t *, size_t);
uint64_t before_wakhvosi_test(const uint8_t *, size_t, BOOK, const uint8_t *, size_t);

enum { LEAST_ROUNDS = 15, MOST_ROUNDS = 400 };
static const double ENOUGH = 0.4; /* seconds after which a network is timed no more */

/* The lists of one network; on this machine they are their own little-endian bytes. */
static network n, old;

/* Whether the build before has codes of two bytes, and the codes as such. */
static bool two_bytes;
static uint16_t half_codes[MAX_TUPLES * MAX_WIDTH];

/* Of each build, the one before and the one after: how many numbers a record has, its records, what a call leaves, its answers and its
 * least times. */
static size_t record_numbers[2] = {3, 3};
static uint16_t records[2][3 * MAX_RELATIONS], supports[2][MAX_NUMBERS];
static uint64_t marks[2][WORDS], filtered[2], tested[2];
static double filter_time[2], test_time[2];

#define BYTES(at, count) (uint8_t *)(at), sizeof *(at) * (count)
#define CODES build || !two_bytes ? (uint8_t *)n.values : (uint8_t *)half_codes, (build || !two_bytes ? 4 : 2) * n.value_count
#define GIVEN BYTES(records[build], record_numbers[build] * n.relations), BYTES(n.variables, n.variable_count), CODES, (uint16_t)n.m, BYTES(n.members, n.pairs)

static double now(void) {
    struct timespec t;
    clock_gettime(CLOCK_MONOTONIC, &t);
    return (double)t.tv_sec + (double)t.tv_nsec * 1e-9;
}

static double least(double a, double b) { return a < b ? a : b; }

/* Whether a list of one record with a live count is none of whole records: refused, number 1. */
static bool knows_no_counts(void) {
    uint16_t record[] = {1, 0, 0}, scope[] = {0};
    return before_wakhvosi_test(BYTES(record, 3), BYTES(scope, 1), NULL, 0, 2, NULL, 0, NULL, 0) == WAKHVOSI_REFUSED + 256;
}

/* Whether one code of two bytes is a whole number of codes, and so not refused with number 1. */
static bool knows_two_bytes(void) {
    uint16_t record[] = {1, 1, 1}, scope[] = {0}, code[] = {0};
    return before_wakhvosi_test(BYTES(record, record_numbers[0]), BYTES(scope, 1), BYTES(code, 1), 2, NULL, 0, NULL, 0) != WAKHVOSI_REFUSED + 256;
}

static void write_half_codes(const description *d) {
    description narrow = narrowed(d);
    draw_network(&old, &narrow);
    for (size_t i = 0; i < old.value_count; i++) half_codes[i] = (uint16_t)old.values[i];
}

/* The records of a build's form, all tuples living. */
static void write_records(int build) {
    for (size_t r = 0; r < n.relations; r++) {
        uint16_t *record = records[build] + record_numbers[build] * r;
        record[0] = (uint16_t)width_of(&n, r), record[1] = (uint16_t)size_of(&n, r);
        if (record_numbers[build] == 3) record[2] = record[1];
    }
}

/* Filters all rows, and tests what is left. */
static void turn(int build) {
    memset(marks[build], 0, sizeof marks[build]);
    for (size_t g = 0; g < tuple_count(&n); g++) marks[build][g / 64] |= 1ull << (g % 64);
    write_records(build);
    uint8_t *words = (uint8_t *)marks[build], *numbers = (uint8_t *)supports[build];
    double t = now();
    filtered[build] = (build ? wakhvosi_filter : before_wakhvosi_filter)(GIVEN, words, sizeof marks[build], numbers, sizeof supports[build]);
    filter_time[build] = least(filter_time[build], now() - t);
    t = now();
    tested[build] = (build ? wakhvosi_test : before_wakhvosi_test)(GIVEN, words, sizeof marks[build]);
    test_time[build] = least(test_time[build], now() - t);
}

static double filter_sum, test_sum, filter_most, test_most;
static size_t count, differing;

static void timed(const description *d) {
    char name[NAME_SIZE];
    draw_network(&n, d);
    if (two_bytes) write_half_codes(d);
    name_network(d, name);
    for (int i = 0; i < 2; i++) filter_time[i] = test_time[i] = 1e9;
    double start = now();
    for (int k = 0; k < LEAST_ROUNDS || (k < MOST_ROUNDS && now() - start < ENOUGH); k++) turn(k % 2), turn(1 - k % 2);
    double filter = filter_time[1] / filter_time[0], test = test_time[1] / test_time[0];
    bool same = filtered[0] == filtered[1] && tested[0] == tested[1] && !memcmp(marks[0], marks[1], sizeof marks[0]) &&
                !memcmp(supports[0], supports[1], sizeof supports[0]) &&
                (record_numbers[0] == 2 || !memcmp(records[0], records[1], sizeof records[0]));
    printf("%-36s %8.3f ms %8.3f ms  %.3f   %8.3f ms %8.3f ms  %.3f%s\n", name, filter_time[0] * 1e3, filter_time[1] * 1e3, filter,
           test_time[0] * 1e3, test_time[1] * 1e3, test, same ? "" : "  RESULTS DIFFER");
    filter_sum += log(filter), test_sum += log(test), filter_most = fmax(filter_most, filter), test_most = fmax(test_most, test);
    count++, differing += !same;
}

static void timed_all(const description *networks, size_t number) {
    for (size_t i = 0; i < number; i++) timed(networks + i);
}

int main(int argc, char **argv) {
    bool any = argc > 1 && !strcmp(argv[1], "any");
    if (knows_no_counts()) record_numbers[0] = 2;
    two_bytes = knows_two_bytes();
    printf("%-36s %11s %11s  ratio   %11s %11s  ratio\n", "", "filter was", "is", "test was", "is");
    timed_all(suite, suite_count), timed_all(growth, growth_count);
    if (any) timed_all(with_any, with_any_count);
    printf("mean of %zu (geometric): filter %.3f, test %.3f; most: filter %.3f, test %.3f\n", count, exp(filter_sum / (double)count),
           exp(test_sum / (double)count), filter_most, test_most);
    return differing != 0;
}
