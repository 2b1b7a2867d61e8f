/* Times the proved library's functions and the same in C, each in turn, and prints the ratios of the least times over some
 * rounds. Both must give the same results.
 *     main [--skip PATTERN]... DIRECTORY [NAME]...
 * Each network goes to DIRECTORY/NAME.txt in the desk's text form, and its times to DIRECTORY/times.txt: lines of kind (network,
 * growth, any or other), name, m, tuples, left, and the two times in seconds. Further names are those of other networks, whose texts are
 * there already. Of networks whose name has the pattern (*, ? and [] as in a shell), the library's filter is left out; its time is
 * then 0. */
#include "bench.h"
#include <fnmatch.h>
#include <stdlib.h>
#include <string.h>
#include <time.h>

enum { ROUNDS = 21, FILTERINGS = 15, TUPLES = 1000 };
/* Seconds after which a network is filtered no more; and, once it was filtered as often as others, no more. */
static const double ENOUGH = 0.5, SHORT = 0.1;

static uint16_t scope_a[MAX_WIDTH], scope_b[MAX_WIDTH];
static uint32_t a[TUPLES * MAX_WIDTH], b[TUPLES * MAX_WIDTH];
static uint64_t words[3][WORDS]; /* dense, sparse, nearly empty */

static double now(void) {
    struct timespec t;
    clock_gettime(CLOCK_MONOTONIC, &t);
    return (double)t.tv_sec + (double)t.tv_nsec * 1e-9;
}

static uint64_t seed = 1;
static uint64_t draw(void) {
    seed = seed * 6364136223846793005u + 1442695040888963407u;
    return seed >> 33;
}

typedef uint16_t (*clash_fn)(const uint16_t *, size_t, const uint32_t *, size_t, const uint16_t *, size_t, const uint32_t *, size_t);
typedef uint16_t (*range_fn)(const uint64_t *, size_t, uint16_t, uint16_t);

static long clash_all(clash_fn f, size_t wa, size_t wb) {
    long n = 0;
    for (size_t i = 0; i < TUPLES; i++)
        for (size_t j = 0; j < TUPLES; j++) n += f(scope_a, wa, a + i * MAX_WIDTH, wa, scope_b, wb, b + j * MAX_WIDTH, wb);
    return n;
}

static long next_all(range_fn f, const uint64_t *ws) {
    long n = 0;
    for (int round = 0; round < 300; round++)
        for (uint16_t g = f(ws, WORDS, 0, MAX_TUPLES); g < MAX_TUPLES; g = f(ws, WORDS, (uint16_t)(g + 1), MAX_TUPLES)) n += g;
    return n;
}

static long count_all(range_fn f, const uint64_t *ws, uint16_t length) {
    long n = 0;
    for (int round = 0; round < 200000; round++) {
        uint16_t start = (uint16_t)(round * 37 % (MAX_TUPLES - length));
        n += f(ws, WORDS, start, (uint16_t)(start + length));
    }
    return n;
}

static int failures = 0;

static void report(const char *what, double rattle, double c, bool same) {
    printf("%-44s %9.3f ms %9.3f ms   %.2f%s\n", what, rattle * 1e3, c * 1e3, rattle / c, same ? "" : "  RESULTS DIFFER");
    fflush(stdout);
    failures += !same;
}

static double least(double a, double b) { return a < b ? a : b; }

#define COMPARE(what, rattle_call, c_call)              \
    do {                                                \
        double best_r = 1e9, best_c = 1e9;              \
        long r = 0, s = 0;                              \
        for (int k = 0; k < ROUNDS; k++) {              \
            double t = now();                           \
            r = rattle_call;                            \
            double u = now();                           \
            s = c_call;                                 \
            best_r = least(best_r, u - t);              \
            best_c = least(best_c, now() - u);          \
        }                                               \
        report(what, best_r, best_c, r == s);           \
    } while (0)

static void leaves(void) {
    for (size_t i = 0; i < MAX_WIDTH; i++) scope_a[i] = (uint16_t)i, scope_b[i] = (uint16_t)((i + 2) % (MAX_WIDTH + 2));
    for (size_t i = 0; i < TUPLES * MAX_WIDTH; i++) a[i] = (uint32_t)(draw() % 2), b[i] = (uint32_t)(draw() % 2);
    for (size_t i = 0; i < WORDS; i++) {
        words[0][i] = draw() << 33 ^ draw() << 10 ^ draw();
        words[1][i] = words[0][i] & draw() << 20 & draw() << 15;
        words[2][i] = i % 16 == 3;
    }
    COMPARE("first clash, 8 and 8 variables", clash_all(bench_first_clash, 8, 8), clash_all(c_first_clash, 8, 8));
    COMPARE("first clash, 3 and 3 variables", clash_all(bench_first_clash, 3, 3), clash_all(c_first_clash, 3, 3));
    COMPARE("next, every other id live", next_all(bench_next, words[0]), next_all(c_next, words[0]));
    COMPARE("next, few ids live", next_all(bench_next, words[1]), next_all(c_next, words[1]));
    COMPARE("next, 4 ids live", next_all(bench_next, words[2]), next_all(c_next, words[2]));
    COMPARE("count of 4,000 ids", count_all(bench_count, words[0], 4000), count_all(c_count, words[0], 4000));
    COMPARE("count of 100 ids", count_all(bench_count, words[0], 100), count_all(c_count, words[0], 100));
    COMPARE("count of 10 ids", count_all(bench_count, words[0], 10), count_all(c_count, words[0], 10));
}

static network n;
static uint64_t live_r[WORDS], live_c[WORDS];
static uint16_t numbers_r[MAX_NUMBERS], numbers_c[MAX_NUMBERS];

static unsigned left(const uint64_t *ws) {
    unsigned k = 0;
    for (size_t i = 0; i < WORDS; i++) k += (unsigned)__builtin_popcountll(ws[i]);
    return k;
}

static const char *directory;
static FILE *open_text(const char *name, const char *mode) {
    char path[4096];
    snprintf(path, sizeof path, "%s/%s.txt", directory, name);
    FILE *file = fopen(path, mode);
    if (!file) perror(path), exit(1);
    return file;
}

static void rattle_filter(uint64_t *live, uint16_t *numbers) {
    bench_filter(n.variables, n.variable_count, n.values, n.value_count, n.variable_starts, n.members, n.pairs, (uint16_t)n.m, live, WORDS, numbers, MAX_NUMBERS);
}

static void plain_filter(uint64_t *live, uint16_t *numbers) { c_filter(&n, live, numbers); }

/* Seconds for one filtering from all tuples live. */
static double seconds(void (*filter)(uint64_t *, uint16_t *), uint64_t *live, uint16_t *numbers) {
    memset(live, 0, WORDS * sizeof *live);
    for (size_t g = 0; g < tuple_count(&n); g++) live[g / 64] |= 1ull << (g % 64);
    double t = now();
    filter(live, numbers);
    return now() - t;
}

static FILE *times;

static char **skipped;
static int skipped_count;
static bool is_skipped(const char *name) {
    for (int i = 0; i < skipped_count; i++)
        if (!fnmatch(skipped[2 * i + 1], name, 0)) return true;
    return false;
}

/* Filters the network, both ways unless the library's is to be left out. */
static void filters(const char *kind, const char *name) {
    bool both = !is_skipped(name);
    double best_r = both ? 1e9 : 0, best_c = 1e9, start = now();
    for (int k = 0; k == 0 || now() - start < (k < FILTERINGS ? ENOUGH : SHORT); k++) {
        if (both) best_r = least(best_r, seconds(rattle_filter, live_r, numbers_r));
        best_c = least(best_c, seconds(plain_filter, live_c, numbers_c));
    }
    fprintf(times, "%s %s %zu %zu %u %.9f %.9f\n", kind, name, n.m, tuple_count(&n), left(live_c), best_r, best_c);
    char what[NAME_SIZE + 16];
    snprintf(what, sizeof what, "%-33s %4u left", name, left(live_c));
    bool same = !memcmp(live_r, live_c, sizeof live_r) && !memcmp(numbers_r, numbers_c, n.needed * sizeof *numbers_r);
    report(what, best_r, best_c, same || !both);
}

static void filters_described(const char *kind, const description *networks, size_t count) {
    for (size_t i = 0; i < count; i++) {
        char name[NAME_SIZE];
        name_network(networks + i, name);
        draw_network(&n, networks + i);
        FILE *text = open_text(name, "w");
        write_network(&n, text);
        fclose(text);
        filters(kind, name);
    }
}

static void filters_text(const char *name) {
    FILE *text = open_text(name, "r");
    bool whole = read_network(&n, text);
    fclose(text);
    if (!whole) fprintf(stderr, "%s is no network's text\n", name), exit(1);
    filters("other", name);
}

int main(int argc, char **argv) {
    int at = 1;
    skipped = argv + at;
    for (; at + 1 < argc && !strcmp(argv[at], "--skip"); at += 2) skipped_count++;
    if (at == argc) return fputs("usage: main [--skip PATTERN]... DIRECTORY [NAME]...\n", stderr), 2;
    directory = argv[at++];
    times = open_text("times", "w");
    printf("%-44s %12s %12s   ratio\n", "", "Rattle", "C -O2");
    leaves();
    filters_described("network", suite, suite_count);
    puts("growth:");
    filters_described("growth", growth, growth_count);
    puts("with any:");
    filters_described("any", with_any, with_any_count);
    for (; at < argc; at++) filters_text(argv[at]);
    fclose(times);
    return failures != 0;
}
