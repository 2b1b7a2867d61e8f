/* Looks for the slowest legal network of the filter in C.
 *     slowest PLANS SECONDS SEED FILE
 * Times some plans of networks that are made by hand to be slow, then draws so many plans, each a shape with sizes, values, rules and
 * codes of its own, then for so many seconds changes the slowest ones of all these. Prints the slowest, and writes the first of all to FILE,
 * in the desk's text form. */
#include "bench.h"
#include <setjmp.h>
#include <signal.h>
#include <stdlib.h>
#include <string.h>
#include <sys/time.h>
#include <time.h>

enum { KEPT = 12, LONGEST = 1 /* second that a filtering may take here */, MAX_VARIABLES = 64 };

/* Scopes of one of the suite's shapes, or of any variables. */
enum { SCATTERED = CATALOGUE + 1, SHAPES };
/* Rows as they are drawn, sorted, or all that keep the rule, one after the other and again from the first. */
typedef enum { DRAWN, SORTED, ALL, WAYS } way;

/* Where a relation has a rule, a row's values add up to its class by the modulus: pairs of relations agree everywhere then, and the
 * classes decide whether a combination closes. A row with a joker, the highest value of a variable, needs to keep to no rule. Of a
 * relation's values under open variables so many per cent are any; these variables are no part of its rule. */
typedef struct {
    unsigned shape, m, relations, tuples;        /* tuples of all relations, in proportion to sizes */
    unsigned width, variables;                   /* of scattered scopes, at most */
    unsigned values[MAX_VARIABLES];              /* of each variable */
    unsigned modulus, jokers, late;              /* late: so many last rows keep to no rule */
    unsigned closing;                            /* the last row of this relation, counted from 1, keeps to another one's */
    unsigned codes, factor;                      /* as in a description */
    unsigned thinned, repeated;                  /* one combination in so many; all of them so many times */
    uint64_t scopes, rows;                       /* seeds */
    uint64_t open;                               /* a bit for each variable */
    uint16_t order[MAX_RELATIONS];               /* which relation of the shape comes first, and so on */
    unsigned sizes[MAX_RELATIONS], ruled[MAX_RELATIONS], classes[MAX_RELATIONS], alike[MAX_RELATIONS], ways[MAX_RELATIONS];
    unsigned anys[MAX_RELATIONS];
} plan;

static uint64_t state;
static unsigned draw(unsigned below) {
    state = state * 6364136223846793005u + 1442695040888963407u;
    return (unsigned)((state >> 33) % below);
}
/* From 1 to most, rather small. */
static unsigned draw_size(unsigned most) {
    unsigned bits = 1;
    while (bits < 31 && 1u << bits <= most) bits++;
    unsigned size = draw(1u << (1 + draw(bits))) + 1;
    return size < most ? size : most;
}
static bool one_in(unsigned k) { return draw(k) == 0; }

static void shuffle(uint16_t *numbers, size_t count) {
    for (size_t i = count; i > 1; i--) {
        size_t k = draw((unsigned)i);
        uint16_t number = numbers[i - 1];
        numbers[i - 1] = numbers[k], numbers[k] = number;
    }
}

/* ---- The network of a plan. */

static size_t scope_of(const plan *p, size_t r, uint16_t *scope) {
    uint16_t all[MAX_VARIABLES];
    if (p->shape != SCATTERED) return shape_scope(p->shape, p->relations, r, scope);
    for (unsigned x = 0; x < p->variables; x++) all[x] = (uint16_t)x;
    shuffle(all, p->variables);
    memcpy(scope, all, p->width * sizeof *scope);
    return 1 + draw(p->width);
}

static bool has_joker(const plan *p, const uint16_t *scope, size_t width, const uint32_t *row) {
    for (size_t c = 0; c < width; c++)
        if (p->jokers && row[c] + 1u == p->values[scope[c]]) return true;
    return false;
}

static bool is_open(const plan *p, unsigned r, uint16_t variable) { return p->anys[r] && p->open >> variable & 1; }

static bool keeps_rule(const plan *p, const uint16_t *scope, size_t width, unsigned r, const uint32_t *row) {
    unsigned sum = 0;
    for (size_t c = 0; c < width; c++)
        if (!is_open(p, r, scope[c])) sum += row[c];
    return !p->ruled[r] || sum % p->modulus == p->classes[r] || has_joker(p, scope, width, row);
}

/* A drawn row that keeps the rule, if one is found soon. */
static void draw_row(const plan *p, const uint16_t *scope, size_t width, unsigned r, uint32_t *row, bool keeps) {
    for (int k = 0; k < 64; k++) {
        for (size_t c = 0; c < width; c++) row[c] = draw(p->values[scope[c]]);
        if (!keeps || keeps_rule(p, scope, width, r, row)) return;
    }
}

/* The row behind this one in the order of the first value, then the second, and so on; false where that is the first again. */
static bool step(const plan *p, const uint16_t *scope, size_t width, uint32_t *row) {
    size_t c = width;
    while (c > 0 && row[c - 1] + 1u >= p->values[scope[c - 1]]) row[--c] = 0;
    if (c > 0) row[c - 1]++;
    return c > 0;
}

/* The next row that keeps the rule, if one comes soon; those with a joker come behind all others. */
static void next_row(const plan *p, const uint16_t *scope, size_t width, unsigned r, uint32_t *row, bool *joker) {
    for (int k = 0; k < 4096; k++) {
        if (!step(p, scope, width, row)) *joker = !*joker && p->jokers;
        if (keeps_rule(p, scope, width, r, row) && has_joker(p, scope, width, row) == *joker) return;
    }
}

static size_t compared_width;
static int compare_rows(const void *a, const void *b) {
    const uint32_t *x = a, *y = b;
    for (size_t c = 0; c < compared_width; c++)
        if (x[c] != y[c]) return x[c] < y[c] ? -1 : 1;
    return 0;
}

/* The values of so many rows become codes, or any. */
static void write_codes(const plan *p, const uint16_t *scope, size_t width, unsigned r, uint32_t *rows, size_t size) {
    description codes = {.codes = p->codes, .factor = p->factor};
    for (size_t i = 0; i < size * width; i++)
        rows[i] = is_open(p, r, scope[i % width]) && draw(100) < p->anys[r] ? ANY : code_of(&codes, rows[i]);
}

static void fill_relation(const plan *p, network *n, size_t r) {
    unsigned s = p->order[r];
    size_t width = width_of(n, r), size = size_of(n, r), different = size / p->alike[s] + 1;
    const uint16_t *scope = n->variables + n->variable_starts[r];
    uint32_t *rows = n->values + n->value_starts[r], last[MAX_WIDTH] = {0};
    bool joker = false;
    if (!keeps_rule(p, scope, width, s, last)) next_row(p, scope, width, s, last, &joker);
    for (size_t x = 0; x < size; x++) {
        uint32_t *row = rows + x * width;
        if (x >= different && x + p->late < size) memcpy(row, row - different * width, width * sizeof *row);
        else if (p->ways[s] == ALL && x + p->late < size) memcpy(row, last, width * sizeof *row), next_row(p, scope, width, s, last, &joker);
        else draw_row(p, scope, width, s, row, x + p->late < size);
    }
    compared_width = width;
    if (p->ways[s] == SORTED && size > p->late) qsort(rows, size - p->late, width * sizeof *rows, compare_rows);
    if (p->closing == s + 1) rows[size * width - 1] ^= 1;
    write_codes(p, scope, width, s, rows, size);
}

static void combine(const plan *p, network *n) {
    for (unsigned k = 0; k < p->repeated; k++) {
        uint16_t members[MAX_MEMBERS] = {0, 1, 2, 3};
        unsigned tries = 0;
        do {
            if (!is_connected(n, members) || draw(p->thinned)) continue;
            if (!add_combination(n, members)) return;
        } while (tries++ < 3000 && next_choice(n, members));
    }
}

static void make_network(const plan *p, network *n) {
    uint16_t scope[MAX_WIDTH];
    unsigned sum = 0;
    for (unsigned r = 0; r < p->relations; r++) sum += p->sizes[p->order[r]];
    state = p->scopes;
    clear_network(n, p->m);
    for (unsigned r = 0; r < p->relations; r++) {
        size_t width = scope_of(p, p->order[r], scope);
        add_relation(n, scope, width, (size_t)p->tuples * p->sizes[p->order[r]] / sum);
    }
    state = p->rows;
    for (unsigned r = 0; r < p->relations; r++) fill_relation(p, n, r);
    combine(p, n);
}

/* ---- Plans: made by hand, drawn, changed. */

#define EACH(value) {[0 ... MAX_RELATIONS - 1] = (value)}
/* Four relations in one combination, or in two equal ones. Pairs agree, but of the last relation the sum is odd, so nothing closes. */
#define NOTHING_CLOSES .m = 4, .relations = 4, .tuples = MAX_TUPLES, .modulus = 2, .factor = 1, .thinned = 1, \
                       .ruled = EACH(1), .classes = {0, 0, 0, 1}, .alike = EACH(1)
#define IN_A_ROW .order = {0, 1, 2, 3}
#define ACROSS .order = {0, 2, 1, 3}
/* The other three have any under the variables of the first, whose tuples are all different. */
#define ANY_FOR_THE_FIRST .shape = CLIQUE, .repeated = 1, .open = 1 << 0 | 1 << 1 | 1 << 3, .anys = {0, 100, 100, 100}

static const plan made[] = {
    {NOTHING_CLOSES, IN_A_ROW, .shape = RING, .repeated = 1, .values = EACH(2), .sizes = EACH(1)},
    {NOTHING_CLOSES, IN_A_ROW, .shape = RING, .repeated = 1, .values = EACH(8), .sizes = EACH(1)},
    {NOTHING_CLOSES, IN_A_ROW, .shape = RING, .repeated = 1, .values = EACH(45), .sizes = EACH(1), .ways = EACH(ALL)},
    {NOTHING_CLOSES, ACROSS, .shape = RING, .repeated = 1, .values = EACH(45), .sizes = EACH(1), .ways = EACH(ALL)},
    {NOTHING_CLOSES, IN_A_ROW, .shape = RING, .repeated = 2, .values = EACH(44), .sizes = EACH(1), .ways = EACH(ALL), .jokers = 1},
    {NOTHING_CLOSES, ACROSS, .shape = RING, .repeated = 2, .values = EACH(44), .sizes = EACH(1), .ways = EACH(ALL), .jokers = 1},
    {NOTHING_CLOSES, IN_A_ROW, .shape = CLIQUE, .repeated = 1, .values = EACH(4), .sizes = EACH(1)},
    {NOTHING_CLOSES, IN_A_ROW, .shape = CLIQUE, .repeated = 1, .values = EACH(12), .sizes = EACH(1), .ways = EACH(ALL)},
    {NOTHING_CLOSES, IN_A_ROW, .shape = CLIQUE, .repeated = 2, .values = EACH(12), .sizes = EACH(1), .ways = EACH(ALL), .jokers = 1},
    {NOTHING_CLOSES, IN_A_ROW, .shape = CLIQUE, .repeated = 1, .values = {22, 2, 2, 34, 34, 590}, .sizes = {7, 7, 12, 12},
     .ways = {ALL, ALL, ALL, DRAWN}},
    {NOTHING_CLOSES, IN_A_ROW, ANY_FOR_THE_FIRST, .values = {2384, 1, 44, 1, 44, 44}, .sizes = {298, 242, 242, 242}, .ways = EACH(ALL)},
    {NOTHING_CLOSES, IN_A_ROW, ANY_FOR_THE_FIRST, .values = {5120, 1, 32, 1, 32, 32}, .sizes = {5, 1, 1, 1}, .ways = EACH(ALL)},
    {NOTHING_CLOSES, IN_A_ROW, ANY_FOR_THE_FIRST, .values = {2384, 1, 44, 1, 44, 44}, .sizes = {298, 242, 242, 242}, .ways = EACH(ALL), .closing = 2},
    {NOTHING_CLOSES, IN_A_ROW, ANY_FOR_THE_FIRST, .values = {2384, 1, 44, 1, 44, 44}, .sizes = {298, 242, 242, 242}, .ways = EACH(ALL), .closing = 3},
    {NOTHING_CLOSES, IN_A_ROW, ANY_FOR_THE_FIRST, .values = {400, 40, 30, 40, 30, 30}, .sizes = {298, 242, 242, 242}},
    {NOTHING_CLOSES, IN_A_ROW, ANY_FOR_THE_FIRST, .values = {400, 40, 30, 40, 30, 30}, .sizes = {298, 242, 242, 242}, .late = 4},
};

static void draw_relation(plan *p, unsigned r) {
    p->sizes[r] = one_in(2) ? 8 : draw_size(64);
    p->ruled[r] = !one_in(3), p->classes[r] = draw(p->modulus);
    p->alike[r] = one_in(2) ? 1 : draw_size(256);
    p->ways[r] = draw(WAYS);
}

static void draw_rows(plan *p) {
    unsigned same = 1 + draw_size(400);
    bool equal = one_in(2);
    for (unsigned x = 0; x < MAX_VARIABLES; x++) p->values[x] = equal ? same : 1 + draw_size(1000);
    p->tuples = one_in(4) ? draw_size(MAX_TUPLES) : MAX_TUPLES;
    p->modulus = 1 + draw_size(8), p->jokers = one_in(3), p->late = one_in(2) ? 0 : draw_size(16);
    for (unsigned r = 0; r < MAX_RELATIONS; r++) draw_relation(p, r);
    p->rows = draw(1u << 30);
}

static void draw_codes(plan *p) {
    static const unsigned factors[] = {1, 1, 1, 7, 10, 17, 100, 256, 1 << 16, 1 << 19, 75025, 514229};
    p->codes = draw(CODE_KINDS);
    p->factor = factors[draw(sizeof factors / sizeof *factors)];
}

/* All variables, those of one relation, or some. */
static uint64_t draw_open(const plan *p) {
    uint16_t scope[MAX_WIDTH];
    uint64_t open = 0;
    if (one_in(3)) return ~0ull;
    if (p->shape == SCATTERED || one_in(2)) return (uint64_t)draw(1u << 31) << 31 ^ draw(1u << 31);
    for (size_t c = shape_scope(p->shape, p->relations, draw(p->relations), scope); c-- > 0;) open |= 1ull << scope[c];
    return open;
}

/* Every other plan has any. */
static void draw_any(plan *p) {
    unsigned share = 1 + draw(100);
    bool none = one_in(2);
    p->open = draw_open(p);
    for (unsigned r = 0; r < MAX_RELATIONS; r++) p->anys[r] = none || one_in(4) ? 0 : one_in(2) ? share : draw(101);
}

static void draw_combinations(plan *p) { p->thinned = one_in(2) ? 1 : draw_size(8), p->repeated = one_in(3) ? draw_size(256) : one_in(2) ? 2 : 1; }

/* So many relations, or as many as the shape can have, in an order of their own. */
static void set_relations(plan *p, unsigned count) {
    unsigned most = p->shape == CATALOGUE ? 6 : p->shape == STAR || p->shape == CLIQUE ? MAX_WIDTH + 1 : MAX_RELATIONS;
    p->relations = count < most ? count : most;
    for (unsigned r = 0; r < p->relations; r++) p->order[r] = (uint16_t)r;
    if (one_in(2)) shuffle(p->order, p->relations);
}

static void draw_plan(plan *p) {
    p->shape = draw(SHAPES), p->m = one_in(2) ? 4 : 2 + draw(3);
    set_relations(p, p->m + (one_in(2) ? 0 : one_in(4) ? draw(MAX_RELATIONS - p->m) : draw(5)));
    p->width = 1 + draw(MAX_WIDTH), p->variables = p->width + draw(2 * p->relations);
    if (p->variables > MAX_VARIABLES) p->variables = MAX_VARIABLES;
    p->scopes = draw(1u << 30);
    draw_rows(p);
    draw_codes(p);
    draw_combinations(p);
    draw_any(p);
}

static void change_number(unsigned *number, unsigned least, unsigned most) {
    unsigned by = draw(1 + *number / 2) + 1;
    *number = one_in(2) ? *number + by : *number - by;
    if (*number < least || *number > most) *number = least + draw(most - least + 1);
}

static void change_plan(plan *p) {
    unsigned r = draw(p->relations);
    switch (draw(18)) {
    case 0: p->rows = draw(1u << 30); break;
    case 1: p->scopes = draw(1u << 30); break;
    case 2: case 3: change_number(&p->values[draw(8)], 2, 2000); break;
    case 4: for (int x = 1; x < MAX_VARIABLES; x++) p->values[x] = p->values[0]; break;
    case 5: case 6: change_number(&p->sizes[r], 1, 64); break;
    case 7: change_number(&p->alike[r], 1, 512); break;
    case 8: p->ruled[r] = !p->ruled[r]; break;
    case 9: p->classes[r] = draw(p->modulus); break;
    case 10: change_number(&p->modulus, 2, 16); break;
    case 11: p->jokers = !p->jokers, p->late = one_in(2) ? 0 : draw_size(16); break;
    case 12: draw_codes(p); break;
    case 13: draw_combinations(p); break;
    case 14: p->ways[r] = draw(WAYS); break;
    case 15: change_number(&p->anys[r], 0, 100); break;
    case 16: draw_any(p); break;
    default: set_relations(p, p->m + draw(5)); break;
    }
}

/* ---- Times. */

static sigjmp_buf out_of_time;
static void stop(int signal) { (void)signal, siglongjmp(out_of_time, 1); }

static double now(void) {
    struct timespec t;
    clock_gettime(CLOCK_THREAD_CPUTIME_ID, &t);
    return (double)t.tv_sec + (double)t.tv_nsec * 1e-9;
}

static network drawn;

/* Seconds for one filtering of the network drawn, or LONGEST where that is not enough. */
static double seconds(void) {
    static uint64_t words[WORDS];
    static uint16_t numbers[MAX_NUMBERS];
    struct itimerval limit = {.it_value.tv_sec = LONGEST}, none = {{0}, {0}};
    memset(words, 0, sizeof words);
    for (size_t g = 0; g < tuple_count(&drawn); g++) words[g / 64] |= 1ull << (g % 64);
    setitimer(ITIMER_VIRTUAL, &limit, NULL);
    if (sigsetjmp(out_of_time, 1)) return LONGEST;
    double t = now();
    c_filter(&drawn, words, numbers);
    t = now() - t;
    setitimer(ITIMER_VIRTUAL, &none, NULL);
    return t;
}

/* The least of three, where the first is long enough to matter. */
static double time_of(const plan *p, double matters) {
    uint64_t before = state;
    make_network(p, &drawn);
    double t = seconds();
    for (int k = 0; k < 2 && t > matters && t < LONGEST; k++) {
        double again = seconds();
        if (again < t) t = again;
    }
    state = before;
    return t;
}

typedef struct {
    plan plan;
    double time;
} timed;
static timed kept[KEPT + 1];
static unsigned kept_count;

/* The slowest stay, the slowest of them first. */
static void keep(const plan *p, double time) {
    unsigned i = kept_count < KEPT ? kept_count++ : KEPT;
    for (; i > 0 && kept[i - 1].time < time; i--) kept[i] = kept[i - 1];
    kept[i].plan = *p, kept[i].time = time;
}

/* One that was kept is changed, and the change takes its place if that is slower. */
static void improve(void) {
    unsigned which = draw(draw(kept_count) + 1);
    plan p = kept[which].plan;
    do change_plan(&p);
    while (one_in(3));
    double t = time_of(&p, kept[which].time);
    if (t <= kept[which].time) return;
    memmove(kept + which, kept + which + 1, (--kept_count - which) * sizeof *kept);
    keep(&p, t);
}

static void print_four(const char *what, const unsigned *numbers) { printf(", %s %u %u %u %u", what, numbers[0], numbers[1], numbers[2], numbers[3]); }

static void print_plan(const plan *p, double time) {
    static const char *const shapes[] = {"neighbours", "path", "star", "ring", "clique", "catalogue", "scattered"};
    make_network(p, &drawn);
    printf("%s%8.3f ms  %s, m = %u, %u relations, %zu tuples, %zu combinations, modulus %u, jokers %u, late %u", time < LONGEST ? " " : ">", time * 1e3,
           shapes[p->shape], p->m, p->relations, tuple_count(&drawn), drawn.pairs / drawn.m, p->modulus, p->jokers, p->late);
    print_four("values", p->values), print_four("sizes", p->sizes), print_four("alike", p->alike), print_four("ways", p->ways);
    print_four("any", p->anys), printf(" under %#llx\n", (unsigned long long)p->open);
}

static void print_kept(const char *when, long count) {
    printf("%s %ld networks:\n", when, count);
    for (unsigned i = 0; i < kept_count; i++) print_plan(&kept[i].plan, kept[i].time);
    fflush(stdout);
}

/* What a plan made by hand leaves open, should a change ask for it. */
static void complete(plan *p) {
    p->width = 3, p->variables = 6;
    for (unsigned x = 0; x < MAX_VARIABLES; x++)
        if (!p->values[x]) p->values[x] = 9;
    for (unsigned r = 0; r < MAX_RELATIONS; r++)
        if (!p->sizes[r]) p->sizes[r] = 9;
}

/* The plans that are made by hand; they are no part of those drawn, but are changed as those are. */
static void time_made(timed *slowest) {
    puts("made by hand:");
    for (size_t i = 0; i < sizeof made / sizeof *made; i++) {
        timed t = {made[i], time_of(made + i, 0)};
        print_plan(&t.plan, t.time);
        if (t.time > slowest->time) *slowest = t;
        complete(&t.plan);
        keep(&t.plan, t.time);
    }
}

int main(int argc, char **argv) {
    if (argc != 5) return fputs("usage: slowest PLANS SECONDS SEED FILE\n", stderr), 2;
    long plans = atol(argv[1]), changes = 0;
    timed slowest = {.time = 0};
    signal(SIGVTALRM, stop);
    time_made(&slowest);
    state = (uint64_t)atol(argv[3]);
    for (long i = 0; i < plans; i++) {
        plan p = {0};
        draw_plan(&p);
        double t = time_of(&p, kept_count < KEPT ? LONGEST : kept[KEPT - 1].time);
        if (kept_count < KEPT || t > kept[KEPT - 1].time) keep(&p, t);
    }
    print_kept("the slowest of these and", plans);
    for (double end = now() + atof(argv[2]); now() < end; changes++) improve();
    print_kept("with changes of these,", changes);
    make_network(kept[0].time > slowest.time ? &kept[0].plan : &slowest.plan, &drawn);
    FILE *file = fopen(argv[4], "w");
    if (!file) return perror(argv[4]), 1;
    write_network(&drawn, file);
    return fclose(file) != 0;
}
