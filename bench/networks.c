/* Networks: made piece by piece, written as text, and those of the benchmark's suite, drawn from a fixed seed. */
#include "bench.h"
#include <inttypes.h>
#include <string.h>

size_t width_of(const network *n, size_t r) { return n->variable_starts[r + 1] - n->variable_starts[r]; }
size_t size_of(const network *n, size_t r) { return n->tuple_starts[r + 1] - n->tuple_starts[r]; }
size_t tuple_count(const network *n) { return n->tuple_starts[MAX_RELATIONS]; }

void clear_network(network *n, size_t m) {
    memset(n, 0, sizeof *n);
    n->m = m;
}

void add_relation(network *n, const uint16_t *scope, size_t width, size_t tuples) {
    size_t end = tuple_count(n) + tuples;
    memcpy(n->variables + n->variable_count, scope, width * sizeof *scope);
    n->variable_count += width;
    n->value_count += tuples * width;
    n->relations++;
    for (size_t r = n->relations; r <= MAX_RELATIONS; r++) {
        n->variable_starts[r] = (uint16_t)n->variable_count;
        n->tuple_starts[r] = (uint16_t)end;
        n->value_starts[r] = (uint16_t)n->value_count;
    }
}

bool add_combination(network *n, const uint16_t *members) {
    size_t more = 0;
    for (size_t j = 0; j < n->m; j++) more += size_of(n, members[j]) * n->m;
    if (n->pairs == MAX_COMBINATIONS * n->m || n->needed + more > MAX_NUMBERS) return false;
    for (size_t j = 0; j < n->m; j++) {
        n->pair_starts[n->pairs] = (uint16_t)n->needed;
        n->members[n->pairs++] = members[j];
        n->needed += size_of(n, members[j]) * n->m;
    }
    return true;
}

static uint64_t variables_of(const network *n, size_t r) {
    uint64_t set = 0;
    for (size_t i = n->variable_starts[r]; i < n->variable_starts[r + 1]; i++) set |= 1ull << n->variables[i];
    return set;
}

bool is_connected(const network *n, const uint16_t *members) {
    uint64_t reached = variables_of(n, members[0]);
    unsigned joined = 1;
    for (size_t round = 1; round < n->m; round++)
        for (size_t j = 1; j < n->m; j++)
            if (reached & variables_of(n, members[j])) reached |= variables_of(n, members[j]), joined |= 1u << j;
    return joined == (1u << n->m) - 1;
}

static void write_numbers(const uint16_t *numbers, size_t count, FILE *out) {
    for (size_t i = 0; i < count; i++) fprintf(out, i ? ",%u" : "%u", numbers[i]);
    putc('\n', out);
}

static void write_codes(const uint32_t *codes, size_t count, FILE *out) {
    for (size_t i = 0; i < count; i++) fprintf(out, i ? ",%u" : "%u", codes[i]);
    putc('\n', out);
}

void write_network(const network *n, FILE *out) {
    fprintf(out, "%u,%zu,%zu\n", n->relations, n->m, n->pairs / n->m);
    for (size_t r = 0; r < n->relations; r++) {
        size_t width = width_of(n, r);
        fprintf(out, "%zu,%zu\n", width, size_of(n, r));
        write_numbers(n->variables + n->variable_starts[r], width, out);
        for (size_t i = n->value_starts[r]; i < n->value_starts[r + 1]; i += width) write_codes(n->values + i, width, out);
    }
    for (size_t p = 0; p < n->pairs; p += n->m) write_numbers(n->members + p, n->m, out);
}

/* A number and the comma or line end behind it; none is more than the most. */
static uint64_t read_number(FILE *in, uint64_t most) {
    uint64_t number;
    return fscanf(in, "%" SCNu64, &number) == 1 && getc(in) != EOF && number <= most ? number : most + 1;
}

static bool read_numbers(uint16_t *numbers, size_t count, FILE *in) {
    uint64_t number = 0;
    for (size_t i = 0; i < count && number < 65536; i++) number = read_number(in, 65535), numbers[i] = (uint16_t)number;
    return number < 65536;
}

static bool read_codes(uint32_t *codes, size_t count, FILE *in) {
    uint64_t number = 0;
    for (size_t i = 0; i < count && number <= ANY; i++) number = read_number(in, ANY), codes[i] = (uint32_t)number;
    return number <= ANY;
}

static bool read_relation(network *n, FILE *in) {
    uint16_t scope[MAX_WIDTH];
    size_t width = read_number(in, 65535), tuples = read_number(in, 65535), at = n->value_count;
    if (width > MAX_WIDTH || tuple_count(n) + tuples > MAX_TUPLES || !read_numbers(scope, width, in)) return false;
    add_relation(n, scope, width, tuples);
    return read_codes(n->values + at, width * tuples, in);
}

bool read_network(network *n, FILE *in) {
    uint16_t members[MAX_MEMBERS];
    size_t relations = read_number(in, 65535), m = read_number(in, 65535), combinations = read_number(in, 65535);
    if (relations > MAX_RELATIONS || m > MAX_MEMBERS || combinations > MAX_COMBINATIONS) return false;
    clear_network(n, m);
    for (size_t r = 0; r < relations; r++)
        if (!read_relation(n, in)) return false;
    for (size_t i = 0; i < combinations; i++)
        if (!read_numbers(members, m, in) || !add_combination(n, members)) return false;
    return true;
}

/* ---- The suite. */

#define TODAY(codes, factor)                                 \
    {NEIGHBOURS, 2, 8, 75, 6, codes, factor, 1, 1, 0, 0},    \
    {NEIGHBOURS, 2, 16, 256, 9, codes, factor, 1, 1, 0, 0},  \
    {NEIGHBOURS, 2, 16, 256, 18, codes, factor, 1, 1, 0, 0}, \
    {NEIGHBOURS, 2, 16, 250, 60, codes, factor, 1, 1, 0, 0}, \
    {NEIGHBOURS, 3, 8, 150, 6, codes, factor, 1, 1, 0, 0},   \
    {NEIGHBOURS, 3, 12, 200, 12, codes, factor, 1, 1, 0, 0}, \
    {NEIGHBOURS, 3, 8, 200, 30, codes, factor, 1, 1, 0, 0},  \
    {NEIGHBOURS, 4, 6, 150, 5, codes, factor, 1, 1, 0, 0},   \
    {NEIGHBOURS, 4, 8, 200, 9, codes, factor, 1, 1, 0, 0},   \
    {NEIGHBOURS, 4, 8, 200, 25, codes, factor, 1, 1, 0, 0}

/* One combination of four relations. */
#define QUADRUPLE(codes, factor)                          \
    {PATH, 4, 4, 1024, 240, codes, factor, 1, 1, 0, 0},   \
    {STAR, 4, 4, 1024, 120, codes, factor, 1, 1, 0, 0},   \
    {RING, 4, 4, 1024, 180, codes, factor, 1, 1, 0, 0},   \
    {CLIQUE, 4, 4, 1024, 30, codes, factor, 1, 1, 0, 0},  \
    {PATH, 4, 4, 1024, 10, codes, factor, 1, 1, 1, 0}

/* Four relations of so many tuples. */
#define SMALLER(tuples, path, ring, clique)                 \
    {PATH, 4, 4, tuples, path, MULTIPLES, 1, 1, 1, 0, 0},   \
    {STAR, 4, 4, tuples, path, MULTIPLES, 1, 1, 1, 0, 0},   \
    {RING, 4, 4, tuples, ring, MULTIPLES, 1, 1, 1, 0, 0},   \
    {CLIQUE, 4, 4, tuples, clique, MULTIPLES, 1, 1, 1, 0, 0}

/* All connected combinations of two and of three of four relations. */
#define FEWER_MEMBERS(shape, pairs, triples)                   \
    {shape, 2, 4, 1024, pairs, MULTIPLES, 1, 1, 1, 0, 0},      \
    {shape, 3, 4, 900, triples, MULTIPLES, 1, 1, 1, 0, 0}

const description suite[] = {
    TODAY(MULTIPLES, 1),
    TODAY(MULTIPLES, 100),
    TODAY(MULTIPLES, 256),
    QUADRUPLE(MULTIPLES, 1),
    QUADRUPLE(MULTIPLES, 7),
    QUADRUPLE(MULTIPLES, 10),
    QUADRUPLE(MULTIPLES, 17),
    QUADRUPLE(MULTIPLES, 100),
    QUADRUPLE(MULTIPLES, 256),
    QUADRUPLE(RANDOM, 0),
    QUADRUPLE(TOPMOST, 0),
    QUADRUPLE(MULTIPLES, 1 << 16),
    QUADRUPLE(MULTIPLES, 1 << 20),
    QUADRUPLE(MULTIPLES, 1 << 24),
    QUADRUPLE(WIDE, 0),
    QUADRUPLE(RAISED, 0),
    TODAY(WIDE, 0),
    TODAY(RAISED, 0),
    SMALLER(16, 12, 8, 4),
    SMALLER(64, 40, 22, 8),
    SMALLER(256, 160, 64, 15),
    FEWER_MEMBERS(PATH, 600, 500),
    FEWER_MEMBERS(STAR, 600, 500),
    FEWER_MEMBERS(RING, 600, 400),
    FEWER_MEMBERS(CLIQUE, 300, 60),
    {RING, 4, 8, 120, 60, MULTIPLES, 1, 1, 1, 0, 0},
    {RING, 3, 8, 150, 80, MULTIPLES, 1, 1, 1, 0, 0},
    {RING, 4, 8, 512, 400, MULTIPLES, 1, 2, 1, 0, 0},
    {CATALOGUE, 4, 6, 100, 8, MULTIPLES, 1, 1, 1, 0, 0},
    {CATALOGUE, 4, 6, 100, 15, MULTIPLES, 1, 1, 1, 0, 0},
    {CATALOGUE, 3, 6, 180, 10, MULTIPLES, 1, 1, 1, 0, 0},
    {CATALOGUE, 3, 6, 180, 20, MULTIPLES, 1, 1, 1, 0, 0},
    {PATH, 4, 4, 1024, 60, MULTIPLES, 1, 1, 16, 0, 0},
    {STAR, 4, 4, 1024, 30, MULTIPLES, 1, 1, 32, 0, 0},
    {RING, 4, 4, 1024, 30, MULTIPLES, 1, 1, 16, 0, 0},
    {CLIQUE, 4, 4, 1024, 12, MULTIPLES, 1, 1, 8, 0, 0},
    {CATALOGUE, 4, 6, 128, 6, MULTIPLES, 1, 1, 8, 0, 0},
};
const size_t suite_count = sizeof suite / sizeof *suite;

/* Of m = 4 every second combination, so that 4,000 tuples need no more than 32,768 support numbers. */
#define GROWN(m, step)                                        \
    {NEIGHBOURS, m, 16, 16, 4, MULTIPLES, 1, step, 1, 0, 0},  \
    {NEIGHBOURS, m, 16, 32, 4, MULTIPLES, 1, step, 1, 0, 0},  \
    {NEIGHBOURS, m, 16, 63, 4, MULTIPLES, 1, step, 1, 0, 0},  \
    {NEIGHBOURS, m, 16, 125, 4, MULTIPLES, 1, step, 1, 0, 0}, \
    {NEIGHBOURS, m, 16, 250, 4, MULTIPLES, 1, step, 1, 0, 0}

const description growth[] = {GROWN(2, 1), GROWN(3, 1), GROWN(4, 2)};
const size_t growth_count = sizeof growth / sizeof *growth;

/* Shapes of the suite, of whose values so many per cent are any. */
#define ANY_AMONG(any)                                        \
    {NEIGHBOURS, 2, 16, 256, 60, MULTIPLES, 1, 1, 1, 0, any}, \
    {NEIGHBOURS, 3, 12, 200, 20, MULTIPLES, 1, 1, 1, 0, any}, \
    {NEIGHBOURS, 4, 8, 200, 25, MULTIPLES, 1, 1, 1, 0, any},  \
    {PATH, 4, 4, 1024, 240, MULTIPLES, 1, 1, 1, 0, any},      \
    {STAR, 4, 4, 1024, 600, MULTIPLES, 1, 1, 1, 0, any},      \
    {RING, 4, 4, 1024, 600, MULTIPLES, 1, 1, 1, 0, any},      \
    {CLIQUE, 4, 4, 1024, 150, MULTIPLES, 1, 1, 1, 0, any},    \
    {CLIQUE, 4, 4, 256, 60, MULTIPLES, 1, 1, 1, 0, any},      \
    {CLIQUE, 4, 8, 120, 10, MULTIPLES, 1, 1, 1, 0, any}

/* The same, and for each share some of which tuples fall. */
const description with_any[] = {
    ANY_AMONG(5),
    {PATH, 4, 4, 64, 100, MULTIPLES, 1, 1, 1, 0, 5},
    {RING, 4, 4, 256, 1000, MULTIPLES, 1, 1, 1, 0, 5},
    {CATALOGUE, 4, 6, 100, 30, MULTIPLES, 1, 1, 1, 0, 5},
    ANY_AMONG(30),
    {NEIGHBOURS, 2, 64, 16, 50, MULTIPLES, 1, 1, 1, 0, 30},
    {NEIGHBOURS, 3, 64, 16, 50, MULTIPLES, 1, 1, 1, 0, 30},
    {NEIGHBOURS, 4, 16, 32, 50, MULTIPLES, 1, 1, 1, 0, 30},
    {CLIQUE, 4, 8, 30, 200, MULTIPLES, 1, 1, 1, 0, 30},
};
const size_t with_any_count = sizeof with_any / sizeof *with_any;

void name_network(const description *d, char name[NAME_SIZE]) {
    static const char *const shapes[] = {"neighbours", "path", "star", "ring", "clique", "catalogue"};
    int at = snprintf(name, NAME_SIZE, "%s-m%zu-%zux%zu-v%u", shapes[d->shape], d->m, d->relations, d->tuples, d->values);
    static const char *const kinds[] = {"", "-random", "-topmost", "-wide", "-raised"};
    if (d->codes != MULTIPLES) at += snprintf(name + at, NAME_SIZE - at, "%s", kinds[d->codes]);
    else if (d->factor != 1) at += snprintf(name + at, NAME_SIZE - at, "-x%u", d->factor);
    if (d->step != 1) at += snprintf(name + at, NAME_SIZE - at, "-step%zu", d->step);
    if (d->alike != 1) at += snprintf(name + at, NAME_SIZE - at, "-alike%zu", d->alike);
    if (d->apart) at += snprintf(name + at, NAME_SIZE - at, "-apart");
    if (d->any) snprintf(name + at, NAME_SIZE - at, "-any%u", d->any);
}

static uint64_t seed;
static unsigned draw(unsigned below) {
    seed = seed * 6364136223846793005u + 1442695040888963407u;
    return (unsigned)(seed >> 33) % below;
}

/* The number of two of a clique's relations, or of a catalogue's common variables. */
static uint16_t number_of(size_t a, size_t b) { return (uint16_t)(a < b ? b * (b - 1) / 2 + a : a * (a - 1) / 2 + b); }

enum { COMMON = 4, PRIVATE = 4 };
/* A catalogue's relation has two of the common variables and some of its own. */
static size_t catalogue_scope(size_t r, uint16_t *scope) {
    size_t width = 0;
    for (size_t a = 0; a < COMMON; a++)
        for (size_t b = 0; b < COMMON; b++)
            if (a != b && number_of(a, b) == r) scope[width++] = (uint16_t)a;
    for (size_t j = 0; j < PRIVATE; j++) scope[width++] = (uint16_t)(COMMON + r * PRIVATE + j);
    return width;
}

/* Each two relations of a clique have a variable. */
static size_t clique_scope(size_t relations, size_t r, uint16_t *scope) {
    size_t width = 0;
    for (size_t s = 0; s < relations; s++)
        if (s != r) scope[width++] = number_of(r, s);
    return width;
}

/* A star's first relation has a variable with each of the others, and those one of their own. */
static size_t star_scope(size_t relations, size_t r, uint16_t *scope) {
    if (r == 0) {
        for (size_t s = 1; s < relations; s++) scope[s - 1] = (uint16_t)s;
        return relations - 1;
    }
    scope[0] = (uint16_t)r, scope[1] = (uint16_t)(relations + r);
    return 2;
}

/* Variables r, r + 1 and on, the first column turned by r. */
static size_t chain_scope(size_t variables, size_t width, size_t r, uint16_t *scope) {
    for (size_t j = 0; j < width; j++) scope[j] = (uint16_t)((r + (j + r) % width) % variables);
    return width;
}

size_t shape_scope(network_shape shape, size_t relations, size_t r, uint16_t *scope) {
    switch (shape) {
    case NEIGHBOURS: return chain_scope(MAX_RELATIONS, 3, r, scope);
    case PATH: return chain_scope(MAX_RELATIONS, 2, r, scope);
    case RING: return chain_scope(relations, 2, r, scope);
    case STAR: return star_scope(relations, r, scope);
    case CLIQUE: return clique_scope(relations, r, scope);
    default: return catalogue_scope(r, scope);
    }
}

/* One to one: odd factors, and a shift that the upper bits undo. */
static uint32_t mixed(uint32_t value) {
    value = value * 2891336453u + 12345;
    return (value ^ value >> 15) * 747796405u;
}

static uint32_t mixed_half(unsigned value) {
    value = (value * 24029 + 12345) & 65535;
    return ((value ^ value >> 7) * 51749) & 65535;
}

/* Multiples of the factor; random ones of 16 bits, and of 32; the highest ones; and those from 4,000,000,000 on. */
uint32_t code_of(const description *d, unsigned value) {
    switch (d->codes) {
    case RANDOM: return mixed_half(value);
    case TOPMOST: return ANY - 1 - value;
    case WIDE: return mixed(value);
    case RAISED: return 4000000000u + value;
    default: return value * d->factor;
    }
}

description narrowed(const description *d) {
    description narrow = *d;
    if (d->codes == WIDE) narrow.codes = RANDOM;
    if (d->codes == RAISED) narrow.codes = TOPMOST;
    if (d->factor > 256) narrow.factor = 256;
    return narrow;
}

static bool is_private(const network *n, uint16_t variable) {
    size_t count = 0;
    for (size_t i = 0; i < n->variable_count; i++) count += n->variables[i] == variable;
    return count == 1;
}

static uint32_t draw_code(const description *d, unsigned moved) {
    if (d->any && draw(100) < d->any) return ANY;
    return code_of(d, draw(d->values) + moved);
}

/* A tuple of which an earlier one is to be alike has that one's values, apart from private ones. */
static void draw_values(network *n, const description *d, size_t r) {
    size_t width = width_of(n, r), different = d->tuples / d->alike;
    unsigned moved = d->apart && r + 1 == d->relations ? d->values : 0;
    uint32_t *tuple = n->values + n->value_starts[r];
    for (size_t x = 0; x < d->tuples; x++, tuple += width)
        for (size_t c = 0; c < width; c++) {
            bool again = x >= different && !is_private(n, n->variables[n->variable_starts[r] + c]);
            tuple[c] = again ? (tuple - different * width)[c] : draw_code(d, moved);
        }
}

bool next_choice(const network *n, uint16_t *members) {
    size_t j = n->m;
    while (j > 0 && members[j - 1] == n->relations - (n->m - j) - 1) j--;
    if (j == 0) return false;
    members[j - 1]++;
    for (; j < n->m; j++) members[j] = (uint16_t)(members[j - 1] + 1);
    return true;
}

/* Of neighbours, relations in a row are a combination; of other shapes all that are connected. */
static void combine(network *n, const description *d) {
    uint16_t members[MAX_MEMBERS] = {0, 1, 2, 3};
    size_t count = 0;
    do {
        bool row = members[n->m - 1] - members[0] == (int)n->m - 1;
        if ((d->shape != NEIGHBOURS || row) && is_connected(n, members) && count++ % d->step == 0) add_combination(n, members);
    } while (next_choice(n, members));
}

void draw_network(network *n, const description *d) {
    uint16_t scope[MAX_WIDTH];
    seed = 7 + d->m * 1000 + d->relations * 10 + d->values;
    clear_network(n, d->m);
    for (size_t r = 0; r < d->relations; r++) {
        size_t width = shape_scope(d->shape, d->relations, r, scope);
        add_relation(n, scope, width, d->tuples);
    }
    for (size_t r = 0; r < d->relations; r++) draw_values(n, d, r);
    combine(n, d);
}
