/* The filter in plain C, by the algorithm of the proved engine: an index of values by digits, sweeps, a queue of pairs of combination and
 * member; in a visit twins, by sides where the other members fall apart, the seeking tuple tried first, members spread to and narrowed,
 * each search resumed at the fallen support; in a hard search members spread to each other, a sieve of values, tuples like one that failed
 * passed over, and now and then an attempt to show, fewest candidates first, that there is no support at all; after one, doubles left out,
 * and the first member narrowed through two others at once; what a long search has come to narrows those after it; and where searches have
 * tried much, all that still seek are sought together. Tuples are known by id, so that candidates of all relations are one array of words. */
#include "leaves.h"
#include <string.h>

enum { TABLE = 9216, MAX_DIGITS = 4, MAX_ROWS = 1024, MAX_SWEEPS = 2, FEW = 8, MANY = 128, FAILURES = 16, FRESH = 32, PATIENCE = 64, CHOICES = 512, MANY_CHOICES = 2048, LONG = 256, MUCH = 16384, PLACES = 2048, SAMPLE = 32 };
/* A member is narrowed through two others that have at most so many candidates for each of its own, and so many more; classes of values, that of
 * any and the row of all behind them; factors tried for them, on so many tuples of a relation. */
enum { SHARE = 16, WORTH = 64, OF_ANY = 256, OF_ALL, ROW = OF_ANY / 64, FACTORS = 16, LOOKED = 128 };
/* Hashes lie below; so many classes of them are enough; and factors that spread them, the last for tables of tuples. */
static const uint64_t HASHES = 1ull << 32, ENOUGH = 65536, SPREAD = 2654435769, FURTHER = 2246822507, FAR = 1 << 30;
static const uint32_t EVEN = 1410414543;
enum { MAX_SHARED = MAX_WIDTH, MAX_KEPT = MAX_SHARED * MAX_DIGITS };

/* A relation: its tuples have the ids from first on and below end; these are in the words from word on and below last. */
typedef struct {
    const uint16_t *scope;
    const uint32_t *values;
    int width, first, end, word, last;
    int slots[MAX_WIDTH]; /* which row of rows a shared column has in the index; -1 for the others */
    uint64_t variables;
} relation;

/* Columns of equal variables of two relations. */
typedef struct {
    int count;
    uint8_t from[MAX_SHARED], to[MAX_SHARED];
} columns;

/* For each shared column and each value of each digit, the ids of the tuples that have it there, or any; behind these rows of a column
 * one of the ids that have any. */
typedef struct {
    uint64_t factor;
    bool spread; /* digits are of mixed bits */
    unsigned digits, rows, parts[MAX_DIGITS], begins[MAX_DIGITS];
    uint64_t table[TABLE];
} value_index;

/* What a filtering knows. */
typedef struct {
    const network *n;
    uint64_t *live;
    int words;
    relation relations[MAX_RELATIONS];
    value_index index;
} filtering;

/* What a visit of a combination and member knows. */
typedef struct {
    const filtering *f;
    const relation *members[MAX_MEMBERS];
    int m, place, own; /* the seeking tuple's member, and the tuple */
    bool bare;         /* a member has no live tuple */
    long tried;        /* choices by hard searches; after some, */
    const uint64_t *words; /* which are the live words, become the lean ones, */
    uint64_t lean[WORDS];  /* without tuples that are like an earlier live one under the variables of all other members */
    uint64_t near, far; /* the variables of the other members, in two sides that share none */
    unsigned places;    /* which members are on the far side */
    uint16_t sought[PLACES]; /* by the hash of its values, the first tuple that was sought in the visit */
    uint64_t outside[MAX_MEMBERS][WORDS];
    columns shared[MAX_MEMBERS][MAX_MEMBERS];
    int steps, nearer[MAX_MEMBERS], farther[MAX_MEMBERS]; /* which members are spread to, through which */
    uint16_t low[MAX_MEMBERS];                            /* where the search resumes */
    long together;           /* steps of searches for all that seek, */
    uint64_t pending[WORDS]; /* which are these; */
    bool settled;            /* those left of them have no support */
    unsigned factor;         /* by which values are told apart in narrowing through two members; 0 as long as that is not worth while */
    bool noted;              /* a long search has ended: */
    uint64_t fresh[WORDS];   /* every support has one of these beside the member's own tuple */
} visit;

static inline bool is_live(const uint64_t *words, int g) { return words[g / 64] >> g % 64 & 1; }
static inline void put(uint64_t *words, int g) { words[g / 64] |= 1ull << g % 64; }
static inline void take(uint64_t *words, int g) { words[g / 64] &= ~(1ull << g % 64); }

/* The first live id of the relation from g on, or its end. */
static inline int next_of(const uint64_t *words, const relation *r, int g) { return next(words, 0, (uint16_t)g, (uint16_t)r->end); }
static bool is_empty(const uint64_t *words, const relation *r) { return next_of(words, r, r->first) == r->end; }
static inline const uint32_t *tuple_of(const relation *r, int x) { return r->values + x * r->width; }

static bool agree_at(const relation *r, int x, const relation *s, int y) {
    return first_clash(r->scope, r->width, tuple_of(r, x), r->width, s->scope, s->width, tuple_of(s, y), s->width) == NO_VARIABLE;
}

/* Of the relation's word i, the bits of its own ids. */
static inline uint64_t inside(const relation *r, int i) {
    int over = (i + 1) * 64 - r->end;
    return (i == r->word ? ~0ull << r->first % 64 : ~0ull) & (over > 0 ? ~0ull >> over : ~0ull);
}

static columns share(const relation *r, const relation *s) {
    columns e = {0};
    for (int i = 0; i < r->width; i++)
        for (int j = 0; j < s->width; j++)
            if (r->scope[i] == s->scope[j]) e.from[e.count] = (uint8_t)i, e.to[e.count++] = (uint8_t)j;
    return e;
}

/* ---- The index. */

static void find_relations(filtering *f) {
    const network *n = f->n;
    for (int k = 0; k < n->relations; k++) {
        relation *r = f->relations + k;
        r->scope = n->variables + n->variable_starts[k], r->values = n->values + n->value_starts[k];
        r->width = n->variable_starts[k + 1] - n->variable_starts[k];
        r->first = n->tuple_starts[k], r->end = n->tuple_starts[k + 1];
        r->word = r->first / 64, r->last = r->first < r->end ? (r->end + 63) / 64 : r->word;
        r->variables = 0;
        for (int c = 0; c < r->width; c++) r->variables |= 1ull << r->scope[c];
    }
}

/* For each relation, the variables of those beside it, which are in a combination with it. */
static void find_seen(const filtering *f, uint64_t *seen) {
    const network *n = f->n;
    for (size_t p = 0; p < n->pairs; p++)
        for (size_t j = p - p % n->m; j < p - p % n->m + n->m; j++)
            if (j != p) seen[n->members[p]] |= f->relations[n->members[j]].variables;
}

/* The columns that a relation beside shares get slots; the most of any relation. */
static int find_slots(filtering *f) {
    uint64_t seen[MAX_RELATIONS] = {0};
    int most = 1;
    find_seen(f, seen);
    for (int k = 0; k < f->n->relations; k++) {
        relation *r = f->relations + k;
        int slots = 0;
        for (int c = 0; c < r->width; c++) r->slots[c] = seen[k] >> r->scope[c] & 1 ? slots++ : -1;
        if (most < slots) most = slots;
    }
    return most;
}

/* So many digits among the rows; how many values they tell apart. */
static uint64_t divide_rows(value_index *index, unsigned digits) {
    uint64_t classes = 1;
    unsigned begin = 0;
    index->digits = digits;
    for (unsigned i = 0; i < digits; i++) {
        index->begins[i] = begin, index->parts[i] = (index->rows - begin) / (digits - i);
        begin += index->parts[i], classes *= index->parts[i];
    }
    return classes;
}

/* As few digits as tell all values apart; where fewer make enough classes, or four do not tell them apart, those of a product whose bits are
 * mixed. Any choice is sound. */
static void choose_digits(value_index *index, const uint32_t *values, size_t count) {
    uint32_t lowest = ANY, most = 0;
    for (size_t i = 0; i < count; i++) {
        if (values[i] < lowest) lowest = values[i];
        if (values[i] > most && values[i] != ANY) most = values[i];
    }
    index->spread = false;
    index->factor = most < lowest ? HASHES : HASHES / (most - lowest + 1ull);
    for (unsigned digits = 1; digits <= MAX_DIGITS; digits++) {
        uint64_t classes = divide_rows(index, digits);
        if (classes * index->factor >= HASHES) return;
        if (classes >= ENOUGH) break;
    }
    index->spread = true;
    index->factor = SPREAD;
}

/* Where the rows of the relation's column begin, counted in rows. */
static inline unsigned column_row(const filtering *f, const relation *r, int column) {
    return (unsigned)r->slots[column] * (f->index.rows + 1);
}

/* A product's upper bits mixed into its lower ones, and back. */
static inline uint64_t mixed(uint64_t h) {
    h = (uint32_t)((h ^ h >> 15) * FURTHER);
    return h ^ h >> 13;
}

/* The rows that a value has in the relation's column, one for each digit; any has none. */
static inline unsigned rows_of(const filtering *f, const uint64_t **rows, const relation *r, int column, uint32_t value) {
    const value_index *index = &f->index;
    const unsigned slot = column_row(f, r, column);
    uint64_t h = (uint32_t)(value * index->factor);
    if (value == ANY) return 0;
    if (index->spread) h = mixed(h);
    for (unsigned i = 0; i < index->digits; i++) {
        uint64_t part = h * index->parts[i];
        rows[i] = index->table + (slot + index->begins[i] + (part >> 32)) * f->words;
        h = (uint32_t)part;
    }
    return index->digits;
}

/* The row of the ids that have any in the relation's column. */
static inline uint64_t *any_row(filtering *f, const relation *r, int column) {
    return f->index.table + (column_row(f, r, column) + f->index.rows) * f->words;
}

static bool has_bits(const uint64_t *words, const relation *r) {
    uint64_t any = 0;
    for (int w = r->word; w < r->last; w++) any |= words[w];
    return any;
}

/* The relation's ids that have any in the column are put to all its rows. */
static void spread_any(filtering *f, const relation *r, int column) {
    const uint64_t *any = any_row(f, r, column);
    uint64_t *row = f->index.table + column_row(f, r, column) * f->words;
    if (!has_bits(any, r)) return;
    for (; row < any; row += f->words)
        for (int w = r->word; w < r->last; w++) row[w] |= any[w];
}

static void mark_value(filtering *f, const relation *r, int column, uint32_t value, int g) {
    const uint64_t *rows[MAX_DIGITS];
    if (value == ANY) put(any_row(f, r, column), g);
    for (unsigned i = rows_of(f, rows, r, column, value); i-- > 0;) put((uint64_t *)rows[i], g);
}

static void mark_relation(filtering *f, const relation *r) {
    const uint32_t *tuple = r->values;
    for (int g = r->first; g < r->end; g++, tuple += r->width)
        for (int c = 0; c < r->width; c++)
            if (r->slots[c] >= 0) mark_value(f, r, c, tuple[c], g);
    for (int c = 0; c < r->width; c++)
        if (r->slots[c] >= 0) spread_any(f, r, c);
}

static void make_index(filtering *f) {
    find_relations(f);
    int cells = find_slots(f) * f->words;
    unsigned rows = cells ? TABLE / cells - 1 : MAX_DIGITS;
    f->index.rows = rows < MAX_ROWS ? rows : MAX_ROWS;
    choose_digits(&f->index, f->n->values, f->n->value_count);
    memset(f->index.table, 0, sizeof f->index.table);
    for (int k = 0; k < f->n->relations; k++) mark_relation(f, f->relations + k);
}

/* The rows that a tuple's values have in the columns that another relation shares. */
static inline unsigned rows_of_tuple(const filtering *f, const uint64_t **rows, const uint32_t *tuple, const relation *s, const columns *e) {
    unsigned count = 0;
    for (int i = 0; i < e->count; i++) count += rows_of(f, rows + count, s, e->to[i], tuple[e->from[i]]);
    return count;
}

/* ---- Sweeps. */

/* Whether some id is in all these words; true where there are no rows. */
static inline bool meet(const uint64_t *words, const uint64_t **rows, unsigned count, const relation *s) {
    uint64_t any = 0;
    if (count == 0) return true;
    if (count == 1)
        for (int w = s->word; w < s->last; w++) any |= words[w] & rows[0][w];
    else if (count == 2)
        for (int w = s->word; w < s->last; w++) any |= words[w] & rows[0][w] & rows[1][w];
    else
        for (int w = s->word; w < s->last && !any; w++) {
            any = words[w] & rows[0][w] & rows[1][w];
            if (any)
                for (unsigned i = 2; i < count; i++) any &= rows[i][w];
        }
    return any;
}

/* The tuples of r that no live one of s may agree with fall, and the rest is left where few of the first do; whether one fell. */
static bool revise(const filtering *f, const relation *r, const relation *s) {
    const columns e = share(r, s);
    const uint64_t *rows[MAX_KEPT];
    uint64_t alive[WORDS];
    int tested = 0, fell = 0;
    if (e.count == 0) return false;
    for (int w = s->word; w < s->last; w++) alive[w] = f->live[w] & inside(s, w);
    for (int g = next_of(f->live, r, r->first); g < r->end; g = next_of(f->live, r, g + 1)) {
        if (tested++ >= SAMPLE && fell * 16 < tested) break;
        unsigned count = rows_of_tuple(f, rows, tuple_of(r, g - r->first), s, &e);
        if (!meet(alive, rows, count, s)) take(f->live, g), fell++;
    }
    return fell;
}

static bool sweep(const filtering *f, const uint64_t *beside) {
    bool fell = false;
    for (int r = 0; r < f->n->relations; r++)
        for (uint64_t rest = beside[r]; rest; rest &= rest - 1)
            fell |= revise(f, f->relations + r, f->relations + __builtin_ctzll(rest));
    return fell;
}

/* A tuple falls that no live tuple of some relation beside its own may agree with. */
static void sweeps(const filtering *f) {
    const network *n = f->n;
    uint64_t beside[MAX_RELATIONS] = {0};
    for (size_t p = 0; p < n->pairs; p++)
        for (size_t j = p - p % n->m; j < p - p % n->m + n->m; j++)
            if (j != p) beside[n->members[p]] |= 1ull << n->members[j];
    for (int i = 0; i < MAX_SWEEPS && sweep(f, beside); i++) {}
}

/* ---- A visit. */

/* Members that share no variable with the seeking tuple's are spread to, nearest first. Any list is sound. */
static void find_steps(visit *v) {
    unsigned reached = 1u << v->place, before = 0;
    for (int j = 0; j < v->m; j++)
        if (j != v->place && v->shared[v->place][j].count) reached |= 1u << j;
    for (v->steps = 0; before != reached;) {
        before = reached;
        for (int j = 0; j < v->m; j++)
            for (int i = 0; i < v->m; i++) {
                if (before >> j & 1 || !(before >> i & 1) || i == v->place || !v->shared[i][j].count || v->steps == MAX_MEMBERS) continue;
                v->nearer[v->steps] = i, v->farther[v->steps++] = j;
                reached |= 1u << j;
            }
    }
}

/* The other members in two sides: those that the first of them reaches by shared variables, and the rest. */
static void find_sides(visit *v) {
    v->near = v->far = v->places = 0;
    for (int round = 1; round < v->m; round++)
        for (int j = 0; j < v->m; j++)
            if (j != v->place && (!v->near || v->members[j]->variables & v->near)) v->near |= v->members[j]->variables;
    for (int j = 0; j < v->m; j++)
        if (j != v->place && !(v->members[j]->variables & v->near)) v->far |= v->members[j]->variables, v->places |= 1u << j;
}

static void plan(visit *v, const filtering *f, size_t p) {
    const network *n = f->n;
    v->f = f, v->m = (int)n->m, v->place = (int)(p % n->m), v->bare = v->noted = v->settled = false, v->tried = v->together = 0, v->factor = 0, v->words = f->live;
    for (int j = 0; j < v->m; j++) {
        const relation *r = v->members[j] = f->relations + n->members[p - p % n->m + (size_t)j];
        v->bare |= is_empty(f->live, r);
        for (int w = r->word; w < r->last; w++) v->outside[j][w] = ~inside(r, w);
    }
    for (int i = 0; i < v->m; i++)
        for (int j = 0; j < v->m; j++)
            if (i != j) v->shared[i][j] = share(v->members[i], v->members[j]);
    memset(v->sought, 255, sizeof v->sought);
    find_sides(v);
    find_steps(v);
}

/* ---- The search. */

/* Member j's candidates narrowed to those that may agree with tuple x of member i; whether one is left. */
static inline bool narrow(const visit *v, uint64_t *words, int i, int x, int j) {
    const relation *s = v->members[j];
    const columns *e = &v->shared[i][j];
    const uint32_t *tuple = tuple_of(v->members[i], x);
    const uint64_t *outside = v->outside[j], *rows[MAX_DIGITS];
    uint64_t any = 1;
    for (int k = 0; k < e->count; k++) {
        unsigned digits = rows_of(v->f, rows, s, e->to[k], tuple[e->from[k]]);
        if (digits == 0) continue;
        any = 0;
        if (digits == 1)
            for (int w = s->word; w < s->last; w++) any |= (words[w] &= rows[0][w] | outside[w]) & ~outside[w];
        else
            for (int w = s->word; w < s->last; w++) {
                uint64_t kept = rows[0][w] & rows[1][w];
                for (unsigned d = 2; d < digits; d++) kept &= rows[d][w];
                any |= (words[w] &= kept | outside[w]) & ~outside[w];
            }
    }
    return any;
}

static bool narrow_members(const visit *v, uint64_t *words, int i, int x, int j) {
    for (; j < v->m; j++)
        if (j != v->place && v->shared[i][j].count && !narrow(v, words, i, x, j)) return false;
    return true;
}

static int count_of(const uint64_t *words, const relation *r) {
    int k = 0;
    for (int w = r->word; w < r->last; w++) k += __builtin_popcountll(words[w] & inside(r, w));
    return k;
}

/* The ids in all these rows are put to the sum. */
static inline void gather(uint64_t *sum, const uint64_t **rows, unsigned count, const relation *s) {
    if (count == 0)
        for (int w = s->word; w < s->last; w++) sum[w] = ~0ull;
    else if (count == 1)
        for (int w = s->word; w < s->last; w++) sum[w] |= rows[0][w];
    else
        for (int w = s->word; w < s->last; w++) {
            uint64_t kept = rows[0][w] & rows[1][w];
            for (unsigned i = 2; i < count; i++) kept &= rows[i][w];
            sum[w] |= kept;
        }
}

/* Member j's candidates narrowed to those that may agree with a candidate of member i, if those are not more; whether one is left. */
static bool spread(const visit *v, uint64_t *words, int i, int j, int most) {
    const relation *r = v->members[i], *s = v->members[j];
    const uint64_t *rows[MAX_KEPT], *outside = v->outside[j];
    uint64_t sum[WORDS], any = 0;
    if (count_of(words, r) > most) return true;
    for (int w = s->word; w < s->last; w++) sum[w] = outside[w];
    for (int w = r->word; w < r->last; w++)
        for (uint64_t rest = words[w] & inside(r, w); rest; rest &= rest - 1) {
            const uint32_t *tuple = tuple_of(r, w * 64 + __builtin_ctzll(rest) - r->first);
            gather(sum, rows, rows_of_tuple(v->f, rows, tuple, s, &v->shared[i][j]), s);
        }
    for (int w = s->word; w < s->last; w++) any |= (words[w] &= sum[w]) & ~outside[w];
    return any;
}

static bool fits(const visit *v, int j, const uint16_t *chosen, int x) {
    const relation *r = v->members[j];
    if (!agree_at(v->members[v->place], v->own, r, x)) return false;
    for (int i = 0; i < j; i++)
        if (i != v->place && !agree_at(v->members[i], chosen[i], r, x)) return false;
    return true;
}

/* ---- Tuples with the same values. */

static bool is_alike(const relation *r, const uint32_t *a, const uint32_t *b, uint64_t variables) {
    for (int c = 0; c < r->width; c++)
        if (variables >> r->scope[c] & 1 && a[c] != b[c]) return false;
    return true;
}

/* The tuple entered at a place, if it has x's values under the variables; x otherwise, which is entered if none is. */
static inline int alike_at(uint16_t *entry, const relation *r, int x, uint64_t variables) {
    if (*entry >= x) return *entry = (uint16_t)x;
    return is_alike(r, tuple_of(r, x), tuple_of(r, *entry), variables) ? *entry : x;
}

/* The same by the hash of x's values from a first one on, and where a tuple with other values is, at the next place. */
static inline int alike_from(uint16_t *table, const relation *r, int x, uint64_t variables, uint64_t hash) {
    const uint32_t *tuple = tuple_of(r, x);
    for (int c = 0; c < r->width; c++)
        if (variables >> r->scope[c] & 1) hash = (hash + tuple[c]) * EVEN, hash = (uint32_t)((hash >> 32) + (uint32_t)hash);
    int y = alike_at(table + (hash >> 21), r, x, variables);
    if (y < x || table[hash >> 21] == x) return y;
    return alike_at(table + ((hash >> 21) + 1) % PLACES, r, x, variables);
}

static int first_alike(uint16_t *table, const relation *r, int x, uint64_t variables) { return alike_from(table, r, x, variables, 0); }

/* ---- Refutation. */

/* Whether a candidate of member j that may agree with tuple x of member i agrees with the seeking tuple. */
static bool meets(const visit *v, const uint64_t *words, int i, int x, int j) {
    const relation *s = v->members[j];
    const uint64_t *rows[MAX_KEPT];
    unsigned count = rows_of_tuple(v->f, rows, tuple_of(v->members[i], x), s, &v->shared[i][j]);
    for (int w = s->word; w < s->last; w++) {
        uint64_t rest = words[w] & inside(s, w);
        for (unsigned k = 0; k < count && rest; k++) rest &= rows[k][w];
        for (; rest; rest &= rest - 1)
            if (agree_at(v->members[v->place], v->own, s, w * 64 + __builtin_ctzll(rest) - s->first)) return true;
    }
    return false;
}

/* Of the members left, one with the fewest candidates. */
static int fewest(const visit *v, const uint64_t *words, unsigned left) {
    int best = 0, least = MAX_TUPLES + 1;
    for (int k = 0; k < v->m; k++) {
        int count = left >> k & 1 ? count_of(words, v->members[k]) : least;
        if (count < least) least = count, best = k;
    }
    return best;
}

static bool narrow_left(const visit *v, uint64_t *words, unsigned left, int i, int x) {
    for (int k = 0; k < v->m; k++)
        if (left >> k & 1 && v->shared[i][k].count && !narrow(v, words, i, x, k)) return false;
    return true;
}

/* Whether no candidates of the members left agree with each other and with the seeking tuple; false also where the steps do not suffice. */
static bool is_refuted(const visit *v, const uint64_t *words, unsigned left, long *steps) {
    int i = fewest(v, words, left);
    const relation *r = v->members[i];
    unsigned rest = left & ~(1u << i);
    bool last = !(rest & (rest - 1));
    for (int g = next_of(words, r, r->first); g < r->end; g = next_of(words, r, g + 1)) {
        int x = g - r->first;
        uint64_t fewer[WORDS];
        if ((*steps -= last ? 1 : 4) < 0) return false;
        if (!agree_at(v->members[v->place], v->own, r, x)) continue;
        if (last) {
            if (!rest || meets(v, words, i, x, __builtin_ctz(rest))) return false;
            continue;
        }
        memcpy(fewer, words, (size_t)v->f->words * sizeof *words);
        if (narrow_left(v, fewer, rest, i, x) && !is_refuted(v, fewer, rest, steps)) return false;
    }
    return true;
}

/* The same of the members from j on. */
static bool is_hopeless(const visit *v, const uint64_t *words, int j, long steps) {
    unsigned others = ((1u << v->m) - 1) & ~(1u << v->place);
    return is_refuted(v, words, others >> j << j, &steps);
}

/* ---- A hard search. */

/* The open members from j on, spread to from those that have not half as many candidates as they or as member j. */
static bool spread_open(const visit *v, uint64_t *words, int j) {
    int count[MAX_MEMBERS] = {0};
    for (int k = j; k < v->m; k++) count[k] = count_of(words, v->members[k]);
    for (int to = j; to < v->m; to++)
        for (int from = j; from < v->m; from++) {
            if (to == from || to == v->place || from == v->place || !v->shared[from][to].count) continue;
            if (count[from] >= count[to] / 2 && count[from] >= count[j] / 2) continue;
            if (!spread(v, words, from, to, MANY)) return false;
        }
    return true;
}

/* The bits of a value in a sieve: one, and of any all. */
static inline uint64_t bits_of(uint32_t value) { return value == ANY ? ~0ull : 1ull << (mixed(value) >> 26); }

/* The column in which member j's tuples are sieved by the values of the last member's candidates; none sieves nothing. */
static int find_sieve(const visit *v, const uint64_t *words, int j, uint64_t *bits) {
    int last = v->m - 1 == v->place ? v->m - 2 : v->m - 1;
    *bits = 0;
    if (last <= j || !v->shared[j][last].count) return -1;
    const relation *r = v->members[last];
    for (int g = next_of(words, r, r->first); g < r->end; g = next_of(words, r, g + 1))
        *bits |= bits_of(tuple_of(r, g - r->first)[v->shared[j][last].to[0]]);
    return v->shared[j][last].from[0];
}

/* Of a search that is hard, how many choices were tried since, and one more. */
static bool search(const visit *v, const uint64_t *words, int j, bool resumes, uint16_t *chosen, bool eager, int *tried);

/* Tuple x chosen for member j. */
static bool attempt(const visit *v, const uint64_t *words, int j, bool resumes, uint16_t *chosen, int x, bool eager, int *tried) {
    uint64_t fewer[WORDS];
    int on = j + 1 == v->place ? j + 2 : j + 1;
    chosen[j] = (uint16_t)x;
    if (on == v->m) return fits(v, j, chosen, x);
    memcpy(fewer, words, (size_t)v->f->words * sizeof *words);
    return narrow_members(v, fewer, j, x, on) && fits(v, j, chosen, x) && search(v, fewer, on, resumes && x == v->low[j], chosen, eager, tried);
}

/* Member j's candidates from g on, where the search is hard: those are passed over that the sieve stops, or that are like one that failed.
 * After so many it is tried to show that none leads to a support. */
static bool comb(const visit *v, const uint64_t *words, int j, bool resumes, uint16_t *chosen, int g, int *tried) {
    const relation *r = v->members[j];
    uint64_t bits, variables = 0;
    uint16_t failed[PLACES];
    int column = find_sieve(v, words, j, &bits), patience = PATIENCE;
    for (int k = j + 1; k < v->m; k++)
        if (k != v->place) variables |= v->members[k]->variables;
    memset(failed, 255, sizeof failed);
    for (; g < r->end; g = next_of(words, r, g + 1)) {
        int x = g - r->first;
        if (column >= 0 && !(bits & bits_of(tuple_of(r, x)[column]))) continue;
        if (!fits(v, j, chosen, x)) continue;
        if (!(resumes && x == v->low[j]) && first_alike(failed, r, x, variables) != x) continue;
        if (*tried >= patience) {
            if (is_hopeless(v, words, j, 32 * (long)*tried)) return false;
            patience *= 16;
        }
        int behind = 0;
        bool found = attempt(v, words, j, resumes, chosen, x, true, &behind);
        *tried += 1 + behind;
        if (found) return true;
    }
    return false;
}

static bool search(const visit *v, const uint64_t *words, int j, bool resumes, uint16_t *chosen, bool eager, int *tried) {
    const relation *r = v->members[j];
    int g = next_of(words, r, resumes ? r->first + v->low[j] : r->first);
    if (*tried = eager, eager) return comb(v, words, j, resumes, chosen, g, tried);
    for (int failures = 0; g < r->end && failures < FAILURES && !*tried; failures++) {
        if (attempt(v, words, j, resumes, chosen, g - r->first, false, tried)) return true;
        g = next_of(words, r, g + 1);
    }
    if (g == r->end) return false;
    uint64_t fewer[WORDS];
    *tried = 1;
    memcpy(fewer, words, (size_t)v->f->words * sizeof *words);
    return spread_open(v, fewer, j) && comb(v, fewer, j, resumes, chosen, next_of(fewer, r, g), tried);
}

/* ---- Narrowing through two members at once. */

typedef uint64_t reached[OF_ALL + 1][ROW];

/* The class of a tuple's value in a column; that of any where there is no such column. */
static inline unsigned class_at(unsigned factor, const uint32_t *tuple, int column) {
    if (column < 0 || tuple[column] == ANY) return OF_ANY;
    return (unsigned)(mixed((uint32_t)(tuple[column] * factor)) >> 24);
}

static inline void add_class(uint64_t *row, unsigned class) {
    if (class == OF_ANY) memset(row, 255, ROW * sizeof *row);
    else row[class / 64] |= 1ull << class % 64;
}

/* A column of r whose variable s has too, and which is none of these; and s's. */
static bool shared_column(const relation *r, const relation *s, uint64_t without, int *own, int *other) {
    *own = *other = -1;
    for (int c = 0; c < r->width; c++)
        for (int d = 0; d < s->width; d++)
            if (r->scope[c] == s->scope[d] && !(without >> r->scope[c] & 1)) return *own = c, *other = d, true;
    return false;
}

/* Of a relation's candidates, by the class of the value in one column, the classes of those in another. */
static void reach(const uint64_t *words, const relation *s, unsigned factor, int key, int over, reached table) {
    memset(table, 0, sizeof(reached));
    for (int g = next_of(words, s, s->first); g < s->end; g = next_of(words, s, g + 1)) {
        const uint32_t *tuple = tuple_of(s, g - s->first);
        unsigned class = class_at(factor, tuple, over);
        add_class(table[class_at(factor, tuple, key)], class), add_class(table[OF_ALL], class);
    }
}

/* Whether a class is in a row of the one table, or that of any, and in a row of the other. */
static bool meet_at(reached near, unsigned a, reached far, unsigned b) {
    for (int i = 0; i < ROW; i++)
        if ((near[a][i] | near[OF_ANY][i]) & (far[b][i] | far[OF_ANY][i])) return true;
    return false;
}

static inline unsigned sought_row(unsigned class) { return class == OF_ANY ? OF_ALL : class; }

/* The first other member narrowed to the candidates for which two candidates of the others may agree with each other; whether one is left. */
static bool bridge(const visit *v, uint64_t *words) {
    const relation *open[MAX_MEMBERS] = {0};
    int n = 0, a, b, near_key, far_key, near_over, far_over;
    reached near, far;
    for (int j = 0; j < v->m; j++)
        if (j != v->place) open[n++] = v->members[j];
    if (n < 3) return true;
    const relation *r = open[0], *s = open[1], *t = open[2];
    uint64_t own = v->members[v->place]->variables;
    if (count_of(words, s) + count_of(words, t) > SHARE * count_of(words, r) + WORTH) return true;
    if (!shared_column(s, t, own | r->variables, &near_over, &far_over)) return true;
    shared_column(r, s, own, &a, &near_key), shared_column(r, t, own, &b, &far_key);
    reach(words, s, v->factor, near_key, near_over, near), reach(words, t, v->factor, far_key, far_over, far);
    for (int g = next_of(words, r, r->first); g < r->end; g = next_of(words, r, g + 1)) {
        const uint32_t *tuple = tuple_of(r, g - r->first);
        if (!meet_at(near, sought_row(class_at(v->factor, tuple, a)), far, sought_row(class_at(v->factor, tuple, b)))) take(words, g);
    }
    return !is_empty(words, r);
}

/* How many classes the values of some live tuples fall into, in the columns of these variables. */
static int classes_of(const visit *v, const relation *r, uint64_t variables, unsigned factor) {
    int classes = 0, step = 1 + (r->end - r->first) / LOOKED;
    for (int c = 0; c < r->width; c++) {
        uint64_t seen[ROW + 1] = {0};
        if (!(variables >> r->scope[c] & 1)) continue;
        for (int g = next_of(v->words, r, r->first); g < r->end; g = g + step < r->end ? next_of(v->words, r, g + step) : r->end)
            put(seen, (int)class_at(factor, tuple_of(r, g - r->first), c));
        for (int i = 0; i < ROW; i++) classes += __builtin_popcountll(seen[i]);
    }
    return classes;
}

/* The factor by which the values that the other members share fall into the most classes, of some. */
static void find_factor(visit *v) {
    unsigned factor = 1;
    for (int k = 0, most = -1; k < FACTORS; k++, factor = (factor * 40503 + 2) % 65536) {
        int classes = 0;
        for (int j = 0; j < v->m; j++) {
            uint64_t shared = 0;
            for (int i = 0; i < v->m; i++)
                if (i != j && i != v->place) shared |= v->members[i]->variables;
            if (j != v->place) classes += classes_of(v, v->members[j], shared, factor);
        }
        if (classes > most) most = classes, v->factor = factor;
    }
}

/* ---- What a long search has come to. */

/* Of member j, the candidates below end that agree with the seeking tuple are no longer fresh. */
static void spend(visit *v, const uint64_t *words, int j, int end) {
    const relation *r = v->members[j];
    for (int g = next_of(words, r, r->first); g < end; g = next_of(words, r, g + 1))
        if (agree_at(v->members[v->place], v->own, r, g - r->first)) take(v->fresh, g);
}

/* No support has candidates alone that agree with the seeking tuple, but for those of the first member from the one chosen on. */
static void note(visit *v, const uint64_t *words, bool found, const uint16_t *chosen) {
    memset(v->fresh, 255, sizeof v->fresh);
    for (int j = 0; j < v->m; j++)
        if (j != v->place) spend(v, words, j, found && j == (v->place == 0) ? v->members[j]->first + chosen[j] : v->members[j]->end);
    v->noted = true;
}

/* Member j's candidates narrowed to the fresh ones and those that may agree with a fresh one of another, if those are few. */
static bool narrow_fresh(const visit *v, uint64_t *words, const uint64_t *fresh, int j) {
    const relation *s = v->members[j];
    const uint64_t *rows[MAX_KEPT], *outside = v->outside[j];
    uint64_t sum[WORDS], any = 0;
    for (int i = 0; i < v->m; i++)
        if (i != j && i != v->place && count_of(fresh, v->members[i]) > FRESH) return true;
    for (int w = s->word; w < s->last; w++) sum[w] = fresh[w] | outside[w];
    for (int i = 0; i < v->m; i++) {
        const relation *r = v->members[i];
        if (i == j || i == v->place) continue;
        for (int g = next_of(fresh, r, r->first); g < r->end; g = next_of(fresh, r, g + 1))
            gather(sum, rows, rows_of_tuple(v->f, rows, tuple_of(r, g - r->first), s, &v->shared[i][j]), s);
    }
    for (int w = s->word; w < s->last; w++) any |= (words[w] &= sum[w]) & ~outside[w];
    return any;
}

static bool narrow_to_fresh(const visit *v, uint64_t *words) {
    uint64_t left[WORDS];
    for (int w = 0; w < v->f->words; w++) left[w] = words[w] & v->fresh[w];
    for (int j = 0; j < v->m; j++)
        if (j != v->place && !narrow_fresh(v, words, left, j)) return false;
    return true;
}

/* Members spread to, and the first one narrowed through two others; whether each has a candidate left. */
static bool spread_members(const visit *v, uint64_t *words) {
    for (int i = 0; i < v->steps; i++)
        if (!spread(v, words, v->nearer[i], v->farther[i], FEW)) return false;
    return !v->factor || bridge(v, words);
}

static bool first_support(visit *v, uint16_t *chosen) {
    uint64_t candidates[WORDS], fewer[WORDS], *words = candidates;
    int tried = 0;
    if (v->bare) return false;
    memcpy(candidates, v->words, (size_t)v->f->words * sizeof *candidates);
    if (!narrow_members(v, candidates, v->place, v->own, 0)) return false;
    if (v->noted) {
        memcpy(fewer, candidates, (size_t)v->f->words * sizeof *fewer);
        if (!narrow_to_fresh(v, fewer)) return false;
        words = fewer;
    }
    if (!spread_members(v, words)) return false;
    chosen[v->place] = (uint16_t)v->own;
    bool found = search(v, words, v->place == 0, true, chosen, false, &tried);
    v->tried += tried;
    if (tried >= LONG) note(v, candidates, found, chosen);
    return found;
}

/* ---- Twins. */

static bool agrees_with(const visit *v, const uint16_t *others) {
    for (int j = 0; j < v->m; j++)
        if (j != v->place && !agree_at(v->members[v->place], v->own, v->members[j], others[j])) return false;
    return true;
}

typedef enum { NONE, TAKEN, FALLEN } twin;

/* A twin's support, with the seeking tuple put in, becomes its own; of two sides, each side's part is that of its own twin. Or it falls as
 * the twin fell, where there is one side. */
static twin take_twin(visit *v, uint16_t *held) {
    const relation *r = v->members[v->place];
    uint16_t tuples[MAX_MEMBERS];
    int x = first_alike(v->sought, r, v->own, v->near), y = v->places ? alike_from(v->sought, r, v->own, v->far, FAR) : x;
    if (x == v->own || y == v->own) return NONE;
    if (!is_live(v->f->live, r->first + x)) return v->places ? NONE : FALLEN;
    if (!is_live(v->f->live, r->first + y)) return NONE;
    for (int j = 0; j < v->m; j++) tuples[j] = *(held + j - (v->own - (v->places >> j & 1 ? y : x)) * v->m);
    if (!agrees_with(v, tuples)) return NONE;
    tuples[v->place] = (uint16_t)v->own;
    memcpy(held, tuples, (size_t)v->m * sizeof *held);
    return TAKEN;
}

/* ---- The filter. */

/* Of a member but the seeking tuples', the tuples fall that are like an earlier live one. */
static void drop_doubles(visit *v, int j) {
    const relation *r = v->members[j];
    uint16_t table[PLACES];
    uint64_t variables = 0;
    for (int k = 0; k < v->m; k++)
        if (k != j) variables |= v->members[k]->variables;
    memset(table, 255, sizeof table);
    for (int g = next_of(v->lean, r, r->first); g < r->end; g = next_of(v->lean, r, g + 1))
        if (first_alike(table, r, g - r->first, variables) != g - r->first) take(v->lean, g);
}

static void make_lean(visit *v) {
    memcpy(v->lean, v->f->live, sizeof v->lean);
    for (int j = 0; j < v->m; j++)
        if (j != v->place) drop_doubles(v, j);
    v->words = v->lean;
}

static bool all_live(const visit *v, const uint16_t *held) {
    for (int j = 0; j < v->m; j++)
        if (!is_live(v->f->live, v->members[j]->first + held[j])) return false;
    return true;
}

/* The seeking tuple's first support is in the list, or it has none. */
static bool renew(visit *v, uint16_t *held) {
    uint16_t chosen[MAX_MEMBERS];
    bool fresh = held[0] == NO_SUPPORT;
    if (!fresh && all_live(v, held)) return true;
    for (int j = 0; j < v->m; j++) v->low[j] = fresh ? 0 : held[j];
    twin t = take_twin(v, held);
    if (t != NONE) return t == TAKEN;
    if (!first_support(v, chosen)) return false;
    memcpy(held, chosen, (size_t)v->m * sizeof *held);
    return true;
}

/* ---- Supports sought together. */

/* Whether tuple x of member i agrees with all chosen before k. */
static bool agrees_before(const visit *v, int k, const uint16_t *chosen, int i, int x) {
    for (int j = 0; j < k; j++)
        if (j != v->place && !agree_at(v->members[j], chosen[j], v->members[i], x)) return false;
    return true;
}

/* The first candidate of member k, which may agree with the seeking tuple, that agrees with it and with all chosen; or the end of its ids. */
static int first_fitting(const visit *v, const uint64_t *words, int k, const uint16_t *chosen) {
    const relation *r = v->members[v->place], *s = v->members[k];
    const uint64_t *rows[MAX_KEPT];
    unsigned count = rows_of_tuple(v->f, rows, tuple_of(r, v->own), s, &v->shared[v->place][k]);
    for (int w = s->word; w < s->last; w++) {
        uint64_t rest = words[w] & inside(s, w);
        for (unsigned i = 0; i < count && rest; i++) rest &= rows[i][w];
        for (; rest; rest &= rest - 1) {
            int g = w * 64 + __builtin_ctzll(rest);
            if (fits(v, k, chosen, g - s->first)) return g;
        }
    }
    return s->end;
}

/* Each tuple that still seeks takes the first support with the tuples chosen and one of member k, the last. */
static void take_last(visit *v, const uint64_t *words, int k, uint16_t *chosen, uint16_t *numbers, long *steps) {
    const relation *r = v->members[v->place], *s = v->members[k];
    for (int h = next_of(words, r, r->first); h < r->end && --*steps >= 0; h = next_of(words, r, h + 1)) {
        v->own = h - r->first;
        int g = first_fitting(v, words, k, chosen);
        if (g == s->end || !agrees_before(v, k, chosen, v->place, v->own)) continue;
        chosen[k] = (uint16_t)(g - s->first), chosen[v->place] = (uint16_t)v->own;
        memcpy(numbers + v->own * v->m, chosen, (size_t)v->m * sizeof *numbers);
        take(v->pending, h);
    }
}

/* Tuple x of member k chosen: the candidates of the others, and those that still seek; whether each has some. */
static bool choose(const visit *v, const uint64_t *words, uint64_t *fewer, int k, const uint16_t *chosen, int x) {
    int on = k + 1 == v->place ? k + 2 : k + 1;
    if (!agrees_before(v, k, chosen, k, x)) return false;
    for (int w = 0; w < v->f->words; w++) fewer[w] = words[w] & v->pending[w];
    if (is_empty(fewer, v->members[v->place])) return false;
    if (v->shared[k][v->place].count && !narrow(v, fewer, k, x, v->place)) return false;
    return narrow_members(v, fewer, k, x, on);
}

/* The same with the tuples chosen for the members before k. */
static void seek(visit *v, const uint64_t *words, int k, uint16_t *chosen, uint16_t *numbers, long *steps) {
    const relation *r = v->members[k];
    uint64_t fewer[WORDS];
    int on = k + 1 == v->place ? k + 2 : k + 1;
    if (on == v->m) return take_last(v, words, k, chosen, numbers, steps);
    for (int g = next_of(words, r, r->first); g < r->end && --*steps >= 0; g = next_of(words, r, g + 1)) {
        if (!choose(v, words, fewer, k, chosen, g - r->first)) continue;
        chosen[k] = (uint16_t)(g - r->first);
        seek(v, fewer, on, chosen, numbers, steps);
    }
}

/* All from id `from` on that have no live support, where the searches so far have tried much and more than this has. */
static void seek_rest(visit *v, uint16_t *numbers, int from) {
    const relation *r = v->members[v->place];
    uint16_t chosen[MAX_MEMBERS] = {0};
    uint64_t words[WORDS];
    long steps = 2 * v->tried;
    if (v->settled || v->tried < MUCH || v->together >= v->tried) return;
    memset(v->pending, 255, sizeof v->pending);
    for (int g = r->first; g < r->end; g++) {
        const uint16_t *held = numbers + (g - r->first) * v->m;
        if (g < from || !is_live(v->f->live, g) || (held[0] != NO_SUPPORT && all_live(v, held))) take(v->pending, g);
    }
    for (int w = 0; w < v->f->words; w++) words[w] = v->words[w] & v->pending[w];
    seek(v, words, v->place == 0, chosen, numbers, &steps);
    v->together += 2 * v->tried - steps;
    v->settled = steps > 0;
}

static bool holds(const network *n, size_t base, uint16_t r) {
    for (size_t j = 0; j < n->m; j++)
        if (n->members[base + j] == r) return true;
    return false;
}

static void requeue(const network *n, uint64_t *queue, size_t p) {
    uint16_t r = n->members[p];
    for (size_t base = 0; base < n->pairs; base += n->m) {
        if (base == p / n->m * n->m || !holds(n, base, r)) continue;
        for (size_t q = base; q < base + n->m; q++)
            if (n->members[q] != r) queue[q / 64] |= 1ull << (q % 64);
    }
}

static void visit_pair(const filtering *f, uint64_t *queue, uint16_t *numbers, size_t p) {
    const relation *r = f->relations + f->n->members[p];
    uint16_t *held = numbers + f->n->pair_starts[p];
    visit v;
    bool fell = false;
    int g = next_of(f->live, r, r->first);
    if (g == r->end) return;
    plan(&v, f, p);
    for (; g < r->end; g = next_of(f->live, r, g + 1)) {
        v.own = g - r->first;
        if ((v.settled && is_live(v.pending, g)) || !renew(&v, held + v.own * v.m)) take(f->live, g), fell = true;
        if (v.tried >= CHOICES && v.words == f->live) make_lean(&v);
        if (v.tried >= MANY_CHOICES && !v.factor) find_factor(&v);
        seek_rest(&v, held, g + 1);
    }
    if (fell) requeue(f->n, queue, p);
}

static void clear_dead(const network *n, const uint64_t *live, uint16_t *numbers) {
    for (size_t p = 0; p < n->pairs; p++) {
        int first = n->tuple_starts[n->members[p]], end = n->tuple_starts[n->members[p] + 1];
        uint16_t *held = numbers + n->pair_starts[p];
        for (int g = first; g < end; g++, held += n->m)
            if (!is_live(live, g))
                for (size_t j = 0; j < n->m; j++) held[j] = NO_SUPPORT;
    }
}

void c_filter(const network *n, uint64_t *words, uint16_t *numbers) {
    static filtering f;
    uint64_t queue[MAX_PAIRS / 64] = {0};
    f.n = n, f.live = words, f.words = (n->tuple_starts[MAX_RELATIONS] + 63) / 64;
    make_index(&f);
    for (size_t i = 0; i < n->needed; i++) numbers[i] = NO_SUPPORT;
    for (size_t p = 0; p < n->pairs; p++) put(queue, (int)p);
    sweeps(&f);
    for (size_t p; (p = next(queue, 0, 0, MAX_PAIRS)) < MAX_PAIRS;) {
        take(queue, (int)p);
        visit_pair(&f, queue, numbers, p);
    }
    clear_dead(n, words, numbers);
}
