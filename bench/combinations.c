/* Times the listing of combinations on plain lists beside the same in plain C, in turn and in one run, on books of 64 sheets: shapes of
 * which few choices are connected, so that none ends early, and some that are refused. Both must answer and leave the same. */
#include <stdbool.h>
#include <stdint.h>
#include <stdio.h>
#include <string.h>
#include <time.h>

enum { SHEETS = 64, QUESTIONS = 64, MAX_WIDTH = 8, MAX_ROWS = 4096, MAX_MEMBERS = 4, MOST = 256, ROUNDS = 200, CALLS = 20 };
enum { SETS = MAX_MEMBERS - 2 }; /* of all members but the last two the sets are kept */
enum { REFUSED = 2 };

/* A record of a sheet, as plain lists have it. */
typedef struct {
    uint16_t width, rows;
} sheet;

uint32_t plain_combinations(const uint16_t *records, size_t numbers, const uint16_t *questions, size_t q, const uint32_t *codes, size_t cells,
                            uint16_t m, uint16_t *list, size_t room);

/* ---- The same in C */

typedef struct {
    uint64_t near[SHEETS]; /* of each sheet those that share a question with it */
    int count, m, found;
    uint16_t list[MOST * MAX_MEMBERS];
} search;

static uint64_t from_on(int r) { return r < 64 ? ~0ull << r : 0; }

/* The sheets that are in every set of k members and of sheet r. */
static uint64_t joining(const uint64_t *sets, int k, int r, uint64_t own) {
    uint64_t all = own, rest = ~0ull;
    for (int j = 0; j < k; j++) {
        if (sets[j] >> r & 1) all |= sets[j];
        else rest &= sets[j];
    }
    return all & rest;
}

/* The first k + 1 members with each of these as the last one; false at the 257th. */
static bool extend_last(search *s, const uint16_t *members, int k, uint64_t last) {
    for (; last; last &= last - 1) {
        if (s->found == MOST) return false;
        uint16_t *at = s->list + s->m * s->found++;
        for (int j = 0; j <= k; j++) at[j] = members[j];
        at[k + 1] = (uint16_t)__builtin_ctzll(last);
    }
    return true;
}

static bool extend_two(search *s, uint16_t *members, int k, const uint64_t *sets, int from) {
    uint64_t some = 0, every = ~0ull;
    for (int j = 0; j < k; j++) some |= sets[j], every &= sets[j];
    uint64_t tried = some;
    for (uint64_t rest = every & from_on(from) & ~from_on(s->count); rest; rest &= rest - 1) tried |= s->near[__builtin_ctzll(rest)];
    for (uint64_t rest = tried & from_on(from); rest; rest &= rest - 1) {
        int r = __builtin_ctzll(rest);
        uint64_t last = some >> r & 1 ? joining(sets, k, r, s->near[r]) : s->near[r] & every;
        members[k] = (uint16_t)r;
        if (!extend_last(s, members, k, last & from_on(r + 1))) return false;
    }
    return true;
}

static bool extend(search *s, uint16_t *members, int k, const uint64_t *sets, int from) {
    if (k + 2 == s->m) return extend_two(s, members, k, sets, from);
    for (int r = from; r < s->count; r++) {
        uint64_t all = s->near[r], more[SETS];
        for (int j = 0; j < k; j++) {
            if (!(sets[j] >> r)) return true;
            if (sets[j] >> r & 1) all |= sets[j];
        }
        for (int j = 0; j < k; j++) more[j] = sets[j] >> r & 1 ? all : sets[j];
        more[k] = all;
        members[k] = (uint16_t)r;
        if (!extend(s, members, k + 1, more, r + 1)) return false;
    }
    return true;
}

/* The first fault of 2 to 6, or 0; and of each sheet the set of its questions. */
static unsigned fault(const sheet *sheets, size_t n, const uint16_t *questions, size_t q, size_t codes, uint64_t *asked) {
    if (!n || n > SHEETS) return 2;
    size_t rows = 0, places = 0, cells = 0;
    for (size_t r = 0; r < n; r++) {
        if (!sheets[r].width || sheets[r].width > MAX_WIDTH) return 3;
        rows += sheets[r].rows, places += sheets[r].width, cells += (size_t)sheets[r].width * sheets[r].rows;
    }
    if (rows > MAX_ROWS) return 4;
    if (places != q || cells != codes) return 5;
    for (size_t r = 0; r < n; r++) {
        asked[r] = 0;
        for (int c = 0; c < sheets[r].width; c++, questions++) {
            if (*questions >= QUESTIONS || asked[r] >> *questions & 1) return 6;
            asked[r] |= 1ull << *questions;
        }
    }
    return 0;
}

static uint32_t refused(unsigned number) { return REFUSED | number << 8; }

__attribute__((noinline)) static uint32_t combinations_in_c(const uint16_t *records, size_t numbers, const uint16_t *questions, size_t q,
                                                            const uint32_t *codes, size_t cells, uint16_t m, uint16_t *list, size_t room) {
    uint64_t asked[SHEETS], none[SETS] = {0};
    uint16_t members[MAX_MEMBERS];
    size_t n = numbers / 2;
    (void)codes;
    unsigned first = fault((const sheet *)records, n, questions, q, cells, asked);
    if (first) return refused(first);
    if (m < 2 || m > MAX_MEMBERS) return refused(7);
    search s = {.count = (int)n, .m = m};
    for (int r = 0; r < s.count; r++)
        for (int t = 0; t < s.count; t++)
            if (asked[r] & asked[t]) s.near[r] |= 1ull << t;
    if (!extend(&s, members, 0, none, 0)) return refused(15);
    if (room < (size_t)(s.found * m)) return refused(16);
    memcpy(list, s.list, sizeof *list * (size_t)(s.found * m));
    return (uint32_t)s.found << 16;
}

/* ---- Shapes */

static sheet sheets[SHEETS];
static uint16_t questions[SHEETS * MAX_WIDTH];
static size_t asked_in_all;

static void ask(int sheet, int question) {
    questions[asked_in_all++] = (uint16_t)question;
    sheets[sheet].width++;
}

typedef void shape(int sheet);
static void alone(int r) { ask(r, r); }
static void chain(int r) {
    ask(r, r);
    if (r + 1 < SHEETS) ask(r, r + 1);
}
static void halves(int r) { /* two chains */
    ask(r, r);
    if (r % 32 < 31) ask(r, r + 1);
}
static void interleaved(int r) { /* two chains, of the even and of the odd sheets */
    ask(r, r);
    if (r + 2 < SHEETS) ask(r, r + 2);
}
static void far_pairs(int r) { ask(r, r % 32); } /* each sheet with one in the other half */
static void near_pairs(int r) { ask(r, r / 2); }
static void triples(int r) { ask(r, r / 3); }
static void far_triples(int r) { ask(r, r % 22); }
static void fours(int r) { ask(r, r / 4); }
static void hub_first(int r) { /* the first sheet shares with the eight last ones */
    if (r) ask(r, r);
    else
        for (int q = 56; q < SHEETS; q++) ask(r, q);
}
static void hub_last(int r) {
    if (r + 1 < SHEETS) ask(r, r);
    else
        for (int q = 0; q < MAX_WIDTH; q++) ask(r, q);
}
static void hubs(int r) { /* eight hubs of seven */
    if (r % 8) ask(r, r);
    else
        for (int q = 1; q < 8; q++) ask(r, r + q);
}
static void two_sides(int r) { ask(r, r < 32 ? 0 : 1); } /* two cliques of 32: refused at once */
static void late(int r) { ask(r, r < 41 ? r : 63); }     /* a clique of the last 23 sheets */

static const struct {
    const char *name;
    shape *draw;
} shapes[] = {{"none connected", alone},     {"a chain", chain},         {"two chains", halves},     {"two chains, in turn", interleaved},
              {"pairs", near_pairs},         {"far pairs", far_pairs},   {"triples", triples},       {"far triples", far_triples},
              {"fours", fours},              {"a hub, first", hub_first}, {"a hub, last", hub_last}, {"eight hubs", hubs},
              {"two halves, each all alike", two_sides}, {"23 alike, last", late}};

/* ---- Timing */

static double now(void) {
    struct timespec t;
    clock_gettime(CLOCK_MONOTONIC, &t);
    return (double)t.tv_sec * 1e6 + (double)t.tv_nsec * 1e-3;
}

typedef uint32_t listing(const uint16_t *, size_t, const uint16_t *, size_t, const uint32_t *, size_t, uint16_t, uint16_t *, size_t);

typedef struct {
    uint32_t answer;
    uint16_t list[MOST * MAX_MEMBERS];
} result;

/* The time of one call, in microseconds. */
static double timed(listing *call, uint16_t m, result *r) {
    double begin = now();
    for (int i = 0; i < CALLS; i++) r->answer = call(&sheets[0].width, 2 * SHEETS, questions, asked_in_all, NULL, 0, m, r->list, MOST * MAX_MEMBERS);
    return (now() - begin) / CALLS;
}

int main(void) {
    double most = 0;
    printf("%-28s %s %10s %10s %10s %6s\n", "64 sheets", "m", "listed", "Rattle, us", "C, us", "ratio");
    for (size_t i = 0; i < sizeof shapes / sizeof *shapes; i++)
        for (uint16_t m = 2; m <= MAX_MEMBERS; m++) {
            static result proved, plain;
            memset(sheets, 0, sizeof sheets), asked_in_all = 0;
            for (int r = 0; r < SHEETS; r++) shapes[i].draw(r);
            double a = 1e9, b = 1e9;
            for (int round = 0; round < ROUNDS; round++) {
                double x = timed(plain_combinations, m, &proved), y = timed(combinations_in_c, m, &plain);
                if (x < a) a = x;
                if (y < b) b = y;
            }
            if (proved.answer != plain.answer || memcmp(proved.list, plain.list, sizeof plain.list)) {
                printf("%s, m = %d: the two differ\n", shapes[i].name, m);
                return 1;
            }
            char listed[16];
            if (plain.answer & REFUSED) snprintf(listed, sizeof listed, "refused");
            else snprintf(listed, sizeof listed, "%u", plain.answer >> 16);
            printf("%-28s %d %10s %10.2f %10.2f %6.2f\n", shapes[i].name, m, listed, a, b, a / b);
            if (m == MAX_MEMBERS && a / b > most) most = a / b;
        }
    printf("most for m = 4: %.2f\n", most);
    return 0;
}
