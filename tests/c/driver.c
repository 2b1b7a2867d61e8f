/* Reads the independent program's requests or lists of calls (oracle.py requests|lists --plain) and holds the library's answers,
 * live words, support lists and counts to its own: driver requests | driver lists. Each call is made once for each side that its lists
 * can be laid on. A refused call with more or fewer counts than sheets is passed over where a sheet's record holds its count.
 * A line 'failed N: how' for each request or list, counted from 1, that is not as expected; at the end 'N put'. */
#include "lend.h"
#include "wakhvosi.h"
#include <inttypes.h>
#include <stdio.h>
#include <stdlib.h>
#include <string.h>

static char said[160];

static bool read_number(uint64_t *x) {
    int c = getchar();
    while (c == ' ' || c == '\n') c = getchar();
    if (c < '0' || '9' < c) return false;
    for (*x = 0; '0' <= c && c <= '9'; c = getchar()) *x = 10 * *x + (uint64_t)(c - '0');
    return true;
}

static uint64_t number(void) {
    uint64_t x;
    if (!read_number(&x)) exit(2);
    return x;
}

/* A list of numbers, each of so many bytes, the lowest first. */
static list read_list(size_t unit) {
    uint64_t n = number();
    list l = new_list(n * unit);
    for (uint64_t i = 0; i < n; i++) memcpy((char *)l.at + i * unit, (uint64_t[]){number()}, unit);
    return l;
}

/* The two or five numbers of an answer, packed as include/wakhvosi.h says. */
static uint64_t read_answer(void) {
    static const int shift[] = {0, 8, 16, 32, 48};
    uint64_t n = number(), answer = 0;
    if (n > 5) exit(2);
    for (uint64_t i = 0; i < n; i++) answer |= number() << shift[i];
    return answer;
}

static void replace(list *l, list by) {
    free(l->at);
    *l = by;
}

/* The sheets' widths and numbers of rows, each pair with its count behind it. */
static list joined(list sheets, list counts) {
    list records = new_list(sheets.bytes + counts.bytes);
    for (size_t i = 0; i < counts.bytes / 2; i++) {
        memcpy((char *)records.at + 6 * i, (char *)sheets.at + 4 * i, 4);
        memcpy((char *)records.at + 6 * i + 4, (char *)counts.at + 2 * i, 2);
    }
    return records;
}

/* The counts of lists that a call is lent or leaves. */
static list counts_of(const list lists[WRITTEN]) {
    if (!counts_in_records) return copy_of(lists[COUNTS]);
    list counts = new_list(lists[SHEETS].bytes / 3);
    for (size_t i = 0; i < counts.bytes / 2; i++) memcpy((char *)counts.at + 2 * i, (char *)lists[SHEETS].at + 6 * i + 4, 2);
    return counts;
}

/* The lists as the calls are lent them, each sheet's count in its record. */
static void join(list lists[WRITTEN]) {
    replace(lists + SHEETS, joined(lists[SHEETS], lists[COUNTS]));
    replace(lists + COUNTS, new_list(0));
}

/* The lists, in the order in which the independent program writes them. */
static void read_lists(request *q) {
    static const struct {
        int which, unit;
    } order[LISTS] = {{SHEETS, 2},   {QUESTIONS, 2}, {CODES, 4}, {COMBINATIONS, 2},     {MARKS, 8},
                      {SUPPORTS, 2}, {COUNTS, 2},    {ROWS, 2},  {CHOSEN_QUESTIONS, 2}, {CHOSEN_CODES, 4}};
    for (int i = 0; i < LISTS; i++) q->lists[order[i].which] = read_list((size_t)order[i].unit);
}

/* Whether the call can be made: a record has room for one count. */
static bool read_request(request *q, outcome *expected, uint64_t call) {
    if (call >= CALLS) exit(2);
    q->call = (int)call;
    q->m = (uint16_t)number(), q->x = (uint16_t)number(), q->y = (uint32_t)number();
    size_t mark_bytes = 8 * number(), support_bytes = 2 * number();
    read_lists(q);
    if (call == COMPARE && q->lists[ROWS].bytes != 4) exit(2);
    if (call == COMPARE) q->x = ((uint16_t *)q->lists[ROWS].at)[0], q->y = ((uint16_t *)q->lists[ROWS].at)[1];
    *expected = unchanged(q, read_answer(), mark_bytes, support_bytes);
    replace(expected->lists + MARKS, read_list(8)), replace(expected->lists + SUPPORTS, read_list(2));
    replace(expected->lists + COUNTS, read_list(2));
    if (!counts_in_records) return true;
    bool fits = q->lists[SHEETS].bytes == 2 * q->lists[COUNTS].bytes;
    if (!fits && wakhvosi_kind(expected->answer) != WAKHVOSI_REFUSED) exit(2);
    if (fits) join(q->lists), join(expected->lists);
    return fits;
}

static bool next_request(bool *ok) {
    uint64_t call;
    if (!read_number(&call)) return false;
    request q;
    outcome expected, left = {0};
    const char *how = read_request(&q, &expected, call) ? wrong(&q, &expected, &left) : NULL;
    if (how) snprintf(said, sizeof said, "%s, %s", call_names[q.call], how);
    *ok = !how;
    free_lists(&q), free_outcome(&expected), free_outcome(&left);
    return true;
}

/* A list of calls so far: whether all is as expected; the shared marks and counts; the last accepted call, counted from 1, with its
 * answer, its supports and the rows of its book; and how many rows accepted calls withdrew and deleted. */
typedef struct {
    bool ok;
    list marks, counts;
    uint64_t last, answer, rows, gone;
    list supports;
} state;

static uint64_t row_total(const request *q) {
    const uint16_t *records = q->lists[SHEETS].at;
    size_t each = counts_in_records ? 3 : 2;
    uint64_t rows = 0;
    for (size_t i = 1; i < q->lists[SHEETS].bytes / 2; i += each) rows += records[i];
    return rows;
}

/* Whether a call is lent what the last one left. */
static bool handed_on(const state *s, const request *q) {
    list counts = counts_of(q->lists);
    bool ok = same(s->marks, q->lists[MARKS]) && same(s->counts, counts);
    free(counts.at);
    return ok;
}

/* Takes over what a call leaves: the marks and counts, unless they are its own; and if it was accepted, all else. */
static void take_over(state *s, uint64_t k, const request *q, const outcome *left, bool own) {
    if (!own) replace(&s->marks, copy_of(left->lists[MARKS])), replace(&s->counts, counts_of(left->lists));
    if (wakhvosi_kind(left->answer) == WAKHVOSI_REFUSED) return;
    s->last = k, s->answer = left->answer, s->rows = row_total(q);
    s->gone += wakhvosi_withdrawn(left->answer) + wakhvosi_deleted(left->answer);
    replace(&s->supports, copy_of(left->lists[SUPPORTS]));
}

/* The list's call number k, on the shared marks and counts unless it lends its own. */
static void next_call(state *s, uint64_t k) {
    bool own = number();
    request q;
    outcome expected, left = {0};
    if (read_request(&q, &expected, number())) {
        const char *before = own || handed_on(s, &q) ? NULL : "not given the marks and counts expected";
        const char *how = wrong(&q, &expected, &left);
        if (before) how = before;
        if (how && s->ok) snprintf(said, sizeof said, "call %" PRIu64 ", %s, %s", k, call_names[q.call], how);
        s->ok &= !how;
        take_over(s, k, &q, &left, own);
    }
    free_lists(&q), free_outcome(&expected), free_outcome(&left);
}

static uint64_t ones(list marks, uint64_t rows) {
    const uint64_t *words = marks.at;
    uint64_t k = 0;
    for (uint64_t g = 0; g < rows; g++) k += words[g / 64] >> (g % 64) & 1;
    return k;
}

static uint64_t sum(list counts) {
    const uint16_t *numbers = counts.at;
    uint64_t all = 0;
    for (size_t i = 0; i < counts.bytes / 2; i++) all += numbers[i];
    return all;
}

/* Whether the list leaves what the strike rule's one filtering of the starting rows leaves. */
static bool strike_rule(const state *s, list start) {
    bool ok = number() == s->last;
    ok &= number() == wakhvosi_kind(s->answer), ok &= number() == wakhvosi_subject(s->answer);
    ok &= number() == wakhvosi_left(s->answer), ok &= number() == s->gone;
    list marks = read_list(8), supports = read_list(2), counts = read_list(2);
    ok &= same(s->marks, marks) && same(s->supports, supports) && same(s->counts, counts);
    ok &= !s->last || wakhvosi_left(s->answer) + s->gone == ones(start, s->rows);
    ok &= !s->last || wakhvosi_left(s->answer) == sum(s->counts);
    free(marks.at), free(supports.at), free(counts.at);
    return ok;
}

/* A list of calls, each given the marks and counts that the last one left. */
static bool next_list(bool *ok) {
    uint64_t n;
    if (!read_number(&n)) return false;
    state s = {.ok = true, .marks = new_list(8 * n), .supports = new_list(0)};
    for (uint64_t i = 0; i < n; i++) ((uint64_t *)s.marks.at)[i] = number();
    s.counts = read_list(2);
    list start = copy_of(s.marks);
    uint64_t calls = number();
    for (uint64_t k = 1; k <= calls; k++) next_call(&s, k);
    *ok = strike_rule(&s, start) && s.ok;
    if (s.ok && !*ok) snprintf(said, sizeof said, "not what one filtering of the starting rows leaves");
    free(s.marks.at), free(s.counts.at), free(s.supports.at), free(start.at);
    return true;
}

int main(int argc, char **argv) {
    bool lists = argc > 1 && !strcmp(argv[1], "lists"), ok, all = true;
    unsigned long put = 0;
    while (lists ? next_list(&ok) : next_request(&ok)) {
        put++, all &= ok;
        if (!ok) printf("failed %lu: %s\n", put, said);
    }
    printf("%lu put\n", put);
    return !all || !put;
}
