/* Puts the independent program's drawn listings of combinations to the library and compares each answer and each list after:
 *     combinations <LINES
 * A line is as tests/oracle/combinations.py says. One way is compiled in: LISTS, the call on plain lists; RECORDS, on typed arrays;
 * otherwise on bytes. The lists that are read lie on pages that can only be read; of the list that is written the call may touch no more
 * than what it lists, and nothing where it is refused. 'failed K: how' for each line that is not as expected, at the end 'N put'. */
#include "fence.h"
#include "wakhvosi.h"
#include <inttypes.h>
#include <stdio.h>
#include <stdlib.h>
#include <string.h>

enum { SHEETS, QUESTIONS, CODES, COMBINATIONS, LISTS_LENT };

/* A list as the bytes that it takes in memory. */
typedef struct {
    unsigned char *at;
    size_t bytes;
} list;

typedef struct {
    uint16_t m;
    list lists[LISTS_LENT];
    uint64_t answer;
} call;

#define AT(which, type) (type *)c->lists[which].at, c->lists[which].bytes / sizeof(type)

#if defined LISTS
static const side last_side = BEFORE;
static const size_t numbers_of_a_sheet = 2;
uint32_t plain_combinations(const uint16_t *, size_t, const uint16_t *, size_t, const uint32_t *, size_t, uint16_t, uint16_t *, size_t);
static uint64_t answer_of(const call *c) {
    return plain_combinations(AT(SHEETS, uint16_t), AT(QUESTIONS, uint16_t), AT(CODES, uint32_t), c->m, AT(COMBINATIONS, uint16_t));
}
#elif defined RECORDS
static const side last_side = BEFORE;
static const size_t numbers_of_a_sheet = 3;
static uint64_t answer_of(const call *c) {
    return wakhvosi_combinations_records(AT(SHEETS, wakhvosi_sheet), AT(QUESTIONS, uint16_t), AT(CODES, uint32_t), c->m, AT(COMBINATIONS, uint16_t));
}
#else
static const side last_side = ODD;
static const size_t numbers_of_a_sheet = 3;
static uint64_t answer_of(const call *c) {
    return wakhvosi_combinations(AT(SHEETS, uint8_t), AT(QUESTIONS, uint8_t), AT(CODES, uint8_t), c->m, AT(COMBINATIONS, uint8_t));
}
#endif

static bool read_number(uint64_t *n) { return scanf("%" SCNu64, n) == 1; }

static uint64_t number(void) {
    uint64_t n;
    if (read_number(&n)) return n;
    fputs("a line is cut off\n", stderr);
    exit(2);
}

/* The next list, of entries of so many bytes. */
static list read_list(size_t each) {
    size_t n = number();
    list l = {calloc(n * each + 1, 1), n * each};
    for (size_t i = 0; i < n; i++) {
        uint64_t x = number();
        memcpy(l.at + i * each, &x, each);
    }
    return l;
}

/* Records of three numbers as this way takes them. */
static list records(list l) {
    size_t each = numbers_of_a_sheet, sheets = l.bytes / 6;
    list r = {calloc(2 * each * sheets + 1, 1), 2 * each * sheets};
    for (size_t s = 0; s < sheets; s++) memcpy(r.at + 2 * each * s, l.at + 6 * s, 2 * each);
    free(l.at);
    return r;
}

static void make(void *with) {
    call *c = with;
    c->answer = answer_of(c);
}

/* Makes the call with its lists on one side: NULL, or what is wrong. So many bytes of the last list may be touched. */
static const char *wrong_there(const call *given, side where, uint64_t expected, list after, size_t open) {
    call c = *given;
    fenced pages[LISTS_LENT];
    for (int i = 0; i < LISTS_LENT; i++) {
        list l = given->lists[i];
        pages[i] = where == BEHIND ? fence_part(l.at, l.bytes, i == COMBINATIONS ? open : l.bytes) : fence(l.at, l.bytes, where);
        if (i != COMBINATIONS || !open) only_read(pages[i]);
        c.lists[i].at = pages[i].at;
    }
    const unsigned char *touched;
    const char *how = stays_inside(make, &c, &touched) ? NULL : "it touches what it must not";
    open_all(pages[COMBINATIONS]);
    if (!how && c.answer != expected) how = "another answer";
    if (!how && after.bytes && memcmp(pages[COMBINATIONS].at, after.at, after.bytes)) how = "another list";
    for (int i = 0; i < LISTS_LENT; i++) unfence(pages[i]);
    return how;
}

/* The next line: whether there is one; and what is wrong with it, or NULL. */
static bool next_line(const char **how) {
    uint64_t less;
    if (!read_number(&less)) return false;
    call c = {0};
    size_t which = number();
    c.m = (uint16_t)number();
    c.lists[SHEETS] = records(read_list(2));
    c.lists[QUESTIONS] = read_list(2), c.lists[CODES] = read_list(4), c.lists[COMBINATIONS] = read_list(2);
    c.lists[which].bytes -= less;
    uint64_t kind = number(), refusal = number(), count = number(), expected = kind | refusal << 8 | count << 16;
    list after = read_list(2);
    if (which == COMBINATIONS) after.bytes -= less;
    *how = NULL;
    for (side where = BEHIND; where <= last_side && !*how; where++) *how = wrong_there(&c, where, expected, after, 2 * count * c.m);
    for (int i = 0; i < LISTS_LENT; i++) free(c.lists[i].at);
    free(after.at);
    return true;
}

int main(void) {
    unsigned long put = 0, failed = 0;
    const char *how;
    while (next_line(&how)) {
        put++, failed += how != NULL;
        if (how) printf("failed %lu: %s\n", put, how);
    }
    printf("%lu put\n", put);
    return failed || !put;
}
