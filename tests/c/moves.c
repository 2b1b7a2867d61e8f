/* Reads the independent program's moves (oracle.py moves --plain) and holds the library's answers and the second list to its own.
 * Each move is made once for each side that its lists can be laid on: the lists that it must not write can only be read, and on the
 * first side what it must not touch of the second list is closed. A line 'failed N: how' for each move, counted from 1, that is not
 * as expected; at the end 'N put'. */
#include "fence.h"
#include "wakhvosi.h"
#include <stdio.h>
#include <stdlib.h>
#include <string.h>

_Static_assert(__BYTE_ORDER__ == __ORDER_LITTLE_ENDIAN__, "the lists' bytes are lent as they lie in memory");

enum { SHEETS, QUESTIONS, CODES, TARGET, LISTS };

/* Bytes, and how many of them are lent. */
typedef struct {
    unsigned char *at;
    size_t bytes;
} list;

typedef struct {
    bool there;
    list lists[LISTS];
    uint64_t answer;
    list after;
} move;

static bool read_number(uint64_t *x) { return scanf("%ju", (uintmax_t *)x) == 1; }

static uint64_t number(void) {
    uint64_t x;
    if (!read_number(&x)) exit(2);
    return x;
}

/* A list of numbers, each of so many bytes, the lowest first; the last `cut` bytes are not lent. */
static list read_list(size_t unit, size_t cut) {
    uint64_t n = number();
    list l = {calloc(n * unit + 1, 1), n * unit - cut};
    for (uint64_t i = 0; i < n; i++) memcpy(l.at + i * unit, (uint64_t[]){number()}, unit);
    return l;
}

static bool read_move(move *v) {
    uint64_t there, cut[LISTS];
    if (!read_number(&there)) return false;
    v->there = there;
    for (int i = 0; i < LISTS; i++) cut[i] = number();
    size_t units[LISTS] = {2, 2, there ? 2 : 4, there ? 4 : 2};
    for (int i = 0; i < LISTS; i++) v->lists[i] = read_list(units[i], cut[i]);
    v->answer = number();
    v->answer |= number() << 8;
    v->after = read_list(units[TARGET], cut[TARGET]);
    return true;
}

typedef struct {
    bool there;
    fenced pages[LISTS];
    uint64_t answer;
} making;

#define AT(i) call->pages[i].at, call->pages[i].n

static void make(void *with) {
    making *call = with;
    call->answer = call->there ? wakhvosi_widen(AT(SHEETS), AT(QUESTIONS), AT(CODES), AT(TARGET))
                               : wakhvosi_narrow(AT(SHEETS), AT(QUESTIONS), AT(CODES), AT(TARGET));
}

/* NULL, or what is not as expected where the lists lie so. */
static const char *wrong_there(const move *v, side where) {
    making call = {.there = v->there};
    size_t codes = v->lists[CODES].bytes / (v->there ? 2 : 4), open = v->answer ? 0 : codes * (v->there ? 4 : 2);
    for (int i = 0; i < LISTS; i++) {
        list l = v->lists[i];
        bool part = i == TARGET && where == BEHIND;
        call.pages[i] = part ? fence_part(l.at, l.bytes, open) : fence(l.at, l.bytes, where);
        if (i != TARGET || v->answer) only_read(call.pages[i]);
    }
    const unsigned char *touched;
    bool inside = stays_inside(make, &call, &touched);
    for (int i = 0; i < LISTS; i++) open_all(call.pages[i]);
    bool same = !v->after.bytes || !memcmp(call.pages[TARGET].at, v->after.at, v->after.bytes);
    for (int i = 0; i < LISTS; i++) unfence(call.pages[i]);
    return !inside ? "it touches what it must not" : call.answer != v->answer ? "another answer" : same ? NULL : "another second list";
}

int main(void) {
    unsigned long put = 0, failed = 0;
    for (move v; read_move(&v);) {
        const char *how = NULL;
        side where = BEHIND;
        for (; where < SIDES && !how; where++) how = wrong_there(&v, where);
        put++, failed += how != NULL;
        if (how) printf("failed %lu: %s, each list with %s: %s\n", put, v.there ? "widen" : "narrow", side_names[where - 1], how);
        for (int i = 0; i < LISTS; i++) free(v.lists[i].at);
        free(v.after.at);
    }
    printf("%lu put\n", put);
    return failed || !put;
}
