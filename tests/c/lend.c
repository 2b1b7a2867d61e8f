/* A request lent to the library on pages of its own: lend.h. */
#include "lend.h"
#include "wakhvosi.h"
#include <stdio.h>
#include <stdlib.h>
#include <string.h>

const char *const call_names[CALLS] = {"filter", "withdraw", "choose", "choose several", "test", "compare"};
const char *const list_names[LISTS] = {"sheets", "marks", "supports",     "counts", "questions",
                                       "codes",  "combinations", "rows", "chosen questions", "chosen codes"};

list new_list(size_t bytes) { return (list){calloc(bytes + 1, 1), bytes}; }

list copy_of(list l) {
    list copy = new_list(l.bytes);
    memcpy(copy.at, l.at, l.bytes);
    return copy;
}

bool same(list a, list b) { return a.bytes == b.bytes && !memcmp(a.at, b.at, a.bytes); }

void free_lists(request *q) {
    for (int i = 0; i < LISTS; i++) free(q->lists[i].at);
}

outcome unchanged(const request *q, uint64_t answer, size_t mark_bytes, size_t support_bytes) {
    outcome o = {.answer = answer, .mark_bytes = mark_bytes, .support_bytes = support_bytes};
    for (int i = 0; i < WRITTEN; i++) o.lists[i] = copy_of(q->lists[i]);
    return o;
}

void free_outcome(outcome *o) {
    for (int i = 0; i < WRITTEN; i++) free(o->lists[i].at);
}

typedef struct {
    request lent;
    uint64_t answer;
} making;

static void make(void *with) {
    making *call = with;
    call->answer = answer_of(&call->lent);
}

/* An accepted change call writes marks, supports and counts, and no call writes anything else. */
static bool writes(const request *q, uint64_t answer, int which) {
    bool counts = which == (counts_in_records ? SHEETS : COUNTS);
    return q->call <= CHOOSE_SEVERAL && wakhvosi_kind(answer) != WAKHVOSI_REFUSED && (which == MARKS || which == SUPPORTS || counts);
}

/* The list laid on its pages as the expected outcome asks. */
static fenced laid(const request *q, const outcome *expected, int which) {
    list l = q->lists[which];
    size_t open = which == MARKS ? expected->mark_bytes : which == SUPPORTS ? expected->support_bytes : l.bytes;
    bool written = writes(q, expected->answer, which);
    fenced pages = q->where == BEHIND ? fence_part(l.at, l.bytes, open) : fence(l.at, l.bytes, q->where);
    if (which == SUPPORTS && written && q->where != BEHIND)
        for (size_t i = 0; i < open; i++) pages.at[i] ^= 0x5a;
    if (!written) only_read(pages);
    return pages;
}

static void take_back(list l, fenced pages) {
    open_all(pages);
    if (l.bytes) memcpy(l.at, pages.at, l.bytes);
}

/* Whose pages the address is on. */
static const char *touched_list(const fenced pages[LISTS], const unsigned char *address) {
    static char said[60];
    for (int i = 0; i < LISTS; i++)
        if (pages[i].mapped <= address && address < pages[i].mapped + pages[i].whole) {
            snprintf(said, sizeof said, "it must not touch byte %td of the %s", address - pages[i].at, list_names[i]);
            return said;
        }
    return "it touches what is no list of its own";
}

/* NULL, or what is not as expected. */
static const char *different(const outcome *left, const outcome *expected) {
    static char said[60];
    if (left->answer != expected->answer) return "another answer";
    for (int i = 0; i < WRITTEN; i++)
        if (!same(left->lists[i], expected->lists[i])) {
            snprintf(said, sizeof said, "other %s", list_names[i]);
            return said;
        }
    return NULL;
}

/* Makes the call on one side. */
static const char *wrong_there(const request *q, const outcome *expected, outcome *left) {
    making call = {*q, 0};
    fenced pages[LISTS];
    for (int i = 0; i < LISTS; i++) pages[i] = laid(q, expected, i), call.lent.lists[i].at = pages[i].at;
    const unsigned char *touched;
    const char *how = stays_inside(make, &call, &touched) ? NULL : touched_list(pages, touched);
    left->answer = call.answer;
    for (int i = 0; i < WRITTEN; i++) take_back(left->lists[i], pages[i]);
    for (int i = 0; i < LISTS; i++) unfence(pages[i]);
    return how ? how : different(left, expected);
}

const char *wrong(request *q, const outcome *expected, outcome *left) {
    static char said[120];
    bool ok = true;
    *left = unchanged(q, 0, 0, 0);
    for (q->where = BEHIND; q->where <= last_side; q->where++) {
        const char *how = wrong_there(q, expected, left);
        if (how && ok) snprintf(said, sizeof said, "each list with %s: %s", side_names[q->where], how);
        ok &= !how;
    }
    return ok ? NULL : said;
}
