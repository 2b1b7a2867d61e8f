/* A request lent to the library on pages of its own, and what the call answers and leaves. */
#ifndef LEND_H
#define LEND_H
#include "fence.h"
#include <stdint.h>

enum { FILTER, WITHDRAW, CHOOSE, CHOOSE_SEVERAL, TEST, COMPARE, CALLS };
/* The lists that a call may write come first. The counts are lent where they do not stand in the sheets' records. */
enum { SHEETS, MARKS, SUPPORTS, COUNTS, WRITTEN, QUESTIONS = WRITTEN, CODES, COMBINATIONS, ROWS, CHOSEN_QUESTIONS, CHOSEN_CODES, LISTS };
extern const char *const call_names[CALLS], *const list_names[LISTS];

/* A list as the bytes that it takes in memory, the lowest byte of a number first. */
typedef struct {
    void *at;
    size_t bytes;
} list;

list new_list(size_t bytes);
list copy_of(list l);
bool same(list a, list b);

/* What a call is lent, and how its lists lie. Choose's question and code, or compare's rows, are x and y. */
typedef struct {
    int call;
    uint16_t m, x;
    uint32_t y;
    list lists[LISTS];
    side where;
} request;

void free_lists(request *q);

/* The answer of a call, packed as include/wakhvosi.h says; what it leaves in the lists that it may write; and how many bytes of the
 * marks and of the supports, from the first on, it may touch. */
typedef struct {
    uint64_t answer;
    list lists[WRITTEN];
    size_t mark_bytes, support_bytes;
} outcome;

/* The outcome of a call that answers this and leaves every list as it is; the lists are copies. */
outcome unchanged(const request *q, uint64_t answer, size_t mark_bytes, size_t support_bytes);

void free_outcome(outcome *o);

/* Makes the call once for each side that its lists can be laid on. Lists that it must not write can only be read, and on the first
 * side what it must not touch is closed. On the other sides the supports that it is to write hold something else before. NULL, or
 * what is wrong with the first outcome that is not as expected. The last outcome is put into `left`. */
const char *wrong(request *q, const outcome *expected, outcome *left);

/* How a driver makes a call, the last of the sides that it can lay a list on, and whether a sheet's record holds its count. */
uint64_t answer_of(const request *q);
extern const side last_side;
extern const bool counts_in_records;
#endif
