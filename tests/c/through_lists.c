/* The calls on plain lists, as the crate test_calls exports them. */
#include "lend.h"

const side last_side = BEFORE;
const bool counts_in_records = false;

#define BOOK_LISTS const uint16_t *, size_t, const uint16_t *, size_t, const uint32_t *, size_t
#define CHANGED_LISTS BOOK_LISTS, uint16_t, const uint16_t *, size_t, uint64_t *, size_t, uint16_t *, size_t, uint16_t *, size_t
void plain_filter(CHANGED_LISTS, uint16_t *);
void plain_withdraw(CHANGED_LISTS, const uint16_t *, size_t, uint16_t *);
void plain_choose(CHANGED_LISTS, uint16_t, uint32_t, uint16_t *);
void plain_choose_several(CHANGED_LISTS, const uint16_t *, size_t, const uint32_t *, size_t, uint16_t *);
uint32_t plain_test(BOOK_LISTS, uint16_t, const uint16_t *, size_t, const uint64_t *, size_t);
uint32_t plain_compare(BOOK_LISTS, uint16_t, uint16_t);

#define AT(i, type) (type *)q->lists[i].at, q->lists[i].bytes / sizeof(type)
#define BOOK AT(SHEETS, uint16_t), AT(QUESTIONS, uint16_t), AT(CODES, uint32_t)
#define LENT BOOK, q->m, AT(COMBINATIONS, uint16_t), AT(MARKS, uint64_t), AT(SUPPORTS, uint16_t), AT(COUNTS, uint16_t)

/* The answer's five numbers in one; the largest number where a kind or a subject has no room in it. */
static uint64_t packed(const uint16_t numbers[5]) {
    if (numbers[0] > 255 || numbers[1] > 255) return UINT64_MAX;
    uint64_t answer = numbers[0] | numbers[1] << 8;
    for (int i = 2; i < 5; i++) answer |= (uint64_t)numbers[i] << (16 * i - 16);
    return answer;
}

/* The change calls write the five numbers to a list. */
static uint64_t change(const request *q) {
    fenced numbers = fence((uint16_t[5]){9, 9, 9, 9, 9}, 10, q->where);
    uint16_t *out = (uint16_t *)numbers.at;
    switch (q->call) {
    case FILTER: plain_filter(LENT, out); break;
    case WITHDRAW: plain_withdraw(LENT, AT(ROWS, uint16_t), out); break;
    case CHOOSE: plain_choose(LENT, q->x, q->y, out); break;
    default: plain_choose_several(LENT, AT(CHOSEN_QUESTIONS, uint16_t), AT(CHOSEN_CODES, uint32_t), out);
    }
    uint64_t answer = packed(out);
    unfence(numbers);
    return answer;
}

uint64_t answer_of(const request *q) {
    switch (q->call) {
    case TEST: return plain_test(BOOK, q->m, AT(COMBINATIONS, uint16_t), AT(MARKS, uint64_t));
    case COMPARE: return plain_compare(BOOK, q->x, (uint16_t)q->y);
    default: return change(q);
    }
}
