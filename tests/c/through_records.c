/* The calls over a list of sheet records. */
#include "lend.h"
#include "wakhvosi.h"

const side last_side = BEFORE;
const bool counts_in_records = true;

#define AT(i, type) (type *)q->lists[i].at, q->lists[i].bytes / sizeof(type)
#define BOOK AT(SHEETS, wakhvosi_sheet), AT(QUESTIONS, uint16_t), AT(CODES, uint32_t)
#define LENT BOOK, q->m, AT(COMBINATIONS, uint16_t), AT(MARKS, uint64_t), AT(SUPPORTS, uint16_t)

uint64_t answer_of(const request *q) {
    switch (q->call) {
    case FILTER: return wakhvosi_filter_records(LENT);
    case WITHDRAW: return wakhvosi_withdraw_records(LENT, AT(ROWS, uint16_t));
    case CHOOSE: return wakhvosi_choose_records(LENT, q->x, q->y);
    case CHOOSE_SEVERAL: return wakhvosi_choose_several_records(LENT, AT(CHOSEN_QUESTIONS, uint16_t), AT(CHOSEN_CODES, uint32_t));
    case TEST: return wakhvosi_test_records(BOOK, q->m, AT(COMBINATIONS, uint16_t), AT(MARKS, uint64_t));
    default: return wakhvosi_compare_records(BOOK, q->x, (uint16_t)q->y);
    }
}
