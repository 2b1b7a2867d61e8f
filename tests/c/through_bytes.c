/* The calls from C as the desk makes them (include/wakhvosi.h): little-endian bytes, at any address. */
#include "lend.h"
#include "wakhvosi.h"

_Static_assert(__BYTE_ORDER__ == __ORDER_LITTLE_ENDIAN__, "the lists' bytes are lent as they lie in memory");

const side last_side = ODD;
const bool counts_in_records = true;

#define AT(i) q->lists[i].at, q->lists[i].bytes
#define BOOK AT(SHEETS), AT(QUESTIONS), AT(CODES)
#define LENT BOOK, q->m, AT(COMBINATIONS), AT(MARKS), AT(SUPPORTS)

uint64_t answer_of(const request *q) {
    switch (q->call) {
    case FILTER: return wakhvosi_filter(LENT);
    case WITHDRAW: return wakhvosi_withdraw(LENT, AT(ROWS));
    case CHOOSE: return wakhvosi_choose(LENT, q->x, q->y);
    case CHOOSE_SEVERAL: return wakhvosi_choose_several(LENT, AT(CHOSEN_QUESTIONS), AT(CHOSEN_CODES));
    case TEST: return wakhvosi_test(BOOK, q->m, AT(COMBINATIONS), AT(MARKS));
    default: return wakhvosi_compare(BOOK, q->x, (uint16_t)q->y);
    }
}
