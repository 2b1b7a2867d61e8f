/* Book A through every call of include/wakhvosi.h: what is asked, and what was got. */
#include <stdio.h>
#include <string.h>
#include "wakhvosi.h"

enum { SHEETS = 3, ROWS = 7, M = 2, NUMBERS = 28 };

/* Three sheets, each with its width, its rows and the count of those living; their questions; their codes, row after row; and the
 * combinations of every two. */
static const uint16_t sheet_list[] = {2, 3, 3, 2, 2, 2, 2, 2, 2};
static const uint16_t question_list[] = {0, 1, 1, 2, 2, 0};
static const uint32_t code_list[] = {1, 1, 1, 2, 2, 2, 1, 5, 2, 6, 5, 1, 6, 1};
static const uint16_t combination_list[] = {0, 1, 0, 2, 1, 2};

static uint8_t sheets[sizeof sheet_list], questions[sizeof question_list];
static uint8_t codes[sizeof code_list], combinations[sizeof combination_list];
static uint8_t marks[8], supports[2 * NUMBERS];

/* The numbers as bytes, lowest byte first: two to a number, and four to a code. */
static void encode(uint8_t *bytes, const uint16_t *numbers, size_t count) {
    for (size_t i = 0; i < count; i++) {
        bytes[2 * i] = (uint8_t)(numbers[i] & 255);
        bytes[2 * i + 1] = (uint8_t)(numbers[i] >> 8);
    }
}

static void encode_codes(uint8_t *bytes, const uint32_t *numbers, size_t count) {
    for (size_t i = 0; i < 4 * count; i++) bytes[i] = (uint8_t)(numbers[i / 4] >> 8 * (i % 4) & 255);
}

static void mark_all(void) {
    memset(marks, 0, sizeof marks);
    for (unsigned g = 0; g < ROWS; g++)
        marks[g / 8] |= (uint8_t)(1u << g % 8);
}

/* All rows marked, and all counted. */
static void all_living(void) {
    mark_all();
    encode(sheets, sheet_list, sizeof sheet_list / 2);
}

static void show(const char *asked, uint64_t answer) {
    printf("%s: ", asked);
    if (wakhvosi_kind(answer) == WAKHVOSI_REFUSED) {
        printf("refused, number %u\n", wakhvosi_subject(answer));
        return;
    }
    if (wakhvosi_kind(answer) == WAKHVOSI_EMPTIED)
        printf("emptied, sheet %u", wakhvosi_subject(answer));
    else
        printf("settled");
    printf(", left %u, withdrawn %u, deleted %u; living rows", wakhvosi_left(answer), wakhvosi_withdrawn(answer),
           wakhvosi_deleted(answer));
    for (unsigned g = 0; g < ROWS; g++)
        if (marks[g / 8] >> g % 8 & 1)
            printf(" %u", g);
    printf("; by sheet");
    for (size_t sheet = 0; sheet < SHEETS; sheet++)
        printf(" %zu", wakhvosi_sheet_live(sheets, sizeof sheets, sheet));
    printf("\n");
}

static void show_reply(const char *asked, uint64_t answer) {
    if (wakhvosi_kind(answer) == WAKHVOSI_REFUSED)
        printf("%s: refused, number %u\n", asked, wakhvosi_refusal(answer));
    else
        printf("%s: %s\n", asked, wakhvosi_kind(answer) == WAKHVOSI_YES ? "yes" : "no");
}

static void show_comparison(const char *asked, uint64_t answer) {
    if (wakhvosi_kind(answer) == WAKHVOSI_REFUSED)
        printf("%s: refused, number %u\n", asked, wakhvosi_refusal(answer));
    else if (wakhvosi_kind(answer) == WAKHVOSI_AGREE)
        printf("%s: they agree\n", asked);
    else
        printf("%s: they differ on question %u\n", asked, wakhvosi_subject(answer));
}

static uint64_t filter(void) {
    return wakhvosi_filter(sheets, sizeof sheets, questions, sizeof questions, codes, sizeof codes, M, combinations,
                           sizeof combinations, marks, sizeof marks, supports, sizeof supports);
}

static uint64_t withdraw(uint16_t row) {
    uint8_t rows[2];
    encode(rows, &row, 1);
    return wakhvosi_withdraw(sheets, sizeof sheets, questions, sizeof questions, codes, sizeof codes, M, combinations,
                             sizeof combinations, marks, sizeof marks, supports, sizeof supports, rows, sizeof rows);
}

static uint64_t choose(uint16_t question, uint32_t code) {
    return wakhvosi_choose(sheets, sizeof sheets, questions, sizeof questions, codes, sizeof codes, M, combinations,
                           sizeof combinations, marks, sizeof marks, supports, sizeof supports, question, code);
}

static uint64_t choose_both(const uint16_t chosen_questions[2], const uint32_t chosen_codes[2]) {
    uint8_t question_bytes[4], code_bytes[8];
    encode(question_bytes, chosen_questions, 2);
    encode_codes(code_bytes, chosen_codes, 2);
    return wakhvosi_choose_several(sheets, sizeof sheets, questions, sizeof questions, codes, sizeof codes, M, combinations,
                                   sizeof combinations, marks, sizeof marks, supports, sizeof supports, question_bytes,
                                   sizeof question_bytes, code_bytes, sizeof code_bytes);
}

static uint64_t test(void) {
    return wakhvosi_test(sheets, sizeof sheets, questions, sizeof questions, codes, sizeof codes, M, combinations,
                         sizeof combinations, marks, sizeof marks);
}

static uint64_t compare(uint16_t a, uint16_t b) {
    return wakhvosi_compare(sheets, sizeof sheets, questions, sizeof questions, codes, sizeof codes, a, b);
}

/* The codes moved back to two bytes each, from before codes had four, and forth again. */
static void move(void) {
    static uint8_t older[2 * sizeof code_list / 4], again[sizeof code_list];
    uint64_t back = wakhvosi_narrow(sheets, sizeof sheets, questions, sizeof questions, codes, sizeof codes, older, sizeof older);
    uint64_t forth = wakhvosi_widen(sheets, sizeof sheets, questions, sizeof questions, older, sizeof older, again, sizeof again);
    printf("codes back to two bytes each: %s, the last is %u\n", wakhvosi_kind(back) == WAKHVOSI_MOVED ? "moved" : "refused",
           older[sizeof older - 2] + 256u * older[sizeof older - 1]);
    printf("and forth again: %s\n", wakhvosi_kind(forth) == WAKHVOSI_MOVED && !memcmp(codes, again, sizeof codes) ? "the same" : "not so");
    forth = wakhvosi_widen(sheets, sizeof sheets, questions, sizeof questions, older, sizeof older, again, sizeof again - 4);
    printf("to a list with room for one code less: refused, number %u\n", wakhvosi_refusal(forth));
}

int main(void) {
    encode(questions, question_list, sizeof question_list / 2);
    encode_codes(codes, code_list, sizeof code_list / 4);
    encode(combinations, combination_list, sizeof combination_list / 2);

    all_living();
    show_reply("test all rows", test());
    show("filter", filter());
    show_reply("test what is left", test());
    /* the first combination's supports of sheet 1 stand behind the three pairs of sheet 0 */
    printf("support of sheet 1, row 1 in sheets 0 and 1: rows %u and %u\n", supports[16] + 256u * supports[17],
           supports[18] + 256u * supports[19]);
    show("withdraw row 5", withdraw(5));
    show("withdraw row 6", withdraw(6));
    show("withdraw row 7", withdraw(7));
    mark_all(); /* the sheets still count what the last withdrawal left */
    show("filter all rows, counted as before", filter());

    all_living();
    show("choose code 6 for question 2 on the fresh book", choose(2, 6));
    all_living();
    show("choose code 2 for question 1 and 6 for question 2, at once", choose_both((uint16_t[]){1, 2}, (uint32_t[]){2, 6}));
    show_comparison("compare rows 0 and 3", compare(0, 3));
    show_comparison("compare rows 0 and 4", compare(0, 4));
    show_comparison("compare rows 0 and 2", compare(0, 2));
    show_comparison("compare rows 0 and 7", compare(0, 7));
    move();
    return 0;
}
