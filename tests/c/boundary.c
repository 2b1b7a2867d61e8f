/* The calls from C at their edges: every refusal number, byte counts that are not whole, no list at all, lists longer than any
 * bound; how much of the marks and the supports a call touches; and that of the sheets it changes the counts alone. A line
 * 'failed NAME: how' for each case that is not as expected; at the end 'N put'. */
#include "lend.h"
#include "wakhvosi.h"
#include <stdio.h>
#include <stdlib.h>
#include <string.h>

enum { DEAD = 65535, NEEDED = 28, LIVING = 0xff };

static unsigned put, failed;

/* One case: the call is made, and its outcome held to what is expected. */
static void check(request *q, outcome expected, const char *name) {
    outcome left;
    const char *how = wrong(q, &expected, &left);
    put++, failed += how != NULL;
    if (how) printf("failed %s: %s\n", name, how);
    free_outcome(&left);
}

/* ---- Lists */

static list bytes(size_t n, int byte) {
    list l = new_list(n);
    memset(l.at, byte, n);
    return l;
}

static void put16(list l, size_t i, unsigned x) {
    unsigned char *at = (unsigned char *)l.at + 2 * i;
    at[0] = (unsigned char)x, at[1] = (unsigned char)(x >> 8);
}

static list numbers(size_t n, const uint16_t *xs) {
    list l = new_list(2 * n);
    for (size_t i = 0; i < n; i++) put16(l, i, xs[i]);
    return l;
}

static list repeated(size_t n, unsigned x) {
    list l = new_list(2 * n);
    for (size_t i = 0; i < n; i++) put16(l, i, x);
    return l;
}

static void put32(list l, size_t i, uint32_t x) { put16(l, 2 * i, x & 65535), put16(l, 2 * i + 1, x >> 16); }

static list codes(size_t n, const uint32_t *xs) {
    list l = new_list(4 * n);
    for (size_t i = 0; i < n; i++) put32(l, i, xs[i]);
    return l;
}

static list one_code(size_t n, uint32_t x) {
    list l = new_list(4 * n);
    for (size_t i = 0; i < n; i++) put32(l, i, x);
    return l;
}

#define THE_CODES(...) codes(sizeof((uint32_t[]){__VA_ARGS__}) / 4, (uint32_t[]){__VA_ARGS__})
#define NUMBERS(...) numbers(sizeof((uint16_t[]){__VA_ARGS__}) / 2, (uint16_t[]){__VA_ARGS__})

/* ---- Book A */

/* Book A with its pairs, all rows living, nothing to withdraw; question 2 and code 6 to choose, and with them code 2 under question 1;
 * rows 2 and 6 to compare. */
static request book_a(void) {
    return (request){FILTER, 2, 2, 6,
                     {[SHEETS] = NUMBERS(2, 3, 3, 2, 2, 2, 2, 2, 2), [QUESTIONS] = NUMBERS(0, 1, 1, 2, 2, 0),
                      [CODES] = THE_CODES(1, 1, 1, 2, 2, 2, 1, 5, 2, 6, 5, 1, 6, 1), [COMBINATIONS] = NUMBERS(0, 1, 0, 2, 1, 2),
                      [MARKS] = bytes(8, LIVING), [SUPPORTS] = repeated(40, 7), [COUNTS] = new_list(0), [ROWS] = new_list(0),
                      [CHOSEN_QUESTIONS] = NUMBERS(1, 2), [CHOSEN_CODES] = THE_CODES(2, 6)},
                     BEHIND};
}

static request book_a_with(int which, list by) {
    request q = book_a();
    free(q.lists[which].at);
    q.lists[which] = by;
    return q;
}

/* No sheet, or one sheet with one question and so many rows; so many mark words; no combination. */
static request small_book(int sheets, unsigned rows, size_t words) {
    list sheet = sheets ? NUMBERS(1, (uint16_t)rows, (uint16_t)rows) : new_list(0);
    return (request){FILTER, 2, 0, 0,
                     {[SHEETS] = sheet, [QUESTIONS] = repeated((size_t)sheets, 0), [CODES] = one_code(rows, 4),
                      [COMBINATIONS] = new_list(0), [MARKS] = bytes(8 * words, LIVING), [SUPPORTS] = new_list(0),
                      [COUNTS] = new_list(0), [ROWS] = new_list(0), [CHOSEN_QUESTIONS] = new_list(0), [CHOSEN_CODES] = new_list(0)},
                     BEHIND};
}

/* Book A with these counts and marks. */
static request counted_a(unsigned first, unsigned second, unsigned third, unsigned char marks) {
    request q = book_a_with(MARKS, bytes(8, marks));
    put16(q.lists[SHEETS], 2, first), put16(q.lists[SHEETS], 5, second), put16(q.lists[SHEETS], 8, third);
    return q;
}

/* What stays of book A, by marks, its counts and the supports then. */
typedef struct {
    unsigned char marks;
    uint16_t counts[3], supports[NEEDED];
} rest;

#define D DEAD
static const rest filtered = {123, {2, 2, 2}, {0, 0, 1, 1, D, D, 0, 0, 1, 1, 0, 0, 1, 0, D, D, 0, 0, 0, 1, 0, 0, 1, 1, 0, 0, 1, 1}};
static const rest without_5 = {82, {1, 1, 1}, {D, D, 1, 1, D, D, D, D, 1, 1, D, D, 1, 1, D, D, D, D, 1, 1, D, D, 1, 1, D, D, 1, 1}};
static const rest nothing = {0, {0, 0, 0}, {D, D, D, D, D, D, D, D, D, D, D, D, D, D, D, D, D, D, D, D, D, D, D, D, D, D, D, D}};
static const rest all_with_any = {127, {3, 2, 2}, {0, 0, 1, 1, 2, 1, 0, 0, 1, 1, 0, 0, 1, 0, 2, 1, 0, 0, 0, 1, 0, 0, 1, 1, 0, 0, 1, 1}};
static const rest beside_any = {84, {1, 1, 1}, {D, D, D, D, 2, 1, D, D, 2, 1, D, D, D, D, 2, 1, D, D, 2, 1, D, D, 1, 1, D, D, 1, 1}};
#undef D

/* ---- Expectations */

/* The calls from first to last are refused with this number, write nothing, and touch no support number and at most so many bytes
 * of the marks. */
static void refused_within(request q, int first, int last, unsigned number, size_t mark_bytes, const char *what) {
    for (q.call = first; q.call <= last; q.call++) {
        char name[160];
        snprintf(name, sizeof name, "%s refused with %u, %s", call_names[q.call], number, what);
        outcome expected = unchanged(&q, WAKHVOSI_REFUSED + 256u * number, mark_bytes, 0);
        check(&q, expected, name);
        free_outcome(&expected);
    }
    free_lists(&q);
}

static void refused(request q, int first, int last, unsigned number, const char *what) {
    refused_within(q, first, last, number, q.lists[MARKS].bytes, what);
}

static void refused_with(int which, list by, int first, int last, unsigned number, const char *what) {
    refused(book_a_with(which, by), first, last, number, what);
}

/* The call answers this, touches at most so many mark words and no support number, and leaves every list as it is. */
static void answers(request q, int call, uint64_t answer, size_t words, const char *name) {
    q.call = call;
    outcome expected = unchanged(&q, answer, 8 * words, 0);
    check(&q, expected, name);
    free_outcome(&expected), free_lists(&q);
}

static uint64_t counted(unsigned kind, unsigned sheet, unsigned left, unsigned withdrawn, unsigned deleted) {
    return kind | sheet << 8 | (uint64_t)left << 16 | (uint64_t)withdrawn << 32 | (uint64_t)deleted << 48;
}

/* The change call on book A answers this, leaves the rest, and touches nothing else. */
static void leaves(request q, int call, uint64_t answer, const rest *of_a, const char *name) {
    q.call = call;
    outcome expected = unchanged(&q, answer, 8, 2 * NEEDED);
    unsigned char *marks = expected.lists[MARKS].at;
    marks[0] = (unsigned char)((marks[0] & 128) | of_a->marks);
    for (size_t i = 0; i < 3; i++) put16(expected.lists[SHEETS], 3 * i + 2, of_a->counts[i]);
    for (size_t i = 0; i < NEEDED; i++) put16(expected.lists[SUPPORTS], i, of_a->supports[i]);
    check(&q, expected, name);
    free_outcome(&expected), free_lists(&q);
}

/* ---- The cases */

static void good_calls(void) {
    leaves(book_a(), FILTER, counted(0, 64, 6, 0, 1), &filtered, "P1");
    leaves(book_a_with(ROWS, NUMBERS(5)), WITHDRAW, counted(0, 64, 3, 1, 3), &without_5, "P5");
    leaves(book_a(), CHOOSE, counted(0, 64, 3, 2, 2), &without_5, "P9");
    leaves(counted_a(0, 0, 0, 0), FILTER, counted(1, 0, 0, 0, 0), &nothing, "no row living, so emptied at sheet 0");
    leaves(counted_a(2, 2, 2, 123), FILTER, counted(0, 64, 6, 0, 0), &filtered, "filtered A again");
    answers(book_a(), TEST, 0, 1, "test of fresh A");
    answers(book_a_with(MARKS, bytes(8, 123)), TEST, 1, 1, "test of filtered A");
    request q = book_a();
    q.x = 0, q.y = 3;
    answers(q, COMPARE, counted(1, 64, 0, 0, 0), 0, "rows 0 and 3 agree");
    q = book_a();
    q.x = 2, q.y = 3;
    answers(q, COMPARE, counted(0, 1, 0, 0, 0), 0, "rows 2 and 3 differ on question 1");
    q = book_a();
    q.x = 0, q.y = 2;
    answers(q, COMPARE, counted(0, 0, 0, 0, 0), 0, "rows 0 and 2 differ on question 0 and on question 1");
}

/* Book A with any in the place of the last code, under question 0. */
static request a_with_any(uint16_t x, uint32_t y) {
    request q = book_a_with(CODES, THE_CODES(1, 1, 1, 2, 2, 2, 1, 5, 2, 6, 5, 1, 6, WAKHVOSI_ANY));
    q.x = x, q.y = y;
    return q;
}

static void any_code(void) {
    request q = book_a();
    q.y = WAKHVOSI_ANY;
    leaves(q, CHOOSE, counted(0, 64, 6, 0, 1), &filtered, "any chosen on A");
    leaves(a_with_any(0, 0), FILTER, counted(0, 64, 7, 0, 0), &all_with_any, "row 2 has a partner by any");
    leaves(a_with_any(0, WAKHVOSI_ANY), CHOOSE, counted(0, 64, 7, 0, 0), &all_with_any, "any chosen on A with any");
    leaves(a_with_any(0, 2), CHOOSE, counted(0, 64, 3, 3, 1), &beside_any, "a choice leaves the row with any");
    answers(a_with_any(0, 0), TEST, 1, 1, "test of A with any");
    answers(a_with_any(2, 6), COMPARE, counted(1, 64, 0, 0, 0), 0, "rows 2 and 6 agree by any");
    answers(a_with_any(6, 2), COMPARE, counted(1, 64, 0, 0, 0), 0, "rows 6 and 2 agree by any");
    answers(a_with_any(6, 6), COMPARE, counted(1, 64, 0, 0, 0), 0, "row 6 agrees with itself");
    answers(a_with_any(5, 6), COMPARE, counted(0, 2, 0, 0, 0), 0, "rows 5 and 6 differ on question 2, and not on 0");
}

/* Book A, its last code another one, which row 2's code 2 does not fit; and another code chosen under question 2, where 6 stands. */
static void wide_codes(void) {
    static const uint32_t other[] = {65535, 65538, 0x10001, 0x80000002, 0xfffffffe, 0xffff0001};
    for (size_t i = 0; i < sizeof other / sizeof *other; i++) {
        char name[80];
        request q = book_a_with(CODES, THE_CODES(1, 1, 1, 2, 2, 2, 1, 5, 2, 6, 5, 1, 6, other[i]));
        q.x = 2, q.y = 6;
        snprintf(name, sizeof name, "rows 2 and 6 differ, of 2 and %u", other[i]);
        answers(q, COMPARE, counted(0, 0, 0, 0, 0), 0, name);
        q = book_a();
        q.y = (other[i] & ~7u) | 6;
        snprintf(name, sizeof name, "%u chosen where 6 stands", q.y);
        leaves(q, CHOOSE, counted(1, 0, 0, 4, 3), &nothing, name);
    }
}

/* Book A with these pairs to choose. */
static request a_choosing(list chosen_questions, list chosen_codes) {
    request q = book_a_with(CHOSEN_QUESTIONS, chosen_questions);
    free(q.lists[CHOSEN_CODES].at), q.lists[CHOSEN_CODES] = chosen_codes;
    return q;
}

static void several(void) {
    leaves(book_a(), CHOOSE_SEVERAL, counted(0, 64, 3, 3, 1), &without_5, "2 under question 1 and 6 under question 2");
    leaves(a_choosing(NUMBERS(2, 1), THE_CODES(6, 2)), CHOOSE_SEVERAL, counted(0, 64, 3, 3, 1), &without_5, "the other way round");
    leaves(a_choosing(NUMBERS(2), THE_CODES(6)), CHOOSE_SEVERAL, counted(0, 64, 3, 2, 2), &without_5, "one pair");
    leaves(a_choosing(new_list(0), new_list(0)), CHOOSE_SEVERAL, counted(0, 64, 6, 0, 1), &filtered, "no pair");
    leaves(a_choosing(NUMBERS(1, 1), THE_CODES(1, 2)), CHOOSE_SEVERAL, counted(1, 0, 0, 5, 2), &nothing, "contrary codes");
    leaves(a_choosing(NUMBERS(1, 63, 2), THE_CODES(WAKHVOSI_ANY, 9, 6)), CHOOSE_SEVERAL, counted(0, 64, 3, 2, 2), &without_5,
           "any chosen, and a question that nobody asks");
    leaves(a_choosing(NUMBERS(1, 2), THE_CODES(2, 65536 + 6)), CHOOSE_SEVERAL, counted(1, 0, 0, 5, 2), &nothing, "65,542 chosen where 6 stands");
    leaves(a_choosing(repeated(100000, 2), one_code(100000, 6)), CHOOSE_SEVERAL, counted(0, 64, 3, 2, 2), &without_5,
           "one pair 100,000 times");
}

/* Number 19, and its place behind 18 and before 14. */
static void number_19(void) {
    refused(a_choosing(NUMBERS(1, 2), THE_CODES(2)), CHOOSE_SEVERAL, CHOOSE_SEVERAL, 19, "a code short");
    refused(a_choosing(NUMBERS(1), THE_CODES(2, 6)), CHOOSE_SEVERAL, CHOOSE_SEVERAL, 19, "a question short");
    refused(a_choosing(new_list(0), THE_CODES(2)), CHOOSE_SEVERAL, CHOOSE_SEVERAL, 19, "no question");
    refused(a_choosing(NUMBERS(64), new_list(0)), CHOOSE_SEVERAL, CHOOSE_SEVERAL, 19, "question 64 without a code");
    refused(a_choosing(repeated(100000, 2), THE_CODES(6)), CHOOSE_SEVERAL, CHOOSE_SEVERAL, 19, "100,000 questions and a code");
    refused(a_choosing(NUMBERS(2, 64), THE_CODES(6, 6)), CHOOSE_SEVERAL, CHOOSE_SEVERAL, 14, "question 64 chosen");
    refused(a_choosing(NUMBERS(65535, 2), THE_CODES(6, 6)), CHOOSE_SEVERAL, CHOOSE_SEVERAL, 14, "question 65,535 chosen");
    request q = counted_a(3, 2, 1, LIVING);
    q.lists[CHOSEN_CODES].bytes = 4;
    refused(q, CHOOSE_SEVERAL, CHOOSE_SEVERAL, 18, "and a code short");
    q = book_a();
    q.lists[CHOSEN_CODES].bytes = 4, q.lists[SUPPORTS].bytes = 2 * NEEDED - 2;
    refused(q, CHOOSE_SEVERAL, CHOOSE_SEVERAL, 12, "and a code short");
}

/* A list that is so many bytes short of a whole number of entries. */
static void odd_counts(void) {
    static const struct {
        int unit, first, last;
    } of[LISTS] = {[SHEETS] = {6, FILTER, COMPARE}, [QUESTIONS] = {2, FILTER, COMPARE}, [CODES] = {4, FILTER, COMPARE},
                   [COMBINATIONS] = {2, FILTER, TEST}, [MARKS] = {8, FILTER, TEST}, [SUPPORTS] = {2, FILTER, CHOOSE_SEVERAL},
                   [ROWS] = {2, WITHDRAW, WITHDRAW}, [CHOSEN_QUESTIONS] = {2, CHOOSE_SEVERAL, CHOOSE_SEVERAL},
                   [CHOSEN_CODES] = {4, CHOOSE_SEVERAL, CHOOSE_SEVERAL}};
    for (int which = 0; which < LISTS; which++)
        for (int less = 1; less < of[which].unit; less++) {
            char what[40];
            snprintf(what, sizeof what, "%s short of %d bytes", list_names[which], less);
            request q = book_a_with(ROWS, NUMBERS(5));
            q.lists[which].bytes -= (size_t)less;
            refused(q, of[which].first, of[which].last, 1, what);
        }
}

static void numbers_2_to_6(void) {
    refused_with(SHEETS, new_list(0), FILTER, COMPARE, 2, "no sheets");
    refused_with(SHEETS, new_list(6 * 65), FILTER, COMPARE, 2, "65 sheets");
    refused_with(SHEETS, NUMBERS(2, 3, 3, 2, 2, 2, 9, 2, 2), FILTER, COMPARE, 3, "width 9");
    refused_with(SHEETS, NUMBERS(2, 3, 3, 0, 2, 2, 2, 2, 2), FILTER, COMPARE, 3, "width 0");
    refused_with(SHEETS, NUMBERS(2, 3, 3, 2, 2, 2, 2, 4092, 4092), FILTER, COMPARE, 4, "4,097 rows");
    refused_with(QUESTIONS, NUMBERS(0, 1, 1, 2, 2), FILTER, COMPARE, 5, "a question short");
    refused_with(CODES, THE_CODES(1, 1, 1), FILTER, COMPARE, 5, "codes short");
    refused_with(QUESTIONS, NUMBERS(0, 1, 1, 64, 2, 0), FILTER, COMPARE, 6, "question 64");
    refused_with(QUESTIONS, NUMBERS(0, 1, 1, 1, 2, 0), FILTER, COMPARE, 6, "a question twice");
}

static void numbers_7_to_14(void) {
    request q = book_a();
    q.m = 5;
    refused(q, FILTER, TEST, 7, "m = 5");
    q = book_a();
    q.m = 1;
    refused(q, FILTER, TEST, 7, "m = 1");
    refused_with(COMBINATIONS, NUMBERS(0, 1, 0), FILTER, TEST, 8, "half a combination");
    refused_with(COMBINATIONS, repeated(514, 0), FILTER, TEST, 8, "257 combinations");
    refused_with(COMBINATIONS, NUMBERS(0, 3), FILTER, TEST, 9, "a missing sheet");
    refused_with(COMBINATIONS, NUMBERS(1, 0), FILTER, TEST, 9, "a combination that falls");
    refused_with(QUESTIONS, NUMBERS(0, 1, 2, 3, 2, 0), FILTER, TEST, 10, "sheets that share no question");
    refused_with(MARKS, new_list(0), FILTER, TEST, 11, "no marks");
    refused_with(SUPPORTS, repeated(27, 7), FILTER, CHOOSE_SEVERAL, 12, "supports short");
    refused_with(ROWS, NUMBERS(6, 7), WITHDRAW, WITHDRAW, 13, "a missing row");
    q = book_a();
    q.x = 64;
    refused(q, CHOOSE, CHOOSE, 14, "question 64 chosen");
    q = book_a();
    q.y = 7;
    refused(q, COMPARE, COMPARE, 13, "a missing row");
}

/* Counts that differ from the marks; book A has 3, 2 and 2 rows. */
static void number_18(void) {
    static const uint16_t of[][3] = {{4, 2, 2}, {2, 2, 2}, {3, 3, 2}, {3, 1, 2}, {3, 2, 3}, {3, 2, 1}, {0, 0, 0}, {2, 3, 2},
                                     {259, 2, 2}, {3, 2, 65535}, {2, 2, 3}};
    for (size_t i = 0; i < sizeof of / sizeof *of; i++) {
        char what[40];
        snprintf(what, sizeof what, "counts %u, %u, %u", of[i][0], of[i][1], of[i][2]);
        refused(counted_a(of[i][0], of[i][1], of[i][2], LIVING), FILTER, CHOOSE_SEVERAL, 18, what);
    }
    refused(counted_a(3, 2, 2, 123), FILTER, CHOOSE_SEVERAL, 18, "filtered A, the counts of fresh A");
    refused(counted_a(2, 2, 2, 127), FILTER, CHOOSE_SEVERAL, 18, "fresh A, the counts of filtered A");
    answers(counted_a(4, 0, 65535, LIVING), TEST, 0, 1, "test of fresh A does not look at counts");
    answers(counted_a(9, 9, 9, 123), TEST, 1, 1, "test of filtered A does not look at counts");
    answers(counted_a(9, 9, 9, LIVING), COMPARE, counted(0, 0, 0, 0, 0), 0, "compare does not look at counts");
}

/* Number 18 behind 1 and 12, and before 13 and 14. */
static void order_of_18(void) {
    request q = counted_a(3, 2, 1, LIVING);
    q.lists[CODES].bytes--;
    refused(q, FILTER, CHOOSE_SEVERAL, 1, "and a count is untrue");
    q = counted_a(3, 2, 1, LIVING);
    q.lists[SUPPORTS].bytes = 2 * NEEDED - 2;
    refused(q, FILTER, CHOOSE_SEVERAL, 12, "and a count is untrue");
    q = counted_a(3, 2, 1, LIVING);
    q.lists[MARKS].bytes = 0;
    refused(q, FILTER, CHOOSE_SEVERAL, 11, "and a count is untrue");
    q = counted_a(3, 2, 1, LIVING);
    q.x = 64;
    refused(q, CHOOSE, CHOOSE, 18, "and question 64 chosen");
    q = counted_a(3, 2, 1, LIVING);
    free(q.lists[ROWS].at), q.lists[ROWS] = NUMBERS(7);
    refused(q, WITHDRAW, WITHDRAW, 18, "and a missing row");
}

/* Two sheets of 300 and 3 rows. The first one's count falls to 255, so that both its bytes change, the other's to 2. */
static void two_bytes(void) {
    request q = small_book(1, 303, 5);
    q.call = WITHDRAW;
    free(q.lists[SHEETS].at), q.lists[SHEETS] = NUMBERS(1, 300, 300, 1, 3, 3);
    free(q.lists[QUESTIONS].at), q.lists[QUESTIONS] = NUMBERS(0, 0);
    free(q.lists[ROWS].at), q.lists[ROWS] = new_list(2 * 46);
    for (unsigned g = 0; g < 45; g++) put16(q.lists[ROWS], g, g);
    put16(q.lists[ROWS], 45, 301);
    outcome expected = unchanged(&q, counted(0, 64, 257, 46, 0), 40, 0);
    uint64_t *marks = expected.lists[MARKS].at;
    marks[0] &= ~0ull << 45, marks[4] &= ~(1ull << (301 - 256));
    put16(expected.lists[SHEETS], 2, 255), put16(expected.lists[SHEETS], 5, 2);
    check(&q, expected, "withdraw, a count in two bytes and another");
    free_outcome(&expected), free_lists(&q);
}

/* Lists that are empty; on the last side they are NULL. */
static void no_list(void) {
    answers(small_book(1, 1, 1), FILTER, counted(0, 64, 1, 0, 0), 1, "no combinations, no supports");
    answers(small_book(1, 1, 1), WITHDRAW, counted(0, 64, 1, 0, 0), 1, "no rows listed");
    answers(small_book(1, 1, 1), CHOOSE_SEVERAL, counted(0, 64, 1, 0, 0), 1, "nothing chosen");
    answers(small_book(1, 0, 0), FILTER, counted(1, 0, 0, 0, 0), 0, "a sheet without rows needs no codes and no marks");
    answers(small_book(1, 0, 0), TEST, 1, 0, "nothing living is settled");
    refused(small_book(0, 0, 0), FILTER, COMPARE, 2, "nothing at all");
}

/* Lists that are longer than any accepted one, or than any that is needed. */
static void long_lists(void) {
    refused_with(SHEETS, repeated(300000, 1), FILTER, COMPARE, 2, "100,000 sheets");
    refused_with(QUESTIONS, repeated(100000, 1), FILTER, COMPARE, 5, "100,000 questions");
    refused_with(CODES, one_code(100000, 1), FILTER, COMPARE, 5, "100,000 codes");
    refused_with(COMBINATIONS, repeated(100000, 1), FILTER, TEST, 8, "50,000 combinations");
    refused_with(ROWS, repeated(100000, 7), WITHDRAW, WITHDRAW, 13, "100,000 missing rows");
    leaves(book_a_with(ROWS, repeated(100000, 5)), WITHDRAW, counted(0, 64, 3, 1, 3), &without_5, "one row listed 100,000 times");
    request q = book_a_with(MARKS, bytes(8 * 1000, LIVING));
    free(q.lists[SUPPORTS].at), free(q.lists[ROWS].at);
    q.lists[SUPPORTS] = repeated(100000, 7), q.lists[ROWS] = repeated(100000, 5);
    leaves(q, WITHDRAW, counted(0, 64, 3, 1, 3), &without_5, "what is not needed stays");
}

/* Book A with row 5 listed, so many words and so many support numbers. */
static request book_a_of(size_t words, size_t supports) {
    request q = book_a_with(ROWS, NUMBERS(5));
    free(q.lists[MARKS].at), free(q.lists[SUPPORTS].at);
    q.lists[MARKS] = bytes(8 * words, LIVING), q.lists[SUPPORTS] = repeated(supports, 7);
    return q;
}

/* More words and support numbers than book A needs. */
static void more_than_needed(void) {
    const struct {
        uint64_t answer;
        const rest *left;
    } of[] = {{counted(0, 64, 6, 0, 1), &filtered}, {counted(0, 64, 3, 1, 3), &without_5}, {counted(0, 64, 3, 2, 2), &without_5},
              {counted(0, 64, 3, 3, 1), &without_5}};
    for (int call = FILTER; call <= CHOOSE_SEVERAL; call++) {
        char name[80];
        snprintf(name, sizeof name, "%s, no word touched but the one needed", call_names[call]);
        leaves(book_a_of(3, NEEDED), call, of[call].answer, of[call].left, name);
        snprintf(name, sizeof name, "%s, no support number touched but those needed", call_names[call]);
        leaves(book_a_of(1, NEEDED + 2), call, of[call].answer, of[call].left, name);
    }
    answers(book_a_of(3, 0), TEST, 0, 1, "test, no word touched but the one needed");
    refused_within(book_a_of(3, NEEDED - 1), FILTER, CHOOSE_SEVERAL, 12, 8, "no word touched but the one needed");
    request q = book_a_of(3, NEEDED);
    put16(q.lists[ROWS], 0, 7);
    refused_within(q, WITHDRAW, WITHDRAW, 13, 8, "no word touched but the one needed");
    q = book_a_of(3, NEEDED);
    q.x = 64;
    refused_within(q, CHOOSE, CHOOSE, 14, 8, "no word touched but the one needed");
    q = book_a_of(3, NEEDED);
    q.lists[CHOSEN_QUESTIONS].bytes = 2;
    refused_within(q, CHOOSE_SEVERAL, CHOOSE_SEVERAL, 19, 8, "no word touched but the one needed");
    q = book_a_of(3, NEEDED);
    put16(q.lists[SHEETS], 8, 1);
    refused_within(q, FILTER, CHOOSE_SEVERAL, 18, 8, "no word touched but the one needed");
}

/* Books that need none, or a whole number of words; a last word is lent that they do not need. */
static void words_needed(void) {
    static const struct {
        unsigned rows, words;
        const char *name;
    } of[] = {{0, 0, "no rows, no word"}, {64, 1, "64 rows, one word"}, {65, 2, "65 rows, two words"},
              {4095, 64, "4,095 rows, 64 words"}, {4096, 64, "4,096 rows, 64 words"}};
    for (size_t i = 0; i < sizeof of / sizeof *of; i++) {
        char name[80];
        snprintf(name, sizeof name, "filter, %s touched", of[i].name);
        uint64_t answer = of[i].rows ? counted(0, 64, of[i].rows, 0, 0) : counted(1, 0, 0, 0, 0);
        answers(small_book(1, of[i].rows, of[i].words + 1), FILTER, answer, of[i].words, name);
        snprintf(name, sizeof name, "test, %s touched", of[i].name);
        answers(small_book(1, of[i].rows, of[i].words + 1), TEST, 1, of[i].words, name);
    }
    request q = small_book(1, 1, 1);
    free(q.lists[SUPPORTS].at);
    q.lists[SUPPORTS] = repeated(3, 7);
    answers(q, FILTER, counted(0, 64, 1, 0, 0), 1, "filter, no combination, no support number touched");
}

/* All 32,768 support numbers needed, and one more lent: two sheets of 32 equal rows, 256 times in one combination. */
static void most_supports(void) {
    enum { ROWS_EACH = 32, TIMES = 256, ALL = TIMES * 2 * ROWS_EACH * 2 };
    request q = {FILTER, 2, 0, 0,
                 {[SHEETS] = NUMBERS(1, ROWS_EACH, ROWS_EACH, 1, ROWS_EACH, ROWS_EACH), [QUESTIONS] = NUMBERS(0, 0),
                  [CODES] = one_code(2 * ROWS_EACH, 4), [COMBINATIONS] = new_list(2 * 2 * TIMES), [MARKS] = bytes(8, LIVING),
                  [SUPPORTS] = repeated(ALL + 1, 7), [COUNTS] = new_list(0), [ROWS] = new_list(0),
                  [CHOSEN_QUESTIONS] = new_list(0), [CHOSEN_CODES] = new_list(0)},
                 BEHIND};
    for (size_t i = 0; i < TIMES; i++) put16(q.lists[COMBINATIONS], 2 * i + 1, 1);
    outcome expected = unchanged(&q, counted(0, 64, 2 * ROWS_EACH, 0, 0), 8, 2 * ALL);
    for (size_t i = 0; i < ALL; i++) {
        size_t row = i / 2 % ROWS_EACH, sheet = i / 2 / ROWS_EACH % 2;
        put16(expected.lists[SUPPORTS], i, sheet == i % 2 ? (unsigned)row : 0);
    }
    check(&q, expected, "filter, 32,768 support numbers touched");
    free_outcome(&expected), free_lists(&q);
}

int main(void) {
    good_calls();
    any_code();
    wide_codes();
    several();
    number_19();
    odd_counts();
    numbers_2_to_6();
    numbers_7_to_14();
    number_18();
    order_of_18();
    two_bytes();
    no_list();
    long_lists();
    more_than_needed();
    words_needed();
    most_supports();
    printf("%u put\n", put);
    return failed != 0;
}
