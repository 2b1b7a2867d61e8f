/* Document 01's examples P1 to P9, and S1 of card 7, test and compare beside them, through the calls over relation records: the lines that the
 * program test_examples writes through the calls on plain lists. */
#include "wakhvosi.h"
#include <inttypes.h>
#include <stdio.h>
#include <string.h>

#define LIST(list) list, sizeof list / sizeof *list

/* Book A's records, all its tuples living. */
static const wakhvosi_sheet fresh_a[] = {{2, 3, 3}, {2, 2, 2}, {2, 2, 2}};

static wakhvosi_sheet of_a[3];
static const uint16_t round_about[] = {0, 1, 1, 2, 2, 0};
static const uint32_t codes_of_a[] = {1, 1, 1, 2, 2, 2, 1, 5, 2, 6, 5, 1, 6, 1};
static const uint16_t pairs[] = {0, 1, 0, 2, 1, 2};

#define BOOK_A LIST(of_a), LIST(round_about), LIST(codes_of_a)

static void say(const char *what, uint64_t answer, uint64_t word, const wakhvosi_sheet *relations, size_t count) {
    printf("%s: ", what);
    if (wakhvosi_kind(answer) == WAKHVOSI_REFUSED)
        printf("%u refused", wakhvosi_subject(answer));
    else
        printf("%u,%u,%u,%u,%u", wakhvosi_kind(answer), wakhvosi_subject(answer), wakhvosi_left(answer), wakhvosi_withdrawn(answer),
               wakhvosi_deleted(answer));
    printf("; marks %" PRIu64 "; counts ", word);
    for (size_t r = 0; r < count; r++) printf(r ? ",%u" : "%u", relations[r].live);
    printf("\n");
}

/* The answer of test. */
static void say_whether(const char *what, uint64_t answer) {
    if (wakhvosi_kind(answer) == WAKHVOSI_REFUSED)
        printf("%s: %u refused\n", what, wakhvosi_subject(answer));
    else
        printf("%s: %u\n", what, wakhvosi_kind(answer));
}

/* The answer of compare. */
static void say_where(const char *what, uint64_t answer) {
    if (wakhvosi_kind(answer) == WAKHVOSI_AGREE)
        printf("%s: agree\n", what);
    else
        printf("%s: %u %s\n", what, wakhvosi_subject(answer), wakhvosi_kind(answer) == WAKHVOSI_REFUSED ? "refused" : "differs");
}

/* Book A with one tuple withdrawn. */
static void withdrawn(const char *what, uint64_t words[1], uint16_t id) {
    uint16_t supports[40], ids[] = {id};
    uint64_t answer = wakhvosi_withdraw_records(BOOK_A, 2, LIST(pairs), words, 1, LIST(supports), LIST(ids));
    say(what, answer, words[0], LIST(of_a));
}

/* All tuples living. */
static void renew_a(uint64_t words[1]) {
    words[0] = 127;
    memcpy(of_a, fresh_a, sizeof of_a);
}

/* P1 to P5, P9 and S1, on book A; and its withdrawal with counts that are untrue. */
static void book_a(void) {
    uint64_t words[1];
    uint16_t supports[40];
    renew_a(words);
    say_whether("fresh A settled", wakhvosi_test_records(BOOK_A, 2, LIST(pairs), LIST(words)));
    uint64_t p1 = wakhvosi_filter_records(BOOK_A, 2, LIST(pairs), LIST(words), LIST(supports));
    say("P1", p1, words[0], LIST(of_a));
    printf("P2: %u,%u\n", supports[8], supports[9]);
    say_whether("filtered A settled", wakhvosi_test_records(BOOK_A, 2, LIST(pairs), LIST(words)));
    withdrawn("P3", words, 5);
    withdrawn("P4", words, 6);
    words[0] = 127;
    withdrawn("an old count", words, 5);
    renew_a(words);
    withdrawn("P5", words, 5);
    renew_a(words);
    uint64_t p9 = wakhvosi_choose_records(BOOK_A, 2, LIST(pairs), LIST(words), LIST(supports), 2, 6);
    say("P9", p9, words[0], LIST(of_a));
    say_where("rows 0 and 3", wakhvosi_compare_records(BOOK_A, 0, 3));
    say_where("rows 2 and 3", wakhvosi_compare_records(BOOK_A, 2, 3));
    say_where("rows 0 and 2", wakhvosi_compare_records(BOOK_A, 0, 2));
    renew_a(words);
    const uint16_t chosen_questions[] = {1, 2};
    const uint32_t chosen_codes[] = {2, 6};
    uint64_t s1 = wakhvosi_choose_several_records(BOOK_A, 2, LIST(pairs), LIST(words), LIST(supports), LIST(chosen_questions),
                                                  LIST(chosen_codes));
    say("S1", s1, words[0], LIST(of_a));
}

/* P6 and P7. */
static void triples(void) {
    wakhvosi_sheet relations[] = {{2, 2, 2}, {2, 2, 2}, {2, 2, 2}};
    const uint32_t values[] = {0, 1, 1, 0, 0, 1, 1, 0, 0, 1, 1, 0};
    const uint16_t triple[] = {0, 1, 2};
    uint64_t words[] = {63};
    uint16_t supports[40];
    uint64_t p6 =
        wakhvosi_filter_records(LIST(relations), LIST(round_about), LIST(values), 2, LIST(pairs), LIST(words), LIST(supports));
    say("P6", p6, words[0], LIST(relations));
    uint64_t p7 =
        wakhvosi_filter_records(LIST(relations), LIST(round_about), LIST(values), 3, LIST(triple), LIST(words), LIST(supports));
    say("P7", p7, words[0], LIST(relations));
}

/* P8. */
static void empty_sheet(void) {
    wakhvosi_sheet relations[] = {{1, 1, 1}, {1, 0, 0}};
    const uint16_t variables[] = {0, 0};
    const uint32_t values[] = {4};
    uint64_t words[] = {1};
    uint64_t p8 = wakhvosi_filter_records(LIST(relations), LIST(variables), LIST(values), 2, NULL, 0, LIST(words), NULL, 0);
    say("P8", p8, words[0], LIST(relations));
}

int main(void) {
    book_a();
    triples();
    empty_sheet();
    return 0;
}
