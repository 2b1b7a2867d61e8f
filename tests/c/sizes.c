/* The constants and the inline functions of wakhvosi.h beside the calls: lists of exactly the bytes that the functions name are
 * accepted and shorter ones are not, and each limit is the last that passes. All codes are 0, but for one of the last cases. */
#include "wakhvosi.h"
#include <stdbool.h>
#include <stdio.h>
#include <stdlib.h>
#include <string.h>

enum { TWO = 2 * WAKHVOSI_SHEET_BYTES }; /* bytes of two sheets */
enum { MOST_SHEETS = WAKHVOSI_MAX_SHEETS + 1, MOST_MEMBERS = (WAKHVOSI_MAX_COMBINATIONS + 1) * (WAKHVOSI_MAX_MEMBERS + 1) };

static unsigned passed, failed;

static void check(bool ok, const char *what) {
    *(ok ? &passed : &failed) += 1;
    if (!ok) printf("failed: %s\n", what);
}

/* A book by its numbers; the calls get them as bytes. */
typedef struct {
    size_t sheets, members;
    uint16_t widths[MOST_SHEETS], rows[MOST_SHEETS], m, list[MOST_MEMBERS];
    uint16_t question;                /* every sheet's first one; the others follow it */
    size_t marks_less, supports_less; /* how many bytes fewer than needed are lent */
} book;

static size_t put(uint8_t *at, size_t i, unsigned x) {
    at[2 * i] = (uint8_t)(x & 255), at[2 * i + 1] = (uint8_t)(x >> 8);
    return i + 1;
}

static unsigned get(const uint8_t *at, size_t i) { return at[2 * i] + 256u * at[2 * i + 1]; }

static uint8_t sheets[WAKHVOSI_SHEET_BYTES * MOST_SHEETS], questions[2 * 9 * MOST_SHEETS], members[2 * MOST_MEMBERS];
static uint8_t codes[4 * 9 * 5000], marks[1024], supports[1 << 20];

static void put_code(size_t i, uint32_t x) { put(codes, put(codes, 2 * i, x & 65535), x >> 16); }

/* Filters the book, all rows living and counted, with marks and supports of the bytes that the header's functions name. */
static uint64_t filter(const book *b) {
    size_t s = 0, q = 0, c = 0;
    for (size_t i = 0; i < b->sheets; i++) {
        s = put(sheets, put(sheets, put(sheets, s, b->widths[i]), b->rows[i]), b->rows[i]);
        for (unsigned k = 0; k < b->widths[i]; k++) q = put(questions, q, b->question + k);
        c += (size_t)b->widths[i] * b->rows[i];
    }
    for (size_t i = 0; i < b->members; i++) put(members, i, b->list[i]);
    size_t marks_bytes = wakhvosi_marks_bytes(sheets, 2 * s);
    size_t supports_bytes = wakhvosi_supports_bytes(sheets, 2 * s, b->m, members, 2 * b->members);
    memset(marks, 255, sizeof marks);
    memset(supports, 0, sizeof supports);
    return wakhvosi_filter(sheets, 2 * s, questions, 2 * q, codes, 4 * c, b->m, members, 2 * b->members, marks,
                           marks_bytes - b->marks_less, supports, supports_bytes - b->supports_less);
}

/* So many sheets of one question and so many rows each, in no combination. */
static book plain(size_t count, uint16_t rows) {
    book b = {.sheets = count, .m = 2};
    for (size_t i = 0; i < count; i++) b.widths[i] = 1, b.rows[i] = rows;
    return b;
}

/* The same with so many combinations of the first m sheets. */
static book combined(size_t count, uint16_t rows, uint16_t m, size_t combinations) {
    book b = plain(count, rows);
    b.m = m, b.members = m * combinations;
    for (size_t i = 0; i < b.members; i++) b.list[i] = (uint16_t)(i % m);
    return b;
}

static bool settled(book b) {
    uint64_t answer = filter(&b);
    return wakhvosi_kind(answer) == WAKHVOSI_SETTLED && wakhvosi_subject(answer) == WAKHVOSI_NO_SHEET && !wakhvosi_refusal(answer);
}

static bool refused(book b, unsigned number) {
    uint64_t answer = filter(&b);
    return wakhvosi_kind(answer) == WAKHVOSI_REFUSED && wakhvosi_refusal(answer) == number;
}

/* Exactly the bytes named are needed: of marks in words, of supports in numbers. */
static void exact(book b, const char *what) {
    book fewer_marks = b, fewer_supports = b;
    fewer_marks.marks_less = 8;
    fewer_supports.supports_less = 2;
    check(settled(b), what);
    check(refused(fewer_marks, 11), what);
    check(b.members == 0 || refused(fewer_supports, 12), what);
}

static void sizes(void) {
    static const uint16_t rows[] = {1, 2, 31, 32, 33, 63, 64, 65, 127, 128, 129, 500};
    for (size_t i = 0; i < sizeof rows / sizeof *rows; i++) {
        exact(plain(1, rows[i]), "marks of one sheet");
        exact(plain(3, rows[i]), "marks of three sheets");
        for (uint16_t m = WAKHVOSI_MIN_MEMBERS; m <= WAKHVOSI_MAX_MEMBERS; m++) exact(combined(5, rows[i], m, 3), "supports");
    }
    book uneven = combined(4, 1, 3, 2);
    uneven.rows[0] = 300, uneven.rows[1] = 0x102, uneven.rows[2] = 7;
    exact(uneven, "sheets of different sizes");
    const size_t four = 4 * WAKHVOSI_SHEET_BYTES;
    check(wakhvosi_sheet_rows(sheets, four, 1) == 0x102 && wakhvosi_sheet_rows(sheets, four, 4) == 0, "rows of a sheet");
    check(wakhvosi_sheet_live(sheets, four, 1) == 0x102 && wakhvosi_sheet_live(sheets, four, 4) == 0, "count of a sheet");
    const uint8_t beyond[] = {0, 1}; /* sheet 256 */
    check(wakhvosi_supports_bytes(sheets, four, 2, beyond, sizeof beyond) == 0, "nothing is needed for a missing sheet");
    check(wakhvosi_marks_bytes(NULL, 0) == 0 && wakhvosi_supports_bytes(NULL, 0, 2, NULL, 0) == 0, "nothing is needed of no book");
}

static void limits(void) {
    book wide = plain(1, 1), wider = wide, last = wide, beyond = wide;
    wide.widths[0] = WAKHVOSI_MAX_WIDTH, wider.widths[0] = WAKHVOSI_MAX_WIDTH + 1;
    last.question = WAKHVOSI_QUESTIONS - 1, beyond.question = WAKHVOSI_QUESTIONS;
    check(settled(plain(WAKHVOSI_MAX_SHEETS, 1)) && refused(plain(WAKHVOSI_MAX_SHEETS + 1, 1), 2), "sheets");
    check(settled(wide) && refused(wider, 3), "width");
    check(settled(plain(1, WAKHVOSI_MAX_ROWS)) && refused(plain(1, WAKHVOSI_MAX_ROWS + 1), 4), "rows");
    check(settled(last) && refused(beyond, 6), "questions");
    uint16_t fewest = WAKHVOSI_MIN_MEMBERS, most = WAKHVOSI_MAX_MEMBERS;
    check(settled(combined(5, 1, fewest, 1)) && refused(combined(5, 1, fewest - 1, 1), 7), "fewest members");
    check(settled(combined(5, 1, most, 1)) && refused(combined(5, 1, most + 1, 1), 7), "most members");
    size_t all = WAKHVOSI_MAX_COMBINATIONS;
    check(settled(combined(2, 1, 2, all)) && refused(combined(2, 1, 2, all + 1), 8), "combinations");
}

static void most_bytes(void) {
    book full = plain(1, WAKHVOSI_MAX_ROWS);
    check(settled(full) && wakhvosi_marks_bytes(sheets, WAKHVOSI_SHEET_BYTES) == WAKHVOSI_MAX_MARKS_BYTES, "most marks");
    /* two sheets of 128 rows in 64 combinations need 2 * 2 * 128 * 64 numbers */
    book most = combined(2, 128, 2, 64), more = most;
    more.rows[0]++;
    check(settled(most) && WAKHVOSI_MAX_SUPPORTS == 2 * 2 * 128 * 64, "most supports");
    check(wakhvosi_supports_bytes(sheets, TWO, 2, members, 2 * most.members) == WAKHVOSI_MAX_SUPPORTS_BYTES, "bytes of these");
    check(refused(more, 12), "more supports");
}

/* A dead row has WAKHVOSI_NO_SUPPORT m times; the counts and the answers of test and compare by their accessors. */
static void answers(void) {
    book b = combined(2, 2, 2, 1);
    put_code(3, 1); /* row 1 of sheet 1 fits no row of sheet 0 */
    uint64_t answer = filter(&b);
    check(wakhvosi_kind(answer) == WAKHVOSI_SETTLED && wakhvosi_left(answer) == 3 && wakhvosi_deleted(answer) == 1, "a row falls");
    check(wakhvosi_sheet_live(sheets, TWO, 0) == 2 && wakhvosi_sheet_live(sheets, TWO, 1) == 1, "a count falls");
    check(get(supports, 6) == WAKHVOSI_NO_SUPPORT && get(supports, 7) == WAKHVOSI_NO_SUPPORT, "no support");
    check(get(supports, 4) == 0 && get(supports, 5) == 0, "a support");
    uint64_t yes = wakhvosi_test(sheets, TWO, questions, 4, codes, 16, 2, members, 4, marks, 8);
    marks[0] |= 8;
    uint64_t no = wakhvosi_test(sheets, TWO, questions, 4, codes, 16, 2, members, 4, marks, 8);
    check(wakhvosi_kind(yes) == WAKHVOSI_YES && wakhvosi_refusal(yes) == 0, "test, yes");
    check(wakhvosi_kind(no) == WAKHVOSI_NO && wakhvosi_refusal(no) == 0, "test, no");
    const uint8_t first[] = {0, 0};
    answer = wakhvosi_withdraw(sheets, TWO, questions, 4, codes, 16, 2, members, 4, marks, 8, supports, 16, first, sizeof first);
    check(wakhvosi_kind(answer) == WAKHVOSI_REFUSED && wakhvosi_refusal(answer) == 18, "a row more than counted");
    put(sheets, 5, 2);
    uint64_t unasked = wakhvosi_compare(sheets, TWO, questions, 4, codes, 16, 0, 4);
    uint64_t agree = wakhvosi_compare(sheets, TWO, questions, 4, codes, 16, 0, 2);
    uint64_t differ = wakhvosi_compare(sheets, TWO, questions, 4, codes, 16, 0, 3);
    check(wakhvosi_kind(agree) == WAKHVOSI_AGREE && wakhvosi_subject(agree) == WAKHVOSI_NO_QUESTION, "compare, agree");
    check(wakhvosi_kind(differ) == WAKHVOSI_DIFFER && wakhvosi_subject(differ) == 0 && wakhvosi_refusal(differ) == 0, "compare, differ");
    check(wakhvosi_kind(unasked) == WAKHVOSI_REFUSED && wakhvosi_refusal(unasked) == 13, "compare, refused");
    answer = wakhvosi_withdraw(sheets, TWO, questions, 4, codes, 16, 2, members, 4, marks, 8, supports, 16, first, sizeof first);
    check(wakhvosi_withdrawn(answer) == 1 && wakhvosi_left(answer) == 2 && wakhvosi_deleted(answer) == 1, "withdrawn");
    answer = wakhvosi_choose(sheets, TWO, questions, 4, codes, 16, 2, members, 4, marks, 8, supports, 16, 0, 5);
    check(wakhvosi_kind(answer) == WAKHVOSI_EMPTIED && wakhvosi_subject(answer) == 0 && wakhvosi_withdrawn(answer) == 2, "emptied");
}

/* Row 1 of sheet 1 fits every row of sheet 0, and every choice. */
static void any_code(void) {
    book b = combined(2, 2, 2, 1);
    put_code(3, WAKHVOSI_ANY);
    check(settled(b) && wakhvosi_left(filter(&b)) == 4, "any fits");
    uint64_t answer = wakhvosi_choose(sheets, TWO, questions, 4, codes, 16, 2, members, 4, marks, 8, supports, 16, 0, WAKHVOSI_ANY);
    check(wakhvosi_left(answer) == 4 && wakhvosi_withdrawn(answer) == 0, "any chosen");
    answer = wakhvosi_choose(sheets, TWO, questions, 4, codes, 16, 2, members, 4, marks, 8, supports, 16, 0, WAKHVOSI_ANY - 1);
    check(wakhvosi_kind(answer) == WAKHVOSI_EMPTIED && wakhvosi_withdrawn(answer) == 3, "a choice that any alone fits");
}

/* 65,535 was any while codes had two bytes. */
static void old_any_code(void) {
    book b = combined(2, 2, 2, 1);
    put_code(3, 65535);
    check(settled(b) && wakhvosi_left(filter(&b)) == 3, "65,535 fits itself alone");
}

/* The four codes of a book, any among them, back to two bytes each and forth again. */
static void moved_codes(void) {
    uint8_t older[9] = {[8] = 7}, again[16];
    combined(2, 2, 2, 1);
    put_code(3, WAKHVOSI_ANY);
    uint64_t back = wakhvosi_narrow(sheets, TWO, questions, 4, codes, 16, older, 8);
    check(wakhvosi_kind(back) == WAKHVOSI_MOVED && wakhvosi_refusal(back) == 0 && older[8] == 7, "codes moved back");
    check(older[6] + 256u * older[7] == WAKHVOSI_OLDER_ANY, "any moved back");
    uint64_t forth = wakhvosi_widen(sheets, TWO, questions, 4, older, 8, again, 16);
    check(wakhvosi_kind(forth) == WAKHVOSI_MOVED && !memcmp(codes, again, 16), "codes moved forth again");
    check(wakhvosi_refusal(wakhvosi_widen(sheets, TWO, questions, 4, older, 8, again, 12)) == 24, "too short a list");
    check(wakhvosi_refusal(wakhvosi_widen(sheets, TWO, questions, 4, older, 8, again, 15)) == 1, "a list cut within a code");
    put_code(3, 65535);
    check(wakhvosi_refusal(wakhvosi_narrow(sheets, TWO, questions, 4, codes, 16, older, 8)) == 23, "a code that has no place");
}

int main(void) {
    sizes();
    limits();
    most_bytes();
    answers();
    any_code();
    old_any_code();
    moved_codes();
    printf("%u passed, %u failed\n", passed, failed);
    return failed != 0;
}
