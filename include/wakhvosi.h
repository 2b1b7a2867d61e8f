/* Wakhvosi: the row filter of the compatibility book, for programs in C.
 *
 * Link with libwakhvosi, the archive or the shared library. Of other libraries it calls memcpy and memset alone (docs/C-API.md).
 *
 * Lists. Each list is a pointer to bytes and then its length in bytes. Numbers stand in them little-endian, end to end:
 *
 *   sheets        6 bytes for each sheet: its width (how many questions it asks), its number of rows, then its count, which is how
 *                 many of its rows are living, 2 bytes each
 *   questions     2 bytes for each question: the columns of sheet 0 in their order, then those of sheet 1, and so on
 *   codes         4 bytes for each code: the rows of sheet 0 one after the other, then those of sheet 1, and so on
 *   combinations  2 bytes for each sheet number: m rising numbers for each combination
 *   marks         8 bytes for each word of 64 marks: row number g of the book is bit g mod 64 (bit 0 lowest) of word g / 64,
 *                 and 1 means living
 *   supports      2 bytes for each number: by combination, member, that member's row, then m own numbers
 *   rows          2 bytes for each book number of a row (withdraw)
 *   chosen_questions, chosen_codes
 *                 2 bytes for each question and 4 for each code, paired by place (choose several)
 *
 * A row's book number is its number in its sheet, counted from 0, and the rows of all earlier sheets added.
 * Two codes fit if they are equal or one of them is 4,294,967,295, which means any; two rows agree if their codes fit under every
 * question that both sheets ask. A support's rows all agree, every two of them.
 * A list may be empty; its pointer is then not read and may be NULL. The lists lent to one call do not overlap, and nothing else
 * writes them while the call runs. A list may have any length: one that is too long is refused like any other fault.
 *
 * What a call writes. An accepted change call (filter, withdraw, choose, choose several) leaves in the marks the rows that are left, in the sheets
 * the count of each sheet's rows left, and in the supports each living row's first support, 65,535 m times for a dead row. Marks of
 * row numbers that the book does not have, supports beyond the needed ones, widths and numbers of rows keep their contents. A refused
 * call changes no byte. The listing of combinations writes what it lists to the front of the combinations lent, and keeps the bytes
 * behind. Test and compare write nothing.
 *
 * Counts. A change call is refused where a sheet's count is not that of its marks, so the marks and the sheets that one call leaves go
 * to the next one together. Where all rows are living a sheet's count is its number of rows. Test and compare do not look at counts.
 *
 * Refusal numbers, in checking order:
 *
 *    1  a list is not a whole number of entries
 *    2  the sheets are not 1 to 64
 *    3  a width is not 1 to 8
 *    4  the rows of all sheets exceed 4,096
 *    5  the questions or the codes are not exactly as many as the sheets call for
 *    6  a question is above 63 or stands twice in a sheet
 *    7  m is not 2, 3 or 4
 *    8  the combinations are not a multiple of m long, or more than 256
 *    9  a combination names a missing sheet or does not rise strictly
 *   10  a combination is not connected
 *   11  the marks are too few
 *   12  the supports need over 32,768 numbers, or are shorter than needed
 *   18  a sheet's count differs from its marks
 *   13  a book number is not below the number of rows
 *   19  the questions and the codes chosen are not as many
 *   14  a question chosen is above 63
 *   15  over 256 connected combinations exist
 *   16  the list lent is too short for them
 *   23  a code that is to move back is from 65,535 to 4,294,967,294
 *   24  the list that codes are to move to is too short
 *
 * Filter uses 1 to 12 and 18; withdraw adds 13, choose 14, choose several 19 and 14; test uses 1 to 11; compare 1 to 6 and 13;
 * combinations 1 to 7, 15 and 16; widen 1 to 6 and 24; narrow 1 to 6, 23 and 24.
 */
#ifndef WAKHVOSI_H
#define WAKHVOSI_H

#include <stddef.h>
#include <stdint.h>

#ifdef __cplusplus
extern "C" {
#endif

/* The version of the library that this header is of. */
#define WAKHVOSI_VERSION "0.1.0"

/* ---- Limits of a book */

enum {
    WAKHVOSI_MAX_SHEETS = 64, /* at least 1 */
    WAKHVOSI_MAX_WIDTH = 8,   /* questions of a sheet, at least 1 */
    WAKHVOSI_MAX_ROWS = 4096, /* rows of all sheets together */
    WAKHVOSI_QUESTIONS = 64,  /* every question is below this number */
    WAKHVOSI_MIN_MEMBERS = 2, /* m, the sheets of one combination */
    WAKHVOSI_MAX_MEMBERS = 4,
    WAKHVOSI_MAX_COMBINATIONS = 256,
    WAKHVOSI_MAX_SUPPORTS = 32768, /* numbers that the supports may need */
    WAKHVOSI_NO_SUPPORT = 65535,   /* stands m times in the supports where a row is dead */
    WAKHVOSI_NO_SHEET = 64,        /* the subject of a settled answer */
    WAKHVOSI_NO_QUESTION = 64      /* .. and of compare's where the rows agree */
};

/* The code for any; and what it was while a code had two bytes. */
#define WAKHVOSI_ANY 4294967295u
enum { WAKHVOSI_OLDER_ANY = 65535 };

/* ---- The sheets' numbers of rows and counts, and how many bytes of marks and supports a book needs */

/* A sheet's bytes. */
enum { WAKHVOSI_SHEET_BYTES = 6 };

/* No accepted book needs more than these. */
enum { WAKHVOSI_MAX_MARKS_BYTES = WAKHVOSI_MAX_ROWS / 8, WAKHVOSI_MAX_SUPPORTS_BYTES = 2 * WAKHVOSI_MAX_SUPPORTS };

/* The number at this byte of a sheet; 0 of a sheet that the list does not have. */
static inline size_t wakhvosi_sheet_number(const uint8_t *sheets, size_t sheets_bytes, size_t sheet, size_t byte) {
    const size_t at = WAKHVOSI_SHEET_BYTES * sheet + byte;
    return sheet < sheets_bytes / WAKHVOSI_SHEET_BYTES ? sheets[at] + 256u * sheets[at + 1] : 0;
}

/* A sheet's number of rows. */
static inline size_t wakhvosi_sheet_rows(const uint8_t *sheets, size_t sheets_bytes, size_t sheet) {
    return wakhvosi_sheet_number(sheets, sheets_bytes, sheet, 2);
}

/* Its count, how many of them are living. */
static inline size_t wakhvosi_sheet_live(const uint8_t *sheets, size_t sheets_bytes, size_t sheet) {
    return wakhvosi_sheet_number(sheets, sheets_bytes, sheet, 4);
}

/* Of marks: 8 for every 64 rows of the book, the last of them rounded up. */
static inline size_t wakhvosi_marks_bytes(const uint8_t *sheets, size_t sheets_bytes) {
    size_t rows = 0;
    for (size_t sheet = 0; sheet < sheets_bytes / WAKHVOSI_SHEET_BYTES; sheet++)
        rows += wakhvosi_sheet_rows(sheets, sheets_bytes, sheet);
    return (rows + 63) / 64 * 8;
}

/* Of supports: 2 * m for every row of every sheet that the combinations list, each time that it is listed. */
static inline size_t wakhvosi_supports_bytes(const uint8_t *sheets, size_t sheets_bytes,
                                             uint16_t m,
                                             const uint8_t *combinations, size_t combinations_bytes) {
    size_t rows = 0;
    for (size_t i = 0; i < combinations_bytes / 2; i++)
        rows += wakhvosi_sheet_rows(sheets, sheets_bytes, combinations[2 * i] + 256u * combinations[2 * i + 1]);
    return 2 * (size_t)m * rows;
}

/* ---- Answers */

/* The kind of an answer. */
enum {
    WAKHVOSI_SETTLED = 0, /* every sheet has a row left */
    WAKHVOSI_EMPTIED = 1, /* a sheet has none: no complete order exists */
    WAKHVOSI_NO = 0,      /* test: the marks are not settled */
    WAKHVOSI_YES = 1,     /* .. they are */
    WAKHVOSI_DIFFER = 0,  /* compare: under some question that both sheets ask, the rows' codes do not fit */
    WAKHVOSI_AGREE = 1,   /* .. under none */
    WAKHVOSI_LISTED = 0,  /* combinations: they were listed */
    WAKHVOSI_MOVED = 0,   /* widen and narrow: the codes were moved */
    WAKHVOSI_REFUSED = 2  /* of every call: the request has a fault; nothing was written */
};

/* Of every call. Bits 0 to 7: the kind. */
static inline unsigned wakhvosi_kind(uint64_t answer) { return (unsigned)(answer & 255); }

/* Bits 8 to 15. Of a change call: 64 if settled, the lowest sheet with no row left if emptied. Of compare: 64 if the rows agree, the
 * lowest question on which they differ if not. Of every call: the refusal number if refused. */
static inline unsigned wakhvosi_subject(uint64_t answer) { return (unsigned)(answer >> 8 & 255); }

/* Of every call: the refusal number, or 0 if it was accepted. */
static inline unsigned wakhvosi_refusal(uint64_t answer) {
    return wakhvosi_kind(answer) == WAKHVOSI_REFUSED ? wakhvosi_subject(answer) : 0;
}

/* Of a change call. Bits 16 to 31: the rows left. 32 to 47: the living rows that the call withdrew. 48 to 63: those that the filter
 * deleted. All three are 0 if refused. */
static inline unsigned wakhvosi_left(uint64_t answer) { return (unsigned)(answer >> 16 & 65535); }
static inline unsigned wakhvosi_withdrawn(uint64_t answer) { return (unsigned)(answer >> 32 & 65535); }
static inline unsigned wakhvosi_deleted(uint64_t answer) { return (unsigned)(answer >> 48); }

/* Of combinations. Bits 16 to 31: how many are listed; 0 if refused. Every bit above them is 0, and the subject if they were listed. */
static inline unsigned wakhvosi_listed(uint64_t answer) { return (unsigned)(answer >> 16 & 65535); }

/* ---- Change calls */

/* Filter: leaves the largest set of the living rows in which each row has a support in every combination with its sheet. */
uint64_t wakhvosi_filter(uint8_t *sheets, size_t sheets_bytes,
                         const uint8_t *questions, size_t questions_bytes,
                         const uint8_t *codes, size_t codes_bytes,
                         uint16_t m,
                         const uint8_t *combinations, size_t combinations_bytes,
                         uint8_t *marks, size_t marks_bytes,
                         uint8_t *supports, size_t supports_bytes);

/* Withdraw: the rows whose book numbers are listed lose their marks, then filter. Repeats and dead rows are allowed. */
uint64_t wakhvosi_withdraw(uint8_t *sheets, size_t sheets_bytes,
                           const uint8_t *questions, size_t questions_bytes,
                           const uint8_t *codes, size_t codes_bytes,
                           uint16_t m,
                           const uint8_t *combinations, size_t combinations_bytes,
                           uint8_t *marks, size_t marks_bytes,
                           uint8_t *supports, size_t supports_bytes,
                           const uint8_t *rows, size_t rows_bytes);

/* Choose: living rows of sheets asking the question, whose code there does not fit the one chosen, lose their marks, then filter.
 * Choosing any strikes nothing, and no choice strikes a row with any there. */
uint64_t wakhvosi_choose(uint8_t *sheets, size_t sheets_bytes,
                         const uint8_t *questions, size_t questions_bytes,
                         const uint8_t *codes, size_t codes_bytes,
                         uint16_t m,
                         const uint8_t *combinations, size_t combinations_bytes,
                         uint8_t *marks, size_t marks_bytes,
                         uint8_t *supports, size_t supports_bytes,
                         uint16_t question, uint32_t code);

/* Choose several: living rows lose their marks that a choice of one of the pairs would strike, then filter, once. It leaves the marks,
 * supports and counts of choosing the pairs one by one, in any order. Repeats are allowed. Of two different codes for one question,
 * neither of them any, no row of a sheet asking it is left but with any there. Where both lists are empty it only filters. */
uint64_t wakhvosi_choose_several(uint8_t *sheets, size_t sheets_bytes,
                                 const uint8_t *questions, size_t questions_bytes,
                                 const uint8_t *codes, size_t codes_bytes,
                                 uint16_t m,
                                 const uint8_t *combinations, size_t combinations_bytes,
                                 uint8_t *marks, size_t marks_bytes,
                                 uint8_t *supports, size_t supports_bytes,
                                 const uint8_t *chosen_questions, size_t chosen_questions_bytes,
                                 const uint8_t *chosen_codes, size_t chosen_codes_bytes);

/* ---- Test and compare: the answer has a kind and a subject, which is 0 where test is not refused; its other bits are 0 */

/* Test: are the marks settled. */
uint64_t wakhvosi_test(const uint8_t *sheets, size_t sheets_bytes,
                       const uint8_t *questions, size_t questions_bytes,
                       const uint8_t *codes, size_t codes_bytes,
                       uint16_t m,
                       const uint8_t *combinations, size_t combinations_bytes,
                       const uint8_t *marks, size_t marks_bytes);

/* Compare: the lowest question that both sheets ask and on which the rows with book numbers a and b differ; or they agree. */
uint64_t wakhvosi_compare(const uint8_t *sheets, size_t sheets_bytes,
                          const uint8_t *questions, size_t questions_bytes,
                          const uint8_t *codes, size_t codes_bytes,
                          uint16_t a, uint16_t b);

/* ---- Combinations */

/* No accepted book and m have more bytes of combinations than these. */
enum { WAKHVOSI_MAX_COMBINATIONS_BYTES = 2 * WAKHVOSI_MAX_MEMBERS * WAKHVOSI_MAX_COMBINATIONS };

/* Combinations: lists every connected combination of m sheets, each once, in order by first sheet, then by second, and so on. Sheets
 * with a question in common are neighbours, and sheets are connected if one comes from any of them to any other by neighbours among
 * them. Where the book has fewer sheets than m there is none, and none is listed. */
uint64_t wakhvosi_combinations(const uint8_t *sheets, size_t sheets_bytes,
                               const uint8_t *questions, size_t questions_bytes,
                               const uint8_t *codes, size_t codes_bytes,
                               uint16_t m,
                               uint8_t *combinations, size_t combinations_bytes);

/* ---- Moves between books of 2-byte codes, from before codes had four, and books of now. Questions and sheets stay as they are.
 *
 * A move writes each code to the target, from its first byte on, and leaves its bytes past them. The answer has a kind, moved or
 * refused, and a subject, which is 0 where it was moved; its other bits are 0. A refused move changes no byte. */

/* Widen: codes of 2 bytes to codes of 4. 65,535 becomes any, and every other code keeps its value. */
uint64_t wakhvosi_widen(const uint8_t *sheets, size_t sheets_bytes,
                        const uint8_t *questions, size_t questions_bytes,
                        const uint8_t *codes, size_t codes_bytes,
                        uint8_t *target, size_t target_bytes);

/* Narrow: codes of 4 bytes to codes of 2. Any becomes 65,535; a code from 65,535 to 4,294,967,294 is refused. */
uint64_t wakhvosi_narrow(const uint8_t *sheets, size_t sheets_bytes,
                         const uint8_t *questions, size_t questions_bytes,
                         const uint8_t *codes, size_t codes_bytes,
                         uint8_t *target, size_t target_bytes);

/* ---- The same calls on typed arrays
 *
 * For a program that has its book in arrays of numbers. Each call is the one above whose name it begins with: the same answer, the
 * same refusals in the same order, the same writes, the same rules for empty lists, overlap and other writers. What differs:
 *
 *   - each list is a pointer and then its number of entries: of records for the sheets, of numbers for every other list, so that
 *     the combinations have m entries each;
 *   - there is no refusal number 1, since every list is a whole number of entries;
 *   - numbers stand in the machine's own byte order, and a list is aligned as its type asks.
 *
 * The moves have none: where the machine is little-endian, arrays of records, of uint16_t and of uint32_t are lists of bytes as they lie.
 */

/* A sheet record. */
typedef struct {
    uint16_t width; /* how many questions the sheet asks */
    uint16_t rows;  /* its number of rows */
    uint16_t live;  /* its count: how many of its rows are living */
} wakhvosi_sheet;

uint64_t wakhvosi_filter_records(wakhvosi_sheet *sheets, size_t sheets_entries,
                                 const uint16_t *questions, size_t questions_entries,
                                 const uint32_t *codes, size_t codes_entries,
                                 uint16_t m,
                                 const uint16_t *combinations, size_t combinations_entries,
                                 uint64_t *marks, size_t marks_entries,
                                 uint16_t *supports, size_t supports_entries);

uint64_t wakhvosi_withdraw_records(wakhvosi_sheet *sheets, size_t sheets_entries,
                                   const uint16_t *questions, size_t questions_entries,
                                   const uint32_t *codes, size_t codes_entries,
                                   uint16_t m,
                                   const uint16_t *combinations, size_t combinations_entries,
                                   uint64_t *marks, size_t marks_entries,
                                   uint16_t *supports, size_t supports_entries,
                                   const uint16_t *rows, size_t rows_entries);

uint64_t wakhvosi_choose_records(wakhvosi_sheet *sheets, size_t sheets_entries,
                                 const uint16_t *questions, size_t questions_entries,
                                 const uint32_t *codes, size_t codes_entries,
                                 uint16_t m,
                                 const uint16_t *combinations, size_t combinations_entries,
                                 uint64_t *marks, size_t marks_entries,
                                 uint16_t *supports, size_t supports_entries,
                                 uint16_t question, uint32_t code);

uint64_t wakhvosi_choose_several_records(wakhvosi_sheet *sheets, size_t sheets_entries,
                                         const uint16_t *questions, size_t questions_entries,
                                         const uint32_t *codes, size_t codes_entries,
                                         uint16_t m,
                                         const uint16_t *combinations, size_t combinations_entries,
                                         uint64_t *marks, size_t marks_entries,
                                         uint16_t *supports, size_t supports_entries,
                                         const uint16_t *chosen_questions, size_t chosen_questions_entries,
                                         const uint32_t *chosen_codes, size_t chosen_codes_entries);

uint64_t wakhvosi_test_records(const wakhvosi_sheet *sheets, size_t sheets_entries,
                               const uint16_t *questions, size_t questions_entries,
                               const uint32_t *codes, size_t codes_entries,
                               uint16_t m,
                               const uint16_t *combinations, size_t combinations_entries,
                               const uint64_t *marks, size_t marks_entries);

uint64_t wakhvosi_compare_records(const wakhvosi_sheet *sheets, size_t sheets_entries,
                                  const uint16_t *questions, size_t questions_entries,
                                  const uint32_t *codes, size_t codes_entries,
                                  uint16_t a, uint16_t b);

uint64_t wakhvosi_combinations_records(const wakhvosi_sheet *sheets, size_t sheets_entries,
                                       const uint16_t *questions, size_t questions_entries,
                                       const uint32_t *codes, size_t codes_entries,
                                       uint16_t m,
                                       uint16_t *combinations, size_t combinations_entries);

#ifdef __cplusplus
}
#endif

#endif
