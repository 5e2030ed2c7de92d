/* Bannelgo's gap-sheet reader from C and C++: C99 or C++11 and later.
 *
 * Link libbannelgo.a, which needs only the C library's memcpy and memset. Every image, text, number and table content has an answer.
 *
 * How to lend: a slice passes as a pointer and its length, in bytes or, for the table and the rows, in words of 64 bits. It is lent
 * until the call returns; nothing is kept. A pointer is never NULL, also where the length is 0 (data() of an empty std::vector may be
 * NULL), and one to words is aligned to 8 bytes. What a call may write to overlaps nothing else that is lent to it.
 *
 * Stack: where the nesting comes near 4,096, bannelgo_plain_reading, bannelgo_read and bannelgo_list need up to 2 MiB. */
#ifndef BANNELGO_H
#define BANNELGO_H

#include <stddef.h>
#include <stdint.h>

/* The version of this header and of the library that is installed with it: in parts, as a string, and as a number for #if. */
#define BANNELGO_VERSION_MAJOR 0
#define BANNELGO_VERSION_MINOR 1
#define BANNELGO_VERSION_PATCH 0
#define BANNELGO_VERSION "0.1.0"
#define BANNELGO_VERSION_NUMBER (BANNELGO_VERSION_MAJOR * 1000000 + BANNELGO_VERSION_MINOR * 1000 + BANNELGO_VERSION_PATCH)

#ifdef __cplusplus
extern "C" {
#endif

/* The number of an answer: 0, or the first question that is answered no. n is the length of the text in bytes, cap the length of
 * the text buffer; s, e and n' are an edit's start, end and new length. */
enum bannelgo_number {
    BANNELGO_NONE = 0,         /* The call is answered, the image accepted. */
    BANNELGO_EDITION = 1,      /* Are there 4 bytes, and edition 1? */
    BANNELGO_COUNTS = 2,       /* Rules 1 to 64, nodes 1 to 1,024, start below rules? */
    BANNELGO_SIZE = 3,         /* Are there exactly 4 + 2 * rules + 4 * nodes bytes? */
    BANNELGO_WORDS = 4,        /* Is every word lawful: zero bits and unused fields 0, the fold bit in kind 2 only, kind 0 to 7,
                                * A <= B <= 255 in kind 2, references in range, children above parents? */
    BANNELGO_OCCURRENCES = 5,  /* Does each node occur exactly once among roots and children? */
    BANNELGO_STAR_BODIES = 6,  /* Does every star's body lack outcome 0? */
    BANNELGO_WELL_FORMED = 7,  /* Is every node in the well-formed set? */
    BANNELGO_LOAN = 8,         /* Is cap at most 65,535, the text at most cap, the table wholly lent?
                                * A plain reading asks only for n <= 65,535. */
    BANNELGO_EDIT_RANGE = 9,   /* Edit: s <= e <= n? */
    BANNELGO_EDIT_ROOM = 10,   /* Edit: n' <= cap? */
    BANNELGO_PAIR = 11,        /* Look-up: rule below rules, position <= n? */
    BANNELGO_RECORDS = 12,     /* Reading, listing: is each record met possible, and no star round of length 0? */
    BANNELGO_STAR_ROUNDS = 13, /* Plain reading: did every star round consume? Under an accepted image every round does. */
    BANNELGO_NESTING = 14,     /* Is the start pair's nesting at most 4,096? */
    BANNELGO_ROWS = 15         /* Listing: do the rows fit? */
};

/* How much of the text a reading matched. */
enum bannelgo_outcome {
    BANNELGO_NOTHING = 0, /* Not matched. */
    BANNELGO_PART = 1,    /* Matched, shorter than the text. */
    BANNELGO_WHOLE = 2    /* Matched, with the text's length. */
};

/* The most bytes that a text buffer may have. */
#define BANNELGO_MAX_CAP 65535

/* A record's word, and the word of an answered plain reading: bit 63 set, matched in bit 62, zero in bits 61 to 46, nesting in bits
 * 45 to 33, examined in bits 32 to 16, length in bits 15 to 0. */
static inline int bannelgo_is_held(uint64_t word) { return (word >> 63 & 1) != 0; }
static inline int bannelgo_is_matched(uint64_t word) { return (word >> 62 & 1) != 0; }
static inline uint64_t bannelgo_nesting(uint64_t word) { return word >> 33 & 0x1FFF; }
static inline uint64_t bannelgo_examined(uint64_t word) { return word >> 16 & 0x1FFFF; }
static inline uint64_t bannelgo_length(uint64_t word) { return word & 0xFFFF; }

/* A row of a listing, a call that made the match: rule in bits 63 to 56, zero in bits 55 to 48, depth, which is the number of rows of
 * the calls around it, in bits 47 to 32, start in bits 31 to 16, length in bits 15 to 0. */
static inline uint64_t bannelgo_row_rule(uint64_t row) { return row >> 56; }
static inline uint64_t bannelgo_row_depth(uint64_t row) { return row >> 32 & 0xFFFF; }
static inline uint64_t bannelgo_row_start(uint64_t row) { return row >> 16 & 0xFFFF; }
static inline uint64_t bannelgo_row_length(uint64_t row) { return row & 0xFFFF; }

/* The number of the first of questions 1 to 7 that the image fails, 0 where it passes all seven. */
uint64_t bannelgo_check_image(const uint8_t *image, size_t image_length);

/* Reads a text without records. The answer is a word as above, or without bit 63 the number of a refusal: 1 to 8, or 14. The
 * reading is whole where it matched with the length of the text. For some grammars the time grows exponentially with the text. */
uint64_t bannelgo_plain_reading(const uint8_t *image, size_t image_length, const uint8_t *text, size_t text_length);

/* For a sheet the caller lends
 *   buffer  the text and the room behind it: cap bytes, at most BANNELGO_MAX_CAP;
 *   table   the records: at least bannelgo_table_words(image, cap) words. Words behind these are not touched.
 * bannelgo_open fills both. Later calls are lent the same image, buffer and table, and as n the length that bannelgo_open or the last
 * answered bannelgo_edit gave. In between nobody else writes to them: a reading over other words can differ from the text's. */

/* rules * (cap + 1). The image has at least 2 bytes. */
static inline size_t bannelgo_table_words(const uint8_t *image, size_t cap) {
    size_t first = image[0], second = image[1];
    return (first % 16 * 16 + second / 16) * (cap + 1);
}

/* What a sheet's call answers. Fields that it does not use are 0; a refusal has its number alone. A listing is a reading too. */
struct bannelgo_answer {
    uint64_t number;      /* 0 where the call is answered, else a number of enum bannelgo_number. */
    uint64_t outcome;     /* Reading: a number of enum bannelgo_outcome. */
    uint64_t length;      /* Open, edit: the text's length in bytes. Reading: the match's length. */
    uint64_t examined;    /* Reading: the examined length in bytes. */
    uint64_t nesting;     /* Reading. */
    uint64_t evaluations; /* Reading: the reached pairs that had no record. */
    uint64_t value;       /* Edit: the number of pairs that stand. Look-up: the word. Listing: the number of rows. */
};

/* Copies the text to the buffer, whose rest becomes 0, and so does the table. Refusals: 1 to 8. */
struct bannelgo_answer bannelgo_open(const uint8_t *image, size_t image_length, const uint8_t *text, size_t text_length,
                                     uint8_t *buffer, size_t cap, uint64_t *table, size_t table_length);

/* Bytes start to end - 1 of the text give way to the replacement. Refusals: 1 to 8, 9, 10; they change nothing. */
struct bannelgo_answer bannelgo_edit(const uint8_t *image, size_t image_length, uint8_t *buffer, size_t cap, size_t n,
                                     uint64_t *table, size_t table_length, size_t start, size_t end,
                                     const uint8_t *replacement, size_t replacement_length);

/* Reads the text by the grammar's start rule; the table gains a record for each pair that is evaluated. Refusals: 1 to 8, which
 * change nothing; 12 and 14, which make the table 0. */
struct bannelgo_answer bannelgo_read(const uint8_t *image, size_t image_length, const uint8_t *buffer, size_t cap, size_t n,
                                     uint64_t *table, size_t table_length);

/* The word in the slot of a rule and a position: 0 where the sheet holds no record of them. Refusals: 1 to 8, 11. */
struct bannelgo_answer bannelgo_look_up(const uint8_t *image, size_t image_length, const uint8_t *buffer, size_t cap, size_t n,
                                        const uint64_t *table, size_t table_length, size_t rule, size_t position);

/* Reads the text as bannelgo_read does, then writes a row for each call that made the match, parents first, left to right; the start
 * rule has the first. No match gives 0 rows. Rows past the last written stay. Refusals: 1 to 8, 12 and 14 as in bannelgo_read; 15
 * where there are more rows than rows_length, which keeps the records of the reading. A refusal leaves all rows. */
struct bannelgo_answer bannelgo_list(const uint8_t *image, size_t image_length, const uint8_t *buffer, size_t cap, size_t n,
                                     uint64_t *table, size_t table_length, uint64_t *rows, size_t rows_length);

#ifdef __cplusplus
}
#endif

#endif
