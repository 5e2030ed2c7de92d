/* Opens, edits, reads, looks up and lists a sheet from C: the paper's cases M1 to M4 and M6 with each number and word that it prints,
 * a plain reading, and refusals. Each answer that differs from the expected one is printed; the exit status is 0 where none does. */
#include "bannelgo.h"

#include <inttypes.h>
#include <stdio.h>
#include <string.h>

/* Rule 0 = rule 1, then rule 1 zero or more times; rule 1 = 0x30 to 0x39. */
static const uint8_t D2[28] = {
    0x10, 0x20, 0x05, 0x00, /* edition 1, 2 rules, 5 nodes, start 0 */
    0x00, 0x00, 0x00, 0x04, /* roots 0 and 4 */
    0x30, 0x00, 0x10, 0x02, /* 0: node 1 then node 2 */
    0x70, 0x00, 0x10, 0x00, /* 1: rule 1 */
    0x50, 0x00, 0x30, 0x00, /* 2: node 3 zero or more times */
    0x70, 0x00, 0x10, 0x00, /* 3: rule 1 */
    0x20, 0x03, 0x00, 0x39, /* 4: 0x30 to 0x39 */
};

/* S = ("(" then S) else empty. A text of k brackets has nesting 3 * k + 3. */
static const uint8_t M10[26] = {
    0x10, 0x10, 0x05, 0x00, 0x00, 0x00, 0x40, 0x00, 0x10, 0x04, 0x30, 0x00, 0x20,
    0x03, 0x20, 0x02, 0x80, 0x28, 0x70, 0x00, 0x00, 0x00, 0x00, 0x00, 0x00, 0x00,
};

/* A sheet with room for CAP bytes by an image of RULES rules. */
enum { CAP = 8, RULES = 2, TABLE = RULES * (CAP + 1) };

struct sheet {
    uint8_t buffer[CAP];
    uint64_t table[TABLE];
    size_t n;
};

static int differences = 0;

static void expect(const char *what, uint64_t got, uint64_t expected) {
    if (got != expected) {
        printf("%s: 0x%" PRIX64 ", expected 0x%" PRIX64 "\n", what, got, expected);
        differences++;
    }
}

static void expect_answer(const char *what, struct bannelgo_answer got, struct bannelgo_answer expected) {
    printf("%s\n", what);
    expect("  number", got.number, expected.number);
    expect("  outcome", got.outcome, expected.outcome);
    expect("  length", got.length, expected.length);
    expect("  examined", got.examined, expected.examined);
    expect("  nesting", got.nesting, expected.nesting);
    expect("  evaluations", got.evaluations, expected.evaluations);
    expect("  value", got.value, expected.value);
}

static struct bannelgo_answer refused(uint64_t number) {
    return (struct bannelgo_answer){.number = number};
}

static const uint8_t *bytes(const char *text) {
    return (const uint8_t *)text;
}

/* The calls over a sheet's own buffers. */

static struct bannelgo_answer open_sheet(struct sheet *sheet, const char *text) {
    struct bannelgo_answer answer =
        bannelgo_open(D2, sizeof D2, bytes(text), strlen(text), sheet->buffer, CAP, sheet->table, TABLE);
    if (answer.number == BANNELGO_NONE) {
        sheet->n = answer.length;
    }
    return answer;
}

static struct bannelgo_answer edit(struct sheet *sheet, size_t start, size_t end, const char *replacement) {
    struct bannelgo_answer answer = bannelgo_edit(D2, sizeof D2, sheet->buffer, CAP, sheet->n, sheet->table, TABLE, start, end,
                                                  bytes(replacement), strlen(replacement));
    if (answer.number == BANNELGO_NONE) {
        sheet->n = answer.length;
    }
    return answer;
}

static struct bannelgo_answer read_sheet(struct sheet *sheet) {
    return bannelgo_read(D2, sizeof D2, sheet->buffer, CAP, sheet->n, sheet->table, TABLE);
}

static struct bannelgo_answer look_up(const struct sheet *sheet, size_t rule, size_t position) {
    return bannelgo_look_up(D2, sizeof D2, sheet->buffer, CAP, sheet->n, sheet->table, TABLE, rule, position);
}

static struct bannelgo_answer list(struct sheet *sheet, uint64_t *rows, size_t slots) {
    return bannelgo_list(D2, sizeof D2, sheet->buffer, CAP, sheet->n, sheet->table, TABLE, rows, slots);
}

/* What the calls are expected to answer. */

static void expect_length_and_value(const char *what, struct bannelgo_answer got, uint64_t length, uint64_t value) {
    expect_answer(what, got, (struct bannelgo_answer){.length = length, .value = value});
}

static void expect_reading(const char *what, struct bannelgo_answer got, uint64_t outcome, uint64_t length, uint64_t examined,
                           uint64_t evaluations) {
    struct bannelgo_answer expected = {
        .outcome = outcome, .length = length, .examined = examined, .nesting = 4, .evaluations = evaluations};
    expect_answer(what, got, expected);
}

static void expect_text(const struct sheet *sheet, const char *text) {
    uint8_t expected[CAP] = {0};
    memcpy(expected, text, strlen(text));
    expect("  the text's length", sheet->n, strlen(text));
    expect("  the buffer differs", memcmp(sheet->buffer, expected, CAP) != 0, 0);
}

/* The marked cases. */

static void open_and_read(struct sheet *sheet) {
    memset(sheet, 0xFF, sizeof *sheet);
    expect_length_and_value("open \"12a\"", open_sheet(sheet, "12a"), 3, 0);
    expect_text(sheet, "12a");
    expect_reading("M1: reading", read_sheet(sheet), BANNELGO_PART, 2, 3, 4);
}

static void marked_1(struct sheet *sheet) {
    open_and_read(sheet);
    expect_length_and_value("M1: word of (0,0)", look_up(sheet, 0, 0), 0, UINT64_C(0xC000000800030002));
    expect_length_and_value("M1: word of (1,2)", look_up(sheet, 1, 2), 0, UINT64_C(0x8000000200010000));
    expect_length_and_value("no record of (0,1)", look_up(sheet, 0, 1), 0, 0);
}

static void marked_2_and_3(struct sheet *sheet) {
    open_and_read(sheet);
    expect_length_and_value("M2: edit (2, 3, empty)", edit(sheet, 2, 3, ""), 2, 2);
    expect_text(sheet, "12");
    expect_reading("M2: reading", read_sheet(sheet), BANNELGO_WHOLE, 2, 3, 2);
    expect_length_and_value("M3: edit (0, 0, \"7\")", edit(sheet, 0, 0, "7"), 3, 4);
    expect_text(sheet, "712");
    expect_reading("M3: reading", read_sheet(sheet), BANNELGO_WHOLE, 3, 4, 2);
}

static void marked_4(struct sheet *sheet) {
    open_and_read(sheet);
    expect_length_and_value("M4: edit (2, 2, empty)", edit(sheet, 2, 2, ""), 3, 3);
    expect_text(sheet, "12a");
    expect_reading("M4: reading", read_sheet(sheet), BANNELGO_PART, 2, 3, 1);
}

/* The rows of "12": rule, depth, start, length. */
static const uint64_t ROWS[3][4] = {{0, 0, 0, 2}, {1, 1, 0, 1}, {1, 1, 1, 1}};

static void expect_row(uint64_t row, const uint64_t expected[4]) {
    int depth = (int)bannelgo_row_depth(row);
    printf("%*srule %" PRIu64 ", start %" PRIu64 ", length %" PRIu64 "\n", 2 + 2 * depth, "", bannelgo_row_rule(row),
           bannelgo_row_start(row), bannelgo_row_length(row));
    expect("  rule", bannelgo_row_rule(row), expected[0]);
    expect("  depth", bannelgo_row_depth(row), expected[1]);
    expect("  start", bannelgo_row_start(row), expected[2]);
    expect("  length", bannelgo_row_length(row), expected[3]);
}

static void marked_6(struct sheet *sheet) {
    uint64_t rows[4];
    memset(rows, 0xFF, sizeof rows);
    expect_length_and_value("open \"12\"", open_sheet(sheet, "12"), 2, 0);
    expect_answer("M6: 2 slots", list(sheet, rows, 2), refused(BANNELGO_ROWS));
    expect("  the first row", rows[0], UINT64_MAX);
    struct bannelgo_answer expected = {.outcome = BANNELGO_WHOLE, .length = 2, .examined = 3, .nesting = 4, .value = 3};
    expect_answer("M6: 4 slots", list(sheet, rows, 4), expected);
    for (size_t row = 0; row < 3; row++) {
        expect_row(rows[row], ROWS[row]);
    }
    expect("  the row past the last", rows[3], UINT64_MAX);
    expect_text(sheet, "12");
}

/* Refusals. All but 12 change nothing. */

static void refusals(struct sheet *sheet) {
    open_and_read(sheet);
    struct sheet before = *sheet;
    expect_answer("8: open 9 bytes in a buffer of 8", open_sheet(sheet, "123456789"), refused(BANNELGO_LOAN));
    expect_answer("8: a word of the table is missing",
                  bannelgo_read(D2, sizeof D2, sheet->buffer, CAP, sheet->n, sheet->table, TABLE - 1), refused(BANNELGO_LOAN));
    expect_answer("9: edit (1, 0, empty)", edit(sheet, 1, 0, ""), refused(BANNELGO_EDIT_RANGE));
    expect_answer("9: edit (0, 4, empty)", edit(sheet, 0, 4, ""), refused(BANNELGO_EDIT_RANGE));
    expect_answer("10: edit (3, 3, 6 bytes)", edit(sheet, 3, 3, "456789"), refused(BANNELGO_EDIT_ROOM));
    expect_answer("10: edit (3, 3, a length that no memory has)",
                  bannelgo_edit(D2, sizeof D2, sheet->buffer, CAP, sheet->n, sheet->table, TABLE, 3, 3, bytes("4"), SIZE_MAX),
                  refused(BANNELGO_EDIT_ROOM));
    expect_answer("11: rule 2 of 2 rules", look_up(sheet, 2, 0), refused(BANNELGO_PAIR));
    expect_answer("11: position 4 of 3 bytes", look_up(sheet, 0, 4), refused(BANNELGO_PAIR));
    expect_answer("3: an image without its last byte",
                  bannelgo_read(D2, sizeof D2 - 1, sheet->buffer, CAP, sheet->n, sheet->table, TABLE), refused(BANNELGO_SIZE));
    uint64_t row = UINT64_MAX;
    expect_answer("8: a listing with a word of the table missing",
                  bannelgo_list(D2, sizeof D2, sheet->buffer, CAP, sheet->n, sheet->table, TABLE - 1, &row, 1), refused(BANNELGO_LOAN));
    expect("  the row", row, UINT64_MAX);
    expect("  the sheet differs", memcmp(&before, sheet, sizeof before) != 0, 0);
}

static void refused_record(struct sheet *sheet) {
    const uint64_t zeros[TABLE] = {0};
    open_and_read(sheet);
    sheet->table[0] = UINT64_C(1) << 63;
    expect_answer("12: a held word of nesting 0", read_sheet(sheet), refused(BANNELGO_RECORDS));
    expect("  the table differs", memcmp(sheet->table, zeros, sizeof zeros) != 0, 0);
    expect_text(sheet, "12a");
}

/* The image check and the plain reading. */

static void images(void) {
    /* A shortest image that gets each number but 1. */
    const uint8_t counts[4] = {0x10, 0, 0, 0};
    const uint8_t size[4] = {0x10, 0x10, 1, 0};
    const uint8_t word[10] = {0x10, 0x10, 1, 0, 0, 0, 0, 0, 0, 1};
    const uint8_t twice[12] = {0x10, 0x20, 1};
    const uint8_t star[14] = {0x10, 0x10, 2, 0, 0, 0, 0x50, 0, 0x10};
    const uint8_t ring[10] = {0x10, 0x10, 1, 0, 0, 0, 0x70};
    printf("images\n");
    expect("  D2", bannelgo_check_image(D2, sizeof D2), BANNELGO_NONE);
    expect("  no byte", bannelgo_check_image(D2, 0), BANNELGO_EDITION);
    expect("  no rule", bannelgo_check_image(counts, sizeof counts), BANNELGO_COUNTS);
    expect("  a header alone", bannelgo_check_image(size, sizeof size), BANNELGO_SIZE);
    expect("  a field that is not used", bannelgo_check_image(word, sizeof word), BANNELGO_WORDS);
    expect("  a root of two rules", bannelgo_check_image(twice, sizeof twice), BANNELGO_OCCURRENCES);
    expect("  a star over empty", bannelgo_check_image(star, sizeof star), BANNELGO_STAR_BODIES);
    expect("  S = S", bannelgo_check_image(ring, sizeof ring), BANNELGO_WELL_FORMED);
    expect("  never given", BANNELGO_STAR_ROUNDS, 13);
}

/* The largest loan by an image of one rule. */
static void limits(void) {
    static uint8_t buffer[BANNELGO_MAX_CAP + 1];
    static uint64_t table[BANNELGO_MAX_CAP + 2];
    printf("limits\n");
    expect("  words of a table", bannelgo_table_words(D2, CAP), TABLE);
    for (size_t more = 0; more < 2; more++) {
        struct bannelgo_answer answer = bannelgo_open(M10, sizeof M10, bytes(""), 0, buffer, BANNELGO_MAX_CAP + more, table,
                                                      bannelgo_table_words(M10, BANNELGO_MAX_CAP + more));
        expect("  the largest buffer, and one byte more", answer.number, more == 0 ? BANNELGO_NONE : BANNELGO_LOAN);
    }
}

/* The fields of words, each at its largest. */
static void words(void) {
    const uint64_t failed = UINT64_C(0x8000200100000000), matched = UINT64_C(0xC00000000000FFFF);
    printf("words\n");
    expect("  held", (uint64_t)bannelgo_is_held(failed), 1);
    expect("  not held", (uint64_t)bannelgo_is_held(~failed), 0);
    expect("  matched", (uint64_t)bannelgo_is_matched(matched), 1);
    expect("  not matched", (uint64_t)bannelgo_is_matched(failed), 0);
    expect("  nesting", bannelgo_nesting(failed), 4096);
    expect("  examined", bannelgo_examined(failed), 65536);
    expect("  length", bannelgo_length(matched), 65535);
    expect("  no nesting", bannelgo_nesting(matched), 0);
    expect("  no examined", bannelgo_examined(matched), 0);
    expect("  no length", bannelgo_length(failed), 0);
}

/* The fields of a row, each with its highest and its lowest bits. */
static void row_fields(void) {
    const uint64_t row = UINT64_C(0xF900F003F005F007);
    printf("fields of a row\n");
    expect("  rule", bannelgo_row_rule(row), 0xF9);
    expect("  depth", bannelgo_row_depth(row), 0xF003);
    expect("  start", bannelgo_row_start(row), 0xF005);
    expect("  length", bannelgo_row_length(row), 0xF007);
}

static void plain_readings(void) {
    static uint8_t brackets[1365];
    memset(brackets, '(', sizeof brackets);
    printf("plain readings\n");
    uint64_t word = bannelgo_plain_reading(D2, sizeof D2, bytes("12a"), 3);
    expect("  \"12a\"", word, UINT64_C(0xC000000800030002));
    expect("  held", (uint64_t)bannelgo_is_held(word), 1);
    expect("  matched", (uint64_t)bannelgo_is_matched(word), 1);
    expect("  nesting", bannelgo_nesting(word), 4);
    expect("  examined", bannelgo_examined(word), 3);
    expect("  length", bannelgo_length(word), 2);
    expect("  a bad image", bannelgo_plain_reading(D2, 3, bytes("12a"), 3), BANNELGO_EDITION);
    word = bannelgo_plain_reading(M10, sizeof M10, brackets, 1364);
    expect("  nesting of 1,364 brackets", bannelgo_nesting(word), 4095);
    expect("  1,365 brackets", bannelgo_plain_reading(M10, sizeof M10, brackets, 1365), BANNELGO_NESTING);
}

int main(void) {
    struct sheet sheet;
    marked_1(&sheet);
    marked_2_and_3(&sheet);
    marked_4(&sheet);
    marked_6(&sheet);
    refusals(&sheet);
    refused_record(&sheet);
    images();
    limits();
    words();
    row_fields();
    plain_readings();
    printf("%d differences\n", differences);
    return differences == 0 ? 0 : 1;
}
