/* The test puts this in front of an example, in C or in C++: the answers of the function that the environment names in WRONG_CALL
 * become wrong. The field with the number WRONG_FIELD, from 0 on, is one too high, or the whole answer where it is a word. */
#include "bannelgo.h"

#include <stdlib.h>
#include <string.h>

static inline int is_wrong(const char *call) {
    return strcmp(call, getenv("WRONG_CALL")) == 0;
}

static inline uint64_t word_of(const char *call, uint64_t word) {
    return is_wrong(call) ? word + 1 : word;
}

static inline struct bannelgo_answer answer_of(const char *call, struct bannelgo_answer answer) {
    uint64_t *const fields[] = {&answer.number,  &answer.outcome,     &answer.length, &answer.examined,
                                &answer.nesting, &answer.evaluations, &answer.value};
    if (is_wrong(call)) {
        (*fields[atoi(getenv("WRONG_FIELD"))])++;
    }
    return answer;
}

#define bannelgo_check_image(...) word_of("check_image", bannelgo_check_image(__VA_ARGS__))
#define bannelgo_plain_reading(...) word_of("plain_reading", bannelgo_plain_reading(__VA_ARGS__))
#define bannelgo_open(...) answer_of("open", bannelgo_open(__VA_ARGS__))
#define bannelgo_edit(...) answer_of("edit", bannelgo_edit(__VA_ARGS__))
#define bannelgo_read(...) answer_of("read", bannelgo_read(__VA_ARGS__))
#define bannelgo_look_up(...) answer_of("look_up", bannelgo_look_up(__VA_ARGS__))
#define bannelgo_list(...) answer_of("list", bannelgo_list(__VA_ARGS__))
#define bannelgo_row_rule(...) word_of("row_rule", bannelgo_row_rule(__VA_ARGS__))
#define bannelgo_row_depth(...) word_of("row_depth", bannelgo_row_depth(__VA_ARGS__))
#define bannelgo_row_start(...) word_of("row_start", bannelgo_row_start(__VA_ARGS__))
#define bannelgo_row_length(...) word_of("row_length", bannelgo_row_length(__VA_ARGS__))
