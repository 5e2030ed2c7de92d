/* Reads a text by the parser that peg makes of lines.peg, which is included as lines.peg.c.
 *   read_peg times FILE BATCHES READINGS    prints the matched length, -1 where nothing matches, and the lowest and the median processor
 *                                           time of a reading in microseconds, over batches of so many readings
 *   read_peg lengths FILE                   prints for each rule a line: its name, and its length at each position of the text */
#include <stdio.h>
#include <stdlib.h>
#include <string.h>
#include <time.h>

/* The text, and how much of it the parser has. */
static char *text;
static size_t text_length, given;

static size_t give(char *buffer, size_t most) {
    size_t count = text_length - given;
    if (count > most) count = most;
    memcpy(buffer, text + given, count);
    given += count;
    return count;
}

#define YY_INPUT(buffer, result, most) ((result) = (int)give((buffer), (size_t)(most)))

#include "lines.peg.c"

struct rule {
    const char *name;
    yyrule parse;
};

#define RULE(name) {#name, yy_##name}

/* The rules by their numbers, from 0 on. */
static const struct rule rules[] = {
    RULE(sheet), RULE(title),  RULE(line), RULE(entry), RULE(comment),   RULE(blank), RULE(name),     RULE(letter),
    RULE(digit), RULE(number), RULE(time), RULE(value), RULE(separator), RULE(space), RULE(new_line), RULE(other),
};

/* The length of a match at a position. What a parser was given and did not match stays in its buffer, which is emptied first. */
static long length_at(yyrule parse, size_t position) {
    yyctx->__limit = 0;
    given = position;
    return yyparsefrom(parse) ? (long)(given - position) - yyctx->__limit : -1;
}

static int compare(const void *a, const void *b) {
    double difference = *(const double *)a - *(const double *)b;
    return (difference > 0) - (difference < 0);
}

static double microseconds(void) { return (double)clock() * 1e6 / CLOCKS_PER_SEC; }

static void print_times(size_t batches, size_t readings) {
    double *times = malloc(batches * sizeof *times);
    long length = -1;
    for (size_t batch = 0; batch < batches; batch++) {
        double begin = microseconds();
        for (size_t reading = 0; reading < readings; reading++) length = length_at(yy_sheet, 0);
        times[batch] = (microseconds() - begin) / (double)readings;
    }
    qsort(times, batches, sizeof *times, compare);
    printf("%ld %.3f %.3f\n", length, times[0], times[batches / 2]);
    free(times);
}

static void print_lengths(void) {
    for (size_t rule = 0; rule < sizeof rules / sizeof *rules; rule++) {
        printf("%s", rules[rule].name);
        for (size_t position = 0; position <= text_length; position++) printf(" %ld", length_at(rules[rule].parse, position));
        printf("\n");
    }
}

/* Reads the whole file to `text`. */
static int load(const char *name) {
    FILE *file = fopen(name, "rb");
    if (!file) return 0;
    fseek(file, 0, SEEK_END);
    text_length = (size_t)ftell(file);
    rewind(file);
    text = malloc(text_length + 1);
    int whole = fread(text, 1, text_length, file) == text_length;
    fclose(file);
    return whole;
}

int main(int count, char **words) {
    if (count < 3 || !load(words[2])) return 2;
    if (count == 5 && strcmp(words[1], "times") == 0) {
        print_times(strtoul(words[3], NULL, 10), strtoul(words[4], NULL, 10));
    } else {
        print_lengths();
    }
    return 0;
}
