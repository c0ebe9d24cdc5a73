/*
 * A phrase with a slot by word class: the text is recoded by an expression, and then the phrase is counted in it.
 *
 *   by_class EXPRESSION CODE PATTERN TEXT CLASSES
 *
 * PATTERN and TEXT are files; CLASSES is a file like a text's, with a class byte for each word. The pattern lists CODE where
 * it takes a word whose class byte meets EXPRESSION. Prints the count and a line for each row of the front list, its places.
 * Where a call is refused, it prints the refusal's number and place and ends with status 1.
 */
#include "bedbloomer.h"
#include "file.h"

#include <ctype.h>
#include <inttypes.h>
#include <stdio.h>
#include <stdlib.h>
#include <string.h>

enum {
    WORDS = 20000, /* the most words of a text */
    SLOTS = 16     /* the most slots of a pattern */
};

/* Ends with status 1 after a refusal's number and place, if a call was refused. */
static void hold_accepted(uint32_t number, size_t place)
{
    if (number != 0) {
        printf("refused %u %zu\n", number, place);
        exit(1);
    }
}

/* Reads the numbers of a text's file: how many. */
static size_t read_numbers(const char *name, uint16_t numbers[WORDS])
{
    static uint8_t bytes[LONGEST + 1];
    bedbloomer_answer read = bedbloomer_read_text(bytes, read_file(name, bytes), numbers, WORDS);
    hold_accepted(read.number, read.place);
    return read.value;
}

/* Reads class bytes: how many. */
static size_t read_classes(const char *name, uint8_t classes[WORDS])
{
    static uint16_t numbers[WORDS];
    size_t count = read_numbers(name, numbers);
    for (size_t i = 0; i < count; i++) {
        if (numbers[i] > UINT8_MAX) {
            fprintf(stderr, "%s: %u is no class byte\n", name, numbers[i]);
            exit(2);
        }
        classes[i] = (uint8_t)numbers[i];
    }
    return count;
}

/* Prints the front list of a pattern in a text. */
static void print_rows(bedbloomer_pattern pattern, const uint16_t *text, size_t words)
{
    static uint16_t list[WORDS * SLOTS];
    bedbloomer_answer rows = bedbloomer_leftmost(pattern, text, words, list, WORDS * SLOTS);
    hold_accepted(rows.number, rows.place);
    printf("count %" PRIu64 "\n", rows.value);
    for (size_t row = 0; row < rows.value; row++) {
        for (size_t slot = 0; slot < pattern.count; slot++) {
            printf("%u%c", list[row * pattern.count + slot], slot + 1 < pattern.count ? ' ' : '\n');
        }
    }
}

int main(int argc, char **argv)
{
    static uint8_t bytes[LONGEST + 1];
    static uint16_t text[WORDS], recoded[WORDS];
    static uint8_t classes[WORDS];
    char *end = NULL;
    unsigned long code = argc == 6 && isdigit((unsigned char)*argv[2]) ? strtoul(argv[2], &end, 10) : 0;
    if (end == NULL || *end != '\0' || code > UINT16_MAX) {
        fputs("usage: by_class EXPRESSION CODE PATTERN TEXT CLASSES\n", stderr);
        return 2;
    }
    bedbloomer_made made = bedbloomer_read_pattern(bytes, read_file(argv[3], bytes));
    hold_accepted(made.number, made.place);
    size_t words = read_numbers(argv[4], text);
    size_t class_count = read_classes(argv[5], classes);
    bedbloomer_answer done = bedbloomer_recode(text, words, classes, class_count, (const uint8_t *)argv[1], strlen(argv[1]),
                                               (uint16_t)code, recoded, WORDS);
    hold_accepted(done.number, done.place);
    print_rows(made.pattern, recoded, done.value);
    return 0;
}
