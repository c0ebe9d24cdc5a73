/*
 * A small concordance window: the count of a split phrase for a pattern file and a text file, the number of all its
 * occurrences, and beside each place of the text how many of them start there.
 *
 *   window PATTERN TEXT
 *
 * Prints the count, the tally and then a line for each place: the place, its word and how many start there. The tally and
 * these numbers are printed as two halves, high first. Where a call is refused, it prints the refusal's number and ends with
 * status 1.
 */
#include "bedbloomer.h"
#include "file.h"

#include <inttypes.h>
#include <stdio.h>

enum {
    WORDS = 20000,   /* the most words of a text */
    REFUSED = 100000 /* what the count adds to a refusal's number */
};

/* Prints a refusal's number: the status to end with. */
static int refused(uint32_t number)
{
    printf("refused %u\n", number);
    return 1;
}

/* Prints the tally and how many occurrences start at each place, for files that the count accepts: the status to end with. */
static int print_tally(const uint8_t *pattern, size_t pattern_bytes, const uint8_t *text, size_t text_bytes)
{
    static uint16_t words[WORDS];
    static uint64_t starts[2 * WORDS];
    bedbloomer_read_both read = bedbloomer_read_input(pattern, pattern_bytes, text, text_bytes, words, WORDS);
    bedbloomer_total tally = bedbloomer_tally(read.pattern, words, read.words);
    if (tally.number != 0) {
        return refused(tally.number);
    }
    printf("tally %" PRIu64 " %" PRIu64 "\n", tally.high, tally.low);
    bedbloomer_answer column = bedbloomer_starts(read.pattern, words, read.words, starts, 2 * WORDS);
    if (column.number != 0) {
        return refused(column.number);
    }
    for (size_t at = 0; at < column.value; at++) {
        printf("%zu %u %" PRIu64 " %" PRIu64 "\n", at + 1, words[at], starts[2 * at], starts[2 * at + 1]);
    }
    return 0;
}

int main(int argc, char **argv)
{
    static uint8_t pattern[LONGEST + 1];
    static uint8_t text[LONGEST + 1];
    if (argc != 3) {
        fprintf(stderr, "usage: window PATTERN TEXT\n");
        return 2;
    }
    size_t pattern_bytes = read_file(argv[1], pattern);
    size_t text_bytes = read_file(argv[2], text);
    uint32_t answer = bedbloomer_count(pattern, pattern_bytes, text, text_bytes);
    if (answer > REFUSED) {
        return refused(answer - REFUSED);
    }
    printf("count %u\n", answer);
    return print_tally(pattern, pattern_bytes, text, text_bytes);
}
