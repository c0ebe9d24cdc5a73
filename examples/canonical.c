/*
 * One way to write a pattern: reads a pattern file from standard input and prints the pattern as the library writes it, so
 * that files which say the same become the same bytes.
 *
 * Prints the file, or the refusal's number and place and then ends with status 1.
 */
#include "bedbloomer.h"

#include <stdio.h>

/* The most bytes of a file; one byte more is read so that the library sees a longer one. */
enum { LONGEST = 60000 };

int main(void)
{
    static uint8_t bytes[LONGEST + 1];
    size_t byte_count = fread(bytes, 1, sizeof bytes, stdin);
    if (ferror(stdin)) {
        perror("standard input");
        return 2;
    }
    bedbloomer_made made = bedbloomer_read_pattern(bytes, byte_count);
    if (made.number != 0) {
        printf("refused %u %zu\n", made.number, made.place);
        return 1;
    }
    uint8_t file[BEDBLOOMER_PATTERN_BYTES];
    bedbloomer_answer written = bedbloomer_write_pattern(made.pattern, file, sizeof file);
    fwrite(file, 1, written.value, stdout);
    return 0;
}
