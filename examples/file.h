/* Reading a whole file, for the programs beside it. */
#ifndef FILE_H
#define FILE_H

#include <stdint.h>
#include <stdio.h>
#include <stdlib.h>

/* The most bytes of a file; one byte more is read so that the library sees a longer one. */
enum { LONGEST = 60000 };

/* Reads at most LONGEST + 1 bytes of a file: how many. */
static size_t read_file(const char *name, uint8_t bytes[LONGEST + 1])
{
    FILE *file = fopen(name, "rb");
    if (file == NULL) {
        perror(name);
        exit(2);
    }
    size_t count = fread(bytes, 1, LONGEST + 1, file);
    if (ferror(file)) {
        perror(name);
        exit(2);
    }
    fclose(file);
    return count;
}

#endif
