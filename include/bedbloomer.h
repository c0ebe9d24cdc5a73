/*
 * Bedbloomer for C, and for Rust by the same declarations: link libbindings.a (rt lib in crates/bindings).
 *
 * A slice is a pointer and how many entries it has. Every call answers for any values, where its caller sees to this:
 * - Every pointer is not null and is aligned for its entries, also with 0 entries; then it is neither read nor written.
 * - Every pointer is valid for its entries until the call returns: all may be read and, where it is not to const, written.
 * - What a call may write (a pointer that is not to const) overlaps nothing else lent to the same call, and nobody else
 *   reads or writes it before the call returns; what a call only reads may overlap, and nobody writes it meanwhile.
 * - Every `excluding`, also of a slot that is not used, is true or false: its byte is 1 or 0.
 * - The thread has 1.5 MB of stack left (docs/BENCHMARK.md).
 *
 * A call keeps no pointer and no state, so calls on several threads do not meet. `number` is the refusal's number
 * (README.md, "Refusals"), 0 where nothing is refused.
 *
 * In a text the word 0 ends a sentence: no occurrence has one strictly between its first and its last place.
 *
 * The structures are those of x86-64 Linux; examples/layout.c states their sizes and offsets.
 */
#ifndef BEDBLOOMER_H
#define BEDBLOOMER_H

#include <stdbool.h>
#include <stddef.h>
#include <stdint.h>

/*
 * A slot: the first `count` of its words, which rise strictly (else 16), the gap before it, and whether it takes these
 * words or any word but these (never 0).
 */
typedef struct {
    uint16_t words[8];
    size_t count;
    uint16_t low;
    uint16_t high;
    bool excluding;
} bedbloomer_slot;

/* A pattern: the first `count` of its slots, and its span limits. */
typedef struct {
    bedbloomer_slot slots[16];
    size_t count;
    uint16_t least;
    uint16_t most;
} bedbloomer_pattern;

/* An answer, or a refusal with its place; then the value is 0. */
typedef struct {
    uint32_t number;
    size_t place;
    uint64_t value;
} bedbloomer_answer;

/*
 * A number of occurrences in two halves, high times 2^64 plus low, or a refusal with its place; then both halves are 0.
 */
typedef struct {
    uint32_t number;
    size_t place;
    uint64_t high;
    uint64_t low;
} bedbloomer_total;

/* A pattern, beside a refusal with its place or 0 0. */
typedef struct {
    uint32_t number;
    size_t place;
    bedbloomer_pattern pattern;
} bedbloomer_made;

/* How many words were read and the pattern, or a refusal with its place, 0 words and a new pattern. */
typedef struct {
    uint32_t number;
    size_t place;
    uint64_t words;
    bedbloomer_pattern pattern;
} bedbloomer_read_both;

/* Where a line's bytes end and where the next line begins; the same place where the line is not closed. */
typedef struct {
    size_t end;
    size_t next;
} bedbloomer_line_ends;

/* What a search found: 1 and its places, those past the slots 0; where there is none or it is refused, 0 and all places 0. */
typedef struct {
    uint32_t number;
    size_t place;
    uint64_t found;
    uint16_t places[16];
} bedbloomer_found;

/* How long an excerpt is, and one of its words (0 past its end). */
typedef struct {
    size_t length;
    uint16_t word;
} bedbloomer_excerpted;

/* One client: its marks, and how many occurrences it was served. */
typedef struct {
    uint16_t marks[16];
    size_t served;
} bedbloomer_client;

/* Clients 1 to 4, in this order; fresh: all 0. */
typedef struct {
    bedbloomer_client clients[4];
} bedbloomer_cursors;

/* The state that a call of `next` or `rewind` leaves, beside what it answers; `rewind` finds nothing. */
typedef struct {
    bedbloomer_cursors cursors;
    uint32_t number;
    size_t place;
    uint64_t found;
    uint16_t places[16];
} bedbloomer_served;

/* The count for a pattern file and a text file, or 100,000 plus the refusal's number. */
uint32_t bedbloomer_count(const uint8_t *pattern, size_t pattern_bytes, const uint8_t *text, size_t text_bytes);

/* The bytes that the program prints for this input, as many as `out` holds: how many were written. */
size_t bedbloomer_report(const uint8_t *input, size_t input_bytes, uint8_t *out, size_t out_bytes);

/* The files one by one, and both in one call; a text's words go to the start of `words`, and the answer is how many. */
bedbloomer_made bedbloomer_read_pattern(const uint8_t *bytes, size_t byte_count);
bedbloomer_answer bedbloomer_read_text(const uint8_t *bytes, size_t byte_count, uint16_t *words, size_t word_count);
bedbloomer_read_both bedbloomer_read_input(const uint8_t *pattern, size_t pattern_bytes, const uint8_t *text,
                                           size_t text_bytes, uint16_t *words, size_t word_count);

/* The most bytes of a pattern's file as it is written. */
#define BEDBLOOMER_PATTERN_BYTES 916

/*
 * The pattern as a file, written to the start of `out`: how many bytes. Where `out` is too short for all of it the answer
 * is 8 and nothing is written. Patterns that say the same are written as the same bytes.
 */
bedbloomer_answer bedbloomer_write_pattern(bedbloomer_pattern pattern, uint8_t *out, size_t out_bytes);

/* The line that begins at a place of the bytes. */
bedbloomer_line_ends bedbloomer_line(const uint8_t *bytes, size_t byte_count, size_t at);

/*
 * A pattern without slots, with these span limits; the pattern with one slot more, whose words are put in rising order,
 * each once; the pattern's tests, 1 to 5 and 16, alone and with 6 for a text of `words`.
 */
bedbloomer_pattern bedbloomer_pattern_of(uint16_t least, uint16_t most);
bedbloomer_made bedbloomer_with_slot(bedbloomer_pattern pattern, uint16_t low, uint16_t high, bool excluding,
                                     const uint16_t *words, size_t word_count);
bedbloomer_answer bedbloomer_check_pattern(bedbloomer_pattern pattern);
bedbloomer_answer bedbloomer_check(bedbloomer_pattern pattern, size_t words);

/*
 * Two patterns into one: at each slot the words that both take, at each gap and for the span the numbers that both allow.
 * The tests are the first pattern's, then the second's, then 17, 18 and 19, whose place is 0; where the merge is refused,
 * the pattern is a new one.
 */
bedbloomer_made bedbloomer_merge(bedbloomer_pattern first, bedbloomer_pattern second);

/* Whether a row is an occurrence (1 or 0); the word at an index from 0 of its excerpt. */
bedbloomer_answer bedbloomer_is_occurrence(bedbloomer_pattern pattern, const uint16_t *text, size_t text_words,
                                           const uint16_t *row, size_t row_places);
bedbloomer_excerpted bedbloomer_excerpt(bedbloomer_pattern pattern, const uint16_t *text, size_t text_words,
                                        const uint16_t *row, size_t row_places, size_t index);

/* The earliest occurrence past the marks; the latest before them. */
bedbloomer_found bedbloomer_first_after(bedbloomer_pattern pattern, const uint16_t *text, size_t text_words,
                                        const uint16_t *marks, size_t mark_count);
bedbloomer_found bedbloomer_last_before(bedbloomer_pattern pattern, const uint16_t *text, size_t text_words,
                                        const uint16_t *marks, size_t mark_count);

/* The front list, the back list and all occurrences, written row after row: how many rows. */
bedbloomer_answer bedbloomer_leftmost(bedbloomer_pattern pattern, const uint16_t *text, size_t text_words, uint16_t *list,
                                      size_t list_entries);
bedbloomer_answer bedbloomer_rightmost(bedbloomer_pattern pattern, const uint16_t *text, size_t text_words, uint16_t *list,
                                       size_t list_entries);
bedbloomer_answer bedbloomer_all(bedbloomer_pattern pattern, const uint16_t *text, size_t text_words, uint16_t *list,
                                 size_t list_entries);

/* The count, and the tally: the number of all occurrences. The tally is never refused with 9. */
bedbloomer_answer bedbloomer_support(bedbloomer_pattern pattern, const uint16_t *text, size_t text_words);
bedbloomer_total bedbloomer_tally(bedbloomer_pattern pattern, const uint16_t *text, size_t text_words);

/*
 * The column: for each word of the text how many occurrences start there, in two halves, written to the start of `list`: for
 * place p the high half to `list[2 * p - 2]`, the low half to `list[2 * p - 1]`. The value is the number of words. The
 * entries after these halves stay as they are. After 6 the test is 8, where the list is shorter than two numbers for each
 * word; 9 is never given. A call that is refused writes nothing.
 */
bedbloomer_answer bedbloomer_starts(bedbloomer_pattern pattern, const uint16_t *text, size_t text_words, uint64_t *list,
                                    size_t list_entries);

/*
 * A text recoded by word class. To the start of `out` goes for each word of the text `code`, where the word's class byte meets
 * the expression, else the word itself; a 0 stays 0. An expression has the letters a to h for the eight bits of a class byte,
 * a for the lowest, `!`, which binds tightest and may be repeated, then `&`, then `|`, and round brackets; it is not empty
 * and has no spaces. The value is the number of words; the entries after them stay as they are. The tests are 6, then 22 (not
 * one class byte for each word), 3 (the code is 0), 20 (not such an expression, or over 200 bytes), 21 (brackets nested more
 * than 8 deep) and 8 (`out` is shorter than the text), all with the place 0. A call that is refused writes nothing.
 */
bedbloomer_answer bedbloomer_recode(const uint16_t *text, size_t text_words, const uint8_t *classes, size_t class_count,
                                    const uint8_t *expression, size_t expression_bytes, uint16_t code, uint16_t *out,
                                    size_t out_words);

/* The next occurrence for a client, refused with 15 where it was served 500 or more. */
bedbloomer_served bedbloomer_next(bedbloomer_cursors cursors, size_t client, bedbloomer_pattern pattern,
                                  const uint16_t *text, size_t text_words);

/* A client rewound: its marks set to 0, its number as it was. */
bedbloomer_served bedbloomer_rewind(bedbloomer_cursors cursors, size_t client);

#endif
