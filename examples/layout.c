/*
 * The sizes and offsets, in bytes, of the structures that cross the C interface: built where they are these, refused
 * by the compiler elsewhere. compare/src/layout.rs states the same for Rust.
 */
#include "bedbloomer.h"

#define SIZE(structure, size) _Static_assert(sizeof(structure) == (size), "the size of " #structure)
#define FIELD(structure, field, offset) \
    _Static_assert(offsetof(structure, field) == (offset), "the offset of " #field " in " #structure)

_Static_assert(BEDBLOOMER_PATTERN_BYTES == 916, "the most bytes of a written pattern");

SIZE(bedbloomer_slot, 32);
FIELD(bedbloomer_slot, words, 0);
FIELD(bedbloomer_slot, count, 16);
FIELD(bedbloomer_slot, low, 24);
FIELD(bedbloomer_slot, high, 26);
FIELD(bedbloomer_slot, excluding, 28);

SIZE(bedbloomer_pattern, 528);
FIELD(bedbloomer_pattern, slots, 0);
FIELD(bedbloomer_pattern, count, 512);
FIELD(bedbloomer_pattern, least, 520);
FIELD(bedbloomer_pattern, most, 522);

SIZE(bedbloomer_answer, 24);
FIELD(bedbloomer_answer, number, 0);
FIELD(bedbloomer_answer, place, 8);
FIELD(bedbloomer_answer, value, 16);

SIZE(bedbloomer_total, 32);
FIELD(bedbloomer_total, number, 0);
FIELD(bedbloomer_total, place, 8);
FIELD(bedbloomer_total, high, 16);
FIELD(bedbloomer_total, low, 24);

SIZE(bedbloomer_made, 544);
FIELD(bedbloomer_made, number, 0);
FIELD(bedbloomer_made, place, 8);
FIELD(bedbloomer_made, pattern, 16);

SIZE(bedbloomer_read_both, 552);
FIELD(bedbloomer_read_both, number, 0);
FIELD(bedbloomer_read_both, place, 8);
FIELD(bedbloomer_read_both, words, 16);
FIELD(bedbloomer_read_both, pattern, 24);

SIZE(bedbloomer_line_ends, 16);
FIELD(bedbloomer_line_ends, end, 0);
FIELD(bedbloomer_line_ends, next, 8);

SIZE(bedbloomer_found, 56);
FIELD(bedbloomer_found, number, 0);
FIELD(bedbloomer_found, place, 8);
FIELD(bedbloomer_found, found, 16);
FIELD(bedbloomer_found, places, 24);

SIZE(bedbloomer_excerpted, 16);
FIELD(bedbloomer_excerpted, length, 0);
FIELD(bedbloomer_excerpted, word, 8);

SIZE(bedbloomer_client, 40);
FIELD(bedbloomer_client, marks, 0);
FIELD(bedbloomer_client, served, 32);

SIZE(bedbloomer_cursors, 160);
FIELD(bedbloomer_cursors, clients, 0);

SIZE(bedbloomer_served, 216);
FIELD(bedbloomer_served, cursors, 0);
FIELD(bedbloomer_served, number, 160);
FIELD(bedbloomer_served, place, 168);
FIELD(bedbloomer_served, found, 176);
FIELD(bedbloomer_served, places, 184);
