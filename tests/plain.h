/* Plain readings of docs/RULES.md in C, for comparison with the proved library. They share nothing with it
 * and little with each other. */
#ifndef PLAIN_H
#define PLAIN_H

#include <stddef.h>
#include <stdint.h>

/* The verdict that takes lengths of either sign, and the one for trees that are drawn, which takes none below zero. */
enum plain_rule { PLAIN, DRAWABLE };

/* The triple loop: every edge is asked for every pair, in 128-bit sums. By the plain rule. */
uint32_t plain_triple(const uint8_t *sheet, size_t length);

/* One pass: each pair is met once, at the vertex where its path turns; sums are handed up the tree. Likewise. */
uint32_t plain_pass(const uint8_t *sheet, size_t length);

/* The same by either rule, with the line that a refused sheet prints; of an accepted one the line is empty. */
enum { PLAIN_LINE = 80 };
uint32_t plain_triple_line(enum plain_rule rule, const uint8_t *sheet, size_t length, char line[PLAIN_LINE]);
uint32_t plain_pass_line(enum plain_rule rule, const uint8_t *sheet, size_t length, char line[PLAIN_LINE]);

/* How many edges of length zero have a sum of remainders below zero, at zero and above it, and the lowest of the last;
 * all zero of a sheet that does not pass 13. */
struct plain_zeros {
    uint32_t below, level, above, lowest_above;
};
struct plain_zeros plain_zeros(const uint8_t *sheet, size_t length);

/* The number and the line of a sheet without lengths, that is to be fitted directly. */
uint32_t plain_unfitted_line(const uint8_t *sheet, size_t length, char line[PLAIN_LINE]);

/* How many names the body of a names record has, of any length each; -1 where they do not end with it. */
int64_t plain_count_names(const uint8_t *body, size_t size);

/* One pass over a sheet with names, which has a record more: the number and the line, and of an accepted one what it holds.
 * The names are judged by `names_by`, which gives 28 or 0; without it the sheet has three records and no names. The distances
 * are those of the sheet, two bytes each, in rows. */
enum { PLAIN_VERTICES = 126 };
struct plain_named {
    uint32_t n, edges, denominator;
    const uint8_t *distances, *names;
    size_t name_bytes;
    uint8_t parents[PLAIN_VERTICES];
    int64_t numerators[PLAIN_VERTICES];
};
typedef uint32_t plain_names_of(const uint8_t *body, size_t size);
uint32_t plain_named_line(const uint8_t *sheet, size_t length, plain_names_of *names_by, struct plain_named *out,
                          char line[PLAIN_LINE]);

#endif
