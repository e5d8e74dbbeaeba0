/* A plain reading of docs/RULES.md, Trees in text, in C, with the entries that the proved library has: for comparison and for timings. */
#ifndef PLAIN_NEWICK_H
#define PLAIN_NEWICK_H

#include <stddef.h>
#include <stdint.h>

/* 28 for the body of a names record with a name that is not of the form or stands twice, otherwise 0; the names end with the body. */
uint32_t plain_names(const uint8_t *body, size_t size);

/* The whole number nearest 1000·n/D, a tie to the even one, mirrored below zero. */
int64_t plain_thousandths(int64_t n, uint32_t denominator);

size_t plain_newick_print(const uint8_t *sheet, size_t length, uint8_t *text, size_t size);
uint32_t plain_newick_write(const uint8_t *names, size_t names_length, const uint8_t *parents, size_t edges, const int64_t *thousandths,
                            size_t thousandth_count, uint8_t *text, size_t size, size_t *length);
uint32_t plain_newick_read(const uint8_t *names, size_t names_length, const uint8_t *text, size_t size, uint8_t *parents,
                           size_t parent_count, int64_t *numerators, size_t numerator_count);

#endif
