/* A plain reading in C of the lengths of a resolved tree. */
#ifndef RESOLVED_H
#define RESOLVED_H

#include <stdint.h>

/* The lengths in lowest terms and in thousandths, and R and H in `square`, for an allowed resolved tree of n
 * strains. The distances stand as in a lent matrix: that of i and j, with i below j, at j(j-1)/2 + i. */
void plain_resolved(uint32_t n, const uint16_t *distances, const uint8_t *parents, int64_t *numerators,
                    uint32_t *denominators, int64_t *rounded, uint64_t square[2]);

#endif
