/* Trees and matrices for the timings. */
#ifndef MATRICES_H
#define MATRICES_H

#include "trees.h"

/* A resolved tree of a shape, and a distance for each pair. */
static void draw(uint8_t parents[], uint16_t distances[], uint32_t n, int shape) {
    grow(parents, n, shape);
    for (uint32_t p = 0; p < n * (n - 1) / 2; p++) {
        distances[p] = (uint16_t)chance(50001);
    }
}

#endif
