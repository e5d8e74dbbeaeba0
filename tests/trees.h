/* Resolved trees of three shapes, for comparisons and timings. */
#ifndef TREES_H
#define TREES_H

#include <stdint.h>
#include <string.h>

static uint64_t state = 88172645463325252u;

static inline uint32_t chance(uint32_t below) {
    state ^= state << 13;
    state ^= state >> 7;
    state ^= state << 17;
    return (uint32_t)(state % below);
}

/* A resolved tree by joining two of the nodes that are left: the first two, the last two, or any. */
static inline void grow(uint8_t parents[], uint32_t n, int shape) {
    uint32_t nodes[64] = {0}, left = n, next = n;
    for (uint32_t i = 0; i < n; i++) {
        nodes[i] = i;
    }
    while (left > 3) {
        uint32_t a = shape == 0 ? 0 : shape == 1 ? left - 2 : chance(left), b;
        if (shape == 2) {
            do {
                b = chance(left);
            } while (b == a);
        } else {
            b = a + 1;
        }
        parents[nodes[a]] = parents[nodes[b]] = (uint8_t)next;
        if (shape == 0) { /* the joined pair goes to the back: level by level */
            memmove(nodes, nodes + 2, (left - 2) * sizeof nodes[0]);
            nodes[left - 2] = next++;
        } else if (shape == 1) { /* the joined pair stays last: one strain more each time */
            nodes[left - 2] = next++;
        } else {
            nodes[a] = next++;
            nodes[b] = nodes[left - 1];
        }
        left--;
    }
    for (uint32_t i = 0; i < 3; i++) {
        parents[nodes[i]] = (uint8_t)next;
    }
}

#endif
