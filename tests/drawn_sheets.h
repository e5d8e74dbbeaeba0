/* Sheets for comparisons: what they are made of, how they are written, trees of any shape with lengths and distances that fit, and fields moved
 * past their limits; and room that ends where nothing can be read. */
#ifndef DRAWN_SHEETS_H
#define DRAWN_SHEETS_H

#include <stdint.h>
#include <stdio.h>
#include <stdlib.h>
#include <string.h>
#include <sys/mman.h>
#include <unistd.h>

#include "trees.h"

enum { MISSING = 65535 };

struct parts {
    uint32_t n, tree_n, v, k, d;
    uint16_t distances[4096];
    uint8_t parents[256];
    int64_t numerators[1024];
};

static inline size_t put(uint8_t *at, uint64_t x, int bytes) {
    for (int i = 0; i < bytes; i++) {
        at[i] = (uint8_t)(x >> (8 * i));
    }
    return (size_t)bytes;
}

static inline size_t write_sheet(const struct parts *p, uint8_t *out) {
    size_t at = 0;
    uint32_t pairs = p->n * (p->n == 0 ? 0 : p->n - 1) / 2;
    at += put(out + at, 2 + 2 * pairs, 4);
    at += put(out + at, 1, 2);
    at += put(out + at, p->n, 2);
    for (uint32_t i = 0; i < pairs; i++) {
        at += put(out + at, p->distances[i], 2);
    }
    at += put(out + at, 4 + p->v - 1, 4);
    at += put(out + at, 2, 2);
    at += put(out + at, p->tree_n, 2);
    at += put(out + at, p->v, 2);
    for (uint32_t i = 0; i + 1 < p->v; i++) {
        at += put(out + at, p->parents[i], 1);
    }
    at += put(out + at, 6 + 8 * p->k, 4);
    at += put(out + at, 3, 2);
    at += put(out + at, p->d, 4);
    at += put(out + at, p->k, 2);
    for (uint32_t i = 0; i < p->k; i++) {
        at += put(out + at, (uint64_t)p->numerators[i], 8);
    }
    return at;
}

/* A random allowed tree: inner vertices take two or more of the nodes that are left, the root three or more. */
static inline void grow_any(struct parts *p, uint32_t n) {
    uint32_t nodes[128], left = n, next = n;
    for (uint32_t i = 0; i < n; i++) {
        nodes[i] = i;
    }
    while (left > 3 && chance(5) != 0) {
        uint32_t take = 2 + (uint32_t)chance(3);
        if (take > left - 2) {
            take = left - 2;
        }
        if (take < 2) {
            break;
        }
        for (uint32_t t = 0; t < take; t++) {
            uint32_t pick = (uint32_t)chance(left);
            p->parents[nodes[pick]] = (uint8_t)next;
            nodes[pick] = nodes[--left];
        }
        nodes[left++] = next++;
    }
    for (uint32_t t = 0; t < left; t++) {
        p->parents[nodes[t]] = (uint8_t)next;
    }
    p->n = p->tree_n = n;
    p->v = next + 1;
    p->k = next;
}

/* The most edges that 64 strains can have: each inner vertex has one strain more below it. */
static inline void caterpillar(struct parts *p) {
    for (uint32_t v = 0; v < 125; v++) {
        p->parents[v] = (uint8_t)(v < 2 ? 64 : v < 62 ? 63 + v : v < 64 ? 125 : v + 1);
    }
    p->n = p->tree_n = 64;
    p->v = 126;
    p->k = 125;
}

/* The strains below each vertex. */
static inline void fill_below(const struct parts *p, uint64_t below[128]) {
    memset(below, 0, 128 * sizeof below[0]);
    for (uint32_t i = 0; i < p->n; i++) {
        for (uint32_t v = i;; v = p->parents[v]) {
            below[v] |= (uint64_t)1 << i;
            if (v == p->v - 1) {
                break;
            }
        }
    }
}

static inline uint16_t *distance_of(struct parts *p, uint32_t i, uint32_t j) {
    uint32_t low = i < j ? i : j, high = i < j ? j : i;
    return &p->distances[low * (2 * p->n - low - 1) / 2 + high - low - 1];
}

/* The lengths over some denominator, and distances that they fit: the paths. */
static inline void fit_exactly(struct parts *p, const uint64_t below[], const int64_t length[]) {
    p->d = chance(4) == 0 ? 1 + (uint32_t)chance(9) : 1;
    for (uint32_t v = 0; v < p->k; v++) {
        p->numerators[v] = length[v] * p->d;
    }
    for (uint32_t i = 0; i < p->n; i++) {
        for (uint32_t j = i + 1; j < p->n; j++) {
            int64_t path = 0;
            for (uint32_t v = 0; v < p->k; v++) {
                if ((below[v] >> i & 1) != (below[v] >> j & 1)) {
                    path += length[v];
                }
            }
            *distance_of(p, i, j) = (uint16_t)(path < 0 ? 0 : path);
        }
    }
}

/* So many times units that every edge's sum leaves out. */
static inline void unsettle(struct parts *p, const uint64_t below[], int turns) {
    for (int turn = 0; turn < turns && p->n >= 4; turn++) {
        uint32_t a = (uint32_t)chance(p->n), b = (uint32_t)chance(p->n), c = (uint32_t)chance(p->n), d = (uint32_t)chance(p->n);
        if (a == b || a == c || a == d || b == c || b == d || c == d) {
            continue;
        }
        int barred = 0; /* some edge's sum would move, or a distance cannot */
        for (uint32_t v = 0; v < p->k; v++) {
            barred |= (below[v] >> a & 1) != (below[v] >> b & 1) && (below[v] >> c & 1) != (below[v] >> d & 1);
        }
        uint16_t *more[2] = {distance_of(p, a, c), distance_of(p, b, d)};
        uint16_t *less[2] = {distance_of(p, a, d), distance_of(p, b, c)};
        for (int k = 0; k < 2; k++) {
            barred |= *less[k] == 0 || *less[k] == MISSING || *more[k] == MISSING;
        }
        for (int k = 0; k < 2 && !barred; k++) {
            ++*more[k];
            --*less[k];
        }
    }
}

/* Lengths of either sign, and distances that they fit. */
static inline void fit(struct parts *p, int turns) {
    uint64_t below[128];
    int64_t length[128];
    fill_below(p, below);
    for (uint32_t v = 0; v < p->k; v++) {
        length[v] = v < p->n ? 300 + (int64_t)chance(400) : (int64_t)chance(80) - 20;
    }
    fit_exactly(p, below, length);
    unsettle(p, below, turns);
}

/* One field moved to or past a limit. */
static inline void strain_limits(struct parts *p) {
    static const uint32_t denominators[] = {0, 1, 1000000, 1000001, 0xffffffffu};
    static const int64_t far[] = {100000000000, 100000000001, -100000000000, -100000000001, INT64_MIN, INT64_MAX};
    uint32_t pairs = p->n * (p->n - 1) / 2;
    switch (chance(8)) {
    case 0: p->distances[chance(pairs)] = (uint16_t)(50000 + chance(2)); break;
    case 1: p->d = denominators[chance(5)]; break;
    case 2: p->numerators[chance(p->k)] = far[chance(6)]; break;
    case 3: p->tree_n += (uint32_t)chance(3) - 1; break;
    case 4: p->k += (uint32_t)chance(3) - 1; break;
    case 5: p->v += (uint32_t)chance(5) - 2; break;
    case 6: p->parents[chance(p->k)] = (uint8_t)chance(p->v + 2); break;
    default: p->n += (uint32_t)chance(3) - 1; break;
    }
}

/* Every pair that edge v parts is missing. */
static inline void lose_edge(struct parts *p, uint32_t v) {
    uint64_t below[128];
    fill_below(p, below);
    for (uint32_t i = 0; i < p->n; i++) {
        for (uint32_t j = i + 1; j < p->n; j++) {
            if ((below[v] >> i & 1) != (below[v] >> j & 1)) {
                *distance_of(p, i, j) = MISSING;
            }
        }
    }
}

/* The end of some room that is followed by a page that cannot be read. */
static inline uint8_t *guarded(size_t room) {
    size_t page = (size_t)sysconf(_SC_PAGESIZE);
    uint8_t *map = mmap(NULL, room + page, PROT_READ | PROT_WRITE, MAP_PRIVATE | MAP_ANONYMOUS, -1, 0);
    if (map == MAP_FAILED || mprotect(map + room, page, PROT_NONE) != 0) {
        perror("a page that cannot be read");
        exit(2);
    }
    return map + room;
}

#endif
