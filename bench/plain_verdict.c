/* The verdict on a sheet in plain C, written to be fast, in two ways. Pair by pair, in one pass: each pair is met once, where its path turns; a strain that
 * stands alone at a meeting has the outer turn and the others the inner one. Edge by edge, where no pair is missing: an edge's distances by the rows of its
 * strains, less what crosses below it, and its paths by a pass up the tree and one down. Masks are walked by their lowest bit; a row's start is looked up.
 * NAME is what the function is called, so that it can be compiled at several levels into one program; EDGES is 1 for the second way. */
#include <stdbool.h>
#include <stddef.h>
#include <stdint.h>
#include <string.h>

#include "plain_verdict.h"

enum { MAX_N = 64, MAX_PAIRS = MAX_N * (MAX_N - 1) / 2, MAX_V = 2 * MAX_N - 2, MAX_SHEET = 5187, MISSING = 65535 };

static inline uint32_t two(const uint8_t *at) { return (uint32_t)at[0] | (uint32_t)at[1] << 8; }
static inline uint32_t four(const uint8_t *at) { return two(at) | two(at + 2) << 16; }
static inline uint64_t eight(const uint8_t *at) { return (uint64_t)four(at) | (uint64_t)four(at + 4) << 32; }

/* 26: every measured pair walks from both ends to where its path turns. */
static bool unseen(uint32_t n, uint32_t edges, const uint16_t d[], const uint8_t parent[]) {
    bool walked[MAX_V] = {false};
    for (uint32_t i = 0, p = 0; i < n; i++) {
        for (uint32_t j = i + 1; j < n; j++, p++) {
            for (uint32_t a = i, b = j; d[p] != MISSING && a != b;) {
                uint32_t *low = a < b ? &a : &b;
                walked[*low] = true;
                *low = parent[*low];
            }
        }
    }
    for (uint32_t v = 0; v < edges; v++) {
        if (!walked[v]) {
            return true;
        }
    }
    return false;
}

/* 14, by each pair where it is met. */
static uint32_t pair_by_pair(uint32_t n, uint32_t edges, uint32_t denominator, const uint16_t d[], const uint8_t parent[], const int64_t x[]) {
    /* the strains below each vertex that have come so far, each strain's way up to where it stands, what each vertex has */
    uint64_t below[MAX_V] = {0};
    int64_t way[MAX_N] = {0}, sum[MAX_V] = {0};
    uint32_t row[MAX_N];
    for (uint32_t i = 0; i < n; i++) {
        below[i] = (uint64_t)1 << i;
        row[i] = i * (2 * n - i - 1) / 2 - i - 1;
    }
    for (uint32_t v = 0; v < edges; v++) {
        uint32_t up = parent[v];
        uint64_t here = below[v], there = below[up], each = here, others = there;
        for (uint64_t left = here; left != 0; left &= left - 1) {
            way[__builtin_ctzll(left)] += x[v];
        }
        if ((there & (there - 1)) == 0) {
            each = there;
            others = here;
        }
        int64_t met = 0;
        for (; each != 0; each &= each - 1) {
            uint32_t j = (uint32_t)__builtin_ctzll(each);
            int64_t whole = 0, way_of_j = way[j];
            for (uint64_t left = others; left != 0; left &= left - 1) {
                uint32_t i = (uint32_t)__builtin_ctzll(left), far = d[i < j ? row[i] + j : row[j] + i];
                int64_t r = far == MISSING ? 0 : (int64_t)denominator * far - way_of_j - way[i];
                sum[i] += r;
                whole += r;
            }
            sum[j] += whole;
            met += whole;
        }
        sum[up] -= 2 * met;
        below[up] = there | here;
    }
    for (uint32_t v = 0; v < edges; v++) {
        if (sum[v] != 0) {
            return 14;
        }
        sum[parent[v]] += sum[v];
    }
    return 0;
}

/* 14, by each edge's distances and paths; no pair is missing. */
static uint32_t edge_by_edge(uint32_t n, uint32_t edges, uint32_t denominator, const uint16_t d[], const uint8_t parent[], const int64_t x[]) {
    uint32_t row[MAX_N], total[MAX_V] = {0};
    uint64_t below[MAX_V] = {0};
    /* of each vertex the number of strains below it and the paths from them up to it; later the paths from it to all strains */
    int64_t size[MAX_V] = {0}, way[MAX_V] = {0};
    for (uint32_t i = 0; i < n; i++) {
        below[i] = (uint64_t)1 << i;
        size[i] = 1;
        row[i] = i * (2 * n - i - 1) / 2 - i - 1;
        uint32_t whole = 0;
        for (uint32_t j = i + 1; j < n; j++) {
            uint32_t far = d[row[i] + j];
            total[j] += far;
            whole += far;
        }
        total[i] += whole;
    }
    for (uint32_t v = 0; v < edges; v++) {
        uint32_t up = parent[v], met = 0;
        uint64_t here = below[v], there = below[up], each = here, others = there;
        if ((there & (there - 1)) == 0) {
            each = there;
            others = here;
        }
        for (; up != edges && each != 0; each &= each - 1) {
            uint32_t j = (uint32_t)__builtin_ctzll(each);
            uint64_t lower = others & (((uint64_t)1 << j) - 1);
            for (uint64_t left = lower; left != 0; left &= left - 1) {
                met += d[row[__builtin_ctzll(left)] + j];
            }
            for (uint64_t left = others ^ lower; left != 0; left &= left - 1) {
                met += d[row[j] + (uint32_t)__builtin_ctzll(left)];
            }
        }
        total[up] += total[v] - 2 * met;
        below[up] = there | here;
        size[up] += size[v];
        way[up] += way[v] + size[v] * x[v];
    }
    bool level = true;
    for (uint32_t v = edges; v-- > 0;) {
        int64_t all = n, from = way[v];
        way[v] = way[parent[v]] + x[v] * (all - 2 * size[v]);
        level &= (int64_t)denominator * total[v] == (all - size[v]) * from + size[v] * (way[v] - from);
    }
    return level ? 0 : 14;
}

uint32_t NAME(const uint8_t *s, size_t length) {
    if (length > MAX_SHEET) {
        return 1;
    }
    size_t at = 0;
    uint32_t n = 0, of_tree = 0, vertices = 0, denominator = 0, k = 0;
    const uint8_t *rows = NULL, *parent = NULL, *numerators = NULL;
    for (uint32_t kind = 1; kind <= 3; kind++) {
        if (length - at < 6) {
            return 2;
        }
        uint32_t size = four(s + at);
        if (length - at - 6 < size) {
            return 2;
        }
        if (two(s + at + 4) != kind) {
            return 3;
        }
        const uint8_t *body = s + at + 6;
        if (size < 2 * kind) {
            return 4;
        }
        if (kind == 1) {
            n = two(body);
            if (size != 2 + (uint64_t)n * (n == 0 ? 0 : n - 1)) {
                return 4;
            }
            rows = body + 2;
        } else if (kind == 2) {
            of_tree = two(body);
            vertices = two(body + 2);
            if (vertices == 0 || size != 3 + vertices) {
                return 4;
            }
            parent = body + 4;
        } else {
            denominator = four(body);
            k = two(body + 4);
            if (size != 6 + 8 * k) {
                return 4;
            }
            numerators = body + 6;
        }
        at += 6 + (size_t)size;
    }
    if (at != length) {
        return 5;
    }
    if (n < 3 || n > MAX_N) {
        return 6;
    }
    uint16_t d[MAX_PAIRS];
    /* both have the lower byte first. The first loop has no way out, so that it goes by many at once: the sign says whether any is above the limit */
    memcpy(d, rows, (size_t)n * (n - 1));
    uint32_t pairs = n * (n - 1) / 2, signs = 0;
    for (uint32_t p = 0; p < pairs; p++) {
        signs |= 50000u - d[p];
    }
    bool gap = signs >> 31 != 0;
    for (uint32_t p = 0; gap && p < pairs; p++) {
        if (d[p] > 50000 && d[p] != MISSING) {
            return 7;
        }
    }
    uint32_t edges = vertices - 1;
    if (of_tree != n || edges < n || edges > 2 * n - 3) {
        return 8;
    }
    uint8_t children[MAX_V] = {0};
    for (uint32_t v = 0; v < edges; v++) {
        if (parent[v] <= v || parent[v] < n) {
            return 9;
        }
        if (parent[v] > edges) {
            return 16;
        }
    }
    for (uint32_t v = 0; v < edges; v++) {
        children[parent[v]]++;
    }
    for (uint32_t v = n; v <= edges; v++) {
        if (children[v] < (v == edges ? 3 : 2)) {
            return 10;
        }
    }
    if (gap && unseen(n, edges, d, parent)) {
        return 26;
    }
    if (k != edges) {
        return 11;
    }
    if (denominator < 1 || denominator > 1000000) {
        return 12;
    }
    int64_t length_of[MAX_V];
    for (uint32_t v = 0; v < edges; v++) {
        length_of[v] = (int64_t)eight(numerators + 8 * v);
        if (length_of[v] > 100000000000 || length_of[v] < -100000000000) {
            return 13;
        }
    }
    return EDGES && !gap ? edge_by_edge(n, edges, denominator, d, parent, length_of)
                         : pair_by_pair(n, edges, denominator, d, parent, length_of);
}
