/* Accepted sheets, short and long, for the timings. */
#ifndef SHEETS_H
#define SHEETS_H

#include "trees.h"

static size_t put(uint8_t *at, uint64_t x, int bytes) {
    for (int i = 0; i < bytes; i++) {
        at[i] = (uint8_t)(x >> (8 * i));
    }
    return (size_t)bytes;
}

/* An accepted sheet: whole lengths, and their paths as distances. */
static inline size_t write_sheet(uint32_t n, int shape, uint8_t *out) {
    uint8_t parents[128];
    uint32_t k = 2 * n - 3;
    uint64_t below[128] = {0};
    grow(parents, n, shape);
    for (uint32_t i = 0; i < n; i++) {
        for (uint32_t v = i;; v = parents[v]) {
            below[v] |= (uint64_t)1 << i;
            if (v == k) {
                break;
            }
        }
    }
    size_t at = put(out, 2 + n * (n - 1), 4);
    at += put(out + at, 1, 2);
    at += put(out + at, n, 2);
    for (uint32_t i = 0; i < n; i++) {
        for (uint32_t j = i + 1; j < n; j++) {
            uint32_t path = 0;
            for (uint32_t v = 0; v < k; v++) {
                path += (below[v] >> i & 1) != (below[v] >> j & 1) ? 7 + v : 0;
            }
            at += put(out + at, path, 2);
        }
    }
    at += put(out + at, 4 + k, 4);
    at += put(out + at, 2, 2);
    at += put(out + at, n, 2);
    at += put(out + at, k + 1, 2);
    for (uint32_t v = 0; v < k; v++) {
        at += put(out + at, parents[v], 1);
    }
    at += put(out + at, 6 + 8 * k, 4);
    at += put(out + at, 3, 2);
    at += put(out + at, 1, 4);
    at += put(out + at, k, 2);
    for (uint32_t v = 0; v < k; v++) {
        at += put(out + at, 7 + v, 8);
    }
    return at;
}

/* The long sheet of the same lengths over a denominator of so many digits, highest first: D is a number whose digits are 1 and
 * then none zero, and each numerator that number times the edge's whole length. */
static inline size_t write_long_sheet(uint32_t n, int shape, uint32_t levels, uint8_t *out) {
    enum { BASE = 1000000 };
    uint32_t k = 2 * n - 3, front = 12 + 2 + n * (n - 1) + 4 + k;
    write_sheet(n, shape, out); /* the lengths are written over */
    size_t at = front + put(out + front, 4 + 4 * levels * (k + 1), 4);
    at += put(out + at, 4, 2);
    at += put(out + at, levels, 2);
    at += put(out + at, k, 2);
    for (uint32_t v = 0; v <= k; v++) {
        /* D first, and behind it the edges' digits, each on its level */
        uint64_t times = v == 0 ? 1 : 7 + (v - 1), carry = 0;
        for (uint32_t level = levels; level-- > 0;) {
            uint64_t digit = level == 0 ? 1 : 1 + (uint64_t)level * 789123 % 999999;
            carry += times * digit;
            put(out + at + 4 * (v == 0 ? level : levels + level * k + v - 1), carry % BASE, 4);
            carry /= BASE;
        }
    }
    return at + 4 * levels * (k + 1);
}

#endif
