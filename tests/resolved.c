#include "resolved.h"

enum { MAX_N = 64, MAX_V = 2 * MAX_N - 2 };

static uint64_t common(uint64_t a, uint64_t b) {
    while (b != 0) {
        uint64_t left = a % b;
        a = b;
        b = left;
    }
    return a;
}

/* The whole number nearest 1000·n/d for n of zero or more, at a tie the even one. */
static int64_t nearest(int64_t n, int64_t d) {
    int64_t low = 1000 * n / d, below = 1000 * n - low * d, above = d - below;
    if (below == above) {
        return low % 2 == 0 ? low : low + 1;
    }
    return below < above ? low : low + 1;
}

/* Where the pair of two strains stands in a lent matrix. */
static uint32_t place(uint32_t i, uint32_t j) {
    return i < j ? j * (j - 1) / 2 + i : place(j, i);
}

/* The distances between the strains of every two vertices, children before parents. */
static void between(uint32_t n, uint32_t k, const uint16_t *d, uint32_t child[][3], int64_t sum[][MAX_V]) {
    for (uint32_t u = 0; u <= k; u++) {
        for (uint32_t v = 0; v <= u; v++) {
            int64_t s;
            if (u < n) {
                s = u == v ? 0 : d[place(u, v)];
            } else {
                s = sum[child[u][0]][v] + sum[child[u][1]][v] + (u == k ? sum[child[u][2]][v] : 0);
            }
            sum[u][v] = sum[v][u] = s;
        }
    }
}

void plain_resolved(uint32_t n, const uint16_t *d, const uint8_t *parents, int64_t *numerators, uint32_t *denominators,
                    int64_t *rounded, uint64_t square[2]) {
    static int64_t sum[MAX_V][MAX_V];
    uint32_t k = 2 * n - 3, child[MAX_V][3], count[MAX_V] = {0};
    int64_t size[MAX_V] = {0};
    for (uint32_t v = 0; v < k; v++) {
        if (v < n) {
            size[v] = 1;
        }
        child[parents[v]][count[parents[v]]++] = v;
        size[parents[v]] += size[v];
    }
    between(n, k, d, child, sum);
    for (uint32_t v = 0; v < k; v++) {
        uint32_t up = parents[v], s = child[up][0] == v ? child[up][1] : child[up][0];
        /* C: the sibling's strains; D: those below neither */
        int64_t c = size[s], e = n - size[v] - c, cd = sum[s][k] - sum[s][v] - sum[s][s], top, bottom;
        if (v < n) {
            int64_t ic = sum[v][s], ie = sum[v][k] - sum[v][v] - ic;
            top = e * ic + c * ie - cd;
            bottom = 2 * c * e;
        } else {
            uint32_t x = child[v][0], y = child[v][1];
            int64_t a = size[x], b = size[y], ab = sum[x][y], ac = sum[x][s], bc = sum[y][s];
            int64_t ad = sum[x][k] - sum[x][v] - ac, bd = sum[y][k] - sum[y][v] - bc;
            top = (a * e + b * c) * (b * e * ac + a * c * bd) + (a * c + b * e) * (b * c * ad + a * e * bc) -
                  (a + b) * (c + e) * (c * e * ab + a * b * cd);
            bottom = 2 * a * b * c * e * (a + b) * (c + e);
        }
        uint64_t g = common(top < 0 ? (uint64_t)-top : (uint64_t)top, (uint64_t)bottom);
        numerators[v] = top / (int64_t)g;
        denominators[v] = (uint32_t)((uint64_t)bottom / g);
        rounded[v] = numerators[v] < 0 ? -nearest(-numerators[v], denominators[v]) : nearest(numerators[v], denominators[v]);
    }
    uint64_t r = 0, h = 0;
    for (uint32_t i = 0; i < n; i++) {
        for (uint32_t j = i + 1; j < n; j++) {
            int64_t off = 1000 * (int64_t)d[place(i, j)];
            uint64_t edges = 0;
            for (uint32_t a = i, b = j; a != b; edges++) {
                if (a < b) {
                    off -= rounded[a];
                    a = parents[a];
                } else {
                    off -= rounded[b];
                    b = parents[b];
                }
            }
            r += (uint64_t)(off * off);
            h += edges * edges;
        }
    }
    square[0] = r;
    square[1] = h;
}
