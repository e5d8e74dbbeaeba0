#include "plain.h"

#include <inttypes.h>
#include <stdio.h>
#include <string.h>

enum { MAX_N = 64, MAX_V = PLAIN_VERTICES, MAX_SHEET = 5187, MAX_NAMES = 6 + 11 * MAX_N, MISSING = 65535 };

static uint64_t little(const uint8_t *at, int bytes) {
    uint64_t x = 0;
    for (int k = bytes - 1; k >= 0; k--) {
        x = x << 8 | at[k];
    }
    return x;
}

struct sheet {
    uint32_t n, tree_n, v, k, d;
    const uint8_t *distances, *parents, *numerators, *names;
    size_t name_bytes;
};

/* Where the fault is; no word where the number has no place, and a sum that is zero where it has none. */
struct place {
    const char *word;
    size_t at;
    int64_t sum;
};

static uint32_t refuse(uint32_t number, struct place *place, const char *word, size_t at) {
    place->word = word;
    place->at = at;
    return number;
}

/* 1 to 5, over two records, three, or with names four. */
static uint32_t read_form(int records, const uint8_t *s, size_t length, struct sheet *out, struct place *place) {
    if (length > (records == 4 ? MAX_SHEET + MAX_NAMES : MAX_SHEET)) {
        return 1;
    }
    size_t at = 0;
    for (int record = 1; record <= records; record++) {
        int kind = record == 4 ? 5 : record;
        refuse(0, place, "byte", at); /* the place of 2, 3 and 4 */
        if (length - at < 6) {
            return 2;
        }
        uint64_t size = little(s + at, 4);
        if (length - at - 6 < size) {
            return 2;
        }
        if (little(s + at + 4, 2) != (uint64_t)kind) {
            return 3;
        }
        const uint8_t *body = s + at + 6;
        if (kind == 1) {
            if (size < 2) {
                return 4;
            }
            uint64_t n = little(body, 2);
            if (size != 2 + n * (n == 0 ? 0 : n - 1)) {
                return 4;
            }
            out->n = (uint32_t)n;
            out->distances = body + 2;
        } else if (kind == 2) {
            if (size < 4) {
                return 4;
            }
            out->tree_n = (uint32_t)little(body, 2);
            out->v = (uint32_t)little(body + 2, 2);
            if (out->v == 0 || size != 4 + (uint64_t)out->v - 1) {
                return 4;
            }
            out->parents = body + 4;
        } else if (kind == 5) {
            if (plain_count_names(body, (size_t)size) != (int64_t)out->n) {
                return 4;
            }
            out->names = body;
            out->name_bytes = (size_t)size;
        } else {
            if (size < 6) {
                return 4;
            }
            out->d = (uint32_t)little(body, 4);
            out->k = (uint32_t)little(body + 4, 2);
            if (size != 6 + 8 * (uint64_t)out->k) {
                return 4;
            }
            out->numerators = body + 6;
        }
        at += 6 + (size_t)size;
    }
    place->word = NULL;
    return at == length ? 0 : refuse(5, place, "byte", at);
}

int64_t plain_count_names(const uint8_t *body, size_t size) {
    size_t at = 0;
    int64_t count = 0;
    for (; at < size; count++) {
        at += 1 + (size_t)body[at];
    }
    return at == size ? count : -1;
}

/* 6 to 10 and 16; fills the tables. */
static uint32_t read_front(const struct sheet *s, uint16_t d[], uint8_t parent[], struct place *place) {
    if (s->n < 3 || s->n > MAX_N) {
        return 6;
    }
    uint32_t pairs = s->n * (s->n - 1) / 2;
    for (uint32_t p = 0; p < pairs; p++) {
        d[p] = (uint16_t)little(s->distances + 2 * p, 2);
        if (d[p] > 50000 && d[p] != MISSING) {
            return 7;
        }
    }
    if (s->tree_n != s->n || s->v < s->n + 1 || s->v > 2 * s->n - 2) {
        return 8;
    }
    uint32_t children[MAX_V] = {0};
    for (uint32_t v = 0; v + 1 < s->v; v++) {
        parent[v] = s->parents[v];
        if (parent[v] <= v || parent[v] < s->n) {
            return refuse(9, place, "vertex", v);
        }
        if (parent[v] >= s->v) {
            return refuse(16, place, "vertex", v);
        }
    }
    for (uint32_t v = 0; v + 1 < s->v; v++) {
        children[parent[v]]++;
    }
    for (uint32_t v = s->n; v < s->v; v++) {
        if (children[v] < (v == s->v - 1 ? 3u : 2u)) {
            return refuse(10, place, "vertex", v);
        }
    }
    return 0;
}

/* 11 to 13; fills the table. */
static uint32_t read_lengths(const struct sheet *s, int64_t n[], struct place *place) {
    if (s->k != s->v - 1) {
        return 11;
    }
    if (s->d < 1 || s->d > 1000000) {
        return 12;
    }
    for (uint32_t v = 0; v < s->k; v++) {
        n[v] = (int64_t)little(s->numerators + 8 * v, 8);
        if (n[v] > 100000000000 || n[v] < -100000000000) {
            return refuse(13, place, "edge", v);
        }
    }
    return 0;
}

/* Which strains are below which vertex. */
static void fill_below(const struct sheet *s, const uint8_t parent[], uint8_t below[][MAX_N]) {
    memset(below, 0, MAX_V * MAX_N);
    for (uint32_t i = 0; i < s->n; i++) {
        for (uint32_t v = i;; v = parent[v]) {
            below[v][i] = 1;
            if (v == s->v - 1) {
                break;
            }
        }
    }
}

/* 26: every edge is asked for every pair. */
static uint32_t triple_unseen(const struct sheet *s, const uint16_t d[], const uint8_t parent[], struct place *place) {
    static uint8_t below[MAX_V][MAX_N];
    fill_below(s, parent, below);
    for (uint32_t v = 0; v + 1 < s->v; v++) {
        uint32_t p = 0, parted = 0;
        for (uint32_t i = 0; i < s->n; i++) {
            for (uint32_t j = i + 1; j < s->n; j++, p++) {
                parted += below[v][i] != below[v][j] && d[p] != MISSING;
            }
        }
        if (parted == 0) {
            return refuse(26, place, "edge", v);
        }
    }
    return 0;
}

/* Each edge's sum of remainders: every edge is asked for every pair. */
static void triple(struct sheet s, const uint16_t d[], const uint8_t parent[], const int64_t n[], int64_t sums[]) {
    static uint8_t below[MAX_V][MAX_N];
    fill_below(&s, parent, below);
    static int64_t remainder[MAX_N * MAX_N];
    uint32_t p = 0;
    for (uint32_t i = 0; i < s.n; i++) {
        for (uint32_t j = i + 1; j < s.n; j++, p++) {
            int64_t path = 0;
            for (uint32_t v = 0; v < s.k; v++) {
                if (below[v][i] != below[v][j]) {
                    path += n[v];
                }
            }
            remainder[p] = d[p] == MISSING ? 0 : (int64_t)s.d * d[p] - path;
        }
    }
    for (uint32_t v = 0; v < s.k; v++) {
        __int128 sum = 0;
        p = 0;
        for (uint32_t i = 0; i < s.n; i++) {
            for (uint32_t j = i + 1; j < s.n; j++, p++) {
                if (below[v][i] != below[v][j]) {
                    sum += remainder[p];
                }
            }
        }
        sums[v] = (int64_t)sum;
    }
}

/* 26: every measured pair walks from both ends to where its path turns; the lowest edge that none took. A complete matrix
 * needs no walk: each edge has a strain below it and one that is not. */
static uint32_t pass_unseen(const struct sheet *s, const uint16_t d[], const uint8_t parent[], struct place *place) {
    uint8_t walked[MAX_V] = {0};
    uint32_t p = 0, pairs = s->n * (s->n - 1) / 2;
    while (p < pairs && d[p] != MISSING) {
        p++;
    }
    if (p == pairs) {
        return 0;
    }
    p = 0;
    for (uint32_t i = 0; i < s->n; i++) {
        for (uint32_t j = i + 1; j < s->n; j++, p++) {
            for (uint32_t a = i, b = j; d[p] != MISSING && a != b;) {
                uint32_t *low = a < b ? &a : &b;
                walked[*low] = 1;
                *low = parent[*low];
            }
        }
    }
    for (uint32_t v = 0; v + 1 < s->v; v++) {
        if (!walked[v]) {
            return refuse(26, place, "edge", v);
        }
    }
    return 0;
}

/* Each edge's sum of remainders: each pair is met once. */
static void pass(struct sheet s, const uint16_t d[], const uint8_t parent[], const int64_t n[], int64_t sums[]) {
    /* the strains below each vertex so far, as a list; each strain's way up to the vertex that it is listed at */
    uint8_t list[MAX_V][MAX_N], count[MAX_V] = {0};
    int64_t way[MAX_N] = {0}, sum[MAX_V] = {0}, across[MAX_V] = {0};
    for (uint32_t i = 0; i < s.n; i++) {
        list[i][0] = (uint8_t)i;
        count[i] = 1;
    }
    for (uint32_t v = 0; v < s.k; v++) {
        uint32_t up = parent[v];
        for (uint32_t a = 0; a < count[v]; a++) {
            uint32_t i = list[v][a];
            way[i] += n[v];
            for (uint32_t b = 0; b < count[up]; b++) {
                uint32_t j = list[up][b], low = i < j ? i : j, high = i < j ? j : i;
                uint16_t far = d[low * (2 * s.n - low - 1) / 2 + high - low - 1];
                int64_t r = far == MISSING ? 0 : (int64_t)s.d * far - way[i] - way[j];
                sum[i] += r;
                sum[j] += r;
                across[up] += r;
            }
        }
        memcpy(list[up] + count[up], list[v], count[v]);
        count[up] = (uint8_t)(count[up] + count[v]);
    }
    /* an outer edge has its strain's row; an inner one its children's sums, less twice what met there */
    for (uint32_t v = 0; v < s.k; v++) {
        sums[v] = sum[v] - 2 * across[v];
        sum[parent[v]] += sums[v];
    }
}

/* 22, 14 and 23, each over all edges before the next; by the plain rule 14 alone, whatever the lengths are. */
static uint32_t balance(enum plain_rule rule, uint32_t edges, const int64_t n[], const int64_t sums[],
                        struct place *place) {
    for (uint32_t v = 0; v < edges && rule == DRAWABLE; v++) {
        if (n[v] < 0) {
            return refuse(22, place, "edge", v);
        }
    }
    for (uint32_t v = 0; v < edges; v++) {
        if ((rule == PLAIN || n[v] > 0) && sums[v] != 0) {
            place->sum = sums[v];
            return refuse(14, place, "edge", v);
        }
    }
    for (uint32_t v = 0; v < edges && rule == DRAWABLE; v++) {
        if (n[v] == 0 && sums[v] > 0) {
            place->sum = sums[v];
            return refuse(23, place, "edge", v);
        }
    }
    return 0;
}

typedef uint32_t unseen_of(const struct sheet *, const uint16_t[], const uint8_t[], struct place *);
typedef void sums_of(struct sheet, const uint16_t[], const uint8_t[], const int64_t[], int64_t[]);

/* 6 to 10 and 16, the edges that part no measured pair, 11 to 13; then fills the parents, the lengths and the sums. */
static uint32_t weigh_tables(unseen_of *unseen, sums_of *sums_by, const struct sheet *s, uint8_t parent[], int64_t n[],
                             int64_t sums[], struct place *place) {
    uint16_t d[MAX_N * MAX_N];
    uint32_t number = read_front(s, d, parent, place);
    if (number == 0) {
        number = unseen(s, d, parent, place);
    }
    if (number == 0) {
        number = read_lengths(s, n, place);
    }
    if (number == 0) {
        sums_by(*s, d, parent, n, sums);
    }
    return number;
}

/* 1 to 5 before those. */
static uint32_t weigh(const uint8_t *bytes, size_t length, unseen_of *unseen, sums_of *sums_by, struct sheet *s,
                      int64_t n[], int64_t sums[], struct place *place) {
    uint8_t parent[MAX_V];
    uint32_t number = read_form(3, bytes, length, s, place);
    return number != 0 ? number : weigh_tables(unseen, sums_by, s, parent, n, sums, place);
}

static uint32_t verdict(enum plain_rule rule, const uint8_t *bytes, size_t length, unseen_of *unseen, sums_of *sums_by,
                        struct place *place) {
    struct sheet s;
    int64_t n[MAX_V], sums[MAX_V];
    uint32_t number = weigh(bytes, length, unseen, sums_by, &s, n, sums, place);
    return number != 0 ? number : balance(rule, s.k, n, sums, place);
}

uint32_t plain_triple(const uint8_t *bytes, size_t length) {
    struct place place = {0};
    return verdict(PLAIN, bytes, length, triple_unseen, triple, &place);
}

uint32_t plain_pass(const uint8_t *bytes, size_t length) {
    struct place place = {0};
    return verdict(PLAIN, bytes, length, pass_unseen, pass, &place);
}

struct plain_zeros plain_zeros(const uint8_t *bytes, size_t length) {
    struct plain_zeros zeros = {0};
    struct place place = {0};
    struct sheet s;
    int64_t n[MAX_V] = {0}, sums[MAX_V];
    if (weigh(bytes, length, pass_unseen, pass, &s, n, sums, &place) == 0) {
        for (uint32_t v = 0; v < s.k; v++) {
            if (n[v] == 0 && sums[v] > 0 && zeros.above++ == 0) {
                zeros.lowest_above = v;
            }
            zeros.below += n[v] == 0 && sums[v] < 0;
            zeros.level += n[v] == 0 && sums[v] == 0;
        }
    }
    return zeros;
}

static uint32_t write_line(uint32_t number, const struct place *place, char line[PLAIN_LINE]) {
    line[0] = 0;
    if (number != 0 && place->sum != 0) {
        snprintf(line, PLAIN_LINE, "refused %u edge %zu %" PRId64 "\n", (unsigned)number, place->at, place->sum);
    } else if (number != 0 && place->word != NULL) {
        snprintf(line, PLAIN_LINE, "refused %u %s %zu\n", (unsigned)number, place->word, place->at);
    } else if (number != 0) {
        snprintf(line, PLAIN_LINE, "refused %u\n", (unsigned)number);
    }
    return number;
}

uint32_t plain_triple_line(enum plain_rule rule, const uint8_t *bytes, size_t length, char line[PLAIN_LINE]) {
    struct place place = {0};
    uint32_t number = verdict(rule, bytes, length, triple_unseen, triple, &place);
    return write_line(number, &place, line);
}

uint32_t plain_pass_line(enum plain_rule rule, const uint8_t *bytes, size_t length, char line[PLAIN_LINE]) {
    struct place place = {0};
    uint32_t number = verdict(rule, bytes, length, pass_unseen, pass, &place);
    return write_line(number, &place, line);
}

uint32_t plain_unfitted_line(const uint8_t *bytes, size_t length, char line[PLAIN_LINE]) {
    struct sheet s = {0};
    struct place place = {0};
    uint16_t d[MAX_N * MAX_N];
    uint8_t parent[MAX_V];
    uint32_t number = read_form(2, bytes, length, &s, &place);
    if (number == 0) {
        number = read_front(&s, d, parent, &place);
    }
    for (uint32_t w = s.n; number == 0 && w < s.v; w++) {
        uint32_t degree = w + 1 < s.v;
        for (uint32_t v = 0; v + 1 < s.v; v++) {
            degree += parent[v] == w;
        }
        if (degree != 3) {
            number = refuse(25, &place, "vertex", w);
        }
    }
    for (uint32_t p = 0; number == 0 && p < s.n * (s.n - 1) / 2; p++) {
        if (d[p] == MISSING) {
            number = 26;
        }
    }
    return write_line(number, &place, line);
}

uint32_t plain_named_line(const uint8_t *bytes, size_t length, plain_names_of *names_by, struct plain_named *out,
                          char line[PLAIN_LINE]) {
    struct sheet s = {0};
    struct place place = {0};
    int64_t sums[MAX_V];
    uint32_t number = read_form(names_by == NULL ? 3 : 4, bytes, length, &s, &place);
    if (number == 0 && names_by != NULL) {
        number = names_by(s.names, s.name_bytes);
    }
    if (number == 0) {
        number = weigh_tables(pass_unseen, pass, &s, out->parents, out->numerators, sums, &place);
    }
    if (number == 0) {
        number = balance(PLAIN, s.k, out->numerators, sums, &place);
    }
    out->n = s.n;
    out->edges = s.k;
    out->denominator = s.d;
    out->distances = s.distances;
    out->names = s.names;
    out->name_bytes = s.name_bytes;
    return write_line(number, &place, line);
}
