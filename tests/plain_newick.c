#include "plain_newick.h"

#include <string.h>

#include "plain.h"

enum { MAX_N = 64, MAX_V = PLAIN_VERTICES, MAX_TEXT = 65536, MAX_OPEN = 62, MAX_NAME = 10, SLOTS = 256 };
static const int64_t FAR = 100000000000;

/* ---- names: 1 to 10 bytes as two words with zeros behind them, in a table by their hash */
struct name {
    uint64_t low, high;
};

struct names {
    uint32_t n;
    const uint8_t *start[MAX_N];
    struct name name[MAX_N];
    uint8_t slot[SLOTS]; /* a strain's number and one more, or 0 */
};

/* Which bytes stand in a name, and which are digits. */
enum { LETTER = 1, DIGIT = 3 };
static const uint8_t kinds[256] = {
    ['0'] = 3, ['1'] = 3, ['2'] = 3, ['3'] = 3, ['4'] = 3, ['5'] = 3, ['6'] = 3, ['7'] = 3, ['8'] = 3, ['9'] = 3, ['_'] = 1,
    ['A'] = 1, ['B'] = 1, ['C'] = 1, ['D'] = 1, ['E'] = 1, ['F'] = 1, ['G'] = 1, ['H'] = 1, ['I'] = 1, ['J'] = 1, ['K'] = 1,
    ['L'] = 1, ['M'] = 1, ['N'] = 1, ['O'] = 1, ['P'] = 1, ['Q'] = 1, ['R'] = 1, ['S'] = 1, ['T'] = 1, ['U'] = 1, ['V'] = 1,
    ['W'] = 1, ['X'] = 1, ['Y'] = 1, ['Z'] = 1, ['a'] = 1, ['b'] = 1, ['c'] = 1, ['d'] = 1, ['e'] = 1, ['f'] = 1, ['g'] = 1,
    ['h'] = 1, ['i'] = 1, ['j'] = 1, ['k'] = 1, ['l'] = 1, ['m'] = 1, ['n'] = 1, ['o'] = 1, ['p'] = 1, ['q'] = 1, ['r'] = 1,
    ['s'] = 1, ['t'] = 1, ['u'] = 1, ['v'] = 1, ['w'] = 1, ['x'] = 1, ['y'] = 1, ['z'] = 1,
};

static struct name packed(const uint8_t *at, size_t size) {
    struct name name = {0, 0};
    for (size_t k = 0; k < size && k < 8; k++) {
        name.low |= (uint64_t)at[k] << (8 * k);
    }
    for (size_t k = 8; k < size; k++) {
        name.high |= (uint64_t)at[k] << (8 * (k - 8));
    }
    return name;
}

static uint32_t hashed(struct name name) {
    return (uint32_t)((name.low * 0x9e3779b97f4a7c15u + name.high * 0xc2b2ae3d27d4eb4fu) >> 56);
}

/* The slot of this name, or the free one where it would go. */
static uint32_t find(const struct names *names, struct name name) {
    uint32_t at = hashed(name);
    for (; names->slot[at] != 0; at = (at + 1) % SLOTS) {
        const struct name *known = &names->name[names->slot[at] - 1];
        if (known->low == name.low && known->high == name.high) {
            break;
        }
    }
    return at;
}

/* 28, or the first 64 names in a table; `n` counts all of them. Those behind the 64th are compared one by one. */
static uint32_t take_names(const uint8_t *body, size_t size, struct names *names) {
    names->n = 0;
    memset(names->slot, 0, sizeof names->slot);
    for (size_t at = 0; at < size; names->n++) {
        size_t length = body[at];
        const uint8_t *start = body + at + 1;
        if (length < 1 || length > MAX_NAME) {
            return 28;
        }
        for (size_t k = 0; k < length; k++) {
            if (!kinds[start[k]]) {
                return 28;
            }
        }
        if (names->n < MAX_N) {
            struct name name = packed(start, length);
            uint32_t slot = find(names, name);
            if (names->slot[slot] != 0) {
                return 28;
            }
            names->slot[slot] = (uint8_t)(names->n + 1);
            names->name[names->n] = name;
            names->start[names->n] = start;
        } else {
            for (size_t other = 0; other < at; other += 1 + (size_t)body[other]) {
                if (body[other] == length && memcmp(body + other + 1, start, length) == 0) {
                    return 28;
                }
            }
        }
        at += 1 + length;
    }
    return 0;
}

/* 2 to 5, 28, 6 of a names record that is lent alone. */
static uint32_t lent_names(const uint8_t *record, size_t length, struct names *names) {
    if (length < 6) {
        return 2;
    }
    uint64_t size = (uint64_t)record[0] | (uint64_t)record[1] << 8 | (uint64_t)record[2] << 16 | (uint64_t)record[3] << 24;
    if (length - 6 < size) {
        return 2;
    }
    if (record[4] != 5 || record[5] != 0) {
        return 3;
    }
    if (plain_count_names(record + 6, (size_t)size) < 0) {
        return 4;
    }
    if (length - 6 != size) {
        return 5;
    }
    uint32_t number = take_names(record + 6, (size_t)size, names);
    return number != 0 ? number : names->n < 3 || names->n > MAX_N ? 6 : 0;
}

/* ---- writing */
static uint8_t *put_length(uint8_t *to, int64_t m) {
    uint64_t size = m < 0 ? -(uint64_t)m : (uint64_t)m, whole = size / 1000;
    uint32_t places = (uint32_t)(size % 1000);
    uint8_t digits[20], *first = digits + sizeof digits;
    if (m < 0) {
        *to++ = '-';
    }
    do {
        *--first = (uint8_t)('0' + whole % 10);
        whole /= 10;
    } while (whole != 0);
    size_t count = (size_t)(digits + sizeof digits - first);
    memcpy(to, first, count);
    to += count;
    to[0] = '.';
    to[1] = (uint8_t)('0' + places / 100);
    to[2] = (uint8_t)('0' + places / 10 % 10);
    to[3] = (uint8_t)('0' + places % 10);
    return to + 4;
}

/* A tree as it is written: of each inner vertex its first child, of each vertex the next one with the same parent, 0 where there is none. No
 * vertex but a strain is 0, so both hold one more. */
struct written {
    const struct names *names;
    const int64_t *thousandths;
    uint8_t first[MAX_V], next[MAX_V];
};

static uint8_t *put_vertex(uint8_t *to, const struct written *tree, uint32_t v) {
    if (v < tree->names->n) {
        size_t size = tree->names->start[v][-1];
        memcpy(to, tree->names->start[v], size);
        return to + size;
    }
    uint8_t lead = '(';
    for (uint32_t child = tree->first[v]; child != 0; child = tree->next[child - 1]) {
        *to++ = lead;
        to = put_vertex(to, tree, child - 1);
        *to++ = ':';
        to = put_length(to, tree->thousandths[child - 1]);
        lead = ',';
    }
    *to++ = ')';
    return to;
}

static size_t put_tree(uint8_t *text, const struct names *names, const uint8_t *parents, uint32_t edges, const int64_t *thousandths) {
    struct written tree;
    tree.names = names;
    tree.thousandths = thousandths;
    memset(tree.first, 0, sizeof tree.first);
    for (uint32_t v = edges; v-- > 0;) {
        tree.next[v] = tree.first[parents[v]];
        tree.first[parents[v]] = (uint8_t)(v + 1);
    }
    uint8_t *end = put_vertex(text, &tree, edges);
    *end++ = ';';
    return (size_t)(end - text);
}

/* 8, 9 or 16, 10 of a tree of 3 to 64 strains. */
static uint32_t tree_number(uint32_t n, const uint8_t *parents, size_t edges) {
    if (edges < n || edges > 2 * n - 3) {
        return 8;
    }
    uint8_t children[MAX_V] = {0};
    for (size_t v = 0; v < edges; v++) {
        if (parents[v] > edges) {
            return 16;
        }
        if (parents[v] <= v || parents[v] < n) {
            return 9;
        }
        children[parents[v]]++;
    }
    for (size_t v = n; v <= edges; v++) {
        if (children[v] < (v == edges ? 3 : 2)) {
            return 10;
        }
    }
    return 0;
}

uint32_t plain_newick_write(const uint8_t *record, size_t record_length, const uint8_t *parents, size_t edges, const int64_t *thousandths,
                            size_t thousandth_count, uint8_t *text, size_t size, size_t *length) {
    struct names names;
    uint32_t number = lent_names(record, record_length, &names);
    if (number == 0) {
        number = tree_number(names.n, parents, edges);
    }
    if (number != 0) {
        return number;
    }
    if (thousandth_count != edges) {
        return 11;
    }
    for (size_t v = 0; v < edges; v++) {
        if (thousandths[v] > FAR || thousandths[v] < -FAR) {
            return 13;
        }
    }
    if (size != MAX_TEXT) {
        return 15;
    }
    *length = put_tree(text, &names, parents, (uint32_t)edges, thousandths);
    return 0;
}

int64_t plain_thousandths(int64_t n, uint32_t denominator) {
    uint64_t size = 1000 * (n < 0 ? -(uint64_t)n : (uint64_t)n), m = size / denominator, twice = 2 * (size % denominator);
    m += twice > denominator || (twice == denominator && m % 2 == 1);
    return n < 0 ? -(int64_t)m : (int64_t)m;
}

static struct names of_sheet;

uint32_t plain_names(const uint8_t *body, size_t size) {
    return take_names(body, size, &of_sheet);
}

size_t plain_newick_print(const uint8_t *sheet, size_t length, uint8_t *text, size_t size) {
    if (size < MAX_TEXT + 1) {
        return 0;
    }
    struct plain_named held;
    char line[PLAIN_LINE];
    if (plain_named_line(sheet, length, plain_names, &held, line) != 0) {
        size_t count = strlen(line);
        memcpy(text, line, count);
        return count;
    }
    int64_t rounded[MAX_V];
    for (uint32_t v = 0; v < held.edges; v++) {
        rounded[v] = plain_thousandths(held.numerators[v], held.denominator);
    }
    size_t end = put_tree(text, &of_sheet, held.parents, held.edges, rounded);
    text[end] = '\n';
    return end + 1;
}

/* ---- reading */
/* Behind the length that stands here, or beyond the text where none does; `*m` is more than 13 allows where it has too many digits. */
static size_t take_length(const uint8_t *t, size_t at, size_t size, int64_t *m) {
    int minus = at < size && t[at] == '-';
    at += (size_t)minus;
    size_t whole = at;
    int64_t value = 0;
    for (; at < size && kinds[t[at]] == DIGIT; at++) {
        value = value > FAR ? value : value * 10 + (t[at] - '0');
    }
    if (at == whole || (t[whole] == '0' && at - whole > 1) || size - at < 4 || t[at] != '.' || kinds[t[at + 1]] != DIGIT || kinds[t[at + 2]] != DIGIT ||
        kinds[t[at + 3]] != DIGIT) {
        return size + 1;
    }
    value = value > FAR ? value : value * 1000 + (t[at + 1] - '0') * 100 + (t[at + 2] - '0') * 10 + (t[at + 3] - '0');
    if (minus && value == 0) {
        return size + 1;
    }
    *m = minus ? -value : value;
    return at + 4;
}

uint32_t plain_newick_read(const uint8_t *record, size_t record_length, const uint8_t *t, size_t size, uint8_t *parents, size_t parent_count,
                           int64_t *numerators, size_t numerator_count) {
    struct names names;
    uint32_t number = lent_names(record, record_length, &names);
    if (number != 0) {
        return number;
    }
    if (size > MAX_TEXT) {
        return 28;
    }
    uint8_t up[MAX_V], waiting[MAX_V], children[MAX_V];
    int64_t m[MAX_V];
    uint64_t met = 0;
    uint32_t n = names.n, next = n, open = 0, left = 0, start[MAX_OPEN + 1] = {0};
    int unknown = 0, crowded = 0; /* 29 and 8; behind either nothing is kept */
    size_t at = 0;
    for (;;) {
        /* a vertex */
        uint32_t v = 0;
        while (at < size && t[at] == '(') {
            if (++open > MAX_OPEN) {
                return 28;
            }
            start[open] = left;
            at++;
        }
        if (open == 0) {
            return 28;
        }
        size_t name = at;
        while (at < size && kinds[t[at]]) {
            at++;
        }
        if (at == name || at - name > MAX_NAME) {
            return 28;
        }
        uint32_t strain = names.slot[find(&names, packed(t + name, at - name))];
        unknown |= strain == 0 || (met >> (strain - 1) & 1);
        if (!unknown) {
            v = strain - 1;
            met |= (uint64_t)1 << v;
        }
        /* its length, and the brackets that close behind it, each with its own */
        for (;;) {
            int64_t length = 0;
            if (at >= size || t[at] != ':' || (at = take_length(t, at + 1, size, &length)) >= size) {
                return 28;
            }
            if (!unknown && !crowded) {
                m[v] = length;
                waiting[left++] = (uint8_t)v;
            }
            if (t[at] != ')') {
                break;
            }
            at++;
            crowded |= next > 2 * n - 3;
            v = next++;
            if (!unknown && !crowded) {
                children[v] = (uint8_t)(left - start[open]);
                while (left > start[open]) {
                    up[waiting[--left]] = (uint8_t)v;
                }
            }
            if (--open == 0) {
                break;
            }
        }
        if (open == 0) {
            break;
        }
        if (t[at++] != ',') {
            return 28;
        }
    }
    if (at + 1 != size || t[at] != ';') {
        return 28;
    }
    if (unknown || met != (n == 64 ? ~(uint64_t)0 : ((uint64_t)1 << n) - 1)) {
        return 29;
    }
    if (crowded) {
        return 8;
    }
    uint32_t edges = next - 1;
    for (uint32_t v = n; v <= edges; v++) {
        if (children[v] < (v == edges ? 3 : 2)) {
            return 10;
        }
    }
    for (uint32_t v = 0; v < edges; v++) {
        if (m[v] > FAR || m[v] < -FAR) {
            return 13;
        }
    }
    if (parent_count != edges || numerator_count != edges) {
        return 15;
    }
    memcpy(parents, up, edges);
    memcpy(numerators, m, edges * sizeof m[0]);
    return 0;
}
