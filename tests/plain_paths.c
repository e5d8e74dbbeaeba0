#include "plain_paths.h"

#include <inttypes.h>
#include <stdio.h>
#include <string.h>

#include "plain.h"
#include "plain_newick.h"

enum { MAX_N = 64, MISSING = 65535, LINE = 128 };

/* How a strain is called: by its name, or where there are no names by its number. */
static void call_strains(const struct plain_named *held, char called[MAX_N][12]) {
    const uint8_t *name = held->names;
    for (uint32_t i = 0; i < held->n; i++) {
        if (held->names == NULL) {
            snprintf(called[i], 12, "%u", (unsigned)i);
        } else {
            snprintf(called[i], 12, "%.*s", (int)name[0], (const char *)name + 1);
            name += 1 + name[0];
        }
    }
}

/* The strains below each vertex. */
static void fill_below(const struct plain_named *held, uint64_t below[PLAIN_VERTICES]) {
    memset(below, 0, PLAIN_VERTICES * sizeof below[0]);
    for (uint32_t i = 0; i < held->n; i++) {
        uint32_t v = i;
        for (; v < held->edges; v = held->parents[v]) {
            below[v] |= (uint64_t)1 << i;
        }
    }
}

size_t plain_paths_print(const uint8_t *sheet, size_t length, uint8_t *text, size_t size) {
    struct plain_named held;
    char line[LINE], called[MAX_N][12];
    if (size < PLAIN_PATHS_PAGE) {
        return 0;
    }
    /* four records of the form, or a sheet of three */
    uint32_t number = plain_named_line(sheet, length, plain_names, &held, line);
    if (number >= 1 && number <= 5) {
        number = plain_named_line(sheet, length, NULL, &held, line);
    }
    if (number != 0) {
        size_t count = strlen(line);
        memcpy(text, line, count);
        return count;
    }
    uint64_t below[PLAIN_VERTICES];
    call_strains(&held, called);
    fill_below(&held, below);
    size_t at = (size_t)snprintf(line, LINE, "fit %u %u %u\n", (unsigned)held.n, (unsigned)held.edges, (unsigned)held.denominator);
    memcpy(text, line, at);
    const uint8_t *next = held.distances;
    for (uint32_t i = 0; i < held.n; i++) {
        for (uint32_t j = i + 1; j < held.n; j++, next += 2) {
            int64_t d = next[0] | next[1] << 8, p = 0, q = 0;
            for (uint32_t v = 0; v < held.edges; v++) {
                if ((below[v] >> i & 1) != (below[v] >> j & 1)) {
                    p += held.numerators[v];
                    q += plain_thousandths(held.numerators[v], held.denominator);
                }
            }
            int count = d == MISSING ? snprintf(line, LINE, "pair %s %s - %" PRId64 " %" PRId64 " -\n", called[i], called[j], p, q)
                                     : snprintf(line, LINE, "pair %s %s %" PRId64 " %" PRId64 " %" PRId64 " %" PRId64 "\n", called[i],
                                                called[j], d, p, q, held.denominator * d - p);
            memcpy(text + at, line, (size_t)count);
            at += (size_t)count;
        }
    }
    return at;
}
