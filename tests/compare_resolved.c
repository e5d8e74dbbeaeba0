/* Compares the proved direct fit with the plain reading on resolved trees of every size, by tables and by the print of
 * a sheet without lengths, and tries what it must refuse: each with its number, or with the whole line of its print,
 * and every buffer as it was; among these matrices with a missing pair, which the direct fit does not take. Last line: 'N passed, M failed'. */
#include <inttypes.h>
#include <stdio.h>
#include <string.h>

#include "plain.h"
#include "resolved.h"
#include "trees.h"
#include "vamuthexa.h"

enum { EDGES = 125, MISSING = 65535 };

struct buffers {
    int64_t tops[EDGES + 1], rounded[EDGES + 1];
    uint32_t bottoms[EDGES + 1];
};

static long passed, failed;

static void count(int fine, const char *what, uint32_t n) {
    if (fine) {
        passed++;
    } else if (failed++ < 20) {
        printf("failed: %s, N = %u\n", what, n);
    }
}

/* Lengths half way between two thousandths that came: positive with an even and an odd one below them, and negative
 * likewise, the sign set aside. */
static long ties[2][2];

static void count_ties(uint32_t k, const struct buffers *b) {
    for (uint32_t v = 0; v < k; v++) {
        int64_t twice = 2000 * (b->tops[v] < 0 ? -b->tops[v] : b->tops[v]);
        if (twice % b->bottoms[v] == 0 && twice / b->bottoms[v] % 2 == 1) {
            ties[b->tops[v] < 0][twice / b->bottoms[v] / 2 % 2]++;
        }
    }
}

static void refuses(uint32_t number, uint32_t n, const uint16_t *d, size_t pairs, const uint8_t *parents, size_t edges,
                    size_t tops, size_t bottoms, size_t rounded) {
    struct buffers b, was;
    memset(&b, 0xa5, sizeof b);
    was = b;
    uint32_t got = resolved_lengths(n, d, pairs, parents, edges, b.tops, tops, b.bottoms, bottoms, b.rounded, rounded);
    count(got == number && memcmp(&b, &was, sizeof b) == 0, "a refusal", n);
}

/* ---- the print of a sheet without lengths */
static size_t put(uint8_t *at, uint64_t x, int bytes) {
    for (int i = 0; i < bytes; i++) {
        at[i] = (uint8_t)(x >> (8 * i));
    }
    return (size_t)bytes;
}

/* The distances stand as in a lent matrix, and go to the sheet's rows. */
static size_t write_bare(uint8_t *out, uint32_t n, const uint16_t *d, const uint8_t *parents, uint32_t k) {
    size_t at = 0;
    at += put(out + at, 2 + n * (n - 1), 4);
    at += put(out + at, 1, 2);
    at += put(out + at, n, 2);
    for (uint32_t i = 0; i < n; i++) {
        for (uint32_t j = i + 1; j < n; j++) {
            at += put(out + at, d[j * (j - 1) / 2 + i], 2);
        }
    }
    at += put(out + at, 4 + k, 4);
    at += put(out + at, 2, 2);
    at += put(out + at, n, 2);
    at += put(out + at, k + 1, 2);
    memcpy(out + at, parents, k);
    return at + k;
}

static size_t write_fit(char *out, uint32_t n, const struct buffers *b, const uint64_t square[2]) {
    uint32_t k = 2 * n - 3;
    char *at = out + sprintf(out, "resolved %u %u\n", (unsigned)n, (unsigned)k);
    for (uint32_t v = 0; v < k; v++) {
        at += sprintf(at, "edge %u %" PRId64 " %" PRIu32 " %" PRId64 "\n", (unsigned)v, b->tops[v], b->bottoms[v], b->rounded[v]);
    }
    at += sprintf(at, "square %" PRIu64 " %" PRIu64 "\n", square[0], square[1]);
    return (size_t)(at - out);
}

/* The print is this text, or begins with it, and all behind it is as it was. */
static void prints(const uint8_t *sheet, size_t length, const char *text, size_t size, int whole, const char *what, uint32_t n) {
    static uint8_t page[VAMUTHEXA_PAGE];
    memset(page, 0xa5, sizeof page);
    size_t written = unfitted_print(sheet, length, page, sizeof page);
    int fine = written <= sizeof page && (whole ? written == size : written > size) && memcmp(page, text, size) == 0;
    for (size_t i = written; fine && i < sizeof page; i++) {
        fine = page[i] == 0xa5;
    }
    count(fine, what, n);
}

static void prints_damaged(const uint8_t *sheet, size_t length, uint32_t n) {
    char line[PLAIN_LINE];
    if (plain_unfitted_line(sheet, length, line) == 0) {
        prints(sheet, length, "resolved ", 9, 0, "the print of another fit", n);
    } else {
        prints(sheet, length, line, strlen(line), 1, "the print of a refusal", n);
    }
}

/* A fit's print, and those of the sheet cut, drawn out, with a byte changed and with parents changed. */
static void print_all(uint32_t n, const uint16_t *d, const uint8_t *parents, const struct buffers *plain, const uint64_t square[2]) {
    static uint8_t sheet[VAMUTHEXA_PAGE];
    static char text[VAMUTHEXA_PAGE];
    uint32_t k = 2 * n - 3;
    size_t length = write_bare(sheet, n, d, parents, k);
    prints(sheet, length, text, write_fit(text, n, plain, square), 1, "the print of a fit", n);
    count(unfitted_print(sheet, length, sheet + length, VAMUTHEXA_PAGE - length) == 0, "a page that is too small", n);
    prints_damaged(sheet, chance((uint32_t)length), n);
    sheet[length] = 0;
    prints_damaged(sheet, length + 1, n);
    for (int turn = 0; turn < 4; turn++) {
        size_t tree = length - k - 10, place = turn == 0 ? chance((uint32_t)length) : turn == 1 ? tree + chance(10) : length - 1 - chance(k);
        uint8_t old = sheet[place];
        sheet[place] = (uint8_t)(turn < 2 ? chance(256) : n + chance(n));
        prints_damaged(sheet, length, n);
        if (turn == 3) {
            sheet[length - 1 - chance(k)] = (uint8_t)chance(2 * n);
            prints_damaged(sheet, length, n);
        }
        sheet[place] = old;
    }
}

/* The line of a refusal, and whatever the plain reading says of the same sheet damaged. */
static void print_refused(uint32_t n, const uint16_t *d, const uint8_t *parents, uint32_t k, const char *line) {
    static uint8_t sheet[VAMUTHEXA_PAGE];
    char plain[PLAIN_LINE];
    size_t length = write_bare(sheet, n, d, parents, k);
    plain_unfitted_line(sheet, length, plain);
    count(strcmp(plain, line) == 0, "the plain line", n);
    prints(sheet, length, line, strlen(line), 1, "the print of a missing pair", n);
    sheet[chance((uint32_t)length)] = (uint8_t)chance(256);
    prints_damaged(sheet, length, n);
}

/* 26 for any missing pair, with no place: behind 7 to 10, 16 and 25, before 15. */
static void refuses_missing(uint32_t n, const uint16_t *whole, const uint8_t *parents) {
    static uint16_t d[2016];
    uint8_t other[128];
    uint32_t k = 2 * n - 3, pairs = n * (n - 1) / 2, one = chance(pairs);
    memcpy(d, whole, pairs * sizeof d[0]);
    memcpy(other, parents, k);
    d[one] = MISSING;
    refuses(26, n, d, pairs, parents, k, k, k, k);
    refuses(26, n, d, pairs, parents, k, k - 1, k, k);
    refuses(26, n, d, pairs, parents, k, k, k + 1, 0);
    print_refused(n, d, parents, k, "refused 26\n");
    refuses(4, n, d, pairs - 1, parents, k, k, k, k);
    refuses(8, n, d, pairs, parents, n - 1, k, k, k);
    other[0] = 0;
    refuses(9, n, d, pairs, other, k, k, k, k);
    print_refused(n, d, other, k, "refused 9 vertex 0\n");
    other[0] = (uint8_t)(k + 1);
    refuses(16, n, d, pairs, other, k, k, k, k);
    if (n > 3) {
        char line[PLAIN_LINE];
        memset(other, (int)n, n);
        sprintf(line, "refused 25 vertex %u\n", (unsigned)n);
        refuses(25, n, d, pairs, other, n, n, n, n);
        refuses(25, n, d, pairs, other, n, n, n + 1, n);
        print_refused(n, d, other, n, line);
    }
    uint32_t beside = (one + 1 + chance(pairs - 1)) % pairs;
    d[beside] = chance(2) == 0 ? 65534 : 50001; /* no missing pair, and beside one it is still 7 */
    refuses(7, n, d, pairs, parents, k, k, k, k);
    print_refused(n, d, parents, k, "refused 7\n");
    d[one] = whole[one];
    refuses(7, n, d, pairs, parents, k, k, k, k);
    for (uint32_t p = 0; p < pairs; p++) { /* some, at last all; an edge may then part nothing */
        d[p] = p == one || chance(3) == 0 || n % 5 == 0 ? MISSING : whole[p];
    }
    refuses(26, n, d, pairs, parents, k, k, k, k);
    print_refused(n, d, parents, k, "refused 26\n");
}

int main(void) {
    static uint16_t d[2016];
    uint8_t parents[128];
    for (int turn = 0; turn < 6000; turn++) {
        uint32_t n = 3 + (uint32_t)turn % 62, k = 2 * n - 3, pairs = n * (n - 1) / 2, most = turn % 3 == 0 ? 50001 : 1 + chance(50001);
        struct buffers ours, plain;
        uint64_t square[2];
        grow(parents, n, turn / 62 % 3);
        for (uint32_t p = 0; p < pairs; p++) {
            d[p] = (uint16_t)chance(most);
        }
        memset(&ours, 0x5a, sizeof ours);
        plain = ours;
        plain_resolved(n, d, parents, plain.tops, plain.bottoms, plain.rounded, square);
        uint32_t got = resolved_lengths(n, d, pairs, parents, k, ours.tops, k, ours.bottoms, k, ours.rounded, k);
        count(got == 0 && memcmp(&ours, &plain, sizeof ours) == 0, "a fit", n);
        count_ties(k, &plain);
        print_all(n, d, parents, &plain, square);
        refuses(4, n, d, pairs - 1, parents, k, k, k, k);
        refuses(15, n, d, pairs, parents, k, k - 1, k, k);
        refuses(15, n, d, pairs, parents, k, k, k + 1, k);
        refuses(15, n, d, pairs, parents, k, k, k, 0);
        refuses(8, n, d, pairs, parents, n - 1, k, k, k);
        uint16_t far = d[0];
        d[0] = 50001;
        refuses(7, n, d, pairs, parents, k, k, k, k);
        d[0] = far;
        uint8_t first = parents[0];
        parents[0] = 0;
        refuses(9, n, d, pairs, parents, k, k, k, k);
        parents[0] = (uint8_t)(k + 1);
        refuses(16, n, d, pairs, parents, k, k, k, k);
        uint8_t second = parents[1];
        parents[1] = 0;
        refuses(16, n, d, pairs, parents, k, k, k, k);
        parents[0] = 0;
        parents[1] = 255;
        refuses(9, n, d, pairs, parents, k, k, k, k);
        parents[0] = first;
        parents[1] = second;
        refuses_missing(n, d, parents);
        if (n > 3) {
            memset(parents, (int)n, n);
            refuses(25, n, d, pairs, parents, n, n, n, n);
        }
    }
    refuses(6, 2, d, 1, parents, 2, 2, 2, 2);
    refuses(6, 0, d, 0, parents, 0, 0, 0, 0);
    printf("ties: %ld and %ld of positive lengths, %ld and %ld of negative ones\n", ties[0][0], ties[0][1], ties[1][0], ties[1][1]);
    count(ties[0][0] > 0 && ties[0][1] > 0 && ties[1][0] > 0 && ties[1][1] > 0, "ties of every kind", 0);
    printf("%ld passed, %ld failed\n", passed, failed);
    return failed != 0;
}
