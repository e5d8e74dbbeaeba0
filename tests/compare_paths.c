/* Compares `paths_print` with the plain print of tests/plain_paths.c, byte for byte, on more than 8,000 sheets: accepted ones of 3 to 64 strains with names
 * and without, with missing pairs, with negative lengths, with lengths that are no whole thousandths and as long as may be; and of each the same cut, with
 * bytes behind it, with a byte changed in each record, with a field at or past a limit, with a length that does not fit and with names that are hurt.
 * Each sheet, and the page for the text, is lent at the very end of a room that is followed by a page that cannot be read, so that a step past it ends
 * the program. What stands behind the text must be as it was, and all of a page that is too small.
 *
 * Compiled with -DOF_PLAIN it prints the plain print of each sheet that tests/paths.py --plain draws, and behind each a line `end`: a sheet comes as its
 * length in four bytes, little-endian, and its bytes. */
#include <stdio.h>
#include <stdlib.h>
#include <string.h>

#include "plain_paths.h"

enum { ROOM = 1 << 17 };

static uint8_t due[PLAIN_PATHS_PAGE];

#ifdef OF_PLAIN
#include "drawn.h"

int main(void) {
    static uint8_t sheet[ROOM];
    uint32_t length;
    while (take(&length)) {
        expect(length <= ROOM && fread(sheet, 1, length, stdin) == length, "a drawn sheet that is cut, or that there is no room for");
        if (failed != 0) {
            return 1;
        }
        expect(plain_paths_print(sheet, length, due, PLAIN_PATHS_PAGE - 1) == 0, "a page that is too small was written to");
        fwrite(due, 1, plain_paths_print(sheet, length, due, PLAIN_PATHS_PAGE), stdout);
        puts("end");
    }
    return failed != 0;
}
#else
#include "drawn_sheets.h"
#include "plain.h"
#include "plain_newick.h"
#include "resolved.h"
#include "vamuthexa.h"

enum { PAGE = PLAIN_PATHS_PAGE, MARGIN = 64, UNTOUCHED = 0xa5, NUMBERS = 30, LONGEST_NAMES = 6 + 11 * 64 };

static uint8_t *edge, *text_end; /* the first bytes that cannot be read */
static uint8_t untouched[PAGE + MARGIN];
static unsigned long sheets, passed, failed, seen[NUMBERS], strains_seen[65];

/* What accepted sheets there must be, and how many at the least. */
enum { NAMED, BARE, INCOMPLETE, NEGATIVE, BROKEN, TIED, UNLIKE, FAR, WIDE, CLASSES };
static unsigned long classes[CLASSES];
static const struct {
    const char *what;
    unsigned long least;
} demanded[CLASSES] = {
    [NAMED] = {"with names", 400},
    [BARE] = {"without names", 400},
    [INCOMPLETE] = {"with a missing pair", 200},
    [NEGATIVE] = {"with a negative length", 400},
    [BROKEN] = {"with a length that is no whole number of thousandths", 200},
    [TIED] = {"with a length half way between two thousandths", 30},
    [UNLIKE] = {"with a path over the rounded lengths that is not the rounded path", 200},
    [FAR] = {"with a path of 10,000,000,000 units or more on either side", 20},
    [WIDE] = {"whose print has more than 65,536 bytes", 10},
};

/* The classes of an accepted sheet, by what it holds and by its lines. */
static void classify(const uint8_t *sheet, size_t length, size_t written) {
    struct plain_named held;
    char line[PLAIN_LINE];
    int is[CLASSES] = {0};
    is[NAMED] = plain_named_line(sheet, length, plain_names, &held, line) == 0;
    is[BARE] = plain_named_line(sheet, length, NULL, &held, line) == 0;
    if (is[NAMED]) { /* the lengths are wanted of either */
        plain_named_line(sheet, length, plain_names, &held, line);
    }
    for (uint32_t v = 0; v < held.edges; v++) {
        int64_t n = held.numerators[v], left = 1000 * (n < 0 ? -n : n) % held.denominator;
        is[NEGATIVE] |= n < 0;
        is[BROKEN] |= left != 0;
        is[TIED] |= 2 * left == held.denominator;
    }
    for (const char *at = (const char *)due; at < (const char *)due + written; at = strchr(at, '\n') + 1) {
        char d[16];
        long long p, q;
        if (sscanf(at, "pair %*s %*s %15s %lld %lld", d, &p, &q) == 3) {
            is[INCOMPLETE] |= strcmp(d, "-") == 0;
            is[UNLIKE] |= q != plain_thousandths(p, held.denominator);
            is[FAR] |= q >= 10000000000000 || q <= -10000000000000;
        }
    }
    is[WIDE] = written > 65536;
    for (int k = 0; k < CLASSES; k++) {
        classes[k] += is[k] != 0;
    }
    strains_seen[held.n]++;
}

/* Whether a page of this size is left as it was. */
static int leaves(const uint8_t *lent, size_t length, size_t size) {
    memset(text_end - size, UNTOUCHED, size);
    return paths_print(lent, length, text_end - size, size) == 0 && memcmp(text_end - size, untouched, size) == 0;
}

static void compare(const uint8_t *sheet, size_t length) {
    uint8_t *lent = edge - length;
    memcpy(lent, sheet, length);
    size_t wanted = plain_paths_print(sheet, length, due, PAGE), size = sheets % 8 == 0 ? PAGE + MARGIN : PAGE;
    uint8_t *text = text_end - size;
    memset(text, UNTOUCHED, size);
    size_t written = paths_print(lent, length, text, size);
    int fine = written == wanted && memcmp(text, due, wanted) == 0 && memcmp(text + wanted, untouched, size - wanted) == 0;
    if (sheets % 16 == 0) {
        fine = fine && leaves(lent, length, PAGE - 1) && leaves(lent, length, 65537) && leaves(lent, length, 0);
    }
    fine = fine && memcmp(lent, sheet, length) == 0;
    unsigned number = 0;
    due[wanted] = 0;
    if (sscanf((const char *)due, "refused %u", &number) != 1) {
        classify(sheet, length, wanted);
    }
    seen[number % NUMBERS]++;
    sheets++;
    if (fine) {
        passed++;
    } else if (failed++ < 10) {
        printf("sheet of %zu bytes: %zu bytes were printed, and due were %zu: %.60s\n", length, written, wanted, (const char *)due);
    }
}

/* ---- accepted sheets */
/* A star with any distances: a length is its strain's row sum less the sum of all distances over N-1, over N-2. Where that sum goes into N-1 the
 * denominator is N-2, and of 18, 34 and 50 strains some lengths are then half way between two thousandths. */
static void fit_star(struct parts *p, uint32_t n) {
    int64_t rows[64] = {0}, total = 0;
    int small = chance(2) == 0;
    p->n = p->tree_n = n;
    p->v = n + 1;
    p->k = n;
    memset(p->parents, (int)n, n);
    for (uint32_t q = 0; q < n * (n - 1) / 2; q++) {
        p->distances[q] = (uint16_t)(chance(3) == 0 ? chance(40000) : chance(50));
        total += p->distances[q];
    }
    while (small && total % (n - 1) != 0) {
        p->distances[0]++;
        total++;
    }
    for (uint32_t i = 0; i < n; i++) {
        for (uint32_t j = 0; j < n; j++) {
            rows[i] += i == j ? 0 : *distance_of(p, i, j);
        }
    }
    uint32_t lowest = small ? n - 2 : (n - 1) * (n - 2), times = 1 + chance(chance(2) == 0 ? 3 : 1000000 / lowest);
    p->d = lowest * times;
    for (uint32_t i = 0; i < n; i++) {
        p->numerators[i] = (small ? rows[i] - total / (n - 1) : (n - 1) * rows[i] - total) * times;
    }
}

static uint64_t common(uint64_t a, uint64_t b) {
    while (b != 0) {
        uint64_t left = a % b;
        a = b;
        b = left;
    }
    return a;
}

/* A resolved tree with distances near its paths, and the direct fit over one denominator, where there is one that passes. */
static int fit_resolved(struct parts *p, uint32_t n) {
    static uint16_t by_strains[2016];
    static int64_t rounded[125];
    static uint32_t denominators[125];
    uint64_t square[2], d = 1;
    grow(p->parents, n, (int)chance(3));
    p->n = p->tree_n = n;
    p->v = 2 * n - 2;
    p->k = 2 * n - 3;
    fit(p, 10);
    for (uint32_t moved = n < 10 ? n * n : 1 + chance(3); moved > 0; moved--) {
        p->distances[chance(n * (n - 1) / 2)] += (uint16_t)chance(9);
    }
    for (uint32_t j = 1; j < n; j++) {
        for (uint32_t i = 0; i < j; i++) {
            by_strains[j * (j - 1) / 2 + i] = *distance_of(p, i, j);
        }
    }
    plain_resolved(n, by_strains, p->parents, p->numerators, denominators, rounded, square);
    for (uint32_t v = 0; v < p->k && d <= 1000000; v++) {
        d *= denominators[v] / common(d, denominators[v]);
    }
    if (d > 1000000) {
        return 0;
    }
    d *= 1 + chance((uint32_t)(1000000 / d));
    p->d = (uint32_t)d;
    for (uint32_t v = 0; v < p->k; v++) {
        p->numerators[v] *= (int64_t)(d / denominators[v]);
    }
    return 1;
}

/* Pairs that nobody measured, where the distances are the paths, so that it stays a fit; some edge may part none that was measured. */
static void lose_pairs(struct parts *p) {
    uint32_t pairs = p->n * (p->n - 1) / 2;
    for (uint32_t k = chance(2) == 0 ? 1 + chance(3) : 1 + chance(pairs); k > 0; k--) {
        p->distances[chance(pairs)] = MISSING;
    }
}

/* The strains below some inner vertex that is not the root were not measured with each other where they are below different children: then each child's
 * edge may be longer by as much as the edge of the vertex is shorter. Nothing where there is no such vertex. */
static void stretch(struct parts *p) {
    uint64_t below[128];
    fill_below(p, below);
    if (p->k == p->n) {
        return;
    }
    uint32_t up = p->n + chance(p->k - p->n);
    int64_t by = 99999000000 - (int64_t)chance(1000000);
    by = chance(2) == 0 ? by : -by;
    p->numerators[up] -= by;
    for (uint32_t a = 0; a < p->k; a++) {
        if (p->parents[a] != up) {
            continue;
        }
        p->numerators[a] += by;
        for (uint32_t i = 0; i < p->n; i++) {
            for (uint32_t j = 0; j < p->n; j++) {
                if (i != j && below[a] >> i & 1 && below[up] >> j & 1 && !(below[a] >> j & 1)) {
                    *distance_of(p, i, j) = MISSING;
                }
            }
        }
    }
}

static void make_accepted(struct parts *p, uint32_t n, unsigned kind) {
    switch (kind % 5) {
    case 0:
        fit_star(p, n);
        return;
    case 1:
        if (fit_resolved(p, n)) {
            return;
        }
        fit_star(p, n);
        return;
    case 2:
        grow_any(p, n);
        fit(p, 40);
        return;
    case 3:
        grow_any(p, n);
        fit(p, 0);
        lose_pairs(p);
        return;
    default:
        grow_any(p, n);
        fit(p, 0);
        stretch(p);
        return;
    }
}

/* ---- names */
static const char name_bytes[] = "ABCDEFGHIJKLMNOPQRSTUVWXYZabcdefghijklmnopqrstuvwxyz0123456789_";

/* A names record of so many different names. */
static size_t write_names(uint8_t *out, uint32_t n) {
    size_t at = 6;
    for (uint32_t i = 0; i < n; i++) {
        size_t length;
        int again;
        do {
            length = 1 + chance(10);
            out[at] = (uint8_t)length;
            for (size_t k = 1; k <= length; k++) {
                out[at + k] = (uint8_t)name_bytes[chance(sizeof name_bytes - 1)];
            }
            again = 0;
            for (size_t other = 6; other < at; other += 1 + (size_t)out[other]) {
                again |= memcmp(out + other, out + at, 1 + length) == 0;
            }
        } while (again);
        at += 1 + length;
    }
    put(out, at - 6, 4);
    put(out + 4, 5, 2);
    return at;
}

/* The record with something wrong; gives its length. */
static size_t hurt_names(uint8_t *record, size_t length, uint32_t n) {
    size_t some = 6, last = 6;
    for (uint32_t k = chance(n); k > 0; k--) {
        some += 1 + (size_t)record[some];
    }
    while (last + 1 + record[last] < length) {
        last += 1 + (size_t)record[last];
    }
    switch (chance(8)) {
    case 0: /* a byte that no name has */
        record[some + 1 + chance(record[some])] = (uint8_t)" -.\0\n'[`{@/:\x80\xff"[chance(14)];
        return length;
    case 1: /* one length more or less */
        record[some] = (uint8_t)(record[some] + (chance(2) == 0 ? 1 : -1));
        return length;
    case 2: /* one name twice */
        if (some != last) {
            memmove(record + last, record + some, 1 + (size_t)record[some]);
            length = last + 1 + record[last];
            put(record, length - 6, 4);
        }
        return length;
    case 3: /* a name less */
        put(record, last - 6, 4);
        return last;
    case 4: /* a name more */
        record[length] = 1;
        record[length + 1] = '_';
        put(record, length - 4, 4);
        return length + 2;
    case 5: /* eleven bytes, or none */
        length = last + 1 + (chance(2) == 0 ? 11 : 0);
        record[last] = (uint8_t)(length - last - 1);
        memset(record + last + 1, 'x', length - last - 1);
        put(record, length - 6, 4);
        return length;
    case 6: /* another kind */
        put(record + 4, chance(2) == 0 ? chance(7) : 256 * chance(6) + 5, 2);
        return length;
    default: /* the length of the body */
        put(record, length - 6 + chance(5) - 2, 4);
        return length;
    }
}

/* ---- what is made of an accepted sheet */
static uint8_t sheet[ROOM], twin_sheet[ROOM];

/* With one byte changed, in one record. */
static void compare_changed(size_t length, size_t from, size_t to) {
    size_t place = from + chance((uint32_t)(to - from < 12 || chance(2) == 0 ? to - from : 12));
    uint8_t old = sheet[place];
    sheet[place] = (uint8_t)(chance(2) == 0 ? old + 1 + chance(3) : chance(256));
    compare(sheet, length);
    sheet[place] = old;
}

static void compare_twins(const struct parts *p) {
    static struct parts twin;
    static uint8_t names[LONGEST_NAMES + 300];
    size_t front = write_sheet(p, sheet), size = write_names(names, p->n), length = front + size;
    size_t starts[5] = {0, 6 + 2 + (size_t)p->n * (p->n - 1), 0, front, length};
    starts[2] = starts[1] + 6 + 4 + p->v - 1;
    compare(sheet, front);
    memcpy(sheet + front, names, size);
    compare(sheet, length);
    for (int record = 0; record < 4; record++) {
        compare_changed(record < 3 && chance(2) == 0 ? front : length, starts[record], starts[record + 1]);
    }
    compare(sheet, chance((uint32_t)length));
    compare(sheet, front + chance((uint32_t)size)); /* cut in the names */
    for (int behind = 0; behind < 2; behind++) { /* and bytes behind either form */
        size_t end = behind == 0 ? front : length, more = chance(4) == 0 ? 1 + chance(6000) : 1 + chance(9);
        memset(sheet + end, (int)chance(3), more);
        compare(sheet, end + more);
        memcpy(sheet + front, names, size);
    }
    for (int strained = 0; strained < 4; strained++) { /* a field at or past a limit, or a fit no more */
        twin = *p;
        if (strained < 3) {
            strain_limits(&twin);
        } else if (chance(2) == 0) {
            twin.numerators[chance(p->k)] += chance(2) == 0 ? 1 : -1;
        } else {
            twin.distances[chance(p->n * (p->n - 1) / 2)] ^= 1;
        }
        size_t end = write_sheet(&twin, twin_sheet);
        memcpy(twin_sheet + end, names, size);
        compare(twin_sheet, strained % 2 == 0 ? end : end + size);
    }
    for (int hurt = 0; hurt < 2; hurt++) {
        memcpy(sheet + front, names, size);
        compare(sheet, front + hurt_names(sheet + front, size, p->n));
    }
}

/* Stars of too few and too many strains, whose records have the form. */
static void compare_counts(struct parts *p, uint32_t n) {
    p->n = p->tree_n = p->k = n;
    p->v = n + 1;
    p->d = 1;
    memset(p->distances, 0, sizeof p->distances);
    memset(p->parents, (int)n, sizeof p->parents);
    memset(p->numerators, 0, sizeof p->numerators);
    size_t front = write_sheet(p, sheet), size = write_names(sheet + front, n);
    compare(sheet, front);
    compare(sheet, front + size);
    for (int hurt = 0; hurt < 8 && n > 0; hurt++) {
        size = write_names(sheet + front, n);
        compare(sheet, front + hurt_names(sheet + front, size, n));
    }
}

int main(void) {
    static const size_t sizes[] = {5187, 5188, 5897, 5898, 60000};
    static const uint32_t counts[] = {0, 1, 2, 65, 66};
    static struct parts p;
    edge = guarded(ROOM);
    text_end = guarded(2 * PAGE);
    memset(untouched, UNTOUCHED, sizeof untouched);
    for (size_t length = 0; length < 40; length++) {
        compare(sheet, length);
    }
    for (int k = 0; k < 5; k++) {
        compare_counts(&p, counts[k]);
    }
    for (unsigned turn = 0; sheets < 8000; turn++) {
        uint32_t n = turn < 62 ? 3 + turn : turn % 16 == 0 ? 64 : 3 + chance(turn % 4 == 0 ? 62 : 14);
        if (turn >= 62 && turn % 40 == 39) {
            caterpillar(&p);
            fit(&p, 40);
        } else if (turn >= 62 && turn % 20 == 19) {
            fit_star(&p, 18 + 16 * chance(3));
        } else {
            make_accepted(&p, n, turn);
        }
        compare_twins(&p);
        if (turn % 8 == 0) { /* as long as may be, and longer */
            size_t length = write_sheet(&p, sheet);
            length += chance(2) == 0 ? write_names(sheet + length, p.n) : 0;
            memset(sheet + length, 0, ROOM - length);
            for (int k = 0; k < 5; k++) {
                compare(sheet, sizes[k] < length ? length : sizes[k]);
            }
        }
    }
    printf("%lu sheets; by number 0 to 14:", sheets);
    for (int number = 0; number < NUMBERS; number++) {
        if (number <= 14 || number == 16 || number == 26 || number == 28) {
            printf("%s %lu", number == 16 ? "; 16, 26, 28:" : "", seen[number]);
            if (seen[number] < 5) {
                printf(" (below 5)");
                failed++;
            }
        }
    }
    printf("\naccepted:\n");
    for (int k = 0; k < CLASSES; k++) {
        printf("  %s: %lu\n", demanded[k].what, classes[k]);
        if (classes[k] < demanded[k].least) {
            printf("  that is below %lu\n", demanded[k].least);
            failed++;
        }
    }
    for (int n = 3; n <= 64; n++) {
        if (strains_seen[n] == 0) {
            printf("no sheet of %d strains was accepted\n", n);
            failed++;
        }
    }
    printf("%lu passed, %lu failed\n", passed, failed);
    return failed != 0;
}
#endif
