/* Compares both verdicts, `sheet_verdict` and `sheet_verdict0`, and their prints with the two plain readings on many
 * sheets: empty, every length, valid, cut, one byte changed, fields at and past their limits, matrices with pairs that
 * nobody measured, and tables with edges of length zero. The print of a refused sheet must be the plain readings' line,
 * place and all; of an accepted one only its first word and its last byte are looked at here, and that where both
 * accept the rest is the same (the program `figures` compares whole reports). Each sheet, and the text's page, is lent
 * at the very end of a page that is followed by one that cannot be read, so that a step past the slice ends the
 * program. */
#include <stdio.h>
#include <string.h>

#include "plain.h"
#include "drawn_sheets.h"
#include "vamuthexa.h"

enum { ROOM = 65536, NUMBERS = 27, UNTOUCHED = 0xa5 };

static uint8_t *edge, *text_end; /* the first bytes that cannot be read */
static unsigned long passed, failed;
static unsigned long sheets[2], seen[2][2][NUMBERS]; /* whole and with missing pairs; of these by each rule */
static unsigned long unseen_at[128];                 /* 26 by its edge */

/* The two verdicts, in the order of their rules. */
static const struct judge {
    enum plain_rule rule;
    const char *word;
    uint32_t (*number)(const uint8_t *, size_t);
    size_t (*print)(const uint8_t *, size_t, uint8_t *, size_t);
} judges[2] = {{PLAIN, "fit ", sheet_verdict, sheet_print}, {DRAWABLE, "fit0 ", sheet_verdict0, sheet_print0}};

/* What the second verdict is asked, by classes of sheets, each with the least count of whole ones and of those with
 * missing pairs. */
enum {
    BOTH, ZERO_BELOW, ZERO_LEVEL, ZERO_BOTH, NEGATIVE_FIT, NEGATIVE_OFF, OFF_ABOVE, OFF_BELOW, OFF_FIRST, PULLED, SMALL,
    CLASSES
};
static unsigned long classes[2][CLASSES];
static const struct {
    const char *what;
    unsigned long least[2];
} demanded[CLASSES] = {
    [BOTH] = {"accepted by both", {5000, 2000}},
    [ZERO_BELOW] = {"accepted, 14 by the plain rule: a zero edge's sum is negative", {2000, 500}},
    [ZERO_LEVEL] = {"accepted, a zero edge's sum is zero", {2000, 1000}},
    [ZERO_BOTH] = {"accepted, zero edges of both kinds", {1000, 400}},
    [NEGATIVE_FIT] = {"22, accepted by the plain rule", {3000, 1000}},
    [NEGATIVE_OFF] = {"22, 14 by the plain rule", {5000, 2000}},
    [OFF_ABOVE] = {"14, the sum is positive", {5000, 2000}},
    [OFF_BELOW] = {"14, the sum is negative", {5000, 2000}},
    [OFF_FIRST] = {"14, a lower zero edge's sum is positive", {800, 100}},
    [PULLED] = {"23", {2000, 300}},
    [SMALL] = {"accepted, lent a small page too", {40, 15}},
};

/* Every byte from `from` on is as it was before the print. */
static int untouched(const uint8_t *text, size_t from, size_t size) {
    for (size_t i = from; i < size; i++) {
        if (text[i] != UNTOUCHED) {
            return 0;
        }
    }
    return 1;
}

/* What stood behind the first word of the last report by each rule. */
static uint8_t kept[2][VAMUTHEXA_PAGE];
static size_t kept_size[2];

/* The print is the line, or where the line is empty some report; and nothing stands behind it. */
static int prints(const struct judge *by, const uint8_t *lent, size_t length, const char *line) {
    uint8_t *text = text_end - VAMUTHEXA_PAGE;
    memset(text, UNTOUCHED, VAMUTHEXA_PAGE);
    size_t written = by->print(lent, length, text, VAMUTHEXA_PAGE), word = strlen(by->word);
    if (written > VAMUTHEXA_PAGE || !untouched(text, written, VAMUTHEXA_PAGE)) {
        return 0;
    }
    if (line[0] == 0) {
        if (written <= word || memcmp(text, by->word, word) != 0 || text[written - 1] != '\n') {
            return 0;
        }
        kept_size[by->rule] = written - word;
        memcpy(kept[by->rule], text + word, written - word);
        return 1;
    }
    return written == strlen(line) && memcmp(text, line, written) == 0;
}

/* A page that is too small stays as it was. */
static int leaves(const struct judge *by, const uint8_t *lent, size_t length, size_t size) {
    uint8_t *text = text_end - size;
    memset(text, UNTOUCHED, size);
    return by->print(lent, length, text, size) == 0 && untouched(text, 0, size);
}

/* Which classes a sheet is in, by what the plain readings say of it. */
static void classify(const uint8_t *sheet, size_t length, const uint32_t number[2], const char *line,
                     unsigned long in[]) {
    unsigned at;
    long long sum;
    if (number[DRAWABLE] == 0) {
        struct plain_zeros zeros = plain_zeros(sheet, length);
        in[BOTH] += number[PLAIN] == 0;
        in[ZERO_BELOW] += number[PLAIN] == 14 && zeros.below > 0;
        in[ZERO_LEVEL] += zeros.level > 0;
        in[ZERO_BOTH] += zeros.below > 0 && zeros.level > 0;
    } else if (number[DRAWABLE] == 14 && sscanf(line, "refused 14 edge %u %lld", &at, &sum) == 2) {
        struct plain_zeros zeros = plain_zeros(sheet, length);
        in[OFF_ABOVE] += sum > 0;
        in[OFF_BELOW] += sum < 0;
        in[OFF_FIRST] += zeros.above > 0 && zeros.lowest_above < at;
    }
    in[NEGATIVE_FIT] += number[DRAWABLE] == 22 && number[PLAIN] == 0;
    in[NEGATIVE_OFF] += number[DRAWABLE] == 22 && number[PLAIN] == 14;
    in[PULLED] += number[DRAWABLE] == 23;
}

/* Both verdicts on a sheet; `missing` is 1 where it is made to have missing pairs. */
static void compare_both(const uint8_t *sheet, size_t length, int missing) {
    char line[2][PLAIN_LINE], pass_line[PLAIN_LINE];
    uint8_t *lent = edge - length;
    uint32_t due[2];
    memcpy(lent, sheet, length);
    for (int k = 0; k < 2; k++) {
        const struct judge *by = &judges[k];
        uint32_t ours = by->number(lent, length), pass = plain_pass_line(by->rule, sheet, length, pass_line);
        due[k] = plain_triple_line(by->rule, sheet, length, line[k]);
        int printed = strcmp(line[k], pass_line) == 0 && prints(by, lent, length, line[k]);
        if (sheets[missing] % 256 == 0) {
            printed &= leaves(by, lent, length, VAMUTHEXA_PAGE - 1) && leaves(by, lent, length, 0);
            classes[missing][SMALL] += by->rule == DRAWABLE && due[k] == 0;
        }
        if (printed && k == 1 && due[0] == 0 && due[1] == 0) {
            printed = kept_size[0] == kept_size[1] && memcmp(kept[0], kept[1], kept_size[0]) == 0;
        }
        if (ours == due[k] && ours == pass && printed && memcmp(lent, sheet, length) == 0) {
            passed++;
        } else {
            failed++;
            if (failed <= 10) {
                printf("%ssheet of %zu bytes: ours %u, triple %u, pass %u; the print is %s %s", by->word, length,
                       (unsigned)ours, (unsigned)due[k], (unsigned)pass, printed ? "as due:" : "not as due:",
                       line[k][0] == 0 ? "a report\n" : line[k]);
            }
        }
        if (due[k] < NUMBERS) {
            seen[missing][k][due[k]]++;
        }
    }
    unsigned at;
    if (sscanf(line[0], "refused 26 edge %u", &at) == 1) {
        unseen_at[at % 128]++;
    }
    classify(sheet, length, due, line[DRAWABLE], classes[missing]);
    sheets[missing]++;
}

static void lend_and_compare(const uint8_t *sheet, size_t length) {
    compare_both(sheet, length, 0);
}

/* ---- pairs that nobody measured */
static void compare_incomplete(const struct parts *p) {
    static uint8_t sheet[ROOM];
    compare_both(sheet, write_sheet(p, sheet), 1);
}

/* From a sheet whose distances are its paths exactly, so that it stays a fit whatever is missing; where they are not, the
 * plain readings still say what is due. */
static void incomplete_twins(const struct parts *whole) {
    static struct parts p, twin;
    uint32_t pairs = whole->n * (whole->n - 1) / 2;
    p = *whole;
    switch (chance(6)) {
    case 0: /* one to three */
    case 1:
        for (uint64_t k = 1 + chance(3); k > 0; k--) {
            p.distances[chance(pairs)] = MISSING;
        }
        break;
    case 2: /* some share of all */
    case 3:
        for (uint64_t q = 0, share = 1 + chance(9); q < pairs; q++) {
            if (chance(10) < share) {
                p.distances[q] = MISSING;
            }
        }
        break;
    case 4: /* one or two edges that part nothing, and some pairs beside */
        for (uint64_t k = 1 + chance(2); k > 0; k--) {
            lose_edge(&p, (uint32_t)chance(p.k));
        }
        p.distances[chance(pairs)] = MISSING;
        break;
    default: /* all, or all but one to three */
        for (uint32_t q = 0; q < pairs; q++) {
            p.distances[q] = MISSING;
        }
        for (uint64_t k = chance(4); k > 0; k--) {
            uint64_t q = chance(pairs);
            p.distances[q] = whole->distances[q];
        }
        break;
    }
    compare_incomplete(&p);
    for (int turn = 0; turn < 3; turn++) { /* 26 together with other faults, of which some come before it */
        twin = p;
        strain_limits(&twin);
        if (turn == 2) {
            strain_limits(&twin);
        }
        compare_incomplete(&twin);
    }
    twin = p; /* a measured distance or a numerator off by one */
    uint64_t q = chance(pairs);
    if (chance(2) == 0 && twin.distances[q] != MISSING) {
        twin.distances[q]++;
    } else {
        twin.numerators[chance(p.k)] += chance(2) == 0 ? 1 : -1;
    }
    compare_incomplete(&twin);
    static const uint16_t near[] = {50000, 50001, 65533, 65534, 65535};
    twin = p; /* beside a missing pair */
    twin.distances[chance(pairs)] = MISSING;
    twin.distances[chance(pairs)] = near[chance(5)];
    compare_incomplete(&twin);
}

/* ---- tables for the second verdict */
static uint32_t strain_of(uint64_t set) {
    uint32_t i;
    do {
        i = (uint32_t)chance(64);
    } while ((set >> i & 1) == 0);
    return i;
}

/* Strains from two different ones of these sets. */
static void two_of(const uint64_t sets[], uint32_t count, uint32_t strains[2]) {
    uint32_t one = (uint32_t)chance(count), other = (one + 1 + (uint32_t)chance(count - 1)) % count;
    strains[0] = strain_of(sets[one]);
    strains[1] = strain_of(sets[other]);
}

/* Moves distances so that edge v's sum grows by 2·size·D and no other sum moves: two strains below the edge, or the
 * strain itself, and two that are not below, all behind different edges from an end of edge v. Where one of the
 * distances is missing or would leave its range, nothing moves. */
static void bend(struct parts *p, const uint64_t below[], uint32_t v, int size) {
    uint64_t here[64] = {0}, there[64] = {0};
    uint32_t children = 0, others = 0, up = p->parents[v], a[2] = {v, v}, c[2];
    for (uint32_t w = 0; w < p->k; w++) {
        if (p->parents[w] == v) {
            here[children++] = below[w];
        } else if (p->parents[w] == up && w != v) {
            there[others++] = below[w];
        }
    }
    if (up < p->k) {
        there[others++] = below[p->k] & ~below[up];
    }
    two_of(there, others, c);
    if (children > 0) {
        two_of(here, children, a);
    }
    struct {
        uint16_t *at;
        int by;
    } moved[4] = {{distance_of(p, a[0], c[0]), size},
                  {distance_of(p, a[1], c[1]), size},
                  {distance_of(p, c[0], c[1]), -size}};
    int count = 3;
    if (children > 0) {
        moved[count].at = distance_of(p, a[0], a[1]);
        moved[count++].by = -size;
    }
    for (int k = 0; k < count; k++) {
        if (*moved[k].at == MISSING || *moved[k].at + moved[k].by < 0 || *moved[k].at + moved[k].by > 50000) {
            return;
        }
    }
    for (int k = 0; k < count; k++) {
        *moved[k].at = (uint16_t)(*moved[k].at + moved[k].by);
    }
}

/* Some edge whose length is zero, or is not; any where there is none. */
static uint32_t edge_where(const struct parts *p, int zero) {
    uint32_t v = (uint32_t)chance(p->k);
    for (uint32_t turn = 0; turn < p->k && (p->numerators[v] == 0) != zero; turn++) {
        v = (v + 1) % p->k;
    }
    return v;
}

/* Lengths of zero or more with sums of zero or less at the zero edges, which the second verdict accepts; and twins with
 * a zero edge's sum moved up, a positive edge's moved, both, a numerator lowered or raised, or a field at a limit. */
static void drawable_twins(struct parts *p, int missing) {
    static struct parts twin;
    static uint8_t sheet[ROOM];
    uint64_t below[128];
    int64_t length[128];
    uint32_t pairs = p->n * (p->n - 1) / 2;
    fill_below(p, below);
    for (uint32_t v = 0; v < p->k; v++) {
        length[v] = chance(v < p->n ? 6 : 2) == 0 ? 0 : 20 + (int64_t)chance(300);
    }
    fit_exactly(p, below, length);
    for (uint64_t k = missing ? 1 + chance(pairs / 4 + 1) : 0; k > 0; k--) {
        p->distances[chance(pairs)] = MISSING;
    }
    unsettle(p, below, 20);
    for (uint64_t k = chance(8); k > 0; k--) {
        uint32_t v = edge_where(p, 1);
        if (p->numerators[v] == 0) {
            bend(p, below, v, -1 - (int)chance(9));
        }
    }
    compare_both(sheet, write_sheet(p, sheet), missing);
    for (int turn = 0; turn < 6; turn++) {
        twin = *p;
        if (turn == 0 || turn == 2) { /* up, by less or by more than some edge was bent down */
            bend(&twin, below, edge_where(p, 1), 1 + (int)chance(90));
        }
        if (turn == 1 || turn == 2) {
            bend(&twin, below, edge_where(p, 0), chance(2) == 0 ? 1 + (int)chance(9) : -1 - (int)chance(9));
        }
        if (turn == 3) {
            twin.numerators[chance(p->k)] -= 1 + (int64_t)chance(400) * p->d;
        }
        if (turn == 4) {
            twin.numerators[chance(p->k)] += 1;
        }
        if (turn == 5) {
            strain_limits(&twin);
        }
        compare_both(sheet, write_sheet(&twin, sheet), missing);
    }
}

/* Whether some sheet must get the number. Those with missing pairs are not made to get 1 to 5. */
static int is_due(int number, int missing, enum plain_rule rule) {
    switch (number) {
    case 1: case 2: case 3: case 4: case 5: return !missing;
    case 22: case 23: return rule == DRAWABLE;
    case 26: return missing;
    default: return number <= 14 || number == 16;
    }
}

static void show(const char *lead, const unsigned long counts[], int from, int to) {
    printf("%s", lead);
    for (int k = from; k <= to; k++) {
        printf(" %lu", counts[k]);
    }
}

int main(void) {
    static uint8_t sheet[ROOM];
    static struct parts p;
    edge = guarded(ROOM);
    text_end = guarded(ROOM);
    /* every length from 0 to 5,200: zeros, chance, and the longest valid sheet cut or drawn out */
    caterpillar(&p);
    fit(&p, 40);
    size_t whole = write_sheet(&p, sheet);
    for (size_t length = 0; length <= 5200; length++) {
        lend_and_compare(sheet, length);
    }
    static uint8_t other[ROOM];
    for (size_t length = 0; length <= 5200; length++) {
        lend_and_compare(other, length);
        for (size_t i = 0; i < length; i++) {
            other[i] = (uint8_t)chance(256);
        }
        if (length >= 12) {
            put(other, length - 12, 4);
            put(other + 4, 1, 2);
        }
        lend_and_compare(other, length);
        memset(other, 0, length);
    }
    if (whole != 5187) {
        printf("the longest sheet has %zu bytes, not 5,187\n", whole);
        failed++;
    }
    /* valid sheets, each cut, with one byte changed, and with a field at or past a limit */
    for (unsigned long turn = 0; sheets[0] < 205000; turn++) {
        uint32_t n = turn % 16 == 0 ? 64 : 3 + (uint32_t)chance(turn % 4 == 0 ? 62 : 14);
        grow_any(&p, n);
        fit(&p, 40);
        size_t length = write_sheet(&p, sheet);
        lend_and_compare(sheet, length);
        lend_and_compare(sheet, (size_t)chance(length));
        sheet[length] = 0;
        lend_and_compare(sheet, length + 1);
        for (int changes = 0; changes < 6; changes++) {
            size_t place = (size_t)chance(changes < 3 ? length : (length < 40 ? length : 40));
            uint8_t old = sheet[place];
            sheet[place] = (uint8_t)chance(256);
            lend_and_compare(sheet, length);
            sheet[place] = old;
        }
        size_t heads[2] = {6 + (size_t)n * (n - 1) + 2, 0};
        heads[1] = heads[0] + 6 + 4 + p.v - 1;
        for (int h = 0; h < 2; h++) {
            size_t place = heads[h] + (size_t)chance(12);
            uint8_t old = sheet[place];
            sheet[place] = (uint8_t)(old + 1 + chance(3));
            lend_and_compare(sheet, length);
            sheet[place] = old;
        }
        for (int strained = 0; strained < 4; strained++) {
            static struct parts twin;
            twin = p;
            strain_limits(&twin);
            lend_and_compare(sheet, write_sheet(&twin, sheet));
        }
    }
    /* and 60,000 with missing pairs */
    for (unsigned long turn = 0; sheets[1] < 60000; turn++) {
        grow_any(&p, turn % 32 == 0 ? 64 : 3 + (uint32_t)chance(turn % 8 == 0 ? 62 : 10));
        fit(&p, turn % 3 == 0 ? 40 : 0);
        incomplete_twins(&p);
    }
    /* and 50,000 with edges of length zero, a fifth of them with missing pairs */
    for (unsigned long turn = 0; sheets[0] < 245000 || sheets[1] < 70000; turn++) {
        grow_any(&p, turn % 32 == 0 ? 64 : 3 + (uint32_t)chance(turn % 8 == 0 ? 62 : 10));
        drawable_twins(&p, turn % 5 == 0);
    }
    for (int missing = 0; missing < 2; missing++) {
        for (int k = 0; k < 2; k++) {
            const unsigned long *counts = seen[missing][k];
            printf("%s%s: answers 0 to 16", judges[k].word, missing ? "with missing pairs" : "whole");
            show("", counts, 0, 16);
            printf(", 22, 23 %lu %lu, 26 %lu of %lu\n", counts[22], counts[23], counts[26], sheets[missing]);
            for (int number = 0; number < NUMBERS; number++) {
                if (counts[number] == 0 && is_due(number, missing, judges[k].rule)) {
                    printf("no such sheet got %d\n", number);
                    failed++;
                }
            }
        }
    }
    printf("by the second verdict, whole and with missing pairs:\n");
    for (int k = 0; k < CLASSES; k++) {
        printf("  %s: %lu and %lu\n", demanded[k].what, classes[0][k], classes[1][k]);
        for (int missing = 0; missing < 2; missing++) {
            if (classes[missing][k] < demanded[k].least[missing]) {
                printf("  that is below %lu and %lu\n", demanded[k].least[0], demanded[k].least[1]);
                failed++;
            }
        }
    }
    printf("26 at edges 0 to 19:");
    show("", unseen_at, 0, 19);
    printf("\n");
    for (int v = 0; v < 20; v++) {
        if (unseen_at[v] == 0) {
            printf("no sheet got 26 at edge %d\n", v);
            failed++;
        }
    }
    printf("%lu passed, %lu failed\n", passed, failed);
    return failed != 0;
}
