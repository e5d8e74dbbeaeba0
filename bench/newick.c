/* Nanoseconds to write and to read a tree of 64 strains in text, on a balanced tree, a caterpillar and a random one: a sheet with names judged and written, names with
 * a tree and thousandths written, and a text read, each by the proved entry and by a plain reading of docs/RULES.md, Trees in text, in C
 * (tests/plain_newick.c), all in this one program. Both sides get the same bytes, make the same tests and must give the same. */
#include <stdio.h>

#include "plain_newick.h"
#include "sheets.h"
#include "timing.h"
#include "vamuthexa.h"

enum { N = 64, TEXT = VAMUTHEXA_TEXT_SIZE, PAGE = VAMUTHEXA_TREE_PAGE };

static uint8_t sheet[8192], names[1024], parents[128], held_parents[128], text[TEXT], written[TEXT], page[PAGE];
static int64_t thousandths[128], held[128];
static size_t sheet_length, names_length, edges, length, page_length, written_length;
static uint32_t number;

/* A name of two to ten letters, digits and underscores for each strain; the last two of each are its number. */
static void draw_names(void) {
    static const char some[] = "ABCDEFGHIJKLMNOPQRSTUVWXYZabcdefghijklmnopqrstuvwxyz0123456789_";
    size_t at = 6;
    for (uint32_t i = 0; i < N; i++) {
        uint32_t size = 2 + chance(9);
        names[at++] = (uint8_t)size;
        for (uint32_t k = 2; k < size; k++) {
            names[at++] = (uint8_t)some[chance(63)];
        }
        names[at++] = (uint8_t)('0' + i / 10);
        names[at++] = (uint8_t)('0' + i % 10);
    }
    names_length = at;
    put(names, at - 6, 4);
    put(names + 4, 5, 2);
}

static void print_ours(void) { page_length = newick_print(sheet, sheet_length, page, PAGE); }
static void print_plain(void) { page_length = plain_newick_print(sheet, sheet_length, page, PAGE); }
static void write_ours(void) { number |= newick_write(names, names_length, parents, edges, thousandths, edges, written, TEXT, &written_length); }
static void write_plain(void) { number |= plain_newick_write(names, names_length, parents, edges, thousandths, edges, written, TEXT, &written_length); }
static void read_ours(void) { number |= newick_read(names, names_length, text, length, held_parents, edges, held, edges); }
static void read_plain(void) { number |= plain_newick_read(names, names_length, text, length, held_parents, edges, held, edges); }

/* Whether both sides do the same on the bytes that are timed, and what is written is read as the same tree again. */
static int alike(void) {
    static uint8_t before[PAGE];
    print_plain();
    memcpy(before, page, page_length);
    size_t due = page_length;
    memset(page, 0, sizeof page);
    print_ours();
    int fine = page_length == due && page[0] == '(' && memcmp(before, page, due) == 0;
    write_plain();
    length = written_length;
    memcpy(text, written, length);
    memset(written, 0, sizeof written);
    write_ours();
    fine &= written_length == length && memcmp(text, written, length) == 0;
    for (int which = 0; which < 2; which++) {
        memset(held_parents, 0, sizeof held_parents);
        memset(held, 0, sizeof held);
        which ? read_ours() : read_plain();
        fine &= plain_newick_write(names, names_length, held_parents, edges, held, edges, written, TEXT, &written_length) == 0;
        fine &= written_length == length && memcmp(text, written, length) == 0;
    }
    return fine && number == 0;
}

int main(void) {
    printf("| tree | bytes | judge and write, ns | plain, ns | ratio | write, ns | plain, ns | ratio | read, ns | plain, ns | ratio |\n");
    printf("|---|---|---|---|---|---|---|---|---|---|---|\n");
    draw_names();
    for (int shape = 0; shape < 3; shape++) {
        sheet_length = write_sheet(N, shape, sheet);
        /* the tree of the sheet, whose record stands behind the matrix, with lengths of its own */
        edges = 2 * N - 3;
        memcpy(parents, sheet + 6 + 2 + N * (N - 1) + 6 + 4, edges);
        for (size_t v = 0; v < edges; v++) {
            thousandths[v] = (int64_t)chance(60000000) - 10000000;
        }
        memcpy(sheet + sheet_length, names, names_length);
        sheet_length += names_length;
        if (!alike()) {
            printf("the two do not agree: %s\n", shapes[shape]);
            return 1;
        }
        double ns[6];
        least(6, (void (*const[])(void)){print_ours, print_plain, write_ours, write_plain, read_ours, read_plain}, ns);
        if (number != 0) {
            printf("refused while it was timed: %s\n", shapes[shape]);
            return 1;
        }
        printf("| %s | %zu | %.0f | %.0f | %.2f | %.0f | %.0f | %.2f | %.0f | %.0f | %.2f |\n", shapes[shape], length, ns[0], ns[1], ns[0] / ns[1], ns[2],
               ns[3], ns[2] / ns[3], ns[4], ns[5], ns[4] / ns[5]);
    }
    return 0;
}
