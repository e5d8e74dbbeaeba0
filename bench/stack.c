/* How much of the stack each entry for C takes, the largest sheets, matrices and trees lent: the entry runs on a stack of
 * its own whose bytes were all set to one value, with a page below that may not be touched, and behind it the lowest
 * byte that changed is looked for. What a function takes that does nothing is taken off. Frames of more than a page are
 * touched page by page as they are made, so that nothing taken is missed. Then every pointer is null whose length is 0. */
#define _GNU_SOURCE
#include <stdio.h>
#include <stdlib.h>
#include <sys/mman.h>
#include <ucontext.h>

#include "sheets.h"
#include "vamuthexa.h"

enum {
    N = VAMUTHEXA_MAX_STRAINS,
    K = VAMUTHEXA_MAX_EDGES,
    PAIRS = N * (N - 1) / 2,
    TEXT = VAMUTHEXA_TEXT_SIZE,
    LENGTHS = 6 + 6 + 8 * K, /* the bytes of the third record */
    PAINT = 0xa5,
    LEVELS = 52,
    STACK = 128 * 1024
};

static uint8_t *stack;
static ucontext_t here, there;
static void (*entry)(void);

static uint8_t sheet[VAMUTHEXA_MAX_NAMED_SHEET], long_sheet[VAMUTHEXA_MAX_LONG_SHEET], names[6 + 11 * N], name_bytes[10 * N], parents[K], parents_read[K];
static uint8_t matrix[TEXT], tree[TEXT], page[VAMUTHEXA_PATHS_PAGE];
static uint16_t distances[PAIRS];
static int64_t thousandths[K], numerators[K], rounded[K];
static uint32_t denominators[K], number;
static size_t matrix_length, tree_length, printed;

static void nothing(void) {}
static void verdict(void) { number = sheet_verdict(sheet, VAMUTHEXA_MAX_SHEET); }
static void verdict0(void) { number = sheet_verdict0(sheet, VAMUTHEXA_MAX_SHEET); }
static void long_one(void) { number = long_verdict(long_sheet, VAMUTHEXA_MAX_LONG_SHEET); }
static void long_one0(void) { number = long_verdict0(long_sheet, VAMUTHEXA_MAX_LONG_SHEET); }
static void print_long(void) { printed = long_print(long_sheet, VAMUTHEXA_MAX_LONG_SHEET, page, VAMUTHEXA_LONG_PAGE); }
static void print_long0(void) { printed = long_print0(long_sheet, VAMUTHEXA_MAX_LONG_SHEET, page, VAMUTHEXA_LONG_PAGE); }
static void print(void) { printed = sheet_print(sheet, VAMUTHEXA_MAX_SHEET, page, VAMUTHEXA_PAGE); }
static void print0(void) { printed = sheet_print0(sheet, VAMUTHEXA_MAX_SHEET, page, VAMUTHEXA_PAGE); }
static void unfitted(void) { printed = unfitted_print(sheet, VAMUTHEXA_MAX_SHEET - LENGTHS, page, VAMUTHEXA_PAGE); }
static void resolved(void) {
    number = resolved_lengths(N, distances, PAIRS, parents, K, numerators, K, denominators, K, rounded, K);
}
static void write_matrix(void) {
    number = phylip_write(N, distances, PAIRS, name_bytes, sizeof name_bytes, matrix, TEXT, &matrix_length);
}
static void read_matrix(void) {
    number = phylip_read(matrix, matrix_length, distances, PAIRS, name_bytes, sizeof name_bytes);
}
static void print_tree(void) { printed = newick_print(sheet, VAMUTHEXA_MAX_NAMED_SHEET, page, VAMUTHEXA_TREE_PAGE); }
static void print_paths(void) { printed = paths_print(sheet, VAMUTHEXA_MAX_SHEET, page, VAMUTHEXA_PATHS_PAGE); }
static void print_named_paths(void) { printed = paths_print(sheet, VAMUTHEXA_MAX_NAMED_SHEET, page, VAMUTHEXA_PATHS_PAGE); }
static void write_tree(void) {
    number = newick_write(names, sizeof names, parents, K, thousandths, K, tree, TEXT, &tree_length);
}
static void read_tree(void) {
    number = newick_read(names, sizeof names, tree, tree_length, parents_read, K, numerators, K);
}

static const struct {
    const char *name;
    void (*call)(void);
    int prints; /* whether it gives a length, not a number */
} entries[] = {
    {"long_verdict", long_one, 0},     {"long_verdict0", long_one0, 0},
    {"long_print", print_long, 1},     {"long_print0", print_long0, 1},
    {"sheet_verdict", verdict, 0},     {"sheet_verdict0", verdict0, 0},  {"sheet_print", print, 1},
    {"sheet_print0", print0, 1},       {"unfitted_print", unfitted, 1},  {"resolved_lengths", resolved, 0},
    {"phylip_write", write_matrix, 0}, {"phylip_read", read_matrix, 0},  {"newick_print", print_tree, 1},
    {"paths_print", print_paths, 1},   {"paths_print, with names", print_named_paths, 1},
    {"newick_write", write_tree, 0},   {"newick_read", read_tree, 0},
};
enum { ENTRIES = sizeof entries / sizeof entries[0] };

static void run(void) { entry(); }

/* The bytes of the stack that a call takes. */
static size_t taken(void (*call)(void)) {
    memset(stack, PAINT, STACK);
    getcontext(&there);
    there.uc_stack.ss_sp = stack;
    there.uc_stack.ss_size = STACK;
    there.uc_link = &here;
    entry = call;
    makecontext(&there, run, 0);
    swapcontext(&here, &there);
    size_t k = 0;
    while (k < STACK && stack[k] == PAINT) {
        k++;
    }
    return STACK - k;
}

/* Sheets, matrix and tree of one shape: the sheet is accepted with its names and without. */
static void make(int shape) {
    size_t at = write_sheet(N, shape, sheet);
    write_long_sheet(N, shape, LEVELS, long_sheet);
    memcpy(parents, sheet + 6 + 2 + N * (N - 1) + 6 + 4, K);
    size_t end = put(names, sizeof names - 6, 4);
    end += put(names + end, 5, 2);
    for (int i = 0; i < N; i++) {
        end += put(names + end, 10, 1);
        memset(names + end, 'a', 8);
        names[end + 8] = (uint8_t)('0' + i / 10);
        names[end + 9] = (uint8_t)('0' + i % 10);
        end += 10;
    }
    memcpy(sheet + at, names, sizeof names);
    memset(name_bytes, 'a', sizeof name_bytes);
    for (int k = 0; k < PAIRS; k++) {
        distances[k] = (uint16_t)(1000 + 7919 * k % 40000);
    }
    for (int v = 0; v < K; v++) {
        thousandths[v] = -99999999999 + v;
    }
}

/* The most that an entry takes of any shape, of sheets that are accepted and of refused ones. */
int main(void) {
    uint8_t *room = mmap(NULL, 4096 + STACK, PROT_READ | PROT_WRITE, MAP_PRIVATE | MAP_ANONYMOUS, -1, 0);
    if (room == MAP_FAILED || mprotect(room, 4096, PROT_NONE) != 0) {
        perror("a stack");
        return 2;
    }
    stack = room + 4096;
    size_t most[ENTRIES] = {0}, base = taken(nothing);
    for (int shape = 0; shape < 3; shape++) {
        for (int state = 0; state < 4; state++) {
            make(shape);
            if (state == 1) {
                put(sheet + 8, VAMUTHEXA_MISSING, 2); /* no distance 01 */
                put(long_sheet + 8, VAMUTHEXA_MISSING, 2);
            } else if (state == 2) {
                sheet[4] = long_sheet[4] = 9; /* 3 */
            } else if (state == 3) {
                sheet[VAMUTHEXA_MAX_SHEET - 8] ^= 1; /* 14 */
                long_sheet[VAMUTHEXA_MAX_LONG_SHEET - 4] ^= 1;
            }
            for (int e = 0; e < ENTRIES; e++) {
                size_t bytes = taken(entries[e].call) - base;
                most[e] = bytes > most[e] ? bytes : most[e];
                if (state == 0 && (entries[e].prints ? page[0] == 'r' && page[2] == 'f' : number != 0)) {
                    printf("%s refused what is to be accepted\n", entries[e].name);
                    return 1;
                }
            }
        }
    }
    memset(tree, '(', TEXT); /* as many brackets as there is room for, of which 62 may be open */
    tree_length = TEXT;
    size_t deep = taken(read_tree) - base;
    printf("| entry | bytes of the stack |\n|---|---|\n");
    for (int e = 0; e < ENTRIES; e++) {
        printf("| %s | %zu |\n", entries[e].name, most[e]);
    }
    size_t length = 77;
    int fine = deep < most[ENTRIES - 1] && number == VAMUTHEXA_NEWICK;
    fine &= sheet_verdict(NULL, 0) == VAMUTHEXA_RECORD_CUT && sheet_verdict0(NULL, 0) == VAMUTHEXA_RECORD_CUT;
    fine &= long_verdict(NULL, 0) == VAMUTHEXA_RECORD_CUT && long_verdict0(NULL, 0) == VAMUTHEXA_RECORD_CUT;
    fine &= sheet_print(NULL, 0, page, VAMUTHEXA_PAGE) == 17 && memcmp(page, "refused 2 byte 0\n", 17) == 0;
    fine &= sheet_print0(NULL, 0, page, VAMUTHEXA_PAGE) == 17 && unfitted_print(NULL, 0, page, VAMUTHEXA_PAGE) == 17;
    fine &= long_print(NULL, 0, page, VAMUTHEXA_LONG_PAGE) == 17 && long_print0(NULL, 0, page, VAMUTHEXA_LONG_PAGE) == 17;
    fine &= newick_print(NULL, 0, page, VAMUTHEXA_TREE_PAGE) == 17 && paths_print(NULL, 0, page, VAMUTHEXA_PATHS_PAGE) == 17;
    fine &= sheet_print(NULL, 0, NULL, 0) == 0 && sheet_print0(NULL, 0, NULL, 0) == 0;
    fine &= unfitted_print(NULL, 0, NULL, 0) == 0 && newick_print(NULL, 0, NULL, 0) == 0 && paths_print(NULL, 0, NULL, 0) == 0;
    fine &= long_print(NULL, 0, NULL, 0) == 0 && long_print0(NULL, 0, NULL, 0) == 0;
    fine &= resolved_lengths(0, NULL, 0, NULL, 0, NULL, 0, NULL, 0, NULL, 0) == VAMUTHEXA_STRAINS;
    fine &= resolved_lengths(N, distances, PAIRS, parents, K, NULL, 0, NULL, 0, NULL, 0) == VAMUTHEXA_BUFFER;
    fine &= phylip_read(NULL, 0, NULL, 0, NULL, 0) == VAMUTHEXA_TEXT;
    fine &= phylip_read(matrix, matrix_length, NULL, 0, NULL, 0) == VAMUTHEXA_BUFFER;
    fine &= phylip_write(0, NULL, 0, NULL, 0, NULL, 0, &length) == VAMUTHEXA_STRAINS;
    fine &= phylip_write(N, distances, PAIRS, name_bytes, sizeof name_bytes, NULL, 0, &length) == VAMUTHEXA_BUFFER;
    fine &= newick_write(NULL, 0, NULL, 0, NULL, 0, NULL, 0, &length) == VAMUTHEXA_RECORD_CUT;
    fine &= newick_write(names, sizeof names, parents, K, thousandths, K, NULL, 0, &length) == VAMUTHEXA_BUFFER;
    fine &= newick_read(NULL, 0, NULL, 0, NULL, 0, NULL, 0) == VAMUTHEXA_RECORD_CUT;
    fine &= newick_read(names, sizeof names, NULL, 0, NULL, 0, NULL, 0) == VAMUTHEXA_NEWICK && length == 77;
    printf(fine ? "null pointers with length 0 are answered\n" : "a null pointer with length 0 was not answered as due\n");
    return !fine;
}
