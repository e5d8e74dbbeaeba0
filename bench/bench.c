/* Nanoseconds a verdict, at N = 8, 16, 32 and 64, on a balanced tree, a caterpillar and a random one: the proved library, by both verdicts, plain C in
 * two ways at three levels of the compiler, and the plain triple loop, all in this one program; beside them the print of the sheet's report, and the direct fit of
 * any distances on the same kind of tree. Sheets are accepted ones, so every equation is worked. Nothing is cleared between calls; each lends the same
 * bytes. Before they are timed the readings are held to each other on sheets with a byte changed. */
#include <stdio.h>

#include "matrices.h"
#include "plain_verdict.h"
#include "plain.h"
#include "sheets.h"
#include "timing.h"
#include "vamuthexa.h"

static volatile uint32_t kept;
static uint8_t sheet[8192], page[VAMUTHEXA_PAGE];
static size_t length, printed;
static uint16_t distances[2016];
static uint8_t parents[128];
static int64_t tops[125], rounded[125];
static uint32_t bottoms[125], n, edges;

static void ours(void) { kept = sheet_verdict(sheet, length); }
static void drawn(void) { kept = sheet_verdict0(sheet, length); }
static void by_pairs_o2(void) { kept = pairs_o2(sheet, length); }
static void by_pairs_o3(void) { kept = pairs_o3(sheet, length); }
static void by_pairs_native(void) { kept = pairs_native(sheet, length); }
static void by_edges_o2(void) { kept = edges_o2(sheet, length); }
static void by_edges_o3(void) { kept = edges_o3(sheet, length); }
static void by_edges_native(void) { kept = edges_native(sheet, length); }
static void triple(void) { kept = plain_triple(sheet, length); }
static void print(void) { printed = sheet_print(sheet, length, page, sizeof page); }
static void direct(void) {
    kept = resolved_lengths(n, distances, n * (n - 1) / 2, parents, edges, tops, edges, bottoms, edges, rounded, edges);
}

enum { OURS, DRAWN, PAIRS, EDGES = PAIRS + 3, TRIPLE = EDGES + 3, PRINT, DIRECT, CALLS, CHANGED = 2000 };

static uint32_t (*const plain[])(const uint8_t *, size_t) = {pairs_o2, pairs_o3, pairs_native, edges_o2, edges_o3, edges_native, plain_pass, plain_triple};

/* Whether all give the same number: 0 of the sheet as it is, and whatever it is with a byte changed. */
static int agree(void) {
    for (int turn = 0; turn <= CHANGED; turn++) {
        size_t at = chance((uint32_t)length);
        uint8_t old = sheet[at];
        sheet[at] = (uint8_t)(turn == 0 ? old : old + 1 + chance(255));
        uint32_t number = sheet_verdict(sheet, length);
        int same = turn != 0 || number == 0;
        /* the triple loop, the last of them, is slow, and of large sheets asked once */
        for (int k = 0; k < (n > 16 && turn != 0 ? 7 : 8); k++) {
            same &= number == plain[k](sheet, length);
        }
        sheet[at] = old;
        if (!same) {
            return 0;
        }
    }
    return sheet_verdict0(sheet, length) == 0;
}

/* A table of the verdict against one of the two ways in C; `way` is its first call. */
static void against(int way, double ns[4][3][CALLS]) {
    printf("| N | tree | verdict, ns | C -O2 | C -O3 | C -O3 native | verdict / -O2 | / -O3 | / native |\n|---|---|---|---|---|---|---|---|---|\n");
    for (int row = 0; row < 12; row++) {
        double *t = ns[row / 3][row % 3], *c = t + way;
        printf("| %u | %s | %.0f | %.0f | %.0f | %.0f | %.2f | %.2f | %.2f |\n", 8u << row / 3, shapes[row % 3], t[OURS], c[0], c[1], c[2], t[OURS] / c[0],
               t[OURS] / c[1], t[OURS] / c[2]);
    }
    printf("\n");
}

int main(void) {
    double ns[4][3][CALLS];
    for (int size = 0; size < 4; size++) {
        n = 8u << size;
        edges = 2 * n - 3;
        for (int shape = 0; shape < 3; shape++) {
            length = write_sheet(n, shape, sheet);
            draw(parents, distances, n, shape);
            print();
            direct();
            if (kept != 0 || page[0] != 'f' || !agree()) {
                printf("a sheet that is not accepted, or readings that differ: N = %u, %s\n", n, shapes[shape]);
                return 1;
            }
            least(CALLS, (void (*const[])(void)){ours, drawn, by_pairs_o2, by_pairs_o3, by_pairs_native, by_edges_o2, by_edges_o3, by_edges_native, triple, print, direct}, ns[size][shape]);
        }
    }
    printf("Pair by pair:\n\n");
    against(PAIRS, ns);
    printf("Edge by edge:\n\n");
    against(EDGES, ns);
    printf("| N | tree | verdict, ns | not negative, ns | triple loop, ns | report's print, ns | direct fit, ns | not negative / verdict | verdict / triple loop | print / verdict |\n"
           "|---|---|---|---|---|---|---|---|---|---|\n");
    for (int row = 0; row < 12; row++) {
        double *t = ns[row / 3][row % 3];
        printf("| %u | %s | %.0f | %.0f | %.0f | %.0f | %.0f | %.2f | %.4f | %.2f |\n", 8u << row / 3, shapes[row % 3], t[OURS], t[DRAWN], t[TRIPLE], t[PRINT],
               t[DIRECT], t[DRAWN] / t[OURS], t[OURS] / t[TRIPLE], t[PRINT] / t[OURS]);
    }
    return 0;
}
