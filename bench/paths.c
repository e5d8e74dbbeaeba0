/* Nanoseconds for a sheet of 64 strains, on a balanced tree, a caterpillar and a random one: its verdict, the print of its report and the print of its pairs, by the
 * numbers of its strains, each by the proved entry; and the print of the pairs by a plain reading of docs/RULES.md, The pairs of a fit, in C (tests/plain_paths.c), all in this one
 * program. Both prints of the pairs get the same bytes and must give the same. */
#include <stdio.h>

#include "plain_paths.h"
#include "sheets.h"
#include "timing.h"
#include "vamuthexa.h"

enum { N = 64, PAGE = VAMUTHEXA_PATHS_PAGE };

static uint8_t sheet[8192], page[PAGE], plain[PAGE];
static size_t sheet_length, length, plain_length;
static uint32_t number;

static void verdict(void) { number |= sheet_verdict(sheet, sheet_length); }
static void report(void) { length = sheet_print(sheet, sheet_length, page, PAGE); }
static void ours(void) { length = paths_print(sheet, sheet_length, page, PAGE); }
static void theirs(void) { plain_length = plain_paths_print(sheet, sheet_length, plain, PAGE); }

int main(void) {
    printf("| tree | bytes | verdict, ns | report, ns | pairs, ns | plain pairs, ns | report / verdict | pairs / report | pairs / plain |\n");
    printf("|---|---|---|---|---|---|---|---|---|\n");
    for (int shape = 0; shape < 3; shape++) {
        sheet_length = write_sheet(N, shape, sheet);
        theirs();
        ours();
        if (length != plain_length || page[0] != 'f' || memcmp(page, plain, length) != 0) {
            printf("the two do not agree: %s\n", shapes[shape]);
            return 1;
        }
        double ns[4];
        least(4, (void (*const[])(void)){verdict, report, ours, theirs}, ns);
        if (number != 0) {
            printf("refused while it was timed: %s\n", shapes[shape]);
            return 1;
        }
        printf("| %s | %zu | %.0f | %.0f | %.0f | %.0f | %.2f | %.2f | %.2f |\n", shapes[shape], plain_length, ns[0], ns[1], ns[2], ns[3], ns[1] / ns[0], ns[2] / ns[1],
               ns[2] / ns[3]);
    }
    return 0;
}
