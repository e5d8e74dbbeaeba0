/* Nanoseconds that the choice between two accepted sheets of one matrix takes, and beside it the verdict and the report on one of them, at
 * N = 16, 32 and 64, on a balanced tree, a caterpillar and a random one, all proved and all in this one program (bench/shorter.txt). The two
 * sheets tie, so that every pair and both tree lengths are compared. */
#include <stdio.h>

#include "sheets.h"
#include "timing.h"

uint32_t chosen(const uint8_t *s, size_t s_length, const uint8_t *t, size_t t_length);
uint32_t judged(const uint8_t *s, size_t length);
uint32_t reported(const uint8_t *s, size_t length);

static volatile uint32_t kept;
static uint8_t first[8192], second[8192];
static size_t length;

static void choose(void) { kept = chosen(first, length, second, length); }

static void judge(void) { kept = judged(first, length); }

static void report(void) { kept = reported(first, length); }

int main(void) {
    printf("| N | tree | choice, ns | verdict, ns | report, ns | choice / two verdicts | choice / two reports |\n");
    printf("|---|---|---|---|---|---|---|\n");
    for (uint32_t n = 16; n <= 64; n *= 2) {
        for (int shape = 0; shape < 3; shape++) {
            length = write_sheet(n, shape, first);
            memcpy(second, first, length);
            if (judged(first, length) != 0 || reported(first, length) != 0 || chosen(first, length, second, length) != 0) {
                printf("a sheet that is not accepted, or a tie that the second wins: N = %u, %s\n", n, shapes[shape]);
                return 1;
            }
            double ns[3];
            least(3, (void (*const[])(void)){choose, judge, report}, ns);
            printf("| %u | %s | %.0f | %.0f | %.0f | %.2f | %.2f |\n", n, shapes[shape], ns[0], ns[1], ns[2], ns[0] / ns[1] / 2, ns[0] / ns[2] / 2);
        }
    }
    return 0;
}
