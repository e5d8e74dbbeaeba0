/* Nanoseconds of the calls on a desk at N = 16, 32 and 64, on a balanced tree, a caterpillar and a random one, and of the verdict and the report over
 * lent tables, all proved and all in this one program (bench/desk.txt). A call is timed with what must come before it, and what that
 * takes is taken off: a correction and a proposal behind a posting, a report behind a posting and a proposal. The distances are those of the tree
 * with whole lengths, which are then the fit over 1. */
#include <stdio.h>

#include "timing.h"
#include "trees.h"

uint32_t posted(uint32_t n, const uint16_t *distances, size_t pairs, const uint8_t *parents, size_t edges);
uint32_t corrected(uint32_t n, const uint16_t *distances, size_t pairs, const uint8_t *parents, size_t edges, uint32_t i, uint32_t j,
                   uint16_t far);
uint32_t proposed(uint32_t n, const uint16_t *distances, size_t pairs, const uint8_t *parents, size_t edges, uint32_t d,
                  const int64_t *numerators, size_t count);
uint32_t reported(uint32_t n, const uint16_t *distances, size_t pairs, const uint8_t *parents, size_t edges, uint32_t d,
                  const int64_t *numerators, size_t count, int64_t *rounded, size_t room);
uint32_t judged(uint32_t n, const uint16_t *distances, size_t pairs, const uint8_t *parents, size_t edges, uint32_t d,
                const int64_t *numerators, size_t count);
uint32_t lent_report(uint32_t n, const uint16_t *distances, size_t pairs, const uint8_t *parents, size_t edges, uint32_t d,
                     const int64_t *numerators, size_t count, int64_t *rounded, size_t room);

static uint16_t distances[2016];
static uint8_t parents[128];
static int64_t lengths[125], rounded[125];
static uint32_t n, edges, pairs, number;

static void post(void) { number |= posted(n, distances, pairs, parents, edges); }
static void correct(void) { number |= corrected(n, distances, pairs, parents, edges, 0, n - 1, 77); }
static void propose(void) { number |= proposed(n, distances, pairs, parents, edges, 1, lengths, edges); }
static void report(void) { number |= reported(n, distances, pairs, parents, edges, 1, lengths, edges, rounded, edges); }
static void judge(void) { number |= judged(n, distances, pairs, parents, edges, 1, lengths, edges); }
static void lent(void) { number |= lent_report(n, distances, pairs, parents, edges, 1, lengths, edges, rounded, edges); }

/* The way from i to j: the lower of the two climbs until they meet. */
static uint16_t way(uint32_t i, uint32_t j) {
    int64_t sum = 0;
    while (i != j) {
        uint32_t *low = i < j ? &i : &j;
        sum += lengths[*low];
        *low = parents[*low];
    }
    return (uint16_t)sum;
}

int main(void) {
    printf("| N | tree | post | correct | propose | report | verdict | lent report | propose / verdict | report / lent report |\n");
    printf("|---|---|---|---|---|---|---|---|---|---|\n");
    for (n = 16; n <= 64; n *= 2) {
        edges = 2 * n - 3;
        pairs = n * (n - 1) / 2;
        for (int shape = 0; shape < 3; shape++) {
            grow(parents, n, shape);
            for (uint32_t v = 0; v < edges; v++) {
                lengths[v] = 1 + chance(300);
            }
            for (uint32_t j = 1, p = 0; j < n; j++) {
                for (uint32_t i = 0; i < j; i++) {
                    distances[p++] = way(i, j);
                }
            }
            number = 0;
            double ns[6];
            least(6, (void (*const[])(void)){post, correct, propose, report, judge, lent}, ns);
            if (number != 0) {
                printf("a call was refused: N = %u, %s\n", n, shapes[shape]);
                return 1;
            }
            double correction = ns[1] - ns[0], proposal = ns[2] - ns[0], reporting = ns[3] - ns[2];
            printf("| %u | %s | %.0f | %.0f | %.0f | %.0f | %.0f | %.0f | %.2f | %.2f |\n", n, shapes[shape], ns[0], correction, proposal,
                   reporting, ns[4], ns[5], proposal / ns[4], reporting / ns[5]);
        }
    }
    return 0;
}
