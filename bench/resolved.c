/* Nanoseconds a direct fit, at N = 16, 32 and 64, on a balanced tree, a caterpillar and a random one: the proved
 * function and a plain reading of the same formulas with the same reductions, both in this one program. Distances
 * are any numbers to 50,000. Nothing is cleared between calls; each lends the same tables. */
#include <stdio.h>

#include "resolved.h"
#include "timing.h"
#include "matrices.h"
#include "vamuthexa.h"

static uint16_t distances[2016];
static uint8_t parents[128];
static int64_t tops[2][125], rounded[2][125];
static uint32_t bottoms[2][125];
static uint64_t square[2];
static uint32_t n, edges, number;

static void ours(void) {
    number = resolved_lengths(n, distances, n * (n - 1) / 2, parents, edges, tops[0], edges, bottoms[0], edges,
                              rounded[0], edges);
}

static void plain(void) {
    plain_resolved(n, distances, parents, tops[1], bottoms[1], rounded[1], square);
}

int main(void) {
    printf("| N | tree | ours, ns | plain, ns | ours / plain |\n");
    printf("|---|---|---|---|---|\n");
    for (n = 16; n <= 64; n *= 2) {
        edges = 2 * n - 3;
        for (int shape = 0; shape < 3; shape++) {
            draw(parents, distances, n, shape);
            ours();
            plain();
            if (number != 0 || memcmp(tops[0], tops[1], edges * sizeof tops[0][0]) != 0 ||
                memcmp(bottoms[0], bottoms[1], edges * sizeof bottoms[0][0]) != 0 ||
                memcmp(rounded[0], rounded[1], edges * sizeof rounded[0][0]) != 0) {
                printf("the two fits differ: N = %u, %s\n", n, shapes[shape]);
                return 1;
            }
            double ns[2];
            least(2, (void (*const[])(void)){ours, plain}, ns);
            printf("| %u | %s | %.0f | %.0f | %.2f |\n", n, shapes[shape], ns[0], ns[1], ns[0] / ns[1]);
        }
    }
    return 0;
}
