/* Nanoseconds a correction and nanoseconds that all split sums take afresh, at N = 16, 32 and 64, on a balanced tree, a caterpillar and a
 * random one, both proved and both in this one program (bench/correcting.txt). A correction changes a random pair to a random distance;
 * once all of them do, and every pair stays measured, and once one in eight sets the mark of a missing pair. Behind each timing the kept
 * sums and counts are compared with those worked afresh. */
#include <stdio.h>
#include <stdlib.h>

#include "timing.h"
#include "matrices.h"

uint32_t corrected(uint32_t n, uint16_t *distances, size_t pairs, const uint8_t *parents, size_t edges, int64_t *sums,
                   int64_t *counts, uint32_t i, uint32_t j, uint16_t far);
uint32_t afresh(uint32_t n, const uint16_t *distances, size_t pairs, const uint8_t *parents, size_t vertices,
                int64_t *sums, size_t edges);

enum { LISTED = 4096, MISSING = 65535 };

static uint16_t distances[2016], ones[2016], fars[LISTED];
static uint8_t parents[128];
static int64_t sums[125], counts[125], fresh[125];
static uint32_t n, edges, number, is[LISTED], js[LISTED], turn;

static void correct(void) {
    uint32_t k = turn++ % LISTED;
    number |= corrected(n, distances, n * (n - 1) / 2, parents, edges, sums, counts, is[k], js[k], fars[k]);
}

static void work(void) { number |= afresh(n, distances, n * (n - 1) / 2, parents, edges, fresh, edges); }

/* The split sums of the matrix, and those of ones for measured pairs, which are the counts. */
static void keep(int64_t *kept, int64_t *counted) {
    for (uint32_t p = 0; p < n * (n - 1) / 2; p++) {
        ones[p] = distances[p] != MISSING;
    }
    number |= afresh(n, distances, n * (n - 1) / 2, parents, edges, kept, edges);
    number |= afresh(n, ones, n * (n - 1) / 2, parents, edges, counted, edges);
}

int main(void) {
    printf("| N | tree | pairs | correction, ns | afresh, ns | correction / afresh |\n");
    printf("|---|---|---|---|---|---|\n");
    for (n = 16; n <= 64; n *= 2) {
        edges = 2 * n - 3;
        for (int kind = 0; kind < 6; kind++) {
            int shape = kind / 2, marks = kind % 2;
            draw(parents, distances, n, shape);
            for (int k = 0; k < LISTED; k++) {
                is[k] = chance(n);
                do {
                    js[k] = chance(n);
                } while (js[k] == is[k]);
                fars[k] = marks && chance(8) == 0 ? MISSING : (uint16_t)chance(50001);
            }
            number = 0;
            keep(sums, counts);
            double ns[2];
            least(2, (void (*const[])(void)){correct, work}, ns);
            int64_t kept[125] = {0}, counted[125] = {0};
            keep(kept, counted);
            if (number != 0 || memcmp(sums, kept, edges * sizeof kept[0]) != 0 ||
                memcmp(counts, counted, edges * sizeof counted[0]) != 0) {
                printf("what is kept is not what is worked afresh: N = %u, %s\n", n, shapes[shape]);
                return 1;
            }
            printf("| %u | %s | %s | %.0f | %.0f | %.3f |\n", n, shapes[shape], marks ? "some missing" : "all measured", ns[0], ns[1],
                   ns[0] / ns[1]);
        }
    }
    return 0;
}
