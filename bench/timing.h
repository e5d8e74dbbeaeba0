/* What the timings share: the clock, the least of several rounds, and the names of the trees' shapes. */
#ifndef TIMING_H
#define TIMING_H

#include <time.h>

static const char *const shapes[] = {"balanced", "caterpillar", "random"};

static double now(void) {
    struct timespec t;
    clock_gettime(CLOCK_MONOTONIC, &t);
    return (double)t.tv_sec * 1e9 + (double)t.tv_nsec;
}

/* Of each call the least of fifteen rounds, each of at least 5 ms. The calls take turns, so that what else the machine
 * does falls on all of them. */
static void least(int count, void (*const calls[])(void), double best[]) {
    for (int which = 0; which < count; which++) {
        best[which] = 1e18;
    }
    for (int turn = 0; turn < 15 * count; turn++) {
        int which = turn % count;
        long done = 0;
        double start = now(), end;
        do {
            for (int k = 0; k < 4; k++) {
                calls[which]();
            }
            done += 4;
            end = now();
        } while (end - start < 5e6);
        if ((end - start) / (double)done < best[which]) {
            best[which] = (end - start) / (double)done;
        }
    }
}

#endif
