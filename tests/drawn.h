/* What the programs that make drawn calls share: a number is read from standard input, and what fails is said, the first twenty times. */
#ifndef DRAWN_H
#define DRAWN_H

#include <stdint.h>
#include <stdio.h>

static long failed;

static void expect(int fine, const char *what) {
    if (!fine && failed++ < 20) {
        fprintf(stderr, "failed: %s\n", what);
    }
}

/* The next four bytes, little-endian; 0 where there are none. */
static int take(uint32_t *x) {
    uint8_t b[4];
    if (fread(b, 1, 4, stdin) != 4) {
        return 0;
    }
    *x = (uint32_t)b[0] | (uint32_t)b[1] << 8 | (uint32_t)b[2] << 16 | (uint32_t)b[3] << 24;
    return 1;
}

#endif
