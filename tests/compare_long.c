/* Lends the sheets that tests/long.py draws to the proved verdicts, and prints for each the two numbers, by the plain rule and
 * by the other, on a line. A sheet comes as its kind, 4 for a long one and 3 for a short one, its length, four bytes
 * each, little-endian, and its bytes. Each is lent at the very end of a page that is followed by one that cannot be read,
 * so that a step past the slice ends the program; and it must be as it was when the verdicts are done. */
#include <stdio.h>
#include <stdlib.h>
#include <string.h>
#include <sys/mman.h>
#include <unistd.h>

#include "vamuthexa.h"

enum { ROOM = 1 << 17 };

static uint8_t sheet[ROOM];

static void end_with(const char *words) {
    fprintf(stderr, "%s\n", words);
    exit(1);
}

static int take(uint32_t *x) {
    uint8_t b[4];
    if (fread(b, 1, 4, stdin) != 4) {
        return 0;
    }
    *x = (uint32_t)b[0] | (uint32_t)b[1] << 8 | (uint32_t)b[2] << 16 | (uint32_t)b[3] << 24;
    return 1;
}

/* The first byte that cannot be read, behind ROOM that can. */
static uint8_t *edge_of_room(void) {
    size_t page = (size_t)sysconf(_SC_PAGESIZE);
    uint8_t *room = mmap(NULL, ROOM + page, PROT_READ | PROT_WRITE, MAP_PRIVATE | MAP_ANONYMOUS, -1, 0);
    if (room == MAP_FAILED || mprotect(room + ROOM, page, PROT_NONE) != 0) {
        end_with("no memory to lend");
    }
    return room + ROOM;
}

int main(void) {
    uint8_t *edge = edge_of_room();
    uint32_t kind, length;
    while (take(&kind)) {
        if (!take(&length) || length > ROOM || fread(sheet, 1, length, stdin) != length || (kind != 3 && kind != 4)) {
            end_with("a drawn sheet that is cut, of another kind, or that there is no room for");
        }
        uint8_t *lent = edge - length;
        memcpy(lent, sheet, length);
        uint32_t plain = kind == 4 ? long_verdict(lent, length) : sheet_verdict(lent, length);
        uint32_t drawable = kind == 4 ? long_verdict0(lent, length) : sheet_verdict0(lent, length);
        if (memcmp(lent, sheet, length) != 0) {
            end_with("a verdict changed its sheet");
        }
        printf("%u %u\n", (unsigned)plain, (unsigned)drawable);
    }
    return 0;
}
