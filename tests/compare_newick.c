/* Makes the calls that tests/newick.py --calls draws, on the proved reader and writers of trees in text or, compiled with -DOF_PLAIN, on the plain ones of
 * tests/plain_newick.c, and says for each what came of it, as that script says it: `refused` and the number, what was read and how it is written
 * again, the text, or what a page holds. Beside that it sees that a refusal changes no buffer, that no byte behind a text changes, and that what was
 * written is read as what it was written from. What fails is said on standard error, and the status is then 1.
 *
 * A call is its kind and four numbers, four bytes each, little-endian, and the bytes that they count:
 *     1, names, text, room for parents, room for numerators        the bytes of the names record and of the text
 *     2, names, parents, thousandths, room for text                those of the record, the parents, and the thousandths, eight bytes each
 *     3, sheet, page, 0, 0                                         those of the sheet */
#include <inttypes.h>
#include <stdio.h>
#include <stdlib.h>
#include <string.h>

#include "drawn.h"
#ifdef OF_PLAIN
#include "plain_newick.h"
#define newick_read plain_newick_read
#define newick_write plain_newick_write
#define newick_print plain_newick_print
#else
#include "vamuthexa.h"
#endif

enum { TEXT = 65536, LONGEST = 4 * TEXT, ROOM = 2 * TEXT, MARGIN = 64, FILL = 0xa5 };

static uint8_t bytes[LONGEST], more[LONGEST], text[ROOM], parents[ROOM], parents_again[MARGIN + 125], untouched[8 * ROOM];
static int64_t numerators[ROOM], numerators_again[MARGIN + 125], given[ROOM];

static void take_bytes(uint8_t *to, size_t count, size_t most) {
    if (count > most || fread(to, 1, count, stdin) != count) {
        fprintf(stderr, "a drawn call that is cut, or that there is no room for\n");
        exit(1);
    }
}

/* Whether nothing was written from this entry on. */
static int same(const void *table, size_t from, size_t to, size_t size) {
    return memcmp((const uint8_t *)table + from * size, untouched, (to - from) * size) == 0;
}

static void read_one(uint32_t names, uint32_t size, uint32_t parent_room, uint32_t numerator_room) {
    take_bytes(bytes, names, LONGEST);
    take_bytes(more, size, LONGEST);
    if (parent_room > ROOM - MARGIN || numerator_room > ROOM - MARGIN) {
        fprintf(stderr, "no room for a table\n");
        exit(1);
    }
    memset(parents, FILL, parent_room + MARGIN);
    memset(numerators, FILL, (numerator_room + MARGIN) * sizeof *numerators);
    uint32_t number = newick_read(bytes, names, more, size, parents, parent_room, numerators, numerator_room);
    size_t edges = number ? 0 : parent_room;
    expect(same(parents, edges, parent_room + MARGIN, 1) && same(numerators, edges, numerator_room + MARGIN, sizeof *numerators),
           "a reading that was refused changed a table, or something behind one was written");
    if (number) {
        printf("refused %u\n", (unsigned)number);
        return;
    }
    printf("read");
    for (size_t v = 0; v < edges; v++) {
        printf(" %u", (unsigned)parents[v]);
    }
    printf(" /");
    for (size_t v = 0; v < edges; v++) {
        printf(" %" PRId64, numerators[v]);
    }
    size_t length = 0;
    memset(text, FILL, TEXT + MARGIN);
    expect(newick_write(bytes, names, parents, edges, numerators, edges, text, TEXT, &length) == 0 && length <= TEXT, "what was read is not written");
    expect(same(text, length, TEXT + MARGIN, 1), "a byte behind what was written again changed");
    printf(" %.*s\n", (int)length, (const char *)text);
}

static void write_one(uint32_t names, uint32_t edges, uint32_t count, uint32_t room) {
    uint8_t b[8];
    take_bytes(bytes, names, LONGEST);
    take_bytes(parents, edges, ROOM);
    for (uint32_t v = 0; v < count && v < ROOM; v++) {
        take_bytes(b, 8, 8);
        uint64_t x = 0;
        for (int k = 7; k >= 0; k--) {
            x = x << 8 | b[k];
        }
        memcpy(&given[v], &x, sizeof x);
    }
    size_t length = 77;
    memset(text, FILL, TEXT + 1 + MARGIN);
    uint32_t number = newick_write(bytes, names, parents, edges, given, count, text, room, &length);
    if (number) {
        expect(length == 77 && same(text, 0, TEXT + 1 + MARGIN, 1), "a writing that was refused changed something");
        printf("refused %u\n", (unsigned)number);
        return;
    }
    expect(length <= TEXT && same(text, length, TEXT + 1 + MARGIN, 1), "a byte behind the text changed");
    printf("text %.*s\n", (int)length, (const char *)text);
    /* written again from what is read of it, it is the same text */
    expect(newick_read(bytes, names, text, length, parents_again, edges, numerators_again, edges) == 0, "what was written is not read");
    size_t again = 0;
    expect(newick_write(bytes, names, parents_again, edges, numerators_again, edges, more, TEXT, &again) == 0 && again == length &&
               memcmp(more, text, length) == 0,
           "what was read of a text is written as another");
}

static void print_one(uint32_t length, uint32_t page) {
    take_bytes(bytes, length, LONGEST);
    if (page > ROOM - MARGIN) {
        fprintf(stderr, "no room for a page\n");
        exit(1);
    }
    memset(text, FILL, page + MARGIN);
    size_t written = newick_print(bytes, length, text, page);
    expect(written <= page && same(text, written, page + MARGIN, 1), "a byte behind a print changed");
    if (written == 0) {
        printf("nothing\n");
        return;
    }
    expect(text[written - 1] == '\n', "a print without its line end");
    fwrite(text, 1, written, stdout);
}

int main(void) {
    uint32_t kind, a, b, c, d;
    memset(untouched, FILL, sizeof untouched);
    while (take(&kind) && take(&a) && take(&b) && take(&c) && take(&d)) {
        if (kind == 1) {
            read_one(a, b, c, d);
        } else if (kind == 2) {
            write_one(a, b, c, d);
        } else {
            print_one(a, b);
        }
    }
    return failed != 0;
}
