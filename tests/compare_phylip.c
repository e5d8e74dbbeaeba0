/* Reads the texts that tests/phylip.py --make writes, each led by its length and the room for distances and name bytes, with the
 * proved reader, and writes what was read again with the proved writer: the text, or `refused` and the number, as
 * tests/phylip.py --answer says it. Beside that it sees that a refusal changes neither buffer, that no byte behind the text changes,
 * and that the writer refuses in its order. What fails is said on standard error, and the status is then 1. */
#include <stdio.h>
#include <stdlib.h>
#include <string.h>

#include "drawn.h"
#include "vamuthexa.h"

enum { TEXT = 65536, LONGEST = 2 * TEXT, ROOM = 8 * TEXT, MARGIN = 64 };

static uint8_t text[LONGEST], again[TEXT + 1], before[TEXT + 1], names[ROOM], names_were[ROOM];
static uint16_t distances[ROOM], distances_were[ROOM];

static void one(uint32_t size, uint32_t pairs, uint32_t name_bytes) {
    size_t seen = (pairs + MARGIN) * sizeof *distances, names_seen = name_bytes + MARGIN;
    memset(distances, 0xa5, seen);
    memset(names, 0xa5, names_seen);
    memset(distances_were, 0xa5, seen);
    memset(names_were, 0xa5, names_seen);
    uint32_t number = phylip_read(text, size, distances, pairs, names, name_bytes);
    size_t filled = number ? 0 : pairs, named = number ? 0 : name_bytes;
    expect(!memcmp(distances + filled, distances_were + filled, seen - filled * sizeof *distances) && !memcmp(names + named, names_were + named, names_seen - named),
           "a refusal changed a buffer, or something behind one was written");
    if (number) {
        printf("refused %u\n", number);
        return;
    }
    size_t length = 77;
    memset(again, 0xa5, sizeof again);
    memcpy(before, again, sizeof again);
    expect(phylip_write(name_bytes / 10, distances, pairs, names, name_bytes, again, TEXT, &length) == 0, "what was read is not written");
    expect(!memcmp(again + length, before + length, sizeof again - length), "a byte behind the text changed");
    fwrite(again, 1, length, stdout);
}

static void refuses(uint32_t due, uint32_t n, const uint16_t *d, size_t pairs, const uint8_t *given, size_t bytes, size_t room) {
    size_t length = 77;
    memset(again, 0xa5, sizeof again);
    memcpy(before, again, sizeof again);
    expect(phylip_write(n, d, pairs, given, bytes, again, room, &length) == due, "the writer's number");
    expect(length == 77 && !memcmp(again, before, sizeof again), "the writer's refusal changed something");
}

static void writer(void) {
    uint16_t d[2080];
    uint8_t given[650];
    memset(given, 'x', sizeof given);
    for (int i = 0; i < 2080; i++) {
        d[i] = 50001;
    }
    refuses(4, 3, d, 2, given, 30, 0);
    refuses(4, 3, d, 3, given, 29, 0);
    refuses(4, 2, d, 1, given, 30, TEXT);
    refuses(4, 0x80000000u, d, 0, given, 0, TEXT);
    refuses(4, 0xffffffffu, d, 0, given, 0, TEXT);
    refuses(6, 0, d, 0, given, 0, 0);
    refuses(6, 1, d, 0, given, 10, 0);
    refuses(6, 2, d, 1, given, 20, 0);
    refuses(6, 65, d, 2080, given, 650, 0);
    refuses(7, 3, d, 3, given, 30, 0);
    d[0] = 65534;
    d[1] = d[2] = 0;
    refuses(7, 3, d, 3, given, 30, 0);
    d[0] = 65535;
    d[1] = 50000;
    const uint8_t odd[] = {0, 10, 31, 127, 255};
    for (size_t i = 0; i < sizeof odd; i++) {
        given[29] = odd[i];
        refuses(17, 3, d, 3, given, 30, 0);
    }
    given[29] = 126;
    given[0] = 32;
    refuses(15, 3, d, 3, given, 30, 0);
    refuses(15, 3, d, 3, given, 30, TEXT - 1);
    refuses(15, 3, d, 3, given, 30, TEXT + 1);
}

int main(void) {
    uint32_t size, pairs, name_bytes;
    writer();
    while (take(&size) && take(&pairs) && take(&name_bytes)) {
        if (size > LONGEST || pairs > ROOM - MARGIN || name_bytes > ROOM - MARGIN || fread(text, 1, size, stdin) != size) {
            fprintf(stderr, "a drawn text that there is no room for\n");
            return 1;
        }
        one(size, pairs, name_bytes);
    }
    return failed != 0;
}
