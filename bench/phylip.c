/* Nanoseconds to read and to write a square matrix of PHYLIP at N = 16, 32 and 64, by the proved reader and writer and by a plain reading of
 * docs/RULES.md, Square matrices in text, in C. Both sides get the same text and the same matrix, and must give the same. */
#include <stdint.h>
#include <stdio.h>
#include <string.h>

#include "timing.h"
#include "vamuthexa.h"

enum { TEXT = VAMUTHEXA_TEXT_SIZE, MISSING = 65535 };

static uint8_t text[TEXT], again[TEXT], names[640], given[640];
static uint16_t distances[2016], held[2016], grid[64][64];
static uint32_t n, pairs, number;
static size_t length, plain_length;

/* A number below a limit, the same in every run. */
static uint32_t chance(uint32_t below) {
    static uint64_t state = 88172645463325252u;
    state = state * 6364136223846793005u + 1442695040888963407u;
    return (uint32_t)((state >> 33) % below);
}

static int is_blank(uint8_t x) { return x == ' ' || x == '\t'; }
static int is_digit(uint8_t x) { return x >= '0' && x <= '9'; }

/* How many bytes the line end has that stands here. */
static size_t line_end(const uint8_t *t, size_t at, size_t size) {
    if (at < size && t[at] == '\n') {
        return 1;
    }
    return at + 1 < size && t[at] == '\r' && t[at + 1] == '\n' ? 2 : 0;
}

/* Behind blanks and a line end, or the end of the text; beyond the text where neither stands there. */
static size_t next_line(const uint8_t *t, size_t at, size_t size) {
    while (at < size && is_blank(t[at])) {
        at++;
    }
    size_t end = line_end(t, at, size);
    return at == size || end ? at + end : size + 1;
}

static uint32_t plain_read(const uint8_t *t, size_t size, uint16_t *into, size_t room, uint8_t *named, size_t name_room) {
    size_t at = 0;
    if (size > TEXT) {
        return 17;
    }
    while (at < size && is_blank(t[at])) {
        at++;
    }
    if (at == size || !is_digit(t[at])) {
        return 17;
    }
    uint64_t count = 0;
    for (; at < size && is_digit(t[at]); at++) {
        count = count > 1000 ? count : count * 10 + (t[at] - '0');
    }
    if (count < 3 || count > 64) {
        return 6;
    }
    int out = 0;
    uint8_t kept[640];
    if ((at = next_line(t, at, size)) > size) {
        return 17;
    }
    for (uint64_t i = 0; i < count; i++) {
        if (at + 10 > size) {
            return 17;
        }
        for (int k = 0; k < 10; k++, at++) {
            if (t[at] < 32 || t[at] > 126) {
                return 17;
            }
            kept[10 * i + k] = t[at];
        }
        for (uint64_t j = 0; j < count; j++) {
            size_t gap = at, end;
            while (at < size && (is_blank(t[at]) || (end = line_end(t, at, size)) != 0)) {
                at += is_blank(t[at]) ? 1 : end;
            }
            if (j > 0 && gap == at) {
                return 17;
            }
            if (at + 1 < size && t[at] == '-' && t[at + 1] == '1' && (at + 2 == size || !is_digit(t[at + 2]))) {
                grid[i][j] = MISSING;
                at += 2;
                continue;
            }
            size_t whole = at, places = 0;
            uint64_t units = 0;
            for (; at < size && is_digit(t[at]); at++) {
                units = units > 1000000 ? units : units * 10 + (t[at] - '0');
            }
            if (at == whole) {
                return 17;
            }
            if (at < size && t[at] == '.') {
                for (at++; at < size && is_digit(t[at]); at++, places++) {
                    units = units > 1000000 ? units : units * 10 + (t[at] - '0');
                }
                if (places == 0) {
                    return 17;
                }
            }
            for (size_t k = places; k < 4; k++) {
                units *= 10;
            }
            out |= places > 4 || units > 50000;
            grid[i][j] = (uint16_t)units;
        }
        if ((at = next_line(t, at, size)) > size) {
            return 17;
        }
    }
    if (at != size) {
        return 17;
    }
    if (out) {
        return 18;
    }
    for (uint64_t i = 0; i < count; i++) {
        for (uint64_t j = 0; j <= i; j++) {
            if (grid[i][j] != (i == j ? 0 : grid[j][i])) {
                return 19;
            }
        }
    }
    if (room != count * (count - 1) / 2 || name_room != 10 * count) {
        return 15;
    }
    for (uint64_t j = 0, p = 0; j < count; j++) {
        for (uint64_t i = 0; i < j; i++) {
            into[p++] = grid[i][j];
        }
    }
    memcpy(named, kept, name_room);
    return 0;
}

static size_t plain_write(const uint16_t *from, const uint8_t *named, uint8_t *t) {
    size_t at = 0;
    if (n >= 10) {
        t[at++] = (uint8_t)('0' + n / 10);
    }
    t[at++] = (uint8_t)('0' + n % 10);
    t[at++] = '\n';
    for (uint32_t i = 0; i < n; i++) {
        memcpy(t + at, named + 10 * i, 10);
        at += 10;
        for (uint32_t j = 0; j < n; j++) {
            uint32_t e = i == j ? 0 : i < j ? from[j * (j - 1) / 2 + i] : from[i * (i - 1) / 2 + j];
            t[at++] = ' ';
            if (e == MISSING) {
                t[at++] = '-';
                t[at++] = '1';
                continue;
            }
            t[at++] = (uint8_t)('0' + e / 10000);
            t[at++] = '.';
            for (uint32_t ten = 1000; ten > 0; ten /= 10) {
                t[at++] = (uint8_t)('0' + e / ten % 10);
            }
        }
        t[at++] = '\n';
    }
    return at;
}

static void read_ours(void) { number |= phylip_read(text, length, held, pairs, names, 10 * n); }
static void read_plain(void) { number |= plain_read(text, length, held, pairs, names, 10 * n); }
static void write_ours(void) { number |= phylip_write(n, distances, pairs, given, 10 * n, again, TEXT, &plain_length); }
static void write_plain(void) { plain_length = plain_write(distances, given, again); }

int main(void) {
    printf("| N | read, ns | plain, ns | read / plain | write, ns | plain, ns | write / plain |\n|---|---|---|---|---|---|---|\n");
    for (n = 16; n <= 64; n *= 2) {
        pairs = n * (n - 1) / 2;
        for (uint32_t p = 0; p < pairs; p++) {
            distances[p] = chance(20) == 0 ? MISSING : (uint16_t)chance(50001);
        }
        for (uint32_t k = 0; k < 10 * n; k++) {
            given[k] = (uint8_t)(32 + chance(95));
        }
        number = 0;
        length = plain_write(distances, given, text);
        write_ours();
        int fine = plain_length == length && memcmp(text, again, length) == 0;
        for (int which = 0; which < 2; which++) {
            memset(held, 0, sizeof held);
            memset(names, 0, sizeof names);
            which ? read_ours() : read_plain();
            fine &= memcmp(held, distances, pairs * sizeof held[0]) == 0 && memcmp(names, given, 10 * n) == 0;
        }
        double ns[4];
        least(4, (void (*const[])(void)){read_ours, read_plain, write_ours, write_plain}, ns);
        if (number != 0 || !fine) {
            printf("the two do not agree: N = %u\n", n);
            return 1;
        }
        printf("| %u | %.0f | %.0f | %.2f | %.0f | %.0f | %.2f |\n", n, ns[0], ns[1], ns[0] / ns[1], ns[2], ns[3], ns[2] / ns[3]);
    }
    return 0;
}
