/* Nanoseconds a verdict on a long sheet of 64 strains, by digits, beside the verdict on the sheet with the same lengths, all
 * in this one program and taking turns: on a balanced tree, a caterpillar and a random one. Sheets are accepted ones, so
 * every equation is worked, and no digit of a denominator is zero. */
#include <stdio.h>

#include "sheets.h"
#include "timing.h"
#include "vamuthexa.h"

enum { N = 64, SIZES = 5 };

static const uint32_t digits[SIZES] = {4, 6, 13, 25, 52};
static volatile uint32_t kept;
static uint8_t sheet[8192], longs[SIZES][32768];
static size_t length, lengths[SIZES];

static void plain(void) { kept = sheet_verdict(sheet, length); }
static void long_4(void) { kept = long_verdict(longs[0], lengths[0]); }
static void long_6(void) { kept = long_verdict(longs[1], lengths[1]); }
static void long_13(void) { kept = long_verdict(longs[2], lengths[2]); }
static void long_25(void) { kept = long_verdict(longs[3], lengths[3]); }
static void long_52(void) { kept = long_verdict(longs[4], lengths[4]); }
static void drawn_6(void) { kept = long_verdict0(longs[1], lengths[1]); }

int main(void) {
    printf("| tree | digits | rule | long, ns | sheet, ns | long / sheet |\n|---|---|---|---|---|---|\n");
    for (int shape = 0; shape < 3; shape++) {
        length = write_sheet(N, shape, sheet);
        int fine = sheet_verdict(sheet, length) == 0;
        for (int k = 0; k < SIZES; k++) {
            lengths[k] = write_long_sheet(N, shape, digits[k], longs[k]);
            fine &= long_verdict(longs[k], lengths[k]) == 0 && long_verdict0(longs[k], lengths[k]) == 0;
            longs[k][lengths[k] - 4] ^= 1; /* the lowest digit of the last edge */
            fine &= long_verdict(longs[k], lengths[k]) == VAMUTHEXA_REMAINDERS;
            longs[k][lengths[k] - 4] ^= 1;
        }
        if (!fine || lengths[SIZES - 1] != VAMUTHEXA_MAX_LONG_SHEET) {
            printf("a sheet that is not accepted, or one that should not be: %s\n", shapes[shape]);
            return 1;
        }
        double ns[SIZES + 2];
        least(SIZES + 2, (void (*const[])(void)){long_4, long_6, long_13, long_25, long_52, drawn_6, plain}, ns);
        for (int k = 0; k < SIZES + 1; k++) {
            printf("| %s | %u | %s | %.0f | %.0f | %.2f |\n", shapes[shape], k < SIZES ? digits[k] : digits[1],
                   k < SIZES ? "plain" : "not negative", ns[k], ns[SIZES + 1], ns[k] / ns[SIZES + 1]);
        }
    }
    return 0;
}
