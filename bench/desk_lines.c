/* Nanoseconds of the verdict on each sheet that is named, for bench/desk_lines.py: the least of fifteen rounds. */
#include <stdio.h>

#include "timing.h"
#include "vamuthexa.h"

static uint8_t sheet[8192];
static size_t length;
static uint32_t number;

static void verdict(void) { number |= sheet_verdict(sheet, length); }

int main(int count, char **names) {
    for (int k = 1; k < count; k++) {
        FILE *file = fopen(names[k], "rb");
        if (file == NULL) {
            return 1;
        }
        length = fread(sheet, 1, sizeof sheet, file);
        fclose(file);
        double ns;
        least(1, (void (*const[])(void)){verdict}, &ns);
        printf("%.0f\n", ns);
    }
    return number != 0;
}
