/* A small bench viewer: prints for each sheet named on the command line its name and its verdict in
 * words; with --print, or -p, its name and its whole print, which is the report or the refusal with its place. With
 * --not-negative, or -0, no length may be negative.
 * Built, on x86-64, with
 *     bin/archive sheet pages
 *     cc -Iinclude examples/viewer.c target/staticlib/libpages.a target/staticlib/libsheet.a -o viewer
 * It ends with 0 where every sheet was accepted, with 1 where one was refused, and with 2 where one could not be
 * read or the verdicts could not be written. */
#include <stdio.h>
#include <string.h>

#include "vamuthexa.h"

static const char *const words[] = {
    "accepted: the lengths are the least-squares fit to this matrix on this tree",
#define WORDS(number, means, look) [number] = means,
#include "vamuthexa_words.h"
};

static const char *const accepted_drawn =
    "accepted: the lengths are the least-squares fit to this matrix on this tree among those without a negative one";

/* The words for a number; they are the same that the programs at the shell say with --words. */
static const char *words_for(uint32_t number) {
    return number < sizeof words / sizeof words[0] && words[number] != NULL ? words[number] : "unknown";
}

/* One byte more than a sheet may have is enough to know that it is too long. */
enum { READ_AT_MOST = VAMUTHEXA_MAX_SHEET + 1 };

/* The verdict on one file, or its print: 0 accepted, 1 refused, 2 not read. */
static int show(const char *name, int whole, int drawn) {
    static unsigned char bytes[READ_AT_MOST];
    FILE *file = fopen(name, "rb");
    if (file == NULL) {
        perror(name);
        return 2;
    }
    size_t length = fread(bytes, 1, sizeof bytes, file);
    if (ferror(file)) {
        perror(name);
        fclose(file);
        return 2;
    }
    fclose(file);
    uint32_t number = (drawn ? sheet_verdict0 : sheet_verdict)(bytes, length);
    if (whole) {
        static uint8_t page[VAMUTHEXA_PAGE];
        size_t written = (drawn ? sheet_print0 : sheet_print)(bytes, length, page, sizeof page);
        printf("%s:\n", name);
        fwrite(page, 1, written, stdout);
        return number != VAMUTHEXA_ACCEPTED;
    }
    if (number == VAMUTHEXA_ACCEPTED) {
        printf("%s: %s\n", name, drawn ? accepted_drawn : words[0]);
        return 0;
    }
    printf("%s: refused %u, %s\n", name, (unsigned)number, words_for(number));
    return 1;
}

int main(int count, char **names) {
    int whole = 0, drawn = 0, first = 1;
    for (; first < count; first++) {
        if (strcmp(names[first], "--print") == 0 || strcmp(names[first], "-p") == 0)
            whole = 1;
        else if (strcmp(names[first], "--not-negative") == 0 || strcmp(names[first], "-0") == 0)
            drawn = 1;
        else
            break;
    }
    if (first == count) {
        fprintf(stderr, "Usage: viewer [--print] [--not-negative] SHEET...\n"
                        "Prints the verdict on each sheet that is named; with --print, or -p, its report or its refusal with the\n"
                        "place; with --not-negative, or -0, where no length may be negative.\n");
        return 2;
    }
    int worst = 0;
    for (int i = first; i < count; i++) {
        int status = show(names[i], whole, drawn);
        if (status > worst)
            worst = status;
    }
    if (fflush(stdout) != 0 || ferror(stdout)) {
        perror("standard output");
        return 2;
    }
    return worst;
}
