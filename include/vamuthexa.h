/* The verdict on a sheet and on a long sheet, the direct fit of a resolved tree, the prints of sheets, PHYLIP's square
 * matrices, and trees in text, for programs in C and C++ on x86-64. docs/RULES.md lays out the bytes of a sheet (The
 * sheet, The sheet with names, The long sheet) and the texts, and says what each number means.
 *
 * Every function is proved: it answers whatever it is lent, and reads and writes nothing outside that. A pointer may
 * be null where its length is 0, which bench/stack.c tries of each; the `length` that two writers fill may not be.
 * Nothing is kept between two calls: no function has memory of its own but the stack, so any number of threads may
 * call any of them at once, as long as no buffer that one of them writes is lent to another.
 *
 * Tables are on the stack. A print of a long sheet takes 99,600 bytes of it, a verdict on one 69,800; a print of a sheet
 * at most 49,800, of its pairs 46,000, a verdict 11,300; newick_read 42,100 and each of the others less, as measured
 * with the largest sheets and the deepest trees; 128 KiB are enough for a thread that calls any of them, and 64 KiB for
 * one that calls nothing of long sheets (bench/RESULTS.md, What an entry takes of the stack).
 *
 * Each function says what to link with; where several archives are wanted, in any order. */
#ifndef VAMUTHEXA_H
#define VAMUTHEXA_H

#include <stddef.h>
#include <stdint.h>

#ifdef __cplusplus
extern "C" {
#endif

/* What a caller may make room for: the most strains, the most edges of their tree, and the most bytes of a sheet that
 * can be accepted, without names and with them, and of a long one. One byte more is enough to know that a sheet is too
 * long. */
enum {
    VAMUTHEXA_MAX_STRAINS = 64,
    VAMUTHEXA_MAX_EDGES = 125,        /* 2N - 3 */
    VAMUTHEXA_MAX_SHEET = 5187,       /* 6 + 4,034 for the matrix, 6 + 129 for the tree, 6 + 1,006 for the lengths */
    VAMUTHEXA_MAX_NAMED_SHEET = 5897, /* and 6 + 704 for the names */
    VAMUTHEXA_MAX_LONG_SHEET = 30393  /* 6 + 26,212 for long lengths of 52 digits each, in place of 6 + 1,006 */
};

/* In a matrix: nobody measured this pair. Any pair may be missing, as long as every edge parts one that is not. */
enum { VAMUTHEXA_MISSING = 65535 };

enum vamuthexa_number {
    VAMUTHEXA_ACCEPTED = 0,
    VAMUTHEXA_SHEET_TOO_LONG = 1, /* sheet above 5,187 bytes; with names, above 5,897; a long sheet, above 30,393 */
    VAMUTHEXA_RECORD_CUT = 2,     /* fewer bytes left than a record's head or body needs */
    VAMUTHEXA_WRONG_KIND = 3,     /* kind not the one due */
    VAMUTHEXA_WRONG_COUNTS = 4,   /* body too short for its counts, V = 0, or length not as they say */
    VAMUTHEXA_BYTES_LEFT = 5,     /* bytes after the third record; without lengths the second, with names the fourth */
    VAMUTHEXA_STRAINS = 6,        /* matrix N not 3 to 64 */
    VAMUTHEXA_DISTANCE = 7,       /* a distance above 50,000 that is not 65,535, the mark of a missing pair */
    VAMUTHEXA_VERTICES = 8,       /* the tree's N differs from the matrix's, or V not N+1 to 2N-2 */
    VAMUTHEXA_PARENT = 9,         /* a parent not greater than its child or below N */
    VAMUTHEXA_CHILDREN = 10,      /* an inner vertex with too few children */
    VAMUTHEXA_EDGES = 11,         /* K not V-1 */
    VAMUTHEXA_DENOMINATOR = 12,   /* D not 1 to 1,000,000; long: not 1 to 52 digits, one above 999,999, or D zero */
    VAMUTHEXA_NUMERATOR = 13,     /* a numerator beyond its range; long: also a digit beyond its own, or both signs */
    VAMUTHEXA_REMAINDERS = 14,    /* some edge's sum of remainders is not zero: not the fit */
    VAMUTHEXA_BUFFER = 15,        /* a lent result buffer not of the exact length; never for a sheet */
    VAMUTHEXA_PAST_ROOT = 16,     /* a parent above V-1; of 9 and 16 the one at the lowest vertex */
    VAMUTHEXA_TEXT = 17,          /* a text too long, without a count or not of its form; a name byte not 32 to 126 */
    VAMUTHEXA_DECIMAL = 18,       /* in a text, a decimal above 5.0000 or with more than four places */
    VAMUTHEXA_HALVES = 19,        /* in a text, the halves differ or the diagonal is not zero */
    VAMUTHEXA_NEGATIVE = 22,      /* a negative numerator; only where no length may be negative */
    VAMUTHEXA_ZERO_EDGE = 23,     /* likewise, an edge of length zero whose sum is positive: a longer one fits better */
    VAMUTHEXA_UNRESOLVED = 25,    /* some inner vertex not of degree three; never for a sheet with lengths */
    VAMUTHEXA_UNMEASURED = 26,    /* an edge that parts no measured pair; for the direct fit, any missing pair */
    VAMUTHEXA_NEWICK = 28,        /* a name not of the form or twice; a tree's text too long, too deep or no tree's */
    VAMUTHEXA_NAME = 29           /* in a tree's text, a name unknown, used twice or missing */
};

/* The number of the sheet in the `length` bytes at `sheet`. Link with libsheet.a. */
uint32_t sheet_verdict(const uint8_t *sheet, size_t length);

/* The same where no length may be negative: the lengths are the best fit among those that are zero or more. Then the
 * numbers 22 and 23 are given too, and 14 is asked of edges with a positive length only. */
uint32_t sheet_verdict0(const uint8_t *sheet, size_t length);

/* The number of a long sheet, whose lengths are over a denominator of up to 52 digits to the base 1,000,000: records of
 * kinds 1, 2 and 4. A sheet whose lengths are of kind 3 gets 3. Link with liblong_sheet.a. */
uint32_t long_verdict(const uint8_t *sheet, size_t length);

/* The same where no length may be negative. */
uint32_t long_verdict0(const uint8_t *sheet, size_t length);

/* The bytes of a page. Every print of a sheet fits one; the text of a tree has a page of its own size, below. */
enum { VAMUTHEXA_PAGE = 16384 };

/* Writes to the front of `text` what the program `report` prints of the sheet: its report, or the line with the number
 * and the place of its refusal, as `refused 14 edge 0 2`. Each line ends in LF; no zero follows the last. Returns how
 * many bytes were written, at most VAMUTHEXA_PAGE, and leaves all behind them as it was. Where `size`, the bytes that
 * are lent at `text`, is below VAMUTHEXA_PAGE, it writes nothing and returns 0. The two buffers may not overlap. Link
 * with libpages.a. */
size_t sheet_print(const uint8_t *sheet, size_t length, uint8_t *text, size_t size);

/* The same where no length may be negative, as the program `report0` prints it. */
size_t sheet_print0(const uint8_t *sheet, size_t length, uint8_t *text, size_t size);

/* The same for a sheet without lengths, as the program `resolved` prints it. */
size_t unfitted_print(const uint8_t *sheet, size_t length, uint8_t *text, size_t size);

/* The bytes of a page for the print of a long sheet. */
enum { VAMUTHEXA_LONG_PAGE = 65536 };

/* Writes to the front of `text` what `report --long` prints of a long sheet, whose lengths are over a denominator of any
 * size. Returns how many bytes were written, at most VAMUTHEXA_LONG_PAGE, and leaves all behind them as it was. Where
 * `size` is below VAMUTHEXA_LONG_PAGE, it writes nothing and returns 0. The two buffers may not overlap. Link with
 * liblong_pages.a. */
size_t long_print(const uint8_t *sheet, size_t length, uint8_t *text, size_t size);

/* The same where no length may be negative, as `report0 --long` prints it. */
size_t long_print0(const uint8_t *sheet, size_t length, uint8_t *text, size_t size);

/* The lengths of a resolved tree of n strains that fit the distances best. Every table comes as a pointer and how many
 * entries it has: n(n-1)/2 distances, one parent for each of K edges, and three buffers of K entries for the
 * numerators and denominators in lowest terms and for the lengths in thousandths. The distance of strains i and j,
 * with i below j, stands at distances[j(j-1)/2 + i], so the order is 01, 02, 12, 03, 13, 23, .. and a strain more
 * appends; a sheet has its distances in rows, 01, 02, .., 0(n-1), 12, .. No pair may be missing. The number is 4, 6 to
 * 10, 16, 25, 26 or 15, or 0 where the buffers are filled; otherwise they are as they were. No buffer may overlap
 * another, nor a table that is lent beside it. Link with libdirect_fit.a. */
uint32_t resolved_lengths(uint32_t n, const uint16_t *distances, size_t distance_count, const uint8_t *parents,
                          size_t parent_count, int64_t *numerators, size_t numerator_count, uint32_t *denominators,
                          size_t denominator_count, int64_t *rounded, size_t rounded_count);

/* The most bytes of a text, a square matrix or a tree, and how many each buffer that one is written to must have. */
enum { VAMUTHEXA_TEXT_SIZE = 65536 };

/* The square matrix of PHYLIP in the `size` bytes at `text`: its distances go to `distances` in the order above, one
 * unit being 0.0001 and VAMUTHEXA_MISSING standing for -1, its names to `names`, ten bytes a strain. The buffers must
 * have exactly n(n-1)/2 distances and 10n bytes for the n strains of the text. The number is 17, 6, 18, 19 or 15, or 0
 * where both buffers are filled; otherwise they are as they were. No buffer may overlap another. Link with
 * libphylip_read.a. */
uint32_t phylip_read(const uint8_t *text, size_t size, uint16_t *distances, size_t distance_count, uint8_t *names,
                     size_t name_count);

/* Writes the square matrix of n strains and their names to the front of `text`, which must have exactly
 * VAMUTHEXA_TEXT_SIZE bytes: one line a row, LF at its end, four places. No zero follows the text and no byte behind
 * it changes. The number is 4 (also where there are not ten name bytes a strain), 6, 7, 17 for a name byte outside 32
 * to 126, or 15, or 0 where the text is written and its length is in `length`; otherwise both are as they were.
 * Reading the text gives the same distances and names. No buffer may overlap another. Link with libphylip_write.a. */
uint32_t phylip_write(uint32_t n, const uint16_t *distances, size_t distance_count, const uint8_t *names,
                      size_t name_count, uint8_t *text, size_t size, size_t *length);

/* The bytes of a page for the print of a tree: its text, and a line end. */
enum { VAMUTHEXA_TREE_PAGE = VAMUTHEXA_TEXT_SIZE + 1 };

/* Writes to the front of `text` what the program `newick` prints of a sheet with names, which has a fourth record of
 * kind 5 behind its lengths: its tree in Newick form and LF, or the line with the number and the place of its refusal.
 * Returns how many bytes were written, at most VAMUTHEXA_TREE_PAGE, and leaves all behind them as it was. Where `size`
 * is below VAMUTHEXA_TREE_PAGE, it writes nothing and returns 0. The two buffers may not overlap. Link with
 * libnewick_pages.a. */
size_t newick_print(const uint8_t *sheet, size_t length, uint8_t *text, size_t size);

/* The bytes of a page for the print of paths: every print of them fits one. */
enum { VAMUTHEXA_PATHS_PAGE = 262144 };

/* Writes to the front of `text` what the program `paths` prints of a sheet, with names or without: for every two strains
 * their distance, their path and the remainder; or the line with the number and the place of its refusal. Returns how
 * many bytes were written, at most VAMUTHEXA_PATHS_PAGE, and leaves all behind them as it was. Where `size` is below
 * VAMUTHEXA_PATHS_PAGE, it writes nothing and returns 0. The two buffers may not overlap. Link with libpaths_pages.a. */
size_t paths_print(const uint8_t *sheet, size_t length, uint8_t *text, size_t size);

/* Writes a tree in Newick form to the front of `text`, which must have exactly VAMUTHEXA_TEXT_SIZE bytes; no fit is
 * asked for. `names` is a names record, its head included, and says how many strains there are; a tree of K edges has
 * K parents and K lengths in thousandths. No zero follows the text and no byte behind it changes. The number is 2 to
 * 5, 28, 6, 8 to 10, 16, 11, 13 or 15, or 0 where the text is written and its length is in `length`; otherwise both
 * are as they were. Reading the text gives the same tree, its inner vertices perhaps numbered otherwise, and the same
 * thousandths. No buffer may overlap another. Link with libnewick_write.a. */
uint32_t newick_write(const uint8_t *names, size_t names_length, const uint8_t *parents, size_t parent_count,
                      const int64_t *thousandths, size_t thousandth_count, uint8_t *text, size_t size, size_t *length);

/* The tree in the `size` bytes at `text`, in Newick form, whose strains are those of the names record: a parent for
 * each of its K edges goes to `parents` and its length in thousandths to `numerators`, each of which must have exactly
 * K entries. Inner vertices are numbered as their brackets close. The number is 2 to 5, 28, 6, 29, 8, 10, 13 or 15, or
 * 0 where both buffers are filled; otherwise they are as they were. No buffer may overlap another. Link with
 * libnewick_read.a. */
uint32_t newick_read(const uint8_t *names, size_t names_length, const uint8_t *text, size_t size, uint8_t *parents,
                     size_t parent_count, int64_t *numerators, size_t numerator_count);

#ifdef __cplusplus
}
#endif

#endif
