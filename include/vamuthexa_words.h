/* What each number of refusal means, and where to look: the one table of words, for the programs at the shell, whose --words reads it (bin/shared), and
 * for viewers in C. Define WORDS(number, means, look) and include this where a table or a switch is filled, as examples/viewer.c does. An @
 * stands for the number of the byte, the vertex or the edge that the refusal names, and a % for the sum behind it.
 * WORDS_BARE has what a refusal means that names no place though others of its number do, and the desk's `refused line`; where it is not defined
 * it is left out. One line each, and no quotation mark within the words: a shell reads them. */
#ifndef WORDS_BARE
#define WORDS_BARE(number, means, look)
#endif
WORDS(1, "the sheet is longer than 5,187 bytes, or with names than 5,897", "look at the size of the file, which may be no sheet or more than one")
WORDS(2, "a record is cut short", "look at the record that starts at byte @ and at what is left behind it")
WORDS(3, "a record is not of the kind that is due", "look at the record that starts at byte @")
WORDS(4, "a record's length does not match its counts", "look at the record that starts at byte @")
WORDS(5, "bytes follow the last record", "look at byte @, the first that is too many")
WORDS(6, "the number of strains is not 3 to 64", "look at the count of the strains")
WORDS(7, "a distance is above 50,000 and not the mark of a missing pair", "look at the largest distances")
WORDS(8, "the tree is for another number of strains, or has too few or too many vertices", "look at the tree's counts of strains and of vertices")
WORDS(9, "a parent is not above its child, or is a strain", "look at the parent of vertex @")
WORDS(10, "an inner vertex has too few children", "look at vertex @")
WORDS(11, "there is not one numerator for each edge", "look at the count of the numerators, which is due to be the vertices less one")
WORDS(12, "the denominator is not 1 to 1,000,000", "look at the denominator before the numerators")
WORDS(13, "a numerator is beyond its range", "look at edge @, as 100,000,000,000 on either side is the most")
WORDS(14, "the lengths are not the fit: for some edge observed and tree distance differ in sum", "look at edge @, the lowest such, where the sum is % in units of 1/D")
WORDS(15, "a lent buffer does not have the exact length", "look at the call, as no program gives this number")
WORDS(16, "a parent is past the root", "look at the parent of vertex @")
WORDS(17, "the text is no square matrix of the form, or is above 65,536 bytes", "look at its count and its rows beside docs/RULES.md, Square matrices in text")
WORDS(18, "a decimal is above 5.0000 or has more than four places", "look at the decimals, as none is rounded unseen")
WORDS(19, "the two halves of the matrix differ, or its diagonal is not zero", "look at each pair in both of its rows")
WORDS(20, "the bench is not 1 or 2", "look at the number behind the first word of the call")
WORDS(21, "nothing is posted, or no table stands in the bench's name", "look at the calls before it, as a posting or a correction takes both tables down")
WORDS(22, "a length is negative", "look at edge @, the lowest such")
WORDS(23, "the lengths are not the fit: an edge of length zero would fit better if it were longer", "look at edge @, the lowest such, where the sum is % in units of 1/D")
WORDS(24, "the two strains of a correction are equal, or one is not below N", "look at the two numbers behind the first word of the call")
WORDS(25, "an inner vertex is not of degree three", "look at vertex @, the lowest such")
WORDS(26, "an edge parts no pair that was measured", "look at edge @, which no distance holds")
WORDS(27, "the matrix is not that of the first accepted sheet", "look at which matrix the sheet was fitted to")
WORDS(28, "a name is not 1 to 10 letters, digits or underscores, or stands twice, or a tree's text is not of the form", "look at the names and the text beside docs/RULES.md, Trees in text")
WORDS(29, "in a tree's text a name is unknown, used twice or missing", "look at the names of the text beside those of the record")
WORDS_BARE(2, "the run ends within a length or within a sheet", "look at the end of the input")
WORDS_BARE(4, "there is not one distance for each pair of strains", "look at how many distances the call has")
WORDS_BARE(26, "a pair was not measured, and only proposed lengths can leave one out", "look for 65535 among the distances")
WORDS_BARE(line, "the line is no call, or has more than 16,384 bytes", "look at the calls that bin/desk --help lists")
#undef WORDS
#undef WORDS_BARE
