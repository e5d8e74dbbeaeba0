/* A plain reading of docs/RULES.md, The pairs of a fit, in C, with the entry that the proved library has: for comparison. */
#ifndef PLAIN_PATHS_H
#define PLAIN_PATHS_H

#include <stddef.h>
#include <stdint.h>

enum { PLAIN_PATHS_PAGE = 262144 };
size_t plain_paths_print(const uint8_t *sheet, size_t length, uint8_t *text, size_t size);

#endif
