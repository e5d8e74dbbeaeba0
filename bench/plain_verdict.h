/* The plain verdict of plain_verdict.c, pair by pair and edge by edge, each at three levels of the compiler. */
#ifndef PLAIN_VERDICT_H
#define PLAIN_VERDICT_H

#include <stddef.h>
#include <stdint.h>

uint32_t pairs_o2(const uint8_t *sheet, size_t length);
uint32_t pairs_o3(const uint8_t *sheet, size_t length);
uint32_t pairs_native(const uint8_t *sheet, size_t length);
uint32_t edges_o2(const uint8_t *sheet, size_t length);
uint32_t edges_o3(const uint8_t *sheet, size_t length);
uint32_t edges_native(const uint8_t *sheet, size_t length);

#endif
