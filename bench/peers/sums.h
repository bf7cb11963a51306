/* The size sums of a frame by a stack of open runs: one pass over each line, each stretch's light added to the bin of the longest length that its pixels are enough for. */
#ifndef SUMS_H
#define SUMS_H
#include <stddef.h>
#include <stdint.h>
#ifdef __cplusplus
extern "C" {
#endif
/* Sums the lines of a frame in the direction (p, q) into `bins` bins, by length as measured along a row, and the rest behind them. bins is at most 4,096. */
void stack_sums(const uint8_t *src, long width, long height, long stride, long p, long q, uint64_t *sums, size_t bins);
#ifdef __cplusplus
}
#endif
#endif
