/* The opening of a line, and of a frame line by line, by document 000's algorithm 1: a stack of flat zones, one pass over the line. */
#ifndef STACK_H
#define STACK_H
#include <stddef.h>
#include <stdint.h>
#ifdef __cplusplus
extern "C" {
#endif
/* Opens the n pixels at src with windows of `length` pixels into out. n is at most 65,535. */
void stack_open(const uint8_t *src, size_t n, size_t length, uint8_t *out);
/* Opens a frame in the direction (p, q) with windows of so many pixels: rows where they stand, other lines copied out and back. */
void stack_open_frame(const uint8_t *src, long width, long height, long stride, long p, long q, long pixels, uint8_t *out);
#ifdef __cplusplus
}
#endif
#endif
