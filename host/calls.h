/* The library's calls as the crate `exports` has them, for the demonstration and the benchmark: a slice is a pointer and a length, an answer a record of two
 * numbers. */
#ifndef CALLS_H
#define CALLS_H

#include <stddef.h>
#include <stdint.h>

#ifdef __cplusplus
extern "C" {
#endif

typedef struct {
    uint32_t number;
    uint64_t figure;
} Answer;

Answer c_erode(const uint8_t *src, size_t n, size_t length, uint8_t *dst, size_t room);
Answer c_dilate(const uint8_t *src, size_t m, size_t length, uint8_t *dst, size_t room);
Answer c_open_line(const uint8_t *src, size_t n, size_t length, uint8_t *dst, size_t room, uint8_t *scratch, size_t spare);
Answer c_gather(const uint8_t *src, size_t bytes, size_t width, size_t height, size_t stride, int64_t p, int64_t q, int64_t line, uint8_t *dst, size_t room);
Answer c_highest(const uint8_t *src, size_t bytes, size_t width, size_t height, size_t stride, size_t length, uint8_t *dst, size_t room,
                 uint8_t *directions, size_t directions_room, uint8_t *scratch, size_t spare);
Answer c_sums_of_frame(const uint8_t *src, size_t bytes, size_t width, size_t height, size_t stride, int64_t p, int64_t q, uint64_t *sums, size_t entries,
                       uint8_t *scratch, size_t spare);
double c_mean(const uint64_t *sums, size_t entries);
double c_share(const uint64_t *sums, size_t entries);
uint32_t c_number(const uint64_t *sums, size_t entries);

#ifdef __cplusplus
}
#endif

#endif
