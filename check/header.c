/* Includes the header as a host does and calls through it: the marked example P2 as a frame of one row, the same frame across, a slanted length, and each refusal's number and figure once. */
#include "../include/fibre.h"
#include <stdio.h>
#include <string.h>

static const uint8_t line[5] = {3, 5, 5, 2, 4};
static uint8_t opened[5], scratch[40];

static uint64_t call(size_t src_bytes, size_t width, size_t height, int64_t p, int64_t q, size_t length, size_t dst_bytes, size_t scratch_bytes)
{
    memset(opened, 9, sizeof opened);
    return fibre_open_frame(line, src_bytes, width, height, width, p, q, length, opened, dst_bytes, scratch, scratch_bytes);
}

static int is_opened(uint8_t a, uint8_t b, uint8_t c, uint8_t d, uint8_t e)
{
    const uint8_t expected[5] = {a, b, c, d, e};
    return memcmp(opened, expected, sizeof expected) == 0;
}

static int is_refused(uint64_t got, uint64_t number, uint64_t figure)
{
    return got == (number << 32) + figure && is_opened(9, 9, 9, 9, 9);
}

/* At (1, 1) a length of 5 means 4 pixels, just those of the diagonal, and a length of 6 means 5. */
static int is_slanted(void)
{
    static const uint8_t square[16] = {9, 2, 3, 4, 5, 8, 7, 8, 9, 6, 7, 5, 3, 4, 5, 6};
    static const uint8_t diagonal[16] = {6, 0, 0, 0, 0, 6, 0, 0, 0, 0, 6, 0, 0, 0, 0, 6}, black[16];
    uint8_t got[16];
    int right = fibre_open_frame(square, 16, 4, 4, 4, 1, 1, 5, got, 16, scratch, 32) == 0 && memcmp(got, diagonal, 16) == 0;
    return right && fibre_open_frame(square, 16, 4, 4, 4, 1, 1, 6, got, 16, scratch, 32) == 0 && memcmp(got, black, 16) == 0;
}

int main(void)
{
    int right = is_slanted() && call(5, 5, 1, 1, 0, 2, 5, 40) == 0 && is_opened(3, 5, 5, 2, 2);
    right = right && call(5, 1, 5, 0, -1, 3, 5, 40) == 0 && is_opened(3, 3, 3, 2, 2);
    right = right && call(5, 5, 1, 0, 1, 2, 5, 40) == 0 && is_opened(0, 0, 0, 0, 0);
    right = right && is_refused(call(5, 0, 1, 1, 0, 2, 5, 40), 1, 0) && is_refused(call(5, 5, 1, 0, 0, 2, 5, 40), 2, 0);
    right = right && is_refused(call(5, 5, 1, 1, 0, 0, 5, 40), 3, 0) && is_refused(call(4, 5, 1, 1, 0, 2, 5, 40), 5, 5);
    right = right && is_refused(call(5, 5, 1, 1, 0, 2, 4, 40), 6, 5) && is_refused(call(5, 5, 1, 1, 0, 2, 5, 39), 7, 40);
    puts(right ? "check/header: 11 calls from C through include/fibre.h" : "check/header: a call from C through include/fibre.h differs");
    return !right;
}
