/* Document 000's algorithm 1, as printed: 'Process a pixel' for each pixel, and the zones left at the end of the line. */
#include "stack.h"
#include "walk.h"
#include <string.h>

typedef struct {
    uint16_t start;
    uint8_t level;
    uint8_t passed; /* at least `length` long, whatever its start says */
} Zone;

/* WriteFlatZones: the popped zone and all below it have their final value; each ends where the one above it begins. */
static size_t write_zones(Zone zone, size_t end, const Zone *stack, size_t depth, uint8_t *out)
{
    for (;;) {
        memset(out + zone.start, zone.level, end - zone.start);
        end = zone.start;
        if (depth == 0)
            return 0;
        zone = stack[--depth];
    }
}

void stack_open(const uint8_t *src, size_t n, size_t length, uint8_t *out)
{
    static Zone stack[65536];
    size_t depth = 0;
    for (size_t at = 0; at < n; at++) {
        uint8_t level = src[at];
        if (depth == 0 || level > stack[depth - 1].level) {
            stack[depth++] = (Zone){(uint16_t)at, level, 0};
            continue;
        }
        while (level < stack[depth - 1].level) {
            Zone zone = stack[--depth];
            if (zone.passed || at - zone.start >= length) {
                depth = write_zones(zone, at, stack, depth, out);
                stack[depth++] = (Zone){(uint16_t)at, level, 1};
                break;
            }
            if (depth == 0 || level > stack[depth - 1].level) {
                stack[depth++] = (Zone){zone.start, level, 0};
                break;
            }
        }
    }
    while (depth > 0) {
        Zone zone = stack[--depth];
        if (zone.passed || n - zone.start >= length) {
            write_zones(zone, n, stack, depth, out);
            return;
        }
    }
    memset(out, 0, n);
}

void stack_open_frame(const uint8_t *src, long width, long height, long stride, long p, long q, long pixels, uint8_t *out)
{
    static struct walk w;
    static uint8_t line[WALK_LONGEST], opened[WALK_LONGEST];
    if (q == 0) {
        for (long y = 0; y < height; y++)
            stack_open(src + y * stride, width, pixels, out + y * stride);
        return;
    }
    walk_begin(&w, width, height, stride, p, q);
    for (long k = w.first; k < w.first + w.lines; k++) {
        stack_open(line, walk_out(&w, k, src, line), pixels, opened);
        walk_in(&w, k, opened, out);
    }
}
