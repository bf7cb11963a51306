/* A pixel ends every open run that is brighter; the last of them goes on at the pixel's level, unless a run below already is at it. */
#include "sums.h"
#include "walk.h"
#include <stdlib.h>
#include <string.h>

struct run {
    uint16_t start, level;
};

/* For each count of pixels, its place among bins and rest: that of the longest length that so many pixels are enough for. */
struct places {
    uint16_t of[WALK_LONGEST + 1];
};

static void find_places(struct places *places, long most, long p, long q, size_t bins)
{
    uint64_t m = labs(p) > labs(q) ? labs(p) : labs(q), squared = p * p + q * q;
    size_t place = 0; /* is that of length place + 1 */
    for (uint64_t pixels = 1; pixels <= (uint64_t)most; pixels++) {
        while (place < bins && (pixels - 1) * (pixels - 1) * squared >= (place + 1) * (place + 1) * m * m)
            place++;
        places->of[pixels] = place;
    }
}

static void add(uint64_t *sums, const struct places *places, size_t pixels, unsigned height)
{
    sums[places->of[pixels]] += (uint64_t)pixels * height;
}

static void add_line(const uint8_t *line, size_t n, uint64_t *sums, const struct places *places)
{
    static struct run runs[WALK_LONGEST];
    size_t depth = 0;
    for (size_t at = 0; at < n; at++) {
        unsigned level = line[at], start = at;
        while (depth && runs[depth - 1].level > level) {
            depth--;
            start = runs[depth].start;
            unsigned under = depth ? runs[depth - 1].level : 0;
            add(sums, places, at - start, runs[depth].level - (under > level ? under : level));
        }
        if (!depth || runs[depth - 1].level < level)
            runs[depth++] = (struct run){start, level};
    }
    while (depth) {
        depth--;
        add(sums, places, n - runs[depth].start, runs[depth].level - (depth ? runs[depth - 1].level : 0));
    }
}

void stack_sums(const uint8_t *src, long width, long height, long stride, long p, long q, uint64_t *sums, size_t bins)
{
    static struct walk w;
    static struct places places;
    static uint8_t line[WALK_LONGEST];
    memset(sums, 0, (bins + 1) * sizeof *sums);
    find_places(&places, width > height ? width : height, p, q, bins);
    if (q == 0) {
        for (long y = 0; y < height; y++)
            add_line(src + y * stride, width, sums, &places);
        return;
    }
    walk_begin(&w, width, height, stride, p, q);
    for (long k = w.first; k < w.first + w.lines; k++)
        add_line(line, walk_out(&w, k, src, line), sums, &places);
}
