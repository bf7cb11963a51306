/* A pixel ends every open run that is brighter; the last of them goes on at the pixel's level, unless a run below already is at it. The run that is then on top encloses the one that ended:
   its start stands for its place until the list is whole, and from the last stretch down the latest seen with that start is the encloser. */
#include "listing.h"

struct run {
    uint16_t start, level;
};

static void nest(struct stretch *table, size_t count)
{
    static uint16_t seen[65536];
    if (count)
        seen[0] = count - 1;
    for (size_t i = count; i-- > 0;) {
        table[i].encloser = seen[table[i].encloser];
        seen[table[i].start] = i;
    }
}

size_t stack_list(const uint8_t *line, size_t n, struct stretch *table)
{
    static struct run runs[65536];
    size_t count = 0, depth = 0;
    for (size_t at = 0; at < n; at++) {
        unsigned level = line[at], start = at;
        while (depth && runs[depth - 1].level > level) {
            depth--;
            start = runs[depth].start;
            unsigned under = depth ? runs[depth - 1].level : 0;
            unsigned outer = depth && under >= level ? runs[depth - 1].start : start;
            table[count++] = (struct stretch){start, at, runs[depth].level, under > level ? under : level, outer};
        }
        if (!depth || runs[depth - 1].level < level)
            runs[depth++] = (struct run){start, level};
    }
    while (depth) {
        depth--;
        struct run below = depth ? runs[depth - 1] : (struct run){0, 0};
        table[count++] = (struct stretch){runs[depth].start, n, runs[depth].level, below.level, below.start};
    }
    nest(table, count);
    return count;
}
