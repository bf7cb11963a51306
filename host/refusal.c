#include "refusal.h"
#include <inttypes.h>

typedef struct {
    const char *meaning;
    const char *figure; /* what is counted, null where the figure is 0 */
} Rule;

static const Rule rules[] = {
    [1] = {"width, height, stride, or the pixels of a line out of range (a side is 1 to 4,096 pixels)", NULL},
    [2] = {"direction out of range (a number 0 to 15, or a pair of -255 to 255 each, not both 0), or no such line", NULL},
    [3] = {"length 0 or above 4,096", NULL},
    [4] = {"sums slice of fewer than 2 or more than 4,097 entries", NULL},
    [5] = {"source too short", "bytes"},
    [6] = {"destination too short", "bytes"},
    [7] = {"scratch too short", "bytes"},
    [8] = {"table has fewer entries than the line has stretches", "entries"},
    [9] = {"program input not in its form", NULL},
    [10] = {"summary: no light in the bins", NULL},
    [11] = {"summary: a total above 2^53", NULL},
};

void refusal_print(FILE *file, const char *who, uint64_t number, uint64_t figure)
{
    fprintf(file, "%s: refused, %" PRIu64 ": ", who, number);
    if (number >= sizeof rules / sizeof *rules || !rules[number].meaning)
        fprintf(file, "a rule that this host does not know, figure %" PRIu64 "\n", figure);
    else if (rules[number].figure)
        fprintf(file, "%s; needs %" PRIu64 " %s\n", rules[number].meaning, figure, rules[number].figure);
    else
        fprintf(file, "%s\n", rules[number].meaning);
}
