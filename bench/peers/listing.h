/* The list of bright stretches of a line by a stack of open runs, in one pass over the line and one over the list. */
#ifndef LISTING_H
#define LISTING_H
#include <stddef.h>
#include <stdint.h>
#ifdef __cplusplus
extern "C" {
#endif
struct stretch {
    uint16_t start, end, level, base, encloser;
};
/* Lists the stretches of the n pixels at line into table, which has n entries; hands back how many there are. n is at most 65,535. */
size_t stack_list(const uint8_t *line, size_t n, struct stretch *table);
#ifdef __cplusplus
}
#endif
#endif
