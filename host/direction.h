/* Directions: pairs of p columns to the right for q rows down, and the sixteen that have a number. */
#ifndef DIRECTION_H
#define DIRECTION_H

#include <stddef.h>
#include <stdint.h>

enum { DIRECTIONS = 16 };

typedef struct {
    int64_t p, q;
} Direction;

/* A number above 15 names (0, 0), which every call refuses. */
Direction direction_numbered(uint64_t number);

/* Decimal digits from *text on, which is moved behind them; a number above `most` becomes `most`. 0 where there is no digit. */
int number_read(const char **text, uint64_t most, uint64_t *number);

/* A direction's number, or its pair as p,q: whether the text is one or the other. What does not fit becomes a number that every call refuses. */
int direction_read(const char *text, Direction *direction);

#endif
