/* The lines of a frame in a direction, as a C program walks them: a table of the steps aside, worked out once a frame, and the two ends of each line. */
#ifndef WALK_H
#define WALK_H
#include <stddef.h>
#include <stdint.h>

enum { WALK_LONGEST = 4096 };

struct walk {
    long majors, minors, onward, aside; /* pixels along and beside the lines; bytes to the next pixel along and to the next line */
    long falling;                       /* whether lines move to lower minor coordinates */
    long first, lines;                  /* the lowest line's number, and how many there are */
    long moved[WALK_LONGEST];           /* r(i) */
    long course[WALK_LONGEST];          /* bytes from where line 0 would begin to its pixel i */
};

void walk_begin(struct walk *w, long width, long height, long stride, long p, long q);
/* Copies the pixels of line k to `line`; how many there are. */
long walk_out(const struct walk *w, long k, const uint8_t *frame, uint8_t *line);
/* The way back. */
void walk_in(const struct walk *w, long k, const uint8_t *line, uint8_t *frame);
#endif
