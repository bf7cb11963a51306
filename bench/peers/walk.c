#include "walk.h"
#include <stdlib.h>

void walk_begin(struct walk *w, long width, long height, long stride, long p, long q)
{
    long run = labs(p), rise = labs(q), shallow = rise <= run;
    w->falling = (p < 0 && q > 0) || (p > 0 && q < 0);
    w->majors = shallow ? width : height;
    w->minors = shallow ? height : width;
    w->onward = shallow ? 1 : stride;
    w->aside = shallow ? stride : 1;
    if (!shallow) {
        long swap = run;
        run = rise;
        rise = swap;
    }
    for (long i = 0; i < w->majors; i++) {
        w->moved[i] = (2 * i * rise + run) / (2 * run);
        w->course[i] = i * w->onward + (w->falling ? -w->moved[i] : w->moved[i]) * w->aside;
    }
    long furthest = w->moved[w->majors - 1];
    w->first = w->falling ? 0 : -furthest;
    w->lines = w->minors + furthest;
}

/* The first pixel that has moved at least so far, by halving. */
static long first_moved(const struct walk *w, long least)
{
    long low = 0, high = w->majors;
    while (low < high) {
        long middle = (low + high) / 2;
        if (w->moved[middle] < least)
            low = middle + 1;
        else
            high = middle;
    }
    return low;
}

/* The ends of line k: its pixels are those from `from` to before `to`. */
static void ends(const struct walk *w, long k, long *from, long *to)
{
    *from = first_moved(w, w->falling ? k - w->minors + 1 : -k);
    *to = first_moved(w, w->falling ? k + 1 : w->minors - k);
}

long walk_out(const struct walk *w, long k, const uint8_t *frame, uint8_t *line)
{
    long from, to;
    ends(w, k, &from, &to);
    for (long i = from; i < to; i++)
        line[i - from] = frame[w->course[i] + k * w->aside];
    return to - from;
}

void walk_in(const struct walk *w, long k, const uint8_t *line, uint8_t *frame)
{
    long from, to;
    ends(w, k, &from, &to);
    for (long i = from; i < to; i++)
        frame[w->course[i] + k * w->aside] = line[i - from];
}
