/* Measures the stack that fibre_open_frame takes: each call runs on a painted stack of its own, and where the paint is gone afterwards, stack was used.
 * The first call is linked as it is made, where the linker does so. Fails where include/fibre.h promises less. */
#include "../include/fibre.h"
#include <stdio.h>
#include <string.h>
#include <ucontext.h>

enum { PROMISED = 16 * 1024, PAINT = 0xa5, LONG = 4096, SHORT = 300 };

static const int64_t directions[][2] = {{1, 0}, {4, 1}, {1, 1}, {1, 4}, {0, 1}, {-1, 4}, {-1, 1}, {-4, 1}};
/* 423 means SHORT pixels at (1, 1): as many as the longest line there has. */
static const size_t lengths[] = {1, 2, 21, 299, 423, 1500, 4096};

static uint8_t src[LONG * SHORT], dst[LONG * SHORT], scratch[8 * LONG], stack[4 * PROMISED];
static size_t width, length;
static const int64_t *direction;
static uint64_t answer;

static void call(void)
{
    answer = fibre_open_frame(src, sizeof src, width, sizeof src / width, width, direction[0], direction[1], length, dst, sizeof dst, scratch, sizeof scratch);
}

static size_t stack_of_call(void)
{
    static ucontext_t here, there;
    memset(stack, PAINT, sizeof stack);
    getcontext(&there);
    there.uc_stack.ss_sp = stack;
    there.uc_stack.ss_size = sizeof stack;
    there.uc_link = &here;
    makecontext(&there, call, 0);
    swapcontext(&here, &there);
    size_t clean = 0;
    while (clean < sizeof stack && stack[clean] == PAINT)
        clean++;
    return sizeof stack - clean;
}

int main(void)
{
    size_t most = 0;
    int done = 1;
    for (size_t d = 0; d < sizeof directions / sizeof *directions; d++)
        for (size_t l = 0; l < sizeof lengths / sizeof *lengths; l++)
            for (width = SHORT; width <= LONG; width += LONG - SHORT) {
                direction = directions[d];
                length = lengths[l];
                size_t used = stack_of_call();
                most = used > most ? used : most;
                done = done && answer == 0;
            }
    printf("check/stack: calls take up to %zu bytes of stack, less than %d are promised%s\n", most, PROMISED, done ? "" : "; NOT ALL ARE DONE");
    return !done || most >= PROMISED;
}
