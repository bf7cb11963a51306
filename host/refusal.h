/* The refusals of the library in words. */
#ifndef REFUSAL_H
#define REFUSAL_H

#include <stdint.h>
#include <stdio.h>

/* One line: who was refused, the number of the rule, its meaning, and the figure where the rule has one. */
void refusal_print(FILE *file, const char *who, uint64_t number, uint64_t figure);

#endif
