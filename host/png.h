/* Pictures of up to 256 colours as PNG files, without a library. */
#ifndef PNG_H
#define PNG_H

#include <stddef.h>
#include <stdint.h>
#include <stdio.h>

typedef struct {
    uint8_t red, green, blue;
} Colour;

/* Row after row without gaps, each pixel the number of its colour; sides of 1 to 65,535 pixels. Null, or what went wrong. */
const char *png_write(FILE *file, const uint8_t *pixels, size_t width, size_t height, const Colour colours[256]);

#endif
