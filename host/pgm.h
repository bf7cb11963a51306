/* Grey pictures as PGM files: the binary kind (P5), 8 bits a pixel. */
#ifndef PGM_H
#define PGM_H

#include <stddef.h>
#include <stdint.h>
#include <stdio.h>

/* The most pixels that are read: a frame has no more. */
enum { PGM_MOST = 4096 * 4096 };

/* Row after row without gaps. `pixels` is a block of its own, never null after a picture was read, and `bytes` what it holds: width * height,
 * or 0 where that is above PGM_MOST. */
typedef struct {
    size_t width, height, bytes;
    unsigned brightest; /* the file's maximum, 1 to 255 */
    uint8_t *pixels;
} Picture;

/* Reads the first picture of a file. Null, or what is wrong with the file; then nothing is left to free. A picture of more than PGM_MOST pixels is read
 * up to its header: its size stands in it, for others to refuse. What follows the pixels is not looked at. */
const char *pgm_read(FILE *file, Picture *picture);

/* Null, or what went wrong. */
const char *pgm_write(FILE *file, const Picture *picture);

#endif
