#include "pgm.h"
#include <stdlib.h>

static int is_space(int c)
{
    return c == ' ' || (c >= '\t' && c <= '\r');
}

static int is_digit(int c)
{
    return c >= '0' && c <= '9';
}

/* The next character of a header, where a comment counts as the line feed that ends it. */
static int header_char(FILE *file)
{
    int c = getc(file);
    if (c == '#')
        do
            c = getc(file);
        while (c != '\n' && c != EOF);
    return c;
}

/* White space, a decimal number, and the one character of white space behind it. A number too large for a size becomes the largest size. */
static int header_number(FILE *file, size_t *number)
{
    int c = header_char(file);
    while (is_space(c))
        c = header_char(file);
    if (!is_digit(c))
        return 0;
    size_t n = 0;
    for (; is_digit(c); c = header_char(file)) {
        size_t digit = (size_t)(c - '0');
        n = n > (SIZE_MAX - digit) / 10 ? SIZE_MAX : 10 * n + digit;
    }
    *number = n;
    return is_space(c);
}

static const char *read_header(FILE *file, Picture *picture)
{
    if (getc(file) != 'P' || getc(file) != '5')
        return "not a binary PGM file (P5)";
    if (!is_space(header_char(file)))
        return "no white space after P5";
    size_t brightest;
    if (!header_number(file, &picture->width))
        return "the header has no width";
    if (!header_number(file, &picture->height))
        return "the header has no height";
    if (!header_number(file, &brightest))
        return "the header has no maximum";
    if (brightest < 1 || brightest > 255)
        return "the maximum is not 1 to 255: only pixels of 8 bits are read";
    picture->brightest = (unsigned)brightest;
    return NULL;
}

static const char *read_pixels(FILE *file, const Picture *picture)
{
    if (fread(picture->pixels, 1, picture->bytes, file) != picture->bytes)
        return "the file ends before its last pixel";
    for (size_t i = 0; i < picture->bytes; i++)
        if (picture->pixels[i] > picture->brightest)
            return "a pixel is brighter than the maximum";
    return NULL;
}

const char *pgm_read(FILE *file, Picture *picture)
{
    const char *wrong = read_header(file, picture);
    if (wrong)
        return wrong;
    size_t w = picture->width, h = picture->height;
    picture->bytes = h != 0 && w > PGM_MOST / h ? 0 : w * h;
    picture->pixels = malloc(picture->bytes + 1); /* never of no bytes, so null means one thing only */
    if (!picture->pixels)
        return "no memory for the pixels";
    wrong = read_pixels(file, picture);
    if (wrong)
        free(picture->pixels);
    return wrong;
}

const char *pgm_write(FILE *file, const Picture *picture)
{
    fprintf(file, "P5\n%zu %zu\n%u\n", picture->width, picture->height, picture->brightest);
    fwrite(picture->pixels, 1, picture->bytes, file);
    return fflush(file) == 0 && !ferror(file) ? NULL : "not all could be written";
}
