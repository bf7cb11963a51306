/* A PNG file is a row of chunks; its pixels are packed by deflate (RFC 1950, 1951). This packs with the fixed codes, and looks for repeats through a table of
 * the places where three bytes stood last. */
#include "png.h"
#include <stdlib.h>
#include <string.h>

enum { WINDOW = 32768, LONGEST = 258, SHORTEST = 3, PLACES = 1 << 15, TRIES = 128 };

/* Bits, the lowest of a byte first. */
typedef struct {
    uint8_t *bytes;
    size_t count;
    unsigned held, waiting; /* bits that do not fill a byte yet, and how many */
} Packed;

static void put_bits(Packed *out, unsigned bits, unsigned count)
{
    out->held |= bits << out->waiting;
    for (out->waiting += count; out->waiting >= 8; out->waiting -= 8) {
        out->bytes[out->count++] = (uint8_t)out->held;
        out->held >>= 8;
    }
}

/* A code goes out highest bit first. */
static void put_code(Packed *out, unsigned code, unsigned count)
{
    unsigned turned = 0;
    for (unsigned i = 0; i < count; i++)
        turned |= (code >> i & 1) << (count - 1 - i);
    put_bits(out, turned, count);
}

/* RFC 1951, 3.2.6 */
static void put_symbol(Packed *out, unsigned symbol)
{
    if (symbol < 144)
        put_code(out, 0x30 + symbol, 8);
    else if (symbol < 256)
        put_code(out, 0x190 + symbol - 144, 9);
    else if (symbol < 280)
        put_code(out, symbol - 256, 7);
    else
        put_code(out, 0xc0 + symbol - 280, 8);
}

/* RFC 1951, 3.2.5: lengths and distances go by classes, each with a first member and bits for the others. */
typedef struct {
    unsigned short first;
    unsigned char bits;
} Class;

static const Class lengths[29] = {{3, 0},  {4, 0},  {5, 0},  {6, 0},  {7, 0},  {8, 0},  {9, 0},  {10, 0},  {11, 1},  {13, 1},  {15, 1},  {17, 1},  {19, 2},  {23, 2}, {27, 2},
                                  {31, 2}, {35, 3}, {43, 3}, {51, 3}, {59, 3}, {67, 4}, {83, 4}, {99, 4}, {115, 4}, {131, 5}, {163, 5}, {195, 5}, {227, 5}, {258, 0}};
static const Class distances[30] = {{1, 0},    {2, 0},    {3, 0},    {4, 0},    {5, 1},     {7, 1},     {9, 2},     {13, 2},    {17, 3},    {25, 3},
                                    {33, 4},   {49, 4},   {65, 5},   {97, 5},   {129, 6},   {193, 6},   {257, 7},   {385, 7},   {513, 8},   {769, 8},
                                    {1025, 9}, {1537, 9}, {2049, 10}, {3073, 10}, {4097, 11}, {6145, 11}, {8193, 12}, {12289, 12}, {16385, 13}, {24577, 13}};

static unsigned class_of(const Class *classes, unsigned count, unsigned value)
{
    unsigned k = count - 1;
    while (classes[k].first > value)
        k--;
    return k;
}

static void put_repeat(Packed *out, unsigned length, unsigned distance)
{
    unsigned l = class_of(lengths, 29, length), d = class_of(distances, 30, distance);
    put_symbol(out, 257 + l);
    put_bits(out, length - lengths[l].first, lengths[l].bits);
    put_code(out, d, 5);
    put_bits(out, distance - distances[d].first, distances[d].bits);
}

/* The places where three bytes stood: the last one by their hash, and from each place the one before. Places count from 1; 0 is none. */
typedef struct {
    const uint8_t *bytes;
    size_t count;
    size_t last[PLACES], before[WINDOW];
} Seen;

static size_t *last_place(Seen *seen, size_t at)
{
    const uint8_t *b = seen->bytes + at;
    return &seen->last[(b[0] * 7919u + b[1] * 263u + b[2]) % PLACES];
}

static void remember(Seen *seen, size_t at)
{
    if (at + SHORTEST > seen->count)
        return;
    size_t *last = last_place(seen, at);
    seen->before[at % WINDOW] = *last;
    *last = at + 1;
}

static unsigned same_bytes(const Seen *seen, size_t from, size_t at)
{
    unsigned n = 0;
    while (n < LONGEST && at + n < seen->count && seen->bytes[from + n] == seen->bytes[at + n])
        n++;
    return n;
}

/* The longest repeat found that begins at a place: its length, 0 where there is none, and how far back it stood. */
static unsigned repeat_at(Seen *seen, size_t at, unsigned *distance)
{
    unsigned best = 0;
    if (at + SHORTEST > seen->count)
        return 0;
    size_t place = *last_place(seen, at);
    for (int i = 0; i < TRIES && place != 0 && at - (place - 1) < WINDOW; i++) {
        unsigned n = same_bytes(seen, place - 1, at);
        if (n > best) {
            best = n;
            *distance = (unsigned)(at - (place - 1));
        }
        place = seen->before[(place - 1) % WINDOW];
    }
    /* a short repeat from afar takes more bits than its bytes */
    return best < SHORTEST || (best == SHORTEST && *distance > 256) ? 0 : best;
}

static void deflate(Packed *out, Seen *seen)
{
    put_bits(out, 1, 1); /* the last block */
    put_bits(out, 1, 2); /* with the fixed codes */
    for (size_t at = 0; at < seen->count;) {
        unsigned distance = 0, n = repeat_at(seen, at, &distance);
        if (n > 0)
            put_repeat(out, n, distance);
        else
            put_symbol(out, seen->bytes[at]);
        for (size_t end = at + (n > 0 ? n : 1); at < end; at++)
            remember(seen, at);
    }
    put_symbol(out, 256);
    put_bits(out, 0, 7); /* fills the last byte */
}

static void put_number(uint8_t *bytes, uint32_t number)
{
    for (int i = 0; i < 4; i++)
        bytes[i] = (uint8_t)(number >> (24 - 8 * i));
}

static uint32_t adler(const uint8_t *bytes, size_t count)
{
    uint32_t a = 1, b = 0;
    for (size_t i = 0; i < count; i++) {
        a = (a + bytes[i]) % 65521;
        b = (b + a) % 65521;
    }
    return b << 16 | a;
}

static uint32_t crc(uint32_t c, const uint8_t *bytes, size_t count)
{
    for (size_t i = 0; i < count; i++) {
        c ^= bytes[i];
        for (int k = 0; k < 8; k++)
            c = c & 1 ? c >> 1 ^ 0xedb88320u : c >> 1;
    }
    return c;
}

static void put_chunk(FILE *file, const char *name, const uint8_t *bytes, size_t count)
{
    uint8_t head[8], tail[4];
    put_number(head, (uint32_t)count);
    memcpy(head + 4, name, 4);
    put_number(tail, ~crc(crc(~0u, head + 4, 4), bytes, count));
    fwrite(head, 1, 8, file);
    fwrite(bytes, 1, count, file);
    fwrite(tail, 1, 4, file);
}

static void put_head(FILE *file, size_t width, size_t height, const Colour colours[256])
{
    uint8_t head[13] = {[8] = 8, [9] = 3}; /* 8 bits a pixel, which are numbers of colours */
    put_number(head, (uint32_t)width);
    put_number(head + 4, (uint32_t)height);
    uint8_t table[768];
    for (int i = 0; i < 256; i++)
        memcpy(table + 3 * i, (uint8_t[]){colours[i].red, colours[i].green, colours[i].blue}, 3);
    fwrite("\x89PNG\r\n\x1a\n", 1, 8, file);
    put_chunk(file, "IHDR", head, sizeof head);
    put_chunk(file, "PLTE", table, sizeof table);
}

/* The rows as PNG has them: each begins with the number of its filter, 0 for none. */
static uint8_t *rows_of(const uint8_t *pixels, size_t width, size_t height)
{
    uint8_t *rows = malloc(height * (width + 1));
    for (size_t y = 0; rows && y < height; y++) {
        rows[y * (width + 1)] = 0;
        memcpy(rows + y * (width + 1) + 1, pixels + y * width, width);
    }
    return rows;
}

const char *png_write(FILE *file, const uint8_t *pixels, size_t width, size_t height, const Colour colours[256])
{
    size_t count = height * (width + 1);
    uint8_t *rows = rows_of(pixels, width, height);
    Seen *seen = calloc(1, sizeof *seen);
    Packed out = {malloc(count + count / 8 + 16), 0, 0, 0}; /* no byte takes more than 9 bits */
    const char *wrong = "no memory for the picture";
    if (rows && seen && out.bytes) {
        seen->bytes = rows;
        seen->count = count;
        put_bits(&out, 0x0178, 16); /* deflate, a window of 32,768 bytes */
        deflate(&out, seen);
        put_number(out.bytes + out.count, adler(rows, count));
        put_head(file, width, height, colours);
        put_chunk(file, "IDAT", out.bytes, out.count + 4);
        put_chunk(file, "IEND", out.bytes, 0);
        wrong = fflush(file) == 0 && !ferror(file) ? NULL : "not all could be written";
    }
    free(out.bytes);
    free(seen);
    free(rows);
    return wrong;
}
