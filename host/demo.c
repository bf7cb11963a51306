/* Shows what the library makes of a picture: the picture, its highest opening and the directions that gave it, side by side as a PNG file; and its size sums in
 * the sixteen directions, with their summaries, as text. */
#include "calls.h"
#include "direction.h"
#include "pgm.h"
#include "png.h"
#include "refusal.h"
#include <inttypes.h>
#include <stdlib.h>
#include <string.h>

enum { BINS = 64, GAP = 10, KEY = 30, GREYS = 96, SHADES = 10 };

/* What the library is lent and what comes back. */
typedef struct {
    Picture picture;
    size_t length;
    uint8_t *highest, *directions, *scratch;
    size_t spare;
} Demo;

static int done(const char *who, uint64_t number, uint64_t figure)
{
    if (number != 0)
        refusal_print(stderr, who, number, figure);
    return number == 0;
}

static int opened(Demo *d)
{
    const Picture *p = &d->picture;
    Answer a = c_highest(p->pixels, p->bytes, p->width, p->height, p->width, d->length, d->highest, p->bytes, d->directions, p->bytes,
                         d->scratch, d->spare);
    return done("highest", a.number, a.figure);
}

/* Colours */

static uint8_t level(double share)
{
    return (uint8_t)(255 * (share < 0 ? 0 : share > 1 ? 1 : share) + 0.5);
}

/* A hue, 0 to 1 once around from red over green and blue. */
static Colour hued(double hue, double bright)
{
    double part[3];
    for (int k = 0; k < 3; k++) {
        double away = hue - k / 3.0;
        away = away < 0 ? -away : away;
        away = away > 0.5 ? 1 - away : away;
        part[k] = bright * (2 - 6 * away < 0 ? 0 : 2 - 6 * away > 1 ? 1 : 2 - 6 * away);
    }
    return (Colour){level(part[0]), level(part[1]), level(part[2])};
}

/* Greys first, then for each direction its hue, from dark to bright. */
static void mix(Colour colours[256])
{
    for (int i = 0; i < GREYS; i++) {
        uint8_t grey = level((double)i / (GREYS - 1));
        colours[i] = (Colour){grey, grey, grey};
    }
    for (int n = 0; n < DIRECTIONS; n++)
        for (int k = 0; k < SHADES; k++)
            colours[GREYS + n * SHADES + k] = hued((double)n / DIRECTIONS, (double)k / (SHADES - 1));
}

static uint8_t grey_of(unsigned value, unsigned brightest)
{
    return (uint8_t)(value * (GREYS - 1) / brightest);
}

static uint8_t hue_of(unsigned direction, unsigned value, unsigned brightest)
{
    return (uint8_t)(GREYS + direction * SHADES + value * (SHADES - 1) / brightest);
}

/* The three pictures side by side. */

typedef struct {
    size_t width, height;
    uint8_t *pixels;
} Sheet;

static void lay_row(const Demo *d, unsigned reached, size_t y, uint8_t *row)
{
    size_t w = d->picture.width;
    for (size_t x = 0; x < w; x++) {
        size_t i = y * w + x;
        row[x] = grey_of(d->picture.pixels[i], d->picture.brightest);
        row[w + GAP + x] = grey_of(d->highest[i], d->picture.brightest);
        row[2 * (w + GAP) + x] = hue_of(d->directions[i], d->highest[i], reached);
    }
}

/* The direction nearest to that from (0, 0) to (x, y). */
static unsigned nearest(double x, double y)
{
    unsigned best = 0;
    double most = -1;
    for (unsigned n = 0; n < DIRECTIONS; n++) {
        Direction d = direction_numbered(n);
        double along = x * (double)d.p + y * (double)d.q, squared = along * along / (double)(d.p * d.p + d.q * d.q);
        if (squared > most) {
            most = squared;
            best = n;
        }
    }
    return best;
}

/* A disc near the lower right corner: each of its rays has the hue of its direction. */
static void lay_key(Sheet *sheet)
{
    if (sheet->height < 2 * (KEY + GAP) || sheet->width < 2 * (KEY + GAP))
        return;
    for (int y = -KEY; y < KEY; y++)
        for (int x = -KEY; x < KEY; x++) {
            int squared = x * x + y * y;
            if (squared >= KEY * KEY)
                continue;
            size_t down = sheet->height - (size_t)(KEY + GAP - y), right = sheet->width - (size_t)(KEY + GAP - x);
            sheet->pixels[down * sheet->width + right] = squared < (KEY - 2) * (KEY - 2) ? hue_of(nearest(x, y), 1, 1) : GREYS - 1;
        }
}

static void lay_out(const Demo *d, Sheet *sheet)
{
    unsigned reached = 1;
    for (size_t i = 0; i < d->picture.bytes; i++)
        reached = d->highest[i] > reached ? d->highest[i] : reached;
    memset(sheet->pixels, GREYS - 1, sheet->width * sheet->height);
    for (size_t y = 0; y < sheet->height; y++)
        lay_row(d, reached, y, sheet->pixels + y * sheet->width);
    lay_key(sheet);
}

static const char *show(const Demo *d, const char *name)
{
    Sheet sheet = {3 * d->picture.width + 2 * GAP, d->picture.height, NULL};
    Colour colours[256];
    mix(colours);
    sheet.pixels = malloc(sheet.width * sheet.height);
    if (!sheet.pixels)
        return "no memory for the pictures side by side";
    lay_out(d, &sheet);
    FILE *file = fopen(name, "wb");
    const char *wrong = file ? png_write(file, sheet.pixels, sheet.width, sheet.height, colours) : "cannot be written";
    if (file && fclose(file) != 0 && !wrong)
        wrong = "not all could be written";
    free(sheet.pixels);
    return wrong;
}

/* Size sums */

static uint64_t total(const uint64_t *sums, size_t from, size_t to)
{
    uint64_t sum = 0;
    for (size_t i = from; i < to; i++)
        sum += sums[i];
    return sum;
}

static void print_sums(unsigned number, Direction by, const uint64_t *sums)
{
    printf("%5u  (%2" PRId64 ",%2" PRId64 ")", number, by.p, by.q);
    for (size_t from = 0, to = 4; to <= BINS; from = to, to *= 2)
        printf(" %9" PRIu64, total(sums, from, to));
    printf(" %9" PRIu64, sums[BINS]);
    uint32_t refused = c_number(sums, BINS + 1);
    if (refused)
        printf("   refused, %" PRIu32 "\n", refused);
    else
        printf("  %6.2f %6.3f\n", c_mean(sums, BINS + 1), c_share(sums, BINS + 1));
}

/* One row a direction; whether each adds up to the light of the picture. */
static int print_table(const Demo *d)
{
    const Picture *p = &d->picture;
    uint64_t light = 0, sums[BINS + 1];
    for (size_t i = 0; i < p->bytes; i++)
        light += p->pixels[i];
    printf("Size sums: how much of the light lies in stretches of each length as measured along a row. Mean length and share are those of lengths 1 to %d\n", BINS);
    printf("direction          1-4       5-8      9-16     17-32     33-64    longer    mean  share\n");
    for (unsigned n = 0; n < DIRECTIONS; n++) {
        Direction by = direction_numbered(n);
        Answer a = c_sums_of_frame(p->pixels, p->bytes, p->width, p->height, p->width, by.p, by.q, sums, BINS + 1, d->scratch, d->spare);
        if (!done("sums_of_frame", a.number, a.figure))
            return 0;
        print_sums(n, by, sums);
        if (total(sums, 0, BINS + 1) != light) {
            fprintf(stderr, "demo: the sums do not add up to the light of the picture\n");
            return 0;
        }
    }
    printf("Each row adds up to the light of the picture, %" PRIu64 "\n", light);
    return 1;
}

static int run(Demo *d, const char *name)
{
    if (!d->highest || !d->directions || !d->scratch) {
        fprintf(stderr, "demo: no memory\n");
        return 3;
    }
    if (!opened(d))
        return 1;
    const char *wrong = show(d, name);
    if (wrong) {
        fprintf(stderr, "demo: %s: %s\n", name, wrong);
        return 3;
    }
    return print_table(d) ? 0 : 1;
}

int main(int count, char **words)
{
    Demo d;
    uint64_t length;
    const char *at = count == 3 ? words[1] : "";
    if (!number_read(&at, SIZE_MAX, &length) || *at != '\0') {
        fprintf(stderr, "usage: demo LENGTH OUT.png <IN.pgm (LENGTH as measured along a row)\n");
        return 2;
    }
    const char *wrong = pgm_read(stdin, &d.picture);
    if (wrong) {
        fprintf(stderr, "demo: %s\n", wrong);
        return 3;
    }
    size_t w = d.picture.width, h = d.picture.height, side = w > h ? w : h;
    size_t least = 8 * (side < 4096 ? side : 4096);
    d.length = (size_t)length;
    d.spare = d.picture.bytes > least ? d.picture.bytes : least; /* with a byte a pixel the highest opening is many times as fast */
    d.highest = malloc(d.picture.bytes + 1);
    d.directions = malloc(d.picture.bytes + 1);
    d.scratch = malloc(d.spare + 1);
    int status = run(&d, words[2]);
    free(d.scratch);
    free(d.directions);
    free(d.highest);
    free(d.picture.pixels);
    return status;
}
