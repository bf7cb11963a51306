/* Makes a picture of a chute with green coffee beans and jute strands, as the camera over it sees them: beans in clusters, strands across them, a bright
 * wall at both borders, uneven light and noise.
 *
 * A seed has one picture whatever compiles this: the random numbers are whole and drawn in a settled order, one a full expression, and nothing but + - * /
 * and square roots is done with floats. */
#include "direction.h"
#include "pgm.h"
#include <math.h>
#include <stdlib.h>
#include <string.h>

static const char help[] =
    "usage: chute [SEED [WIDTH HEIGHT]]\n"
    "\n"
    "Writes a picture of a bean chute with jute strands to standard output, as PGM: 512 x 384 pixels where no size is given, at most 4096 x 4096.\n";

typedef struct {
    double x, y;
} Point;

typedef struct {
    int width, height;
    double *light; /* what is seen at each pixel, 0 to 255 */
    double *cover; /* how much of each pixel the strand that is being drawn covers, 0 to 1; 0 between strands */
    uint64_t random;
} Scene;

/* Random numbers */

static uint64_t mixed(uint64_t z)
{
    z = (z ^ (z >> 30)) * 0xbf58476d1ce4e5b9u;
    z = (z ^ (z >> 27)) * 0x94d049bb133111ebu;
    return z ^ (z >> 31);
}

static double unit_from(uint64_t z)
{
    return (double)(mixed(z) >> 11) / 9007199254740992.0;
}

static double between(Scene *s, double low, double high)
{
    s->random += 0x9e3779b97f4a7c15u;
    return low + (high - low) * unit_from(s->random);
}

/* About normal, of spread 1. */
static double normal(Scene *s)
{
    double sum = 0;
    for (int i = 0; i < 12; i++)
        sum += between(s, -0.5, 0.5);
    return sum;
}

/* A vector of length 1, every direction as likely. */
static Point heading(Scene *s)
{
    for (;;) {
        double x = between(s, -1, 1), y = between(s, -1, 1), square = x * x + y * y;
        if (square > 0.01 && square < 1)
            return (Point){x / sqrt(square), y / sqrt(square)};
    }
}

static double clamped(double x, double low, double high)
{
    return x < low ? low : x > high ? high : x;
}

/* Smooth blotches of some `size` pixels, -1 to 1. */
static double blotch(double x, double y, double size)
{
    double u = x / size + 1000, v = y / size + 1000;
    uint64_t i = (uint64_t)u, j = (uint64_t)v;
    double a = u - (double)i, b = v - (double)j, corner[4];
    for (uint64_t k = 0; k < 4; k++)
        corner[k] = unit_from((i + k % 2) * 7919 + (j + k / 2) * 104729);
    double above = corner[0] + a * (corner[1] - corner[0]), below = corner[2] + a * (corner[3] - corner[2]);
    return 2 * (above + b * (below - above)) - 1;
}

/* The pixels that lie within `reach` of a point and in the picture. */
typedef struct {
    int left, right, top, bottom; /* right and bottom not included */
} Box;

static Box around(const Scene *s, Point at, double reach)
{
    return (Box){(int)clamped(at.x - reach, 0, s->width), (int)clamped(at.x + reach + 2, 0, s->width),
                 (int)clamped(at.y - reach, 0, s->height), (int)clamped(at.y + reach + 2, 0, s->height)};
}

/* The floor: dark metal, brushed downward. */
static void draw_floor(Scene *s)
{
    for (int x = 0; x < s->width; x++) {
        double brushed = between(s, -4, 4);
        for (int y = 0; y < s->height; y++)
            s->light[y * s->width + x] = 34 + brushed + 5 * blotch(x, y / 12.0, 5);
    }
}

/* Beans */

typedef struct {
    Point at, axis; /* the axis is the bean's longer one, a vector of length 1 */
    double a, b;    /* half of its length and width */
    double tone;
    double cut;     /* how deep the furrow of its flat side is, 0 where it lies on it */
} Bean;

/* Where a pixel stands in a bean: along and across its axis, 1 at its outline. */
static Point in_bean(const Bean *bean, double x, double y)
{
    double dx = x - bean->at.x, dy = y - bean->at.y;
    return (Point){(dx * bean->axis.x + dy * bean->axis.y) / bean->a, (dy * bean->axis.x - dx * bean->axis.y) / bean->b};
}

/* A dome lit from the upper left, with a bent furrow and its silver skin. */
static double bean_tone(const Bean *bean, Point in)
{
    double up = sqrt(clamped(1 - in.x * in.x - in.y * in.y, 0, 1));
    double right = in.x * bean->axis.x - in.y * bean->axis.y, down = in.x * bean->axis.y + in.y * bean->axis.x;
    double lit = clamped(-0.42 * right - 0.5 * down + 0.76 * up, 0, 1);
    double furrow = fabs(in.y - 0.5 * in.x * (0.8 - in.x * in.x));
    double dark = fabs(in.x) < 0.9 ? bean->cut * clamped(1.3 - furrow / 0.13, 0, 1) : 0;
    double skin = bean->cut * 0.2 * clamped(1 - fabs(furrow - 0.27) / 0.13, 0, 1);
    return bean->tone * (0.24 + 0.8 * lit) * (1 - dark + skin);
}

static void draw_bean(Scene *s, const Bean *bean)
{
    Bean shadow = *bean;
    shadow.at.x += 2;
    shadow.at.y += 3;
    Box box = around(s, bean->at, bean->a + 8);
    for (int y = box.top; y < box.bottom; y++)
        for (int x = box.left; x < box.right; x++) {
            double *light = &s->light[y * s->width + x];
            Point under = in_bean(&shadow, x, y), in = in_bean(bean, x, y);
            *light *= 1 - 0.6 * clamped((1.3 - sqrt(under.x * under.x + under.y * under.y)) / 0.35, 0, 1);
            double cover = clamped((1 - sqrt(in.x * in.x + in.y * in.y)) * bean->b, 0, 1);
            double tone = bean_tone(bean, in) * (1 + 0.07 * blotch(x + bean->a * 97, y, 3));
            *light += cover * (tone - *light);
        }
}

static Bean bean_at(Scene *s, Point at)
{
    Point axis = heading(s);
    double a = between(s, 11.5, 15), b = a * between(s, 0.66, 0.78), tone = between(s, 98, 148), side = between(s, 0, 1), cut = between(s, 0.45, 0.7);
    return (Bean){at, axis, a, b, tone, side < 0.55 ? cut : 0};
}

static int is_free(const Bean *beans, int count, Point at)
{
    for (int i = 0; i < count; i++) {
        double dx = beans[i].at.x - at.x, dy = beans[i].at.y - at.y;
        if (dx * dx + dy * dy < 16 * 16)
            return 0;
    }
    return 1;
}

/* Beans in clusters: each of some tries is drawn where the blotches let beans lie and there is room. */
static void draw_beans(Scene *s, Bean *beans, int tries)
{
    double apart = between(s, 0, 50000);
    int count = 0;
    for (int i = 0; i < tries; i++) {
        double x = between(s, -5, s->width + 5), y = between(s, -5, s->height + 5);
        Point at = {x, y};
        if (blotch(at.x + apart, at.y, 75) < between(s, -0.6, 0.1) || !is_free(beans, count, at))
            continue;
        beans[count] = bean_at(s, at);
        draw_bean(s, &beans[count++]);
    }
}

/* Strands */

typedef struct {
    Point from, by, to; /* it goes from one end to the other, and is bent towards the point between */
    double radius, tone, length;
} Strand;

static Point strand_point(const Strand *strand, double t)
{
    double a = (1 - t) * (1 - t), b = 2 * t * (1 - t), c = t * t;
    return (Point){a * strand->from.x + b * strand->by.x + c * strand->to.x, a * strand->from.y + b * strand->by.y + c * strand->to.y};
}

static void cover_disc(Scene *s, Point at, double radius)
{
    Box box = around(s, at, radius + 1);
    for (int y = box.top; y < box.bottom; y++)
        for (int x = box.left; x < box.right; x++) {
            double cover = clamped(radius + 0.5 - sqrt((x - at.x) * (x - at.x) + (y - at.y) * (y - at.y)), 0, 1);
            double *most = &s->cover[y * s->width + x];
            *most = cover > *most ? cover : *most;
        }
}

/* What the cover hides turns from what it is to `tone`, which is lit unevenly, or to a share of itself where tone is 0; then the cover is taken away. */
static void paint_cover(Scene *s, double tone, double share)
{
    for (int y = 0; y < s->height; y++)
        for (int x = 0; x < s->width; x++) {
            double *light = &s->light[y * s->width + x], *cover = &s->cover[y * s->width + x];
            double painted = tone > 0 ? tone * (1 + 0.1 * blotch(x, y, 2.5)) : share * *light;
            *light += *cover * (painted - *light);
            *cover = 0;
        }
}

static void cover_strand(Scene *s, const Strand *strand, double dx, double dy)
{
    int steps = (int)(2 * strand->length) + 1;
    for (int i = 0; i <= steps; i++) {
        Point at = strand_point(strand, (double)i / steps);
        cover_disc(s, (Point){at.x + dx, at.y + dy}, strand->radius);
    }
}

static Point moved(Scene *s, Point p, double reach)
{
    Point by = heading(s);
    double far = between(s, 0, reach);
    return (Point){p.x + far * by.x, p.y + far * by.y};
}

/* A strand is twisted of threads, which part at its ends. */
static void draw_strand(Scene *s, const Strand *strand)
{
    cover_strand(s, strand, 2, 3);
    paint_cover(s, 0, 0.6);
    for (int i = 0; i < 4; i++) {
        Strand thread = *strand;
        thread.from = moved(s, thread.from, i * 2.0);
        thread.by = moved(s, thread.by, i * 1.5);
        thread.to = moved(s, thread.to, i * 2.0);
        thread.radius *= 1 - 0.2 * i;
        cover_strand(s, &thread, 0, 0);
        paint_cover(s, strand->tone * between(s, 0.88, 1.05), 1);
    }
}

static Strand strand_from(Scene *s, Point from, Point along, double length, double bend)
{
    Point to = {from.x + length * along.x, from.y + length * along.y};
    Point by = {(from.x + to.x) / 2 - bend * length * along.y, (from.y + to.y) / 2 + bend * length * along.x};
    double radius = between(s, 1.0, 1.5), tone = between(s, 185, 222);
    return (Strand){from, by, to, radius, tone, length};
}

/* The fuzz of a strand: hairs that leave it, thin and short. */
static void draw_hairs(Scene *s, const Strand *strand)
{
    for (int i = 0; i < 7; i++) {
        Point from = strand_point(strand, between(s, 0, 1));
        Point along = heading(s);
        double length = between(s, 7, 16), bend = between(s, -0.3, 0.3);
        Strand hair = strand_from(s, from, along, length, bend);
        hair.radius = 0.15;
        cover_strand(s, &hair, 0, 0);
    }
    paint_cover(s, strand->tone * 0.8, 1);
}

static void draw_strands(Scene *s, int count)
{
    for (int i = 0; i < count; i++) {
        Point along = heading(s);
        double length = between(s, 90, 230), bend = i % 3 == 0 ? 0 : between(s, -0.14, 0.14);
        double x = between(s, 0.12, 0.88) * s->width, y = between(s, 0.12, 0.88) * s->height;
        Point from = {x - along.x * length / 2, y - along.y * length / 2};
        Strand strand = strand_from(s, from, along, length, bend);
        draw_hairs(s, &strand);
        draw_strand(s, &strand);
    }
}

/* The chute's walls: bright metal at the left and right border, whose shadow falls on what lies beside it. */
static void draw_walls(Scene *s)
{
    double wide = s->width / 46.0;
    for (int y = 0; y < s->height; y++)
        for (int x = 0; x < s->width; x++) {
            double edge = (x < s->width - 1 - x ? x : s->width - 1 - x) - wide, *light = &s->light[y * s->width + x];
            if (edge < 0)
                *light = 150 + 25 * -edge / wide + 6 * blotch(x, y / 9.0, 3);
            else
                *light *= clamped(0.5 + edge / 16, 0, 1);
        }
}

/* The lamp hangs a little to the left; the lens is not quite sharp; the sensor adds noise. */
static void light_up(Scene *s)
{
    double w = s->width, h = s->height;
    for (int y = 0; y < s->height; y++)
        for (int x = 0; x < s->width; x++) {
            double dx = (x - 0.4 * w) / w, dy = (y - 0.42 * h) / h;
            s->light[y * s->width + x] *= 1.14 - 0.75 * (dx * dx + dy * dy);
        }
}

static void blur(Scene *s, int count, int step, int lines, int line_step)
{
    for (int j = 0; j < lines; j++) {
        double *line = s->light + (ptrdiff_t)j * line_step, before = line[0];
        for (int i = 0; i < count; i++) {
            double here = line[(ptrdiff_t)i * step], after = i + 1 < count ? line[(ptrdiff_t)(i + 1) * step] : here;
            line[(ptrdiff_t)i * step] = 0.2 * before + 0.6 * here + 0.2 * after;
            before = here;
        }
    }
}

static uint8_t sensed(Scene *s, double light)
{
    return (uint8_t)clamped(light + (2 + light / 80) * normal(s) + 0.5, 0, 255);
}

static void draw(Scene *s, Bean *beans, uint8_t *pixels)
{
    int area = s->width * s->height;
    draw_floor(s);
    draw_beans(s, beans, area / 60);
    draw_strands(s, area / 20000);
    draw_beans(s, beans, area / 9000);
    draw_walls(s);
    light_up(s);
    blur(s, s->width, 1, s->height, s->width);
    blur(s, s->height, s->width, s->width, 1);
    for (int i = 0; i < area; i++)
        pixels[i] = sensed(s, s->light[i]);
}

static const char *make(uint64_t seed, size_t width, size_t height)
{
    size_t area = width * height;
    Picture picture = {width, height, area, 255, malloc(area)};
    Scene scene = {(int)width, (int)height, calloc(area, sizeof(double)), calloc(area, sizeof(double)), mixed(seed)};
    Bean *beans = calloc(area / 60 + 1, sizeof *beans);
    const char *wrong = "no memory for the picture";
    if (picture.pixels && scene.light && scene.cover && beans) {
        draw(&scene, beans, picture.pixels);
        wrong = pgm_write(stdout, &picture);
    }
    free(beans);
    free(scene.cover);
    free(scene.light);
    free(picture.pixels);
    return wrong;
}

static int number_word(const char *word, uint64_t *number)
{
    return number_read(&word, UINT64_MAX, number) && *word == '\0';
}

int main(int count, char **words)
{
    if (count == 2 && strcmp(words[1], "--help") == 0) {
        fputs(help, stdout);
        return 0;
    }
    uint64_t seed = 1, width = 512, height = 384;
    if (count > 4 || count == 3 || (count > 1 && !number_word(words[1], &seed)) ||
        (count > 3 && !(number_word(words[2], &width) && number_word(words[3], &height))) || width < 1 || width > 4096 || height < 1 ||
        height > 4096) {
        fputs(help, stderr);
        return 2;
    }
    const char *wrong = make(seed, (size_t)width, (size_t)height);
    if (wrong)
        fprintf(stderr, "chute: %s\n", wrong);
    return wrong ? 3 : 0;
}
