/* A host as the camera's firmware is one: lends the library a frame, a destination and a scratch, and takes what comes back. It judges no size,
 * direction or length itself: the library does. */
#include "../include/fibre.h"
#include "direction.h"
#include "pgm.h"
#include "refusal.h"
#include <stdlib.h>
#include <string.h>

enum { DONE = 0, REFUSED = 1, MISUSED = 2, UNREADABLE = 3 };

static const char help[] =
    "usage: fibre DIRECTION LENGTH [IN.pgm [OUT.pgm]]\n"
    "\n"
    "Opens a grey picture with a line segment: what is long and bright in the direction stays, the rest goes dark.\n"
    "\n"
    "  DIRECTION   a number, 0 (along the rows) to 15, by steps of about 11 degrees; 8 is down the columns;\n"
    "              or a pair p,q: p columns to the right for q rows down, each -255 to 255, not both 0\n"
    "  LENGTH      the segment's length as measured along a row, 1 to 4096. Slanted, it may have fewer pixels:\n"
    "              a length of 21 is 16 pixels at 1,1 and 17 at 4,3\n"
    "  IN.pgm      a binary PGM picture (P5) of 8 bits a pixel, at most 4096 x 4096; standard input where it is - or missing.\n"
    "              Only the first picture of a file is read\n"
    "  OUT.pgm     the opened picture, of the same size and maximum; standard output where it is - or missing.\n"
    "              It is written only once the work is done, so it may be the same file\n"
    "\n"
    "Exit status: 0 done; 1 refused by the library, whose number and meaning go to standard error; 2 not called like this;\n"
    "3 a file could not be read or written, or there was no memory.\n";

typedef struct {
    Direction direction;
    size_t length;
    const char *in, *out;
} Job;

static int is_dash(const char *name)
{
    return strcmp(name, "-") == 0;
}

static int job_read(int count, char **words, Job *job)
{
    if (count < 3 || count > 5 || !direction_read(words[1], &job->direction))
        return 0;
    const char *at = words[2];
    uint64_t length;
    if (!number_read(&at, SIZE_MAX, &length) || *at != '\0')
        return 0;
    job->length = (size_t)length;
    job->in = count > 3 ? words[3] : "-";
    job->out = count > 4 ? words[4] : "-";
    return 1;
}

static int failed(const char *name, const char *wrong)
{
    fprintf(stderr, "fibre: %s: %s\n", name, wrong);
    return UNREADABLE;
}

static const char *picture_from(const char *name, Picture *picture)
{
    FILE *file = is_dash(name) ? stdin : fopen(name, "rb");
    if (!file)
        return "cannot be opened";
    const char *wrong = pgm_read(file, picture);
    if (file != stdin)
        fclose(file);
    return wrong;
}

static const char *picture_to(const char *name, const Picture *picture)
{
    FILE *file = is_dash(name) ? stdout : fopen(name, "wb");
    if (!file)
        return "cannot be written";
    const char *wrong = pgm_write(file, picture);
    if (fclose(file) != 0 && !wrong)
        wrong = "not all could be written";
    return wrong;
}

/* 8 * max(width, height) bytes, and no more than the library can ask for. */
static size_t scratch_bytes(const Picture *picture)
{
    size_t side = picture->width > picture->height ? picture->width : picture->height;
    return 8 * (side < 4096 ? side : 4096);
}

/* Opens one picture into another, which has its size and a block of its own. */
static int opened(const Job *job, const Picture *from, Picture *to)
{
    size_t spare = scratch_bytes(from);
    uint8_t *scratch = malloc(spare + 1);
    if (!scratch)
        return failed(job->in, "no memory for the scratch");
    uint64_t answer = fibre_open_frame(from->pixels, from->bytes, from->width, from->height, from->width, job->direction.p, job->direction.q,
                                       job->length, to->pixels, to->bytes, scratch, spare);
    free(scratch);
    if (answer == 0)
        return DONE;
    refusal_print(stderr, "fibre", answer >> 32, answer & UINT32_MAX);
    return REFUSED;
}

static int run(const Job *job)
{
    Picture from;
    const char *wrong = picture_from(job->in, &from);
    if (wrong)
        return failed(job->in, wrong);
    Picture to = from;
    to.pixels = malloc(to.bytes + 1);
    int status = to.pixels ? opened(job, &from, &to) : failed(job->in, "no memory for the result");
    if (status == DONE && (wrong = picture_to(job->out, &to)))
        status = failed(job->out, wrong);
    free(to.pixels);
    free(from.pixels);
    return status;
}

int main(int count, char **words)
{
    if (count == 2 && strcmp(words[1], "--help") == 0) {
        fputs(help, stdout);
        return DONE;
    }
    Job job;
    if (!job_read(count, words, &job)) {
        fputs(help, stderr);
        return MISUSED;
    }
    return run(&job);
}
