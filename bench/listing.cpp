// The list of bright stretches, with the place of each one's encloser, of 1,024 lines of 1,024 pixels, beside plain C of the same algorithm.
// Every list is compared before it is timed; a difference, or a ratio above the target, makes the exit status 1.
#include "library.h"
#include "peers/listing.h"
#include "picture.h"
#include "timing.h"
#include <cstdio>
#include <cstring>

static const long N = 1024;
static const double TARGET = 1.15;

static bool agree(const Picture &picture, Nested *ours, struct stretch *theirs, Picture &scratch)
{
    for (long y = 0; y < N; y++) {
        Answer a = list(&picture[y * N], N, ours, N, scratch.data(), scratch.size());
        size_t count = stack_list(&picture[y * N], N, theirs);
        if (a.number != 0 || a.figure != count || std::memcmp(ours, theirs, count * sizeof *ours) != 0)
            return false;
    }
    return true;
}

int main()
{
    Picture noise(N * N), scratch(8 * N);
    std::mt19937 random(2);
    for (auto &pixel : noise)
        pixel = random();
    struct Case {
        const char *name;
        Picture picture;
    } cases[] = {{"blurred", blurred_noise(N, N)}, {"noise", noise}};
    static Nested ours[N];
    static struct stretch theirs[N];
    bool good = true;
    std::printf("\n## Stretches\n\nThe list, with the place of each stretch's encloser, of %ld lines of %ld pixels, nanoseconds a pixel, best of 15; the last column says how many times as long as C it takes.\n\n", N, N);
    std::printf("| picture | list | C | times C |\n|---|---|---|---|\n");
    for (Case &c : cases) {
        bool same = agree(c.picture, ours, theirs, scratch);
        double pixels = double(N) * N;
        double o = nanoseconds_a_pixel(pixels, 15, 2, [&] { for (long y = 0; y < N; y++) list(&c.picture[y * N], N, ours, N, scratch.data(), scratch.size()); });
        double t = nanoseconds_a_pixel(pixels, 15, 2, [&] { for (long y = 0; y < N; y++) stack_list(&c.picture[y * N], N, theirs); });
        std::printf("| %7s | %6.2f | %6.2f | %5.2f%s |\n", c.name, o, t, o / t, same ? "" : ", LISTS DIFFER");
        good = good && same && o <= TARGET * t;
    }
    std::printf("\n`list` is to take at most %.2f times as long as C: %s\n", TARGET, good ? "met" : "NOT MET");
    return good ? 0 : 1;
}
