// Opening, erosion and dilation of 1,024 lines of 1,024 pixels, beside plain C of document 000's stack algorithm.
// Every result is compared before it is timed; a difference, or a ratio below the target, makes the exit status 1.
#include "library.h"
#include "peers/stack.h"
#include "picture.h"
#include "timing.h"
#include <cstdio>

static const long N = 1024;
static const double TARGET = 8;

int main()
{
    Picture picture = blurred_noise(N, N), ours(N * N), theirs(N * N), eroded(N * N), scratch(8 * N);
    bool good = true;
    std::printf("\n## Lines\n\n%ld lines of %ld pixels, nanoseconds a pixel, best of 15; the last column says how many times as long as `open_line` the stack takes.\n\n", N, N);
    std::printf("| length | erode | dilate | open_line | stack in C | ratio |\n|---|---|---|---|---|---|\n");
    for (long L : {5, 21, 101, 401}) {
        long count = N - L + 1;
        auto erode = [&] { for (long y = 0; y < N; y++) c_erode(&picture[y * N], N, L, &eroded[y * N], N); };
        auto dilate = [&] { for (long y = 0; y < N; y++) c_dilate(&eroded[y * N], count, L, &ours[y * N], N); };
        auto open = [&] { for (long y = 0; y < N; y++) c_open_line(&picture[y * N], N, L, &ours[y * N], N, scratch.data(), scratch.size()); };
        auto stack = [&] { for (long y = 0; y < N; y++) stack_open(&picture[y * N], N, L, &theirs[y * N]); };
        double pixels = double(N) * N;
        double e = nanoseconds_a_pixel(pixels, 15, 2, erode);
        double d = nanoseconds_a_pixel(pixels, 15, 2, dilate);
        stack();
        bool same = ours == theirs;
        std::fill(ours.begin(), ours.end(), 0);
        double o = nanoseconds_a_pixel(pixels, 15, 2, open);
        double s = nanoseconds_a_pixel(pixels, 15, 2, stack);
        same = same && ours == theirs;
        std::printf("| %4ld | %6.3f | %6.3f | %6.3f | %6.2f | %5.1f%s |\n", L, e, d, o, s, s / o, same ? "" : ", RESULTS DIFFER");
        good = good && same && s >= TARGET * o;
    }
    std::printf("\n`open_line` is to be at least %.0f times as fast as the stack: %s\n", TARGET, good ? "met" : "NOT MET");
    return good ? 0 : 1;
}
