// Size sums of a 1,024 x 1,024 frame, by length as measured along a row, beside plain C of the same stack algorithm. Every result is compared; a difference, or a
// ratio above the target, makes the exit status 1.
#include "library.h"
#include "naive.h"
#include "peers/sums.h"
#include "timing.h"
#include <cstdio>
#include <numeric>

static const double TARGET = 1.3; // along, 64 bins
static const Direction DIRECTIONS[] = {{1, 0}, {1, 1}, {0, 1}};
using Sums = std::vector<uint64_t>;

static bool sum(const Frame &src, Direction d, Sums &sums, Picture &scratch)
{
    return c_sums_of_frame(src.bytes.data(), src.bytes.size(), src.width, src.height, src.stride, d.p, d.q, sums.data(), sums.size(), scratch.data(), scratch.size()).number == 0;
}

// The sum for a length: the total of the pixels opened with as many as it stands for.
static uint64_t naive_sum(const Frame &src, Direction d, long length)
{
    Frame opened(src.width, src.height, src.stride, 0);
    naive_open(src, d, pixels_for(d, length), opened);
    return std::accumulate(opened.bytes.begin(), opened.bytes.end(), uint64_t(0));
}

static bool right_on_small()
{
    Frame src = blurred_frame(50, 40, 53);
    Picture scratch(8 * 50);
    for (Direction d : SIXTEEN)
        for (size_t bins : {1, 4, 5, 7, 60}) { // on the diagonals 4 and 5 stand for the same count of pixels
            Sums ours(bins + 1), defined(bins + 1);
            for (size_t i = 0; i < bins; i++)
                defined[i] = naive_sum(src, d, i + 1) - naive_sum(src, d, i + 2);
            defined[bins] = naive_sum(src, d, bins + 1);
            if (!sum(src, d, ours, scratch) || ours != defined)
                return false;
        }
    return true;
}

int main()
{
    bool same = right_on_small(), met = true;
    Frame src = blurred_frame(1024, 1024, 1024);
    Picture scratch(8 * 1024);
    std::printf("\n## Size sums\n\n`sums_of_frame` of a 1,024 x 1,024 frame, with bins by length as measured along a row: nanoseconds a pixel, best of 15; the last column says how many times as long as C it takes.\n\n");
    std::printf("| direction | bins | library | C | times C |\n|---|---|---|---|---|\n");
    for (Direction d : DIRECTIONS)
        for (size_t bins : {1, 64, 4096}) {
            Sums ours(bins + 1), theirs(bins + 1);
            double o = nanoseconds_a_pixel(src.pixels(), 15, 2, [&] { sum(src, d, ours, scratch); });
            double c = nanoseconds_a_pixel(src.pixels(), 15, 2, [&] { stack_sums(src.bytes.data(), src.width, src.height, src.stride, d.p, d.q, theirs.data(), bins); });
            same = same && ours == theirs;
            std::printf("| (%ld, %ld) | %4zu | %6.2f | %6.2f | %5.2f |\n", long(d.p), long(d.q), bins, o, c, o / c);
            if (d.q == 0 && bins == 64)
                met = o <= TARGET * c;
        }
    std::printf("\nEvery sum equals its definition on a small frame and C's on this: %s\n", same ? "yes" : "NO");
    std::printf("Along with 64 bins it is to take at most %.1f times as long as C: %s\n", TARGET, met ? "met" : "NOT MET");
    return same && met ? 0 : 1;
}
