// Opening a frame in the sixteen directions, beside OpenCV, Leptonica and plain C of document 000's stack algorithm; the highest opening and its direction beside the sixteen.
// The library takes a length as measured along a row; every peer opens with as many pixels as it stands for.
// Every result is compared; a difference is printed and makes the exit status 1. The times go to a file too, for the plot.
#include "../include/fibre.h"
#include "library.h"
#include "naive.h"
#include "peers/leptonica.h"
#include "peers/opencv.h"
#include "peers/stack.h"
#include "timing.h"
#include <cstdio>
#include <memory>
#include <string>

static const long LENGTHS[] = {5, 21, 101, 401};
static const int COUNT = 4;
static const double NONE = 0; // no such time
static bool good = true;

static void expect(bool same, const char *what, Direction d, long length)
{
    if (!same)
        std::printf("\n**%s** in direction (%ld, %ld), length %ld\n", what, long(d.p), long(d.q), length);
    good = good && same;
}

static bool open(const Frame &src, Direction d, long length, Frame &dst, Picture &scratch)
{
    return fibre_open_frame(src.bytes.data(), src.bytes.size(), src.width, src.height, src.stride, d.p, d.q, length, dst.bytes.data(), dst.bytes.size(), scratch.data(), scratch.size()) == 0;
}

// At each pixel the highest of the sixteen openings, and the lowest number of a direction that reaches it.
struct Leaders {
    Frame highest, directions;

    explicit Leaders(const Frame &src) : highest(src.width, src.height, src.stride, 99), directions(highest) {} // 99 is no direction
    // By their definitions, direction after direction from 0 on.
    void follow(int n, const Frame &opened)
    {
        for (long y = 0; y < opened.height; y++)
            for (long x = 0; x < opened.width; x++)
                if (n == 0 || highest.at(x, y) < opened.at(x, y)) {
                    highest.at(x, y) = opened.at(x, y);
                    directions.at(x, y) = n;
                }
    }
};

// By the library's call, with so many bytes of scratch.
static bool find(const Frame &src, long length, Leaders &found, Picture &scratch, long spare)
{
    Picture &highest = found.highest.bytes, &directions = found.directions.bytes;
    return c_highest(src.bytes.data(), src.bytes.size(), src.width, src.height, src.stride, length, highest.data(), highest.size(), directions.data(), directions.size(), scratch.data(), spare).number == 0;
}

// With the least scratch, which is what rule 7 asks for, the call goes line by line; with ample scratch it opens frames there.
static long least(const Frame &f) { return 8 * std::max(f.width, f.height); }
static long ample(const Frame &f) { return std::max(f.width * f.height, least(f)); }

static void expect_same(const Leaders &found, const Leaders &wanted, long length)
{
    expect(found.highest.bytes == wanted.highest.bytes, "The highest opening differs from that of the sixteen", {}, length);
    expect(found.directions.bytes == wanted.directions.bytes, "The direction of the highest opening differs from that of the sixteen", {}, length);
}

// All calls on a small frame, beside the definitions.
static void check_small()
{
    Frame src = blurred_frame(150, 70, 157);
    Picture scratch(ample(src));
    for (long length : {1, 2, 4, 5, 21, 64, 70, 71, 98, 99, 101, 150, 151}) {
        Frame ours(150, 70, 157, 9), opened = ours;
        Leaders leaders(src);
        for (int n = 0; n < 16; n++) {
            naive_open(src, SIXTEEN[n], pixels_for(SIXTEEN[n], length), opened);
            expect(open(src, SIXTEEN[n], length, ours, scratch) && ours.bytes == opened.bytes, "The opening differs from its definition", SIXTEEN[n], length);
            leaders.follow(n, opened);
        }
        for (long spare : {ample(src), least(src)}) {
            Leaders found(src);
            expect(find(src, length, found, scratch, spare), "The highest opening is refused", {}, length);
            expect_same(found, leaders, length);
        }
    }
}

// Whether `theirs` has the values of `ours` at each pixel whose windows, of so many pixels, all lie on the picture: the peers let windows leave it.
template <class Values> bool agree_inside(const Frame &ours, Direction d, long pixels, Values theirs)
{
    long beside = d.p != 0 ? pixels - 1 : 0, above = d.q != 0 ? pixels - 1 : 0;
    for (long y = above; y < ours.height - above; y++)
        for (long x = beside; x < ours.width - beside; x++)
            if (ours.at(x, y) != theirs(x, y))
                return false;
    return true;
}

struct Times {
    double ours, stack, opencv, leptonica;
};

struct Bench {
    Frame src, ours, theirs;
    Picture scratch;
    Leptonica leptonica;
    Times times[16][COUNT];
    double together[COUNT], highest[COUNT], highest_least[COUNT];

    Bench(long side, long stride)
        : src(blurred_frame(side, side, stride)), ours(side, side, stride, 9), theirs(ours), scratch(ample(src)), leptonica(src)
    {
    }
    template <class Call> double time(Call call) { return nanoseconds_a_pixel(src.pixels(), 15, 0.4, call); }
    double time_highest(long length, long spare, const Leaders &wanted)
    {
        Leaders found(src);
        double best = time([&] { expect(find(src, length, found, scratch, spare), "The highest opening is refused", {}, length); });
        expect_same(found, wanted, length);
        return best;
    }
    Times measure(Direction d, long length);
    void measure_all();
};

Times Bench::measure(Direction d, long length)
{
    Times t = {NONE, NONE, NONE, NONE};
    long pixels = pixels_for(d, length);
    t.ours = time([&] { expect(open(src, d, length, ours, scratch), "The opening is refused", d, length); });
    t.stack = time([&] { stack_open_frame(src.bytes.data(), src.width, src.height, src.stride, d.p, d.q, pixels, theirs.bytes.data()); });
    expect(ours.bytes == theirs.bytes, "The stack's opening differs", d, length);
    cv::Mat kernel = opencv_segment(d, pixels);
    t.opencv = time([&] { opencv_open(src, kernel, theirs); });
    bool straight = d.p == 0 || d.q == 0;
    if (straight || std::abs(d.p) == std::abs(d.q)) // else the rounded segment's shape depends on where it lies
        expect(agree_inside(ours, d, pixels, [&](long x, long y) { return theirs.at(x, y); }), "OpenCV's opening differs", d, length);
    if (straight) {
        t.leptonica = time([&] { leptonica.open(d, pixels); });
        expect(agree_inside(ours, d, pixels, [&](long x, long y) { return leptonica.at(x, y); }), "Leptonica's opening differs", d, length);
    }
    return t;
}

void Bench::measure_all()
{
    for (int i = 0; i < COUNT; i++) {
        Leaders leaders(src);
        for (int n = 0; n < 16; n++) {
            times[n][i] = measure(SIXTEEN[n], LENGTHS[i]);
            leaders.follow(n, ours);
        }
        together[i] = time([&] {
            for (Direction d : SIXTEEN)
                expect(open(src, d, LENGTHS[i], ours, scratch), "The opening is refused", d, LENGTHS[i]);
        });
        highest[i] = time_highest(LENGTHS[i], ample(src), leaders);
        highest_least[i] = time_highest(LENGTHS[i], least(src), leaders);
    }
}

// A number of times, to two or three digits.
static std::string times_as(double ratio)
{
    char text[32];
    std::snprintf(text, sizeof text, "%5.*f", ratio < 9.95 ? 2 : ratio < 99.5 ? 1 : 0, ratio);
    return text;
}

// A row of the summary: the lowest and highest of the sixteen directions.
static void print_spread(const Bench &b, int i)
{
    double low[3] = {1e300, 1e300, 1e300}, high[3] = {0, 0, 0};
    for (auto &row : b.times) {
        double figures[3] = {row[i].ours, row[i].stack / row[i].ours, row[i].opencv / row[i].ours};
        for (int k = 0; k < 3; k++) {
            low[k] = std::min(low[k], figures[k]);
            high[k] = std::max(high[k], figures[k]);
        }
    }
    std::printf("| %4ld x %4ld | %3ld | %5.2f to %5.2f", b.src.width, b.src.height, LENGTHS[i], low[0], high[0]);
    for (int k = 1; k < 3; k++)
        std::printf(" | %s to %s", times_as(low[k]).c_str(), times_as(high[k]).c_str());
    for (int n : {0, 8})
        std::printf(" | %s", times_as(b.times[n][i].leptonica / b.times[n][i].ours).c_str());
    std::printf(" |\n");
}

static void print_highest(const Bench &b, int i)
{
    std::printf("| %4ld x %4ld | %3ld | %7.2f", b.src.width, b.src.height, LENGTHS[i], b.together[i]);
    for (double t : {b.highest[i], b.highest_least[i]})
        std::printf(" | %7.2f | %5.2f", t, t / b.together[i]);
    std::printf(" |\n");
}

// What the frames are to reach: the worst figure over some directions, and whether it is good enough.
template <class Figure> void print_aim(const Bench &b, const char *aim, int first, int last, bool at_least, double limit, Figure figure)
{
    int worst = first;
    for (int n = first; n <= last; n++)
        if (at_least ? figure(n) < figure(worst) : figure(n) > figure(worst))
            worst = n;
    bool met = at_least ? figure(worst) >= limit : figure(worst) <= limit;
    std::printf("| %4ld x %4ld | %s | at %s %.2f | %s", b.src.width, b.src.height, aim, at_least ? "least" : "most", limit, times_as(figure(worst)).c_str());
    if (first < last)
        std::printf(", in (%ld, %ld)", long(SIXTEEN[worst].p), long(SIXTEEN[worst].q));
    std::printf(" | %s |\n", met ? "met" : "missed");
}

static void print_aims(const Bench &b)
{
    auto opencv = [&](int i) { return [&b, i](int n) { return b.times[n][i].opencv / b.times[n][i].ours; }; };
    auto stack = [&](int i) { return [&b, i](int n) { return b.times[n][i].stack / b.times[n][i].ours; }; };
    print_aim(b, "along: OpenCV's time at L = 21 over the library's", 0, 0, true, 2, opencv(1));
    print_aim(b, "down the rows, steep and diagonal: OpenCV's at L = 21", 4, 12, true, 1.5, opencv(1));
    print_aim(b, "shallow to the right: OpenCV's at L = 21", 1, 3, true, 1, opencv(1));
    print_aim(b, "shallow to the left: OpenCV's at L = 21", 13, 15, true, 1, opencv(1));
    print_aim(b, "every direction: OpenCV's at L = 101", 0, 15, true, 4, opencv(2));
    print_aim(b, "every direction: the stack's at L = 101", 0, 15, true, 3, stack(2));
    auto longer = [&](int n) { return b.times[n][3].ours / b.times[n][1].ours; };
    print_aim(b, "along and shallow to the right: the library's at L = 401 over its own at L = 21", 0, 3, false, 1.6, longer);
    print_aim(b, "down the rows: the same", 4, 12, false, 1.15, longer);
    print_aim(b, "shallow to the left: the same", 13, 15, false, 1.6, longer);
    for (int i = 0; i < COUNT; i++) {
        std::string aim = "highest, both frames, room for one in scratch, L = " + std::to_string(LENGTHS[i]) + ": its time over the sixteen openings'";
        print_aim(b, aim.c_str(), 0, 0, false, 1.3, [&](int) { return b.highest[i] / b.together[i]; });
    }
}

static void print_directions(const Bench &b)
{
    std::printf("\n%ld x %ld, stride %ld, each direction: the library in nanoseconds a pixel, then how many times as long the stack algorithm in C and OpenCV take.\n\n", b.src.width, b.src.height,
                b.src.stride);
    std::printf("| direction | library, L = 5 | 21 | 101 | 401 | stack in C, L = 5 | 21 | 101 | 401 | OpenCV, L = 5 | 21 | 101 | 401 |\n|---|---|---|---|---|---|---|---|---|---|---|---|---|\n");
    for (int n = 0; n < 16; n++) {
        std::printf("| (%2ld, %ld)", long(SIXTEEN[n].p), long(SIXTEEN[n].q));
        for (auto &t : b.times[n])
            std::printf(" | %5.2f", t.ours);
        for (auto &t : b.times[n])
            std::printf(" | %s", times_as(t.stack / t.ours).c_str());
        for (auto &t : b.times[n])
            std::printf(" | %s", times_as(t.opencv / t.ours).c_str());
        std::printf(" |\n");
    }
}

static void keep(const Bench &b, FILE *file)
{
    for (int n = 0; n < 16; n++)
        for (int i = 0; i < COUNT; i++) {
            Times t = b.times[n][i];
            std::fprintf(file, "%ld %d %ld %.4f %.4f %.4f %.4f\n", b.src.width, n, LENGTHS[i], t.ours, t.stack, t.opencv, t.leptonica);
        }
}

int main(int argc, char **argv)
{
    if (argc != 2)
        return 2;
    cv::setNumThreads(1);
    std::printf("\n## Frames\n\nOpening a frame in each of the sixteen directions with `fibre_open_frame`. A length is as measured along a row;\n"
                "every peer opens with as many pixels as it stands for in the direction, 21 for a length of 21 along and across, 16 on the diagonals.\n");
    check_small();
    std::unique_ptr<Bench> benches[2] = {std::make_unique<Bench>(1024, 1024), std::make_unique<Bench>(4096, 4160)};
    for (auto &b : benches)
        b->measure_all();
    std::printf("The range is over the directions; a ratio says how many times as long the peer takes.\n\n");
    std::printf("| frame | length | library, ns a pixel | stack in C | OpenCV | Leptonica along | across |\n|---|---|---|---|---|---|---|\n");
    for (auto &b : benches)
        for (int i = 0; i < COUNT; i++)
            print_spread(*b, i);
    std::printf("\nThe highest opening and its direction, both frames by one call, beside the sixteen openings one after the other: nanoseconds a pixel, and how many times as long it takes.\n"
                "With room for a frame in scratch (W·H bytes) the call opens each direction there; with the least that rule 7 asks for (8·max(W, H)) it goes line by line.\n\n");
    std::printf("| frame | length | sixteen openings | both frames | times | least scratch | times |\n|---|---|---|---|---|---|---|\n");
    for (auto &b : benches)
        for (int i = 0; i < COUNT; i++)
            print_highest(*b, i);
    std::printf("\nWhat was aimed at:\n\n| frame | figure | aim | worst | |\n|---|---|---|---|---|\n");
    for (auto &b : benches)
        print_aims(*b);
    FILE *file = std::fopen(argv[1], "w");
    if (!file)
        return 2;
    for (auto &b : benches) {
        print_directions(*b);
        keep(*b, file);
    }
    std::fclose(file);
    std::printf("\nEvery result equals its definition on a small frame. On these, every opening equals the stack algorithm's, and, where all windows lie on the picture, Leptonica's, and OpenCV's along,\n"
                "across and on the diagonals; the highest opening and its direction are those of the sixteen, in both ways: %s\n",
                good ? "yes" : "NO");
    return good ? 0 : 1;
}
