// Gathering a line of a frame 4,096 pixels wide: its work is in proportion to the line, so a line of 10 pixels must cost a small part of the longest.
#include "library.h"
#include "timing.h"
#include <cstdio>
#include <vector>

static const long W = 4096, H = 4096, STRIDE = 4160;

int main()
{
    std::vector<uint8_t> frame(STRIDE * (H - 1) + W, 7), line(W);
    auto gather = [&](int64_t number) { return c_gather(frame.data(), frame.size(), W, H, STRIDE, 1, 1, number, line.data(), line.size()); };
    std::printf("\n## Gathering\n\nA line of a %ld x %ld frame in direction (1, 1), nanoseconds a call, best of 15.\n\n| pixels | call |\n|---|---|\n", W, H);
    double cost[2];
    int64_t numbers[2] = {W - 10, 0}; // lines of 10 pixels and of 4,096
    for (int i = 0; i < 2; i++) {
        long pixels = gather(numbers[i]).figure;
        cost[i] = nanoseconds_a_pixel(1000, 15, 2, [&] { for (int k = 0; k < 1000; k++) gather(numbers[i]); });
        std::printf("| %4ld | %6.0f |\n", pixels, cost[i]);
    }
    bool good = cost[1] >= 20 * cost[0];
    std::printf("\nThe longest is to cost at least 20 times the shortest: %s\n", good ? "met" : "NOT MET");
    return good ? 0 : 1;
}
