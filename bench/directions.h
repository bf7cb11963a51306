// The sixteen numbered directions, in their order; how lines follow a direction, and what a length means in it.
#pragma once
#include <algorithm>
#include <cstdint>
#include <cstdlib>

struct Direction {
    int64_t p, q;
};

static const Direction SIXTEEN[16] = {{1, 0}, {4, 1},  {2, 1},  {4, 3},  {1, 1},  {3, 4},  {1, 2},  {1, 4},
                                      {0, 1}, {-1, 4}, {-1, 2}, {-3, 4}, {-1, 1}, {-4, 3}, {-2, 1}, {-4, 1}};

inline bool is_shallow(Direction d)
{
    return std::abs(d.q) <= std::abs(d.p);
}

inline bool is_falling(Direction d)
{
    return (d.p < 0) != (d.q < 0) && d.p != 0 && d.q != 0;
}

// How many pixels a line has moved aside after i of its pixels: r(i), rounded as the specification has it.
inline int64_t moved(Direction d, int64_t i)
{
    int64_t run = is_shallow(d) ? std::abs(d.p) : std::abs(d.q), rise = is_shallow(d) ? std::abs(d.q) : std::abs(d.p);
    return (2 * i * rise + run) / (2 * run);
}

// 'k is the smallest count from 1 up with (k−1)²·(p²+q²) ≥ (L−1)²·m², m the greater of |p| and |q|': how many pixels a length stands for on a frame.
inline long pixels_for(Direction d, long length)
{
    int64_t m = std::max(std::abs(d.p), std::abs(d.q));
    long k = 1;
    while ((k - 1) * (k - 1) * (d.p * d.p + d.q * d.q) < (length - 1) * (length - 1) * m * m)
        k++;
    return k;
}
