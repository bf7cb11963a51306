// The picture that is measured on: noise, blurred and stretched, so that it has bright runs of many lengths.
#pragma once
#include <algorithm>
#include <cstdint>
#include <random>
#include <vector>

using Picture = std::vector<uint8_t>;

inline Picture blurred_noise(long width, long height)
{
    std::mt19937 random(1);
    Picture picture(width * height), blurred(width * height);
    for (auto &pixel : picture)
        pixel = random();
    for (int pass = 0; pass < 2; pass++) {
        for (long y = 0; y < height; y++)
            for (long x = 0; x < width; x++) {
                int sum = 0, count = 0;
                for (long v = std::max(0L, y - 2); v < std::min(height, y + 3); v++)
                    for (long u = std::max(0L, x - 2); u < std::min(width, x + 3); u++, count++)
                        sum += picture[v * width + u];
                blurred[y * width + x] = std::clamp((sum / count - 128) * 2 + 128, 0, 255);
            }
        picture = blurred;
    }
    return picture;
}
