// A frame that is measured on, and one of the same shape to write to.
#pragma once
#include "directions.h"
#include "picture.h"

struct Frame {
    long width, height, stride;
    Picture bytes;

    Frame(long width, long height, long stride, uint8_t fill) : width(width), height(height), stride(stride), bytes((height - 1) * stride + width, fill) {}
    uint8_t &at(long x, long y) { return bytes[y * stride + x]; }
    uint8_t at(long x, long y) const { return bytes[y * stride + x]; }
    double pixels() const { return double(width) * height; }
};

inline Frame blurred_frame(long width, long height, long stride)
{
    Frame frame(width, height, stride, 0);
    Picture picture = blurred_noise(width, height);
    for (long y = 0; y < height; y++)
        std::copy_n(&picture[y * width], width, &frame.bytes[y * stride]);
    return frame;
}
