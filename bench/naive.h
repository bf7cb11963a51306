// The definitions, taken literally: each pixel put on its line, and on each line every window. Slow, and only for small frames.
#pragma once
#include "frame.h"
#include <map>
#include <vector>

// The lines of a frame: each line's number, and the places of its pixels in line order.
inline std::map<int64_t, std::vector<long>> naive_lines(const Frame &frame, Direction d)
{
    std::map<int64_t, std::vector<long>> lines;
    int64_t s = is_falling(d) ? -1 : 1;
    long majors = is_shallow(d) ? frame.width : frame.height, minors = is_shallow(d) ? frame.height : frame.width;
    for (long i = 0; i < majors; i++)
        for (long j = 0; j < minors; j++)
            lines[j - s * moved(d, i)].push_back(is_shallow(d) ? j * frame.stride + i : i * frame.stride + j);
    return lines;
}

// At each pixel the highest, over all windows of so many pixels that hold it and lie wholly on its line, of the windows' darkest values; 0 where none fits.
inline void naive_open(const Frame &src, Direction d, long pixels, Frame &dst)
{
    for (auto &[number, line] : naive_lines(src, d)) {
        for (long place : line)
            dst.bytes[place] = 0;
        for (long from = 0; from + pixels <= long(line.size()); from++) {
            uint8_t darkest = 255;
            for (long i = from; i < from + pixels; i++)
                darkest = std::min(darkest, src.bytes[line[i]]);
            for (long i = from; i < from + pixels; i++)
                dst.bytes[line[i]] = std::max(dst.bytes[line[i]], darkest);
        }
    }
}
