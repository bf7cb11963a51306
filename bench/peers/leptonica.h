// Leptonica's grey opening, along and across. It has pictures of its own, so a frame is copied to one before the clock starts.
#pragma once
#include "../frame.h"
#include <leptonica/allheaders.h>

class Leptonica {
    PIX *picture, *opened = nullptr;

public:
    explicit Leptonica(const Frame &frame) : picture(pixCreate(frame.width, frame.height, 8))
    {
        for (long y = 0; y < frame.height; y++)
            for (long x = 0; x < frame.width; x++)
                SET_DATA_BYTE(pixGetData(picture) + y * pixGetWpl(picture), x, frame.at(x, y));
    }
    Leptonica(const Leptonica &) = delete;
    ~Leptonica()
    {
        pixDestroy(&picture);
        pixDestroy(&opened);
    }
    void open(Direction d, long pixels)
    {
        pixDestroy(&opened);
        opened = pixOpenGray(picture, d.q == 0 ? pixels : 1, d.q == 0 ? 1 : pixels);
    }
    uint8_t at(long x, long y) const { return GET_DATA_BYTE(pixGetData(opened) + y * pixGetWpl(opened), x); }
};
