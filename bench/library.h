// The library's calls: those of the crate `exports`, and `list` as a copy of its crate exports it (bench/run).
#pragma once
#include "../host/calls.h"

struct Nested {
    uint16_t start, end, level, base, encloser;
};

extern "C" Answer list(const uint8_t *line, size_t n, Nested *table, size_t entries, uint8_t *scratch, size_t spare);
