// Depth and colours of a triangle as planes in fixed point, modulo 2^64, and their correction.
//
// A plane holds 2^56 times a channel's value, or 2^48 times a depth. Its upper 32 bits are stepped over sixteen pixels
// at once; one unit is the last of these bits. The plane stands a little higher than the value, so that a height is
// above the value by three units at most, and below it nowhere. So the whole part of a height is right where its
// fraction is three units or more. Elsewhere it may be one too high, and the sign of the remainder decides.

#pragma once

#include <cstdint>

#include "lanes.hpp"
#include "triangle.hpp"

constexpr uint32_t error_units = 3;
constexpr uint64_t unit = uint64_t{1} << 32;

// A value that grows by `right` and `down` for 1/256 pixel, modulo 2^64.
struct Linear {
    uint64_t origin, right, down;

    uint64_t at(int64_t x, int64_t y) const {
        return origin + right * static_cast<uint64_t>(x) + down * static_cast<uint64_t>(y);
    }
};

struct Plane {
    Linear number;         // the doubled area times the value, exact
    Linear height;
    Words lanes;           // the upper halves of the height's growth over two rows of pixels
    uint64_t samples[4];   // its growth from the pixel's corner to each sample
};

struct Planes {
    Plane of[Attributes];
    bool sure;    // no colour needs a correction, since the triangle is small
    bool steep;   // a value grows too fast for a plane
};

constexpr int fraction_bits(int attribute) { return attribute == Depth ? 48 : 56; }

// 2^127 / (area * 2^shift), rounded down.
struct Reciprocal {
    int shift;
    uint64_t value;

    explicit Reciprocal(uint64_t area) : shift(__builtin_clzll(area)) {
        unsigned __int128 one = ~static_cast<unsigned __int128>(0) >> 1;
        value = static_cast<uint64_t>(one / (area << shift));
    }
};

// 2^bits * growth / area, rounded down or, where that is not a whole number, to one below. `exact` says
// that nothing is left.
inline uint64_t gradient(int64_t growth, uint64_t area, const Reciprocal& inverse, int bits, bool& exact) {
    uint64_t found =
        static_cast<uint64_t>(static_cast<__int128>(growth) * inverse.value >> (127 - inverse.shift - bits));
    uint64_t scaled = static_cast<uint64_t>(growth) << bits;
    if (scaled - found * area == area) ++found;
    exact = exact && scaled == found * area;
    return found;
}

inline Linear number_of(const Triangle& t, int attribute) {
    int64_t first = t.values[attribute][0], second = t.values[attribute][1] - first,
            third = t.values[attribute][2] - first;
    int64_t right = second * t.edges[1].right + third * t.edges[2].right;
    int64_t down = second * t.edges[1].down + third * t.edges[2].down;
    uint64_t of_first = static_cast<uint64_t>(first) * static_cast<uint64_t>(t.area);
    Linear number = {of_first, static_cast<uint64_t>(right), static_cast<uint64_t>(down)};
    number.origin = number.at(-t.x, -t.y);
    return number;
}

inline Linear height_of(const Triangle& t, int attribute, const Linear& number, const Reciprocal& inverse) {
    int bits = fraction_bits(attribute);
    uint64_t first = uint64_t{t.values[attribute][0]} << bits, area = static_cast<uint64_t>(t.area);
    if ((number.right | number.down) == 0) return {first + (uint64_t{1} << (bits - 1)), 0, 0};
    bool exact = true;
    uint64_t right = gradient(static_cast<int64_t>(number.right), area, inverse, bits, exact);
    uint64_t down = gradient(static_cast<int64_t>(number.down), area, inverse, bits, exact);
    // Two units for the halves that are cut off, and a sixteenth for the gradients' own error; three
    // where they have none.
    uint64_t above = exact ? error_units * unit : 2 * unit + unit / 16;
    Linear height = {first + above, right, down};
    height.origin = height.at(-t.x, -t.y);
    return height;
}

inline bool is_steep(const Triangle& t, int attribute, const Linear& number) {
    int64_t most = t.area << (63 - fraction_bits(attribute));
    return std::abs(static_cast<int64_t>(number.right)) >= most || std::abs(static_cast<int64_t>(number.down)) >= most;
}

__attribute__((noinline)) inline void make_planes(const Triangle& t, const Pattern& pattern, Planes& planes) {
    planes.sure = t.area <= (1 << 24) / int64_t{error_units};
    planes.steep = false;
    bool depth = t.uses_depth() && !t.is_flat(Depth), colour = !t.has_flat_colour();
    if (!depth && !colour) return;
    const Reciprocal inverse(static_cast<uint64_t>(t.area));
    const int end = !colour ? Red : t.state->over ? Attributes : Alpha;
    for (int attribute = depth ? Depth : Red; attribute < end; ++attribute) {
        Plane& plane = planes.of[attribute];
        plane.number = number_of(t, attribute);
        plane.height = height_of(t, attribute, plane.number, inverse);
        plane.lanes = upper_growth(256 * plane.height.right, 256 * plane.height.down);
        planes.steep = planes.steep || is_steep(t, attribute, plane.number);
        const Linear growth = {0, plane.height.right, plane.height.down};
        for (int s = 0; s < pattern.count; ++s)
            plane.samples[s] = growth.at(pattern.places[s][0], pattern.places[s][1]);
    }
}

// Candidates at two rows of pixels, each right or one too high; the first point is x, y.
__attribute__((noinline)) inline Halves corrected(const Plane& plane, int64_t area, int64_t x, int64_t y,
                                                  const Halves& candidates) {
    uint16_t values[16];
    store(values, candidates);
    for (int lane = 0; lane < 16; ++lane) {
        uint64_t number = plane.number.at(x + 256 * (lane % 8), y + 256 * (lane / 8));
        if (static_cast<int64_t>(number - values[lane] * static_cast<uint64_t>(area)) < 0) --values[lane];
    }
    return load_halves(values);
}
