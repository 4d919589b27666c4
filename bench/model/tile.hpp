// A tile: the samples of its blocks, the triangles drawn there, and its resolved pixels.

#pragma once

#include <algorithm>
#include <cstdint>
#include <cstring>
#include <memory>

#include "group.hpp"
#include "lanes.hpp"
#include "planes.hpp"
#include "triangle.hpp"

class Tile {
public:
    int left = 0, top = 0, right = 0, bottom = 0;   // its pixels

    Tile(const Pattern& pattern, int side)
        : pattern_(pattern), side_(side), count_(side / 8 * (side / 8) * pattern.count),
          samples_(new Samples[count_]) {}

    void clear(const Sample& value) {
        Samples all;
        std::fill_n(all.depth, 64, value.z);
        for (int channel = 0; channel < 3; ++channel) std::memset(all.colour[channel], value.c[channel], 64);
        std::fill_n(samples_.get(), count_, all);
    }

    // The samples of the block whose upper left pixel is x, y.
    Samples* block(int x, int y) const {
        return &samples_[((y - top) / 8 * (side_ / 8) + (x - left) / 8) * pattern_.count];
    }
    const Pattern& pattern() const { return pattern_; }

private:
    const Pattern& pattern_;
    int side_, count_;
    std::unique_ptr<Samples[]> samples_;
};

// ---- Drawing a triangle
// ----------------------------------------------------------------------------------------------

// A triangle over the blocks of a tile. Its planes are made at the first block with a covered sample.
class TileTriangle {
public:
    TileTriangle(const Triangle& triangle, const Tile& tile) : t_(triangle), tile_(tile), pattern_(tile.pattern()) {
        for (int e = 0; e < 3; ++e) {
            const Edge& edge = t_.edges[e];
            above_[e] = edge.above_corner(7 * 256 + pattern_.reach);
            span_[e] = (7 * 256 + pattern_.reach) * (std::abs(edge.right) + std::abs(edge.down));
            lanes_[e] = growth(static_cast<int32_t>(edge.right), static_cast<int32_t>(edge.down));
        }
    }

    void draw() {
        int from_x = std::max(t_.left, tile_.left) & ~7, from_y = std::max(t_.top, tile_.top) & ~7;
        int to_x = std::min(t_.right, tile_.right), to_y = std::min(t_.bottom, tile_.bottom);
        int64_t row[3], first_x = 256 * from_x + pattern_.low, first_y = 256 * from_y + pattern_.low;
        for (int e = 0; e < 3; ++e) row[e] = t_.edges[e].at(first_x, first_y) + above_[e];
        for (int y = from_y; y < to_y; y += 8) {
            int64_t most[3] = {row[0], row[1], row[2]};
            for (int x = from_x; x < to_x; x += 8) {
                if ((most[0] | most[1] | most[2]) >= 0) block(x, y, most);
                for (int e = 0; e < 3; ++e) most[e] += 2048 * t_.edges[e].right;
            }
            for (int e = 0; e < 3; ++e) row[e] += 2048 * t_.edges[e].down;
        }
    }

private:
    const Triangle& t_;
    const Tile& tile_;
    const Pattern& pattern_;
    int64_t above_[3], span_[3];   // the greatest value in a block above that at its first sample, and above the least
    Words lanes_[3];
    Planes planes_;
    BlockDrawer draw_whole_ = nullptr, draw_part_ = nullptr;

    // `most` has the greatest value of each edge at the block's samples.
    void block(int x, int y, const int64_t* most) {
        uint64_t masks[4] = {~0ull, ~0ull, ~0ull, ~0ull};
        bool whole = cut_by_edges(most, masks);
        whole = cut_by_box(x, y, masks) && whole;
        if (!whole && !any(masks)) return;
        if (!draw_whole_) make_ready();
        BlockDrawer drawer = planes_.steep ? draw_steep_block : whole ? draw_whole_ : draw_part_;
        drawer(t_, planes_, pattern_, x, y, masks, tile_.block(x, y));
    }

    bool any(const uint64_t* masks) const {
        uint64_t all = 0;
        for (int s = 0; s < pattern_.count; ++s) all |= masks[s];
        return all != 0;
    }

    void make_ready() {
        make_planes(t_, pattern_, planes_);
        draw_whole_ = drawer<true>(t_, planes_);
        draw_part_ = drawer<false>(t_, planes_);
    }

    // True if no edge meets the block's samples.
    bool cut_by_edges(const int64_t* most, uint64_t* masks) const {
        bool whole = true;
        for (int e = 0; e < 3; ++e) {
            if (most[e] >= span_[e]) continue;
            whole = false;
            const Edge& edge = t_.edges[e];
            int64_t corner = most[e] - above_[e] - pattern_.low * (edge.right + edge.down);
            for (int s = 0; s < pattern_.count; ++s)
                masks[s] &=
                    edge_mask(e, corner + pattern_.places[s][0] * edge.right + pattern_.places[s][1] * edge.down);
        }
        return whole;
    }

    // Where the edge's value is not negative. An edge that meets the block has small values there: their
    // 1/256 fit in 32 bits.
    uint64_t edge_mask(int e, int64_t first) const {
        uint64_t outside = 0;
        uint32_t value = static_cast<uint32_t>(first >> 8);
        for (int shift = 0; shift < 64; shift += 16) {
            outside |= uint64_t{negative_bits(lanes_[e] + value)} << shift;
            value += static_cast<uint32_t>(2 * t_.edges[e].down);
        }
        return ~outside;
    }

    // True if the block lies in the triangle's box, which the scissor and the picture bound.
    bool cut_by_box(int x, int y, uint64_t* masks) const {
        if (x >= t_.left && x + 8 <= t_.right && y >= t_.top && y + 8 <= t_.bottom) return true;
        uint64_t box = 0;
        for (int pixel = 0; pixel < 64; ++pixel) {
            int column = x + pixel % 8, row = y + pixel / 8;
            box |= uint64_t{column >= t_.left && column < t_.right && row >= t_.top && row < t_.bottom} << pixel;
        }
        for (int s = 0; s < pattern_.count; ++s) masks[s] &= box;
        return false;
    }
};

// ---- Resolving
// -------------------------------------------------------------------------------------------------------

// For each channel, which of its sixteen lanes stands at which of 48 bytes of pixels; 128 for none.
struct Interleaving {
    alignas(16) uint8_t lanes[3][48];

    constexpr Interleaving() : lanes() {
        for (int channel = 0; channel < 3; ++channel)
            for (int place = 0; place < 48; ++place) lanes[channel][place] = place % 3 == channel ? place / 3 : 128;
    }
};

constexpr Interleaving interleaving;

ALWAYS_INLINE Bytes mean(const Samples* samples, int count, int channel, int first) {
    const uint8_t* colours = samples[0].colour[channel] + first;
    if (count == 1) return load_bytes(colours);
    Halves sum = halves_of(2);
    for (int s = 0; s < 4; ++s) sum = sum + widen(load_bytes(samples[s].colour[channel] + first));
    return narrow(sum >> 2);
}

// The 48 bytes of two rows of eight pixels.
ALWAYS_INLINE void interleave(const Bytes* channels, uint8_t* to) {
    for (int part = 0; part < 48; part += 16) {
        __m128i all = _mm_setzero_si128();
        for (int channel = 0; channel < 3; ++channel) {
            Bytes lanes = load_bytes(interleaving.lanes[channel] + part);
            all = _mm_or_si128(all, _mm_shuffle_epi8(channels[channel].all, lanes.all));
        }
        store(to + part, Bytes{all});
    }
}

inline void resolve_block(const Samples* samples, int count, int columns, int rows, uint8_t* out, size_t stride) {
    const size_t length = 3 * static_cast<size_t>(columns);
    for (int row = 0; row < rows; row += 2) {
        Bytes channels[3];
        for (int channel = 0; channel < 3; ++channel) channels[channel] = mean(samples, count, channel, 8 * row);
        uint8_t pixels[48];
        interleave(channels, pixels);
        for (int k = 0; k < std::min(2, rows - row); ++k) {
            uint8_t* to = out + static_cast<size_t>(row + k) * stride;
            if (columns == 8) std::memcpy(to, pixels + 24 * k, 24);
            else std::memcpy(to, pixels + 24 * k, length);
        }
    }
}

// `picture` is its first byte, with `width` pixels in a row.
inline void resolve(const Tile& tile, int width, uint8_t* picture) {
    size_t stride = 3 * static_cast<size_t>(width);
    for (int y = tile.top; y < tile.bottom; y += 8)
        for (int x = tile.left; x < tile.right; x += 8) {
            int columns = std::min(8, tile.right - x), rows = std::min(8, tile.bottom - y);
            uint8_t* out = picture + static_cast<size_t>(y) * stride + 3 * static_cast<size_t>(x);
            resolve_block(tile.block(x, y), tile.pattern().count, columns, rows, out, stride);
        }
}
