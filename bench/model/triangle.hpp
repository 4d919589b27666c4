// A triangle that is to be drawn: its edges, its box and the values at its vertices.

#pragma once

#include <algorithm>
#include <cstdint>
#include <utility>

#include "../draw_list.hpp"

constexpr int one_sample[1][2] = {{128, 128}};
constexpr int four_samples[4][2] = {{96, 32}, {224, 96}, {32, 160}, {160, 224}};

// Where the samples of a pixel lie, in 1/256 pixel from its corner.
struct Pattern {
    const int (*places)[2];
    int count;
    int low;    // the least coordinate of a sample
    int reach;  // from the least to the greatest

    explicit Pattern(int samples)
        : places(samples == 4 ? four_samples : one_sample), count(samples), low(samples == 4 ? 32 : 128),
          reach(samples == 4 ? 192 : 0) {}
};

// The edge's value grows by `right` and `down` for 1/256 pixel. It is not negative at the points that the
// triangle owns there.
struct Edge {
    int64_t right, down, origin;

    int64_t at(int64_t x, int64_t y) const { return right * x + down * y + origin; }
    // How far the greatest value in a square lies above the value at its upper left corner.
    int64_t above_corner(int64_t side) const {
        return side * (std::max<int64_t>(right, 0) + std::max<int64_t>(down, 0));
    }
};

enum Attribute { Depth, Red, Green, Blue, Alpha, Attributes };

struct Triangle {
    Edge edges[3];
    const State* state;
    int64_t area;                   // doubled, over zero
    int left, top, right, bottom;   // the pixels that it may touch
    int32_t x, y;                   // the first vertex
    uint16_t values[Attributes][3];

    bool is_flat(int attribute) const {
        const uint16_t* v = values[attribute];
        return v[0] == v[1] && v[1] == v[2];
    }
    bool has_flat_colour() const {
        return is_flat(Red) && is_flat(Green) && is_flat(Blue) && (!state->over || is_flat(Alpha));
    }
    bool uses_depth() const { return state->test != Test::Always || state->depth_write; }
};

inline Edge edge_between(const Vertex& from, const Vertex& to) {
    int64_t dx = int64_t{to.x} - from.x, dy = int64_t{to.y} - from.y;
    bool owns = dy < 0 || (dy == 0 && dx > 0);
    return {-dy, dx, dy * from.x - dx * from.y - (owns ? 0 : 1)};
}

inline bool bound(const Scene& scene, const Vertex& a, const Vertex& b, const Vertex& c, Triangle& t) {
    const int* scissor = t.state->scissor;
    t.left = std::max({std::min({a.x, b.x, c.x}) >> 8, scissor[0], 0});
    t.top = std::max({std::min({a.y, b.y, c.y}) >> 8, scissor[1], 0});
    t.right = std::min({(std::max({a.x, b.x, c.x}) >> 8) + 1, scissor[2], scene.width});
    t.bottom = std::min({(std::max({a.y, b.y, c.y}) >> 8) + 1, scissor[3], scene.height});
    return t.left < t.right && t.top < t.bottom;
}

// False if nothing of the triangle is drawn: it has no area, is culled, or lies outside.
inline bool set_up(const Scene& scene, const Draw& draw, const std::array<uint32_t, 3>& corners, Triangle& t) {
    const Vertex *a = &draw.vertices[corners[0]], *b = &draw.vertices[corners[1]], *c = &draw.vertices[corners[2]];
    int64_t area = int64_t{b->x - a->x} * (c->y - a->y) - int64_t{b->y - a->y} * (c->x - a->x);
    Cull cull = draw.state.cull;
    if (area == 0 || (cull == Cull::Front && area > 0) || (cull == Cull::Back && area < 0)) return false;
    t.state = &draw.state;
    if (!bound(scene, *a, *b, *c, t)) return false;
    if (area < 0) std::swap(b, c);
    t.area = std::abs(area);
    t.x = a->x;
    t.y = a->y;
    const Vertex* vertices[3] = {a, b, c};
    for (int k = 0; k < 3; ++k) {
        t.edges[k] = edge_between(*vertices[(k + 1) % 3], *vertices[(k + 2) % 3]);
        t.values[Depth][k] = vertices[k]->z;
        for (int channel = 0; channel < 4; ++channel) t.values[Red + channel][k] = vertices[k]->rgba[channel];
    }
    return true;
}
