// What is expected of clipped triangles: how often they cover samples, and where cuts lie.
#ifndef COUNTED_HPP
#define COUNTED_HPP

#include <algorithm>
#include <cmath>
#include <cstdint>
#include <cstdio>
#include <map>
#include <vector>

#include "trirast_clip.hpp"
#include "under_test.h"

inline int failures = 0;

inline void expect(bool holds, const char *test, const char *what) {
    if (holds) return;
    failures++;
    std::printf("FAILED %s: %s\n", test, what);
}

// Clips by arrays that are now and then too small, so that the call is made again where it stopped.
inline trirast::Clipped clipped(const trirast_clip &clip, const std::vector<trirast_clip_position> &positions,
                                const std::vector<std::uint32_t> &indices) {
    trirast::Clipped out;
    trirast_clipped in_c{};
    trirast_clip_status status = TRIRAST_CLIP_FULL;
    out.marks.resize(positions.size());
    for (std::size_t size = TRIRAST_CLIP_MAX_CORNERS; status == TRIRAST_CLIP_FULL; size += size / 2) {
        trirast::detail::enlarge(out, positions.size(), size, size, in_c);
        status = clip_under_test(&clip, positions.data(), positions.size(), indices.data(), indices.size(), &in_c);
    }
    expect(status == TRIRAST_CLIP_OK, "clipped", trirast_clip_status_string(status));
    trirast::detail::enlarge(out, positions.size(), in_c.cut_count, in_c.triangle_count, in_c);
    out.first_cut = static_cast<std::uint32_t>(positions.size()), out.folded = in_c.folded;
    return out;
}

// ---- Samples

// How often a sample is covered by triangles that run clockwise on the screen, and by others.
struct Layers {
    std::uint32_t clockwise = 0, others = 0;
};

inline std::int64_t doubled_area(const trirast_vertex &a, const trirast_vertex &b, std::int64_t x, std::int64_t y) {
    return (std::int64_t{b.x} - a.x) * (y - a.y) - (std::int64_t{b.y} - a.y) * (x - a.x);
}

inline std::int64_t doubled_area(const trirast_vertex &a, const trirast_vertex &b, const trirast_vertex &c) {
    return doubled_area(a, b, c.x, c.y);
}

// The layers of the four samples of each pixel of the viewport, by exact edge functions and the top-left rule:
// docs/rules.md.
class Screen {
public:
    explicit Screen(const trirast_clip &clip)
        : clip_(clip), layers(4 * static_cast<std::size_t>(clip.width) * static_cast<std::size_t>(clip.height)) {}

    void add(const trirast::Clipped &out) {
        for (std::size_t t = 0; t + 2 < out.indices.size(); t += 3)
            add(out.vertices[out.indices[t]], out.vertices[out.indices[t + 1]], out.vertices[out.indices[t + 2]]);
    }

private:
    // 0 if a sample on the edge is covered, else 1: the edge function has to be at least that. Clockwise triangles have
    // top edges that go to the right and left edges that go up.
    static std::int64_t least(const trirast_vertex &a, const trirast_vertex &b) {
        return (a.y == b.y && b.x > a.x) || b.y < a.y ? 0 : 1;
    }

    void add(const trirast_vertex &a, trirast_vertex b, trirast_vertex c) {
        const std::int64_t area = doubled_area(a, b, c);
        if (area == 0) return;
        if (area < 0) std::swap(b, c);
        const std::int64_t bound[3] = {least(a, b), least(b, c), least(c, a)};
        const auto first = [](std::int32_t least, std::int32_t start) { return std::max(0, (least >> 8) - start); };
        const auto end = [](std::int32_t most, std::int32_t start, std::int32_t size) {
            return std::min(size, (most >> 8) + 1 - start);
        };
        const int right = end(std::max({a.x, b.x, c.x}), clip_.left, clip_.width);
        const int bottom = end(std::max({a.y, b.y, c.y}), clip_.top, clip_.height);
        static constexpr std::int64_t samples[4][2] = {{96, 32}, {224, 96}, {32, 160}, {160, 224}};
        for (int j = first(std::min({a.y, b.y, c.y}), clip_.top); j < bottom; j++)
            for (int i = first(std::min({a.x, b.x, c.x}), clip_.left); i < right; i++)
                for (std::size_t s = 0; s < 4; s++) {
                    const std::int64_t x = 256 * (clip_.left + i) + samples[s][0],
                                       y = 256 * (clip_.top + j) + samples[s][1];
                    if (doubled_area(a, b, x, y) < bound[0] || doubled_area(b, c, x, y) < bound[1] ||
                        doubled_area(c, a, x, y) < bound[2])
                        continue;
                    Layers &layer = layers[4 * (static_cast<std::size_t>(j) * static_cast<std::size_t>(clip_.width) +
                                                static_cast<std::size_t>(i)) +
                                           s];
                    (area > 0 ? layer.clockwise : layer.others)++;
                }
    }

    trirast_clip clip_;

public:
    std::vector<Layers> layers;
};

// ---- Cuts

// How far cuts lie from the weighted sums of the corners that they name, beside the bounds that the header states.
struct Off {
    double bound = 0;             // the greatest share that was used of a bound of w or of the weights' sum
    double place = 0;             // in 1/256 pixel, without the bound of a cut's own error: half of one by rounding
    std::size_t parts_turned = 0; // triangles of the source with parts of both senses
};

constexpr long double UNIT = 0x1p-53L, PLANES = TRIRAST_CLIPPING_PLANES;

inline void add_cut(const std::vector<trirast_clip_position> &positions, const std::uint32_t *corners,
                    const trirast_clip &clip, const trirast_clip_cut &cut, const trirast_vertex &vertex, float w_found,
                    Off &found) {
    trirast_clipping view;
    begin_under_test(&clip, &view);
    const long double guard = view.planes[TRIRAST_CLIPPING_LEFT].factor,
                      high = view.planes[TRIRAST_CLIPPING_TOP].factor;
    long double x = 0, y = 0, w = 0, size = 0, sum = 0;
    for (std::size_t c = 0; c < 3; c++) {
        const trirast_clip_position &p = positions[corners[c]];
        const long double weight = cut.weights[c], wide = std::max(guard, high) * p.w;
        found.bound = weight < 0 || weight > 1 ? 1e9 : found.bound;
        x += weight * p.x, y += weight * p.y, w += weight * p.w, sum += weight;
        for (const long double coordinate : {static_cast<long double>(p.x), static_cast<long double>(p.y),
                                             static_cast<long double>(p.z), wide})
            size = std::max(size, std::fabs(coordinate));
    }
    // w is a float, and the sum of the weights is one of exact numbers.
    const long double error = 32 * PLANES * UNIT * size, of_float = 0x1p-24L * std::fabs(w);
    const long double w_off = std::max(std::fabs(w - w_found) - of_float, 0.0L) / error;
    const long double sum_off = std::fabs(sum - 1) / (9 * PLANES * UNIT);
    found.bound = std::max({found.bound, static_cast<double>(w_off), static_cast<double>(sum_off)});
    const long double half[2] = {128.0L * clip.width, 128.0L * clip.height},
                      far[2] = {x / w * half[0], -(y / w) * half[1]};
    const long double start[2] = {256.0L * clip.left, 256.0L * clip.top}, at[2] = {vertex.x + 0.0L, vertex.y + 0.0L};
    for (int k = 0; k < 2; k++) {
        const long double own = error / w * (half[k] + std::fabs(far[k]));
        const long double off = std::fabs(at[k] - (start[k] + half[k] + far[k]));
        found.place = std::max(found.place, static_cast<double>(off - own));
    }
}

inline Off off(const std::vector<trirast_clip_position> &positions, const std::vector<std::uint32_t> &indices,
               const trirast_clip &clip, const trirast::Clipped &out) {
    Off found;
    for (std::size_t k = 0; k < out.cuts.size(); k++) {
        const std::size_t first = 3 * std::size_t{out.cuts[k].triangle}, vertex = out.first_cut + k;
        if (first >= indices.size()) return {1e9, 1e9, 1};
        add_cut(positions, &indices[first], clip, out.cuts[k], out.vertices[vertex], out.w[vertex], found);
    }
    std::map<std::uint32_t, unsigned> senses;
    for (std::size_t t = 0; t < out.sources.size(); t++) {
        const std::uint32_t *corners = &out.indices[3 * t];
        const std::int64_t area =
            doubled_area(out.vertices[corners[0]], out.vertices[corners[1]], out.vertices[corners[2]]);
        senses[out.sources[t]] |= area > 0 ? 1u : area < 0 ? 2u : 0u;
    }
    for (const auto &[source, sense] : senses) found.parts_turned += sense == 3;
    return found;
}

// ---- Sums over many pictures

struct Total {
    const char *name;
    std::size_t pictures = 0, triangles = 0, cuts = 0, folded = 0, parts_turned = 0;
    std::size_t samples = 0, cracks = 0, doubles = 0, turned = 0;
    double bound = 0, place_off = 0;

    void add(const std::vector<trirast_clip_position> &positions, const std::vector<std::uint32_t> &indices,
             const trirast_clip &clip, const trirast::Clipped &out) {
        const Off more = off(positions, indices, clip, out);
        pictures++, triangles += out.sources.size(), cuts += out.cuts.size(), folded += out.folded;
        bound = std::max(bound, more.bound), place_off = std::max(place_off, more.place),
        parts_turned += more.parts_turned;
        expect(std::is_sorted(out.sources.begin(), out.sources.end()), name, "triangles out of order");
    }

    // A sample that has to be covered once. Layers in both senses add up to 1 by their signs, also where rounding has
    // turned a triangle over; a double is one that no such triangle explains.
    void add(const Layers &layer) {
        const bool once = layer.clockwise == layer.others + 1 || layer.others == layer.clockwise + 1;
        const bool mixed = layer.clockwise > 0 && layer.others > 0;
        samples++, cracks += layer.clockwise + layer.others == 0,
            doubles += !once && layer.clockwise + layer.others > 0;
        turned += once && mixed;
    }

    // All samples of a viewport have to be covered once.
    void add_all(const trirast_clip &clip, const trirast::Clipped &out) {
        Screen screen(clip);
        screen.add(out);
        for (const Layers &layer : screen.layers) add(layer);
    }

    void finish() const {
        std::printf(
            "%-36s %3zu pictures, %7zu triangles, %6zu cuts, %9zu samples: %zu cracks, %zu doubles, %zu turned over; "
            "%zu folded, %zu with parts turned over; cuts off by %.6f/256 pixel, w by %.3f of its bound\n",
            name, pictures, triangles, cuts, samples, cracks, doubles, turned, folded, parts_turned, place_off, bound);
        expect(cracks == 0, name, "a sample that no triangle covers");
        expect(doubles == 0, name, "a sample that several triangles cover");
        expect(turned == 0 || folded > 0, name, "a sample in a triangle that is turned over, where nothing is folded");
        expect(cuts > 0, name, "nothing was cut");
        expect(bound <= 1, name, "w or weights of a cut");
        expect(place_off < 0.5 + 1e-6, name, "the place of a cut");
        expect(parts_turned <= folded, name, "a part of a triangle that is turned over");
    }
};

#endif
