// The picture of a scene by its definition: each sample by itself, all triangles one after another, in integers and
// doubles. Nothing of trirast_shade.hpp, examples/cpp/texture.hpp or the library is used.
#ifndef REFERENCE_HPP
#define REFERENCE_HPP

#include <algorithm>
#include <array>
#include <cmath>
#include <cstdint>
#include <vector>

#include "patterns.hpp"
#include "scene.hpp"
#include "under_test.hpp"

namespace reference {

using Wide = __int128;

struct Place {
    std::int64_t x, y;
};

inline std::vector<Place> places(std::size_t samples) {
    std::size_t row = 0;
    while (std::size_t{1} << row < samples) row++;
    std::vector<Place> found;
    for (std::size_t s = 0; s < samples; s++)
        found.push_back({128 + 16 * PATTERNS[row][s][0], 128 + 16 * PATTERNS[row][s][1]});
    return found;
}

// The middle of some samples of a pixel: the rule of Rate::pixel.
inline Place middle(const std::vector<Place> &all, const std::vector<bool> &shown) {
    std::vector<Place> some;
    double x = 0, y = 0;
    for (std::size_t s = 0; s < all.size(); s++)
        if (shown[s]) some.push_back(all[s]), x += static_cast<double>(all[s].x), y += static_cast<double>(all[s].y);
    if (some.size() == all.size()) return {128, 128};
    if (all.size() == 16 && some.size() == 3) return {(some[0].x + some[2].x) / 2, (some[0].y + some[2].y) / 2};
    const double count = static_cast<double>(some.size());
    return {static_cast<std::int64_t>(std::floor(x / count + 0.5)),
            static_cast<std::int64_t>(std::floor(y / count + 0.5))};
}

inline std::int64_t side(const trirast_vertex &a, const trirast_vertex &b, std::int64_t x, std::int64_t y) {
    return (std::int64_t{b.x} - a.x) * (y - a.y) - (std::int64_t{b.y} - a.y) * (x - a.x);
}

// The edge functions across from the corners, in the sense in which the doubled area is positive.
struct Edges {
    std::int64_t a, b, c, area;
};

inline Edges edges(const trirast_vertex &a, const trirast_vertex &b, const trirast_vertex &c, std::int64_t x,
                   std::int64_t y) {
    Edges found{side(b, c, x, y), side(c, a, x, y), side(a, b, x, y), side(a, b, c.x, c.y)};
    if (found.area < 0) found = {-found.a, -found.b, -found.c, -found.area};
    return found;
}

// A point on the edge from p to q is covered if that is a top or a left edge; r is the third corner.
inline bool is_top_left(const trirast_vertex &p, const trirast_vertex &q, const trirast_vertex &r) {
    if (p.y == q.y) return r.y > p.y;
    // The line's x at the height of r, against that of r, without a division.
    const std::int64_t s = side(p, q, r.x, r.y);
    return q.y > p.y ? s < 0 : s > 0;
}

inline bool covers(const trirast_vertex &a, const trirast_vertex &b, const trirast_vertex &c, const Edges &e) {
    if (e.area == 0 || e.a < 0 || e.b < 0 || e.c < 0) return false;
    return (e.a > 0 || is_top_left(b, c, a)) && (e.b > 0 || is_top_left(c, a, b)) && (e.c > 0 || is_top_left(a, b, c));
}

inline std::uint32_t value(const Edges &e, std::uint32_t a, std::uint32_t b, std::uint32_t c) {
    return static_cast<std::uint32_t>((Wide{a} * e.a + Wide{b} * e.b + Wide{c} * e.c) / e.area);
}

struct Weights {
    double k[3];
    double sum; // of the edge functions by w: 1 / w, but for a factor
};

inline Weights weights(const trirast::Clipped &mesh, std::uint32_t id, std::int64_t x, std::int64_t y) {
    const std::uint32_t *at = &mesh.indices[3 * std::size_t{id}];
    const Edges e = edges(mesh.vertices[at[0]], mesh.vertices[at[1]], mesh.vertices[at[2]], x, y);
    const double n[3] = {static_cast<double>(e.a) / mesh.w[at[0]], static_cast<double>(e.b) / mesh.w[at[1]],
                         static_cast<double>(e.c) / mesh.w[at[2]]};
    const double sum = n[0] + n[1] + n[2];
    return {{n[0] / sum, n[1] / sum, n[2] / sum}, sum};
}

// The weights (by = 0), or how they differ at the pixel to the right (1) or below (2), and whether it is nearly a tie
// which neighbour is taken.
struct Steps {
    double k[3];
    bool tie;
};

inline Steps steps(const trirast::Clipped &mesh, std::uint32_t id, std::int64_t x, std::int64_t y, int by) {
    const Weights here = weights(mesh, id, x, y);
    if (by == 0) return {{here.k[0], here.k[1], here.k[2]}, false};
    const std::int64_t dx = by == 1 ? 256 : 0, dy = by == 2 ? 256 : 0;
    Weights next = weights(mesh, id, x + dx, y + dy);
    const double share = next.sum / here.sum, sign = share < 0.5 ? -1 : 1;
    if (share < 0.5) next = weights(mesh, id, x - dx, y - dy);
    return {{sign * (next.k[0] - here.k[0]), sign * (next.k[1] - here.k[1]), sign * (next.k[2] - here.k[2])},
            std::fabs(share - 0.5) < 1e-4};
}

using Color = std::array<double, 3>;

struct Shaded {
    Color color;
    bool tie; // a rule that is not continuous is within 1e-4 of turning: which neighbour the derivatives take
};

inline Color texel(const scene::Texture &texture, std::size_t level, double u, double v) {
    const std::int64_t side = std::int64_t{texture.side} >> level;
    const double x = u * static_cast<double>(side) - 0.5, y = v * static_cast<double>(side) - 0.5;
    const double i = std::floor(x), j = std::floor(y);
    const auto wrapped = [&](double k) {
        return static_cast<std::size_t>(((static_cast<std::int64_t>(k) % side) + side) % side);
    };
    const auto at = [&](double p, double q, std::size_t c) {
        return double{static_cast<double>(
            texture.levels[level][4 * (wrapped(q) * static_cast<std::size_t>(side) + wrapped(p)) + c])};
    };
    Color found;
    for (std::size_t c = 0; c < 3; c++) {
        const double upper = at(i, j, c) + (x - i) * (at(i + 1, j, c) - at(i, j, c)),
                     lower = at(i, j + 1, c) + (x - i) * (at(i + 1, j + 1, c) - at(i, j + 1, c));
        found[c] = upper + (y - j) * (lower - upper);
    }
    return found;
}

// The colour of a triangle at a point.
inline Shaded shaded(const scene::Scene &given, const trirast::Clipped &mesh,
                     const std::vector<std::array<scene::Vertex, 3>> &corners, std::uint32_t id, std::int64_t x,
                     std::int64_t y) {
    const Weights here = weights(mesh, id, x, y);
    const std::array<scene::Vertex, 3> &at = corners[id];
    const auto sum = [&](const Weights &w, auto member) {
        return w.k[0] * at[0].*member + w.k[1] * at[1].*member + w.k[2] * at[2].*member;
    };
    Shaded found{};
    double longest = 0;
    for (const int by : {1, 2}) {
        const Steps step = steps(mesh, id, x, y, by);
        found.tie = found.tie || step.tie;
        const double du = step.k[0] * at[0].u + step.k[1] * at[1].u + step.k[2] * at[2].u,
                     dv = step.k[0] * at[0].v + step.k[1] * at[1].v + step.k[2] * at[2].v;
        longest = std::max(longest, std::hypot(du, dv) * given.texture.side);
    }
    const double top = static_cast<double>(given.texture.levels.size()) - 1;
    const double wanted = longest > 0 ? std::clamp(std::log2(longest), 0.0, top) : 0;
    const std::size_t level = static_cast<std::size_t>(wanted),
                      far = std::min(level + 1, given.texture.levels.size() - 1);
    const double u = sum(here, &scene::Vertex::u), v = sum(here, &scene::Vertex::v);
    const Color one = texel(given.texture, level, u, v), other = texel(given.texture, far, u, v);
    const scene::Vector n{sum(here, &scene::Vertex::nx), sum(here, &scene::Vertex::ny), sum(here, &scene::Vertex::nz)};
    const double facing = std::max(0.0, dot(n, given.light) / std::sqrt(dot(n, n)));
    const double light = given.ambient + (1 - given.ambient) * facing;
    for (std::size_t c = 0; c < 3; c++)
        found.color[c] = light * (one[c] + (wanted - static_cast<double>(level)) * (other[c] - one[c]));
    return found;
}

struct Sample {
    std::uint32_t id = NO_TRIANGLE;
    std::uint32_t depth = 65535;
    std::array<std::uint8_t, 3> color{};
    bool tie = false;
};

inline std::uint8_t byte_of(double v) { return static_cast<std::uint8_t>(std::clamp(std::floor(v + 0.5), 0.0, 255.0)); }

// A picture: of each pixel, row by row, all samples.
struct Picture {
    std::size_t width, samples;
    std::vector<Sample> all;

    Sample &at(std::size_t x, std::size_t y, std::size_t s) { return all[(y * width + x) * samples + s]; }
};

// Gives each sample that a triangle covers and whose depth is nearer to `drawn`, triangle by triangle.
template <class Drawn>
void draw(Picture &picture, const trirast::Clipped &mesh, const Drawn &drawn) {
    const int width = static_cast<int>(picture.width),
              height = static_cast<int>(picture.all.size() / picture.samples / picture.width);
    const std::vector<Place> offsets = places(picture.samples);
    for (std::uint32_t t = 0; t < mesh.sources.size(); t++) {
        const trirast_vertex &a = mesh.vertices[mesh.indices[3 * t]], &b = mesh.vertices[mesh.indices[3 * t + 1]],
                             &c = mesh.vertices[mesh.indices[3 * t + 2]];
        const int left = std::max(0, std::min({a.x, b.x, c.x}) / 256 - 1),
                  right = std::min(width - 1, std::max({a.x, b.x, c.x}) / 256 + 1);
        const int top = std::max(0, std::min({a.y, b.y, c.y}) / 256 - 1),
                  bottom = std::min(height - 1, std::max({a.y, b.y, c.y}) / 256 + 1);
        for (int j = top; j <= bottom; j++)
            for (int i = left; i <= right; i++)
                for (std::size_t s = 0; s < picture.samples; s++) {
                    const Edges e = edges(a, b, c, 256 * i + offsets[s].x, 256 * j + offsets[s].y);
                    if (!covers(a, b, c, e)) continue;
                    Sample &sample = picture.at(static_cast<std::size_t>(i), static_cast<std::size_t>(j), s);
                    const std::uint32_t depth = value(e, a.depth, b.depth, c.depth);
                    if (depth < sample.depth) drawn(sample, t, depth, a);
                }
    }
}

// Where a triangle is shaded that a sample of a pixel shows.
inline Place shaded_at(const std::vector<Place> &offsets, const Sample *pixel, std::size_t s, At rate) {
    if (rate == At::sample) return offsets[s];
    if (rate == At::centre) return {128, 128};
    std::vector<bool> shown;
    for (std::size_t r = 0; r < offsets.size(); r++) shown.push_back(pixel[r].id == pixel[s].id);
    return middle(offsets, shown);
}

inline Picture picture(const scene::Scene &given, const trirast::Clipped &mesh, const trirast::Clipped &glass,
                       const std::vector<std::array<scene::Vertex, 3>> &corners, std::size_t width, std::size_t height,
                       std::size_t samples, At rate) {
    Picture found{width, samples, std::vector<Sample>(width * height * samples)};
    draw(found, mesh, [](Sample &sample, std::uint32_t t, std::uint32_t depth, const trirast_vertex &) {
        sample.id = t, sample.depth = depth;
    });
    const std::vector<Place> offsets = places(samples);
    for (std::size_t p = 0; p < width * height; p++)
        for (std::size_t s = 0; s < samples; s++) {
            Sample &sample = found.all[p * samples + s];
            sample.color = given.background;
            if (sample.id == NO_TRIANGLE) continue;
            const Place at = shaded_at(offsets, &found.all[p * samples], s, rate);
            const Shaded color =
                shaded(given, mesh, corners, sample.id, static_cast<std::int64_t>(256 * (p % width)) + at.x,
                       static_cast<std::int64_t>(256 * (p / width)) + at.y);
            sample.tie = color.tie;
            for (std::size_t c = 0; c < 3; c++) sample.color[c] = byte_of(color.color[c]);
        }
    draw(found, glass, [](Sample &sample, std::uint32_t, std::uint32_t, const trirast_vertex &a) {
        const std::uint32_t s[3] = {a.red, a.green, a.blue};
        for (std::size_t c = 0; c < 3; c++)
            sample.color[c] =
                static_cast<std::uint8_t>((s[c] * a.alpha + sample.color[c] * (255u - a.alpha) + 127) / 255);
    });
    return found;
}

} // namespace reference

#endif
