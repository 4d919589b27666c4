// A level for level.cpp: a hall with pillars, plants and panes of glass, with textures and light maps, made by a seed.
#ifndef LEVEL_HPP
#define LEVEL_HPP

#include <algorithm>
#include <cmath>
#include <cstddef>
#include <cstdint>
#include <vector>

#include "numbers.hpp"
#include "scene.hpp"
#include "trirast_texture.hpp"

namespace level {

using scene::Vector;
// Of each corner: u and v of the texture, and of the light map.
using Values = trirast::Attributes<4>;

// Triangles of one material.
struct Part {
    std::vector<Vector> points;
    std::vector<Values::Values> values;
    std::vector<std::uint32_t> indices;
};

// A leaf or a pane of glass: it is translucent, and drawn from back to front.
struct Card {
    Vector corners[4];
    float u[2]; // on its left and right side
    Vector middle() const { return 0.25 * (corners[0] + corners[1] + corners[2] + corners[3]); }
};

// The materials, by which fragments are shaded; glass is a texture that is translucent all over.
enum Material : std::uint32_t { floor_tiles, bricks, plaster, stone, materials };

constexpr double WIDTH = 24, HEIGHT = 6, LENGTH = 16;

// Small squares of an atlas, one for each rectangle.
class LightMap {
public:
    // Where a place in the next square is, for u and v from 0 to 1. Its texels get the light of their places.
    template <class Place>
    std::uint32_t add(Vector normal, const Place &place) {
        for (std::uint32_t y = 0; y < side; y++)
            for (std::uint32_t x = 0; x < side; x++) {
                const double u = (x - 0.5) / (side - 2), v = (y - 0.5) / (side - 2);
                const double light = light_at(place(u, v), normal);
                std::uint8_t *to = &texels_[4 * ((count_ / in_row * side + y) * width + count_ % in_row * side + x)];
                to[0] = to[1] = static_cast<std::uint8_t>(255 * light), to[2] = static_cast<std::uint8_t>(235 * light);
                to[3] = 255;
            }
        return count_++;
    }

    static float coordinate(std::uint32_t square, double at) {
        return static_cast<float>((square * side + 1 + at * (side - 2)) / width);
    }
    static float u(std::uint32_t square, double at) { return coordinate(square % in_row, at); }
    static float v(std::uint32_t square, double at) { return coordinate(square / in_row, at); }

    trirast::RgbaTexture texture() const {
        return {width, width, texels_, {trirast::Wrap::clamp, trirast::Wrap::clamp, trirast::Filter::bilinear}};
    }

private:
    static constexpr std::uint32_t side = 16, width = 256, in_row = width / side;

    static double light_at(Vector place, Vector normal) {
        double found = 0.06;
        for (double x = 4; x < WIDTH; x += 8)
            for (double z = 4; z < LENGTH; z += 8) {
                const Vector to = Vector{x, HEIGHT - 0.8, z} - place;
                const double square = dot(to, to);
                found += std::max(0.0, dot(to, normal)) / std::sqrt(square) / (1 + 0.12 * square);
            }
        return std::min(found, 1.0);
    }

    std::vector<std::uint8_t> texels_ = std::vector<std::uint8_t>(4 * width * width);
    std::uint32_t count_ = 0;
};

struct Level {
    Part solid[materials];
    std::vector<Card> cards;
    std::vector<trirast::SrgbTexture> textures; // of the materials, and of cards
    trirast::RgbaTexture light = LightMap().texture();
    std::vector<Vector> path; // of the camera, from one to the next and back to the first
};

// A texture of 64 by 48 texels, of which each has the colour by its place.
template <class Color>
trirast::SrgbTexture texture_of(const Color &color, trirast::Wrap wrap = trirast::Wrap::repeat) {
    const std::uint32_t width = 64, height = 48;
    std::vector<std::uint8_t> bytes(4 * width * height);
    for (std::uint32_t y = 0; y < height; y++)
        for (std::uint32_t x = 0; x < width; x++) color(x, y, &bytes[4 * (y * width + x)]);
    trirast::SrgbTexture found(width, height, bytes, {wrap, wrap, trirast::Filter::trilinear});
    found.make_mip_maps();
    return found;
}

inline void set(std::uint8_t *to, double red, double green, double blue, std::uint8_t alpha = 255) {
    const auto byte = [](double v) { return static_cast<std::uint8_t>(std::clamp(v, 0.0, 255.0)); };
    to[0] = byte(red), to[1] = byte(green), to[2] = byte(blue), to[3] = alpha;
}

inline std::vector<trirast::SrgbTexture> textures(scene::Numbers &numbers) {
    const auto grain = [&] { return numbers.within(-16, 16); };
    std::vector<trirast::SrgbTexture> found;
    found.push_back(texture_of([&](std::uint32_t x, std::uint32_t y, std::uint8_t *to) {
        const double by = ((x / 32 + y / 24) % 2 ? 150 : 95) + grain();
        set(to, by, by * 0.93, by * 0.8);
    }));
    found.push_back(texture_of([&](std::uint32_t x, std::uint32_t y, std::uint8_t *to) {
        const bool is_mortar = y % 12 < 2 || (x + y / 12 % 2 * 8) % 16 < 2;
        const double by = grain();
        set(to, (is_mortar ? 120 : 165) + by, (is_mortar ? 118 : 84) + by, (is_mortar ? 110 : 66) + by);
    }));
    found.push_back(texture_of([&](std::uint32_t, std::uint32_t, std::uint8_t *to) {
        const double by = 205 + grain();
        set(to, by, by, by * 0.95);
    }));
    found.push_back(texture_of([&](std::uint32_t x, std::uint32_t y, std::uint8_t *to) {
        const double by = 150 + 30 * std::sin(0.4 * x + std::sin(0.3 * y)) + grain();
        set(to, by * 0.8, by * 0.9, by);
    }));
    found.push_back(texture_of( // the left half of it: leaves; the right half: glass
        [&](std::uint32_t x, std::uint32_t y, std::uint8_t *to) {
            if (x >= 34) return set(to, 90, 190, 180, 96);
            const double turn = 3 * std::sin(0.9 * x + 0.2 * y) + 2 * std::cos(0.7 * y - 0.3 * x);
            set(to, 40 + grain(), 130 + 3 * grain(), 45, turn > 0 && x < 32 ? 255 : 0);
        },
        trirast::Wrap::clamp));
    return found;
}

// A rectangle of squares of one unit.
inline void add_rectangle(Level &level, LightMap &light, Material material, Vector corner, Vector across, Vector down) {
    const Vector normal = scene::unit(cross(across, down));
    const std::uint32_t columns = static_cast<std::uint32_t>(std::sqrt(dot(across, across)) + 0.5),
                        rows = static_cast<std::uint32_t>(std::sqrt(dot(down, down)) + 0.5);
    const auto place = [&](double u, double v) { return corner + u * across + v * down; };
    const std::uint32_t square = light.add(normal, place);
    Part &part = level.solid[material];
    const std::uint32_t first = static_cast<std::uint32_t>(part.points.size());
    for (std::uint32_t y = 0; y <= rows; y++)
        for (std::uint32_t x = 0; x <= columns; x++) {
            const double u = double(x) / columns, v = double(y) / rows;
            part.points.push_back(corner + x * (1.0 / columns * across) + y * (1.0 / rows * down));
            part.values.push_back({static_cast<float>(0.5 * x), static_cast<float>(0.5 * y), LightMap::u(square, u),
                                   LightMap::v(square, v)});
        }
    for (std::uint32_t y = 0; y < rows; y++)
        for (std::uint32_t x = 0; x < columns; x++) {
            const std::uint32_t a = first + y * (columns + 1) + x, b = a + 1, c = a + columns + 1, d = c + 1;
            part.indices.insert(part.indices.end(), {a, b, c, c, b, d});
        }
}

// The hall is closed: whoever is in it sees a triangle everywhere. Its sides share the corners of their squares.
inline void add_hall(Level &level, LightMap &light) {
    const Vector x{WIDTH, 0, 0}, y{0, HEIGHT, 0}, z{0, 0, LENGTH}, top{0, HEIGHT, 0};
    add_rectangle(level, light, floor_tiles, {0, 0, 0}, z, x);
    add_rectangle(level, light, plaster, top, x, z);
    add_rectangle(level, light, bricks, {0, 0, 0}, x, y);
    add_rectangle(level, light, bricks, {0, 0, LENGTH}, y, x);
    add_rectangle(level, light, bricks, {0, 0, 0}, y, z);
    add_rectangle(level, light, bricks, {WIDTH, 0, 0}, z, y);
    for (double px = 4; px < WIDTH; px += 5)
        for (double pz : {4.0, 11.0}) {
            add_rectangle(level, light, stone, {px, 0, pz}, y, {1, 0, 0});
            add_rectangle(level, light, stone, {px, 0, pz + 1}, {1, 0, 0}, y);
            add_rectangle(level, light, stone, {px, 0, pz}, {0, 0, 1}, y);
            add_rectangle(level, light, stone, {px + 1, 0, pz}, y, {0, 0, 1});
        }
}

// Plants are two crossed cards, cut where they cross, so that they can be sorted.
inline void add_cards(Level &level, scene::Numbers &numbers) {
    const auto add = [&](Vector from, Vector to, double height, float left, float right) {
        const Vector up{0, height, 0};
        level.cards.push_back({{from + up, to + up, from, to}, {left, right}});
    };
    for (int k = 0; k < 40; k++) {
        const Vector foot{numbers.within(1, WIDTH - 1), 0, numbers.within(1, LENGTH - 1)};
        const double turn = numbers.within(0, 3), size = numbers.within(0.4, 0.9);
        for (int arm = 0; arm < 4; arm++) {
            const double angle = turn + arm * 0.5 * std::acos(-1.0);
            add(foot, foot + Vector{size * std::cos(angle), 0, size * std::sin(angle)}, 2 * size, 0.25f, 0.0f);
        }
    }
    for (double x : {7.0, 12.0, 17.0}) add({x + 0.5, 0, 5}, {x + 0.5, 0, 11}, 3, 0.6f, 0.95f);
}

inline Level made(std::uint64_t seed) {
    scene::Numbers numbers(seed);
    Level found;
    LightMap light;
    found.textures = textures(numbers);
    add_hall(found, light), add_cards(found, numbers);
    found.light = light.texture();
    for (int k = 0; k < 64; k++) {
        const double turn = k * std::acos(-1.0) / 32;
        found.path.push_back({12 + 9.5 * std::cos(turn), 1.7 + 0.5 * std::sin(3 * turn), 8 + 6 * std::sin(turn)});
    }
    return found;
}

} // namespace level

#endif
