// A texture for eight points at a time: levels of half the size each (mip maps), filtered in a level and between two of
// them.
#ifndef TEXTURE_HPP
#define TEXTURE_HPP

#include <cstddef>
#include <cstdint>
#include <vector>

#include "scene.hpp"
#include "trirast_shade.hpp"

namespace scene {

using trirast::Floats;
using trirast::Integers;

// The logarithm to the base 2 of positive numbers, within 3e-6 of what it is: the exponent, and a polynomial of the
// rest. Its products do not all wait for each other.
TRIRAST_INLINE Floats logarithm(const Floats &v) {
    const Integers bits = bits_of(v);
    const Floats exponent = to_floats((bits >> 23) - 127);
    const Floats t = trirast::floats_of_bits((bits & 0x7FFFFF) | 0x3F800000) - 1.0f, square = t * t;
    const Floats low = (0.477496364f * t - 0.721144092f) * t + 1.44269298f;
    const Floats high = (0.02001665f * t - 0.0946268097f) * square + (0.213943212f * t - 0.338377198f);
    return exponent + (high * (square * t) + low) * t;
}

// The texels of all levels, one level below another. They stand in strips of 32 columns, so that those above each other
// are near in memory too. Each strip has the column on its right once more, and each level its first row once more
// below, so that the texture repeats: the four texels round a point are always beside each other.
class Texels {
public:
    explicit Texels(const Texture &texture)
        : top_(static_cast<std::int32_t>(texture.levels.size()) - 1),
          area_(static_cast<float>(texture.side) * static_cast<float>(texture.side)) {
        const std::size_t rows = 2 * std::size_t{texture.side} + more_rows;
        texels_.resize((texture.side + width - 1) / width * rows * row + 2); // four are read where two are used
        std::size_t first = 0, side = texture.side;
        for (const std::vector<std::uint8_t> &level : texture.levels) {
            for (std::size_t y = 0; y <= side; y++)
                for (std::size_t x = 0; x < (side + width - 1) / width * row; x++) {
                    const std::size_t strip = x / row, column = x % row;
                    const std::uint8_t *from = &level[4 * (y % side * side + (strip * width + column) % side)];
                    texels_[(strip * rows + first + y) * row + column] =
                        from[0] | std::uint32_t{from[1]} << 8 | std::uint32_t{from[2]} << 16;
                }
            first += side + 1, side /= 2;
        }
    }

    // The colours at u, v, of which each whole number is a texture. `step` is the square of the distance to the next
    // pixel, in textures: a level is taken whose texels are about as far from each other.
    TRIRAST_INLINE void colors(const Floats &u, const Floats &v, const Floats &step, trirast::Colors &out) const {
        // In texels of the largest level. A step of nothing, or of no number, takes that level.
        const Floats square = min(max(step * area_, 1.0f), area_);
        // Half of the exponent: the logarithm is not waited for.
        const Integers level = ((bits_of(square) + (1 << 23)) >> 24) - 64;
        const Floats x = u - floor(u), y = v - floor(v);
        const Four near = four(x, y, level);
        if (!any(square > 1.0f)) { // of near triangles the largest level is enough
            out.red = near.channel(0), out.green = near.channel(8), out.blue = near.channel(16);
            return;
        }
        const Four far = four(x, y, level - (level < top_)); // a comparison that holds is -1
        const Floats share = 0.5f * logarithm(square) - to_floats(level);
        out.red = between(near.channel(0), far.channel(0), share);
        out.green = between(near.channel(8), far.channel(8), share);
        out.blue = between(near.channel(16), far.channel(16), share);
    }

private:
    static TRIRAST_INLINE Floats between(const Floats &a, const Floats &b, const Floats &share) {
        return a + share * (b - a);
    }

    // The texels round a point, and where it lies between them.
    struct Four {
        Integers upper_left, upper_right, lower_left, lower_right;
        Floats x, y;

        TRIRAST_INLINE Floats channel(int shift) const {
            // Nothing stands above blue.
            const auto of = [shift](const Integers &texel) {
                return to_floats(shift == 16 ? texel >> 16 : (texel >> shift) & 255);
            };
            const Floats left = between(of(upper_left), of(lower_left), y),
                         right = between(of(upper_right), of(lower_right), y);
            return between(left, right, x);
        }
    };

    // The greatest whole numbers that are not above numbers from -1 on.
    static TRIRAST_INLINE Integers whole(const Floats &v) { return to_integers(v) + (v < 0.0f); }

    // Those of a level round a place in the texture, from 0 to 1.
    TRIRAST_INLINE Four four(const Floats &u, const Floats &v, const Integers &level) const {
        // The side of a level is a power of two, whose exponent is top - level.
        const Floats side = trirast::floats_of_bits((top_ + 127 - level) << 23);
        const Floats x = u * side - 0.5f, y = v * side - 0.5f;
        const Integers left = whole(x), upper = whole(y), length = to_integers(side), within = length - 1;
        // Masked, so that no number leads out of the level. Levels before this one have 2 (largest side - side) rows,
        // and one more each.
        const Integers column = left & within, strip = column >> width_bits;
        const Integers rows = (strip << (top_ + 1)) + strip * more_rows;
        const Integers y_of_all = rows + (upper & within) - (length << 1) + level + (2 << top_);
        const Integers first = (y_of_all << width_bits) + y_of_all + (column & (width - 1));
        Integers above[4], below[4];
        take_four(texels_.data(), 1, first, 0, above);
        take_four(texels_.data() + row, 1, first, 0, below);
        return {above[0], above[1], below[0], below[1], x - to_floats(left), y - to_floats(upper)};
    }

    // Columns of a strip, and texels of its rows. A strip has twice the rows of the largest level, and some more: one
    // for each level, since these have their first row once more.
    static constexpr int width_bits = 5, width = 1 << width_bits, row = width + 1, more_rows = 16;

    std::int32_t top_;
    float area_;
    std::vector<std::uint32_t> texels_;
};

// What a shader looks up of each corner: texture coordinates and a normal.
using Values = trirast::Attributes<5>;

inline std::vector<Values::Values> values_of(const Mesh &mesh) {
    std::vector<Values::Values> found;
    for (const Vertex &v : mesh.vertices) found.push_back({v.u, v.v, v.nx, v.ny, v.nz});
    return found;
}

// The texture under a light from far away.
class Textured {
public:
    Textured(const Texels &texels, const Values &values, const Scene &scene)
        : texels_(texels), values_(values), x_(static_cast<float>(scene.light.x)),
          y_(static_cast<float>(scene.light.y)), z_(static_cast<float>(scene.light.z)),
          ambient_(static_cast<float>(scene.ambient)) {}

    TRIRAST_INLINE void operator()(const trirast::Fragments &at, trirast::Colors &out) const {
        const Values::Corners corner = values_.of(at.id);
        // Before the texels, which are waited for.
        const Floats x = at.value(corner[2]), y = at.value(corner[3]), z = at.value(corner[4]);
        const Floats facing = max((x * x_ + y * y_ + z * z_) / sqrt(x * x + y * y + z * z), 0.0f);
        const Floats light = ambient_ + (1 - ambient_) * facing;

        const Floats right_u = at.to_right(corner[0]), right_v = at.to_right(corner[1]);
        const Floats down_u = at.to_below(corner[0]), down_v = at.to_below(corner[1]);
        const Floats step = max(right_u * right_u + right_v * right_v, down_u * down_u + down_v * down_v);
        texels_.colors(at.value(corner[0]), at.value(corner[1]), step, out);
        out.red *= light, out.green *= light, out.blue *= light;
    }

private:
    const Texels &texels_;
    const Values &values_;
    float x_, y_, z_, ambient_;
};

} // namespace scene

#endif
