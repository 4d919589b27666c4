/* trirast_texture.hpp: textures for the shaders of trirast_shade.hpp, eight fragments at a time. For C++17 and later.
 *
 *     trirast::SrgbTexture wood(500, 300, bytes);                        // red, green, blue and alpha of each texel
 *     wood.make_mip_maps();
 *     const auto shader = [&](const trirast::Fragments &at, trirast::Colors &out) {
 *         const auto corner = places.of(at.id);                          // u and v of each corner
 *         const trirast::Texels texel = wood.sample(at, corner[0], corner[1]);
 *         out.red = trirast::to_srgb(light * texel.red);                 // and so on
 *     };
 *
 * u = 0 is the left side of a texture and u = 1 the right one; v = 0 is the top and v = 1 the bottom. Texel i of a row
 * of n has its centre at (i + 0.5) / n. Values are 0 to 255.
 *
 * RgbaTexture keeps the bytes, and filters them as they are. SrgbTexture decodes red, green and blue to linear light of
 * 16 bits when it is made, and filters that; what comes out is linear light, which to_srgb encodes. It takes 8 bytes a
 * texel in place of 4.
 *
 * Errors, beside the filter in exact numbers of the same u, v and steps. A side has n texels. Adjacent texels differ by
 * D at most, 255 or less.
 *
 * - The place of a point in a level is off by less than n / 2^22 texels in each direction. So nearest may take the next
 *   texel within that distance of a texel's side, and no other.
 * - A bilinear value is off by less than D (width + height) / 2^22 + 255 / 2^21.
 * - A trilinear value has that bound too, and 255 / 2^18 more: its share of the two levels is off by less than 2^-18.
 * - to_srgb is off by less than 0.0002. It was found by trying all floats, and is not derived.
 *
 * |u| and |v| above 2^22 count as 2^22, and those that are no number as -2^22: each fragment gets some texel of the
 * texture. With -ffp-contract=off all compilers and processors compute the same bits. */
#ifndef TRIRAST_TEXTURE_HPP
#define TRIRAST_TEXTURE_HPP

#include <algorithm>
#include <array>
#include <cmath>
#include <cstddef>
#include <cstdint>
#include <stdexcept>
#include <string>
#include <vector>

#include "trirast_lanes.hpp"
#include "trirast_shade.hpp"

namespace trirast {

/* What is beyond the sides of a texture: the texture again, its outermost texels, or the texture mirrored. */
enum class Wrap { repeat, clamp, mirror };

/* How texels are joined: the nearest one; the four round a point; or those four in each of the two levels whose texels
 * are about as far from each other as pixels are. The first two read the largest level alone. */
enum class Filter { nearest, bilinear, trilinear };

struct Sampler {
    Wrap across = Wrap::repeat, down = Wrap::repeat; /* of u, and of v */
    Filter filter = Filter::trilinear;
};

/* How u and v differ at the pixel to the right, and at the one below. */
struct TextureSteps {
    Floats right_u, right_v, down_u, down_v;
};

/* What eight fragments find: 0 to 255 each. Alpha is never encoded. */
struct Texels {
    Floats red, green, blue, alpha;
};

inline constexpr std::uint32_t most_texels_a_side = 16384;

/* ---- Numbers. What is in `detail` may change. ---- */

namespace detail {

/* The logarithm to the base 2 of positive numbers, within 3e-6: the exponent, and a polynomial of the rest. */
TRIRAST_INLINE Floats logarithm(const Floats &v) noexcept {
    const Integers bits = bits_of(v);
    const Floats exponent = to_floats((bits >> 23) - 127);
    const Floats t = floats_of_bits((bits & 0x7FFFFF) | 0x3F800000) - 1.0f, square = t * t;
    const Floats low = (0.477496364f * t - 0.721144092f) * t + 1.44269298f;
    const Floats high = (0.02001665f * t - 0.0946268097f) * square + (0.213943212f * t - 0.338377198f);
    return exponent + (high * (square * t) + low) * t;
}

/* 2 to the power of numbers from -126 to 0, within 2e-7 of itself. */
TRIRAST_INLINE Floats power_of_two(const Floats &v) noexcept {
    const Integers whole = floor_to_integers(v);
    const Floats t = v - to_floats(whole), square = t * t;
    const Floats low = (0.240153617f * t + 0.693153073f) * t + 0.99999992f;
    const Floats high = (0.00187757766f * t + 0.00898934013f) * t + 0.0558263180f;
    return (high * (square * t) + low) * floats_of_bits((whole + 127) << 23);
}

/* The linear light of a byte of sRGB, in 1/65535, rounded to the nearest. */
inline std::uint16_t linear_of_srgb(std::uint8_t byte) {
    const double v = byte / 255.0, linear = v <= 0.04045 ? v / 12.92 : std::pow((v + 0.055) / 1.055, 2.4);
    return static_cast<std::uint16_t>(65535 * linear + 0.5);
}

} // namespace detail

/* Encodes linear light as sRGB, 0 to 255 each. What is outside is cut off, and what is no number is 0. */
TRIRAST_INLINE Floats to_srgb(const Floats &linear) noexcept {
    const Floats v = min(max(linear, 0.0f), 255.0f) * (1.0f / 255);
    const Floats root = detail::power_of_two(detail::logarithm(max(v, 0.003f)) * (1 / 2.4f));
    return choose(v <= 0.0031308f, v * (255 * 12.92f), root * (255 * 1.055f) - 255 * 0.055f);
}

/* ---- Levels ---- */

namespace detail {

/* A texel: red, green, blue and alpha, in bytes or in 1/65535. */
using Texel = std::array<std::uint16_t, 4>;

/* A level without what lies beyond its sides, row by row. */
struct LevelTexels {
    std::uint32_t width = 0, height = 0;
    std::vector<Texel> texels;

    const Texel &at(std::uint32_t x, std::uint32_t y) const noexcept { return texels[std::size_t{y} * width + x]; }
};

/* The texels of a side of `count` that texel `index` of the next level covers, and by which share: the next level has
 * half as many, without what stands behind the point, so that three are covered if the count is odd. */
struct Covered {
    std::uint32_t first, count, weights[3], sum;

    Covered(std::uint32_t index, std::uint32_t of) noexcept
        : first(of == 1 ? 0 : 2 * index), count(of == 1 ? 1 : 2 + of % 2), weights{1, 1, 0}, sum(of == 1 ? 1 : 2) {
        if (count == 3) weights[0] = of / 2 - index, weights[1] = of / 2, weights[2] = index + 1, sum = of;
    }
};

/* The mean of what a texel of the next level covers, rounded to the nearest, halves up. */
inline Texel mean_of(const LevelTexels &from, const Covered &across, const Covered &down) noexcept {
    std::uint64_t sums[4] = {};
    for (std::uint32_t y = 0; y < down.count; y++)
        for (std::uint32_t x = 0; x < across.count; x++) {
            const Texel &texel = from.at(across.first + x, down.first + y);
            const std::uint64_t weight = std::uint64_t{across.weights[x]} * down.weights[y];
            for (std::size_t k = 0; k < 4; k++) sums[k] += weight * texel[k];
        }
    const std::uint64_t whole = std::uint64_t{across.sum} * down.sum;
    Texel found;
    for (std::size_t k = 0; k < 4; k++) found[k] = static_cast<std::uint16_t>((2 * sums[k] + whole) / (2 * whole));
    return found;
}

inline LevelTexels next_level(const LevelTexels &from) {
    LevelTexels found;
    found.width = std::max(from.width / 2, 1u), found.height = std::max(from.height / 2, 1u);
    found.texels.reserve(std::size_t{found.width} * found.height);
    for (std::uint32_t y = 0; y < found.height; y++)
        for (std::uint32_t x = 0; x < found.width; x++)
            found.texels.push_back(mean_of(from, Covered(x, from.width), Covered(y, from.height)));
    return found;
}

/* How texels of a kind are kept: in words of 32 bits, the red one lowest. */
struct Bytes {
    static constexpr std::size_t words = 1;
    static constexpr int bits = 8;
    static constexpr float scale = 1;
    static Texel texel(const std::uint8_t *from) noexcept { return {from[0], from[1], from[2], from[3]}; }
};
struct LinearLight {
    static constexpr std::size_t words = 2;
    static constexpr int bits = 16;
    static constexpr float scale = 1.0f / 257;
    static Texel texel(const std::uint8_t *from) {
        static const std::vector<std::uint16_t> decoded = [] {
            std::vector<std::uint16_t> table(256);
            for (std::size_t k = 0; k < 256; k++) table[k] = linear_of_srgb(static_cast<std::uint8_t>(k));
            return table;
        }();
        return {decoded[from[0]], decoded[from[1]], decoded[from[2]], static_cast<std::uint16_t>(257 * from[3])};
    }
};

} // namespace detail

/* ---- Textures ---- */

/* A texture whose texels are kept as Kind says: use RgbaTexture or SrgbTexture. Threads may sample one that none of
 * them changes. */
template <class Kind>
class Texture {
public:
    /* `bytes` are red, green, blue and alpha of each texel, row by row from the top. Throws std::invalid_argument if a
     * side has no texels or more than most_texels_a_side, or if there are not 4 * width * height bytes, and
     * std::bad_alloc. */
    Texture(std::uint32_t width, std::uint32_t height, Span<const std::uint8_t> bytes, const Sampler &sampler = {})
        : sampler_(sampler) {
        check(width, height, bytes.size());
        detail::LevelTexels largest;
        largest.width = width, largest.height = height, largest.texels.resize(std::size_t{width} * height);
        for (std::size_t k = 0; k < largest.texels.size(); k++) largest.texels[k] = Kind::texel(&bytes[4 * k]);
        add(largest);
    }

    /* Makes the smaller levels, down to one texel: each has half the width and height of the one before, without what
     * stands behind the point. A texel is the mean of the area that it covers there, rounded to the nearest byte, or
     * 1/65535 of linear light. Colours and alpha are averaged by themselves, so colours should be those that are to be
     * seen at the border of what is transparent. Without these levels Filter::trilinear is bilinear. Throws
     * std::bad_alloc. */
    void make_mip_maps() {
        for (detail::LevelTexels level = read(levels() - 1); level.width > 1 || level.height > 1; add(level))
            level = detail::next_level(level);
    }

    /* How many levels there are, and the sides of one. */
    std::uint32_t levels() const noexcept { return static_cast<std::uint32_t>(top_ + 1); }
    std::uint32_t width(std::uint32_t level = 0) const noexcept { return levels_[level][2]; }
    std::uint32_t height(std::uint32_t level = 0) const noexcept { return levels_[level][3]; }

    /* A texel of a level as it is kept: red, green, blue and alpha, in bytes, or in 1/65535 of linear light. */
    std::array<std::uint16_t, 4> texel(std::uint32_t level, std::uint32_t x, std::uint32_t y) const noexcept {
        const std::uint32_t *from = &words_[Kind::words * place(level, x / width_of_strip, x % width_of_strip, y)];
        detail::Texel found;
        for (std::size_t k = 0; k < 4; k++)
            found[k] = static_cast<std::uint16_t>(from[k / channels] >> shift(k) & mask);
        return found;
    }

    /* The values at u and v. */
    TRIRAST_INLINE Texels sample(const Floats &u, const Floats &v, const TextureSteps &steps) const noexcept {
        if (sampler_.filter == Filter::nearest) return nearest(u, v);
        const Floats x = within(sampler_.across, u), y = within(sampler_.down, v);
        const float width = static_cast<float>(levels_[0][2]), height = static_cast<float>(levels_[0][3]);
        const Floats right = squared(steps.right_u * width, steps.right_v * height),
                     down = squared(steps.down_u * width, steps.down_v * height);
        /* Of the distance to the next pixel, in texels of the largest level. One that is no number is 1. */
        const Floats square = min(max(max(right, down), 1.0f), greatest_square());
        if (sampler_.filter == Filter::bilinear || !any(square > 1.0f)) return all(square_at(same_level(0), x, y));
        /* Half of the exponent: the logarithm is not waited for. */
        const Integers level = ((bits_of(square) + (1 << 23)) >> 24) - 64;
        const Floats share = min(max(0.5f * detail::logarithm(square) - to_floats(level), 0.0f), 1.0f);
        const Texels near = all(square_at(lanes_of(level), x, y)),
                     far = all(square_at(lanes_of(level - (level < top_)), x, y));
        return {between(near.red, far.red, share), between(near.green, far.green, share),
                between(near.blue, far.blue, share), between(near.alpha, far.alpha, share)};
    }

    /* The same of fragments, by u and v at the corners of their triangles: `corner[k]` of Attributes. */
    TRIRAST_INLINE Texels sample(const Fragments &at, const Floats *u, const Floats *v) const noexcept {
        return sample(at.value(u), at.value(v),
                      {at.to_right(u), at.to_right(v), at.to_below(u), at.to_below(v)});
    }

private:
    /* Texels of a level are in strips of 32 columns, so that those above each other are near in memory too. Each strip
     * repeats the column on its right, and each level has one more row below, so that the four texels round a point are
     * always adjacent. After the last column and row is what a point there is joined with. */
    static constexpr int strip_bits = 5;
    static constexpr std::uint32_t width_of_strip = 1 << strip_bits, row = width_of_strip + 1;
    static constexpr std::size_t channels = 4 / Kind::words; /* in a word */
    static constexpr std::uint32_t mask = (1u << Kind::bits) - 1;

    static constexpr int shift(std::size_t channel) noexcept {
        return Kind::bits * static_cast<int>(channel % channels);
    }

    static void check(std::uint32_t width, std::uint32_t height, std::size_t bytes) {
        const std::string given = std::to_string(width) + " by " + std::to_string(height);
        if (width == 0 || height == 0 || width > most_texels_a_side || height > most_texels_a_side)
            detail::raise(std::invalid_argument("texture: expected 1 to " + std::to_string(most_texels_a_side) +
                                                " texels a side, got " + given));
        if (bytes != 4 * std::size_t{width} * height)
            detail::raise(std::invalid_argument("bytes: expected 4 for each of " + given + " texels, got " +
                                                std::to_string(bytes)));
    }

    std::size_t place(std::uint32_t level, std::uint32_t strip, std::uint32_t column, std::uint32_t y) const noexcept {
        return levels_[level][0] + std::size_t{strip} * levels_[level][1] + std::size_t{y} * row + column;
    }

    /* Which texel stands at a place of a side, of which the last place is behind it. */
    static std::uint32_t standing(Wrap wrap, std::uint32_t at, std::uint32_t count) noexcept {
        return at < count ? at : wrap == Wrap::repeat ? 0 : count - 1;
    }

    detail::LevelTexels read(std::uint32_t level) const {
        detail::LevelTexels found;
        found.width = width(level), found.height = height(level);
        for (std::uint32_t y = 0; y < found.height; y++)
            for (std::uint32_t x = 0; x < found.width; x++) found.texels.push_back(texel(level, x, y));
        return found;
    }

    /* Adds a level below the last one. */
    void add(const detail::LevelTexels &from) {
        const std::uint32_t strips = (from.width + width_of_strip - 1) / width_of_strip;
        const std::uint32_t rows = from.height + 1, level = levels();
        const std::size_t first = level == 0 ? 0 : words_.size() / Kind::words - spare;
        words_.resize((first + std::size_t{strips} * rows * row + spare) * Kind::words);
        levels_[level] = {static_cast<std::uint32_t>(first), rows * row, from.width, from.height}, top_++;
        for (std::uint32_t strip = 0; strip < strips; strip++)
            for (std::uint32_t y = 0; y < rows; y++)
                for (std::uint32_t c = 0, x = strip * width_of_strip; c < row && x <= from.width; c++, x++)
                    keep(from.at(standing(sampler_.across, x, from.width), standing(sampler_.down, y, from.height)),
                         &words_[Kind::words * place(level, strip, c, y)]);
    }

    static void keep(const detail::Texel &texel, std::uint32_t *to) noexcept {
        for (std::size_t k = 0; k < Kind::words; k++) to[k] = 0;
        for (std::size_t k = 0; k < 4; k++) to[k / channels] |= std::uint32_t{texel[k]} << shift(k);
    }

    static TRIRAST_INLINE Floats between(const Floats &a, const Floats &b, const Floats &share) noexcept {
        return a + share * (b - a);
    }
    static TRIRAST_INLINE Floats squared(const Floats &u, const Floats &v) noexcept { return u * u + v * v; }

    /* That of the last level, of which the side is 1. */
    float greatest_square() const noexcept { return static_cast<float>(std::uint64_t{1} << 2 * top_); }

    /* Where places lie in the texture, from 0 to 1. */
    static TRIRAST_INLINE Floats within(Wrap wrap, const Floats &given) noexcept {
        if (wrap == Wrap::clamp) return min(max(given, 0.0f), 1.0f);
        const Floats v = min(max(given, -4194304.0f), 4194304.0f);
        if (wrap == Wrap::repeat) return v - floor(v);
        const Floats turn = v - 2.0f * floor(0.5f * v);
        return min(turn, 2.0f - turn);
    }

    /* Where levels stand, and their sides. */
    struct LevelLanes {
        Integers first, strip, width, height;
    };
    TRIRAST_INLINE LevelLanes same_level(std::size_t level) const noexcept {
        const auto number = [&](std::size_t k) { return Integers(static_cast<std::int32_t>(levels_[level][k])); };
        return {number(0), number(1), number(2), number(3)};
    }
    TRIRAST_INLINE LevelLanes lanes_of(const Integers &level) const noexcept {
        if (are_alike(level)) return same_level(static_cast<std::uint32_t>(level[0]));
        Integers found[4];
        take_four(levels_[0].data(), 4, level, 0, found);
        return {found[0], found[1], found[2], found[3]};
    }

    static TRIRAST_INLINE Integers texel_at(const LevelLanes &level, const Integers &x, const Integers &y) noexcept {
        const std::int32_t in_strip = width_of_strip - 1;
        return level.first + (x >> strip_bits) * level.strip + (y << strip_bits) + y + (x & in_strip);
    }

    /* Returns the first of the two texels between whose centres a place on a side lies, and sets its distance from
     * there. The other one is the next. */
    static TRIRAST_INLINE Integers between_texels(Wrap wrap, const Floats &at, const Integers &count,
                                                  Floats &share) noexcept {
        const Floats length = to_floats(count), middle = at * length - 0.5f;
        if (wrap == Wrap::repeat) {
            const Integers left = floor_to_integers(middle);
            share = middle - to_floats(left);
            return left + ((left < 0) & count);
        }
        const Floats inside = min(max(middle, 0.0f), length - 1.0f);
        const Integers left = to_integers(inside);
        share = inside - to_floats(left);
        return left;
    }

    /* The four texels round a point, in words, and where it lies between them. */
    struct Square {
        Integers upper[4], lower[4];
        Floats x, y;
    };
    TRIRAST_INLINE Square square_at(const LevelLanes &level, const Floats &x, const Floats &y) const noexcept {
        Square found;
        const Integers left = between_texels(sampler_.across, x, level.width, found.x),
                       upper = between_texels(sampler_.down, y, level.height, found.y),
                       texel = texel_at(level, left, upper);
        take_four(words_.data(), Kind::words, texel, 0, found.upper);
        take_four(words_.data() + Kind::words * row, Kind::words, texel, 0, found.lower);
        return found;
    }

    static TRIRAST_INLINE Floats value(const Integers &word, std::size_t channel) noexcept {
        return to_floats((word >> shift(channel)) & static_cast<std::int32_t>(mask));
    }

    template <std::size_t channel>
    static TRIRAST_INLINE Floats joined(const Square &of) noexcept {
        constexpr std::size_t left = channel / channels, right = left + Kind::words;
        const Floats first = between(value(of.upper[left], channel), value(of.lower[left], channel), of.y),
                     last = between(value(of.upper[right], channel), value(of.lower[right], channel), of.y);
        return between(first, last, of.x) * Kind::scale;
    }
    static TRIRAST_INLINE Texels all(const Square &of) noexcept {
        return {joined<0>(of), joined<1>(of), joined<2>(of), joined<3>(of)};
    }

    TRIRAST_INLINE Texels nearest(const Floats &u, const Floats &v) const noexcept {
        const LevelLanes level = same_level(0);
        const auto texel_of = [](Wrap wrap, const Floats &at, const Integers &count) {
            const Floats length = to_floats(count);
            return to_integers(min(within(wrap, at) * length, length - 1.0f));
        };
        Integers words[4];
        take_four(words_.data(), Kind::words,
                  texel_at(level, texel_of(sampler_.across, u, level.width), texel_of(sampler_.down, v, level.height)),
                  0, words);
        const auto of = [&](std::size_t k) { return value(words[k / channels], k) * Kind::scale; };
        return {of(0), of(1), of(2), of(3)};
    }

    static constexpr std::size_t spare = 4, most_levels = 15; /* four words are read where fewer are used */

    Sampler sampler_;
    std::int32_t top_ = -1; /* the number of the smallest level */
    std::array<std::array<std::uint32_t, 4>, most_levels> levels_{}; /* first texel, texels of a strip, width, height */
    std::vector<std::uint32_t> words_;
};

using RgbaTexture = Texture<detail::Bytes>;
using SrgbTexture = Texture<detail::LinearLight>;

} // namespace trirast

#endif
