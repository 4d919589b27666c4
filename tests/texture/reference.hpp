// Textures by their definition, in integers and long doubles. Nothing of trirast_texture.hpp is used but its kinds of
// wraps and filters.
#ifndef TEXTURE_REFERENCE_HPP
#define TEXTURE_REFERENCE_HPP

#include <algorithm>
#include <array>
#include <cmath>
#include <cstddef>
#include <cstdint>
#include <vector>

#include "trirast_texture.hpp"

namespace reference {

using Texel = std::array<std::int64_t, 4>;

struct Level {
    std::int64_t width, height;
    std::vector<Texel> texels;
    const Texel &at(std::int64_t x, std::int64_t y) const {
        return texels[static_cast<std::size_t>(y * width + x)];
    }
};

inline std::int64_t linear(std::uint8_t byte) {
    const long double v = byte / 255.0L;
    return std::llround(65535 * (v <= 0.04045L ? v / 12.92L : std::pow((v + 0.055L) / 1.055L, 2.4L)));
}

inline Level largest(std::uint32_t width, std::uint32_t height, const std::vector<std::uint8_t> &bytes, bool is_srgb) {
    Level found{width, height, {}};
    for (std::size_t k = 0; k < bytes.size(); k += 4) {
        Texel texel{bytes[k], bytes[k + 1], bytes[k + 2], bytes[k + 3]};
        if (is_srgb) texel = {linear(bytes[k]), linear(bytes[k + 1]), linear(bytes[k + 2]), 257 * texel[3]};
        found.texels.push_back(texel);
    }
    return found;
}

// The length that two intervals share.
inline std::int64_t shared(std::int64_t a, std::int64_t a_end, std::int64_t b, std::int64_t b_end) {
    return std::max<std::int64_t>(0, std::min(a_end, b_end) - std::max(a, b));
}

// Each texel of the next level is the mean of its area. A side of n texels has m in the next level: where both have the
// length n m, a texel has m here and n there.
inline Level next(const Level &from) {
    Level found{std::max<std::int64_t>(1, from.width / 2), std::max<std::int64_t>(1, from.height / 2), {}};
    const std::int64_t n = from.width, m = found.width, p = from.height, q = found.height;
    for (std::int64_t y = 0; y < q; y++)
        for (std::int64_t x = 0; x < m; x++) {
            Texel sum{};
            for (std::int64_t j = y * p / q; j < p && j * q < (y + 1) * p; j++)
                for (std::int64_t i = x * n / m; i < n && i * m < (x + 1) * n; i++) {
                    const std::int64_t area = shared(x * n, (x + 1) * n, i * m, (i + 1) * m) *
                                              shared(y * p, (y + 1) * p, j * q, (j + 1) * q);
                    for (std::size_t k = 0; k < 4; k++) sum[k] += area * from.at(i, j)[k];
                }
            for (std::int64_t &each : sum) each = (2 * each + n * p) / (2 * n * p);
            found.texels.push_back(sum);
        }
    return found;
}

// Which texel of a side of `count` is seen at an index beyond it.
inline std::int64_t wrapped(trirast::Wrap wrap, std::int64_t index, std::int64_t count) {
    const auto modulo = [](std::int64_t a, std::int64_t b) { return (a % b + b) % b; };
    if (wrap == trirast::Wrap::clamp) return std::clamp<std::int64_t>(index, 0, count - 1);
    if (wrap == trirast::Wrap::repeat) return modulo(index, count);
    const std::int64_t turn = modulo(index, 2 * count);
    return turn < count ? turn : 2 * count - 1 - turn;
}

using Values = std::array<long double, 4>;

struct Sampled {
    std::vector<Level> levels;
    trirast::Sampler sampler;
    long double scale; // of a value to 0 to 255

    const Texel &texel(const Level &level, std::int64_t x, std::int64_t y) const {
        return level.at(wrapped(sampler.across, x, level.width), wrapped(sampler.down, y, level.height));
    }

    Values bilinear(const Level &level, long double u, long double v) const {
        const long double x = u * level.width - 0.5L, y = v * level.height - 0.5L;
        const std::int64_t left = static_cast<std::int64_t>(std::floor(x)),
                           upper = static_cast<std::int64_t>(std::floor(y));
        Values found{};
        for (std::int64_t j = 0; j < 2; j++)
            for (std::int64_t i = 0; i < 2; i++) {
                const long double across = std::abs(1 - i - (x - left)), down = std::abs(1 - j - (y - upper));
                for (std::size_t k = 0; k < 4; k++)
                    found[k] += across * down * scale * texel(level, left + i, upper + j)[k];
            }
        return found;
    }

    // `square` is that of the distance to the next pixel, in texels of the largest level.
    Values trilinear(long double u, long double v, long double square) const {
        const long double top = static_cast<long double>(levels.size() - 1);
        const long double at = std::clamp(0.5L * std::log2(std::max(square, 1.0L)), 0.0L, top), near = std::floor(at);
        const Values a = bilinear(levels[static_cast<std::size_t>(near)], u, v),
                     b = bilinear(levels[static_cast<std::size_t>(std::min(near + 1, top))], u, v);
        Values found;
        for (std::size_t k = 0; k < 4; k++) found[k] = a[k] + (at - near) * (b[k] - a[k]);
        return found;
    }

    // The greatest difference of adjacent texels in any level, of 255.
    long double steepest() const {
        std::int64_t most = 0;
        for (const Level &level : levels)
            for (std::int64_t y = 0; y < level.height; y++)
                for (std::int64_t x = 0; x < level.width; x++)
                    for (std::size_t k = 0; k < 4; k++) {
                        const std::int64_t here = level.at(x, y)[k];
                        most = std::max({most, std::abs(here - texel(level, x + 1, y)[k]),
                                         std::abs(here - texel(level, x, y + 1)[k])});
                    }
        return scale * most;
    }
};

} // namespace reference

#endif
