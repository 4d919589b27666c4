// Tests of trirast_texture.hpp against textures by their definition (reference.hpp).
//
//     main [--steps 4099]         1 of so many floats are encoded as sRGB
//     main --bytes                what textures give, to compare compilers
//
// A line FAILED says what is wrong; then the exit status is 1.
#include <algorithm>
#include <cmath>
#include <cstdio>
#include <cstdlib>
#include <cstring>
#include <limits>
#include <stdexcept>
#include <string>
#include <vector>

#include "numbers.hpp"
#include "reference.hpp"

namespace {

using trirast::Filter;
using trirast::Floats;
using trirast::Wrap;

bool has_failed = false;

void must(bool holds, const char *what) {
    if (holds || has_failed) return;
    std::printf("FAILED %s\n", what);
    has_failed = true;
}

constexpr std::uint32_t SIZES[][2] = {{1, 1},   {2, 2},    {3, 5},   {7, 1},   {33, 31},
                                      {64, 64}, {100, 37}, {1, 130}, {257, 65}};
constexpr Wrap WRAPS[] = {Wrap::repeat, Wrap::clamp, Wrap::mirror};

std::vector<std::uint8_t> bytes_of(scene::Numbers &numbers, std::uint32_t width, std::uint32_t height) {
    std::vector<std::uint8_t> found(4 * std::size_t{width} * height);
    for (std::uint8_t &each : found) each = static_cast<std::uint8_t>(numbers.next());
    return found;
}

// Eight points: u, v and the steps.
struct Eight {
    float of[6][8];
    trirast::Texels sampled(const trirast::RgbaTexture &by) const { return sampled_by(by); }
    trirast::Texels sampled(const trirast::SrgbTexture &by) const { return sampled_by(by); }

private:
    template <class Texture>
    TRIRAST_NOINLINE trirast::Texels sampled_by(const Texture &by) const { // so that it is compiled once
        const auto floats = [&](int k) { return Floats::load(of[k]); };
        return by.sample(floats(0), floats(1), {floats(2), floats(3), floats(4), floats(5)});
    }
};

float place(scene::Numbers &numbers, std::uint32_t count) {
    switch (numbers.below(8)) {
    case 0: // sides and centres of texels
        return static_cast<float>(numbers.below(6 * count)) / static_cast<float>(2 * count) - 1.0f;
    case 1: return static_cast<float>(numbers.within(-2e6, 2e6));
    case 2: return static_cast<float>(numbers.within(-1e-7, 1e-7));
    case 3: return 1.0f - static_cast<float>(numbers.within(-1e-7, 1e-7));
    default: return static_cast<float>(numbers.within(-3, 3));
    }
}

Eight points(scene::Numbers &numbers, std::uint32_t width, std::uint32_t height) {
    Eight found;
    for (std::size_t lane = 0; lane < 8; lane++) {
        found.of[0][lane] = place(numbers, width), found.of[1][lane] = place(numbers, height);
        const double size = std::exp2(numbers.within(-12, 3));
        for (std::size_t k = 2; k < 6; k++) found.of[k][lane] = static_cast<float>(size * numbers.within(-1, 1));
    }
    return found;
}

// The values of eight points: red, green, blue and alpha.
struct Found {
    explicit Found(const trirast::Texels &texels) {
        texels.red.store(of[0]), texels.green.store(of[1]), texels.blue.store(of[2]), texels.alpha.store(of[3]);
    }
    float of[4][8];
};

// Whether a value is that of a texel within `far` texels of a place in a level, in each direction.
bool is_near(const reference::Sampled &by, const Found &found, std::size_t lane, float u, float v) {
    const reference::Level &level = by.levels[0];
    const auto first = [](float at, std::int64_t count, int sign) {
        const long double n = static_cast<long double>(count);
        return static_cast<std::int64_t>(std::floor(at * n + static_cast<long double>(sign) * n / (1 << 22)));
    };
    for (std::int64_t y = first(v, level.height, -1); y <= first(v, level.height, 1); y++)
        for (std::int64_t x = first(u, level.width, -1); x <= first(u, level.width, 1); x++) {
            bool is_it = true;
            for (std::size_t k = 0; k < 4; k++) {
                const long double value = by.scale * static_cast<long double>(by.texel(level, x, y)[k]);
                is_it &= std::abs(found.of[k][lane] - value) < 1e-4L;
            }
            if (is_it) return true;
        }
    return false;
}

template <class Texture>
void check_points(const Texture &texture, const reference::Sampled &by, long double steepest, const Eight &at) {
    const Found found(at.sampled(texture));
    const long double width = texture.width(), height = texture.height();
    const long double bound = steepest * (width + height) / (1 << 22) + 255.0L / (1 << 21) +
                              (by.sampler.filter == Filter::trilinear ? 255.0L / (1 << 18) : 0);
    for (std::size_t lane = 0; lane < 8; lane++) {
        const float u = at.of[0][lane], v = at.of[1][lane];
        if (by.sampler.filter == Filter::nearest) {
            must(is_near(by, found, lane, u, v), "nearest: another texel");
            continue;
        }
        const auto squared = [&](std::size_t k) {
            const long double x = width * at.of[k][lane], y = height * at.of[k + 1][lane];
            return x * x + y * y;
        };
        const reference::Values wanted = by.sampler.filter == Filter::bilinear
                                             ? by.bilinear(by.levels[0], u, v)
                                             : by.trilinear(u, v, std::max(squared(2), squared(4)));
        for (std::size_t k = 0; k < 4; k++)
            must(std::abs(found.of[k][lane] - wanted[k]) < bound,
                 by.sampler.filter == Filter::bilinear ? "bilinear: beyond the bound" : "trilinear: beyond the bound");
    }
}

template <class Texture>
void check_levels(const Texture &texture, const std::vector<reference::Level> &wanted) {
    must(texture.levels() == wanted.size(), "levels: another number");
    for (std::uint32_t k = 0; k < texture.levels() && k < wanted.size(); k++) {
        must(texture.width(k) == wanted[k].width && texture.height(k) == wanted[k].height, "levels: another size");
        for (std::uint32_t y = 0; y < texture.height(k); y++)
            for (std::uint32_t x = 0; x < texture.width(k); x++)
                for (std::size_t c = 0; c < 4; c++)
                    must(texture.texel(k, x, y)[c] == wanted[k].at(x, y)[c], "levels: another mean");
    }
}

template <class Texture>
void check_texture(scene::Numbers &numbers, std::uint32_t width, std::uint32_t height, const trirast::Sampler &sampler,
                   bool is_srgb) {
    const std::vector<std::uint8_t> bytes = bytes_of(numbers, width, height);
    Texture texture(width, height, bytes, sampler);
    reference::Sampled by{{reference::largest(width, height, bytes, is_srgb)}, sampler, is_srgb ? 1 / 257.0L : 1.0L};
    if (numbers.below(4) > 0) {
        texture.make_mip_maps(), texture.make_mip_maps();
        while (by.levels.back().texels.size() > 1) by.levels.push_back(reference::next(by.levels.back()));
    }
    check_levels(texture, by.levels);
    const long double steepest = by.steepest();
    for (int k = 0; k < 60; k++) check_points(texture, by, steepest, points(numbers, width, height));
}

// Numbers that are none, or far away: some texel, and none beyond the texture.
void check_far_points(const trirast::Sampler &sampler) {
    const std::vector<std::uint8_t> bytes(4 * 5 * 3, 77);
    trirast::SrgbTexture texture(5, 3, bytes, sampler);
    texture.make_mip_maps();
    const float infinite = std::numeric_limits<float>::infinity(), none = std::numeric_limits<float>::quiet_NaN();
    const float numbers[] = {infinite, -infinite, none, 1e38f, -1e38f, 4194304.0f, 3e9f, -0.0f};
    for (float u : numbers)
        for (float v : numbers)
            for (float step : numbers) {
                Eight at;
                for (std::size_t lane = 0; lane < 8; lane++)
                    for (std::size_t k = 0; k < 6; k++) at.of[k][lane] = k == 0 ? u : k == 1 ? v : lane ? step : 0.1f;
                const Found found(at.sampled(texture));
                const float wanted = static_cast<float>(reference::linear(77)) / 257.0f;
                for (std::size_t lane = 0; lane < 8; lane++)
                    must(std::abs(found.of[0][lane] - wanted) < 1e-3f, "far points: not a value of the texture");
            }
}

void check_encoding(std::uint32_t steps) {
    const std::uint32_t end = 0x437F0000; // 255
    float eight[8];
    for (std::uint32_t first = 0; first <= end; first += 8 * steps) {
        for (std::uint32_t k = 0; k < 8; k++) {
            const std::uint32_t bits = std::min(first + k * steps, end);
            std::memcpy(&eight[k], &bits, sizeof bits);
        }
        float found[8];
        to_srgb(Floats::load(eight)).store(found);
        for (std::size_t k = 0; k < 8; k++) {
            const double v = eight[k] / 255.0;
            const double wanted = v <= 0.0031308 ? 12.92 * v : 1.055 * std::pow(v, 1 / 2.4) - 0.055;
            must(std::abs(found[k] - 255 * wanted) < 0.0002, "to_srgb: beyond the bound");
        }
    }
    const float others[8] = {-1, 256, 1e38f, -1e38f, std::numeric_limits<float>::quiet_NaN(), 300, -0.0f, 255};
    const float wanted[8] = {0, 255, 255, 0, 0, 255, 0, 255};
    float found[8];
    to_srgb(Floats::load(others)).store(found);
    for (std::size_t k = 0; k < 8; k++) must(std::abs(found[k] - wanted[k]) < 0.001f, "to_srgb: outside");
}

void check_logarithm(std::uint32_t steps) {
    for (std::uint32_t bits = 0x3F800000; bits < 0x40000000; bits += steps) {
        float v;
        std::memcpy(&v, &bits, sizeof v);
        must(std::abs(static_cast<double>(trirast::detail::logarithm(v)[0]) - std::log2(static_cast<double>(v))) < 3e-6,
             "logarithm: beyond the bound");
    }
}

void check_refused() {
    const auto text_of = [](std::uint32_t width, std::uint32_t height, std::size_t count) -> std::string {
        const std::vector<std::uint8_t> bytes(count);
        try {
            const trirast::RgbaTexture texture(width, height, bytes);
        } catch (const std::invalid_argument &error) {
            return error.what();
        }
        return "";
    };
    must(text_of(0, 4, 0) == "texture: expected 1 to 16384 texels a side, got 0 by 4", "refused: no width");
    must(text_of(4, 16385, 0) == "texture: expected 1 to 16384 texels a side, got 4 by 16385", "refused: a large side");
    must(text_of(4, 2, 31) == "bytes: expected 4 for each of 4 by 2 texels, got 31", "refused: too few bytes");
    must(text_of(16384, 1, 65536).empty(), "refused: the largest side");
}

// By fragments, whose weights and differences of weights are given.
void check_fragments(scene::Numbers &numbers) {
    trirast::RgbaTexture texture(40, 20, bytes_of(numbers, 40, 20));
    texture.make_mip_maps();
    const Floats u[3] = {0.25f, 7.0f, -3.0f}, v[3] = {1.0f, 2.0f, 9.0f};
    for (int turn = 0; turn < 20; turn++) {
        trirast::Fragments at;
        for (std::size_t c = 0; c < 3; c++) {
            const auto any = [&] { return Floats(static_cast<float>(numbers.within(0, 0.1))); };
            at.weight[c] = any(), at.right[c] = any(), at.down[c] = any();
        }
        const trirast::TextureSteps steps{at.to_right(u), at.to_right(v), at.to_below(u), at.to_below(v)};
        const Found found(texture.sample(at, u, v)), wanted(texture.sample(at.value(u), at.value(v), steps));
        must(std::memcmp(&found, &wanted, sizeof found) == 0, "fragments: not those of their places and steps");
    }
}

void check_textures(scene::Numbers &numbers) {
    int turn = 0;
    for (const auto &size : SIZES)
        for (Wrap across : WRAPS)
            for (Filter filter : {Filter::nearest, Filter::bilinear, Filter::trilinear}) {
                const trirast::Sampler sampler{across, WRAPS[turn++ / 3 % 3 * 2 % 3], filter};
                check_texture<trirast::RgbaTexture>(numbers, size[0], size[1], sampler, false);
                check_texture<trirast::SrgbTexture>(numbers, size[0], size[1], sampler, true);
                check_far_points(sampler);
            }
}

template <class Texture>
void print(scene::Numbers &numbers, const trirast::Sampler &sampler) {
    Texture texture(100, 37, bytes_of(numbers, 100, 37), sampler);
    texture.make_mip_maps();
    for (int k = 0; k < 60; k++) {
        const Found found(points(numbers, 100, 37).sampled(texture));
        std::fwrite(&found, sizeof found, 1, stdout);
        float encoded[8];
        to_srgb(Floats::load(found.of[0])).store(encoded);
        std::fwrite(encoded, sizeof encoded, 1, stdout);
    }
}

void print_bytes() {
    scene::Numbers numbers(2);
    for (Wrap across : WRAPS)
        for (Filter filter : {Filter::nearest, Filter::bilinear, Filter::trilinear}) {
            print<trirast::RgbaTexture>(numbers, {across, Wrap::mirror, filter});
            print<trirast::SrgbTexture>(numbers, {across, Wrap::repeat, filter});
        }
}

} // namespace

int main(int count, char **words) {
    if (count > 1 && !std::strcmp(words[1], "--bytes")) {
        print_bytes();
        return 0;
    }
    const std::uint32_t steps = count > 2 ? static_cast<std::uint32_t>(std::atoi(words[2])) : 4099;
    scene::Numbers numbers(1);
    check_textures(numbers);
    check_fragments(numbers);
    check_encoding(steps);
    check_logarithm(steps < 100 ? 1 : 97);
    check_refused();
    if (!has_failed) std::printf("all hold\n");
    return has_failed;
}
