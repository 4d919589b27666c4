// A plain rasterizer of the same rules, on one thread, to compare trirast's speed and bytes with.
//
// For each triangle it steps the three edge functions over the pixels of the bounding box by additions, and shades each
// covered sample, so that long slivers cost it much. It keeps the whole picture with all its samples.
// bench/draw_list.hpp reads the list, and trusts it. Nothing of it is proved.
//
//     g++ -O2 -std=c++17 -o bench/out/plain bench/plain.cpp
//     bench/out/plain < list.json > picture.ppm

#include <algorithm>
#include <cstdint>
#include <cstdio>
#include <vector>

#include "draw_list.hpp"

namespace {

// ---- Drawing
// ---------------------------------------------------------------------------------------------------------

int64_t side(const Vertex& a, const Vertex& b, int64_t x, int64_t y) {
    return (int64_t{b.x} - a.x) * (y - a.y) - (int64_t{b.y} - a.y) * (x - a.x);
}

// An edge, turned so that the inside is over zero. `bias` makes a value of zero count only on a top or a left edge.
struct Edge {
    int64_t first, right, down, bias;

    Edge(const Vertex& a, const Vertex& b, int64_t x, int64_t y, bool turn) {
        const Vertex& from = turn ? b : a;
        const Vertex& to = turn ? a : b;
        int64_t dx = int64_t{to.x} - from.x, dy = int64_t{to.y} - from.y;
        first = side(from, to, x, y);
        right = -dy;
        down = dx;
        bool top = dy == 0 && dx > 0;
        bool left = dy < 0;
        bias = top || left ? 0 : 1;
    }

    int64_t offset(const int* sample) const { return right * sample[0] + down * sample[1]; }
};

constexpr int one_sample[1][2] = {{128, 128}};
constexpr int four_samples[4][2] = {{96, 32}, {224, 96}, {32, 160}, {160, 224}};

bool passes(Test test, uint16_t now, uint16_t old) {
    switch (test) {
    case Test::Never: return false;
    case Test::Less: return now < old;
    case Test::Equal: return now == old;
    case Test::LessEqual: return now <= old;
    case Test::Greater: return now > old;
    case Test::NotEqual: return now != old;
    case Test::GreaterEqual: return now >= old;
    case Test::Always: return true;
    }
    return false;
}

// The value of what the vertices have, at a point of these weights. The sum stays under 2^64 at a covered point.
struct Values {
    uint32_t v[3];

    uint32_t at(const uint64_t* weight, uint64_t size) const {
        if (v[0] == v[1] && v[1] == v[2]) return v[0];
        return static_cast<uint32_t>((v[0] * weight[0] + v[1] * weight[1] + v[2] * weight[2]) / size);
    }
};

void merge(const State& state, const Values* values, const uint64_t* weight, uint64_t size, Sample& sample) {
    uint16_t depth = static_cast<uint16_t>(values[4].at(weight, size));
    if (!passes(state.test, depth, sample.z)) return;
    uint32_t alpha = state.over ? values[3].at(weight, size) : 255;
    for (int c = 0; c < 3; ++c) {
        if (!state.write[c]) continue;
        uint32_t source = values[c].at(weight, size);
        if (state.over) source = (source * alpha + sample.c[c] * (255 - alpha) + 127) / 255;
        sample.c[c] = static_cast<uint8_t>(source);
    }
    if (state.depth_write) sample.z = depth;
}

void draw_triangle(const Scene& scene, const State& state, const Vertex& a, const Vertex& b, const Vertex& c,
                   std::vector<Sample>& samples) {
    int64_t area = side(a, b, c.x, c.y);
    if (area == 0 || (state.cull == Cull::Front && area > 0) || (state.cull == Cull::Back && area < 0)) return;
    int x0 = std::max({0, state.scissor[0], std::min({a.x, b.x, c.x}) >> 8});
    int y0 = std::max({0, state.scissor[1], std::min({a.y, b.y, c.y}) >> 8});
    int x1 = std::min({scene.width, state.scissor[2], (std::max({a.x, b.x, c.x}) >> 8) + 1});
    int y1 = std::min({scene.height, state.scissor[3], (std::max({a.y, b.y, c.y}) >> 8) + 1});
    if (x0 >= x1 || y0 >= y1) return;

    bool turn = area < 0;
    uint64_t size = static_cast<uint64_t>(turn ? -area : area);
    const Edge edges[3] = {{b, c, int64_t{x0} * 256, int64_t{y0} * 256, turn},
                           {c, a, int64_t{x0} * 256, int64_t{y0} * 256, turn},
                           {a, b, int64_t{x0} * 256, int64_t{y0} * 256, turn}};
    Values values[5];
    for (int k = 0; k < 4; ++k) values[k] = {{a.rgba[k], b.rgba[k], c.rgba[k]}};
    values[4] = {{a.z, b.z, c.z}};

    const int(*offsets)[2] = scene.samples == 1 ? one_sample : four_samples;
    int64_t offset[4][3];
    for (int s = 0; s < scene.samples; ++s)
        for (int e = 0; e < 3; ++e) offset[s][e] = edges[e].offset(offsets[s]);

    int64_t row[3] = {edges[0].first, edges[1].first, edges[2].first};
    for (int j = y0; j < y1; ++j) {
        int64_t at[3] = {row[0], row[1], row[2]};
        Sample* pixel = &samples[(static_cast<size_t>(j) * scene.width + x0) * scene.samples];
        for (int i = x0; i < x1; ++i) {
            for (int s = 0; s < scene.samples; ++s) {
                if (!(state.mask >> s & 1)) continue;
                const int64_t v[3] = {at[0] + offset[s][0], at[1] + offset[s][1], at[2] + offset[s][2]};
                if (((v[0] - edges[0].bias) | (v[1] - edges[1].bias) | (v[2] - edges[2].bias)) < 0) continue;
                uint64_t weight[3];
                for (int e = 0; e < 3; ++e) weight[e] = static_cast<uint64_t>(v[e]);
                merge(state, values, weight, size, pixel[s]);
            }
            for (int e = 0; e < 3; ++e) at[e] += edges[e].right * 256;
            pixel += scene.samples;
        }
        for (int e = 0; e < 3; ++e) row[e] += edges[e].down * 256;
    }
}

void write_picture(const Scene& scene, const std::vector<Sample>& samples) {
    std::printf("P6\n%d %d\n255\n", scene.width, scene.height);
    std::vector<uint8_t> row(static_cast<size_t>(scene.width) * 3);
    const Sample* sample = samples.data();
    for (int j = 0; j < scene.height; ++j) {
        for (int i = 0; i < scene.width; ++i, sample += scene.samples)
            for (int c = 0; c < 3; ++c) {
                if (scene.samples == 1) row[i * 3 + c] = sample->c[c];
                else row[i * 3 + c] = static_cast<uint8_t>(
                         (sample[0].c[c] + sample[1].c[c] + sample[2].c[c] + sample[3].c[c] + 2) / 4);
            }
        if (std::fwrite(row.data(), 1, row.size(), stdout) != row.size()) fail("write failed");
    }
}

}  // namespace

int main() {
    Scene scene = read_standard_input();
    std::vector<Sample> samples(static_cast<size_t>(scene.width) * scene.height * scene.samples, scene.clear);
    for (const Draw& draw : scene.draws)
        for (const auto& t : draw.triangles)
            draw_triangle(scene, draw.state, draw.vertices[t[0]], draw.vertices[t[1]], draw.vertices[t[2]], samples);
    write_picture(scene, samples);
    return 0;
}
