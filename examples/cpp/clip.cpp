// Draws a hall of coloured tiles in which the eye stands, and writes the picture to standard output as a PPM file.
// Floor, walls and ceiling go from behind the eye to the far end, so planes cut them; how many triangles these cut
// stands on standard error.
//
//     c++ -std=c++17 -O2 clip.cpp $(pkg-config --cflags --libs trirast) -lm
#include <cmath>
#include <cstdint>
#include <exception>
#include <iostream>
#include <vector>

#include "trirast_clip.hpp"

namespace {

constexpr std::int32_t WIDTH = 720, HEIGHT = 360;
constexpr double NEAR = 0.1, FAR = 60, EYE_X = 0.6, EYE_Y = -0.4, ROLL = 0.2;

struct Color {
    double red, green, blue;
};

struct Mesh {
    std::vector<trirast::ClipPosition> positions;
    std::vector<Color> colors;
    std::vector<std::uint32_t> indices;
};

// The camera looks along z, rolled a little. Depth 0 is at z = NEAR, and depth 65535 at z = FAR.
trirast::ClipPosition seen_from_the_eye(double x, double y, double z) {
    const double right = x - EYE_X, up = y - EYE_Y, across = std::cos(ROLL) * right + std::sin(ROLL) * up;
    const double upright = std::cos(ROLL) * up - std::sin(ROLL) * right;
    return {static_cast<float>(across * HEIGHT / WIDTH), static_cast<float>(upright),
            static_cast<float>((z - NEAR) * FAR / (FAR - NEAR)), static_cast<float>(z)};
}

// A tile with four vertices of its own. Those of its neighbours have equal positions, so there is no crack between
// them.
void add_tile(Mesh &mesh, const double (&corners)[4][3], const Color &color) {
    const std::uint32_t first = static_cast<std::uint32_t>(mesh.positions.size());
    for (const auto &corner : corners) {
        mesh.positions.push_back(seen_from_the_eye(corner[0], corner[1], corner[2]));
        // Darker further away: an attribute that a cut has to interpolate.
        const double light = corner[2] < 0 ? 1 : std::exp(-corner[2] / 25);
        mesh.colors.push_back({light * color.red, light * color.green, light * color.blue});
    }
    for (const std::uint32_t k : {0, 1, 2, 0, 2, 3}) mesh.indices.push_back(first + k);
}

Mesh hall() {
    constexpr Color colors[4][2] = {{{235, 225, 200}, {120, 60, 40}},
                                    {{90, 140, 200}, {60, 100, 160}},
                                    {{230, 230, 240}, {200, 200, 215}},
                                    {{110, 170, 120}, {80, 135, 90}}};
    // Floor, right wall, ceiling and left wall: from the first corner to the second.
    constexpr double sides[4][2][2] = {
        {{-2, -1.5}, {2, -1.5}}, {{2, -1.5}, {2, 1.5}}, {{2, 1.5}, {-2, 1.5}}, {{-2, 1.5}, {-2, -1.5}}};
    constexpr int along = 32, across = 4;
    Mesh mesh;
    for (int side = 0; side < 4; side++)
        for (int i = 0; i < across; i++)
            for (int j = 0; j < along; j++) {
                const auto &[from, to] = sides[side];
                const double share[2] = {static_cast<double>(i) / across, static_cast<double>(i + 1) / across};
                double corners[4][3];
                for (int k = 0; k < 4; k++) {
                    const double at = share[k == 1 || k == 2];
                    corners[k][0] = from[0] + at * (to[0] - from[0]), corners[k][1] = from[1] + at * (to[1] - from[1]);
                    corners[k][2] = 2.0 * (j + (k > 1)) - 5;
                }
                add_tile(mesh, corners, colors[side][(i + j) % 2]);
            }
    return mesh;
}

void set_color(trirast_vertex &vertex, const Color &color) {
    const auto channel = [](double value) { return static_cast<std::uint8_t>(std::lround(value)); };
    vertex.red = channel(color.red), vertex.green = channel(color.green), vertex.blue = channel(color.blue),
    vertex.alpha = 255;
}

void draw() {
    const Mesh mesh = hall();
    trirast::Clip clip{};
    clip.width = WIDTH, clip.height = HEIGHT;
    trirast::Clipped seen;
    trirast::clip_triangles(clip, mesh.positions, mesh.indices, seen);
    for (std::size_t k = 0; k < mesh.colors.size(); k++) set_color(seen.vertices[k], mesh.colors[k]);
    for (std::size_t k = 0; k < seen.cuts.size(); k++) {
        const trirast::Cut &cut = seen.cuts[k];
        Color sum{0, 0, 0};
        for (std::size_t c = 0; c < 3; c++) {
            const Color &color = mesh.colors[mesh.indices[3 * cut.triangle + c]];
            sum.red += cut.weights[c] * color.red, sum.green += cut.weights[c] * color.green,
                sum.blue += cut.weights[c] * color.blue;
        }
        set_color(seen.vertices[seen.first_cut + k], sum);
    }
    trirast::Canvas canvas({WIDTH, HEIGHT, 16});
    canvas.clear({8, 8, 12});
    trirast::State state;
    state.depth_test = TRIRAST_DEPTH_LESS, state.depth_write = true;
    canvas.draw(seen.vertices, seen.indices, state);
    const std::vector<std::uint8_t> pixels = canvas.pixels();
    std::cerr << mesh.indices.size() / 3 << " triangles, " << seen.sources.size() << " on the screen, "
              << seen.cuts.size() << " cuts\n";
    std::cout << "P6\n" << WIDTH << ' ' << HEIGHT << "\n255\n";
    std::cout.write(reinterpret_cast<const char *>(pixels.data()), static_cast<std::streamsize>(pixels.size()));
}

} // namespace

int main() {
    try {
        draw();
        return std::cout.flush() ? 0 : 1;
    } catch (const std::exception &error) {
        std::cerr << error.what() << '\n';
        return 1;
    }
}
