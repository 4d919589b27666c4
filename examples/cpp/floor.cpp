// A floor that goes past the eye, clipped and drawn in C++: writes the pixels of 320 by 180, three bytes each.
#include <cmath>
#include <cstdio>
#include <trirast_clip.hpp>

int main() {
    // A floor from 5 units behind the eye to 40 before it. The near plane is at w = 0.1, where z is 0.
    const trirast::ClipPosition positions[] = {
        {-20, -2, -5.1f, -5}, {20, -2, -5.1f, -5}, {20, -2, 39.9f, 40}, {-20, -2, 39.9f, 40}};
    const double green[] = {0, 80, 240, 160};
    const std::uint32_t indices[] = {0, 1, 2, 0, 2, 3};
    trirast::Clip clip{};
    clip.width = 320, clip.height = 180;
    trirast::Clipped seen;
    trirast::clip_triangles(clip, positions, indices, seen);
    for (std::size_t k = 0; k < seen.vertices.size(); k++) {
        double value = k < seen.first_cut ? green[k] : 0;
        for (std::size_t c = 0; k >= seen.first_cut && c < 3; c++) {
            const trirast::Cut &cut = seen.cuts[k - seen.first_cut];
            value += cut.weights[c] * green[indices[3 * cut.triangle + c]];
        }
        seen.vertices[k].red = seen.vertices[k].alpha = 255;
        seen.vertices[k].green = static_cast<std::uint8_t>(std::rint(value));
    }
    trirast::Canvas canvas({320, 180, 4});
    canvas.clear({24, 24, 32});
    canvas.draw(seen.vertices, seen.indices);
    const std::vector<std::uint8_t> pixels = canvas.pixels(TRIRAST_FORMAT_RGB8);
    std::fwrite(pixels.data(), 1, pixels.size(), stdout);
}
