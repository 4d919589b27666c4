// Shades scenes that are made here and writes the colours of all samples, so that compilers and processors can be
// compared. The scenes are made without sines, and drawn by reference.hpp; so the library is not linked: its calls for
// tiles are here, over plain arrays.
//
//     filter > bytes
#include <cstdio>
#include <cstring>

#include "frame.hpp"
#include "reference.hpp"
#include "ways.hpp"

namespace {

constexpr std::uint32_t WIDTH = 150, HEIGHT = 100, COLUMNS = 3, ROWS = 2;

// The entries of the tiles of the canvas, tile by tile.
std::vector<std::uint32_t> tiles;

std::size_t entries_of(std::uint32_t samples) { return std::size_t{4096} * samples; }

std::size_t entry_at(std::uint32_t samples, std::size_t x, std::size_t y, std::size_t s) {
    const std::size_t block = y % 64 / 8 * 8 + x % 64 / 8;
    return (y / 64 * COLUMNS + x / 64) * entries_of(samples) + (block * samples + s) * 64 + y % 8 * 8 + x % 8;
}

scene::Scene scene_of(std::uint64_t seed) {
    scene::Numbers numbers(seed);
    scene::Scene given;
    given.texture = scene::texture(numbers, 64);
    given.light = scene::unit({0.4, 0.8, 0.4});
    given.mesh = scene::dust(numbers, 4000, 1.8, 0.3);
    given.matrix =
        scene::looking({0.4, 0.5, 1.2}, {0, 0, 0}, 1.7, 1.5, 0.3, 20); // into the dust, so that planes cut it
    return given;
}

void draw(const trirast::Clipped &mesh, std::uint32_t samples) {
    reference::Picture picture{WIDTH, samples, std::vector<reference::Sample>(std::size_t{WIDTH} * HEIGHT * samples)};
    reference::draw(picture, mesh,
                    [](reference::Sample &sample, std::uint32_t t, std::uint32_t depth, const trirast_vertex &) {
                        sample.id = t, sample.depth = depth;
                    });
    tiles.assign(COLUMNS * ROWS * entries_of(samples), trirast::no_triangle);
    for (std::size_t y = 0; y < HEIGHT; y++)
        for (std::size_t x = 0; x < WIDTH; x++)
            for (std::size_t s = 0; s < samples; s++) tiles[entry_at(samples, x, y, s)] = picture.at(x, y, s).id;
}

void write(std::uint32_t samples) {
    for (std::size_t y = 0; y < HEIGHT; y++)
        for (std::size_t x = 0; x < WIDTH; x++)
            for (std::size_t s = 0; s < samples; s++) std::fwrite(&tiles[entry_at(samples, x, y, s)], 1, 3, stdout);
}

} // namespace

// ---- The library, as far as headers call it

extern "C" {

size_t trirast_canvas_size(const trirast_canvas *) { return 64; }
uint32_t trirast_canvas_tile_rows(const trirast_canvas *) { return ROWS; }
trirast_status trirast_proved_canvas_clear(trirast_canvas *, const trirast_clear *) { return TRIRAST_STATUS_OK; }
size_t trirast_error_message(const trirast_error *, char *, size_t) { return 0; }

trirast_status trirast_canvas_tile_ids(const trirast_canvas *canvas, uint32_t column, uint32_t row, uint32_t *ids,
                                       size_t, uint32_t *uniform) {
    const std::size_t count = entries_of(canvas->samples);
    std::memcpy(ids, &tiles[(row * COLUMNS + column) * count], count * sizeof *ids);
    *uniform = 0;
    return TRIRAST_STATUS_OK;
}

trirast_status trirast_canvas_tile_store(trirast_canvas *canvas, uint32_t column, uint32_t row, const uint32_t *colors,
                                         size_t count) {
    if (count != entries_of(canvas->samples)) return TRIRAST_STATUS_BUFFER_TOO_SMALL;
    std::memcpy(&tiles[(row * COLUMNS + column) * count], colors, count * sizeof *colors);
    return TRIRAST_STATUS_OK;
}
}

int main() {
    const scene::Scene given = scene_of(7);
    const scene::Model model(given);
    scene::Seen seen;
    seen.project(model, given.matrix, scene::clip_of(WIDTH, HEIGHT));
    seen.prepare(model);
    for (const std::uint32_t samples : {1u, 4u, 16u})
        for (const trirast::Rate rate : {trirast::Rate::pixel, trirast::Rate::centre, trirast::Rate::sample}) {
            trirast::CanvasOptions options;
            options.width = WIDTH, options.height = HEIGHT, options.samples = samples;
            trirast::Canvas canvas(options);
            draw(seen.mesh, samples);
            way::shade(canvas, seen.triangles, rate, {9, 8, 7}, seen.shader(model));
            write(samples);
        }
    return 0;
}
