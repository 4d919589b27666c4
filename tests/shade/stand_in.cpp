// The calls on a canvas that shading needs, by the rules of docs/rules.md sample by sample: for tests under sanitizers,
// which look into it, and where the library is not built. It checks nothing of what it is given, and triangles are
// drawn without strips, quads and culling.
#include <algorithm>
#include <cstdint>
#include <cstdio>
#include <cstring>

#include "patterns.hpp"
#include "trirast.h"

namespace {

using Wide = __int128;

struct Sample {
    std::uint16_t depth;
    std::uint8_t channels[3];
};

constexpr std::uint32_t SIDE = 64;
constexpr std::size_t TILE = SIDE * SIDE;

std::uint32_t samples_of(const trirast_canvas &canvas) { return canvas.samples == 0 ? 1 : canvas.samples; }
std::uint32_t columns_of(const trirast_canvas &canvas) { return (canvas.width + SIDE - 1) / SIDE; }

std::size_t tile_bytes(const trirast_canvas &canvas) {
    const std::size_t needed = 2 + TILE * samples_of(canvas) * sizeof(Sample);
    return (needed + TRIRAST_PLANE_BYTES - 1) / TRIRAST_PLANE_BYTES * TRIRAST_PLANE_BYTES;
}

// A tile: whether it is unchanged since it was cleared, and its samples in the order of the calls for tiles.
struct Tile {
    std::uint8_t *memory;

    bool is_cleared() const { return memory[0] == 1; }
    void set_cleared(bool is) const { memory[0] = is; }
    Sample *samples() const { return reinterpret_cast<Sample *>(memory + 2); }
};

Tile tile_at(const trirast_canvas &canvas, std::uint32_t column, std::uint32_t row) {
    const std::size_t number = std::size_t{row - canvas.first} * columns_of(canvas) + column;
    return {static_cast<std::uint8_t *>(canvas.memory) + number * tile_bytes(canvas)};
}

std::size_t entry_of(const trirast_canvas &canvas, std::size_t x, std::size_t y, std::size_t s) {
    const std::size_t block = y % SIDE / 8 * 8 + x % SIDE / 8;
    return (block * samples_of(canvas) + s) * 64 + y % 8 * 8 + x % 8;
}

Sample &sample_at(const trirast_canvas &canvas, std::size_t x, std::size_t y, std::size_t s) {
    const Tile tile = tile_at(canvas, static_cast<std::uint32_t>(x / SIDE), static_cast<std::uint32_t>(y / SIDE));
    return tile.samples()[entry_of(canvas, x, y, s)];
}

std::uint32_t number_of(const Sample &sample) {
    return std::uint32_t{sample.channels[0]} | std::uint32_t{sample.channels[1]} << 8 |
           std::uint32_t{sample.channels[2]} << 16;
}

void set_number(Sample &sample, std::uint32_t number) {
    for (int c = 0; c < 3; c++) sample.channels[c] = static_cast<std::uint8_t>(number >> 8 * c);
}

template <class Do>
void each_tile(const trirast_canvas &canvas, const Do &each) {
    for (std::uint32_t row = canvas.first; row < canvas.end; row++)
        for (std::uint32_t column = 0; column < columns_of(canvas); column++) each(tile_at(canvas, column, row));
}

template <class Do>
void each_pixel(const trirast_canvas &canvas, const Do &each) {
    const std::uint32_t top = canvas.first * SIDE, bottom = std::min<std::uint32_t>(canvas.end * SIDE, canvas.height);
    for (std::uint32_t y = top; y < bottom; y++)
        for (std::uint32_t x = 0; x < canvas.width; x++) each(x, y, std::size_t{y - top});
}

// ---- Triangles

std::int64_t side(const trirast_vertex &a, const trirast_vertex &b, std::int64_t x, std::int64_t y) {
    return (std::int64_t{b.x} - a.x) * (y - a.y) - (std::int64_t{b.y} - a.y) * (x - a.x);
}

// A clockwise triangle covers what lies on top edges, which go to the right, and on left edges, which go up.
std::int64_t least(const trirast_vertex &a, const trirast_vertex &b) {
    return (a.y == b.y && b.x > a.x) || b.y < a.y ? 0 : 1;
}

bool passes(std::uint8_t test, std::uint32_t depth, std::uint32_t stored) {
    return test == TRIRAST_DEPTH_LESS ? depth < stored : true;
}

struct Triangle {
    trirast_vertex a, b, c;
    std::int64_t area;

    // Values at a point, rounded down. Nothing if the triangle does not cover it.
    bool at(std::int64_t x, std::int64_t y, std::uint32_t (&values)[5]) const {
        const std::int64_t ea = side(b, c, x, y), eb = side(c, a, x, y), ec = side(a, b, x, y);
        if (ea < least(b, c) || eb < least(c, a) || ec < least(a, b)) return false;
        const auto value = [&](std::uint32_t p, std::uint32_t q, std::uint32_t r) {
            return static_cast<std::uint32_t>((Wide{p} * ea + Wide{q} * eb + Wide{r} * ec) / area);
        };
        values[0] = value(a.red, b.red, c.red), values[1] = value(a.green, b.green, c.green),
        values[2] = value(a.blue, b.blue, c.blue);
        values[3] = value(a.alpha, b.alpha, c.alpha), values[4] = value(a.depth, b.depth, c.depth);
        return true;
    }
};

void draw_at(const trirast_draw &draw, const std::uint32_t (&values)[5], const std::uint32_t *id, Sample &sample) {
    if (!passes(draw.depth_test, values[4], sample.depth)) return;
    if (draw.depth_write) sample.depth = static_cast<std::uint16_t>(values[4]);
    if (id) return set_number(sample, *id);
    for (std::uint32_t c = 0; c < 3; c++) {
        const std::uint32_t stored = sample.channels[c];
        const auto factor = [&](std::uint32_t kind) {
            return kind == TRIRAST_FACTOR_ONE            ? 255
                   : kind == TRIRAST_FACTOR_SOURCE_ALPHA ? values[3]
                   : kind == TRIRAST_FACTOR_STORED_COLOR ? stored
                   : kind == TRIRAST_FACTOR_ZERO         ? 0
                                                         : 255 - values[3];
        };
        const std::uint32_t sum =
            values[c] * factor(draw.blend.color_source) + stored * factor(draw.blend.color_stored) + 127;
        const std::uint32_t found = draw.blend.color_operation ? std::min(sum / 255, 255u) : values[c];
        sample.channels[c] = static_cast<std::uint8_t>(found);
    }
}

void draw_triangle(const trirast_canvas &canvas, const trirast_draw &draw, const trirast_vertex &a, trirast_vertex b,
                   trirast_vertex c, const std::uint32_t *id) {
    const std::int64_t area = side(a, b, c.x, c.y);
    if (area == 0) return;
    if (area < 0) std::swap(b, c);
    const Triangle triangle{a, b, c, area < 0 ? -area : area};
    const std::uint32_t samples = samples_of(canvas);
    int pattern = 0;
    while (1u << pattern < samples) pattern++;
    const auto first = [](std::int32_t p, std::int32_t origin, std::int64_t start) {
        return std::max<std::int64_t>((p >> 8) - 1 - origin, start);
    };
    const auto end = [](std::int32_t p, std::int32_t origin, std::int64_t most) {
        return std::min<std::int64_t>((p >> 8) + 2 - origin, most);
    };
    const std::int64_t right = end(std::max({a.x, b.x, c.x}), canvas.origin_x, canvas.width);
    const std::int64_t bottom = end(std::max({a.y, b.y, c.y}), canvas.origin_y,
                                    std::min<std::int64_t>(canvas.height, std::int64_t{canvas.end} * 64));
    std::uint32_t values[5];
    for (std::int64_t y = first(std::min({a.y, b.y, c.y}), canvas.origin_y, std::int64_t{canvas.first} * 64);
         y < bottom; y++)
        for (std::int64_t x = first(std::min({a.x, b.x, c.x}), canvas.origin_x, 0); x < right; x++)
            for (std::uint32_t s = 0; s < samples; s++) {
                const signed char(&place)[2] = PATTERNS[pattern][s];
                const std::int64_t px = 256 * (x + canvas.origin_x) + 128 + 16 * place[0],
                                   py = 256 * (y + canvas.origin_y) + 128 + 16 * place[1];
                if (!triangle.at(px, py, values)) continue;
                tile_at(canvas, static_cast<std::uint32_t>(x / 64), static_cast<std::uint32_t>(y / 64))
                    .set_cleared(false);
                draw_at(draw, values, id,
                        sample_at(canvas, static_cast<std::size_t>(x), static_cast<std::size_t>(y), s));
            }
}

// One draw of triangles, with indices of 32 bits.
trirast_status draw_batch(const trirast_canvas &canvas, const trirast_proved_batch &batch,
                          const std::uint32_t *first_id) {
    const auto *vertices = static_cast<const trirast_vertex *>(batch.vertices);
    const auto *indices = static_cast<const std::uint32_t *>(batch.indices);
    if (batch.draw_count == 1 && batch.draws[0].vertex_count == 0) return TRIRAST_STATUS_OK;
    if (batch.draw_count != 1 || (batch.vertex_stride != 0 && batch.vertex_stride != 16) || batch.in_order != 0 ||
        batch.index_size == 2)
        return TRIRAST_STATUS_BAD_STRIDE;
    for (std::size_t k = 0; k + 2 < batch.index_count; k += 3) {
        const std::uint32_t id = first_id ? *first_id + static_cast<std::uint32_t>(k / 3) : 0;
        draw_triangle(canvas, batch.draws[0], vertices[indices[k]], vertices[indices[k + 1]], vertices[indices[k + 2]],
                      first_id ? &id : nullptr);
    }
    return TRIRAST_STATUS_OK;
}

std::size_t pixel_bytes(trirast_format format) { return format == TRIRAST_FORMAT_RGB8 ? 3 : 4; }

void put(trirast_format format, std::uint8_t *to, const std::uint32_t (&channels)[3]) {
    for (int c = 0; c < 3; c++) to[format == TRIRAST_FORMAT_BGRA8 ? 2 - c : c] = static_cast<std::uint8_t>(channels[c]);
    if (format != TRIRAST_FORMAT_RGB8) to[3] = 255;
}

} // namespace

extern "C" {

uint32_t trirast_canvas_tile_rows(const trirast_canvas *canvas) { return (canvas->height + SIDE - 1) / SIDE; }

size_t trirast_canvas_size(const trirast_canvas *canvas) {
    return tile_bytes(*canvas) * columns_of(*canvas) * trirast_canvas_tile_rows(canvas);
}

trirast_status trirast_proved_canvas_clear(trirast_canvas *canvas, const trirast_clear *clear) {
    each_tile(*canvas, [&](Tile tile) {
        tile.set_cleared(true);
        std::fill_n(tile.samples(), TILE * samples_of(*canvas),
                    Sample{clear->depth, {clear->red, clear->green, clear->blue}});
    });
    return TRIRAST_STATUS_OK;
}

trirast_status trirast_proved_canvas_draw(trirast_canvas *canvas, const trirast_proved_batch *batch, trirast_error *) {
    return draw_batch(*canvas, *batch, nullptr);
}

trirast_status trirast_proved_canvas_draw_ids(trirast_canvas *canvas, const trirast_proved_batch *batch,
                                              uint32_t first_id, trirast_error *) {
    return draw_batch(*canvas, *batch, &first_id);
}

trirast_status trirast_canvas_resolve(const trirast_canvas *canvas, trirast_format format, void *pixels, size_t,
                                      size_t stride) {
    const std::uint32_t samples = samples_of(*canvas);
    const std::size_t unit = pixel_bytes(format), row_bytes = stride == 0 ? unit * canvas->width : stride;
    each_pixel(*canvas, [&](std::uint32_t x, std::uint32_t y, std::size_t row) {
        std::uint32_t sums[3] = {samples / 2, samples / 2, samples / 2};
        for (std::uint32_t s = 0; s < samples; s++)
            for (int c = 0; c < 3; c++) sums[c] += sample_at(*canvas, x, y, s).channels[c];
        for (std::uint32_t &sum : sums) sum /= samples;
        put(format, static_cast<std::uint8_t *>(pixels) + row * row_bytes + unit * x, sums);
    });
    return TRIRAST_STATUS_OK;
}

trirast_status trirast_canvas_colors(const trirast_canvas *canvas, uint32_t sample, trirast_format format, void *pixels,
                                     size_t, size_t stride) {
    const std::size_t unit = pixel_bytes(format), row_bytes = stride == 0 ? unit * canvas->width : stride;
    each_pixel(*canvas, [&](std::uint32_t x, std::uint32_t y, std::size_t row) {
        const Sample &found = sample_at(*canvas, x, y, sample);
        put(format, static_cast<std::uint8_t *>(pixels) + row * row_bytes + unit * x,
            {found.channels[0], found.channels[1], found.channels[2]});
    });
    return TRIRAST_STATUS_OK;
}

trirast_status trirast_canvas_depths(const trirast_canvas *canvas, uint32_t sample, uint16_t *depths, size_t, size_t) {
    each_pixel(*canvas, [&](std::uint32_t x, std::uint32_t y, std::size_t row) {
        depths[row * canvas->width + x] = sample_at(*canvas, x, y, sample).depth;
    });
    return TRIRAST_STATUS_OK;
}

trirast_status trirast_canvas_ids(const trirast_canvas *canvas, uint32_t sample, uint32_t *ids, size_t, size_t) {
    each_pixel(*canvas, [&](std::uint32_t x, std::uint32_t y, std::size_t row) {
        ids[row * canvas->width + x] = number_of(sample_at(*canvas, x, y, sample));
    });
    return TRIRAST_STATUS_OK;
}

trirast_status trirast_canvas_tile_ids(const trirast_canvas *canvas, uint32_t column, uint32_t row, uint32_t *ids,
                                       size_t, uint32_t *uniform) {
    const Tile tile = tile_at(*canvas, column, row);
    *uniform = tile.is_cleared();
    for (std::size_t k = 0; k < (*uniform ? 1 : TILE * samples_of(*canvas)); k++) ids[k] = number_of(tile.samples()[k]);
    return TRIRAST_STATUS_OK;
}

trirast_status trirast_canvas_tile_store(trirast_canvas *canvas, uint32_t column, uint32_t row, const uint32_t *colors,
                                         size_t count) {
    const Tile tile = tile_at(*canvas, column, row);
    if (count != 1) tile.set_cleared(false);
    for (std::size_t k = 0; k < TILE * samples_of(*canvas); k++)
        set_number(tile.samples()[k], colors[count == 1 ? 0 : k]);
    return TRIRAST_STATUS_OK;
}

trirast_status trirast_edges_at_point(const trirast_corners *corners, int32_t x, int32_t y, trirast_edges *edges) {
    trirast_vertex a{}, b{}, c{};
    a.x = corners->ax, a.y = corners->ay, b.x = corners->bx, b.y = corners->by, c.x = corners->cx, c.y = corners->cy;
    *edges = {side(b, c, x, y), side(c, a, x, y), side(a, b, x, y), side(a, b, c.x, c.y), 0};
    return TRIRAST_STATUS_OK;
}

size_t trirast_error_message(const trirast_error *error, char *buffer, size_t size) {
    const char *text = trirast_status_string(static_cast<trirast_status>(error->status));
    return static_cast<size_t>(std::snprintf(buffer, size, "%s", text));
}
}
