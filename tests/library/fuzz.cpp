// Draws random scenes by trirast.hpp: whole, draw by draw, by threads, by parts, by ids, as polygons and as windows,
// resolved with strides, loaded and stored again and refused. Each is compared with what the others draw, and a scene
// that a draw list can have with trirast_list_draw's picture. Its arguments are seconds and a seed. Prints how many
// scenes there were, or why it stops. tests/library/fuzz_header.py builds it with sanitizers.
#include <algorithm>
#include <array>
#include <chrono>
#include <cstdio>
#include <cstdlib>
#include <random>
#include <string>
#include <thread>

#include "trirast.hpp"

using trirast::Canvas;
using trirast::Span;
using trirast::State;
using trirast::TileRows;

namespace {

using Pixels = std::vector<std::uint8_t>;
constexpr std::uint32_t NO_ID = 16777215, SAMPLES[] = {1, 2, 4, 8, 16};
constexpr trirast_format FORMATS[] = {TRIRAST_FORMAT_RGB8, TRIRAST_FORMAT_RGBA8, TRIRAST_FORMAT_BGRA8};
std::uint64_t seed_of_scene = 0;

void must(bool holds, const char *what) {
    if (holds) return;
    std::printf("scene %llu: %s\n", static_cast<unsigned long long>(seed_of_scene), what);
    std::exit(1);
}

// ---- Scenes

struct Pick {
    std::mt19937_64 generator;

    std::uint32_t below(std::uint32_t end) { return static_cast<std::uint32_t>(generator() % end); }
    bool chance(std::uint32_t of) { return below(of) == 0; }
    std::int32_t from(std::int32_t low, std::int32_t high) {
        return low + static_cast<std::int32_t>(below(static_cast<std::uint32_t>(high - low) + 1));
    }
};

// What is drawn on a canvas of the screen.
struct Scene {
    std::uint32_t width, height, samples;
    trirast::Origin origin;
    trirast::Clear clear;
    // Whether every draw replaces what is stored or is blended over it, as those of a draw list.
    bool is_listed;
    std::vector<trirast_draw> draws;
    std::vector<trirast_vertex> vertices;
    std::vector<std::uint32_t> indices;

    trirast_batch batch() const {
        trirast_batch found = {};
        found.draws = draws.data(), found.draw_count = draws.size();
        found.vertices = vertices.data(), found.vertex_count = indices.empty() ? 0 : vertices.size();
        found.indices = indices.data(), found.index_count = indices.size();
        return found;
    }
};

// The least and the greatest coordinate that are in the guard band, also as seen from the origin.
std::int32_t lowest(std::int32_t origin) { return 256 * std::max(origin, 0) - 8388608; }
std::int32_t highest(std::int32_t origin) { return 256 * std::min(origin, 0) + 8388607; }

// A coordinate on a canvas or around it, or at an end of the guard band.
std::int32_t place(Pick &pick, std::int32_t origin, std::uint32_t size) {
    const std::int32_t side = 256 * static_cast<std::int32_t>(size), step = pick.chance(3) ? 128 : 1;
    if (pick.chance(30)) return pick.chance(2) ? lowest(origin) : highest(origin);
    return 256 * origin + pick.from(-side / 2 - 300, side + side / 2 + 300) / step * step;
}

trirast_vertex some_vertex(Pick &pick, std::int32_t x, std::int32_t y) {
    const auto byte = [&pick] { return static_cast<std::uint8_t>(pick.below(256)); };
    return {x, y, static_cast<std::uint16_t>(pick.below(65536)), byte(), byte(), byte(), byte(),
            static_cast<std::uint16_t>(pick.below(65536))};
}

void add_quad(Pick &pick, Scene &scene) {
    const std::int32_t left = place(pick, scene.origin.x, scene.width), top = place(pick, scene.origin.y, scene.height);
    const std::int32_t right = std::min(left + pick.from(1, 9000), highest(scene.origin.x));
    const std::int32_t bottom = std::min(top + pick.from(1, 9000), highest(scene.origin.y));
    const std::int32_t corners[4][2] = {{left, top}, {right, top}, {right, bottom}, {left, bottom}};
    for (const auto &corner : corners) scene.vertices.push_back(some_vertex(pick, corner[0], corner[1]));
}

trirast_blend some_blend(Pick &pick, bool is_listed) {
    if (is_listed) return pick.chance(2) ? trirast::blend_over : trirast::blend_none;
    static constexpr std::uint8_t factors[] = {0, 1, 2, 3, 4, 5, 6, 7, 8, 9, 10, 11, 14, 15};
    const auto factor = [&pick] { return factors[pick.below(sizeof factors)]; };
    const auto operation = [&pick] { return static_cast<std::uint8_t>(pick.below(6)); };
    const auto byte = [&pick] { return static_cast<std::uint8_t>(pick.below(256)); };
    return {factor(), factor(), operation(), factor(), factor(), operation(), {byte(), byte(), byte(), byte()}};
}

void add_scissor(Pick &pick, const Scene &scene, trirast_draw &draw) {
    const auto edge = [&pick](std::int32_t origin, std::uint32_t size) {
        return origin + static_cast<std::int32_t>(pick.below(size + 1));
    };
    draw.scissor_enable = 1;
    draw.scissor_left = edge(scene.origin.x, scene.width), draw.scissor_right = edge(scene.origin.x, scene.width);
    draw.scissor_top = edge(scene.origin.y, scene.height), draw.scissor_bottom = edge(scene.origin.y, scene.height);
}

void add_draw(Pick &pick, Scene &scene) {
    trirast_draw draw = {};
    const std::size_t first = scene.vertices.size(), begin = scene.indices.size();
    const auto below = [&pick](std::uint32_t end) { return static_cast<std::uint8_t>(pick.below(end)); };
    draw.topology = below(3), draw.cull = below(3), draw.depth_test = below(8), draw.depth_write = below(2);
    draw.blend = some_blend(pick, scene.is_listed),
        draw.skip_samples = static_cast<std::uint16_t>(pick.chance(3) ? pick.below(65536) : 0);
    draw.keep = pick.chance(3) ? below(16) : std::uint8_t{0};
    if (draw.topology == TRIRAST_TOPOLOGY_QUADS) {
        add_quad(pick, scene);
        for (std::uint32_t k = 0; k < 4; k++) scene.indices.push_back(k);
        const trirast_vertex &corner = scene.vertices[first];
        if (corner.x == highest(scene.origin.x) || corner.y == highest(scene.origin.y))
            draw.topology = TRIRAST_TOPOLOGY_STRIP;
    } else {
        const std::uint32_t count = 1 + pick.below(30);
        for (std::uint32_t k = 0; k < count; k++)
            scene.vertices.push_back(
                some_vertex(pick, place(pick, scene.origin.x, scene.width), place(pick, scene.origin.y, scene.height)));
        const std::uint32_t wanted = 3 * pick.below(20);
        for (std::uint32_t k = 0; k < wanted; k++) scene.indices.push_back(pick.below(count));
    }
    if (pick.chance(3)) add_scissor(pick, scene, draw);
    draw.vertex_count = scene.vertices.size() - first, draw.index_count = scene.indices.size() - begin;
    scene.draws.push_back(draw);
}

Scene some_scene(Pick &pick) {
    Scene scene = {};
    const auto byte = [&pick] { return static_cast<std::uint8_t>(pick.below(256)); };
    scene.width = 1 + pick.below(pick.chance(10) ? 600 : 150),
        scene.height = 1 + pick.below(pick.chance(10) ? 600 : 150);
    scene.samples = SAMPLES[pick.below(5)], scene.is_listed = pick.chance(2);
    if (pick.chance(2)) scene.origin = {pick.from(-3000, 3000), pick.from(-3000, 3000)};
    scene.clear = {byte(), byte(), byte(), byte(), static_cast<std::uint16_t>(pick.below(65536))};
    for (std::uint32_t count = pick.below(6); count > 0; count--) add_draw(pick, scene);
    /* Without any index the vertices would be drawn in their order. */
    if (scene.indices.empty())
        for (trirast_draw &draw : scene.draws) draw.vertex_count = 0;
    return scene;
}

// ---- The picture by another call

// Moves a scene by whole pixels, so that its origin is 0. A vertex that leaves the guard band so is
// refused there and here.
Scene moved(const Scene &scene) {
    Scene found = scene;
    found.origin = {};
    for (trirast_vertex &vertex : found.vertices) vertex.x -= 256 * scene.origin.x, vertex.y -= 256 * scene.origin.y;
    for (trirast_draw &draw : found.draws) {
        draw.scissor_left -= scene.origin.x, draw.scissor_right -= scene.origin.x;
        draw.scissor_top -= scene.origin.y, draw.scissor_bottom -= scene.origin.y;
    }
    return found;
}

Canvas cleared(const Scene &scene) {
    Canvas canvas({scene.width, scene.height, scene.samples, false, scene.origin});
    canvas.clear(scene.clear);
    return canvas;
}

Pixels depths_of(const TileRows &rows) {
    Pixels found;
    for (const std::uint16_t depth : rows.depths())
        found.push_back(static_cast<std::uint8_t>(depth >> 8)), found.push_back(static_cast<std::uint8_t>(depth));
    return found;
}

std::string joined(const std::vector<std::string> &parts) {
    std::string found;
    for (const std::string &part : parts) found += (found.empty() ? "" : ",") + part;
    return "[" + found + "]";
}

template <class... Numbers>
std::string row(Numbers... numbers) {
    return joined({std::to_string(numbers)...});
}

// The faces of a draw as a list has them.
std::string faces_of(const trirast_draw &draw, const std::uint32_t *indices) {
    static const char *const names[] = {"triangles", "strip", "quads"};
    const std::size_t each = draw.topology == TRIRAST_TOPOLOGY_QUADS   ? 4
                             : draw.topology == TRIRAST_TOPOLOGY_STRIP ? 1
                                                                       : 3;
    std::vector<std::string> faces;
    for (std::size_t k = 0; k < draw.index_count; k += each) {
        std::vector<std::string> face;
        for (std::size_t n = 0; n < each; n++) face.push_back(std::to_string(indices[k + n]));
        faces.push_back(each == 1 ? face[0] : joined(face));
    }
    return std::string("\"") + names[draw.topology] + "\":" + joined(faces);
}

std::string draw_as_text(const Scene &scene, const trirast_draw &draw, const trirast_vertex *vertices,
                         const std::uint32_t *indices) {
    static const char *const culls[] = {"none", "front", "back"};
    static const char *const tests[] = {"always", "never", "less", "equal",
                                        "less_equal", "greater", "not_equal", "greater_equal"};
    const auto written = [&draw](int channel) { return draw.keep & channel ? "false" : "true"; };
    const auto edge = [](std::int32_t at, std::uint32_t size) {
        return std::to_string(std::clamp<std::int32_t>(at, 0, static_cast<std::int32_t>(size)));
    };
    std::vector<std::string> rows;
    for (std::size_t k = 0; k < draw.vertex_count; k++) {
        const trirast_vertex &v = vertices[k];
        rows.push_back(row(v.x, v.y, v.depth, v.red, v.green, v.blue, v.alpha));
    }
    std::string text = "{\"vertices\":" + joined(rows) + "," + faces_of(draw, indices) + ",\"cull\":\"" +
                       culls[draw.cull] + "\",\"depth_test\":\"" + tests[draw.depth_test] +
                       "\",\"depth_write\":" + (draw.depth_write ? "true" : "false") + ",\"blend\":\"" +
                       (draw.blend.color_source == TRIRAST_FACTOR_SOURCE_ALPHA ? "over" : "none") + "\",\"write\":[" +
                       written(TRIRAST_KEEP_RED) + "," + written(TRIRAST_KEEP_GREEN) + "," +
                       written(TRIRAST_KEEP_BLUE) +
                       "],\"sample_mask\":" + std::to_string(~draw.skip_samples & ((1u << scene.samples) - 1));
    if (draw.scissor_enable)
        text +=
            ",\"scissor\":" + joined({edge(draw.scissor_left, scene.width), edge(draw.scissor_top, scene.height),
                                      edge(draw.scissor_right, scene.width), edge(draw.scissor_bottom, scene.height)});
    return text + "}";
}

std::string as_text(const Scene &scene, bool is_depth) {
    std::vector<std::string> draws;
    const trirast_vertex *vertices = scene.vertices.data();
    const std::uint32_t *indices = scene.indices.data();
    for (const trirast_draw &draw : scene.draws) {
        draws.push_back(draw_as_text(scene, draw, vertices, indices));
        vertices += draw.vertex_count, indices += draw.index_count;
    }
    return "{\"width\":" + std::to_string(scene.width) + ",\"height\":" + std::to_string(scene.height) +
           ",\"samples\":" + std::to_string(scene.samples) + ",\"output\":\"" + (is_depth ? "depth" : "color") +
           "\",\"clear\":" + row(scene.clear.red, scene.clear.green, scene.clear.blue) +
           ",\"clear_depth\":" + std::to_string(scene.clear.depth) + ",\"draws\":" + joined(draws) + "}";
}

// The pixels of a scene by trirast_list_draw. Where a list has no such samples or equations, those of a
// canvas without a window.
Pixels wanted_of(const Scene &given, bool is_depth) {
    const Scene scene = moved(given);
    if ((scene.samples != 1 && scene.samples != 4) || !scene.is_listed) {
        Canvas canvas = cleared(scene);
        canvas.draw_batch(scene.batch());
        return is_depth ? depths_of(canvas) : canvas.pixels();
    }
    const std::string text = as_text(scene, is_depth);
    trirast_image_info info = {};
    must(trirast_list_info(text.data(), text.size(), &info, nullptr) == TRIRAST_STATUS_OK,
         "trirast_list_info refuses the scene");
    Pixels file(info.file_bytes);
    must(trirast_list_draw(text.data(), text.size(), 32, file.data(), file.size(), nullptr) == TRIRAST_STATUS_OK,
         "trirast_list_draw refuses the scene");
    return Pixels(file.begin() + static_cast<std::ptrdiff_t>(info.header_bytes), file.end());
}

// ---- The ways in which a canvas is drawn

State state_of(const trirast_draw &draw) {
    State state;
    state.topology = static_cast<trirast_topology>(draw.topology), state.cull = static_cast<trirast_cull>(draw.cull);
    state.depth_test = static_cast<trirast_depth_test>(draw.depth_test), state.depth_write = draw.depth_write == 1;
    state.blend = draw.blend, state.keep = draw.keep, state.skip_samples = draw.skip_samples;
    if (draw.scissor_enable)
        state.scissor = trirast::Scissor{draw.scissor_left, draw.scissor_top, draw.scissor_right, draw.scissor_bottom};
    return state;
}

// Draws a scene draw by draw, by indices of 16 bits, of 32 or in the order of vertices that are copied for it.
void draw_each(Pick &pick, const Scene &scene, TileRows &rows) {
    const trirast_vertex *vertices = scene.vertices.data();
    const std::uint32_t *indices = scene.indices.data();
    for (const trirast_draw &draw : scene.draws) {
        const Span<const trirast_vertex> own(vertices, draw.vertex_count);
        const std::vector<std::uint32_t> large(indices, indices + draw.index_count);
        const State state = state_of(draw);
        const std::uint32_t form = pick.below(3), threads = pick.below(3);
        std::vector<trirast_vertex> in_order;
        for (const std::uint32_t index : large) in_order.push_back(own[index]);
        if (form == 0) rows.draw(own, large, state, threads);
        if (form == 1) rows.draw(own, std::vector<std::uint16_t>(large.begin(), large.end()), state, threads);
        if (form == 2) rows.draw(in_order, {}, state, threads);
        vertices += draw.vertex_count, indices += draw.index_count;
    }
}

void draw_by_parts(Pick &pick, const Scene &scene, Canvas &canvas) {
    if (pick.chance(2))
        return canvas.share(pick.below(5) + 1, [&scene](TileRows &part) { part.draw_batch(scene.batch()); });
    std::vector<TileRows> parts = canvas.split(pick.below(5) + 1);
    std::shuffle(parts.begin(), parts.end(), pick.generator);
    std::vector<std::thread> threads;
    for (TileRows &part : parts)
        threads.emplace_back([&part, &scene] {
            TileRows own = part.rows(part.first(), part.end());
            part = std::move(own);
            part.draw_batch(scene.batch());
        });
    for (std::thread &thread : threads) thread.join();
}

// The pixels of tile rows in a format, with a stride, in memory that ends with them. What lies between rows stays.
Pixels resolved(Pick &pick, const TileRows &rows, trirast_format format) {
    const std::size_t bytes = format == TRIRAST_FORMAT_RGB8 ? 3 : 4, row = bytes * rows.width(),
                      stride = row + (pick.chance(2) ? pick.below(9) : 0);
    const std::size_t size = rows.height() == 0 ? 0 : (rows.height() - 1) * stride + row;
    const std::unique_ptr<std::uint8_t[]> memory(new std::uint8_t[size]);
    std::fill_n(memory.get(), size, std::uint8_t{77});
    rows.resolve(format, {memory.get(), size}, stride == row && pick.chance(2) ? 0 : stride);
    Pixels found;
    for (std::size_t y = 0; y < rows.height(); y++) {
        const std::uint8_t *begin = memory.get() + y * stride;
        for (std::size_t x = 0; x < rows.width(); x++)
            for (std::size_t c = 0; c < 3; c++)
                found.push_back(begin[bytes * x + (format == TRIRAST_FORMAT_BGRA8 ? 2 - c : c)]);
        if (y + 1 < rows.height())
            must(std::all_of(begin + row, begin + stride, [](std::uint8_t byte) { return byte == 77; }),
                 "bytes between rows");
    }
    return found;
}

void compare(Pick &pick, const Scene &scene, const Pixels &wanted) {
    Canvas whole = cleared(scene), each = cleared(scene), parts = cleared(scene);
    whole.draw_batch(scene.batch());
    draw_each(pick, scene, each);
    draw_by_parts(pick, scene, parts);
    Canvas there({1, 1});
    there = std::move(parts);
    const Pixels depths = wanted_of(scene, true);
    for (const Canvas *canvas : {&whole, &each, &there}) {
        must(canvas->pixels() == wanted, "other pixels");
        must(depths_of(*canvas) == depths, "other depths");
        must(resolved(pick, *canvas, FORMATS[pick.below(3)]) == wanted, "other pixels with a stride");
    }
    const std::uint32_t tile_rows = whole.end(), first = pick.below(tile_rows + 1),
                        end = first + pick.below(tile_rows - first + 1);
    const Pixels piece = resolved(pick, whole.rows(first, end), TRIRAST_FORMAT_RGB8);
    must(std::equal(piece.begin(), piece.end(),
                    wanted.begin() + 3 * static_cast<std::ptrdiff_t>(std::min(64 * first, scene.height)) * scene.width),
         "other pixels of tile rows");
    Canvas loaded = cleared(scene);
    loaded.load(TRIRAST_FORMAT_RGB8, wanted, 3 * scene.width);
    must(loaded.pixels() == wanted, "other pixels were loaded");
}

void compare_ids(Pick &pick, const Scene &scene) {
    Canvas whole = cleared(scene), parts = cleared(scene);
    whole.clear({255, 255, 255}), parts.clear({255, 255, 255});
    const std::uint32_t first = pick.below(NO_ID - 100000);
    whole.draw_batch_ids(scene.batch(), first, 3);
    for (TileRows &part : parts.split(3)) part.draw_batch_ids(scene.batch(), first);
    const std::uint32_t sample = pick.below(scene.samples);
    const std::vector<std::uint32_t> ids = whole.ids(sample);
    must(ids == parts.ids(sample), "other ids by parts");
    const std::uint32_t end = first + static_cast<std::uint32_t>(scene.indices.size());
    must(
        std::all_of(ids.begin(), ids.end(), [&](std::uint32_t id) { return id == NO_ID || (first <= id && id < end); }),
        "an id of no triangle");
}

// ---- Polygons and tiles

template <class Call>
void must_throw(trirast_status status, Call call) {
    try {
        call();
    } catch (const trirast::Error &error) {
        must(error.status() == status && !std::string(error.what()).empty(), "another status");
        return;
    }
    must(false, "a wrong call did not throw");
}

// Each three of the vertices as a triangle in one colour, which is a ring of three corners.
struct Rings {
    std::vector<trirast_vertex> vertices;
    std::vector<trirast_corner> corners;
    std::vector<std::uint32_t> ring_ends, polygon_ends;
    std::vector<trirast::Rgba> colors;
    std::vector<std::uint16_t> depths;

    explicit Rings(const Scene &scene) {
        for (std::size_t k = 0; k < scene.vertices.size() / 3 * 3; k++) {
            trirast_vertex vertex = scene.vertices[k - k % 3];
            vertex.x = scene.vertices[k].x, vertex.y = scene.vertices[k].y;
            vertices.push_back(vertex), corners.push_back({vertex.x, vertex.y});
            if (k % 3 != 2) continue;
            ring_ends.push_back(static_cast<std::uint32_t>(k + 1)),
                polygon_ends.push_back(static_cast<std::uint32_t>(ring_ends.size()));
            colors.push_back({{vertex.red, vertex.green, vertex.blue, vertex.alpha}}), depths.push_back(vertex.depth);
        }
    }

    trirast::Polygons polygons(trirast_fill_rule rule) const {
        return {corners, ring_ends, polygon_ends, colors, depths, rule};
    }
};

void compare_polygons(Pick &pick, const Scene &scene) {
    const auto is_far = [](std::int32_t origin) { return origin < -32768 || origin > 28672; };
    if (is_far(scene.origin.x) || is_far(scene.origin.y)) return;
    Rings rings(scene);
    const trirast::Polygons polygons = rings.polygons(pick.chance(2) ? TRIRAST_FILL_NONZERO : TRIRAST_FILL_EVEN_ODD);
    State state = scene.draws.empty() ? State{} : state_of(scene.draws[0]);
    state.topology = TRIRAST_TOPOLOGY_TRIANGLES, state.cull = TRIRAST_CULL_NONE;
    Canvas triangles = cleared(scene), whole = cleared(scene), parts = cleared(scene);
    triangles.draw(rings.vertices, {}, state);
    whole.draw_polygons(polygons, state, pick.below(5));
    for (TileRows &part : parts.split(pick.below(4) + 1)) part.draw_polygons(polygons, state);
    must(whole.pixels() == triangles.pixels() && depths_of(whole) == depths_of(triangles),
         "rings of three corners are other than triangles");
    must(parts.pixels() == whole.pixels() && depths_of(parts) == depths_of(whole), "other polygons by parts");
    if (rings.polygon_ends.empty()) return;
    rings.polygon_ends.back() += 1 + pick.below(1000);
    must_throw(TRIRAST_STATUS_BAD_BATCH, [&] { parts.draw_polygons(polygons, state, pick.below(5)); });
    must_throw(TRIRAST_STATUS_BAD_BATCH, [&] { parts.draw_polygon_ids(polygons, 0, state, pick.below(5)); });
    must(parts.pixels() == whole.pixels(), "polygons that were refused changed the canvas");
}

// Each tile, stored as it is read.
void compare_tiles(Pick &pick, const Scene &scene) {
    Canvas canvas = cleared(scene);
    canvas.draw_batch_ids(scene.batch(), pick.below(1000), 2);
    const std::uint32_t sample = pick.below(scene.samples);
    const std::vector<std::uint32_t> before = canvas.ids(sample);
    std::vector<std::uint32_t> entries(canvas.tile_entries());
    for (TileRows &part : canvas.split(3))
        for (std::uint32_t row = part.first(); row < part.end(); row++)
            for (std::uint32_t column = 0; column < part.tile_columns(); column++)
                part.tile_store(column, row, part.tile_ids(column, row, entries));
    must(canvas.ids(sample) == before, "tiles that were stored as they were read");
    must_throw(TRIRAST_STATUS_BAD_TILE, [&] { canvas.tile_ids(canvas.tile_columns() + pick.below(1000), 0, entries); });
    must_throw(TRIRAST_STATUS_BAD_TILE, [&] { canvas.tile_store(0, canvas.end() + pick.below(1000), entries); });
    entries.pop_back();
    must_throw(TRIRAST_STATUS_BUFFER_TOO_SMALL, [&] { canvas.tile_ids(0, 0, entries); });
}

// ---- What is refused

void refuse(Pick &pick, Scene scene) {
    Canvas canvas = cleared(scene);
    const Pixels before = canvas.pixels();
    Pixels small(before.size() - 1 - pick.below(static_cast<std::uint32_t>(before.size())));
    must_throw(TRIRAST_STATUS_BUFFER_TOO_SMALL, [&] { canvas.resolve(TRIRAST_FORMAT_RGB8, small, 3 * scene.width); });
    must_throw(TRIRAST_STATUS_BUFFER_TOO_SMALL, [&] { canvas.load(TRIRAST_FORMAT_RGB8, small, 3 * scene.width); });
    must_throw(TRIRAST_STATUS_BUFFER_TOO_SMALL, [&] { canvas.load(TRIRAST_FORMAT_RGB8, before, 3 * scene.width - 1); });
    must_throw(TRIRAST_STATUS_BAD_SAMPLE, [&] { canvas.depths(scene.samples + pick.below(1000)); });
    must_throw(TRIRAST_STATUS_BAD_TILE_ROWS, [&] { canvas.rows(0, canvas.end() + 1 + pick.below(1000)); });
    must_throw(TRIRAST_STATUS_BAD_CANVAS, [&] {
        Canvas({pick.chance(2) ? 0 : 4097 + pick.below(1u << 31), 1 + pick.below(4096)});
    });
    must_throw(TRIRAST_STATUS_BAD_FORMAT,
               [&] { canvas.resolve(static_cast<trirast_format>(5), small, 4 * scene.width); });
    if (!scene.indices.empty()) {
        scene.indices[pick.below(static_cast<std::uint32_t>(scene.indices.size()))] =
            static_cast<std::uint32_t>(scene.vertices.size()) + pick.below(1000);
        must_throw(TRIRAST_STATUS_BAD_BATCH, [&] { canvas.draw_batch(scene.batch(), pick.below(4)); });
    }
    scene.indices.push_back(0);
    must_throw(TRIRAST_STATUS_BAD_BATCH, [&] { canvas.draw_batch(scene.batch()); });
    trirast_batch batch = scene.batch();
    batch.vertex_stride = 15;
    must_throw(TRIRAST_STATUS_BAD_STRIDE, [&] { canvas.draw_batch(batch); });
    batch.vertex_stride = 0, batch.index_size = 3;
    must_throw(TRIRAST_STATUS_BAD_INDEX_SIZE, [&] { canvas.draw_batch(batch); });
    batch.struct_size = 8;
    must_throw(TRIRAST_STATUS_BAD_STRUCT_SIZE, [&] { canvas.draw_batch(batch); });
    const Canvas moved_to = std::move(canvas);
    must(moved_to.pixels() == before, "a refused call changed the canvas");
    must_throw(TRIRAST_STATUS_BAD_CANVAS, [&] { canvas.clear({}); });
}

void try_scene(std::uint64_t seed) {
    Pick pick = {std::mt19937_64(seed)};
    const Scene scene = some_scene(pick);
    compare(pick, scene, wanted_of(scene, false));
    compare_ids(pick, scene);
    compare_polygons(pick, scene);
    compare_tiles(pick, scene);
    refuse(pick, scene);
}

}  // namespace

int main(int count, char **arguments) {
    if (count != 3) return 2;
    const auto end = std::chrono::steady_clock::now() + std::chrono::seconds(std::atoi(arguments[1]));
    const std::uint64_t first = std::strtoull(arguments[2], nullptr, 10);
    for (seed_of_scene = first; std::chrono::steady_clock::now() < end; seed_of_scene++) try_scene(seed_of_scene);
    std::printf("%llu scenes\n", static_cast<unsigned long long>(seed_of_scene - first));
    return 0;
}
