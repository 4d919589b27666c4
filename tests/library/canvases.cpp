// Calls the functions of trirast.hpp, and prints a line for each thing that was compared: "ok WHAT" or "failed WHAT".
// Exit status 1 if one failed. tests/library/in_c.py builds and runs it.
#include <algorithm>
#include <array>
#include <cstdio>
#include <stdexcept>
#include <string>
#include <type_traits>
#if __has_include(<span>)
#include <span>
#endif

#include "trirast.hpp"

using trirast::Canvas;
using trirast::CanvasOptions;
using trirast::Span;
using trirast::State;
using trirast::TileRows;

static bool has_failed = false;

static void report(bool holds, const char *what) {
    std::printf("%s %s\n", holds ? "ok" : "failed", what);
    has_failed |= !holds;
}

// Whether a call throws an Error of this status, with these values behind the status's text.
template <class Call>
static bool throws(trirast_status status, Call call, const std::string &values = {}) {
    try {
        call();
    } catch (const trirast::Error &error) {
        const std::string line = trirast_status_string(status) + values;
        if (error.what() != line) std::printf("'%s' in place of '%s'\n", error.what(), line.c_str());
        return error.status() == status && error.what() == line && !error.draw() && !error.element();
    }
    return false;
}

static const std::array<trirast_vertex, 3> CORNERS = {{
    {0, 0, 7, 9, 8, 7, 255, 0}, {25600, 0, 7, 9, 8, 7, 255, 0}, {0, 51200, 7, 9, 8, 7, 255, 0}}};
static const std::uint32_t TRIANGLE[] = {0, 1, 2};
static const trirast::Clear WHITE = {255, 255, 255, 255, 9};

static Canvas cleared() {
    Canvas canvas({100, 200, 4});
    canvas.clear(WHITE);
    return canvas;
}

static void compare_pictures() {
    Canvas whole = cleared(), split = cleared(), threads = cleared();
    whole.draw(CORNERS, TRIANGLE);
    for (TileRows &part : split.split(3)) part.draw(CORNERS, TRIANGLE);
    threads.draw(CORNERS, TRIANGLE, {}, 3);
    const std::vector<std::uint8_t> pixels = whole.pixels();
    const std::array<std::uint8_t, 3> first = {9, 8, 7};
    report(std::equal(first.begin(), first.end(), pixels.begin()) && pixels.back() == 255,
           "a triangle is drawn, and what is beside it stays");
    report(pixels == split.pixels(), "three parts of a canvas make the picture of the whole");
    report(pixels == threads.pixels(), "so do three threads");
    report(split.split(100).size() == 4 && split.split(0).empty(), "a canvas has at most as many parts as tile rows");
    TileRows last = whole.rows(3, 4);
    report(last.height() == 8 && last.top() == 192 && last.width() == 100, "the rows of pixels of the last tile row");
    const std::vector<std::uint8_t> below = last.pixels();
    report(std::equal(below.begin(), below.end(), pixels.end() - static_cast<std::ptrdiff_t>(below.size())),
           "its pixels are the last ones");
    whole.load(TRIRAST_FORMAT_RGB8, pixels, 300);
    report(whole.pixels() == pixels, "a picture is loaded");
}

static void compare_large_canvas() {
    const Canvas canvas({1024, 1024, 4});
    const std::vector<std::uint8_t> pixels = canvas.pixels();
    const std::vector<std::uint16_t> depths = canvas.depths(3);
    report(pixels.size() == 3 * 1024 * 1024 && std::count(pixels.begin(), pixels.end(), 0) == 3 * 1024 * 1024 &&
               std::count(depths.begin(), depths.end(), 65535) == 1024 * 1024,
           "a canvas that fills large pages begins black and far to its last pixel");
}

static void compare_entries() {
    Canvas canvas = cleared();
    canvas.draw_ids(CORNERS, TRIANGLE, 70000);
    const std::vector<std::uint32_t> ids = canvas.ids(3);
    report(ids.size() == 20000 && ids.front() == 70000 && ids.back() == 16777215, "a triangle is drawn by its id");
    const std::vector<std::uint16_t> depths = canvas.depths();
    report(depths.front() == 9 && depths.back() == 9, "depths are read");
    State state;
    state.depth_write = true;
    canvas.draw(CORNERS, TRIANGLE, state);
    report(canvas.depths(3).front() == 7 && canvas.depths(3).back() == 9, "depths are written");
    Canvas window({100, 200, 4, false, {-50, 0}});
    window.clear(WHITE);
    window.draw(CORNERS, TRIANGLE);
    report(window.pixels(TRIRAST_FORMAT_BGRA8)[0] == 255 && window.pixels(TRIRAST_FORMAT_BGRA8)[4 * 50] == 7,
           "a canvas is a window");
    Canvas stored = cleared();
    stored.store(1, TRIRAST_FORMAT_RGB8, std::vector<std::uint8_t>(3 * 100 * 200, 5));
    report(stored.colors(1, TRIRAST_FORMAT_RGB8) == std::vector<std::uint8_t>(3 * 100 * 200, 5) &&
               stored.colors(0)[0] == 255 &&
               throws(TRIRAST_STATUS_BAD_SAMPLE, [&] { stored.colors(4); }, ": expected 0 to 3, got 4"),
           "the colours of one sample are stored and read");
    std::vector<std::uint16_t> apart(101 * 200, 77);
    canvas.depths(3, apart, 2 * 101);
    report(apart[0] == 7 && apart[100] == 77 && apart[101] == 7, "a stride is in bytes");
}

static void compare_indices() {
    const std::vector<std::uint16_t> small = {0, 1, 2};
    const std::vector<std::uint32_t> large = {0, 1, 2};
    Canvas drawn = cleared();
    drawn.draw(CORNERS, TRIANGLE);
    bool is_same = true;
    for (int form = 0; form < 3; form++) {
        Canvas canvas = cleared();
        if (form == 0) canvas.draw(CORNERS, small);
        if (form == 1) canvas.draw(CORNERS, large);
        if (form == 2) canvas.draw(CORNERS);
        is_same &= canvas.pixels() == drawn.pixels();
    }
    report(is_same, "indices have 16 bits or 32, and without any there are the vertices in their order");
    struct Derived : trirast_vertex {
        float weight;
    };
    struct Holder {
        float weight;
        trirast_vertex vertex;
        float others[3];
    };
    std::vector<Derived> derived(3);
    std::vector<Holder> holders(3);
    for (std::size_t k = 0; k < 3; k++) {
        static_cast<trirast_vertex &>(derived[k]) = holders[k].vertex = CORNERS[k];
        derived[k].weight = holders[k].weight = -1.5f;
    }
    for (int form = 0; form < 4; form++) {
        Canvas canvas = cleared();
        if (form == 0) canvas.draw(derived, small);
        if (form == 1) canvas.draw({holders, &Holder::vertex}, large);
        if (form == 2) canvas.draw({holders, &Holder::vertex});
        if (form == 3) canvas.draw({derived.data(), 3}, small, {}, 3);
        is_same &= canvas.pixels() == drawn.pixels();
    }
    report(is_same, "vertices are read where they lie in other structs");
    Canvas canvas = cleared();
    canvas.draw(std::vector<Derived>{}), canvas.draw({std::vector<Holder>{}, &Holder::vertex});
    canvas.draw(CORNERS, std::vector<std::uint16_t>{}), canvas.draw({}, {}),
        canvas.draw({}, std::vector<std::uint32_t>{}), canvas.draw({});
    report(canvas.pixels() == cleared().pixels(), "empty arrays draw nothing");
    const trirast_draw draws[2] = {};
    trirast_batch batch = {};
    batch.draws = draws, batch.draw_count = 2;
    canvas.draw_batch(batch), canvas.draw_batch_ids(batch, 5, 2);
    report(canvas.pixels() == cleared().pixels(), "a batch of C is drawn");
#if defined(__cpp_lib_span)
    drawn.draw(std::span<const trirast_vertex>(CORNERS), std::span<const std::uint16_t>(small));
    report(drawn.pixels()[0] == 9, "a std::span is a span");
#endif
}

static void compare_states() {
    const auto first = [](const State &state) {
        Canvas canvas({8, 8});
        canvas.clear({100, 20, 250});
        std::array<trirast_vertex, 3> corners = CORNERS;
        for (trirast_vertex &corner : corners)
            corner.red = 200, corner.green = 10, corner.blue = 30, corner.alpha = 128;
        canvas.draw(corners, {}, state);
        const std::vector<std::uint8_t> pixels = canvas.pixels();
        return std::array<int, 3>{pixels[0], pixels[1], pixels[2]};
    };
    const auto blended = [&first](const trirast_blend &blend) {
        State state;
        state.blend = blend;
        return first(state);
    };
    using Color = std::array<int, 3>;
    report(blended(trirast::blend_none) == Color{200, 10, 30} && blended(trirast::blend_over) == Color{150, 15, 140} &&
               blended(trirast::blend_premultiplied) == Color{250, 20, 155} &&
               blended(trirast::blend_add) == Color{200, 25, 255} &&
               blended(trirast::blend_multiply) == Color{78, 1, 29} &&
               blended(trirast::blend_keep) == Color{100, 20, 250},
           "each preset blends");
    State state;
    state.keep = TRIRAST_KEEP_GREEN | TRIRAST_KEEP_ALPHA;
    report(first(state) == Color{200, 20, 30}, "a draw keeps channels");
    state = {};
    state.scissor = trirast::Scissor{1, 0, 8, 8};
    report(first(state) == Color{100, 20, 250}, "a draw has a scissor");
    state = {};
    state.skip_samples = 1;
    report(first(state) == Color{100, 20, 250}, "a draw skips samples");
    state = {};
    state.cull = TRIRAST_CULL_FRONT;
    report(first(state) == Color{100, 20, 250}, "a draw culls");
    state = {};
    state.depth_test = TRIRAST_DEPTH_GREATER;
    report(first(state) == Color{100, 20, 250}, "a draw tests depths");
}

static void compare_samples() {
    bool has_all = true;
    for (const std::uint32_t samples : {1u, 2u, 4u, 8u, 16u}) {
        Canvas canvas({100, 200, samples});
        canvas.clear(WHITE);
        canvas.draw_ids(CORNERS, TRIANGLE, 70000);
        for (std::uint32_t s = 0; s < samples; s++)
            has_all &= canvas.ids(s)[101] == 70000 && canvas.ids(s).back() == 16777215;
        const std::string most = std::to_string(samples - 1), given = std::to_string(samples);
        has_all &= throws(TRIRAST_STATUS_BAD_SAMPLE, [&] { canvas.ids(samples); },
                          ": expected 0 to " + most + ", got " + given);
    }
    report(has_all, "a draw has every one of 1, 2, 4, 8 and 16 samples");
}

// ---- Polygons

// A polygon of the triangle's corners, and a ring with a hole.
static const std::array<trirast_corner, 11> RING_CORNERS = {{{0, 0}, {25600, 0}, {0, 51200}, {2560, 2560}, {7680, 2560},
                                                             {7680, 7680}, {2560, 7680}, {3840, 3840}, {3840, 5120},
                                                             {5120, 5120}, {5120, 3840}}};
static const std::vector<std::uint32_t> RING_ENDS = {3, 7, 11}, POLYGON_ENDS = {1, 3};
static const std::vector<trirast::Rgba> POLYGON_COLORS = {{9, 8, 7, 255}, {40, 50, 60, 255}};

static void compare_polygons() {
    const std::vector<std::uint16_t> depths = {7, 6};
    trirast::Polygons polygons;
    polygons.corners = RING_CORNERS, polygons.ring_ends = RING_ENDS, polygons.polygon_ends = POLYGON_ENDS,
        polygons.colors = POLYGON_COLORS;
    polygons.depths = depths;
    State state;
    state.depth_write = true;
    Canvas triangle = cleared(), wanted = cleared();
    triangle.draw(CORNERS, TRIANGLE, state);
    wanted.draw_polygons(polygons, state);
    const std::vector<std::uint8_t> pixels = wanted.pixels();
    const std::array<std::uint8_t, 3> ring = {40, 50, 60}, hole = {9, 8, 7};
    report(std::equal(ring.begin(), ring.end(), pixels.begin() + 3 * (12 * 100 + 12)) &&
               std::equal(hole.begin(), hole.end(), pixels.begin() + 3 * (16 * 100 + 16)) &&
               wanted.depths(3)[12 * 100 + 12] == 6 && wanted.depths(0)[0] == 7,
           "polygons are drawn in their colours and at their depths");
    bool is_same = true;
    for (const std::uint32_t threads : {1u, 3u, 100u})
        for (const trirast_fill_rule rule : {TRIRAST_FILL_EVEN_ODD, TRIRAST_FILL_NONZERO}) {
            polygons.fill_rule = rule;
            Canvas canvas = cleared(), ids = cleared();
            canvas.draw_polygons(polygons, state, threads);
            ids.draw_polygon_ids(polygons, 70000, state, threads);
            is_same &= canvas.pixels() == wanted.pixels() && canvas.depths(2) == wanted.depths(2) &&
                       ids.depths(2) == wanted.depths(2);
            is_same &= ids.ids(1)[0] == 70000 && ids.ids(1)[12 * 100 + 12] == 70001 && ids.ids(1).back() == 16777215;
        }
    report(is_same, "by each number of threads and by both rules the same, since the hole runs the other way round");
    polygons.polygon_ends = Span<const std::uint32_t>(POLYGON_ENDS.data(), 1),
        polygons.ring_ends = Span<const std::uint32_t>(RING_ENDS.data(), 1);
    polygons.corners = Span<const trirast_corner>(RING_CORNERS.data(), 3);
    Canvas one = cleared();
    one.draw_polygons(polygons, state);
    report(one.pixels() == triangle.pixels() && one.depths(1) == triangle.depths(1),
           "a ring of three corners is the triangle");
    one.draw_polygons(trirast::Polygons{}), one.draw_polygons(trirast_polygons{}),
        one.draw_polygon_ids(trirast_polygons{}, 5);
    report(one.pixels() == triangle.pixels(), "no polygons draw nothing");
}

static void compare_refused_polygons() {
    const std::vector<std::uint32_t> falling = {3, 2, 11}, behind = {1, 4};
    trirast::Polygons polygons;
    polygons.corners = RING_CORNERS, polygons.ring_ends = RING_ENDS, polygons.polygon_ends = POLYGON_ENDS,
        polygons.colors = POLYGON_COLORS;
    Canvas canvas = cleared();
    const auto refused = [&canvas](const trirast::Polygons &drawn, trirast_batch_cause cause,
                                   std::optional<std::size_t> element, std::uint32_t first_id = 0) {
        bool is_refused = true;
        for (const std::uint32_t threads : {1u, 4u}) {
            try {
                first_id ? canvas.draw_polygon_ids(drawn, first_id, {}, threads)
                         : canvas.draw_polygons(drawn, {}, threads);
                is_refused = false;
            } catch (const trirast::Error &error) {
                is_refused &= error.batch_cause() == cause && error.element() == element && !error.draw();
            }
        }
        return is_refused;
    };
    trirast::Polygons broken = polygons;
    broken.ring_ends = falling;
    report(refused(broken, TRIRAST_BATCH_BAD_RING, 1), "a ring that ends before it begins is refused by its index");
    broken = polygons, broken.polygon_ends = behind;
    report(refused(broken, TRIRAST_BATCH_BAD_POLYGON, 1), "so is a polygon that ends behind the rings");
    std::array<trirast_corner, 11> far = RING_CORNERS;
    far[5].y = 8388608;
    broken = polygons, broken.corners = far;
    report(refused(broken, TRIRAST_BATCH_BAD_POSITION, 5), "so is a corner that is too far away");
    broken = polygons, broken.colors = {};
    report(refused(broken, TRIRAST_BATCH_TOO_FEW_COLORS, std::nullopt) &&
               refused(polygons, TRIRAST_BATCH_TOO_MANY_IDS, std::nullopt, 16777215),
           "so are polygons without colours, and ids that are too large");
    report(canvas.pixels() == cleared().pixels(), "nothing of them is drawn");
    Canvas moved = std::move(canvas);
    report(throws(TRIRAST_STATUS_BAD_CANVAS, [&] { canvas.draw_polygons(polygons); }),
           "a canvas that was moved from draws no polygons");
}

// ---- Tiles

static void compare_tiles() {
    Canvas canvas = cleared();
    std::vector<std::uint32_t> entries(canvas.tile_entries(), 5);
    report(canvas.tile_columns() == 2 && entries.size() == 4 * 4096, "the tiles of a canvas and their entries");
    const Span<const std::uint32_t> cleared_tile = canvas.tile_ids(1, 3, entries);
    report(cleared_tile.size() == 1 && cleared_tile[0] == 16777215 && entries[1] == 5,
           "a tile that is as it was cleared has one entry");
    canvas.draw_ids(CORNERS, TRIANGLE, 70000);
    const std::vector<std::uint8_t> before = canvas.pixels();
    const Span<const std::uint32_t> drawn = canvas.tile_ids(0, 0, entries);
    report(drawn.size() == entries.size() && drawn[0] == 70000, "another has all");
    canvas.tile_store(0, 0, drawn);
    report(canvas.pixels() == before, "what was read is stored, and changes nothing");
    canvas.tile_store(0, 1, std::vector<std::uint32_t>(1, 0x030201));
    report(canvas.ids(3)[64 * 100] == 0x030201 && canvas.ids(3)[63 * 100] == 70000 && canvas.depths(3)[64 * 100] == 9,
           "one colour is that of a whole tile");
    report(throws(TRIRAST_STATUS_BAD_TILE, [&] { canvas.tile_ids(2, 0, entries); },
                  ": expected column 0 to 1 and row 0 to 3, got 2 and 0") &&
               throws(TRIRAST_STATUS_BAD_TILE, [&] { canvas.rows(1, 2).tile_store(0, 0, entries); },
                      ": expected column 0 to 1 and row 1 to 1, got 0 and 0") &&
               throws(TRIRAST_STATUS_BUFFER_TOO_SMALL,
                      [&] { canvas.tile_ids(0, 0, Span<std::uint32_t>(entries.data(), 1)); },
                      ": expected 16384 entries, got 1") &&
               throws(TRIRAST_STATUS_BUFFER_TOO_SMALL,
                      [&] { canvas.tile_store(0, 0, Span<const std::uint32_t>(entries.data(), 2)); },
                      ": expected 1 or 16384 entries, got 2"),
           "a tile that there is not and too few entries are refused");
}

static void compare_tile_blends() {
    Canvas canvas = cleared();
    canvas.tile_store(0, 1, std::vector<std::uint32_t>(1, 0x030201));
    const std::vector<std::uint32_t> colors(1, 0xFF0A0B0C);
    const std::vector<std::uint16_t> depths(1, 5);
    std::vector<std::uint64_t> kept(canvas.tile_masks());
    trirast::State nearer;
    nearer.depth_test = TRIRAST_DEPTH_LESS, nearer.depth_write = true, nearer.keep = TRIRAST_KEEP_GREEN;
    // Sample 3 of the first pixel.
    kept[3] = 1;
    canvas.tile_blend(0, 1, nearer, colors, depths, kept);
    const std::size_t pixel = 64 * 100;
    report(kept.size() == 4 * 64 && canvas.ids(3)[pixel] == 0x0A020C && canvas.depths(3)[pixel] == 5,
           "a kept sample of a tile takes the fragment by the state");
    report(canvas.ids(2)[pixel] == 0x030201 && canvas.ids(3)[pixel + 1] == 0x030201 && canvas.depths(2)[pixel] != 5,
           "and no other one does");
    kept.resize(2);
    report(throws(TRIRAST_STATUS_BAD_TILE, [&] { canvas.tile_blend(2, 0, nearer, colors, depths, kept); },
                  ": expected column 0 to 1 and row 0 to 3, got 2 and 0") &&
               throws(TRIRAST_STATUS_BUFFER_TOO_SMALL,
                      [&] { canvas.tile_blend(0, 0, nearer, {}, std::vector<std::uint16_t>(2), kept); },
                      ": expected 1 or 16384 entries, got 0") &&
               throws(TRIRAST_STATUS_BUFFER_TOO_SMALL,
                      [&] { canvas.tile_blend(0, 0, nearer, colors, std::vector<std::uint16_t>(2), kept); },
                      ": expected 1 or 16384 entries, got 2") &&
               throws(TRIRAST_STATUS_BUFFER_TOO_SMALL,
                      [&] { canvas.tile_blend(0, 0, nearer, colors, depths, kept); },
                      ": expected 1 or 256 masks, got 2"),
           "and too few fragments or masks are refused");
}

// ---- Draw lists

static void compare_lists() {
    const std::string list =
        R"({"width":3,"height":3,"draws":[{"vertices":[[128,128,0,255,255,255,255],[640,128,0,255,255,255,255],)"
        R"([128,640,0,255,255,255,255]],"triangles":[[0,1,2]]}]})";
    const trirast_image_info info = trirast::list_info(list);
    const std::vector<std::uint8_t> file = trirast::list_draw(list);
    std::vector<std::uint8_t> rows(27);
    trirast::list_draw_rows(list, 0, 1, rows, 8);
    report(info.width == 3 && file.size() == info.file_bytes && file[11] == 255 &&
               std::equal(rows.begin(), rows.end(), file.begin() + 11),
           "a draw list is drawn, whole and by tile rows");
    const trirast::History all = trirast::list_history(list, 1, 1, 0, true),
                           covering = trirast::list_history(list, 1, 1);
    report(all.events.size() == 1 && all.events[0].reasons == TRIRAST_REASON_NOT_COVERED && covering.events.empty() &&
               covering.info.end.depth == 65535,
           "the history of a sample");
    const trirast_sample_counts counts = trirast::list_triangle_samples(list, 0, 0);
    report(counts.covered == 3 && counts.shown == 3, "the samples of a triangle");
    try {
        trirast::list_info("{");
        report(false, "a text that is no list is refused");
    } catch (const trirast::Error &error) {
        report(error.list_cause() == TRIRAST_LIST_NOT_JSON && error.batch_cause() == 0 && !error.draw(),
               "a text that is no list is refused");
    }
    report(throws(TRIRAST_STATUS_BUFFER_TOO_SMALL, [&] { trirast::list_draw(list, Span<std::uint8_t>(rows)); },
                  ": expected the file_bytes of list_info, got " + std::to_string(rows.size())) &&
               throws(TRIRAST_STATUS_BAD_TILE_SIZE, [&] { trirast::list_draw(list, 9); },
                      ": expected 8, 16, 32 or 64 pixels, got 9") &&
               throws(TRIRAST_STATUS_BAD_PIXEL, [&] { trirast::list_history(list, 3, 0); },
                      ": expected one of the picture, got 3 and 0"),
           "so are a buffer that is too small and a pixel that there is not");
}

// ---- Threads

static void compare_threads() {
    Canvas wanted = cleared(), shared = cleared(), executed = cleared();
    wanted.draw(CORNERS, TRIANGLE);
    std::vector<std::uint8_t> pixels(3 * 100 * 200);
    shared.share(4, [&pixels](TileRows &part) {
        part.clear(WHITE);
        part.draw(CORNERS, TRIANGLE);
        const std::size_t stride = 300;
        part.resolve(TRIRAST_FORMAT_RGB8, {pixels.data() + stride * part.top(), stride * part.height()}, stride);
    });
    report(pixels == wanted.pixels(), "a frame is shared by threads");
    std::vector<std::function<void()>> tasks;
    std::size_t waited = 0;
    executed.share(
        4, [](TileRows &part) { part.draw(CORNERS, TRIANGLE); },
        [&tasks](std::function<void()> task) { tasks.push_back(std::move(task)); },
        [&tasks, &waited] {
            waited = tasks.size();
            for (const std::function<void()> &task : tasks) task();
        });
    report(waited == 3 && executed.pixels() == wanted.pixels(), "a frame is shared by an executor");
    bool is_thrown = false;
    try {
        shared.share(4, [](TileRows &part) {
            if (part.first() == 2) throw std::logic_error("the third part");
        });
    } catch (const std::logic_error &error) {
        is_thrown = std::string(error.what()) == "the third part";
    }
    report(is_thrown, "what a thread throws is thrown again");
}

// ---- Errors

// A vertex that is too far away is named with its place, on the screen and as seen from an origin.
static void compare_far_vertices(Canvas &canvas) {
    auto corners = CORNERS;
    corners[1].x = 8388608;
    trirast_draw draws[2] = {};
    draws[0].vertex_count = draws[1].vertex_count = 3;
    const trirast_vertex both[] = {CORNERS[0], CORNERS[1], CORNERS[2], corners[0], corners[1], corners[2]};
    trirast_batch batch = {};
    batch.draws = draws, batch.draw_count = 2, batch.vertices = both, batch.vertex_count = 6;
    const std::string place = "vertex 1 is out of range, got x 8388608 and y 0 in 1/256 pixel (32768 and 0 pixels); x";
    const std::string range = ": -8388608 to 8388607 (-32768 to 32767.99609375 pixels)";
    CanvasOptions window;
    window.width = window.height = 1, window.origin = {-5, 0};
    try {
        canvas.draw_batch(batch, 3);
        report(false, "a vertex that is too far away is refused");
    } catch (const trirast::Error &error) {
        report(error.what() == "draw 1: " + place + range && error.draw() == 1u && error.element() == 1u,
               "a vertex that is too far away is refused, and where it is");
    }
    try {
        Canvas(window).draw(corners);
        report(false, "one that is so from an origin is refused");
    } catch (const trirast::Error &error) {
        report(error.what() ==
                   "draw 0: " + place + " with the origin -5: -8388608 to 8387327 (-32768 to 32762.99609375 pixels)",
               "one that is so from an origin is refused, and where it is");
    }
}

static void compare_refused_batches(Canvas &canvas) {
    const std::uint32_t indices[] = {0, 1, 3};
    for (const std::uint32_t threads : {1u, 4u}) {
        try {
            canvas.draw(CORNERS, indices, {}, threads);
            report(false, "a batch with an index past the vertices is refused");
        } catch (const trirast::Error &error) {
            report(error.status() == TRIRAST_STATUS_BAD_BATCH && error.batch_cause() == TRIRAST_BATCH_BAD_INDEX &&
                       error.draw() == 0u && error.element() == 2u && error.value() == 3u &&
                       std::string(error.what()) ==
                           "draw 0: index 2 is 3, which is not less than the number of vertices: 3",
                   "a batch with an index past the vertices is refused, and where it is");
        }
    }
    trirast_batch batch = {};
    const trirast_draw draw = {};
    batch.draws = &draw, batch.draw_count = 1, batch.vertices = CORNERS.data(), batch.vertex_count = 3;
    try {
        canvas.draw_batch(batch);
        report(false, "a batch with vertices of no draw is refused");
    } catch (const trirast::Error &error) {
        report(error.batch_cause() == TRIRAST_BATCH_LEFT_OVER && !error.draw(),
               "a batch with vertices of no draw is refused");
    }
    batch.draws = nullptr, batch.draw_count = 0;
    batch.vertex_stride = 12;
    report(throws(TRIRAST_STATUS_BAD_STRIDE, [&] { canvas.draw_batch(batch); },
                  ": expected a multiple of 4 from 16 to 2048 bytes, or 0, got 12"),
           "a stride that is too short is refused");
    batch.vertex_stride = 0, batch.index_size = 3;
    report(throws(TRIRAST_STATUS_BAD_INDEX_SIZE, [&] { canvas.draw_batch(batch); },
                  ": expected 2 or 4 bytes, or 0, got 3"),
           "so is a size of an index");
    compare_far_vertices(canvas);
    State state;
    state.topology = static_cast<trirast_topology>(3);
    try {
        canvas.draw(CORNERS, {}, state);
        report(false, "a topology that there is not is refused");
    } catch (const trirast::Error &error) {
        report(error.batch_cause() == TRIRAST_BATCH_BAD_TOPOLOGY, "a topology that there is not is refused");
    }
}

static void compare_errors() {
    Canvas canvas = cleared();
    const std::vector<std::uint8_t> before = canvas.pixels(TRIRAST_FORMAT_RGBA8);
    std::vector<std::uint8_t> small(299);
    std::vector<std::uint16_t> depths(20000);
    const std::string sizes = ": expected 1 to 4096 pixels a side and 1, 2, 4, 8 or 16 samples a pixel, got ";
    report(throws(TRIRAST_STATUS_BAD_CANVAS, [] { Canvas({0, 1}); }, sizes + "0 by 1 and 1") &&
               throws(TRIRAST_STATUS_BAD_CANVAS, [] { Canvas({1, 4097}); }, sizes + "1 by 4097 and 1") &&
               throws(TRIRAST_STATUS_BAD_CANVAS, [] { Canvas({1, 1, 3}); }, sizes + "1 by 1 and 3"),
           "a canvas that there is not is an exception");
    report(throws(TRIRAST_STATUS_BAD_TILE_ROWS, [&] { canvas.rows(0, 5); }, ": expected 0 to 4, got 0 to 5") &&
               throws(TRIRAST_STATUS_BAD_TILE_ROWS, [&] { canvas.rows(2, 1); }, ": expected 0 to 4, got 2 to 1"),
           "so are tile rows");
    report(throws(TRIRAST_STATUS_BUFFER_TOO_SMALL, [&] { canvas.resolve(TRIRAST_FORMAT_RGB8, small); },
                  ": expected 60000 bytes for 200 rows at a stride of 300, got 299") &&
               throws(TRIRAST_STATUS_BUFFER_TOO_SMALL, [&] { canvas.load(TRIRAST_FORMAT_RGB8, small, 299); },
                      ": expected a stride of at least 300 bytes, or 0, got 299"),
           "so is a buffer that is too small");
    report(throws(TRIRAST_STATUS_BAD_FORMAT, [&] { canvas.resolve(static_cast<trirast_format>(7), small); },
                  ": expected 0 to 4, got 7"),
           "so is a format");
    report(throws(TRIRAST_STATUS_BAD_STRIDE, [&] { canvas.depths(0, depths, 201); },
                  ": expected a multiple of 2 bytes, got 201"),
           "so is a stride of parts of an entry");
    report(throws(TRIRAST_STATUS_BAD_SAMPLE, [&] { canvas.ids(4); }, ": expected 0 to 3, got 4"), "so is a sample");
    compare_refused_batches(canvas);
    report(canvas.pixels(TRIRAST_FORMAT_RGBA8) == before, "nothing of them is drawn");
    const trirast_corners corners = {0, 0, 256, 0, 0, 256};
    const std::vector<trirast_point> points = {{64, 32}, {128, 128}};
    const std::vector<trirast_edges> edges = trirast::edges_at(corners, points);
    report(edges.size() == 2 && edges[0].a == 40960 && edges[0].covered == 1 && edges[1].covered == 0,
           "edge functions at points");
    report(throws(TRIRAST_STATUS_BAD_POSITION,
                  [&] { trirast::edges_at(corners, std::vector<trirast_point>{{0, 0}, {8388608, 0}}); },
                  ": expected points[1] of -8388608 to 8388607, got x 8388608 and y 0 in 1/256 pixel (32768 and 0 "
                  "pixels); x: -8388608 to 8388607 (-32768 to 32767.99609375 pixels)") &&
               throws(TRIRAST_STATUS_BAD_POSITION, [&] { trirast::edges_at({0, 0, 0, -8388609, 1, 1}, points); },
                      ": expected b of -8388608 to 8388607, got x 0 and y -8388609 in 1/256 pixel (0 and "
                      "-32768.00390625 pixels); y: -8388608 to 8388607 (-32768 to 32767.99609375 pixels)"),
           "a point that is too far away is an exception");
}

// ---- Types

// A struct of another size, whose pointer is a pointer to a vertex.
struct Labelled : trirast_vertex {
    int label;
};

template <class From>
constexpr bool is_vertices = std::is_constructible_v<Span<const trirast_vertex>, From>;

template <class From>
constexpr bool is_indices = std::is_constructible_v<trirast::Indices, From>;

static void compare_spans() {
    static_assert(is_vertices<std::vector<trirast_vertex> &> && is_vertices<const std::array<trirast_vertex, 3> &> &&
                      is_vertices<const trirast_vertex(&)[3]> && is_vertices<Span<trirast_vertex>>,
                  "vertices one after another are a span");
    static_assert(!is_vertices<std::vector<Labelled> &> && !is_vertices<std::array<Labelled, 3>> &&
                      !is_vertices<Labelled(&)[3]> && !is_vertices<Span<Labelled>>,
                  "elements of another size are none");
    static_assert(std::is_constructible_v<Span<const trirast_vertex>, trirast_vertex *, std::size_t> &&
                      !std::is_constructible_v<Span<const trirast_vertex>, Labelled *, std::size_t>,
                  "and no pointer to them");
    static_assert(!std::is_constructible_v<Span<std::uint8_t>, const std::vector<std::uint8_t> &>,
                  "what is const is not written to");
    static_assert(is_indices<std::vector<std::uint16_t> &> && is_indices<const std::uint32_t(&)[3]> &&
                      is_indices<std::array<std::uint32_t, 3>>,
                  "indices have 16 or 32 bits");
    static_assert(!is_indices<std::vector<int> &> && !is_indices<std::vector<std::uint64_t> &> && !is_indices<State>,
                  "and nothing else");
    const Span<const trirast_vertex> span = CORNERS;
    report(span.data() == CORNERS.data() && span.size() == 3 && Span<int>().size() == 0, "an array is a span");
}

static void compare_moves() {
    static_assert(!std::is_copy_constructible_v<Canvas> && !std::is_copy_assignable_v<Canvas>,
                  "one canvas owns its memory");
    static_assert(
        !std::is_constructible_v<TileRows, const Canvas &> && !std::is_constructible_v<TileRows, const TileRows &> &&
            !std::is_assignable_v<TileRows &, const Canvas &> && !std::is_constructible_v<TileRows, const Canvas>,
        "a const canvas has no tile rows that can be written to");
    static_assert(!std::is_constructible_v<TileRows, Canvas> && !std::is_assignable_v<TileRows &, Canvas>,
                  "a canvas's tile rows do not leave its memory behind");
    static_assert(std::is_move_constructible_v<Canvas> && std::is_move_assignable_v<Canvas> &&
                      std::is_move_assignable_v<TileRows>,
                  "both are moved");
    Canvas first = cleared();
    const void *memory = first.in_c().memory;
    Canvas second = std::move(first);
    report(second.in_c().memory == memory && second.ids().front() == 16777215, "a canvas is moved with its memory");
    report(throws(TRIRAST_STATUS_BAD_CANVAS, [&] { first.clear(); }) && first.split(4).empty(),
           "one that was moved from has no samples");
    TileRows rows = second.rows(1, 3);
    TileRows later = std::move(rows);
    report(later.first() == 1 && later.end() == 3 && rows.first() == rows.end(), "tile rows are moved");
    second = Canvas({1, 1});
    report(second.width() == 1 && second.height() == 1 && second.samples() == 1, "a canvas is assigned");
}

int main() {
    compare_pictures();
    compare_large_canvas();
    compare_entries();
    compare_indices();
    compare_states();
    compare_samples();
    compare_polygons();
    compare_refused_polygons();
    compare_tiles();
    compare_tile_blends();
    compare_lists();
    compare_threads();
    compare_errors();
    compare_spans();
    compare_moves();
    return has_failed ? 1 : 0;
}
