// Tests of trirast_frame.hpp and trirast_layer.hpp, and of keys and objects of trirast_shade.hpp, against one canvas of
// the whole frame that is drawn by one thread.
//
//     main [--bytes]
//
// A line FAILED says what is wrong; then the exit status is 1. --bytes writes a frame, to compare compilers.
#include <algorithm>
#include <array>
#include <atomic>
#include <cstdio>
#include <cstring>
#include <functional>
#include <stdexcept>
#include <string>
#include <thread>
#include <utility>
#include <vector>

#include "numbers.hpp"
#include "trirast_frame.hpp"

namespace {

using trirast::Floats;
using trirast::Integers;
using Bytes = std::vector<std::uint8_t>;
using Values = trirast::Attributes<3>;
using Indices = std::vector<std::uint32_t>;

bool has_failed = false;

void must(bool holds, const char *what) {
    if (holds || has_failed) return;
    std::printf("FAILED %s\n", what);
    has_failed = true;
}

constexpr trirast::Color BACKGROUND{20, 30, 40};

// ---- What is drawn

struct Model {
    std::vector<trirast::ClipPosition> positions;
    std::vector<Values::Values> values;
    Indices indices;
};

Model model_of(scene::Numbers &numbers, std::uint32_t triangles, double size) {
    Model found;
    for (std::uint32_t k = 0; k < triangles; k++) {
        const double w = numbers.within(0.4, 4), x = numbers.within(-1.1, 1.1), y = numbers.within(-1.1, 1.1);
        for (int c = 0; c < 3; c++) {
            const double own = w * numbers.within(0.6, 1.5);
            const auto near = [&](double v) { return static_cast<float>(own * (v + numbers.within(-size, size))); };
            found.positions.push_back(
                {near(x), near(y), static_cast<float>(own * numbers.within(-0.05, 0.95)), static_cast<float>(own)});
            const auto number = [&] { return static_cast<float>(numbers.within(0, 255)); };
            found.values.push_back({number(), number(), number()});
            found.indices.push_back(3 * k + static_cast<std::uint32_t>(c));
        }
    }
    return found;
}

trirast::Clipped clipped(const Model &model, std::uint32_t width, std::uint32_t height) {
    trirast::Clip clip{};
    clip.width = static_cast<std::int32_t>(width), clip.height = static_cast<std::int32_t>(height);
    trirast::Clipped seen;
    trirast::clip_triangles(clip, model.positions, model.indices, seen);
    return seen;
}

trirast::State nearest() {
    trirast::State state;
    state.depth_test = TRIRAST_DEPTH_LESS, state.depth_write = true;
    return state;
}

// Interpolated colours. It counts fragments, and whether eight ever had several keys. As a layer it has the colours of
// triangles, by their ids, and discards every third pixel if it is told to.
struct Shader {
    const Values *values = nullptr;
    const trirast::TriangleKeys *keys = nullptr;
    std::atomic<std::size_t> *fragments = nullptr;
    bool discards = false;
    int throws_after = -1;

    void operator()(const trirast::Fragments &at, trirast::Colors &out) {
        const Values::Corners corner = values->of(at.id);
        out.red = at.value(corner[0]), out.green = at.value(corner[1]), out.blue = at.value(corner[2]);
        if (fragments)
            for (std::size_t k = 0; k < 8; k++) *fragments += at.used[k] != 0;
    }
    void operator()(std::uint32_t key, const trirast::Fragments &at, trirast::Colors &out) {
        for (std::size_t k = 0; k < 8; k++)
            must(keys->data()[static_cast<std::uint32_t>(at.id[k])] == key, "keys: eight fragments have several");
        (*this)(at, out);
    }
    void operator()(const trirast::Fragments &at, trirast::LayerColors &out) {
        if (throws_after >= 0 && throws_after-- == 0) throw std::runtime_error("the shader throws");
        const Integers id = at.id;
        out.red = to_floats((id * 37 + 11) & 255), out.green = to_floats((id * 91) & 255);
        out.blue = to_floats((id * 5 + 200) & 255), out.alpha = to_floats((id * 53 + 90) & 255);
        if (discards) out.discarded = is_discarded(at.x >> 8, at.y >> 8);
    }
    static Integers is_discarded(const Integers &x, const Integers &y) { return ((x + y * 5) & 3) == 0; }
};

// ---- The whole frame on a canvas, by one thread

struct Case {
    std::uint32_t width, height, samples;
};

trirast::Canvas canvas_of(const Case &as) {
    trirast::CanvasOptions options;
    options.width = as.width, options.height = as.height, options.samples = as.samples;
    return trirast::Canvas(options);
}

struct Drawn {
    Drawn(scene::Numbers &numbers, const Case &as, std::uint32_t count)
        : model(model_of(numbers, count, 0.3)), seen(clipped(model, as.width, as.height)), triangles(seen),
          values(seen, model.indices, model.values), canvas(canvas_of(as)) {
        canvas.clear({255, 255, 255});
        canvas.draw_ids(seen.vertices, seen.indices, 0, nearest());
        trirast::shade(canvas, triangles, trirast::Rate::pixel, BACKGROUND, Shader{&values});
    }

    Model model;
    trirast::Clipped seen;
    trirast::ShadeTriangles triangles;
    Values values;
    trirast::Canvas canvas;
};

// ---- Pools

template <class Call>
std::string text_of(const Call &call) {
    try {
        call();
    } catch (const std::exception &error) {
        return error.what();
    }
    return "";
}

void last_first(std::size_t count, const std::function<void(std::size_t)> &job) {
    while (count > 0) job(--count);
}

void each_on_its_own(std::size_t count, const std::function<void(std::size_t)> &job) {
    std::vector<std::thread> threads;
    for (std::size_t k = 0; k < count; k++) threads.emplace_back([&job, k] { job(k); });
    for (std::thread &thread : threads) thread.join();
}

void check_pool() {
    for (unsigned threads : {1u, 2u, 5u}) {
        const trirast::Pool pool(threads);
        must(pool.threads() == threads, "pool: another number of threads");
        for (std::size_t count : {0u, 1u, 3u, 40u}) {
            std::vector<std::atomic<int>> calls(count);
            pool(count, [&](std::size_t k) { calls[k]++; });
            for (const std::atomic<int> &each : calls) must(each == 1, "pool: a job is not called once");
        }
        trirast::Canvas canvas = canvas_of({10, 200, 1});
        std::atomic<std::uint32_t> rows{0};
        canvas.share(3, [&](trirast::TileRows &part) { rows += part.height(); }, pool);
        must(rows == 200, "share: not each row once by a pool");
        must(text_of([&] {
                 canvas.share(3, [](trirast::TileRows &part) { part.rows(9, 9); }, pool);
             }) != "", "share: what work throws is lost");
    }
}

// ---- Frames

template <class Jobs>
Bytes frame_of(const Drawn &drawn, const Case &as, unsigned threads, std::uint32_t columns, const Jobs &jobs) {
    trirast::FrameOptions options;
    options.width = as.width, options.height = as.height, options.samples = as.samples, options.tile_columns = columns;
    trirast::Frame frame(options, threads);
    trirast::FrameTriangles list;
    Bytes pixels(3 * std::size_t{as.width} * as.height);
    for (int turn = 0; turn < 2; turn++) { // the first leaves memory of fewer triangles
        list.set(frame, drawn.seen.vertices, {drawn.seen.indices.data(), turn ? drawn.seen.indices.size() : 3}, jobs);
        frame.draw(jobs, [&](trirast::FrameTile &tile) {
            const trirast::RowTriangles &own = tile.select(list);
            tile.draw_ids(list.vertices(), own.indices(), 0, nearest());
            tile.shade(drawn.triangles, own, trirast::Rate::pixel, BACKGROUND, Shader{&drawn.values});
            tile.resolve_to(TRIRAST_FORMAT_RGB8, pixels);
        });
    }
    return pixels;
}

void check_frames(scene::Numbers &numbers) {
    for (const Case &as : {Case{200, 150, 4}, Case{64, 64, 1}, Case{129, 65, 1}, Case{30, 260, 2}}) {
        const Drawn drawn(numbers, as, 40);
        const Bytes wanted = drawn.canvas.pixels();
        for (std::uint32_t columns : {1u, 2u, 4u})
            must(frame_of(drawn, as, 3, columns, last_first) == wanted, "frame: not that of a canvas");
        for (unsigned threads : {1u, 2u, 8u})
            must(frame_of(drawn, as, threads, 1, trirast::Pool(threads)) == wanted, "frame: other bytes by threads");
        must(frame_of(drawn, as, 4, 2, each_on_its_own) == wanted, "frame: other bytes by another pool");
    }
}

bool has(const std::string &text, const char *part) { return text.find(part) != std::string::npos; }

void check_refused() {
    trirast::FrameOptions options;
    options.width = 100, options.height = 70;
    must(has(text_of([] { trirast::Frame({0, 70, 1, false, 1}); }), "0 by 70 and 1"), "frame: no width is accepted");
    trirast::Frame frame(options, 2);
    must(frame.tiles() == 2 && frame.rows() == 2 && frame.threads() == 2, "frame: another number of tiles");
    Bytes pixels(3 * 100 * 70 - 1);
    const auto resolve = [&](std::size_t stride) {
        return text_of([&] {
            frame.draw(last_first,
                       [&](trirast::FrameTile &tile) { tile.resolve_to(TRIRAST_FORMAT_RGB8, pixels, stride); });
        });
    };
    must(has(resolve(0), "21000 bytes for 70 rows at a stride of 300, got 20999"), "frame: too few bytes");
    must(has(resolve(299), "a stride of at least 300 bytes"), "frame: a small stride");
    pixels.push_back(0);
    must(resolve(0).empty(), "frame: enough bytes are refused");
    const std::string thrown = text_of([&] {
        frame.draw(trirast::Pool(2), [](trirast::FrameTile &tile) {
            if (tile.at().y > 0) throw std::runtime_error("of the second row");
        });
    });
    must(thrown == "of the second row", "frame: what work throws is lost");
}

// ---- Keys and objects

// Whether the attributes of some triangles are those from `first` on of more.
bool are_at(const Values &all, std::size_t first, const Values &some) {
    bool same = all.size() == first + some.size();
    for (std::size_t k = 0; same && k < some.size(); k++) {
        const auto numbers = [](const Values &of, std::size_t id) { return of.of(static_cast<std::int32_t>(id)); };
        const Values::Corners a = numbers(all, first + k), b = numbers(some, k);
        for (std::size_t n = 0; n < 9; n++) same &= a.number[n][0] == b.number[n][0];
    }
    return same;
}

void check_objects(scene::Numbers &numbers) {
    for (const Case &as : {Case{150, 100, 4}, Case{90, 70, 1}}) {
        trirast::Objects objects;
        Values values;
        std::vector<trirast::Clipped> parts;
        objects.append(clipped(model_of(numbers, 5, 1), as.width, as.height)), objects.clear();
        for (std::uint32_t k = 0; k < 4; k++) {
            const Model model = model_of(numbers, 3 * k * k, 0.2); // the first has none
            parts.push_back(clipped(model, as.width, as.height));
            must(objects.append(parts.back(), k % 3 * 7) == k, "objects: another number");
            const std::size_t before = values.size();
            values.append(parts.back(), model.indices, model.values);
            must(are_at(values, before, {parts.back(), model.indices, model.values}), "attributes: others are added");
        }
        std::uint32_t id = 0;
        for (std::uint32_t k = 0; k < parts.size(); k++)
            for (std::uint32_t source : parts[k].sources) {
                const trirast::Objects::Place place = objects.place(id++);
                must(place.object == k && place.triangle == source, "objects: an id tells another place");
            }
        must(id == objects.triangles().size() && id == values.size(), "objects: another number of triangles");

        trirast::Canvas one = canvas_of(as), each = canvas_of(as), keyed = canvas_of(as);
        for (trirast::Canvas *canvas : {&one, &each, &keyed}) canvas->clear({255, 255, 255});
        one.draw_ids(objects.vertices(), objects.indices(), 0, nearest());
        keyed.draw_ids(objects.vertices(), objects.indices(), 0, nearest());
        std::uint32_t first = 0;
        for (const trirast::Clipped &part : parts) {
            each.draw_ids(part.vertices, part.indices, first, nearest());
            first += static_cast<std::uint32_t>(part.indices.size() / 3);
        }
        must(one.ids(0) == each.ids(0), "objects: other ids than one by one");
        std::atomic<std::size_t> all{0}, with_keys{0};
        trirast::shade(one, objects.triangles(), trirast::Rate::pixel, BACKGROUND, Shader{&values, nullptr, &all});
        trirast::shade(keyed, objects.triangles(), objects.keys(), trirast::Rate::pixel, BACKGROUND,
                       Shader{&values, &objects.keys(), &with_keys});
        must(all > 100 && all == with_keys, "keys: other fragments");
        for (std::uint32_t s = 0; s < as.samples; s++)
            must(one.colors(s) == keyed.colors(s), "keys: other colours");
        trirast::TriangleKeys few;
        few.append(2, 1);
        must(text_of([&] {
                 trirast::shade(keyed, objects.triangles(), few, trirast::Rate::pixel, BACKGROUND, Shader{&values});
             }) == "keys: expected one for each of " + std::to_string(id) + " triangles, got 2",
             "keys: too few are accepted");
    }
}

// ---- Layers

// The shader's colour and alpha of a triangle of a layer.
std::array<std::uint32_t, 4> color_of(std::uint32_t id) {
    return {(id * 37 + 11) & 255, (id * 91) & 255, (id * 5 + 200) & 255, (id * 53 + 90) & 255};
}

constexpr std::pair<trirast::LayerBlend, trirast_blend> BLENDS[] = {
    {trirast::LayerBlend::over, trirast::blend_over},
    {trirast::LayerBlend::premultiplied, trirast::blend_premultiplied},
    {trirast::LayerBlend::add, trirast::blend_add},
    {trirast::LayerBlend::multiply, trirast::blend_multiply},
};

// A channel of 0 to 255, rounded to the nearest byte once.
std::uint32_t joined(trirast::LayerBlend blend, std::uint32_t source, std::uint32_t alpha, std::uint32_t stored) {
    const std::uint32_t sum = blend == trirast::LayerBlend::over            ? source * alpha + stored * (255 - alpha)
                              : blend == trirast::LayerBlend::premultiplied ? source * 255 + stored * (255 - alpha)
                              : blend == trirast::LayerBlend::add           ? source * alpha + stored * 255
                                                                            : source * stored;
    return std::min((2 * sum + 255) / 510, 255u);
}

// A frame with solid triangles, and a layer of others.
struct Layered {
    Layered(scene::Numbers numbers, const Case &as) : drawn(numbers, as, 30), ids(canvas_of(as)) {
        for (int k = 0; k < 1000; k++) numbers.next();
        sheet = clipped(model_of(numbers, 12, 0.6), as.width, as.height);
        triangles.append(sheet);
        ids.clear({255, 255, 255});
        ids.draw_ids(drawn.seen.vertices, drawn.seen.indices, 0, nearest());
    }

    trirast::Layer layer() const { return {sheet.vertices, sheet.indices, triangles}; }

    Drawn drawn;
    trirast::Clipped sheet;
    trirast::ShadeTriangles triangles;
    trirast::Canvas ids; // of the solid triangles, and then of the layer's behind them
};

// Each sample is blended once, by the triangle of the layer that it shows, or stays.
void check_samples(const scene::Numbers &numbers, const Case &as, trirast::LayerBlend blend, bool writes_depth,
                   bool discards) {
    Layered at(numbers, as);
    const std::uint32_t first = static_cast<std::uint32_t>(at.drawn.triangles.size());
    trirast::Layer layer = at.layer();
    layer.blend = blend, layer.state.depth_write = writes_depth;
    at.ids.draw_ids(layer.vertices, layer.indices, first, layer.state);
    std::vector<Bytes> before;
    for (std::uint32_t s = 0; s < as.samples; s++) before.push_back(at.drawn.canvas.colors(s));
    trirast::LayerMemory memory;
    Shader shader;
    shader.discards = discards;
    trirast::blend_layer(at.drawn.canvas, layer, shader, memory);
    std::size_t count = 0;
    for (std::uint32_t s = 0; s < as.samples; s++) {
        const Bytes after = at.drawn.canvas.colors(s);
        const std::vector<std::uint32_t> ids = at.ids.ids(s);
        must(at.drawn.canvas.depths(s) == at.ids.depths(s), "layer: other depths");
        for (std::size_t k = 0; k < ids.size(); k++) {
            const std::int32_t x = static_cast<std::int32_t>(k % as.width), y = static_cast<std::int32_t>(k / as.width);
            const bool shows = ids[k] >= first && ids[k] != trirast::no_triangle &&
                               !(discards && Shader::is_discarded(x, y)[0]);
            count += shows;
            for (std::size_t c = 0; c < 3; c++) {
                const std::array<std::uint32_t, 4> color = color_of(ids[k] - first);
                const std::uint32_t stored = before[s][4 * k + c];
                must(after[4 * k + c] == (shows ? joined(blend, color[c], color[3], stored) : stored),
                     "layer: another colour");
            }
        }
    }
    must(count > 200, "layer: it is hardly seen");
}

// A triangle that is a layer is the same as one that is drawn.
void check_drawn(const scene::Numbers &numbers, const Case &as, trirast::LayerBlend blend, const trirast_blend &by) {
    Layered one(numbers, as), other(numbers, as);
    const std::array<std::uint32_t, 4> color = color_of(0);
    trirast::State state = trirast::Layer::tested();
    state.blend = by;
    for (trirast_vertex &v : other.sheet.vertices) {
        const auto byte = [&](std::size_t c) { return static_cast<std::uint8_t>(color[c]); };
        v.red = byte(0), v.green = byte(1), v.blue = byte(2), v.alpha = byte(3);
    }
    trirast::LayerMemory memory;
    for (std::size_t k = 0; k < 5; k++) {
        const trirast::Span<const std::uint32_t> indices(&one.sheet.indices[3 * k], 3);
        trirast::ShadeTriangles triangles;
        triangles.append(one.sheet.vertices, one.sheet.w, indices);
        trirast::Layer layer{one.sheet.vertices, indices, triangles};
        layer.blend = blend;
        trirast::blend_layer(one.drawn.canvas, layer, Shader{}, memory);
        other.drawn.canvas.draw(other.sheet.vertices, indices, state);
    }
    for (std::uint32_t s = 0; s < as.samples; s++)
        must(one.drawn.canvas.colors(s) == other.drawn.canvas.colors(s), "layer: not what draw blends");
}

// If the shader throws, tiles are blended or as before, and none is left white.
void check_thrown(const scene::Numbers &numbers, const Case &as) {
    Layered one(numbers, as), other(numbers, as);
    trirast::LayerMemory memory;
    Shader shader;
    trirast::blend_layer(other.drawn.canvas, other.layer(), shader, memory);
    const Bytes before = one.drawn.canvas.colors(0), blended = other.drawn.canvas.colors(0);
    shader.throws_after = 40;
    must(text_of([&] { trirast::blend_layer(one.drawn.canvas, one.layer(), shader, memory); }) == "the shader throws",
         "layer: what the shader throws is lost");
    const Bytes after = one.drawn.canvas.colors(0);
    must(after != blended, "layer: it is blended though the shader throws");
    for (std::size_t k = 0; k < after.size(); k++)
        must(after[k] == before[k] || after[k] == blended[k], "layer: another colour after the shader throws");
}

// By the tiles of a frame it is the same.
void check_tiles(const scene::Numbers &numbers, const Case &as) {
    Layered at(numbers, as);
    trirast::LayerMemory memory;
    trirast::blend_layer(at.drawn.canvas, at.layer(), Shader{}, memory);
    trirast::Frame frame({as.width, as.height, as.samples, false, 2}, 3);
    const trirast::Pool pool(3);
    trirast::FrameTriangles solid, glass;
    solid.set(frame, at.drawn.seen.vertices, at.drawn.seen.indices, pool);
    glass.set(frame, at.sheet.vertices, at.sheet.indices, pool);
    Bytes pixels(4 * std::size_t{as.width} * as.height);
    frame.draw(pool, [&](trirast::FrameTile &tile) {
        const trirast::RowTriangles *own = &tile.select(solid);
        tile.draw_ids(solid.vertices(), own->indices(), 0, nearest());
        tile.shade(at.drawn.triangles, *own, trirast::Rate::pixel, BACKGROUND, Shader{&at.drawn.values});
        trirast::Layer layer = at.layer();
        layer.own = &tile.select(glass);
        tile.blend(layer, Shader{});
        tile.resolve_to(TRIRAST_FORMAT_BGRA8, pixels);
    });
    must(pixels == at.drawn.canvas.pixels(TRIRAST_FORMAT_BGRA8), "layer: other bytes by tiles of a frame");
}

void check_layers(scene::Numbers &numbers) {
    for (const Case &as : {Case{150, 100, 4}, Case{70, 66, 1}}) {
        for (const auto &[blend, equation] : BLENDS) {
            check_samples(numbers, as, blend, false, false);
            check_drawn(numbers, as, blend, equation);
        }
        check_samples(numbers, as, trirast::LayerBlend::over, true, true);
        check_samples(numbers, as, trirast::LayerBlend::multiply, false, true);
        check_thrown(numbers, as), check_tiles(numbers, as);
    }
}

} // namespace

int main(int count, char **words) {
    scene::Numbers numbers(3);
    if (count > 1 && !std::strcmp(words[1], "--bytes")) {
        const Case as{200, 150, 4};
        const Bytes pixels = frame_of(Drawn(numbers, as, 40), as, 1, 4, last_first);
        std::fwrite(pixels.data(), 1, pixels.size(), stdout);
        return 0;
    }
    check_pool();
    check_frames(numbers);
    check_refused();
    check_objects(numbers);
    check_layers(numbers);
    if (!has_failed) std::printf("all hold\n");
    return has_failed;
}
