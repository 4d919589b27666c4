// Random triangles in clip space, cut by random viewports, drawn by ids on a canvas in the viewport and shaded, in C
// and in C++: for AddressSanitizer, with every array as large as it has to be.
//
//     clip_and_shade [--seconds COUNT] [--scenes COUNT] [--seed FIRST]
//
// Prints what was counted. Exit status 1 if anything is another than it has to be.
#define TRIRAST_CHECKS
#include <chrono>
#include <cmath>
#include <cstdio>
#include <cstdlib>
#include <cstring>
#include <functional>
#include <limits>
#include <memory>
#include <string>
#include <vector>

#include "trirast_clip.hpp"
#include "trirast_shade.hpp"

namespace {

std::uint64_t seed = 0;
std::size_t wrongs = 0, triangles = 0, cuts = 0, fragments = 0, refused = 0;

void expect(bool holds, const char *what) {
    if (!holds && wrongs++ < 20) std::printf("scene %llu: %s\n", static_cast<unsigned long long>(seed), what);
}

// splitmix64 (Steele, Lea and Flood, 2014).
struct Numbers {
    std::uint64_t state;

    std::uint64_t next() {
        std::uint64_t z = state += 0x9E3779B97F4A7C15u;
        z = (z ^ z >> 30) * 0xBF58476D1CE4E5B9u;
        z = (z ^ z >> 27) * 0x94D049BB133111EBu;
        return z ^ z >> 31;
    }
    std::uint32_t below(std::uint32_t count) { return static_cast<std::uint32_t>(next() % count); }
    std::int32_t between(std::int32_t least, std::int32_t greatest) {
        return least + static_cast<std::int32_t>(below(static_cast<std::uint32_t>(greatest - least) + 1));
    }
    bool one_in(std::uint32_t times) { return below(times) == 0; }
    double share() { return static_cast<double>(next() >> 11) / 9007199254740992.0; }
};

// ---- What goes in

std::int32_t any_side(Numbers &from) {
    static const std::int32_t known[] = {1, 2, 1020, 2000, 4000, 16384};
    if (from.one_in(3)) return known[from.below(6)];
    return from.one_in(60) ? from.between(-3, 0) + 16385 * from.between(0, 1)
                           : from.between(1, from.one_in(3) ? 16384 : 300);
}

std::int32_t any_start(Numbers &from, std::int32_t side) {
    if (from.one_in(3)) return -side / 2;
    return from.one_in(60) ? 16385 * (2 * from.between(0, 1) - 1) : from.between(-16384, 16384);
}

trirast_clip any_clip(Numbers &from) {
    trirast_clip found{};
    found.width = any_side(from), found.height = any_side(from);
    found.left = any_start(from, found.width), found.top = any_start(from, found.height);
    found.near_plane = from.one_in(60) ? 2 : from.below(2), found.sides = from.one_in(60) ? 7 : from.below(2);
    if (from.one_in(2))
        found.near_depth = static_cast<std::uint16_t>(from.next()),
        found.far_depth = static_cast<std::uint16_t>(from.next());
    return found;
}

bool is_viewport(const trirast_clip &clip) {
    const auto is_start = [](std::int32_t start) { return start >= -16384 && start <= 16384; };
    const auto is_side = [](std::int32_t side) { return side >= 1 && side <= 16384; };
    return is_start(clip.left) && is_start(clip.top) && is_side(clip.width) && is_side(clip.height);
}

float any_coordinate(Numbers &from, float w) {
    static const float odd[] = {
        0, -0.0f, 1, 1e-42f, 3e38f, std::numeric_limits<float>::infinity(), std::numeric_limits<float>::quiet_NaN()};
    if (from.one_in(40)) return odd[from.below(7)];
    if (from.one_in(8)) return from.one_in(2) ? w : -w; // on a plane
    const double size = std::pow(10, from.one_in(4) ? 12 * from.share() - 6 : from.share());
    return static_cast<float>(size * (2 * from.share() - 1)) * (from.one_in(4) ? 1 : w);
}

struct Source {
    std::vector<trirast_clip_position> positions;
    std::vector<std::uint32_t> indices;
};

Source any_source(Numbers &from) {
    Source found;
    found.positions.resize(from.below(30)), found.indices.resize(from.below(90));
    for (trirast_clip_position &p : found.positions) {
        p.w = from.one_in(6) ? any_coordinate(from, 1) : static_cast<float>(from.share() * 3 + 1e-3);
        p.x = any_coordinate(from, p.w), p.y = any_coordinate(from, p.w), p.z = any_coordinate(from, p.w);
    }
    const std::uint32_t count = static_cast<std::uint32_t>(found.positions.size());
    for (std::uint32_t &index : found.indices) index = from.one_in(2000) || !count ? count : from.below(count);
    return found;
}

// ---- Clipping

// What is clipped in C, with arrays on the heap that have no byte more than they need.
struct InC {
    std::unique_ptr<trirast_vertex[]> vertices;
    std::unique_ptr<float[]> w;
    std::unique_ptr<std::uint16_t[]> marks;
    std::unique_ptr<trirast_clip_cut[]> cuts;
    std::unique_ptr<std::uint32_t[]> indices, sources;
    trirast_clipped in_c{};

    InC(std::size_t positions, std::size_t cut_room, std::size_t triangle_room)
        : vertices(new trirast_vertex[positions + cut_room]), w(new float[positions + cut_room]),
          marks(new std::uint16_t[positions]), cuts(new trirast_clip_cut[cut_room]),
          indices(new std::uint32_t[3 * triangle_room]), sources(new std::uint32_t[triangle_room]) {
        in_c.vertices = vertices.get(), in_c.w = w.get(), in_c.marks = marks.get(), in_c.cuts = cuts.get();
        in_c.indices = indices.get(), in_c.sources = sources.get();
        in_c.cut_capacity = cut_room, in_c.triangle_capacity = triangle_room;
    }
};

trirast_clip_status due_status(const trirast_clip &clip, const Source &source) {
    if (clip.near_plane > 1 || clip.sides > 1) return TRIRAST_CLIP_BAD_OPTION;
    if (!is_viewport(clip)) return TRIRAST_CLIP_BAD_VIEWPORT;
    for (std::size_t k = 0; k < source.indices.size() / 3 * 3; k++)
        if (source.indices[k] >= source.positions.size()) return TRIRAST_CLIP_BAD_INDEX;
    return TRIRAST_CLIP_OK;
}

bool is_position(std::int64_t value) { return value >= -8388608 && value <= 8388607; }

// What a caller may rely on of what comes out: vertices that a canvas in the viewport takes, and weights.
void check_clipped(const trirast_clip &clip, const Source &source, const trirast_clipped &out) {
    const std::size_t positions = source.positions.size();
    for (std::size_t k = 0; k < 3 * out.triangle_count; k++) {
        const std::uint32_t index = out.indices[k];
        expect(index < positions + out.cut_count, "an index of no vertex");
        const trirast_vertex &v = out.vertices[index];
        expect(out.w[index] > 0, "a w that is not positive");
        for (const std::int64_t share : {0, 1})
            expect(is_position(v.x - 256 * (clip.left + share * clip.width)) && is_position(v.x) &&
                       is_position(v.y - 256 * (clip.top + share * clip.height)) && is_position(v.y),
                   "a vertex that a canvas in the viewport does not take");
    }
    for (std::size_t k = 0; k < out.cut_count; k++) {
        const double *by = out.cuts[k].weights, sum = by[0] + by[1] + by[2];
        expect(by[0] >= 0 && by[1] >= 0 && by[2] >= 0 && std::fabs(sum - 1) < 1e-13, "weights of a cut");
        expect(out.cuts[k].triangle < source.indices.size() / 3, "a cut of no triangle");
    }
    for (std::size_t k = 0; k < out.triangle_count; k++)
        expect(out.sources[k] < source.indices.size() / 3, "a triangle of no source");
    triangles += out.triangle_count, cuts += out.cut_count;
}

template <class Number> bool are_same(const Number *one, const std::vector<Number> &other, std::size_t count) {
    return count <= other.size() && (count == 0 || !std::memcmp(one, other.data(), count * sizeof *one));
}

bool is_same(const Source &source, const trirast_clipped &one, const trirast::Clipped &other) {
    const std::size_t count = source.positions.size() + one.cut_count;
    return other.vertices.size() == count && other.sources.size() == one.triangle_count && other.folded == one.folded &&
           are_same(one.vertices, other.vertices, count) && are_same(one.w, other.w, count) &&
           are_same(one.indices, other.indices, 3 * one.triangle_count);
}

void call_each(std::size_t parts, const std::function<void(std::size_t)> &job) {
    for (std::size_t k = parts; k-- > 0;) job(k);
}

// Clips by small arrays, which are emptied whenever one is full: as many triangles come out.
void clip_by_turns(const trirast_clip &clip, const Source &source, std::size_t wanted) {
    InC some(source.positions.size(), TRIRAST_CLIP_MAX_CORNERS, TRIRAST_CLIP_MAX_CORNERS);
    std::size_t found = 0;
    trirast_clip_status status = TRIRAST_CLIP_FULL;
    while (status == TRIRAST_CLIP_FULL) {
        some.in_c.cut_count = some.in_c.triangle_count = 0;
        status = trirast_clip_triangles(&clip, source.positions.data(), source.positions.size(), source.indices.data(),
                                        source.indices.size(), &some.in_c);
        check_clipped(clip, source, some.in_c);
        found += some.in_c.triangle_count;
    }
    expect(status == TRIRAST_CLIP_OK && found == wanted, "other triangles by turns");
}

// ---- Shading

struct Seen {
    std::int32_t left, top, right, bottom; // the canvas in whole blocks, in 1/256 pixel of the screen
    std::size_t count;
    bool has_bound;
};

void check_lane(const Seen &seen, std::uint32_t id, std::int32_t x, std::int32_t y, float a, float b, float c) {
    const bool is_in = x >= seen.left && x < seen.right && y >= seen.top && y < seen.bottom;
    expect(id < seen.count, "a fragment of no triangle");
    expect(is_in, "a fragment beside the canvas");
    if (seen.has_bound) expect(a >= 0 && b >= 0 && c >= 0 && std::fabs(a + b + c - 1) < 1e-6f, "weights of a fragment");
    fragments++;
}

void shader_in_c(const trirast_shade_fragments *at, trirast_shade_colors *out, void *user) {
    const Seen &seen = *static_cast<const Seen *>(user);
    for (std::size_t k = 0; k < TRIRAST_SHADE_LANES; k++) {
        check_lane(seen, at->id[k], at->x[k], at->y[k], at->weight[0][k], at->weight[1][k], at->weight[2][k]);
        out->red[k] = 255 * at->weight[0][k], out->green[k] = 255 * at->weight[1][k];
        out->blue[k] = static_cast<float>(at->id[k] % 256);
    }
}

trirast::CanvasOptions any_canvas(Numbers &from, const trirast_clip &clip) {
    static const std::uint32_t samples[] = {1, 2, 4, 8, 16};
    trirast::CanvasOptions found;
    found.width = 1 + from.below(from.one_in(4) ? 150 : 30), found.height = 1 + from.below(from.one_in(4) ? 150 : 30);
    found.samples = samples[from.below(5)], found.alpha = from.one_in(2);
    found.origin = {clip.left + from.between(0, clip.width), clip.top + from.between(0, clip.height)};
    return found;
}

void shade(Numbers &from, const trirast_clip &clip, const trirast::Clipped &clipped) {
    const trirast::CanvasOptions options = any_canvas(from, clip);
    const std::uint32_t rate = from.below(3);
    trirast::State nearest;
    nearest.depth_test = TRIRAST_DEPTH_LESS, nearest.depth_write = true;
    const auto across = [](std::int64_t pixel) { return static_cast<std::int32_t>(256 * pixel); };
    const std::int64_t x = options.origin.x, y = options.origin.y;
    Seen seen{across(x),
              across(y),
              across(x + (options.width + 7) / 8 * 8),
              across(y + (options.height + 7) / 8 * 8),
              clipped.sources.size(),
              rate != TRIRAST_SHADE_CENTRE};
    std::vector<std::uint8_t> pixels[2];
    const trirast::ShadeTriangles looked_up(clipped);
    for (int in_cpp = 0; in_cpp < 2; in_cpp++) {
        trirast::Canvas canvas(options);
        canvas.clear({255, 255, 255});
        canvas.draw_ids(clipped.vertices, clipped.indices, 0, nearest);
        if (in_cpp) {
            trirast::shade(canvas, looked_up, static_cast<trirast::Rate>(rate), {9, 8, 7},
                           [&](const trirast::Fragments &at, trirast::Colors &out) {
                               out.red = 255.0f * at.weight[0], out.green = 255.0f * at.weight[1];
                               out.blue = to_floats(at.id & 255);
                           });
        } else {
            trirast_canvas in_c = canvas.in_c();
            const trirast_shade how = {looked_up.data(), looked_up.size(), shader_in_c, &seen, rate, 9, 8, 7};
            const std::size_t count = TRIRAST_TILE_ENTRIES(options.samples);
            const std::unique_ptr<std::uint32_t[]> entries(new std::uint32_t[count]);
            expect(trirast_shade_rows(&in_c, &how, entries.get(), count) == TRIRAST_STATUS_OK, "not shaded");
        }
        pixels[in_cpp] = canvas.pixels(TRIRAST_FORMAT_RGB8);
    }
    expect(pixels[0] == pixels[1], "another picture in C++");
}

// Numbers that are the same at all positions are so at cuts.
void check_attributes(const Source &source, const trirast_clipped &in_c) {
    const std::size_t positions = source.positions.size(), count = 2 * (positions + in_c.cut_count);
    const std::unique_ptr<float[]> values(new float[count]);
    for (std::size_t k = 0; k < 2 * positions; k++) values[k] = k % 2 ? 7 : 1;
    trirast_shade_set_cuts(&in_c, positions, source.indices.data(), 2, values.get());
    for (std::size_t k = 0; k < count; k++) expect(std::fabs(values[k] - (k % 2 ? 7 : 1)) < 1e-5f, "numbers of a cut");
}

// ---- Scenes

void clip_in_cpp(Numbers &from, const trirast_clip &clip, const Source &source, trirast_clip_status due,
                 const trirast_clipped &in_c) {
    trirast::Clipped whole, parted;
    bool has_thrown = false;
    try {
        trirast::clip_triangles(clip, source.positions, source.indices, whole);
        trirast::clip_triangles(clip, source.positions, source.indices, parted, 1 + from.below(5), call_each);
    } catch (const std::exception &) {
        has_thrown = true;
    }
    expect(has_thrown == (due != TRIRAST_CLIP_OK), "an exception, or none");
    if (due != TRIRAST_CLIP_OK) return;
    expect(is_same(source, in_c, whole) && is_same(source, in_c, parted), "other triangles in C++");
    check_attributes(source, in_c);
    shade(from, clip, whole);
}

void scene() {
    Numbers from{seed};
    const trirast_clip clip = any_clip(from);
    const Source source = any_source(from);
    const trirast_clip_status due = due_status(clip, source);
    const std::size_t room = TRIRAST_CLIP_MAX_CORNERS * (source.indices.size() / 3 + 1);
    InC all(source.positions.size(), room, room);
    const trirast_clip_status status = trirast_clip_triangles(&clip, source.positions.data(), source.positions.size(),
                                                              source.indices.data(), source.indices.size(), &all.in_c);
    expect(status == due, "another status");
    refused += status != TRIRAST_CLIP_OK;
    if (status == TRIRAST_CLIP_OK || status == TRIRAST_CLIP_BAD_INDEX) check_clipped(clip, source, all.in_c);
    if (status == TRIRAST_CLIP_OK) clip_by_turns(clip, source, all.in_c.triangle_count);
    clip_in_cpp(from, clip, source, due, all.in_c);
}

std::uint64_t option(int count, char **words, const std::string &name, std::uint64_t otherwise) {
    for (int k = 1; k + 1 < count; k++)
        if (words[k] == name) return std::strtoull(words[k + 1], nullptr, 10);
    return otherwise;
}

} // namespace

int main(int count, char **words) {
    const std::uint64_t first = option(count, words, "--seed", 1),
                        scenes = option(count, words, "--scenes", UINT64_MAX);
    const auto end = std::chrono::steady_clock::now() + std::chrono::seconds(option(count, words, "--seconds", 30));
    std::uint64_t made = 0;
    for (; made < scenes && !wrongs && std::chrono::steady_clock::now() < end; made++) seed = first + made, scene();
    std::printf("%llu scenes, %zu refused, %zu triangles, %zu cuts, %zu fragments, %zu wrong\n",
                static_cast<unsigned long long>(made), refused, triangles, cuts, fragments, wrongs);
    return wrongs || !made;
}
