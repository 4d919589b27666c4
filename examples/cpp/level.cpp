// Walks through a level with light maps, leaves that are tested by their alpha, and glass, by trirast_frame.hpp,
// trirast_layer.hpp and trirast_texture.hpp. After `make library`:
//
//     c++ -std=c++17 -O3 -march=native -Iinclude examples/cpp/level.cpp lib/libtrirast.a -pthread -o level
//     ./level --output level.ppm                     # the first frame
//     ./level --frames 200 --threads 4 --check
//
// The second form prints a line: the frames, their triangles and layers, the samples that show no triangle of the
// closed hall, of which there are none, and a checksum of all pixels, which is the same for any number of threads.
// With --map it walks through a map of a game instead, which bsp.hpp reads: its walls with their light maps.
#include <atomic>
#include <cstdio>
#include <cstdlib>
#include <cstring>
#include <string>
#include <vector>

#include "bsp.hpp"
#include "level.hpp"
#include "trirast_frame.hpp"

namespace {

using level::Values;
using trirast::Floats;
using trirast::Fragments;

struct Options {
    std::uint32_t width = 640, height = 360, frames = 1, samples = 4;
    unsigned threads = 1;
    bool checks = false;
    std::string output, map;
};

// The texture of the material, in the light of the light map. Eight fragments have one material.
struct Solid {
    const level::Level &level;
    const Values &values;

    void operator()(std::uint32_t material, const Fragments &at, trirast::Colors &out) const {
        const Values::Corners corner = values.of(at.id);
        const trirast::Texels texel = level.textures[material].sample(at, corner[0], corner[1]);
        const trirast::Texels light = level.light.sample(at, corner[2], corner[3]);
        const auto lit = [](const Floats &color, const Floats &by) {
            return trirast::to_srgb(color * by * (1.0f / 255));
        };
        out.red = lit(texel.red, light.red), out.green = lit(texel.green, light.green),
        out.blue = lit(texel.blue, light.blue);
    }
};

// Leaves, whose fragments are kept or discarded by alpha, and glass, which is blended.
struct Translucent {
    const level::Level &level;
    const Values &values;

    void operator()(const Fragments &at, trirast::LayerColors &out) const {
        const Values::Corners corner = values.of(at.id);
        const Floats u = at.value(corner[0]);
        const trirast::Texels texel = level.textures[level::materials].sample(at, corner[0], corner[1]);
        const trirast::Integers is_leaf = u < 0.5f;
        out.red = trirast::to_srgb(texel.red), out.green = trirast::to_srgb(texel.green),
        out.blue = trirast::to_srgb(texel.blue);
        out.alpha = choose(is_leaf, 255.0f, texel.alpha);
        out.discarded = is_leaf & (texel.alpha < 128.0f);
    }
};

// Cards of which none hides another on the screen.
struct Sheet {
    std::vector<std::uint32_t> indices;
    std::vector<float> boxes; // left, top, right and bottom of each
    trirast::Clipped seen;
    trirast::ShadeTriangles triangles;
    Values values;
    trirast::FrameTriangles list;
};

class Walk {
public:
    explicit Walk(const Options &options)
        : options_(options), level_(options.map.empty() ? level::made(1) : bsp::read(options.map)),
          pool_(options.threads),
          frame_({options.width, options.height, options.samples, false, 2}, pool_.threads()),
          pixels_(3 * std::size_t{options.width} * options.height) {
        clip_.width = static_cast<std::int32_t>(options.width);
        clip_.height = static_cast<std::int32_t>(options.height);
    }

    void draw(double along) {
        eye_ = on_path(along);
        const double turn = (1 + 4 * along) * std::acos(-1.0);
        const level::Vector target = eye_ + level::Vector{std::cos(turn), -0.1, std::sin(turn)};
        matrix_ = scene::looking(eye_, target, 1.2, double(options_.width) / options_.height, 0.05, 200);
        clip_solid(), sort_cards();
        const Solid shader{level_, values_};
        frame_.draw(pool_, [&](trirast::FrameTile &tile) {
            const trirast::RowTriangles &own = tile.select(solid_);
            tile.draw_ids(solid_.vertices(), own.indices(), 0, nearest());
            if (options_.checks) count_missing(tile);
            tile.shade(objects_.triangles(), objects_.keys(), own, trirast::Rate::pixel, {}, shader);
            for (std::size_t k = 0; k < sheets_in_use_; k++) blend(tile, sheets_[k]);
            tile.resolve_to(TRIRAST_FORMAT_RGB8, pixels_);
        });
        triangles += objects_.triangles().size(), layers += sheets_in_use_;
        for (const std::uint8_t byte : pixels_) checksum = (checksum ^ byte) * 0x100000001B3u; // FNV-1a
    }

    const std::vector<std::uint8_t> &pixels() const { return pixels_; }

    std::size_t triangles = 0, layers = 0;
    std::atomic<std::size_t> missing{0};
    std::uint64_t checksum = 0xCBF29CE484222325u;

private:
    static trirast::State nearest() {
        trirast::State state;
        state.depth_test = TRIRAST_DEPTH_LESS, state.depth_write = true;
        return state;
    }

    // Where the camera is, from 0 to before 1.
    level::Vector on_path(double along) const {
        const double at = along * static_cast<double>(level_.path.size());
        const std::size_t k = static_cast<std::size_t>(at);
        const level::Vector from = level_.path[k], to = level_.path[(k + 1) % level_.path.size()];
        return from + (at - static_cast<double>(k)) * (to - from);
    }

    trirast::ClipPosition seen(level::Vector v) const {
        return scene::seen(matrix_, static_cast<float>(v.x), static_cast<float>(v.y), static_cast<float>(v.z));
    }

    void clip_solid() {
        objects_.clear(), values_.clear();
        for (std::uint32_t material = 0; material < level::materials; material++) {
            const level::Part &part = level_.solid[material];
            positions_.clear();
            for (const level::Vector &point : part.points) positions_.push_back(seen(point));
            trirast::clip_triangles(clip_, positions_, part.indices, clipped_, pool_.threads(), pool_);
            objects_.append(clipped_, material), values_.append(clipped_, part.indices, part.values);
        }
        solid_.set(frame_, objects_.vertices(), objects_.indices(), pool_);
    }

    // Cards from back to front, in sheets: each goes to the last sheet if it hides none of its cards.
    void sort_cards() {
        std::vector<level::Card> cards = level_.cards;
        std::stable_sort(cards.begin(), cards.end(), [&](const level::Card &a, const level::Card &b) {
            return far(a.middle()) > far(b.middle());
        });
        positions_.clear(), card_values_.clear(), sheets_in_use_ = 0;
        for (const level::Card &card : cards) add(card);
        for (std::size_t k = 0; k < sheets_in_use_; k++) {
            Sheet &sheet = sheets_[k];
            trirast::clip_triangles(clip_, positions_, sheet.indices, sheet.seen);
            sheet.triangles.clear(), sheet.triangles.append(sheet.seen);
            sheet.values.clear(), sheet.values.append(sheet.seen, sheet.indices, card_values_);
            sheet.list.set(frame_, sheet.seen.vertices, sheet.seen.indices, pool_);
        }
    }

    double far(level::Vector v) const { return dot(v - eye_, v - eye_); }

    void add(const level::Card &card) {
        float box[4] = {2, 2, -2, -2};
        const std::uint32_t first = static_cast<std::uint32_t>(positions_.size());
        for (std::size_t c = 0; c < 4; c++) {
            const trirast::ClipPosition at = seen(card.corners[c]);
            positions_.push_back(at), card_values_.push_back({card.u[c % 2], c / 2 ? 1.0f : 0.0f, 0, 0});
            const bool is_behind = at.w < 0.05f; // then it may be anywhere
            const float place[2] = {at.x / at.w, at.y / at.w};
            for (std::size_t k = 0; k < 2; k++) {
                box[k] = std::min(box[k], is_behind ? -2 : place[k]);
                box[k + 2] = std::max(box[k + 2], is_behind ? 2 : place[k]);
            }
        }
        if (sheets_in_use_ == 0 || hides(sheets_[sheets_in_use_ - 1], box)) {
            if (sheets_.size() == sheets_in_use_) sheets_.emplace_back();
            Sheet &next = sheets_[sheets_in_use_++];
            next.indices.clear(), next.boxes.clear();
        }
        Sheet &sheet = sheets_[sheets_in_use_ - 1];
        for (std::uint32_t corner : {0, 1, 2, 2, 1, 3}) sheet.indices.push_back(first + corner);
        sheet.boxes.insert(sheet.boxes.end(), box, box + 4);
    }

    static bool hides(const Sheet &sheet, const float (&box)[4]) {
        for (std::size_t k = 0; k < sheet.boxes.size(); k += 4) {
            const float *other = &sheet.boxes[k];
            if (box[0] <= other[2] && other[0] <= box[2] && box[1] <= other[3] && other[1] <= box[3]) return true;
        }
        return false;
    }

    void blend(trirast::FrameTile &tile, const Sheet &sheet) const {
        trirast::Layer layer{sheet.seen.vertices, sheet.seen.indices, sheet.triangles};
        layer.own = &tile.select(sheet.list);
        tile.blend(layer, Translucent{level_, sheet.values});
    }

    void count_missing(const trirast::FrameTile &tile) {
        for (std::uint32_t s = 0; s < tile.samples(); s++)
            for (const std::uint32_t id : tile.ids(s)) missing += id == trirast::no_triangle;
    }

    Options options_;
    level::Level level_;
    trirast::Pool pool_;
    trirast::Frame frame_;
    std::vector<std::uint8_t> pixels_;
    trirast::Clip clip_{};
    level::Vector eye_;
    scene::Matrix matrix_{};
    std::vector<trirast::ClipPosition> positions_;
    trirast::Clipped clipped_;
    trirast::Objects objects_;
    Values values_;
    std::vector<Values::Values> card_values_;
    trirast::FrameTriangles solid_;
    std::vector<Sheet> sheets_;
    std::size_t sheets_in_use_ = 0;
};

[[noreturn]] void explain() {
    std::fputs("level [--map FILE.bsp] [--frames N] [--size WIDTH HEIGHT] [--samples N] [--threads N] [--check]\n"
               "      [--output FILE]\n",
               stderr);
    std::exit(2);
}

Options options_of(int count, char **words) {
    Options found;
    int k = 1;
    const auto number = [&] {
        if (k >= count || std::atoi(words[k]) < 1) explain();
        return static_cast<std::uint32_t>(std::atoi(words[k++]));
    };
    while (k < count) {
        const std::string word = words[k++];
        if (word == "--frames") found.frames = number();
        else if (word == "--size") found.width = number(), found.height = number();
        else if (word == "--samples") found.samples = number();
        else if (word == "--threads") found.threads = number();
        else if (word == "--check") found.checks = true;
        else if (word == "--output" && k < count) found.output = words[k++];
        else if (word == "--map" && k < count) found.map = words[k++];
        else explain();
    }
    return found;
}

int walk_through(const Options &options) {
    Walk walk(options);
    for (std::uint32_t k = 0; k < options.frames; k++) {
        walk.draw(double(k) / options.frames);
        if (k > 0 || options.output.empty()) continue;
        std::FILE *file = options.output == "-" ? stdout : std::fopen(options.output.c_str(), "wb");
        if (!file) return std::perror(options.output.c_str()), 1;
        std::fprintf(file, "P6\n%u %u\n255\n", options.width, options.height);
        std::fwrite(walk.pixels().data(), 1, walk.pixels().size(), file);
        if (file != stdout) std::fclose(file);
    }
    if (options.output != "-")
        std::printf("%u frames, %zu triangles, %zu layers, %zu samples without a triangle, checksum %016llx\n",
                    options.frames, walk.triangles, walk.layers, walk.missing.load(),
                    static_cast<unsigned long long>(walk.checksum));
    return 0;
}

} // namespace

int main(int count, char **words) {
    const Options options = options_of(count, words);
    try {
        return walk_through(options);
    } catch (const std::exception &error) {
        std::fprintf(stderr, "level: %s\n", error.what());
        return 1;
    }
}
