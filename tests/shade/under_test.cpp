#include "under_test.hpp"

#include "frame.hpp"
#include "ways.hpp"

namespace {

trirast::Rate rate_of(At rate) {
    return rate == At::pixel    ? trirast::Rate::pixel
           : rate == At::centre ? trirast::Rate::centre
                                : trirast::Rate::sample;
}

Eight numbers_of(const trirast::Fragments &at) {
    Eight found;
    at.id.store(found.id), at.x.store(found.x), at.y.store(found.y), at.used.store(found.used);
    for (std::size_t c = 0; c < 3; c++)
        at.weight[c].store(found.weight[c]), at.right[c].store(found.right[c]), at.down[c].store(found.down[c]);
    return found;
}

template <class Lanes>
Compared compared(const Lanes &a, const Lanes &b) {
    Compared found;
    (a < b).store(found.by[0]), (a <= b).store(found.by[1]), (a > b).store(found.by[2]);
    (a >= b).store(found.by[3]), (a == b).store(found.by[4]), (a != b).store(found.by[5]);
    return found;
}

} // namespace

EdgesOfEight weigh_eight(const std::vector<trirast_vertex> &vertices, const std::vector<float> &w,
                         const std::vector<std::uint32_t> &indices, Eight &at) {
    const trirast::ShadeTriangles triangles(vertices, w, indices);
    trirast::Fragments fragments;
    fragments.id = trirast::Integers::load(at.id), fragments.x = trirast::Integers::load(at.x),
    fragments.y = trirast::Integers::load(at.y);
    EdgesOfEight found;
    way::weigh(triangles, fragments, found.of_corner);
    at = numbers_of(fragments);
    return found;
}

void floors_of(const float (&numbers)[8], float (&whole)[8], std::int32_t (&integers)[8]) {
    const trirast::Floats eight = trirast::Floats::load(numbers);
    floor(eight).store(whole), floor_to_integers(eight).store(integers);
}

Compared compare_eight(const float (&a)[8], const float (&b)[8]) {
    return compared(trirast::Floats::load(a), trirast::Floats::load(b));
}

Compared compare_eight(const std::int32_t (&a)[8], const std::int32_t (&b)[8]) {
    return compared(trirast::Integers::load(a), trirast::Integers::load(b));
}

void place_of(std::uint32_t samples, std::uint32_t s, std::int32_t &x, std::int32_t &y) {
    const trirast_shade_place place = trirast_shade_sample_place(samples, s);
    x = place.x, y = place.y;
}

struct Frame::Parts {
    explicit Parts(const scene::Scene &given) : model(given) {}
    scene::Model model;
    scene::Seen seen;
};

Frame::Frame(const scene::Scene &given, std::int32_t width, std::int32_t height)
    : parts_(std::make_unique<Parts>(given)), clip_(scene::clip_of(width, height)) {
    parts_->seen.project(parts_->model, given.matrix, clip_);
    parts_->seen.prepare(parts_->model);
}

Frame::~Frame() = default;

const trirast::Clipped &Frame::mesh() const { return parts_->seen.mesh; }
const trirast::Clipped &Frame::glass() const { return parts_->seen.glass; }
void Frame::draw_ids(trirast::TileRows &rows) const { scene::draw_ids(rows, parts_->seen); }
void Frame::draw_glass(trirast::TileRows &rows) const { scene::draw_glass(rows, parts_->seen); }

void Frame::shade(trirast::TileRows &rows, At rate) const {
    way::shade(rows, parts_->seen.triangles, rate_of(rate), scene::background(parts_->model.scene),
                   parts_->seen.shader(parts_->model));
}

void Frame::shade_tiles(trirast::TileRows &rows, At rate, std::uint32_t part, std::uint32_t parts) const {
    const std::uint32_t columns = trirast::tile_columns(rows), tiles = columns * rows.end();
    const scene::Textured shader = parts_->seen.shader(parts_->model);
    trirast::TileEntries entries;
    for (std::uint32_t k = part; k < tiles; k += parts)
        way::shade_tile(rows, k % columns, k / columns, parts_->seen.triangles, rate_of(rate),
                            scene::background(parts_->model.scene), shader, entries);
}

void Frame::draw_parts(trirast::Canvas &canvas, At rate, unsigned threads) const {
    scene::Seen seen;
    scene::SharedRows rows(canvas, threads);
    trirast::TileEntries entries;
    const auto last_first = [](std::size_t count, const auto &job) {
        while (count > 0) job(--count);
    };
    // Twice: arrays of the frame before are used again.
    for (const trirast::Origin by : {trirast::Origin{7, 9}, trirast::Origin{}}) {
        scene::Matrix matrix = parts_->model.scene.matrix;
        matrix.rows[3] += static_cast<float>(by.x), matrix.rows[7] += static_cast<float>(by.y);
        seen.project(parts_->model, matrix, clip_, threads, last_first);
        seen.prepare(parts_->model, threads, last_first);
        const auto shade = [&](trirast::TileRows &part, std::uint32_t column, std::uint32_t row, const auto *own) {
            trirast::shade_tile(part, column, row, seen.triangles, rate_of(rate),
                                scene::background(parts_->model.scene), seen.shader(parts_->model), entries, own);
        };
        rows.draw(seen, last_first, shade, [&](trirast::TileRows &part) { scene::draw_glass(part, seen); });
    }
}

void Frame::shade_normals(trirast::TileRows &rows, int by, float size) const {
    way::shade_normals(rows, parts_->model, parts_->seen, by, size);
}

void Frame::shade_by(trirast::TileRows &rows, At rate, const std::uint8_t (&background)[3], std::size_t triangles,
                     const Shader &shader) const {
    const trirast::Clipped &seen = parts_->seen.mesh;
    const trirast::ShadeTriangles shaded(seen.vertices, seen.w, {seen.indices.data(), 3 * triangles});
    way::shade(rows, shaded, rate_of(rate), {background[0], background[1], background[2]},
                   [&](const trirast::Fragments &at, trirast::Colors &out) {
                       float colors[3][8];
                       shader(numbers_of(at), colors);
                       out.red = trirast::Floats::load(colors[0]), out.green = trirast::Floats::load(colors[1]);
                       out.blue = trirast::Floats::load(colors[2]);
                   });
}

bool are_products_fused() {
#ifdef FUSED
    return true;
#else
    return false;
#endif
}
