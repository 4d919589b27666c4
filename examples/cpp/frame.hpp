// A frame of a scene: clip, ids, shading, glass. The parts are functions of their own, so that they can be timed.
#ifndef FRAME_HPP
#define FRAME_HPP

#include <algorithm>
#include <array>
#include <atomic>
#include <cstdint>
#include <thread>
#include <utility>
#include <vector>

#include "scene.hpp"
#include "texture.hpp"
#include "trirast_clip.hpp"
#include "trirast_shade.hpp"

namespace scene {

// What is made of a scene once.
struct Model {
    explicit Model(const Scene &given)
        : scene(given), texels(given.texture), values(values_of(given.mesh)), whole(given.mesh.indices, values) {
        for (const Pane &pane : given.glass) {
            const std::uint32_t first = static_cast<std::uint32_t>(glass_points.size());
            for (const Vector &p : pane.corners) glass_points.push_back(p), glass_colors.push_back(pane.color);
            glass_indices.insert(glass_indices.end(), {first, first + 1, first + 2, first, first + 2, first + 3});
        }
    }

    const Scene &scene;
    Texels texels;
    std::vector<Values::Values> values; // of the vertices
    Values whole;                       // of the triangles, if none was cut
    std::vector<Vector> glass_points;
    std::vector<std::array<std::uint8_t, 4>> glass_colors;
    std::vector<std::uint32_t> glass_indices;
};

// Calls a job once for each number below a count, one after another: the way of one thread. A Pool's is that of many.
struct OneByOne {
    template <class Job>
    void operator()(std::size_t count, const Job &job) const {
        for (std::size_t k = 0; k < count; k++) job(k);
    }
};

// What is made of it for each frame, by so many parts at once.
struct Seen {
    std::vector<trirast::ClipPosition> positions, panes;
    trirast::Clipped mesh, glass;
    trirast::ShadeTriangles triangles;
    trirast::TriangleRows rows; // if there are several parts
    Values parts;               // if a triangle was cut or left out
    bool is_whole = true;

    // All that comes before the first call on a canvas.
    template <class Each = OneByOne>
    void project(const Model &model, const Matrix &matrix, const trirast::Clip &clip, std::size_t count = 1,
                 const Each &each = {}) {
        const Mesh &source = model.scene.mesh;
        positions.resize(source.vertices.size());
        each(count, [&](std::size_t part) {
            const std::size_t end = positions.size() * (part + 1) / count;
            for (std::size_t k = positions.size() * part / count; k < end; k++) {
                const Vertex &v = source.vertices[k];
                positions[k] = seen(matrix, v.x, v.y, v.z);
            }
        });
        trirast::clip_triangles(clip, positions, source.indices, mesh, count, each);
        project_glass(model, matrix, clip);
    }

    // All that shading looks up by ids. If no triangle was cut or left out, the rows of the model are those of the ids.
    template <class Each = OneByOne>
    void prepare(const Model &model, std::size_t count = 1, const Each &each = {}) {
        const Mesh &source = model.scene.mesh;
        const std::size_t all = mesh.sources.size();
        is_whole = mesh.cuts.empty() && all == source.triangles();
        triangles.resize(all), rows.resize(count > 1 ? all : 0);
        if (!is_whole) parts.resize(all);
        each(count, [&](std::size_t part) {
            const std::size_t first = all * part / count, end = all * (part + 1) / count;
            triangles.set(mesh.vertices, mesh.w, mesh.indices, first, end);
            if (count > 1) rows.set(mesh.vertices, mesh.indices, first, end);
            if (!is_whole) parts.set(mesh, source.indices, model.values, first, end);
        });
    }

    const Values &values(const Model &model) const { return is_whole ? model.whole : parts; }
    Textured shader(const Model &model) const { return {model.texels, values(model), model.scene}; }

private:
    void project_glass(const Model &model, const Matrix &matrix, const trirast::Clip &clip) {
        panes.clear();
        for (const Vector &p : model.glass_points)
            panes.push_back(seen(matrix, static_cast<float>(p.x), static_cast<float>(p.y), static_cast<float>(p.z)));
        trirast::clip_triangles(clip, panes, model.glass_indices, glass);
        for (std::size_t k = 0; k < glass.vertices.size(); k++) {
            const std::size_t source =
                k < glass.first_cut ? k : model.glass_indices[3 * glass.cuts[k - glass.first_cut].triangle];
            const std::array<std::uint8_t, 4> &color = model.glass_colors[source];
            trirast_vertex &v = glass.vertices[k];
            v.red = color[0], v.green = color[1], v.blue = color[2], v.alpha = color[3];
        }
    }
};

inline trirast::Clip clip_of(std::int32_t width, std::int32_t height) {
    trirast::Clip clip{};
    clip.width = width, clip.height = height;
    return clip;
}

inline trirast::State solid() {
    trirast::State state;
    state.depth_test = TRIRAST_DEPTH_LESS, state.depth_write = true;
    return state;
}

inline trirast::State over() {
    trirast::State state;
    state.depth_test = TRIRAST_DEPTH_LESS, state.blend = trirast::blend_over;
    return state;
}

inline trirast::Color background(const Scene &given) {
    return {given.background[0], given.background[1], given.background[2]};
}

// The parts of a frame on some tile rows.
inline void draw_ids(trirast::TileRows &rows, const Seen &seen) {
    rows.clear({255, 255, 255});
    rows.draw_ids(seen.mesh.vertices, seen.mesh.indices, 0, solid());
}

inline void draw_glass(trirast::TileRows &rows, const Seen &seen) {
    rows.draw(seen.glass.vertices, seen.glass.indices, over());
}

// The tile rows of a canvas, as they are shared by threads: each tile row by itself, with its own triangles. One thread
// has all rows and all triangles at once.
class SharedRows {
public:
    SharedRows(trirast::Canvas &canvas, unsigned threads)
        : threads_(threads), columns_(trirast::tile_columns(canvas)), drawn_(threads > 1 ? canvas.end() : 1),
          left_(drawn_.size()) {
        const std::uint32_t rows = canvas.end() / static_cast<std::uint32_t>(drawn_.size());
        for (std::uint32_t row = 0; row < canvas.end(); row += rows) {
            order_.push_back(parts_.size());
            parts_.push_back({canvas.rows(row, row + rows), {}});
        }
    }

    // Draws ids, calls shade(rows, column, row, own) for each tile, with what shade_tile takes, and then end(rows) for
    // the rows whose tiles are all shaded. It is one round of the threads: who finds no rows left to draw shades those
    // that are drawn.
    template <class Each, class Shade, class End>
    void draw(const Seen &seen, const Each &each, const Shade &shade, const End &end) {
        const std::size_t tiles = columns_ * (parts_[0].rows.end() - parts_[0].rows.first());
        for (std::atomic<std::int32_t> &number : drawn_) number = none;
        for (std::atomic<std::size_t> &count : left_) count = tiles;
        sort();
        std::atomic<std::size_t> next{0}, next_drawn{0}, next_tile{0};
        each(threads_, [&](std::size_t) {
            for (std::size_t k; (k = next++) < parts_.size();) {
                draw_ids_of(parts_[order_[k]], seen);
                drawn_[next_drawn++] = static_cast<std::int32_t>(order_[k]);
            }
            for (std::size_t k; (k = next_tile++) < tiles * parts_.size();) {
                std::int32_t number;
                while ((number = drawn_[k / tiles]) == none) std::this_thread::yield();
                trirast::TileRows &rows = parts_[static_cast<std::size_t>(number)].rows;
                const std::uint32_t tile = static_cast<std::uint32_t>(k % tiles), row = rows.first() + tile / columns_;
                shade(rows, tile % columns_, row, own(row));
                if (--left_[static_cast<std::size_t>(number)] == 0) end(rows);
            }
        });
    }

    // Draws ids alone.
    template <class Each>
    void draw_ids(const Seen &seen, const Each &each) {
        sort();
        each(parts_.size(), [&](std::size_t k) { draw_ids_of(parts_[order_[k]], seen); });
    }

    // Calls job(rows) for each part.
    template <class Each, class Job>
    void each_part(const Each &each, const Job &job) {
        each(parts_.size(), [&](std::size_t k) { job(parts_[order_[k]].rows); });
    }

    // The triangles of a tile row, for shade_tile; none if they are those of all rows.
    const trirast::RowTriangles *own(std::uint32_t row) const { return threads_ > 1 ? &parts_[row].own : nullptr; }

private:
    struct Part {
        trirast::TileRows rows;
        trirast::RowTriangles own;
    };

    static constexpr std::int32_t none = -1;

    // The rows that had the most triangles in the frame before are begun first, so that no thread is left with them.
    void sort() {
        std::stable_sort(order_.begin(), order_.end(),
                         [this](std::size_t a, std::size_t b) { return parts_[a].own.size() > parts_[b].own.size(); });
    }

    void draw_ids_of(Part &part, const Seen &seen) const {
        if (threads_ == 1) return scene::draw_ids(part.rows, seen);
        part.own.select(part.rows, seen.rows, seen.mesh.indices);
        part.rows.clear({255, 255, 255});
        if (part.own.size() > 0) part.rows.draw_ids(seen.mesh.vertices, part.own.indices(), 0, solid());
    }

    unsigned threads_;
    std::uint32_t columns_;
    std::vector<Part> parts_;
    std::vector<std::size_t> order_;               // of the parts
    std::vector<std::atomic<std::int32_t>> drawn_; // the parts whose ids are drawn, one after another
    std::vector<std::atomic<std::size_t>> left_;   // of each part the tiles that are not shaded
};

} // namespace scene

#endif
