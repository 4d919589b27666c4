/* trirast_frame.hpp: frames by threads that stay, tile by tile. For C++17 and later.
 *
 *     trirast::Pool pool(4);                                             // once
 *     trirast::Frame frame({1280, 720, 4}, pool.threads());
 *     trirast::FrameTriangles solid;
 *
 *     trirast::clip_triangles(clip, positions, indices, seen, pool.threads(), pool);       // for each frame
 *     const trirast::ShadeTriangles triangles(seen);
 *     solid.set(frame, seen.vertices, seen.indices, pool);
 *     frame.draw(pool, [&](trirast::FrameTile &tile) {
 *         const trirast::RowTriangles &own = tile.select(solid);
 *         tile.draw_ids(solid.vertices(), own.indices(), 0, nearest);
 *         tile.shade(triangles, own, trirast::Rate::pixel, {24, 24, 32}, shader);
 *         tile.resolve_to(TRIRAST_FORMAT_RGB8, pixels);
 *     });
 *
 * A frame has no canvas as large as itself. Each thread has a small one, moves it from tile to tile, and does all that
 * a tile needs while its samples are in the processor's cache: clear, draw, shade, blend and resolve. What stays of a
 * frame are the pixels that are resolved. Samples are those that a canvas of the whole frame would have, for any number
 * of threads and any width of tiles: a tile has its origin on the screen, and its triangles in their order. Positions
 * have to be in range as seen from each tile's corner too. Those of clip_triangles are, if its viewport is the frame.
 *
 * A pool is anything that is called as pool(count, job), calls job(k) once for each k below count, on any threads and
 * in any order, and waits for these calls. The jobs of this header do not throw. Pool is one; you can pass your own. */
#ifndef TRIRAST_FRAME_HPP
#define TRIRAST_FRAME_HPP

#include <algorithm>
#include <atomic>
#include <condition_variable>
#include <cstddef>
#include <cstdint>
#include <exception>
#include <functional>
#include <mutex>
#include <thread>
#include <utility>
#include <vector>

#include "trirast_layer.hpp"
#include "trirast_shade.hpp"

namespace trirast {

/* Threads that wait for work. They stay from frame to frame, since starting one takes as long as a small frame. */
class Pool {
public:
    /* So many threads, of which the caller is one. If one cannot be started, there are fewer. */
    explicit Pool(unsigned threads) {
        for (unsigned k = 1; k < threads; k++)
            if (detail::thrown_by([this] { threads_.emplace_back([this] { work(); }); })) break;
    }

    Pool(const Pool &) = delete;
    Pool &operator=(const Pool &) = delete;

    ~Pool() {
        begin(nullptr);
        for (std::thread &thread : threads_) thread.join();
    }

    unsigned threads() const noexcept { return static_cast<unsigned>(threads_.size()) + 1; }

    /* Calls job(k) for each k below `count`, on the threads as they come, and waits. The job does not throw, and does
     * not use the pool. One thread at a time may call. */
    void operator()(std::size_t count, const std::function<void(std::size_t)> &job) const {
        std::atomic<std::size_t> next{0};
        const std::function<void()> all = [&] {
            for (std::size_t k; (k = next.fetch_add(1, std::memory_order_relaxed)) < count;) job(k);
        };
        begin(&all);
        all();
        std::unique_lock<std::mutex> lock(mutex_);
        ended_.wait(lock, [this] { return left_ == 0; });
    }

private:
    void begin(const std::function<void()> *job) const {
        {
            const std::lock_guard<std::mutex> lock(mutex_);
            job_ = job, left_ = threads_.size(), turn_++;
        }
        begun_.notify_all();
    }

    void work() {
        for (std::uint64_t seen = 0;;) {
            const std::function<void()> *job;
            {
                std::unique_lock<std::mutex> lock(mutex_);
                begun_.wait(lock, [&] { return turn_ != seen; });
                seen = turn_, job = job_;
            }
            if (!job) return;
            (*job)();
            const std::lock_guard<std::mutex> lock(mutex_);
            if (--left_ == 0) ended_.notify_one();
        }
    }

    std::vector<std::thread> threads_;
    mutable std::mutex mutex_;
    mutable std::condition_variable begun_, ended_;
    mutable const std::function<void()> *job_ = nullptr;
    mutable std::size_t left_ = 0;
    mutable std::uint64_t turn_ = 0;
};

/* A frame that is to be made. */
struct FrameOptions {
    std::uint32_t width = 0, height = 0; /* 1 to 4096 pixels each */
    std::uint32_t samples = 1;           /* of a pixel: one of TRIRAST_SAMPLE_COUNTS */
    bool alpha = false;                  /* whether alpha is stored */
    std::uint32_t tile_columns = 4;      /* how many tiles of 64 by 64 pixels a FrameTile has, side by side */
};

class Frame;

/* Triangles in lists of the tile rows of a frame. The vertices and indices have to stay till the frame is drawn. One
 * that is set again keeps its memory. */
class FrameTriangles {
public:
    /* Throws std::bad_alloc. */
    template <class Jobs>
    void set(const Frame &frame, Span<const trirast_vertex> vertices, Span<const std::uint32_t> indices,
             const Jobs &jobs);

    Span<const trirast_vertex> vertices() const noexcept { return vertices_; }
    Span<const std::uint32_t> indices() const noexcept { return indices_; }

private:
    friend class FrameTile;

    struct Row {
        std::vector<std::uint32_t> names;
        std::size_t count = 0;
    };

    Span<const trirast_vertex> vertices_;
    Span<const std::uint32_t> indices_;
    TriangleRows lines_;
    TriangleColumns columns_;
    std::vector<Row> rows_;
};

/* A part of a frame, 64 rows of pixels or fewer, as a canvas of its own: it has the calls of one. It is cleared to
 * white and the depth 65535 when a frame's job gets it, as triangles by ids need it. */
class FrameTile : public TileRows {
public:
    FrameTile(FrameTile &&) = default;

    /* The pixel of the frame at which its upper left one lies. */
    Origin at() const noexcept { return {rows_.origin_x, rows_.origin_y}; }

    /* The triangles of a list that this tile may show, till the next call. */
    const RowTriangles &select(const FrameTriangles &list) {
        const FrameTriangles::Row &row = list.rows_[static_cast<std::size_t>(rows_.origin_y) / TRIRAST_TILE_SIZE];
        own_.select({row.names.data(), row.count}, list.columns_, rows_.origin_x,
                    std::int64_t{rows_.origin_x} + width() - 1, list.indices_);
        return own_;
    }

    /* Shades ids: see shade_tile. `keys` may be left out. */
    template <class Shader>
    void shade(const ShadeTriangles &triangles, const RowTriangles &own, Rate rate, Color background,
               Shader &&shader) {
        for (std::uint32_t column = 0; column < tile_columns(); column++)
            shade_tile(*this, column, 0, triangles, rate, background, shader, layer_.entries, &own);
    }
    template <class Shader>
    void shade(const ShadeTriangles &triangles, const TriangleKeys &keys, const RowTriangles &own, Rate rate,
               Color background, Shader &&shader) {
        for (std::uint32_t column = 0; column < tile_columns(); column++)
            shade_tile(*this, column, 0, triangles, keys, rate, background, shader, layer_.entries, &own);
    }

    /* Blends a layer over the tile: see blend_layer. */
    template <class Shader>
    void blend(const Layer &layer, Shader &&shader) {
        blend_layer(*this, layer, shader, layer_);
    }

    /* Writes the pixels of the tile into those of the frame. `stride` is in bytes; 0 is a row of pixels of the frame.
     * Throws Error if the pixels are too few, or if there is no such format. */
    void resolve_to(trirast_format format, Span<std::uint8_t> pixels, std::size_t stride = 0) const {
        const std::size_t bytes = detail::pixel_bytes(format), row = frame_width_ * bytes;
        const std::size_t step = stride == 0 ? row : stride, needed = (frame_height_ - 1) * step + row;
        if (step < row || pixels.size() < needed)
            detail::raise(Error(TRIRAST_STATUS_BUFFER_TOO_SMALL,
                                detail::buffer_values(row, frame_height_, pixels.size(), stride)));
        const std::size_t first = static_cast<std::size_t>(rows_.origin_y) * step +
                                  static_cast<std::size_t>(rows_.origin_x) * bytes;
        resolve(format, {pixels.data() + first, (height() - 1) * step + width() * bytes}, step);
    }

private:
    friend class Frame;

    FrameTile(const FrameOptions &options, const trirast_canvas &largest)
        : bytes_(trirast_canvas_size(&largest)), memory_(detail::memory_for_samples(bytes_)),
          frame_width_(options.width), frame_height_(options.height) {}

    /* Moves to another part of the frame, and clears it. */
    void move_to(trirast_canvas part) {
        detail::check(trirast_canvas_init(&part, memory_.get(), bytes_));
        rows_ = part;
        clear({255, 255, 255});
    }

    std::size_t bytes_;
    detail::Memory memory_;
    std::size_t frame_width_, frame_height_;
    RowTriangles own_;
    LayerMemory layer_;
};

/* The tiles of a frame, and a small canvas for each thread. */
class Frame {
public:
    /* `threads` is the greatest number of tiles that are drawn at the same time, at least 1. Throws Error, BAD_CANVAS,
     * if there is no canvas of this size, and std::bad_alloc. */
    explicit Frame(const FrameOptions &options, unsigned threads = 1) : options_(options) {
        trirast_canvas canvas = canvas_of(0, 0, options.width, options.height);
        if (trirast_canvas_size(&canvas) == 0)
            detail::raise(Error(TRIRAST_STATUS_BAD_CANVAS, detail::canvas_values(canvas)));
        const std::uint32_t columns = (options.width + tile_width() - 1) / tile_width();
        for (std::uint32_t row = 0; row < rows(); row++)
            for (std::uint32_t column = 0; column < columns; column++)
                tiles_.push_back(part(column * tile_width(), row * TRIRAST_TILE_SIZE));
        for (std::size_t k = 0; k < std::max<std::size_t>(1, std::min<std::size_t>(threads, tiles_.size())); k++)
            workers_.push_back(FrameTile(options, tiles_[0]));
    }

    std::uint32_t width() const noexcept { return options_.width; }
    std::uint32_t height() const noexcept { return options_.height; }

    /* The tile rows, each of 64 rows of pixels, the last one of what is left. */
    std::uint32_t rows() const noexcept { return (options_.height + TRIRAST_TILE_SIZE - 1) / TRIRAST_TILE_SIZE; }

    /* The parts in which it is drawn, and how many at the same time. */
    std::size_t tiles() const noexcept { return tiles_.size(); }
    std::size_t threads() const noexcept { return workers_.size(); }

    /* Calls work(tile) once for each part of the frame, a FrameTile &, by the jobs of a pool. Throws what one of these
     * calls has thrown, after the others: then the parts of that thread may be left out. */
    template <class Jobs, class Work>
    void draw(const Jobs &jobs, const Work &work) {
        std::atomic<std::size_t> next{0};
        std::vector<std::exception_ptr> failed(workers_.size());
        jobs(workers_.size(), [&](std::size_t k) {
            failed[k] = detail::thrown_by([&] {
                for (std::size_t n; (n = next.fetch_add(1, std::memory_order_relaxed)) < tiles_.size();) {
                    workers_[k].move_to(tiles_[n]);
                    work(workers_[k]);
                }
            });
        });
        for (const std::exception_ptr &error : failed)
            if (error) std::rethrow_exception(error);
    }

private:
    std::uint32_t tile_width() const noexcept {
        return std::min(std::max(options_.tile_columns, 1u), options_.width) * TRIRAST_TILE_SIZE;
    }

    trirast_canvas canvas_of(std::uint32_t left, std::uint32_t top, std::uint32_t width,
                             std::uint32_t height) const noexcept {
        trirast_canvas canvas{};
        canvas.width = width, canvas.height = height, canvas.samples = options_.samples ? options_.samples : 1;
        canvas.channels = options_.alpha ? 4 : 3;
        canvas.origin_x = static_cast<std::int32_t>(left), canvas.origin_y = static_cast<std::int32_t>(top);
        return canvas;
    }

    /* The part whose upper left pixel is this one. */
    trirast_canvas part(std::uint32_t left, std::uint32_t top) const noexcept {
        return canvas_of(left, top, std::min(tile_width(), options_.width - left),
                         std::min<std::uint32_t>(TRIRAST_TILE_SIZE, options_.height - top));
    }

    FrameOptions options_;
    std::vector<trirast_canvas> tiles_; /* without memory */
    std::vector<FrameTile> workers_;
};

template <class Jobs>
void FrameTriangles::set(const Frame &frame, Span<const trirast_vertex> vertices, Span<const std::uint32_t> indices,
                         const Jobs &jobs) {
    const std::size_t all = indices.size() / 3, parts = frame.threads();
    vertices_ = vertices, indices_ = indices;
    lines_.resize(all), columns_.resize(all), rows_.resize(frame.rows());
    jobs(parts, [&](std::size_t k) {
        const std::size_t first = all * k / parts, end = all * (k + 1) / parts;
        lines_.set(vertices, indices, first, end), columns_.set(vertices, indices, first, end);
    });
    std::vector<std::exception_ptr> failed(rows_.size());
    jobs(rows_.size(), [&](std::size_t k) {
        failed[k] = detail::thrown_by([&] {
            const std::int64_t top = static_cast<std::int64_t>(k) * TRIRAST_TILE_SIZE;
            rows_[k].count = lines_.find(top, top + TRIRAST_TILE_SIZE - 1, rows_[k].names);
        });
    });
    for (const std::exception_ptr &error : failed)
        if (error) std::rethrow_exception(error);
}

} // namespace trirast

#endif
