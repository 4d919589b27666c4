/* Tile rows of a canvas, and what is drawn on them and read out: a part of trirast.hpp. */
#ifndef TRIRAST_TILE_ROWS_HPP
#define TRIRAST_TILE_ROWS_HPP

#include <atomic>
#include <cstddef>
#include <cstdint>
#include <exception>
#include <functional>
#include <memory>
#include <string>
#include <thread>
#include <utility>
#include <vector>

#include "../trirast.h"
#include "error.hpp"
#include "polygons.hpp"
#include "span.hpp"
#include "state.hpp"
#include "values.hpp"

namespace trirast {

class Canvas;

/* Some tile rows of a canvas. The memory of their samples is the Canvas's, which has to outlive them. One thread at a
 * time may use them, and others may use tile rows of which these have none. They are moved and not copied, so that
 * const ones stay as they are. */
class TileRows {
public:
    TileRows(const TileRows &) = delete;
    TileRows &operator=(const TileRows &) = delete;

    /* The rows of a canvas without its memory would be left behind when it goes. */
    TileRows(Canvas &&) = delete;
    TileRows &operator=(Canvas &&) = delete;

    /* Those that were moved from are none. */
    TileRows(TileRows &&other) noexcept { std::swap(rows_, other.rows_); }
    TileRows &operator=(TileRows &&other) noexcept {
        TileRows(std::move(other)).swap_rows(*this);
        return *this;
    }

    std::uint32_t width() const noexcept { return rows_.width; }

    /* The rows of pixels of these tile rows. */
    std::uint32_t height() const noexcept { return pixel_row(rows_.end) - pixel_row(rows_.first); }

    /* The first row of pixels, counted from the top of the canvas. */
    std::uint32_t top() const noexcept { return pixel_row(rows_.first); }

    /* The first tile row, and the one behind the last. */
    std::uint32_t first() const noexcept { return rows_.first; }
    std::uint32_t end() const noexcept { return rows_.end; }

    std::uint32_t samples() const noexcept { return rows_.samples; }
    bool has_alpha() const noexcept { return rows_.channels == 4; }

    /* The struct for the calls of trirast.h. */
    const trirast_canvas &in_c() const noexcept { return rows_; }

    /* Those from `first` to before `end`. Throws Error, BAD_TILE_ROWS, if these lack one of them. */
    TileRows rows(std::uint32_t first, std::uint32_t end) {
        TileRows part;
        detail::check(trirast_canvas_split(&rows_, first, end, &part.rows_), [&](trirast_status status) {
            return status == TRIRAST_STATUS_BAD_TILE_ROWS ? detail::tile_row_values(rows_, first, end) : std::string{};
        });
        return part;
    }

    /* These tile rows in at most this many parts, one for each thread. */
    std::vector<TileRows> split(std::uint32_t parts) {
        const std::uint64_t count = end() - first();
        const std::uint64_t most = parts < count ? parts : count;
        std::vector<TileRows> found;
        for (std::uint64_t k = 0; k < most; k++)
            found.push_back(rows(first() + static_cast<std::uint32_t>(count * k / most),
                                 first() + static_cast<std::uint32_t>(count * (k + 1) / most)));
        return found;
    }

    /* Splits these tile rows, calls work(part) once for each part, a TileRows &, on as many threads, of which the
     * calling one is one, and waits for them. If a thread cannot be started, the calling one does its part. Throws what
     * one of the calls has thrown. */
    template <class Work>
    void share(std::uint32_t threads, const Work &work) {
        std::vector<std::thread> started;
        started.reserve(threads < end() - first() ? threads : end() - first());
        const auto start = [&started](const std::function<void()> &task) {
            if (detail::thrown_by([&] { started.emplace_back(task); })) task();
        };
        const auto wait = [&started] {
            for (std::thread &thread : started) thread.join();
        };
        share(threads, work, start, wait);
    }

    /* Splits these tile rows, and calls work(part) once for each part by an executor: start(task) runs a copy
     * of a std::function<void()> now or later on any thread, and wait() waits until all of them have ended.
     * Neither may throw. */
    template <class Work, class Start, class Wait>
    void share(std::uint32_t threads, const Work &work, const Start &start, const Wait &wait) {
        std::vector<TileRows> parts = split(threads);
        std::vector<std::exception_ptr> failed(parts.size());
        const auto run = [&parts, &failed, &work](std::size_t k) {
            failed[k] = detail::thrown_by([&] { work(parts[k]); });
        };
        /* All of them are there before the first is started, so that memory does not run out between. */
        std::vector<std::function<void()>> tasks;
        for (std::size_t k = 1; k < parts.size(); k++) tasks.emplace_back([&run, k] { run(k); });
        for (const std::function<void()> &task : tasks) start(task);
        if (!parts.empty()) run(0);
        wait();
        for (const std::exception_ptr &error : failed)
            if (error) std::rethrow_exception(error);
    }

    /* Splits these tile rows, and calls work(part) once for each part by a pool, such as Pool of trirast_frame.hpp:
     * jobs(count, job) calls job(k) once for each k below count, on any threads, and waits for these calls. */
    template <class Work, class Jobs>
    void share(std::uint32_t threads, const Work &work, const Jobs &jobs) {
        std::vector<TileRows> parts = split(threads);
        std::vector<std::exception_ptr> failed(parts.size());
        jobs(parts.size(), [&](std::size_t k) { failed[k] = detail::thrown_by([&] { work(parts[k]); }); });
        for (const std::exception_ptr &error : failed)
            if (error) std::rethrow_exception(error);
    }

    /* Without a colour each sample is black with alpha 0, and as deep as can be. */
    void clear() { detail::check(trirast_canvas_clear(&rows_, nullptr)); }

    void clear(const Clear &to) {
        trirast_clear clear{};
        clear.red = to.red, clear.green = to.green, clear.blue = to.blue, clear.alpha = to.alpha,
            clear.depth = to.depth;
        detail::check(trirast_canvas_clear(&rows_, &clear));
    }

    /* Makes a picture the colour of all samples of its pixels. `stride` is in bytes, as in all calls; 0
     * is a row of pixels. */
    void load(trirast_format format, Span<const std::uint8_t> pixels, std::size_t stride = 0) {
        detail::check(trirast_canvas_load(&rows_, format, pixels.data(), pixels.size(), stride),
                      detail::ImageValues{rows_, height(), format, pixels.size(), stride});
    }

    /* Makes a picture the colour of one sample of each pixel. `stride` is in bytes; 0 is a row of pixels. */
    void store(std::uint32_t sample, trirast_format format, Span<const std::uint8_t> pixels, std::size_t stride = 0) {
        detail::check(trirast_canvas_store(&rows_, sample, format, pixels.data(), pixels.size(), stride),
                      detail::ImageValues{rows_, height(), format, pixels.size(), stride, sample});
    }

    /* Draws triangles of one state, by this number of threads. */
    void draw(Vertices vertices, Indices indices = {}, const State &state = {}, std::uint32_t threads = 1) {
        const trirast_draw draw = draw_of(vertices, indices, state);
        draw_batch(batch_of(draw, vertices, indices), threads);
    }

    /* Draws a batch of C, whose arrays are as it says. */
    void draw_batch(const trirast_batch &batch, std::uint32_t threads = 1) {
        each(threads, [&](TileRows &part) {
            detail::check_call([&](trirast_error *error) { return trirast_canvas_draw(&part.rows_, &batch, error); },
                               detail::BatchValues{rows_, batch});
        });
    }

    void draw_ids(Vertices vertices, Indices indices, std::uint32_t first_id, const State &state = {},
                  std::uint32_t threads = 1) {
        const trirast_draw draw = draw_of(vertices, indices, state);
        draw_batch_ids(batch_of(draw, vertices, indices), first_id, threads);
    }

    void draw_batch_ids(const trirast_batch &batch, std::uint32_t first_id, std::uint32_t threads = 1) {
        each(threads, [&](TileRows &part) {
            detail::check_call(
                [&](trirast_error *error) { return trirast_canvas_draw_ids(&part.rows_, &batch, first_id, error); },
                detail::BatchValues{rows_, batch});
        });
    }

    /* Draws polygons, one after another, of whose state the topology and what is culled are not used. Scratch memory is
     * allocated for each thread: 32 bytes for each pixel of the width, and 1,056 by the nonzero rule. If there are
     * several threads and the polygons have no boxes, these are found once, for all threads. */
    void draw_polygons(const Polygons &polygons, const State &state = {}, std::uint32_t threads = 1) {
        draw_polygons(detail::polygons_in_c(polygons, state), threads);
    }

    /* Draws polygons of C, whose arrays are as it says. */
    void draw_polygons(const trirast_polygons &polygons, std::uint32_t threads = 1) {
        each_with_scratch(polygons, threads,
                          [](TileRows &part, const trirast_polygons &drawn, void *scratch, std::size_t size,
                             trirast_error *error) {
                              return trirast_canvas_draw_polygons(&part.rows_, &drawn, scratch, size, error);
                          });
    }

    void draw_polygon_ids(const Polygons &polygons, std::uint32_t first_id, const State &state = {},
                          std::uint32_t threads = 1) {
        draw_polygon_ids(detail::polygons_in_c(polygons, state), first_id, threads);
    }

    void draw_polygon_ids(const trirast_polygons &polygons, std::uint32_t first_id, std::uint32_t threads = 1) {
        each_with_scratch(polygons, threads,
                          [first_id](TileRows &part, const trirast_polygons &drawn, void *scratch, std::size_t size,
                                     trirast_error *error) {
                              return trirast_canvas_draw_polygon_ids(&part.rows_, &drawn, first_id, scratch, size,
                                                                     error);
                          });
    }

    void resolve(trirast_format format, Span<std::uint8_t> pixels, std::size_t stride = 0) const {
        detail::check(trirast_canvas_resolve(&rows_, format, pixels.data(), pixels.size(), stride),
                      detail::ImageValues{rows_, height(), format, pixels.size(), stride});
    }

    /* The pixels without padding. */
    std::vector<std::uint8_t> pixels(trirast_format format = TRIRAST_FORMAT_RGB8) const {
        std::vector<std::uint8_t> found(bytes_of(format));
        resolve(format, found);
        return found;
    }

    /* The colour of one sample of each pixel. */
    void colors(std::uint32_t sample, trirast_format format, Span<std::uint8_t> pixels, std::size_t stride = 0) const {
        detail::check(trirast_canvas_colors(&rows_, sample, format, pixels.data(), pixels.size(), stride),
                      detail::ImageValues{rows_, height(), format, pixels.size(), stride, sample});
    }

    std::vector<std::uint8_t> colors(std::uint32_t sample, trirast_format format = TRIRAST_FORMAT_RGBA8) const {
        std::vector<std::uint8_t> found(bytes_of(format));
        colors(sample, format, found);
        return found;
    }

    void depths(std::uint32_t sample, Span<std::uint16_t> entries, std::size_t stride = 0) const {
        detail::check(trirast_canvas_depths(&rows_, sample, entries.data(), entries.size(), stride),
                      detail::EntryValues{rows_, height(), sample, sizeof(std::uint16_t), entries.size(), stride});
    }

    std::vector<std::uint16_t> depths(std::uint32_t sample = 0) const {
        std::vector<std::uint16_t> found(std::size_t{width()} * height());
        depths(sample, found);
        return found;
    }

    void ids(std::uint32_t sample, Span<std::uint32_t> entries, std::size_t stride = 0) const {
        detail::check(trirast_canvas_ids(&rows_, sample, entries.data(), entries.size(), stride),
                      detail::EntryValues{rows_, height(), sample, sizeof(std::uint32_t), entries.size(), stride});
    }

    std::vector<std::uint32_t> ids(std::uint32_t sample = 0) const {
        std::vector<std::uint32_t> found(std::size_t{width()} * height());
        ids(sample, found);
        return found;
    }

    /* How many tiles a tile row has, and how many entries a tile: one for each sample of its pixels, in the order of
     * TRIRAST_TILE_ENTRIES. For each 64 of them tile_blend has a mask. */
    std::uint32_t tile_columns() const noexcept { return (rows_.width + TRIRAST_TILE_SIZE - 1) / TRIRAST_TILE_SIZE; }
    std::size_t tile_entries() const noexcept { return TRIRAST_TILE_ENTRIES(samples()); }
    std::size_t tile_masks() const noexcept { return TRIRAST_TILE_MASKS(samples()); }

    /* Writes the ids of all samples of one tile to tile_entries() entries. Returns those that were written: one
     * if all blocks of the tile are stored as cleared and have one id, as after clear. */
    Span<const std::uint32_t> tile_ids(std::uint32_t column, std::uint32_t row, Span<std::uint32_t> entries) const {
        std::uint32_t uniform = 0;
        detail::check(trirast_canvas_tile_ids(&rows_, column, row, entries.data(), entries.size(), &uniform),
                      detail::TileValues{rows_, column, row, entries.size()});
        return {entries.data(), uniform ? 1 : tile_entries()};
    }

    /* Stores the colours of all samples of one tile, as tile_ids has written ids, or one colour for all of them.
     * Depths and alpha stay. */
    void tile_store(std::uint32_t column, std::uint32_t row, Span<const std::uint32_t> colors) {
        detail::check(trirast_canvas_tile_store(&rows_, column, row, colors.data(), colors.size()),
                      detail::TileValues{rows_, column, row, colors.size(), "1 or "});
    }

    /* Blends a fragment with each kept sample of one tile, as drawing does with a sample that a triangle covers: by the
     * depth test, depth_write, keep and blend of the state. Colours, with alpha in the upper byte, and depths are
     * ordered as tile_ids writes ids, and bit k of mask n is of entry 64 * n + k. One of them stands for all. */
    void tile_blend(std::uint32_t column, std::uint32_t row, const State &state, Span<const std::uint32_t> colors,
                    Span<const std::uint16_t> depths, Span<const std::uint64_t> kept) {
        const trirast_draw draw = detail::draw_in_c(state);
        detail::check(trirast_canvas_tile_blend(&rows_, column, row, &draw, colors.data(), colors.size(), depths.data(),
                                                depths.size(), kept.data(), kept.size()),
                      detail::BlendValues{rows_, column, row, colors.size(), depths.size(), kept.size()});
    }

protected:
    TileRows() noexcept = default;

    void swap_rows(TileRows &other) noexcept { std::swap(rows_, other.rows_); }

    trirast_canvas rows_{};

private:
    std::uint32_t pixel_row(std::uint32_t tile_row) const noexcept {
        const std::uint32_t row = tile_row * TRIRAST_TILE_SIZE;
        return row < rows_.height ? row : rows_.height;
    }

    std::size_t bytes_of(trirast_format format) const noexcept {
        return std::size_t{width()} * height() * detail::pixel_bytes(format);
    }

    /* One call, also if there are no tile rows: it checks what is drawn. */
    template <class Work>
    void each(std::uint32_t threads, const Work &work) {
        if (threads > 1 && end() - first() > 1) share(threads, work);
        else work(*this);
    }

    /* Makes a call on each part with scratch memory of its own. All of it is there before one part is drawn, so that
     * nothing is changed if it is not. */
    template <class Call>
    void each_with_scratch(trirast_polygons polygons, std::uint32_t threads, const Call &call) {
        const std::size_t words =
            trirast_polygons_scratch(&rows_, static_cast<trirast_fill_rule>(polygons.fill_rule)) / 8;
        const std::uint32_t parts = threads < end() - first() ? threads : end() - first();
        /* What is in it does not matter, so it is not written first. */
        const std::unique_ptr<std::uint64_t[]> scratch{new std::uint64_t[words * (parts > 1 ? parts : 1)]};
        const std::unique_ptr<trirast_box[]> boxes = parts > 1 ? detail::with_boxes(polygons) : nullptr;
        std::atomic<std::size_t> taken{0};
        each(threads, [&](TileRows &part) {
            std::uint64_t *const own = scratch.get() + words * taken++;
            detail::check_call([&](trirast_error *error) { return call(part, polygons, own, 8 * words, error); },
                               detail::PolygonValues{rows_, polygons});
        });
    }

    /* An empty container may have no address, for which C takes the vertices in their order, so none is passed then. */
    static trirast_draw draw_of(Vertices vertices, Indices indices, const State &state) noexcept {
        trirast_draw draw = detail::draw_in_c(state);
        const bool is_empty = indices.bytes() != 0 && indices.size() == 0;
        draw.vertex_count = is_empty ? 0 : vertices.size(), draw.index_count = indices.size();
        return draw;
    }

    static trirast_batch batch_of(const trirast_draw &draw, Vertices vertices, Indices indices) noexcept {
        trirast_batch batch{};
        batch.draws = &draw, batch.draw_count = 1;
        batch.vertices = vertices.data(), batch.vertex_count = draw.vertex_count,
            batch.vertex_stride = vertices.stride();
        batch.indices = indices.data(), batch.index_count = indices.size(), batch.index_size = indices.bytes();
        return batch;
    }
};

}  // namespace trirast

#endif
