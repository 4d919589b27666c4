/* Canvases with memory of their own: a part of trirast.hpp. */
#ifndef TRIRAST_CANVAS_HPP
#define TRIRAST_CANVAS_HPP

#include <cstddef>
#include <cstdint>
#include <memory>
#include <new>
#include <utility>

#if defined(__linux__)
#include <sys/mman.h>
#endif

#include "../trirast.h"
#include "error.hpp"
#include "state.hpp"
#include "tile_rows.hpp"
#include "values.hpp"

namespace trirast {

namespace detail {

struct Freed {
    std::size_t alignment = 0;
    void operator()(void *memory) const noexcept { ::operator delete(memory, std::align_val_t{alignment}); }
};

using Memory = std::unique_ptr<void, Freed>;

/* Memory for samples. Each frame brings them from memory and back, so Linux is asked for large pages if
 * they fill one. */
inline Memory memory_for_samples(std::size_t bytes) {
    constexpr std::size_t cache_line = 64, large_page = std::size_t{1} << 21;
    const std::size_t alignment = bytes < large_page ? cache_line : large_page;
    Memory memory{::operator new(bytes, std::align_val_t{alignment}), Freed{alignment}};
#if defined(MADV_HUGEPAGE)
    /* If it has none, pages are of the usual size. */
    if (alignment == large_page) static_cast<void>(madvise(memory.get(), bytes, MADV_HUGEPAGE));
#endif
    return memory;
}

}  // namespace detail

/* A canvas that is to be made. With designated initializers of C++20:
 * {.width = 640, .height = 480, .samples = 16, .alpha = true}. */
struct CanvasOptions {
    std::uint32_t width = 0, height = 0; /* 1 to 4096 pixels each */
    std::uint32_t samples = 1;           /* of a pixel: one of TRIRAST_SAMPLE_COUNTS */
    bool alpha = false;                  /* whether alpha is stored */
    Origin origin = {};
};

/* All tile rows of a canvas, with memory of its own. A canvas that was moved from has none, and its calls throw. */
class Canvas : public TileRows {
public:
    /* Its samples are black with alpha 0, and as deep as can be. Throws Error, BAD_CANVAS, if there is no such canvas,
     * and std::bad_alloc. */
    explicit Canvas(const CanvasOptions &options) {
        trirast_canvas canvas{};
        canvas.width = options.width, canvas.height = options.height,
        canvas.samples = options.samples ? options.samples : 1;
        canvas.channels = options.alpha ? 4 : 3, canvas.origin_x = options.origin.x, canvas.origin_y = options.origin.y;
        const std::size_t bytes = trirast_canvas_size(&canvas);
        if (bytes == 0) detail::raise(Error(TRIRAST_STATUS_BAD_CANVAS, detail::canvas_values(canvas)));
        memory_ = detail::memory_for_samples(bytes);
        detail::check(trirast_canvas_init(&canvas, memory_.get(), bytes));
        detail::check(trirast_canvas_clear(&canvas, nullptr));
        rows_ = canvas;
    }

    Canvas(Canvas &&other) noexcept { swap(other); }
    Canvas &operator=(Canvas &&other) noexcept {
        Canvas(std::move(other)).swap(*this);
        return *this;
    }

private:
    Canvas() noexcept = default;

    void swap(Canvas &other) noexcept {
        swap_rows(other);
        memory_.swap(other.memory_);
    }

    detail::Memory memory_;
};

}  // namespace trirast

#endif
