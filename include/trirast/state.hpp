/* What is drawn, and how it takes effect: a part of trirast.hpp. */
#ifndef TRIRAST_STATE_HPP
#define TRIRAST_STATE_HPP

#include <cstddef>
#include <cstdint>
#include <iterator>
#include <optional>
#include <type_traits>
#include <utility>

#include "../trirast.h"
#include "span.hpp"

namespace trirast {

/* What each sample is cleared to: a colour, of 0 to 255 each, opaque unless alpha is said, and a depth. A canvas
 * without alpha does not look at alpha. */
struct Clear {
    std::uint8_t red = 0, green = 0, blue = 0, alpha = 255;
    std::uint16_t depth = 65535;
};

/* The pixel of the screen at which the upper left one of a canvas lies. */
struct Origin {
    std::int32_t x = 0, y = 0;
};

/* Pixels of the screen, of which right and bottom are outside. */
struct Scissor {
    std::int32_t left, top, right, bottom;
};

inline constexpr trirast_blend blend_none = TRIRAST_BLEND_NONE;
inline constexpr trirast_blend blend_over = TRIRAST_BLEND_OVER;
inline constexpr trirast_blend blend_premultiplied = TRIRAST_BLEND_PREMULTIPLIED;
inline constexpr trirast_blend blend_add = TRIRAST_BLEND_ADD;
inline constexpr trirast_blend blend_multiply = TRIRAST_BLEND_MULTIPLY;
inline constexpr trirast_blend blend_keep = TRIRAST_BLEND_KEEP;

/* How the triangles of a draw take effect. The default draws triangles everywhere, without a depth test. */
struct State {
    trirast_topology topology = TRIRAST_TOPOLOGY_TRIANGLES;
    trirast_cull cull = TRIRAST_CULL_NONE;
    trirast_depth_test depth_test = TRIRAST_DEPTH_ALWAYS;
    bool depth_write = false;
    trirast_blend blend = blend_none;
    int keep = 0;                   /* every trirast_keep that is not written: TRIRAST_KEEP_RED | .. */
    std::uint16_t skip_samples = 0; /* bit s: sample s is not drawn */
    std::optional<Scissor> scissor = std::nullopt;
};

namespace detail {

/* The type of a container's elements. */
template <class C>
using ElementOf = std::remove_cv_t<std::remove_pointer_t<decltype(std::data(std::declval<const C &>()))>>;

/* The draw of C in this state, without vertices and indices. */
inline trirast_draw draw_in_c(const State &state) noexcept {
    trirast_draw draw{};
    draw.topology = static_cast<std::uint8_t>(state.topology), draw.cull = static_cast<std::uint8_t>(state.cull);
    draw.depth_test = static_cast<std::uint8_t>(state.depth_test), draw.depth_write = state.depth_write ? 1 : 0;
    draw.keep = static_cast<std::uint8_t>(state.keep), draw.skip_samples = state.skip_samples, draw.blend = state.blend;
    if (!state.scissor) return draw;
    draw.scissor_enable = 1;
    draw.scissor_left = state.scissor->left, draw.scissor_top = state.scissor->top;
    draw.scissor_right = state.scissor->right, draw.scissor_bottom = state.scissor->bottom;
    return draw;
}

}  // namespace detail

/* Vertices, from a container or an array of trirast_vertex, of structs that are derived from it, or of structs of which
 * it is a member: Vertices(points, &Point::vertex). They are read where they lie. */
class Vertices {
public:
    constexpr Vertices() noexcept = default;

    template <class C, class T = detail::ElementOf<C>,
              class = std::enable_if_t<std::is_convertible_v<const T *, const trirast_vertex *>>>
    constexpr Vertices(const C &container) noexcept
        : Vertices(std::data(container), static_cast<std::size_t>(std::size(container))) {}

    template <class T, class = std::enable_if_t<std::is_convertible_v<const T *, const trirast_vertex *>>>
    constexpr Vertices(const T *data, std::size_t size) noexcept : data_(data), size_(size), stride_(stride_of<T>()) {}

    template <class C, class T = detail::ElementOf<C>>
    constexpr Vertices(const C &container, trirast_vertex T::*member) noexcept
        : data_(std::size(container) == 0 ? nullptr : &(std::data(container)->*member)),
          size_(static_cast<std::size_t>(std::size(container))), stride_(stride_of<T>()) {}

    /* The address of the first one, and the bytes from one to the next. */
    constexpr const trirast_vertex *data() const noexcept { return data_; }
    constexpr std::size_t size() const noexcept { return size_; }
    constexpr std::uint32_t stride() const noexcept { return stride_; }

private:
    template <class T>
    static constexpr std::uint32_t stride_of() noexcept {
        static_assert(sizeof(T) <= TRIRAST_MAX_STRIDE, "the vertices lie too far apart");
        return sizeof(T);
    }

    const trirast_vertex *data_ = nullptr;
    std::size_t size_ = 0;
    std::uint32_t stride_ = sizeof(trirast_vertex);
};

/* Indices of 16 or of 32 bits, from a container or an array; or, without one, the vertices in their order. */
class Indices {
public:
    constexpr Indices() noexcept = default;

    template <class C, class T = detail::ElementOf<C>,
              class = std::enable_if_t<std::is_same_v<T, std::uint16_t> || std::is_same_v<T, std::uint32_t>>>
    constexpr Indices(const C &container) noexcept
        : data_(std::data(container)), size_(static_cast<std::size_t>(std::size(container))), bytes_(sizeof(T)) {}

    constexpr const void *data() const noexcept { return data_; }
    constexpr std::size_t size() const noexcept { return size_; }

    /* The bytes of an index; 0 without a container. */
    constexpr std::uint32_t bytes() const noexcept { return bytes_; }

private:
    const void *data_ = nullptr;
    std::size_t size_ = 0;
    std::uint32_t bytes_ = 0;
};

}  // namespace trirast

#endif
