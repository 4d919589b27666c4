/* Polygons: a part of trirast.hpp. */
#ifndef TRIRAST_POLYGONS_HPP
#define TRIRAST_POLYGONS_HPP

#include <array>
#include <cstddef>
#include <cstdint>
#include <memory>
#include <vector>

#include "../trirast.h"
#include "error.hpp"
#include "span.hpp"
#include "state.hpp"
#include "values.hpp"

namespace trirast {

/* Red, green, blue and alpha. */
using Rgba = std::array<std::uint8_t, 4>;

/* Polygons in flat arrays, as trirast_polygons has them: rings of corners, each polygon in one colour
 * and at one depth. */
struct Polygons {
    Span<const trirast_corner> corners = {};      /* of all rings, one ring's after another's */
    Span<const std::uint32_t> ring_ends = {};     /* of each ring the index behind its last corner */
    Span<const std::uint32_t> polygon_ends = {};  /* of each polygon the index behind its last ring */
    Span<const Rgba> colors = {};                 /* one of each polygon; not looked at if ids are drawn */
    Span<const std::uint16_t> depths = {};        /* one of each polygon; without any all are 0 */
    trirast_fill_rule fill_rule = TRIRAST_FILL_EVEN_ODD;
    Span<const trirast_box> boxes = {};           /* one of each polygon, as polygon_boxes finds them, or none */
};

namespace detail {

inline trirast_polygons polygons_in_c(const Polygons &polygons, const State &state) noexcept {
    static_assert(sizeof(Rgba) == 4, "colours lie one after another");
    trirast_polygons found{};
    found.fill_rule = static_cast<std::uint32_t>(polygons.fill_rule);
    found.corners = polygons.corners.data(), found.corner_count = polygons.corners.size();
    found.ring_ends = polygons.ring_ends.data(), found.ring_count = polygons.ring_ends.size();
    found.polygon_ends = polygons.polygon_ends.data(), found.polygon_count = polygons.polygon_ends.size();
    found.colors = reinterpret_cast<const std::uint8_t(*)[4]>(polygons.colors.data()),
    found.color_count = polygons.colors.size();
    found.depths = polygons.depths.data(), found.depth_count = polygons.depths.size();
    found.boxes = polygons.boxes.data(), found.box_count = polygons.boxes.size();
    found.state = draw_in_c(state);
    return found;
}

/* Gives boxes to polygons without them, so that threads need not find them one by one. If something is wrong with the
 * polygons they get none, and the call that draws says what. Returns the boxes' memory. */
inline std::unique_ptr<trirast_box[]> with_boxes(trirast_polygons &polygons) {
    const std::size_t count = polygons.polygon_count;
    if (polygons.box_count != 0 || count == 0) return {};
    std::unique_ptr<trirast_box[]> boxes{new trirast_box[count]};
    if (trirast_polygons_measure(&polygons, boxes.get(), count, nullptr) != TRIRAST_STATUS_OK) return {};
    polygons.boxes = boxes.get(), polygons.box_count = count;
    return boxes;
}

}  // namespace detail

/* The box of each polygon's corners, as trirast_polygons_measure finds it. Polygons that are drawn again and again, or
 * by parts, take less time with them. */
inline std::vector<trirast_box> polygon_boxes(const trirast_polygons &polygons) {
    std::vector<trirast_box> boxes(polygons.polygon_count);
    detail::check_call(
        [&](trirast_error *error) { return trirast_polygons_measure(&polygons, boxes.data(), boxes.size(), error); },
        detail::PolygonValues{{}, polygons});
    return boxes;
}

inline std::vector<trirast_box> polygon_boxes(const Polygons &polygons) {
    return polygon_boxes(detail::polygons_in_c(polygons, {}));
}

}  // namespace trirast

#endif
