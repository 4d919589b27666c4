/* Edge functions: a part of trirast.hpp. */
#ifndef TRIRAST_EDGES_HPP
#define TRIRAST_EDGES_HPP

#include <cstddef>
#include <string>
#include <vector>

#include "../trirast.h"
#include "error.hpp"
#include "span.hpp"
#include "values.hpp"

namespace trirast {

/* The edge functions of a triangle at points. Throws Error, BAD_POSITION, if a coordinate is out of range. */
inline std::vector<trirast_edges> edges_at(const trirast_corners &corners, Span<const trirast_point> points) {
    std::vector<trirast_edges> found(points.size());
    const auto values = [&](trirast_status) {
        const trirast_corner own[] = {{corners.ax, corners.ay}, {corners.bx, corners.by}, {corners.cx, corners.cy}};
        const char names[] = "abc";
        for (int k = 0; k < 3; k++)
            if (detail::is_far(own[k]))
                return std::string{": expected "} + names[k] + detail::in_band() + detail::position_values(own[k]);
        for (std::size_t k = 0; k < points.size(); k++)
            if (detail::is_far({points[k].x, points[k].y}))
                return ": expected points[" + std::to_string(k) + "]" + detail::in_band() +
                       detail::position_values({points[k].x, points[k].y});
        return std::string{};
    };
    detail::check(trirast_edges_at(&corners, points.data(), 0, points.size(), found.data()), values);
    return found;
}

}  // namespace trirast

#endif
