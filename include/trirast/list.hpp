/* Draw lists, which are JSON texts: a part of trirast.hpp. */
#ifndef TRIRAST_LIST_HPP
#define TRIRAST_LIST_HPP

#include <cstddef>
#include <cstdint>
#include <string>
#include <string_view>
#include <vector>

#include "../trirast.h"
#include "error.hpp"
#include "span.hpp"
#include "values.hpp"

namespace trirast {

namespace detail {

/* What a call on a draw list was given, for the message of its error. */
struct ListValues {
    std::string_view list;
    std::uint32_t tile_size = 0, x = 0, y = 0;
    std::size_t size = 0; /* of the buffer */

    std::string operator()(const trirast_error &error) const {
        switch (error.status) {
        case TRIRAST_STATUS_INPUT_TOO_LONG: return refused("at most 67108864 bytes", list.size());
        case TRIRAST_STATUS_BAD_TILE_SIZE: return refused("8, 16, 32 or 64 pixels", tile_size);
        case TRIRAST_STATUS_BUFFER_TOO_SMALL: return refused("the file_bytes of list_info", size);
        case TRIRAST_STATUS_BAD_PIXEL:
            return refused("one of the picture", std::to_string(x) + " and " + std::to_string(y));
        default: return {};
        }
    }
};

}  // namespace detail

/* The size of a draw list's picture and of its file. */
inline trirast_image_info list_info(std::string_view list) {
    trirast_image_info info{};
    detail::check_call([&](trirast_error *error) { return trirast_list_info(list.data(), list.size(), &info, error); },
                       detail::ListValues{list});
    return info;
}

/* Draws the picture of a draw list, header and pixels, at the beginning of a buffer. */
inline void list_draw(std::string_view list, Span<std::uint8_t> buffer, std::uint32_t tile_size = 32) {
    detail::check_call(
        [&](trirast_error *error) {
            return trirast_list_draw(list.data(), list.size(), tile_size, buffer.data(), buffer.size(), error);
        },
        detail::ListValues{list, tile_size, 0, 0, buffer.size()});
}

/* The file of a draw list's picture. */
inline std::vector<std::uint8_t> list_draw(std::string_view list, std::uint32_t tile_size = 32) {
    std::vector<std::uint8_t> file(static_cast<std::size_t>(list_info(list).file_bytes));
    list_draw(list, file, tile_size);
    return file;
}

/* Draws the tile rows from `first` to before `end`, without a header, at the beginning of a buffer. */
inline void list_draw_rows(std::string_view list, std::uint32_t first, std::uint32_t end, Span<std::uint8_t> buffer,
                           std::uint32_t tile_size = 32) {
    detail::check_call(
        [&](trirast_error *error) {
            return trirast_list_draw_rows(list.data(), list.size(), tile_size, first, end, buffer.data(), buffer.size(),
                                          error);
        },
        detail::ListValues{list, tile_size, 0, 0, buffer.size()});
}

/* Why a sample of a draw list's picture is what it is. */
struct History {
    trirast_sample_info info;
    std::vector<trirast_event> events; /* in draw order */
};

/* The history of a sample: an event for each triangle that covers it, or with `all` for each triangle. */
inline History list_history(std::string_view list, std::uint32_t x, std::uint32_t y, std::uint32_t sample = 0,
                            bool all = false) {
    trirast_history_request request{};
    request.x = x, request.y = y, request.sample = sample, request.all = all ? 1 : 0;
    History found{};
    const auto ask = [&](trirast_error *error) {
        return trirast_list_history(list.data(), list.size(), &request, found.events.data(), found.events.size(),
                                    &found.info, error);
    };
    detail::check_call(ask, detail::ListValues{list, 0, x, y});
    found.events.resize(found.info.event_count);
    if (!found.events.empty()) detail::check_call(ask);
    return found;
}

/* How many samples of the picture a triangle covers, changes and is shown by. */
inline trirast_sample_counts list_triangle_samples(std::string_view list, std::size_t draw, std::size_t triangle) {
    trirast_sample_counts counts{};
    detail::check_call([&](trirast_error *error) {
        return trirast_list_triangle_samples(list.data(), list.size(), draw, triangle, &counts, error);
    });
    return counts;
}

}  // namespace trirast

#endif
