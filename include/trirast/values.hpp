/* What the message of an Error has behind the library's line, the values that were passed and what they may be: a
 * part of trirast.hpp. */
#ifndef TRIRAST_VALUES_HPP
#define TRIRAST_VALUES_HPP

#include <cstddef>
#include <cstdint>
#include <cstdio>
#include <cstring>
#include <string>

#include "../trirast.h"

namespace trirast {

namespace detail {

/* As ": expected 0 to 3, got 4". */
inline std::string refused(const std::string &wanted, const std::string &given) {
    return ": expected " + wanted + ", got " + given;
}
inline std::string refused(const std::string &wanted, std::size_t given) {
    return refused(wanted, std::to_string(given));
}

inline std::string canvas_values(const trirast_canvas &canvas) {
    return refused("1 to 4096 pixels a side and " TRIRAST_SAMPLE_COUNTS " samples a pixel",
                   std::to_string(canvas.width) + " by " + std::to_string(canvas.height) + " and " +
                       std::to_string(canvas.samples));
}

inline std::string tile_row_values(const trirast_canvas &rows, std::uint32_t first, std::uint32_t end) {
    return refused(std::to_string(rows.first) + " to " + std::to_string(rows.end),
                   std::to_string(first) + " to " + std::to_string(end));
}

inline std::string sample_values(const trirast_canvas &rows, std::uint32_t sample) {
    return refused("0 to " + std::to_string(rows.samples - 1), sample);
}

/* The bytes of a pixel. */
inline std::size_t pixel_bytes(trirast_format format) noexcept {
    /* generated: bytes */
    switch (format) {
    case TRIRAST_FORMAT_RGB8: return 3;
    default: return 4;
    }
    /* end of bytes */
}

/* Those of a buffer in which rows lie, in bytes. */
inline std::string buffer_values(std::size_t row, std::size_t rows, std::size_t size, std::size_t stride) {
    const std::size_t step = stride == 0 ? row : stride;
    if (step < row) return refused("a stride of at least " + std::to_string(row) + " bytes, or 0", step);
    const std::string wanted = std::to_string(rows == 0 ? 0 : (rows - 1) * step + row) + " bytes";
    return refused(wanted + " for " + std::to_string(rows) + " rows at a stride of " + std::to_string(step), size);
}

/* Those of a call that reads or writes rows of pixels, by its status. */
struct ImageValues {
    const trirast_canvas &rows;
    std::uint32_t height;
    trirast_format format;
    std::size_t size, stride;
    std::uint32_t sample = 0;

    std::string operator()(trirast_status status) const {
        if (status == TRIRAST_STATUS_BAD_FORMAT)
            return refused("0 to " + std::to_string(TRIRAST_MAX_FORMAT), std::to_string(format));
        if (status == TRIRAST_STATUS_BAD_SAMPLE) return sample_values(rows, sample);
        if (status != TRIRAST_STATUS_BUFFER_TOO_SMALL) return {};
        return buffer_values(rows.width * pixel_bytes(format), height, size, stride);
    }
};

/* Those of a call that writes entries, each of this size in bytes. */
struct EntryValues {
    const trirast_canvas &rows;
    std::uint32_t height, sample;
    std::size_t bytes, count, stride;

    std::string operator()(trirast_status status) const {
        if (status == TRIRAST_STATUS_BAD_SAMPLE) return sample_values(rows, sample);
        if (status == TRIRAST_STATUS_BAD_STRIDE)
            return refused("a multiple of " + std::to_string(bytes) + " bytes", stride);
        return status == TRIRAST_STATUS_BUFFER_TOO_SMALL
                   ? buffer_values(rows.width * bytes, height, count * bytes, stride)
                   : std::string{};
    }
};

/* Those of a call on a tile. `also` is another number of entries that it takes. */
struct TileValues {
    const trirast_canvas &rows;
    std::uint32_t column, row;
    std::size_t count;
    const char *also = "";

    std::string operator()(trirast_status status) const {
        if (status == TRIRAST_STATUS_BUFFER_TOO_SMALL)
            return refused(also + std::to_string(TRIRAST_TILE_ENTRIES(rows.samples)) + " entries", count);
        if (status != TRIRAST_STATUS_BAD_TILE) return {};
        const std::string columns = std::to_string((rows.width - 1) / TRIRAST_TILE_SIZE),
                          last = std::to_string(std::int64_t{rows.end} - 1);
        return refused("column 0 to " + columns + " and row " + std::to_string(rows.first) + " to " + last,
                       std::to_string(column) + " and " + std::to_string(row));
    }
};

/* Those of a call that blends fragments with a tile: how many colours, depths and masks it got. */
struct BlendValues {
    const trirast_canvas &rows;
    std::uint32_t column, row;
    std::size_t colors, depths, kept;

    std::string operator()(trirast_status status) const {
        const std::size_t masks = TRIRAST_TILE_MASKS(rows.samples), entries = TRIRAST_TILE_ENTRIES(rows.samples);
        const auto fits = [](std::size_t count, std::size_t all) { return count == 1 || count == all; };
        if (status == TRIRAST_STATUS_BUFFER_TOO_SMALL && fits(colors, entries) && fits(depths, entries))
            return refused("1 or " + std::to_string(masks) + " masks", kept);
        return TileValues{rows, column, row, fits(colors, entries) ? depths : colors, "1 or "}(status);
    }
};

/* A number of 1/256 pixel in pixels, exactly. */
inline std::string in_pixels(std::int64_t units) {
    char text[32];
    return std::string(
        text, static_cast<std::size_t>(std::snprintf(text, sizeof text, "%.15g", static_cast<double>(units) / 256)));
}

/* generated: limits */
constexpr std::int64_t lowest_position = -8388608, highest_position = 8388607;
constexpr std::int64_t lowest_origin = -32768, highest_origin = 28672;
/* end of limits */

/* The range of a coordinate if it is outside of it: on the screen, and as seen from an origin. */
inline std::string range_values(const char *name, std::int64_t value, std::int64_t origin) {
    const std::int64_t moved = 256 * origin, least = lowest_position + (moved < 0 ? 0 : moved),
                       greatest = highest_position + (moved < 0 ? moved : 0);
    if (least <= value && value <= greatest) return "";
    std::string found = std::string("; ") + name + (origin ? " with the origin " + std::to_string(origin) : "") + ": ";
    if (least > greatest) return found + "none";
    found += std::to_string(least) + " to " + std::to_string(greatest);
    return found + " (" + in_pixels(least) + " to " + in_pixels(greatest) + " pixels)";
}

inline std::string in_band() {
    return " of " + std::to_string(lowest_position) + " to " + std::to_string(highest_position);
}

/* Whether a coordinate is out of range. */
inline bool is_far(const trirast_corner &at) {
    return !(range_values("x", at.x, 0) + range_values("y", at.y, 0)).empty();
}

inline std::string position_values(const trirast_corner &at, std::int64_t origin_x = 0, std::int64_t origin_y = 0) {
    return ", got x " + std::to_string(at.x) + " and y " + std::to_string(at.y) + " in 1/256 pixel (" +
           in_pixels(at.x) + " and " + in_pixels(at.y) + " pixels)" + range_values("x", at.x, origin_x) +
           range_values("y", at.y, origin_y);
}

/* Those of a batch that was to be drawn on a canvas. */
struct BatchValues {
    const trirast_canvas &canvas;
    const trirast_batch &batch;

    std::string operator()(const trirast_error &error) const {
        if (error.status == TRIRAST_STATUS_BAD_STRIDE)
            return refused("a multiple of 4 from 16 to " + std::to_string(TRIRAST_MAX_STRIDE) + " bytes, or 0",
                           batch.vertex_stride);
        if (error.status == TRIRAST_STATUS_BAD_INDEX_SIZE) return refused("2 or 4 bytes, or 0", batch.index_size);
        if (error.status != TRIRAST_STATUS_BAD_BATCH) return {};
        if (error.cause == TRIRAST_BATCH_BAD_INDEX)
            return ": " + std::to_string(batch.draw_count ? batch.draws[error.draw].vertex_count : batch.vertex_count);
        if (error.cause != TRIRAST_BATCH_BAD_POSITION) return {};
        return position_values(vertex(error.draw, error.element), canvas.origin_x, canvas.origin_y);
    }

private:
    /* Where a vertex of a draw lies. */
    trirast_corner vertex(std::size_t draw, std::size_t number) const {
        for (std::size_t k = 0; batch.draw_count && k < draw; k++) number += batch.draws[k].vertex_count;
        const std::size_t stride = batch.vertex_stride ? batch.vertex_stride : sizeof(trirast_vertex);
        trirast_corner found;
        std::memcpy(&found, static_cast<const unsigned char *>(batch.vertices) + number * stride, sizeof found);
        return found;
    }
};

/* Where a ring or a polygon begins and ends. */
inline std::string end_values(const std::uint32_t *ends, std::size_t element, std::size_t count, const char *of_what) {
    const std::uint32_t begin = element ? ends[element - 1] : 0;
    return ", got " + std::to_string(ends[element]) + " after " + std::to_string(begin) + ", of " +
           std::to_string(count) + " " + of_what;
}

/* How many there are of what each polygon has one of. */
inline std::string counts_values(std::size_t given, std::size_t polygons) {
    return ", got " + std::to_string(given) + " for " + std::to_string(polygons) + " polygons";
}

/* Those of polygons that were to be drawn on a canvas. */
struct PolygonValues {
    const trirast_canvas &canvas;
    const trirast_polygons &polygons;

    std::string operator()(const trirast_error &error) const {
        if (error.status == TRIRAST_STATUS_BAD_POSITION)
            return refused("an origin of " + std::to_string(lowest_origin) + " to " + std::to_string(highest_origin) +
                               " pixels",
                           std::to_string(canvas.origin_x) + " and " + std::to_string(canvas.origin_y));
        if (error.status != TRIRAST_STATUS_BAD_BATCH) return {};
        switch (error.cause) {
        case TRIRAST_BATCH_BAD_POSITION: return position_values(polygons.corners[error.element]);
        case TRIRAST_BATCH_BAD_RING:
            return end_values(polygons.ring_ends, error.element, polygons.corner_count, "corners");
        case TRIRAST_BATCH_BAD_POLYGON:
            return end_values(polygons.polygon_ends, error.element, polygons.ring_count, "rings");
        /* generated: counts */
        case TRIRAST_BATCH_TOO_FEW_COLORS:
            return counts_values(polygons.color_count, polygons.polygon_count);
        case TRIRAST_BATCH_TOO_FEW_DEPTHS:
            return counts_values(polygons.depth_count, polygons.polygon_count);
        case TRIRAST_BATCH_TOO_FEW_BOXES:
            return counts_values(polygons.box_count, polygons.polygon_count);
        /* end of counts */
        default: return {};
        }
    }
};

}  // namespace detail

}  // namespace trirast

#endif
