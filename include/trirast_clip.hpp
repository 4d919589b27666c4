/* trirast_clip.hpp: trirast_clip.h for C++17 and later, with vectors that grow. The header in C says what is computed,
 * with which errors, and why no crack comes about; docs/clipping.md has an example.
 *
 *     trirast::Clip clip{};
 *     clip.width = 1280, clip.height = 720;
 *     trirast::Clipped seen;
 *     trirast::clip_triangles(clip, positions, indices, seen);
 *     canvas.draw(seen.vertices, seen.indices);
 */
#ifndef TRIRAST_CLIP_HPP
#define TRIRAST_CLIP_HPP

#include <algorithm>
#include <cstddef>
#include <cstdint>
#include <stdexcept>
#include <vector>

#include "trirast.hpp"
#include "trirast_clip.h"

namespace trirast {

using Clip = trirast_clip;
using ClipPosition = trirast_clip_position;
using Cut = trirast_clip_cut;

/* Triangles on the screen. Vertex `first_cut + k` was made by cuts[k]; those before it are the projected positions, at
 * their own indices. The rest is as in trirast_clipped. One that is used again keeps its memory. */
struct Clipped {
    std::vector<trirast_vertex> vertices;
    std::vector<float> w;
    std::vector<Cut> cuts;
    std::vector<std::uint32_t> indices;
    std::vector<std::uint32_t> sources;
    std::vector<std::uint16_t> marks; /* of use to clip_triangles alone, as the parts are */
    struct Part {
        std::size_t whole = 0, cut = 0; /* triangles of the source that come out as they went in, and that are cut */
        trirast_clipped in_c{};
        trirast_clip_status status = TRIRAST_CLIP_OK;
    };
    std::vector<Part> parts;
    std::uint32_t first_cut = 0;
    std::size_t folded = 0;
};

namespace detail {

/* Gives the arrays these capacities. What is in them stays. */
inline void enlarge(Clipped &arrays, std::size_t positions, std::size_t cuts, std::size_t triangles,
                    trirast_clipped &in_c) {
    arrays.vertices.resize(positions + cuts), arrays.w.resize(positions + cuts), arrays.cuts.resize(cuts);
    arrays.indices.resize(3 * triangles), arrays.sources.resize(triangles);
    in_c.vertices = arrays.vertices.data(), in_c.w = arrays.w.data(), in_c.cuts = arrays.cuts.data();
    in_c.indices = arrays.indices.data(), in_c.sources = arrays.sources.data(), in_c.marks = arrays.marks.data();
    in_c.cut_capacity = cuts, in_c.triangle_capacity = triangles;
}

inline void check_clip(trirast_clip_status status) {
    const char *text = trirast_clip_status_string(status);
    if (status == TRIRAST_CLIP_BAD_INDEX) raise(std::out_of_range(text));
    if (status == TRIRAST_CLIP_TOO_MANY) raise(std::length_error(text));
    if (status != TRIRAST_CLIP_OK) raise(std::invalid_argument(text));
}

} // namespace detail

/* Makes the triangles on the screen of triangles in clip space, as trirast_clip_triangles does.
 *
 * Throws std::invalid_argument if there is no such viewport or option, std::out_of_range if an index names no position,
 * std::length_error if there are too many positions or triangles, and std::bad_alloc. Then `out` is unspecified. */
inline void clip_triangles(const Clip &clip, Span<const ClipPosition> positions, Span<const std::uint32_t> indices,
                           Clipped &out) {
    const std::size_t count = positions.size();
    std::size_t cuts = TRIRAST_CLIP_MAX_CORNERS, triangles = indices.size() / 3 + TRIRAST_CLIP_MAX_CORNERS;
    trirast_clipped in_c{};
    trirast_clip_status status = TRIRAST_CLIP_FULL;
    out.marks.resize(count);
    while (status == TRIRAST_CLIP_FULL) {
        detail::enlarge(out, count, cuts, triangles, in_c);
        status = trirast_clip_triangles(&clip, positions.data(), count, indices.data(), indices.size(), &in_c);
        cuts *= 2, triangles += cuts;
    }
    detail::check_clip(status);
    detail::enlarge(out, count, in_c.cut_count, in_c.triangle_count, in_c);
    out.first_cut = static_cast<std::uint32_t>(count), out.folded = in_c.folded;
}

namespace detail {

/* Clipping by parts: the source's triangles in ranges, each with room of its own in the arrays of the result, so that
 * threads need not wait for each other. Then the parts are moved together. */
class ClipParts {
public:
    /* Throws as clip_triangles does. */
    ClipParts(const Clip &clip, Span<const ClipPosition> positions, Span<const std::uint32_t> indices,
              std::size_t parts, Clipped &out)
        : positions_(positions), indices_(indices), out_(out) {
        check_clip(trirast_clipping_begin(&clip, &view_));
        if (positions.size() > UINT32_MAX || indices.size() / 3 > UINT32_MAX) check_clip(TRIRAST_CLIP_TOO_MANY);
        out.vertices.resize(positions.size()), out.w.resize(positions.size()), out.marks.resize(positions.size());
        out.parts.assign(parts, {});
    }

    /* Projects the positions of a part. */
    void project(std::size_t part) const noexcept {
        const std::size_t first = bound(positions_.size(), part), end = bound(positions_.size(), part + 1);
        if (first == end) return;
        trirast_clipped own{};
        own.vertices = &out_.vertices[first], own.w = &out_.w[first], own.marks = &out_.marks[first];
        trirast_clipping_project(&view_, &positions_[first], end - first, &own);
    }

    /* Counts what becomes of the triangles of a part. All positions are projected. */
    void count(std::size_t part) const noexcept {
        Clipped::Part &own = out_.parts[part];
        const std::size_t end = last(part);
        for (std::size_t k = own.in_c.taken = bound(triangles(), part); k < end; k++) {
            const std::uint32_t *corners = &indices_[3 * k];
            if (std::max({corners[0], corners[1], corners[2]}) >= positions_.size()) {
                own.status = TRIRAST_CLIP_BAD_INDEX;
                return;
            }
            const unsigned a = out_.marks[corners[0]], b = out_.marks[corners[1]], c = out_.marks[corners[2]];
            const bool comes = !(a & b & c) && !((a | b | c) & TRIRAST_CLIPPING_NOT_FINITE);
            const bool is_cut = (a | b | c) & TRIRAST_CLIPPING_ALL_PLANES;
            own.whole += comes && !is_cut, own.cut += comes && is_cut;
        }
    }

    /* Gives each part its room. */
    void make_room() {
        std::size_t cuts = 0, triangles = 0;
        for (Clipped::Part &part : out_.parts) {
            check_clip(part.status);
            part.in_c.cut_count = cuts, part.in_c.triangle_count = triangles;
            part.in_c.cut_capacity = cuts += more_of(part);
            part.in_c.triangle_capacity = triangles += part.whole + more_of(part);
        }
        if (cuts > UINT32_MAX - positions_.size()) check_clip(TRIRAST_CLIP_TOO_MANY);
        trirast_clipped all{};
        enlarge(out_, positions_.size(), cuts, triangles, all);
        for (Clipped::Part &part : out_.parts) {
            part.in_c.vertices = all.vertices, part.in_c.w = all.w, part.in_c.marks = all.marks;
            part.in_c.cuts = all.cuts, part.in_c.indices = all.indices, part.in_c.sources = all.sources;
        }
    }

    /* Makes the triangles of a part. */
    void make(std::size_t part) const noexcept {
        Clipped::Part &own = out_.parts[part];
        own.status = trirast_clipping_add_triangles(&view_, positions_.data(), positions_.size(), indices_.data(),
                                                    last(part), &own.in_c);
    }

    /* Moves the parts together. Returns false if one was too small: then all is to be done anew. */
    bool join() {
        std::size_t cuts = 0, triangles = 0, before = 0;
        out_.folded = 0;
        for (const Clipped::Part &part : out_.parts) {
            if (part.status == TRIRAST_CLIP_FULL) return false;
            move(part, before, cuts, triangles);
            out_.folded += part.in_c.folded, before = part.in_c.cut_capacity;
        }
        trirast_clipped all{};
        enlarge(out_, positions_.size(), cuts, triangles, all);
        out_.first_cut = static_cast<std::uint32_t>(positions_.size());
        return true;
    }

private:
    std::size_t triangles() const noexcept { return indices_.size() / 3; }
    std::size_t bound(std::size_t whole, std::size_t part) const noexcept {
        const std::size_t parts = out_.parts.size();
        return whole / parts * part + std::min(part, whole % parts);
    }
    std::size_t last(std::size_t part) const noexcept { return bound(triangles(), part + 1); }

    /* Moves a part behind the `cuts` and `triangles` that are in place, and counts it. `first` is its first cut. */
    void move(const Clipped::Part &part, std::size_t first, std::size_t &cuts, std::size_t &triangles) {
        const std::size_t made = part.in_c.cut_count - first,
                          begin = part.in_c.triangle_capacity - part.whole - more_of(part),
                          count = part.in_c.triangle_count - begin;
        if (begin != triangles) {
            std::copy_n(&out_.indices[3 * begin], 3 * count, &out_.indices[3 * triangles]);
            std::copy_n(&out_.sources[begin], count, &out_.sources[triangles]);
        }
        if (made && first != cuts) {
            const std::size_t from = positions_.size() + first, to = positions_.size() + cuts;
            std::copy_n(&out_.cuts[first], made, &out_.cuts[cuts]);
            std::copy_n(&out_.vertices[from], made, &out_.vertices[to]), std::copy_n(&out_.w[from], made, &out_.w[to]);
            for (std::size_t k = 3 * triangles; k < 3 * (triangles + count); k++)
                if (out_.indices[k] >= from) out_.indices[k] -= static_cast<std::uint32_t>(first - cuts);
        }
        cuts += made, triangles += count;
    }
    /* The room for cuts, and for as many triangles, if one plane cuts each triangle: then it makes two cuts, and leaves
     * at most two triangles. */
    static std::size_t more_of(const Clipped::Part &part) noexcept {
        return part.cut ? 2 * part.cut + TRIRAST_CLIP_MAX_CORNERS : 0;
    }

    Span<const ClipPosition> positions_;
    Span<const std::uint32_t> indices_;
    Clipped &out_;
    trirast_clipping view_;
};

} // namespace detail

/* Clips and projects triangles by threads of the caller: what is made is the same for any number of parts.
 *
 * @parts: in how many the work is done, at least 1: as many as threads, or a few times that.
 * @each: called as each(parts, job) it has to call job(k), which does not throw, once for each k below parts, on any
 *     threads and in any order, and to wait for these calls. It is called three times, one after another. */
template <class Each>
void clip_triangles(const Clip &clip, Span<const ClipPosition> positions, Span<const std::uint32_t> indices,
                    Clipped &out, std::size_t parts, const Each &each) {
    if (parts < 2) return clip_triangles(clip, positions, indices, out);
    detail::ClipParts all(clip, positions, indices, parts, out);
    each(parts, [&](std::size_t k) { all.project(k); });
    each(parts, [&](std::size_t k) { all.count(k); });
    all.make_room();
    each(parts, [&](std::size_t k) { all.make(k); });
    if (!all.join()) clip_triangles(clip, positions, indices, out);
}

} // namespace trirast

#endif
