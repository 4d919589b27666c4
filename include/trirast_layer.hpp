/* trirast_layer.hpp: layers of shaded triangles that are blended over a canvas, and fragments that are discarded. For
 * C++17 and later.
 *
 *     // After the solid triangles were shaded: glass by texture, lit and translucent.
 *     const auto glass = [&](const trirast::Fragments &at, trirast::LayerColors &out) {
 *         const trirast::Texels texel = ...;
 *         out.red = texel.red, out.green = texel.green, out.blue = texel.blue, out.alpha = texel.alpha;
 *         out.discarded = texel.alpha < 128.0f;                      // if these are leaves
 *     };
 *     trirast::Layer layer{seen.vertices, seen.indices, triangles};
 *     trirast::blend_layer(rows, layer, glass, memory);
 *
 * A layer is drawn by ids against the stored depths, and each sample that shows one of its triangles is blended once.
 * So of triangles of one layer that lie behind each other a sample shows one: the nearest if the layer's state writes
 * depths, else the last one. Draw more layers, from back to front, to see through several.
 *
 * What was discarded stays as it was, but does not show what lies behind it in the same layer; and a state that writes
 * depths writes those of discarded samples too. A layer whose state does not write depths leaves them, so what is drawn
 * later is tested against the solid triangles alone.
 *
 * Ids, depths and storing are calls of the library, which are proved. Blending is tested: it gives the bytes of
 * TileRows::draw with the same blend equation and the shader's colours, rounded to bytes. The stored alpha stays. */
#ifndef TRIRAST_LAYER_HPP
#define TRIRAST_LAYER_HPP

#include <cstddef>
#include <cstdint>
#include <exception>
#include <vector>

#include "trirast_shade.hpp"

namespace trirast {

/* How a layer's colour is joined with the stored one, each rounded to a byte once: blend_over, blend_premultiplied,
 * blend_add and blend_multiply of trirast.hpp. A layer of alpha 255 over the stored one replaces it. */
enum class LayerBlend { over, premultiplied, add, multiply };

/* Triangles that are blended over what is there. */
struct Layer {
    Span<const trirast_vertex> vertices;
    Span<const std::uint32_t> indices;        /* three for each triangle */
    const ShadeTriangles &triangles;          /* those of the indices */
    LayerBlend blend = LayerBlend::over;
    State state = tested();                   /* of drawing by ids */
    Rate rate = Rate::pixel;
    const RowTriangles *own = nullptr;        /* those that these rows may show, or null for all */

    /* Triangles are tested against the stored depths, and do not write theirs. */
    static State tested() noexcept {
        State state;
        state.depth_test = TRIRAST_DEPTH_LESS;
        return state;
    }
};

/* Memory for blend_layer, which grows by itself. Each thread has one and keeps it. */
struct LayerMemory {
    TileEntries below, entries;
};

namespace detail {

/* v / 255 rounded to the nearest, for 0 to 255 * 255: there is no half, since 255 is odd. */
TRIRAST_INLINE Integers by_255(const Integers &v) noexcept { return (v + 128 + ((v + 128) >> 8)) >> 8; }

/* One channel of eight samples. */
TRIRAST_INLINE Integers blended(LayerBlend by, const Integers &source, const Integers &alpha,
                                const Integers &stored) noexcept {
    switch (by) {
    case LayerBlend::over: return by_255(source * alpha + stored * (255 - alpha));
    case LayerBlend::multiply: return by_255(source * stored);
    case LayerBlend::premultiplied: {
        const Integers sum = source + by_255(stored * (255 - alpha));
        return choose(sum > 255, 255, sum);
    }
    default: {
        const Integers sum = stored + by_255(source * alpha);
        return choose(sum > 255, 255, sum);
    }
    }
}

/* The entry of a sample that nothing is blended over, whatever is stored. */
constexpr std::int32_t neutral(LayerBlend by) noexcept { return by == LayerBlend::multiply ? 0xFFFFFF : 0; }

/* Blends entries, with alpha in the upper byte, over stored ones. */
inline void blend_entries(LayerBlend by, const TileEntries &source, std::uint32_t *stored, std::size_t count) noexcept {
    for (std::size_t k = 0; k < count; k += lane_count) {
        const Integers above = Integers::load(&source[k]), below = Integers::load(stored + k);
        if (!any(above != neutral(by))) continue;
        const Integers alpha = (above >> 24) & 255;
        const auto channel = [&](int shift) {
            return blended(by, (above >> shift) & 255, alpha, (below >> shift) & 255) << shift;
        };
        (channel(0) | channel(8) | channel(16)).store(stored + k);
    }
}

/* The tiles of tile rows, one after another. */
class LayerTiles {
public:
    LayerTiles(TileRows &rows, LayerMemory &memory)
        : rows_(rows), memory_(memory), columns_(rows.tile_columns()), entries_(rows.tile_entries()) {
        memory.below.resize(count() * entries_), memory.entries.resize(entries_);
    }

    /* Reads the colours of all tiles, and makes them white: the id of no triangle. */
    void begin() {
        for (std::size_t k = 0; k < count(); k++) {
            std::uint32_t *const to = below(k);
            if (rows_.tile_ids(column(k), row(k), {to, entries_}).size() == 1) std::fill_n(to, entries_, *to);
        }
        const std::uint32_t white = no_triangle;
        for (std::size_t k = 0; k < count(); k++) rows_.tile_store(column(k), row(k), {&white, 1});
    }

    /* Shades the ids of a tile, and blends it over its colours. */
    template <class Shader>
    void blend(std::size_t k, const Layer &layer, Shader &shader) {
        const std::size_t triangles = layer.own ? layer.own->size() : layer.triangles.size();
        TileEntries &entries = memory_.entries;
        const bool is_uniform = rows_.tile_ids(column(k), row(k), entries).size() == 1;
        if (is_uniform && entries[0] >= triangles) return restore(k);
        if (is_uniform) entries.assign(entries_, std::uint32_t{entries[0]});
        shade_entries<LayerColors>(rows_.in_c(), column(k), row(k), layer.triangles, NoKeys{}, layer.rate,
                                   neutral(layer.blend), shader, entries, layer.own);
        blend_entries(layer.blend, entries, below(k), entries_);
        restore(k);
    }

    /* Stores the colours of a tile that are in memory. */
    void restore(std::size_t k) { rows_.tile_store(column(k), row(k), {below(k), entries_}); }

    std::size_t count() const noexcept { return std::size_t{columns_} * (rows_.end() - rows_.first()); }

private:
    std::uint32_t column(std::size_t k) const noexcept { return static_cast<std::uint32_t>(k) % columns_; }
    std::uint32_t row(std::size_t k) const noexcept {
        return rows_.first() + static_cast<std::uint32_t>(k) / columns_;
    }
    std::uint32_t *below(std::size_t k) const noexcept { return &memory_.below[k * entries_]; }

    TileRows &rows_;
    LayerMemory &memory_;
    std::uint32_t columns_;
    std::size_t entries_;
};

} // namespace detail

/* Blends a layer over tile rows: see the head of this header. It takes memory for all tiles of the rows, so pass one
 * tile row, or a tile of a frame (trirast_frame.hpp), and not a large canvas.
 *
 * @shader: called as shader(const Fragments &, LayerColors &).
 *
 * Throws Error if the triangles cannot be drawn, what the shader throws, and std::bad_alloc. Then some tiles may be
 * blended, and the others have their colours. */
template <class Shader>
void blend_layer(TileRows &rows, const Layer &layer, Shader &&shader, LayerMemory &memory) {
    if ((layer.own ? layer.own->size() : layer.indices.size()) == 0 || rows.first() == rows.end()) return;
    detail::LayerTiles tiles(rows, memory);
    tiles.begin();
    std::size_t next = 0;
    const std::exception_ptr failed = detail::thrown_by([&] {
        rows.draw_ids(layer.vertices, layer.own ? layer.own->indices() : layer.indices, 0, layer.state);
        for (; next < tiles.count(); next++) tiles.blend(next, layer, shader);
    });
    if (!failed) return;
    for (; next < tiles.count(); next++) tiles.restore(next);
    std::rethrow_exception(failed);
}

} // namespace trirast

#endif
