// The two ways of shading that are tested: `way` is trirast_shade.hpp, or with IN_C trirast_shade.h, of which in_c.c is
// compiled as C99. Shaders in C++ are the same for both.
#ifndef WAYS_HPP
#define WAYS_HPP

#include "frame.hpp"
#include "trirast_shade.hpp"

#ifdef IN_C

#include "in_c.h"

namespace way {

inline trirast::Fragments lanes_of(const trirast_shade_fragments &at) {
    static constexpr std::int32_t lanes[8] = {0, 1, 2, 3, 4, 5, 6, 7};
    trirast::Fragments found;
    found.id = trirast::Integers::load(at.id), found.x = trirast::Integers::load(at.x);
    found.y = trirast::Integers::load(at.y);
    found.used = trirast::Integers::load(lanes) < static_cast<std::int32_t>(at.count);
    for (std::size_t c = 0; c < 3; c++) {
        found.weight[c] = trirast::Floats::load(at.weight[c]), found.right[c] = trirast::Floats::load(at.right[c]);
        found.down[c] = trirast::Floats::load(at.down[c]);
    }
    return found;
}

template <class Shader>
void call(const trirast_shade_fragments *at, trirast_shade_colors *out, void *user) {
    trirast::Colors colors;
    (*static_cast<Shader *>(user))(lanes_of(*at), colors);
    colors.red.store(out->red), colors.green.store(out->green), colors.blue.store(out->blue);
}

template <class Shader>
trirast_shade shade_of(const trirast::ShadeTriangles &triangles, trirast::Rate rate, trirast::Color background,
                       Shader &shader) {
    trirast_shade found{};
    found.triangles = triangles.data(), found.triangle_count = triangles.size();
    found.shader = call<Shader>, found.user = const_cast<std::remove_const_t<Shader> *>(&shader);
    found.rate = static_cast<std::uint32_t>(rate);
    found.red = background.red, found.green = background.green, found.blue = background.blue;
    return found;
}

template <class Shader>
void shade_tile(trirast::TileRows &rows, std::uint32_t column, std::uint32_t row,
                const trirast::ShadeTriangles &triangles, trirast::Rate rate, trirast::Color background,
                Shader &&shader, trirast::TileEntries &entries) {
    trirast_canvas canvas = rows.in_c();
    const trirast_shade how = shade_of(triangles, rate, background, shader);
    entries.resize(TRIRAST_TILE_ENTRIES(canvas.samples));
    trirast::detail::check(shade_tile_in_c(&canvas, column, row, &how, entries.data(), entries.size()));
}

template <class Shader>
void shade(trirast::TileRows &rows, const trirast::ShadeTriangles &triangles, trirast::Rate rate,
           trirast::Color background, Shader &&shader) {
    trirast_canvas canvas = rows.in_c();
    const trirast_shade how = shade_of(triangles, rate, background, shader);
    trirast::TileEntries entries(TRIRAST_TILE_ENTRIES(canvas.samples));
    trirast::detail::check(shade_rows_in_c(&canvas, &how, entries.data(), entries.size()));
}

// The weights of fragments whose ids and points are set, and their edge functions.
inline void weigh(const trirast::ShadeTriangles &triangles, trirast::Fragments &at, float (&edges)[3][8]) {
    trirast_shade_fragments found{};
    at.id.store(found.id), at.x.store(found.x), at.y.store(found.y);
    found.count = 8;
    for (std::size_t lane = 0; lane < 8; lane++) {
        float each[3];
        edges_in_c(&triangles.data()[found.id[lane]], found.x[lane], found.y[lane], each);
        for (std::size_t c = 0; c < 3; c++) edges[c][lane] = each[c];
    }
    weigh_in_c(triangles.data(), &found);
    at = lanes_of(found);
}

// Normals as colours: normals_in_c.
inline void shade_normals(trirast::TileRows &rows, const scene::Model &model, const scene::Seen &seen, int by,
                          float size) {
    const trirast::Clipped &mesh = seen.mesh;
    std::vector<float> values;
    for (const scene::Values::Values &each : model.values) values.insert(values.end(), each.begin(), each.end());
    values.resize(5 * mesh.vertices.size());
    std::vector<trirast::Cut> cuts = mesh.cuts;
    trirast_clipped clipped{};
    clipped.cuts = cuts.data(), clipped.cut_count = cuts.size();
    set_cuts_in_c(&clipped, mesh.first_cut, model.scene.mesh.indices.data(), 5, values.data());
    normals_user user{{values.data(), mesh.indices.data(), 5}, by, size};
    trirast_shade how{};
    how.triangles = seen.triangles.data(), how.triangle_count = seen.triangles.size();
    how.shader = normals_in_c, how.user = &user;
    trirast_canvas canvas = rows.in_c();
    trirast::TileEntries entries(TRIRAST_TILE_ENTRIES(canvas.samples));
    trirast::detail::check(shade_rows_in_c(&canvas, &how, entries.data(), entries.size()));
}

} // namespace way

#else

namespace way {

using trirast::shade;
using trirast::shade_tile;

inline void weigh(const trirast::ShadeTriangles &triangles, trirast::Fragments &at, float (&edges)[3][8]) {
    const trirast::detail::TriangleLanes lanes = trirast::detail::triangles_of(triangles.data(), at.id);
    const trirast::detail::EdgeLanes found = trirast::detail::edges_at(lanes, at.x - lanes.ax, at.y - lanes.ay);
    found.a.store(edges[0]), found.b.store(edges[1]), found.c.store(edges[2]);
    at.used = -1;
    trirast::detail::weigh(triangles.data(), at);
}

inline void shade_normals(trirast::TileRows &rows, const scene::Model &model, const scene::Seen &seen, int by,
                          float size) {
    const scene::Values &values = seen.values(model);
    shade(rows, seen.triangles, trirast::Rate::pixel, {}, [&](const trirast::Fragments &at, trirast::Colors &out) {
        const scene::Values::Corners corner = values.of(at.id);
        const auto channel = [&](std::size_t k) {
            const trirast::Floats *of = corner[k];
            return 127.5f + size * (by == 0 ? at.value(of) : by == 1 ? at.to_right(of) : at.to_below(of));
        };
        out.red = channel(2), out.green = channel(3), out.blue = channel(4);
    });
}

} // namespace way

#endif

#endif
