// Tests of trirast_clip.h, by meshes of which it is known how often a sample of the viewport is covered.
//
//     clip [--seeds COUNT]
//
// Each line says what was counted. Exit status 1 if a count is another than it has to be; what is wrong is a line that
// begins with FAILED.
#include <array>
#include <cstdlib>
#include <cstring>
#include <limits>
#include <string>
#include <tuple>

#include "counted.hpp"
#include "meshes.hpp"

namespace {

using Sides = trirast_clip_sides;
using Near = trirast_clip_near;
using Indices = std::vector<std::uint32_t>;
using Positions = std::vector<trirast_clip_position>;

trirast_clip clip_of(std::int32_t left, std::int32_t top, std::int32_t width, std::int32_t height, Sides sides,
                     Near plane = TRIRAST_CLIP_NEAR_AT_ZERO) {
    trirast_clip clip{};
    clip.left = left, clip.top = top, clip.width = width, clip.height = height;
    clip.sides = sides, clip.near_plane = plane;
    return clip;
}

double aspect_of(const trirast_clip &clip) { return static_cast<double>(clip.width) / clip.height; }

// ---- A surface round the eye: each sample of the viewport is covered once.

struct StarCase {
    const char *name;
    int seeds;
    std::uint32_t along, around;
    double least, greatest, near_distance;
    Sides sides;
    Near plane;
    bool is_parted;
};

void inside_a_star(const StarCase &test) {
    Total total{test.name};
    for (int seed = 0; seed < test.seeds; seed++) {
        Numbers numbers(1000 * static_cast<std::uint64_t>(seed) + 7);
        const auto below = [&](std::uint32_t count) { return static_cast<std::int32_t>(numbers.below(count)); };
        const std::int32_t left = 100 * below(3), top = below(200), width = 60 + below(120), height = 50 + below(90);
        const trirast_clip clip = clip_of(left, top, width, height, test.sides, test.plane);
        const Star star(numbers, test.along, test.around, test.least, test.greatest);
        expect(!star.is_folded(), test.name, "a mesh that is folded");
        Mesh mesh = star.mesh();
        mesh.shuffle(numbers);
        if (test.is_parted) mesh.part();
        // The surface lies beyond the near plane also in the corners of the viewport.
        const double near_distance = test.near_distance * test.least;
        const Positions positions =
            mesh.seen(Camera::turned(numbers, aspect_of(clip), near_distance, 4 * test.greatest, test.plane));
        const trirast::Clipped out = clipped(clip, positions, mesh.indices);
        total.add(positions, mesh.indices, clip, out);
        total.add_all(clip, out);
    }
    total.finish();
}

// A sky, which lies in the far plane since its z is w, covers each sample once, at the greatest depth.
void sky(const char *name, int seeds, Sides sides) {
    Total total{name};
    for (int seed = 0; seed < seeds; seed++) {
        Numbers numbers(13 * static_cast<std::uint64_t>(seed) + 5);
        const trirast_clip clip = clip_of(0, 0, 130, 90, sides);
        Mesh mesh = Star(numbers, 5, 4, 1, 1000).mesh();
        mesh.shuffle(numbers);
        Positions positions = mesh.seen(Camera::turned(numbers, 130.0 / 90, 0.1, 1000, TRIRAST_CLIP_NEAR_AT_ZERO));
        for (trirast_clip_position &p : positions) p.z = p.w;
        const trirast::Clipped out = clipped(clip, positions, mesh.indices);
        total.add(positions, mesh.indices, clip, out);
        total.add_all(clip, out);
        for (const std::uint32_t index : out.indices) expect(out.vertices[index].depth == 65535, name, "another depth");
    }
    total.finish();
}

// ---- Shared edges: both triangles have the same cuts on it.

using Edge = std::pair<std::uint32_t, std::uint32_t>;
// What both triangles of an edge have of a cut on it, to the last bit: x, y, depth, w and the weights of the two ends.
using Shared = std::tuple<std::int32_t, std::int32_t, std::uint32_t, float, double, double>;

Edge edge_of(const Indices &indices, std::size_t triangle, std::size_t k) {
    const std::uint32_t a = indices[3 * triangle + k], b = indices[3 * triangle + (k + 1) % 3];
    return {std::min(a, b), std::max(a, b)};
}

// The cuts on each edge of each triangle: those whose weight of the corner across from it is 0.
std::vector<std::vector<Shared>> cuts_on_edges(const Indices &indices, const trirast::Clipped &out) {
    std::vector<std::vector<Shared>> found(indices.size());
    for (std::size_t k = 0; k < out.cuts.size(); k++)
        for (std::size_t c = 0; c < 3; c++) {
            const std::size_t edge = 3 * std::size_t{out.cuts[k].triangle} + c;
            const double *weights = out.cuts[k].weights;
            if (edge >= found.size() || weights[(c + 2) % 3] != 0) continue;
            const trirast_vertex &v = out.vertices[out.first_cut + k];
            double lower = weights[c], upper = weights[(c + 1) % 3];
            if (indices[edge] > indices[edge - c + (c + 1) % 3]) std::swap(lower, upper);
            found[edge].push_back({v.x, v.y, v.depth, out.w[out.first_cut + k], lower, upper});
        }
    for (auto &cuts : found) std::sort(cuts.begin(), cuts.end());
    return found;
}

// The triangles all of whose neighbours come out too: those that lie beyond a side of the viewport are left out.
Indices inner_triangles(const Indices &indices, const trirast::Clipped &out) {
    std::vector<char> comes(indices.size() / 3);
    for (const std::uint32_t source : out.sources) comes[source] = 1;
    std::map<Edge, int> sides;
    for (std::size_t t = 0; t < comes.size(); t++)
        for (std::size_t k = 0; k < 3; k++) sides[edge_of(indices, t, k)] += comes[t];
    Indices found;
    for (std::size_t t = 0; t < comes.size(); t++) {
        const bool is_inner = comes[t] && sides[edge_of(indices, t, 0)] == 2 && sides[edge_of(indices, t, 1)] == 2 &&
                              sides[edge_of(indices, t, 2)] == 2;
        if (is_inner) found.insert(found.end(), &indices[3 * t], &indices[3 * t] + 3);
    }
    return found;
}

void edges(const char *name, int seeds, Sides sides, Near plane) {
    Total total{name};
    std::size_t cuts = 0, apart = 0;
    for (int seed = 0; seed < seeds; seed++) {
        Numbers numbers(77 * static_cast<std::uint64_t>(seed) + 3);
        const trirast_clip clip = clip_of(0, 0, 640, 480, sides, plane);
        Mesh mesh = Star(numbers, 24, 12, 1, 50).mesh();
        mesh.shuffle(numbers);
        const Vector moved = 3 * vector_of(numbers);
        for (Vector &p : mesh.points) p = p + moved;
        const Positions positions = mesh.seen(Camera::turned(numbers, 4.0 / 3, 0.5, 30, plane));
        const Indices indices = inner_triangles(mesh.indices, clipped(clip, positions, mesh.indices));
        const trirast::Clipped out = clipped(clip, positions, indices);
        const auto on = cuts_on_edges(indices, out);
        std::map<Edge, std::vector<std::size_t>> shared;
        for (std::size_t k = 0; k < indices.size(); k++) shared[edge_of(indices, k / 3, k % 3)].push_back(k);
        for (const auto &[edge, both] : shared)
            if (both.size() == 2) cuts += on[both[0]].size(), apart += on[both[0]] != on[both[1]];
        total.add(positions, indices, clip, out);
    }
    total.finish();
    std::printf("%-36s %zu cuts on shared edges, %zu edges apart\n", "", cuts, apart);
    expect(apart == 0, name, "an edge that two triangles cut at other points");
    expect(cuts > 100, name, "no shared edge was cut");
}

// ---- A floor of huge triangles, through the near plane to the horizon

Mesh floor_of(Numbers &numbers, double height) {
    Mesh mesh;
    const std::uint32_t cells = 6;
    for (std::uint32_t j = 0; j <= cells; j++)
        for (std::uint32_t i = 0; i <= cells; i++) {
            const double moved = i == 0 || j == 0 || i == cells || j == cells ? 0 : 0.3;
            const double x = i + numbers.within(-moved, moved), z = j + numbers.within(-moved, moved);
            mesh.points.push_back({6e5 * (2 * x / cells - 1), -height, 6e5 * (2 * z / cells - 1)});
        }
    for (std::uint32_t j = 0; j < cells; j++)
        for (std::uint32_t i = 0; i < cells; i++) {
            const std::uint32_t a = j * (cells + 1) + i, b = a + 1, c = a + cells + 1;
            mesh.add(a, b, c), mesh.add(c, b, c + 1);
        }
    mesh.shuffle(numbers);
    return mesh;
}

// A floor covers the samples of the rays that meet it between near and far plane once, and none of those that go up.
void floor_below(const char *name, int seeds, Sides sides) {
    Total total{name};
    std::size_t above = 0, covered_above = 0;
    for (int seed = 0; seed < seeds; seed++) {
        Numbers numbers(31 * static_cast<std::uint64_t>(seed) + 11);
        const trirast_clip clip = clip_of(0, 0, 200, 150, sides);
        const double height = numbers.within(0.2, 3), pitch = numbers.within(-0.3, 0.3), turn = numbers.within(0, 6.28);
        const Vector ahead =
            std::cos(pitch) * Vector{std::cos(turn), 0, std::sin(turn)} + std::sin(pitch) * Vector{0, 1, 0};
        const Vector right = unit(cross(ahead, {0, 1, 0}));
        const double near_distance = 0.05, far_distance = 1e5;
        const Camera camera{right,       cross(right, ahead), ahead,        1.2,
                            200.0 / 150, near_distance,       far_distance, TRIRAST_CLIP_NEAR_AT_ZERO};
        const Mesh mesh = floor_of(numbers, height);
        const Positions positions = mesh.seen(camera);
        const trirast::Clipped out = clipped(clip, positions, mesh.indices);
        total.add(positions, mesh.indices, clip, out);
        Screen screen(clip);
        screen.add(out);
        for (std::size_t k = 0; k < screen.layers.size(); k++) {
            static constexpr double samples[4][2] = {{0.375, 0.125}, {0.875, 0.375}, {0.125, 0.625}, {0.625, 0.875}};
            const double i = static_cast<double>(k / 4 % 200) + samples[k % 4][0],
                         j = static_cast<double>(k / 800) + samples[k % 4][1];
            const Vector ray = camera.ahead + ((i / 100 - 1) * camera.aspect / camera.zoom) * camera.right +
                               ((1 - j / 75) / camera.zoom) * camera.up;
            // The distance along the axis at which the ray meets the floor.
            const double distance = ray.y < 0 ? -height / ray.y : -1;
            const Layers &layer = screen.layers[k];
            if (distance > 1.001 * near_distance && distance < 0.95 * far_distance) total.add(layer);
            if (ray.y > 1e-2) above++, covered_above += layer.clockwise + layer.others > 0;
        }
    }
    total.finish();
    std::printf("%-36s %zu samples of the sky, %zu covered\n", "", above, covered_above);
    expect(above > 0 && covered_above == 0, name, "a sample of the sky that is covered");
}

// ---- Convex bodies seen from outside, through the near plane and far out of the viewport

struct Body {
    Mesh mesh;
    Vector middle{};
    double size = 1, det = 1;
    bool holds_eye = false;

    // An octahedron, stretched and turned, with its middle anywhere round the eye.
    explicit Body(Numbers &numbers) : size(std::pow(10, numbers.within(-0.5, 3))) {
        const Vector a = size * vector_of(numbers), b = size * vector_of(numbers);
        const Vector across = cross(a, b), c = numbers.within(0.3, 2) * size / std::sqrt(dot(across, across)) * across;
        middle = size * numbers.within(0.8, 2.5) * unit(vector_of(numbers, 0.01));
        for (const double sign : {1.0, -1.0})
            for (const Vector &axis : {a, b, c}) mesh.points.push_back(middle + sign * axis);
        for (std::uint32_t k = 0; k < 8; k++) {
            const std::uint32_t x = k & 1 ? 3 : 0, y = k & 2 ? 4 : 1, z = k & 4 ? 5 : 2;
            const bool flips = (k & 1) ^ (k >> 1 & 1) ^ (k >> 2 & 1);
            mesh.add(x, flips ? z : y, flips ? y : z);
        }
        det = dot(a, cross(b, c));
        holds_eye = std::fabs(dot(middle, cross(b, c)) / det) + std::fabs(dot(middle, cross(c, a)) / det) +
                        std::fabs(dot(middle, cross(a, b)) / det) <
                    1.02;
    }
};

// The front layer and the back layer of a body cover a sample once at most. They cover the same samples if the near
// plane cuts nothing off; else the back layer covers those of the front layer.
void bodies(const char *name, int seeds, Sides sides) {
    Total total{name};
    std::size_t covered = 0, opened = 0, whole = 0;
    for (int seed = 0; seed < seeds; seed++) {
        Numbers numbers(500 * static_cast<std::uint64_t>(seed) + 1);
        const trirast_clip clip = clip_of(0, 0, 160, 120, sides);
        Body body(numbers);
        const double near_distance = body.size * numbers.within(0.01, 0.5);
        if (body.holds_eye) continue;
        body.mesh.shuffle(numbers);
        Camera camera = Camera::turned(numbers, 4.0 / 3, near_distance, 20 * body.size, TRIRAST_CLIP_NEAR_AT_ZERO);
        camera.ahead = unit(body.middle + 0.5 * body.size * camera.ahead);
        camera.right = unit(cross(camera.ahead, camera.up)), camera.up = cross(camera.right, camera.ahead);
        const Positions positions = body.mesh.seen(camera);
        const trirast::Clipped out = clipped(clip, positions, body.mesh.indices);
        total.add(positions, body.mesh.indices, clip, out);
        const bool is_whole =
            std::all_of(positions.begin(), positions.end(), [](const trirast_clip_position &p) { return p.z >= 0; });
        whole += is_whole;
        const bool front_is_clockwise = body.det < 0;
        Screen screen(clip);
        screen.add(out);
        for (const Layers &layer : screen.layers) {
            const std::uint32_t front = front_is_clockwise ? layer.clockwise : layer.others;
            const std::uint32_t back = front_is_clockwise ? layer.others : layer.clockwise;
            total.samples++, total.doubles += front > 1 || back > 1;
            total.cracks += front > back || (is_whole && front < back);
            covered += back > 0, opened += !is_whole && front < back;
        }
    }
    total.finish();
    std::printf("%-36s %zu samples covered, %zu where the near plane opens a body; %zu bodies whole\n", "", covered,
                opened, whole);
    expect(covered > 1000 && opened > 1000 && whole > 0, name, "bodies of one kind alone");
}

// ---- Parts

// An edge is cut at the same point from either end, to the last bit; and marks are the signs of distances.
void cuts_both_ways(std::uint32_t rounds) {
    Numbers numbers(99);
    const trirast_clip clip = clip_of(0, 0, 640, 480, TRIRAST_CLIP_GUARD_BAND);
    trirast_clipping view;
    expect(begin_under_test(&clip, &view) == TRIRAST_CLIP_OK, "both ways", "a viewport is refused");
    std::size_t cuts = 0, apart = 0;
    for (std::uint32_t k = 0; k < rounds; k++) {
        trirast_clipping_corner one{}, other{};
        for (trirast_clipping_corner *corner : {&one, &other}) {
            const double size = std::pow(10, numbers.within(-3, 5));
            for (double &coordinate : corner->place) coordinate = static_cast<float>(numbers.within(-size, size));
        }
        // Ends that are equal in their first coordinates have an order too.
        for (std::uint32_t axis = 0; axis < k % 4; axis++) other.place[axis] = one.place[axis];
        one.weights[0] = other.weights[1] = 1;
        for (unsigned plane = 0; plane < TRIRAST_CLIPPING_PLANES; plane++) {
            const trirast_clipping_plane *by = &view.planes[plane];
            const bool behind = distance_under_test(by, one.place) < 0;
            expect((marks_under_test(&view, one.place) >> plane & 1) == behind, "both ways",
                   "marks and distances differ");
            if (behind == (distance_under_test(by, other.place) < 0)) continue;
            const trirast_clipping_corner there = cut_under_test(by, &one, &other),
                                          back = cut_under_test(by, &other, &one);
            cuts++, apart += std::memcmp(&there, &back, offsetof(trirast_clipping_corner, vertex)) != 0;
            expect(distance_under_test(by, there.place) == 0, "both ways", "a cut that does not lie on its plane");
        }
    }
    std::printf("%zu edges cut from both ends: %zu apart\n", cuts, apart);
    expect(cuts > 1000 && apart == 0, "both ways", "an edge that is cut at another point from its other end");
}

// A convex polygon of a few 1/256 pixel, rounded.
std::vector<trirast_vertex> small_polygon(Numbers &numbers) {
    std::vector<double> angles(4 + numbers.below(4));
    for (double &angle : angles) angle = numbers.within(0, 6.283);
    std::sort(angles.begin(), angles.end());
    const double wide = numbers.within(1, 40), high = numbers.within(0.3, 40), tilt = numbers.within(0, 3.2);
    std::vector<trirast_vertex> found;
    for (const double angle : angles) {
        const double x = wide * std::cos(angle), y = high * std::sin(angle);
        trirast_vertex corner{};
        corner.x = static_cast<std::int32_t>(std::nearbyint(std::cos(tilt) * x - std::sin(tilt) * y));
        corner.y = static_cast<std::int32_t>(std::nearbyint(std::sin(tilt) * x + std::cos(tilt) * y));
        found.push_back(corner);
    }
    return found;
}

// Polygons that rounding has not folded are cut into triangles none of which is turned over, where fans would have
// some.
void small_polygons(int rounds) {
    Numbers numbers(4);
    std::size_t folded = 0, turned = 0, fans_turned = 0, lost = 0;
    for (int round = 0; round < rounds; round++) {
        const std::vector<trirast_vertex> corners = small_polygon(numbers);
        std::int64_t left = 0;
        bool fan[2] = {false, false}, sense[2] = {false, false};
        std::array<std::uint8_t, 3 * TRIRAST_CLIP_MAX_CORNERS> ears;
        const std::size_t folds = ears_under_test(corners.data(), corners.size(), ears.data());
        for (std::size_t k = 0; k + 2 < corners.size(); k++) {
            const std::int64_t of_fan = doubled_area(corners[0], corners[k + 1], corners[k + 2]);
            const std::int64_t area =
                doubled_area(corners[ears[3 * k]], corners[ears[3 * k + 1]], corners[ears[3 * k + 2]]);
            left += of_fan - area;
            fan[of_fan > 0] |= of_fan != 0, sense[area > 0] |= area != 0;
        }
        folded += folds > 0, turned += folds == 0 && sense[0] && sense[1], fans_turned += fan[0] && fan[1],
            lost += left != 0;
    }
    std::printf("%d small polygons: %zu folded by rounding, %zu others with a triangle turned over (of fans %zu)\n",
                rounds, folded, turned, fans_turned);
    expect(turned == 0, "small polygons", "a triangle that is turned over");
    expect(lost == 0, "small polygons", "areas that do not add up");
    expect(fans_turned > 4 * folded && fans_turned > 100, "small polygons", "fans would do");
}

// ---- Worked values

void near_plane_by_hand() {
    const trirast_clip clip = clip_of(0, 0, 256, 256, TRIRAST_CLIP_GUARD_BAND);
    const trirast::Clipped out = clipped(clip, {{0, 0, 3, 4}, {8, 0, -1, 0}, {0, 8, -1, 0}}, {0, 1, 2});
    // z falls from 3 to -1: the near plane cuts at 3/4, where w is 1 and x or y is 6.
    const bool two = out.cuts.size() == 2 && out.sources.size() == 1;
    expect(two, "by hand", "another number of cuts");
    if (!two) return;
    expect(out.w[3] == 1 && out.w[4] == 1, "by hand", "w of a cut");
    expect(out.vertices[3].x == 128 * 256 + 6 * 128 * 256 && out.vertices[3].y == 128 * 256, "by hand",
           "the first cut");
    expect(out.vertices[4].x == 128 * 256 && out.vertices[4].y == 128 * 256 - 6 * 128 * 256, "by hand",
           "the second cut");
    expect(out.vertices[3].depth == 0 && out.vertices[4].depth == 0, "by hand", "the depth of a cut");
    const double *weights = out.cuts[0].weights;
    expect(weights[0] == 0.25 && weights[1] == 0.75 && weights[2] == 0, "by hand", "weights of the first cut");
    expect(out.vertices[0].depth == 49151, "by hand", "the depth of a corner: 3/4 of 65535, rounded");
}

// A corner on the near plane is no cut: with two corners behind it nothing of the triangle is left.
void touching_by_hand() {
    const trirast_clip clip = clip_of(0, 0, 256, 256, TRIRAST_CLIP_GUARD_BAND);
    const Positions positions = {{0, 0, 0, 1}, {0.5, 0, 1, 2}, {0, 0.5, 1, 2}, {0.5, 0, -1, 1}, {0, 0.5, -1, 1}};
    const trirast::Clipped out = clipped(clip, positions, {0, 1, 2, 0, 3, 4, 0, 1, 4});
    expect(out.sources == Indices{0, 2}, "by hand", "triangles that touch the near plane");
    expect(out.indices == Indices{0, 1, 2, 0, 1, 5} && out.cuts.size() == 1, "by hand",
           "a triangle with a corner on the near plane");
}

void depths_by_hand() {
    trirast_clip clip = clip_of(0, 0, 256, 256, TRIRAST_CLIP_VIEWPORT, TRIRAST_CLIP_NEAR_AT_MINUS_ONE);
    const Positions positions = {{0, 0, -1, 1}, {0.5, 0, 0, 1}, {0, 0.5, 1, 1}};
    const auto depths = [&](std::uint32_t a, std::uint32_t b, std::uint32_t c) {
        const trirast::Clipped out = clipped(clip, positions, {0, 1, 2});
        return out.vertices[0].depth == a && out.vertices[1].depth == b && out.vertices[2].depth == c;
    };
    expect(depths(0, 32768, 65535), "by hand", "depths from near to far: half of 65535 is rounded to even");
    clip.near_depth = 1000, clip.far_depth = 0;
    expect(depths(1000, 500, 0), "by hand", "depths that fall");
}

void refused_by_hand() {
    const Positions positions(3);
    const Indices indices = {0, 1, 2, 0, 1, 3};
    std::array<trirast_vertex, 3> vertices;
    std::array<float, 3> w;
    std::array<std::uint16_t, 3> marks;
    trirast_clipped out{};
    out.vertices = vertices.data(), out.w = w.data(), out.marks = marks.data();
    const auto status = [&](const trirast_clip &clip) {
        out.taken = 0;
        return clip_under_test(&clip, positions.data(), 3, indices.data(), 6, &out);
    };
    trirast_clip clip = clip_of(0, 0, 256, 256, TRIRAST_CLIP_GUARD_BAND);
    expect(status(clip) == TRIRAST_CLIP_BAD_INDEX && out.taken == 1, "refused", "an index that names no position");
    for (std::int32_t trirast_clip::*side : {&trirast_clip::width, &trirast_clip::height}) {
        trirast_clip other = clip;
        other.*side = 0;
        expect(status(other) == TRIRAST_CLIP_BAD_VIEWPORT, "refused", "a viewport of no pixels");
        other.*side = 16385;
        expect(status(other) == TRIRAST_CLIP_BAD_VIEWPORT, "refused", "a viewport that is too large");
    }
    for (std::int32_t trirast_clip::*side : {&trirast_clip::left, &trirast_clip::top}) {
        trirast_clip other = clip;
        other.*side = -16385;
        expect(status(other) == TRIRAST_CLIP_BAD_VIEWPORT, "refused", "a viewport that is too far off");
    }
    for (std::uint32_t trirast_clip::*option : {&trirast_clip::near_plane, &trirast_clip::sides}) {
        trirast_clip other = clip;
        other.*option = 2;
        expect(status(other) == TRIRAST_CLIP_BAD_OPTION, "refused", "an option that there is not");
    }
}

// A canvas takes the vertices on the screen, and relative to each origin in the viewport.
void seen_from_origins(std::uint32_t rounds) {
    Numbers numbers(17);
    std::size_t cuts = 0, outside = 0;
    const auto is_position = [](std::int64_t value) { return value >= -8388608 && value <= 8388607; };
    for (std::uint32_t round = 0; round < rounds; round++) {
        const std::int32_t sizes[] = {1020, 2000, 4000, 1 + static_cast<std::int32_t>(numbers.below(16384))};
        const std::int32_t width = sizes[round % 4], height = sizes[round / 4 % 4];
        const auto start = [&](std::int32_t size) {
            return numbers.below(2) ? -size / 2 : static_cast<std::int32_t>(numbers.below(32769)) - 16384;
        };
        const std::int32_t left = start(width), top = start(height);
        const trirast_clip clip = clip_of(left, top, width, height, TRIRAST_CLIP_GUARD_BAND);
        Positions positions(3);
        for (trirast_clip_position &p : positions) {
            p.x = static_cast<float>(numbers.within(-1e5, 1e5)), p.y = static_cast<float>(numbers.within(-1e5, 1e5));
            p.z = 0.5f, p.w = 1;
        }
        const trirast::Clipped out = clipped(clip, positions, {0, 1, 2});
        cuts += out.cuts.size();
        for (const std::uint32_t index : out.indices)
            for (const std::int64_t share : {0, 1}) {
                const trirast_vertex &v = out.vertices[index];
                outside += !is_position(v.x) || !is_position(v.x - 256 * (left + share * width)) ||
                           !is_position(v.y) || !is_position(v.y - 256 * (top + share * height));
            }
    }
    std::printf("%zu cuts by guard bands: %zu vertices outside of a canvas's positions\n", cuts, outside);
    expect(cuts > rounds / 2 && outside == 0, "origins", "a vertex that a canvas in the viewport does not take");
}

// Triangles with a coordinate that is no finite number are left out, and numbers of any size are taken.
void odd_numbers() {
    const trirast_clip clip = clip_of(0, 0, 256, 256, TRIRAST_CLIP_GUARD_BAND);
    const float infinity = std::numeric_limits<float>::infinity(), nan = std::numeric_limits<float>::quiet_NaN();
    for (const float odd : {infinity, -infinity, nan})
        for (float trirast_clip_position::*axis : {&trirast_clip_position::x, &trirast_clip_position::y,
                                                   &trirast_clip_position::z, &trirast_clip_position::w}) {
            Positions positions = {{0, 0, 0, 1}, {1, 0, 0, 1}, {0, 1, 0, 1}};
            positions[1].*axis = odd;
            expect(clipped(clip, positions, {0, 1, 2}).sources.empty(), "odd numbers",
                   "a triangle with no finite position");
        }
    Numbers numbers(8);
    std::size_t triangles = 0;
    for (int round = 0; round < 20000; round++) {
        Positions positions(3);
        for (trirast_clip_position &p : positions)
            for (float *coordinate : {&p.x, &p.y, &p.z, &p.w}) {
                const std::uint32_t bits = static_cast<std::uint32_t>(numbers.next());
                std::memcpy(coordinate, &bits, sizeof bits);
            }
        const trirast::Clipped out = clipped(clip, positions, {0, 1, 2});
        triangles += out.sources.size();
        for (const std::uint32_t index : out.indices)
            expect(out.w[index] > 0, "odd numbers", "a w that is not positive");
    }
    std::printf("%zu triangles of positions of any bits\n", triangles);
    expect(triangles > 100, "odd numbers", "no triangle of positions of any bits is left");
}

void run(int seeds) {
    constexpr Sides band = TRIRAST_CLIP_GUARD_BAND, viewport = TRIRAST_CLIP_VIEWPORT;
    constexpr Near zero = TRIRAST_CLIP_NEAR_AT_ZERO, minus_one = TRIRAST_CLIP_NEAR_AT_MINUS_ONE;
    near_plane_by_hand(), touching_by_hand(), depths_by_hand(), refused_by_hand(), odd_numbers();
    cuts_both_ways(100000);
    seen_from_origins(20000);
    small_polygons(100000);
    inside_a_star({"star, near plane and guard band", 4 * seeds, 8, 5, 1, 1.5, 0.08, band, zero, false});
    inside_a_star({"star of few triangles", 8 * seeds, 4, 3, 1, 30, 0.01, band, minus_one, false});
    inside_a_star({"star, far outside of the band", 8 * seeds, 5, 4, 1, 3e4, 0.02, band, zero, false});
    inside_a_star({"star, vertices of each triangle", 4 * seeds, 6, 5, 1, 300, 0.02, band, minus_one, true});
    inside_a_star({"star, all planes", seeds, 40, 24, 1, 4, 0.02, viewport, zero, false});
    inside_a_star(
        {"star, all planes, small triangles", seeds / 4 + 1, 240, 160, 1, 1.2, 0.02, viewport, minus_one, true});
    bodies("bodies, guard band", 8 * seeds, band);
    bodies("bodies, all planes", 8 * seeds, viewport);
    sky("sky, guard band", 2 * seeds, band);
    sky("sky, all planes", 2 * seeds, viewport);
    edges("edges, guard band", seeds, band, zero);
    edges("edges, all planes", seeds, viewport, minus_one);
    floor_below("floor, guard band", seeds, band);
    floor_below("floor, all planes", seeds, viewport);
}

} // namespace

int main(int count, char **arguments) {
    std::setvbuf(stdout, nullptr, _IOLBF, 0);
    run(count == 3 && !std::strcmp(arguments[1], "--seeds") ? std::atoi(arguments[2]) : 40);
    std::printf(failures ? "%d failures\n" : "no failures\n", failures);
    return failures ? 1 : 0;
}
