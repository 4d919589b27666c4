// Meshes and cameras from a seed, the same on every machine.
#ifndef MESHES_HPP
#define MESHES_HPP

#include <algorithm>
#include <cmath>
#include <cstdint>
#include <vector>

#include "numbers.hpp"
#include "trirast_clip.h"

using scene::Numbers;

struct Vector {
    double x, y, z;
};

inline Vector operator+(Vector a, Vector b) { return {a.x + b.x, a.y + b.y, a.z + b.z}; }
inline Vector operator*(double s, Vector a) { return {s * a.x, s * a.y, s * a.z}; }
inline double dot(Vector a, Vector b) { return a.x * b.x + a.y * b.y + a.z * b.z; }
inline Vector cross(Vector a, Vector b) {
    return {a.y * b.z - a.z * b.y, a.z * b.x - a.x * b.z, a.x * b.y - a.y * b.x};
}
inline Vector unit(Vector a) { return 1 / std::sqrt(dot(a, a)) * a; }

inline Vector vector_of(Numbers &numbers, double z = 0) {
    const double x = numbers.within(-1, 1), y = numbers.within(-1, 1);
    return {x, y, numbers.within(-1, 1) + z};
}

// A camera in the origin that looks along `ahead`.
struct Camera {
    Vector right, up, ahead;
    double zoom, aspect, near_distance, far_distance;
    trirast_clip_near plane;

    static Camera turned(Numbers &numbers, double aspect, double near_distance, double far_distance,
                         trirast_clip_near plane) {
        const Vector ahead = unit(vector_of(numbers, 1e-3));
        const Vector right = unit(cross(ahead, vector_of(numbers) + Vector{0, 2, 0}));
        return {right, cross(right, ahead), ahead, numbers.within(0.7, 2), aspect, near_distance, far_distance, plane};
    }

    trirast_clip_position seen(Vector p) const {
        const double n = near_distance, f = far_distance, w = dot(p, ahead);
        const bool at_zero = plane == TRIRAST_CLIP_NEAR_AT_ZERO;
        const double z = at_zero ? (w - n) * f / (f - n) : ((f + n) * w - 2 * f * n) / (f - n);
        return {static_cast<float>(zoom * dot(p, right) / aspect), static_cast<float>(zoom * dot(p, up)),
                static_cast<float>(z), static_cast<float>(w)};
    }
};

struct Mesh {
    std::vector<Vector> points;
    std::vector<std::uint32_t> indices;

    void add(std::uint32_t a, std::uint32_t b, std::uint32_t c) { indices.insert(indices.end(), {a, b, c}); }
    std::uint32_t triangles() const { return static_cast<std::uint32_t>(indices.size() / 3); }

    std::vector<trirast_clip_position> seen(const Camera &camera) const {
        std::vector<trirast_clip_position> found;
        for (const Vector &p : points) found.push_back(camera.seen(p));
        return found;
    }

    // Begins each triangle with any of its corners, and puts the triangles into any order: what must not matter.
    void shuffle(Numbers &numbers) {
        for (std::uint32_t k = triangles(); k > 1; k--) {
            const std::uint32_t other = numbers.below(k);
            for (std::uint32_t c = 0; c < 3; c++) std::swap(indices[3 * (k - 1) + c], indices[3 * other + c]);
        }
        for (std::uint32_t k = 0; k < triangles(); k++)
            std::rotate(&indices[3 * k], &indices[3 * k + numbers.below(3)], &indices[3 * k] + 3);
    }

    // Gives each triangle three vertices of its own, as a mesh has where attributes jump.
    void part() {
        std::vector<Vector> parted;
        for (std::uint32_t &index : indices) {
            parted.push_back(points[index]);
            index = static_cast<std::uint32_t>(parted.size() - 1);
        }
        points.swap(parted);
    }
};

// A closed surface round the origin that each direction from there meets once. Its radius jumps between `least` and
// `greatest`.
class Star {
public:
    Star(Numbers &numbers, std::uint32_t along, std::uint32_t around, double least, double greatest)
        : along_(along), around_(around) {
        const auto radius = [&] { return least * std::pow(greatest / least, numbers.unit()); };
        const double pi = std::acos(-1.0);
        mesh_.points.push_back({0, radius(), 0});
        for (std::uint32_t j = 1; j < around; j++)
            for (std::uint32_t i = 0; i < along; i++) {
                const double a = 2 * pi * (i + numbers.within(0, 0.4)) / along,
                             b = pi * (j + numbers.within(-0.2, 0.2)) / around;
                mesh_.points.push_back(radius() *
                                       Vector{std::cos(a) * std::sin(b), std::cos(b), std::sin(a) * std::sin(b)});
            }
        mesh_.points.push_back({0, -radius(), 0});
        for (std::uint32_t j = 0; j < around; j++)
            for (std::uint32_t i = 0; i < along; i++) add_quad(numbers, i, j);
    }

    const Mesh &mesh() const { return mesh_; }
    // Whether a quad was folded as seen from the origin, so that some direction meets the surface more than once.
    bool is_folded() const { return is_folded_; }

private:
    std::uint32_t at(std::uint32_t i, std::uint32_t j) const {
        if (j == 0) return 0;
        if (j == around_) return static_cast<std::uint32_t>(mesh_.points.size() - 1);
        return 1 + (j - 1) * along_ + i % along_;
    }

    // Adds a quad by either diagonal by which both triangles are seen in the same sense; one that is not convex has one
    // alone.
    void add_quad(Numbers &numbers, std::uint32_t i, std::uint32_t j) {
        const std::uint32_t quad[4] = {at(i, j), at(i + 1, j), at(i + 1, j + 1), at(i, j + 1)};
        static constexpr int diagonals[2][2][3] = {{{0, 1, 2}, {0, 2, 3}}, {{0, 1, 3}, {1, 2, 3}}};
        const auto is_point = [&](const int *k) {
            return quad[k[0]] == quad[k[1]] || quad[k[1]] == quad[k[2]] || quad[k[2]] == quad[k[0]];
        };
        const auto is_right = [&](std::uint32_t diagonal) {
            for (const auto &k : diagonals[diagonal])
                if (!is_point(k) &&
                    dot(mesh_.points[quad[k[0]]], cross(mesh_.points[quad[k[1]]], mesh_.points[quad[k[2]]])) <= 0)
                    return false;
            return true;
        };
        std::uint32_t diagonal = numbers.below(2);
        if (!is_right(diagonal)) diagonal = 1 - diagonal;
        is_folded_ = is_folded_ || !is_right(diagonal);
        for (const auto &k : diagonals[diagonal])
            if (!is_point(k)) mesh_.add(quad[k[0]], quad[k[1]], quad[k[2]]);
    }

    std::uint32_t along_, around_;
    Mesh mesh_;
    bool is_folded_ = false;
};

#endif
