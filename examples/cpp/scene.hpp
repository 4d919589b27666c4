// Scenes to shade: models, a texture, a light and panes of glass, all made by a seed. The program textured.cpp draws
// them, tests compare them with a reference, and bench/shading times them.
#ifndef SCENE_HPP
#define SCENE_HPP

#include <algorithm>
#include <array>
#include <cmath>
#include <cstdint>
#include <stdexcept>
#include <string>
#include <utility>
#include <vector>

#include "numbers.hpp"
#include "trirast_clip.hpp"

namespace scene {

struct Vector {
    double x = 0, y = 0, z = 0;
};

inline Vector operator+(Vector a, Vector b) { return {a.x + b.x, a.y + b.y, a.z + b.z}; }
inline Vector operator-(Vector a, Vector b) { return {a.x - b.x, a.y - b.y, a.z - b.z}; }
inline Vector operator*(double s, Vector a) { return {s * a.x, s * a.y, s * a.z}; }
inline double dot(Vector a, Vector b) { return a.x * b.x + a.y * b.y + a.z * b.z; }
inline Vector cross(Vector a, Vector b) {
    return {a.y * b.z - a.z * b.y, a.z * b.x - a.x * b.z, a.x * b.y - a.y * b.x};
}
inline Vector unit(Vector a) { return 1 / std::sqrt(dot(a, a)) * a; }

// A vertex of a model.
struct Vertex {
    float x, y, z, u, v, nx, ny, nz;
};

struct Mesh {
    std::vector<Vertex> vertices;
    std::vector<std::uint32_t> indices;
    std::size_t triangles() const { return indices.size() / 3; }
};

// A knot of a tube that runs `turns` times round and `waves` times up and down. A ring if waves is 0 and turns 1.
inline Mesh knot(int turns, int waves, std::uint32_t along, std::uint32_t around, double radius, double tube) {
    const double pi = std::acos(-1.0);
    const auto centre = [&](double t) {
        const double r = radius * (1 + 0.35 * std::cos(waves * t) * (waves ? 1 : 0));
        return Vector{r * std::cos(turns * t), (waves ? 0.5 * radius * std::sin(waves * t) : 0),
                      r * std::sin(turns * t)};
    };
    Mesh mesh;
    for (std::uint32_t i = 0; i <= along; i++) {
        const double t = 2 * pi * i / along;
        const Vector here = centre(t), ahead = unit(centre(t + 1e-4) - centre(t - 1e-4));
        const Vector out = unit(Vector{here.x, here.y, here.z} - dot(here, ahead) * ahead), side = cross(ahead, out);
        for (std::uint32_t j = 0; j <= around; j++) {
            const double a = 2 * pi * j / around;
            const Vector n = std::cos(a) * out + std::sin(a) * side, p = here + tube * n;
            mesh.vertices.push_back({static_cast<float>(p.x), static_cast<float>(p.y), static_cast<float>(p.z),
                                     static_cast<float>(8.0 * std::max(1, turns) * i / along),
                                     static_cast<float>(3.0 * j / around), static_cast<float>(n.x),
                                     static_cast<float>(n.y), static_cast<float>(n.z)});
        }
    }
    for (std::uint32_t i = 0; i < along; i++)
        for (std::uint32_t j = 0; j < around; j++) {
            const std::uint32_t a = i * (around + 1) + j, b = a + 1, c = a + around + 1, d = c + 1;
            mesh.indices.insert(mesh.indices.end(), {a, c, b, b, c, d});
        }
    return mesh;
}

// Small triangles all over a ball.
inline Mesh dust(Numbers &numbers, std::uint32_t count, double radius, double size) {
    Mesh mesh;
    for (std::uint32_t k = 0; k < count; k++) {
        Vector p;
        do p = {numbers.within(-1, 1), numbers.within(-1, 1), numbers.within(-1, 1)};
        while (dot(p, p) > 1);
        const Vector n = unit({numbers.within(-1, 1), numbers.within(-1, 1), numbers.within(-1, 1) + 1e-3});
        const float u = static_cast<float>(numbers.within(0, 4)), v = static_cast<float>(numbers.within(0, 4));
        for (int c = 0; c < 3; c++) {
            const Vector corner =
                radius * p + size * Vector{numbers.within(-1, 1), numbers.within(-1, 1), numbers.within(-1, 1)};
            mesh.vertices.push_back({static_cast<float>(corner.x), static_cast<float>(corner.y),
                                     static_cast<float>(corner.z), u + static_cast<float>(numbers.within(0, 0.02)),
                                     v + static_cast<float>(numbers.within(0, 0.02)), static_cast<float>(n.x),
                                     static_cast<float>(n.y), static_cast<float>(n.z)});
            mesh.indices.push_back(3 * k + static_cast<std::uint32_t>(c));
        }
    }
    return mesh;
}

// The triangles from the one that is farthest from the eye to the nearest: a renderer that shades when it draws shades
// all of them.
inline void sort_from_back(Mesh &mesh, Vector eye) {
    struct Far {
        double distance;
        std::array<std::uint32_t, 3> corners;
    };
    std::vector<Far> all;
    for (std::size_t k = 0; k < mesh.indices.size(); k += 3) {
        Vector middle;
        for (std::size_t c = 0; c < 3; c++) {
            const Vertex &v = mesh.vertices[mesh.indices[k + c]];
            middle = middle + Vector{v.x / 3.0, v.y / 3.0, v.z / 3.0};
        }
        all.push_back({dot(middle - eye, middle - eye), {mesh.indices[k], mesh.indices[k + 1], mesh.indices[k + 2]}});
    }
    std::stable_sort(all.begin(), all.end(), [](const Far &a, const Far &b) { return a.distance > b.distance; });
    mesh.indices.clear();
    for (const Far &far : all) mesh.indices.insert(mesh.indices.end(), far.corners.begin(), far.corners.end());
}

// From the model to clip space, where z / w is 0 at the near plane and 1 at the far one: four rows.
struct Matrix {
    std::array<float, 16> rows;
};

inline Matrix looking(Vector eye, Vector target, double zoom, double aspect, double near_distance,
                      double far_distance) {
    const Vector ahead = unit(target - eye), right = unit(cross(ahead, {0, 1, 0})), up = cross(right, ahead);
    const double scale = far_distance / (far_distance - near_distance);
    const auto row = [&](Vector axis, double factor, double more) {
        return std::array<float, 4>{static_cast<float>(factor * axis.x), static_cast<float>(factor * axis.y),
                                    static_cast<float>(factor * axis.z),
                                    static_cast<float>(-factor * dot(axis, eye) + more)};
    };
    const std::array<float, 4> rows[4] = {row(right, zoom / aspect, 0), row(up, zoom, 0),
                                          row(ahead, scale, -scale * near_distance), row(ahead, 1, 0)};
    Matrix found;
    for (std::size_t k = 0; k < 16; k++) found.rows[k] = rows[k / 4][k % 4];
    return found;
}

inline trirast::ClipPosition seen(const Matrix &m, float x, float y, float z) {
    const std::array<float, 16> &r = m.rows;
    return {r[0] * x + r[1] * y + r[2] * z + r[3], r[4] * x + r[5] * y + r[6] * z + r[7],
            r[8] * x + r[9] * y + r[10] * z + r[11], r[12] * x + r[13] * y + r[14] * z + r[15]};
}

// A pane of glass: a colour of its own for each, and four corners.
struct Pane {
    std::array<Vector, 4> corners;
    std::array<std::uint8_t, 4> color; // red, green, blue, alpha
};

// A texture with all of its smaller levels. Texels are red, green, blue and 255. It repeats.
struct Texture {
    std::uint32_t side; // of the largest level: a power of two
    std::vector<std::vector<std::uint8_t>> levels;
};

// The levels of a texture, each of half the size of the one before: means of four texels.
inline Texture levels_of(std::vector<std::uint8_t> texels, std::uint32_t side) {
    Texture found{side, {}};
    for (;; side /= 2) {
        found.levels.push_back(texels);
        if (side == 1) return found;
        std::vector<std::uint8_t> half(texels.size() / 4);
        for (std::uint32_t y = 0; y < side / 2; y++)
            for (std::uint32_t x = 0; x < side / 2; x++)
                for (std::size_t c = 0; c < 4; c++) {
                    const auto at = [&](std::uint32_t i, std::uint32_t j) {
                        return int{texels[4 * (std::size_t{2 * y + j} * side + 2 * x + i) + c]};
                    };
                    half[4 * (std::size_t{y} * (side / 2) + x) + c] =
                        static_cast<std::uint8_t>((at(0, 0) + at(1, 0) + at(0, 1) + at(1, 1) + 2) / 4);
                }
        texels.swap(half);
    }
}

// Bricks of several colours.
inline Texture texture(Numbers &numbers, std::uint32_t side) {
    std::vector<std::uint8_t> texels(4 * std::size_t{side} * side);
    std::uint8_t colors[8][3];
    for (auto &color : colors)
        for (std::uint8_t &channel : color) channel = static_cast<std::uint8_t>(numbers.within(40, 250));
    for (std::uint32_t y = 0; y < side; y++)
        for (std::uint32_t x = 0; x < side; x++) {
            const double v = 4.0 * y / side, u = 2.0 * x / side + 0.5 * (static_cast<int>(v) % 2);
            const int brick = (2 * static_cast<int>(v) + static_cast<int>(u) % 2) % 8;
            const bool mortar = v - std::floor(v) < 0.08 || u - std::floor(u) < 0.04;
            const double grain = numbers.within(-14, 14);
            for (std::size_t c = 0; c < 3; c++) {
                const double level = (mortar ? 40 + 5.0 * static_cast<double>(c) : colors[brick][c]) + grain;
                texels[4 * (std::size_t{y} * side + x) + c] = static_cast<std::uint8_t>(std::clamp(level, 0.0, 255.0));
            }
            texels[4 * (std::size_t{y} * side + x) + 3] = 255;
        }
    return levels_of(std::move(texels), side);
}

// All of a picture but its size.
struct Scene {
    Mesh mesh;
    Texture texture;
    Vector eye, target;
    double near_distance = 0.3, aspect = 1;
    Matrix matrix; // from the eye to the target
    Vector light;  // towards it
    double ambient = 0.25;
    std::array<std::uint8_t, 3> background{24, 28, 40};
    std::vector<Pane> glass; // from the farthest to the nearest
};

// The matrix of a scene when the eye has gone round the upright axis.
inline Matrix turned(const Scene &scene, double turn) {
    const auto round = [turn](Vector v) {
        return Vector{v.x * std::cos(turn) + v.z * std::sin(turn), v.y, v.z * std::cos(turn) - v.x * std::sin(turn)};
    };
    return looking(round(scene.eye), round(scene.target), 1.7, scene.aspect, scene.near_distance, 20);
}

// ring, back (the same from the farthest triangle to the nearest), front (near and large), coarse
// (the same of few triangles) or dust.
inline Scene made(const std::string &name, std::uint64_t seed, double aspect) {
    Numbers numbers(seed);
    Scene found;
    found.texture = texture(numbers, 512);
    found.light = unit({numbers.within(0.3, 0.6), numbers.within(0.6, 0.9), numbers.within(0.3, 0.6)});
    Vector &eye = found.eye = {1.6, 2.2, 3.4}, &target = found.target;
    found.aspect = aspect;
    if (name == "ring" || name == "back") {
        found.mesh = knot(2, 3, 256, 48, 1.2, 0.33); // 24,576 triangles
    } else if (name == "front" || name == "coarse") {
        found.mesh = name == "front" ? knot(1, 0, 220, 48, 1.2, 0.5)
                                     : knot(1, 0, 40, 14, 1.2, 0.5); // 21,120 and 1,120 triangles
        eye = {1.75, 0.28, 0.62}, target = {1.0, -0.05, 0.1};        // where the near plane cuts into the tube
    } else if (name == "dust") {
        found.mesh = dust(numbers, 200000, 1.8, 0.006);
    } else {
        throw std::invalid_argument("no scene " + name);
    }
    if (name == "back") sort_from_back(found.mesh, eye);
    found.matrix = looking(eye, target, 1.7, aspect, found.near_distance, 20);
    const Vector ahead = unit(target - eye), right = unit(cross(ahead, {0, 1, 0})), up = cross(right, ahead);
    const double far_away = std::sqrt(dot(target - eye, target - eye));
    for (int k = 0; k < 5; k++) {
        const double distance = far_away * (1.25 - 0.17 * k), across = 0.22 * far_away;
        const double to_right = numbers.within(-0.3, 0.3) * far_away, upwards = numbers.within(-0.25, 0.25) * far_away;
        const Vector middle = eye + distance * ahead + to_right * right + upwards * up;
        Pane pane;
        const double tilt = numbers.within(-0.6, 0.6);
        const Vector a = across * (std::cos(tilt) * right + std::sin(tilt) * up),
                     b = across * (std::cos(tilt) * up - std::sin(tilt) * right) + 0.3 * across * ahead;
        pane.corners = {middle - a - b, middle + a - b, middle + a + b, middle - a + b};
        pane.color = {
            static_cast<std::uint8_t>(numbers.within(90, 255)), static_cast<std::uint8_t>(numbers.within(90, 255)),
            static_cast<std::uint8_t>(numbers.within(90, 255)), static_cast<std::uint8_t>(numbers.within(50, 130))};
        found.glass.push_back(pane);
    }
    return found;
}

} // namespace scene

#endif
