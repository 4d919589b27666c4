// What is tested of trirast_shade.hpp, trirast_shade.h and examples/cpp, as functions of one source: a wrong edit
// compiles under_test.cpp alone, and in_c.c. Nothing else includes these headers.
#ifndef UNDER_TEST_HPP
#define UNDER_TEST_HPP

#include <cstdint>
#include <functional>
#include <memory>
#include <vector>

#include "scene.hpp"
#include "trirast.hpp"
#include "trirast_clip.hpp"

enum class At { pixel, centre, sample };

constexpr std::uint32_t NO_TRIANGLE = 0xFFFFFF;

// trirast::Fragments as numbers.
struct Eight {
    std::int32_t id[8], x[8], y[8], used[8];
    float weight[3][8], right[3][8], down[3][8];
};

// The edge functions of eight triangles, each at a point; and all of `at` that follows from ids and points.
struct EdgesOfEight {
    float of_corner[3][8];
};
EdgesOfEight weigh_eight(const std::vector<trirast_vertex> &vertices, const std::vector<float> &w,
                         const std::vector<std::uint32_t> &indices, Eight &at);

// The comparisons of eight numbers by <, <=, >, >=, == and !=.
struct Compared {
    std::int32_t by[6][8];
};
Compared compare_eight(const float (&a)[8], const float (&b)[8]);
Compared compare_eight(const std::int32_t (&a)[8], const std::int32_t (&b)[8]);

// Where sample s lies in its pixel.
void place_of(std::uint32_t samples, std::uint32_t s, std::int32_t &x, std::int32_t &y);

// The greatest whole numbers that are not above eight numbers, as floats and as integers.
void floors_of(const float (&numbers)[8], float (&whole)[8], std::int32_t (&integers)[8]);

// What a shader gives eight fragments: red, green and blue.
using Shader = std::function<void(const Eight &, float (&)[3][8])>;

// Whether the headers are compiled with products that may be fused with a sum, as FUSED says.
bool are_products_fused();

// A scene as seen by its camera.
class Frame {
public:
    Frame(const scene::Scene &given, std::int32_t width, std::int32_t height);
    ~Frame();

    const trirast::Clipped &mesh() const;
    const trirast::Clipped &glass() const;
    void draw_ids(trirast::TileRows &rows) const;
    void draw_glass(trirast::TileRows &rows) const;

    // By the texture, tile by tile or as a whole.
    void shade(trirast::TileRows &rows, At rate) const;
    void shade_tiles(trirast::TileRows &rows, At rate, std::uint32_t part, std::uint32_t parts) const;

    // A canvas drawn and shaded as by so many threads: in parts with triangles of their own. Ids are of the whole list.
    void draw_parts(trirast::Canvas &canvas, At rate, unsigned threads) const;

    // By any shader, of the first triangles alone.
    void shade_by(trirast::TileRows &rows, At rate, const std::uint8_t (&background)[3], std::size_t triangles,
                  const Shader &shader) const;

    // 127.5 and `size` times the normals as colours: by weights, or by their difference to the right (by = 1) or below
    // (by = 2).
    void shade_normals(trirast::TileRows &rows, int by, float size) const;

private:
    struct Parts;
    std::unique_ptr<Parts> parts_;
    trirast::Clip clip_;
};

#endif
