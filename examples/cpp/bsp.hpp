// Reads a level of the BSP format, version 46, as Debian's openarena-081-maps has them: walls with light maps. Textures
// are images that this does not read, so each shader of the map gets one of level.hpp's.
//
//     unzip -p /usr/share/games/openarena/baseoa/pak1-maps.pk3 maps/oa_dm1.bsp > oa_dm1.bsp
#ifndef BSP_HPP
#define BSP_HPP

#include <array>
#include <cstddef>
#include <cstdint>
#include <cstdio>
#include <cstring>
#include <fstream>
#include <iterator>
#include <stdexcept>
#include <string>
#include <utility>
#include <vector>

#include "level.hpp"

namespace bsp {

using level::Vector;

struct Shader {
    char name[64];
    std::int32_t flags, contents;
};
struct Vertex {
    float place[3], texture[2], light[2], normal[3];
    std::uint8_t color[4];
};
struct Face {
    std::int32_t shader, effect, type, vertex, vertex_count, index, index_count, light, light_corner[2], light_size[2];
    float vectors[12];
    std::int32_t size[2]; // of a patch, in control points
};
static_assert(sizeof(Shader) == 72 && sizeof(Vertex) == 44 && sizeof(Face) == 104, "as they are in the file");

// The parts of a file. It is read on little-endian machines.
class File {
public:
    explicit File(const std::string &path) {
        std::ifstream file(path, std::ios::binary);
        bytes_.assign(std::istreambuf_iterator<char>(file), {});
        std::int32_t head[2] = {};
        if (bytes_.size() >= 144) std::memcpy(head, bytes_.data(), 8);
        if (std::memcmp(head, "IBSP", 4) != 0 || head[1] != 46)
            throw std::runtime_error(path + ": expected a BSP map of version 46");
    }

    template <class Entry>
    std::vector<Entry> part(std::size_t number) const {
        std::uint32_t place[2];
        std::memcpy(place, &bytes_[8 + 8 * number], 8);
        if (place[0] > bytes_.size() || place[1] > bytes_.size() - place[0] || place[1] % sizeof(Entry) != 0)
            throw std::runtime_error("part " + std::to_string(number) + " of the map: expected whole entries");
        std::vector<Entry> found(place[1] / sizeof(Entry));
        if (!found.empty()) std::memcpy(found.data(), &bytes_[place[0]], place[1]);
        return found;
    }

private:
    std::vector<char> bytes_;
};

class Reader {
public:
    explicit Reader(const File &file)
        : shaders_(file.part<Shader>(1)), vertices_(file.part<Vertex>(10)), indices_(file.part<std::int32_t>(11)),
          faces_(file.part<Face>(13)), lights_(file.part<std::uint8_t>(14)), pages_(lights_.size() / page_bytes) {
        if (pages_ >= trirast::most_texels_a_side / side) throw std::runtime_error("light maps: expected at most 127");
    }

    level::Level level() {
        scene::Numbers numbers(1);
        level::Level found;
        found.textures = level::textures(numbers);
        for (const Face &face : faces_) add(face, found);
        found.light = light();
        return found;
    }

private:
    static constexpr std::size_t side = 128, page_bytes = 3 * side * side;
    static constexpr std::int32_t no_draw = 0x80, flat = 1, patch = 2, mesh = 3;

    // One light map above another; the last one, of surfaces without a light map, is dim.
    trirast::RgbaTexture light() const {
        std::vector<std::uint8_t> texels;
        for (std::size_t k = 0; k < (pages_ + 1) * side * side; k++)
            for (std::size_t c = 0; c < 4; c++)
                texels.push_back(c == 3 ? 255 : k < pages_ * side * side ? bright(lights_[3 * k + c]) : 90);
        return {side, static_cast<std::uint32_t>((pages_ + 1) * side), texels,
                {trirast::Wrap::clamp, trirast::Wrap::clamp, trirast::Filter::bilinear}};
    }
    static std::uint8_t bright(std::uint8_t v) { return static_cast<std::uint8_t>(std::min(2 * v, 255)); }

    template <class Entry>
    static const Entry &at(const std::vector<Entry> &all, std::int64_t k, const char *what) {
        if (k < 0 || k >= static_cast<std::int64_t>(all.size()))
            throw std::runtime_error(std::string(what) + ": expected 0 to before " + std::to_string(all.size()) +
                                     ", got " + std::to_string(k));
        return all[static_cast<std::size_t>(k)];
    }

    void add(const Face &face, level::Level &to) const {
        if (at(shaders_, face.shader, "shader").flags & no_draw) return;
        level::Part &part = to.solid[face.shader % level::materials];
        const std::uint32_t first = static_cast<std::uint32_t>(part.points.size());
        if (face.type == patch) return add_patch(face, part, first);
        if (face.type != flat && face.type != mesh) return;
        for (std::int32_t k = 0; k < face.vertex_count; k++)
            add(at(vertices_, std::int64_t{face.vertex} + k, "vertex"), face.light, part);
        for (std::int32_t k = 0; k + 2 < face.index_count; k += 3)
            for (std::int32_t c = 0; c < 3; c++) {
                const std::int32_t index = at(indices_, std::int64_t{face.index} + k + c, "index");
                if (index < 0 || index >= face.vertex_count) throw std::runtime_error("a face has no such vertex");
                part.indices.push_back(first + static_cast<std::uint32_t>(index));
            }
    }

    // Y goes up here and z there; 64 units are one.
    void add(const Vertex &v, std::int32_t page, level::Part &part) const {
        part.points.push_back(1.0 / 64 * Vector{v.place[0], v.place[2], -v.place[1]});
        const bool has_light = page >= 0 && static_cast<std::size_t>(page) < pages_;
        const float row = static_cast<float>(has_light ? static_cast<std::size_t>(page) : pages_);
        const float down = (row + std::min(std::max(v.light[1], 0.0f), 1.0f)) / static_cast<float>(pages_ + 1);
        part.values.push_back({v.texture[0], v.texture[1], v.light[0], down});
    }

    // A curved surface: squares of 3 by 3 control points that share their sides, each of steps by steps rectangles.
    void add_patch(const Face &face, level::Part &part, std::uint32_t first) const {
        constexpr std::int32_t steps = 4;
        if (face.size[0] < 3 || face.size[1] < 3 || face.size[0] > 1024 || face.size[1] > 1024) return;
        const std::int32_t columns = (face.size[0] - 1) / 2 * steps, rows = (face.size[1] - 1) / 2 * steps;
        for (std::int32_t y = 0; y <= rows; y++)
            for (std::int32_t x = 0; x <= columns; x++) add(on_patch(face, x, y, steps), face.light, part);
        for (std::int32_t y = 0; y < rows; y++)
            for (std::int32_t x = 0; x < columns; x++) {
                const std::uint32_t a = first + static_cast<std::uint32_t>(y * (columns + 1) + x), b = a + 1,
                                    c = a + static_cast<std::uint32_t>(columns) + 1, d = c + 1;
                part.indices.insert(part.indices.end(), {a, b, c, c, b, d});
            }
    }

    Vertex on_patch(const Face &face, std::int32_t x, std::int32_t y, std::int32_t steps) const {
        const auto first = [&](std::int32_t k, std::int32_t size) { return std::min(k / steps * 2, size - 3); };
        const std::int32_t left = first(x, face.size[0]), top = first(y, face.size[1]);
        const auto shares = [&](std::int32_t k, std::int32_t from) {
            const float t = static_cast<float>(k - from / 2 * steps) / static_cast<float>(steps);
            return std::array<float, 3>{(1 - t) * (1 - t), 2 * t * (1 - t), t * t};
        };
        const std::array<float, 3> across = shares(x, left), down = shares(y, top);
        Vertex found{};
        for (std::int32_t j = 0; j < 3; j++)
            for (std::int32_t i = 0; i < 3; i++) {
                const std::int64_t k = std::int64_t{face.vertex} + (top + j) * face.size[0] + left + i;
                const Vertex &v = at(vertices_, k, "vertex");
                const float share = across[static_cast<std::size_t>(i)] * down[static_cast<std::size_t>(j)];
                for (std::size_t c = 0; c < 3; c++) found.place[c] += share * v.place[c];
                for (std::size_t c = 0; c < 2; c++)
                    found.texture[c] += share * v.texture[c], found.light[c] += share * v.light[c];
            }
        return found;
    }

    std::vector<Shader> shaders_;
    std::vector<Vertex> vertices_;
    std::vector<std::int32_t> indices_;
    std::vector<Face> faces_;
    std::vector<std::uint8_t> lights_;
    std::size_t pages_;
};

// Where players begin: the camera goes from one to the next.
inline std::vector<Vector> path_of(const File &file) {
    const std::vector<char> bytes = file.part<char>(0);
    const std::string text(bytes.begin(), bytes.end());
    std::vector<Vector> found;
    for (std::size_t begin = 0; (begin = text.find('{', begin)) != std::string::npos; begin++) {
        const std::string entity = text.substr(begin, text.find('}', begin) - begin);
        const std::size_t origin = entity.find("\"origin\"");
        float x, y, z;
        if (entity.find("info_player_deathmatch") != std::string::npos && origin != std::string::npos &&
            std::sscanf(&entity[origin + 8], " \"%f %f %f", &x, &y, &z) == 3)
            found.push_back(1.0 / 64 * Vector{x, z + 30, -y});
    }
    if (found.empty()) throw std::runtime_error("the map: expected a place where players begin");
    return found;
}

inline level::Level read(const std::string &path) {
    const File file(path);
    level::Level found = Reader(file).level();
    found.path = path_of(file);
    return found;
}

} // namespace bsp

#endif
