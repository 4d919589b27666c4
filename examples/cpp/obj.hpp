// Models in Wavefront OBJ files, with the materials and textures (PPM) that they name.
#ifndef OBJ_HPP
#define OBJ_HPP

#include <algorithm>
#include <array>
#include <fstream>
#include <map>
#include <optional>
#include <sstream>
#include <stdexcept>
#include <string>
#include <vector>

#include "scene.hpp"

namespace obj {

struct Material {
    std::array<float, 3> color{200, 200, 200};
    std::optional<scene::Texture> texture;
};

struct Model {
    scene::Mesh mesh;
    std::vector<Material> materials;
    std::vector<std::uint32_t> material_of; // each triangle
};

inline std::ifstream opened(const std::string &path) {
    std::ifstream file(path, std::ios::binary);
    if (!file) throw std::runtime_error("cannot read " + path);
    return file;
}

// A square PPM file whose side is a power of two, with its smaller levels.
inline scene::Texture read_texture(const std::string &path) {
    std::ifstream file = opened(path);
    std::string kind;
    std::uint32_t width = 0, height = 0, most = 0;
    file >> kind >> width >> height >> most;
    file.get();
    if (kind != "P6" || most != 255 || width != height || width == 0 || width > 4096 || (width & (width - 1)) != 0)
        throw std::runtime_error(path + ": no square PPM file whose side is a power of two");
    std::vector<char> rgb(3 * std::size_t{width} * width);
    if (!file.read(rgb.data(), static_cast<std::streamsize>(rgb.size())))
        throw std::runtime_error(path + ": too short");
    std::vector<std::uint8_t> texels;
    for (std::size_t k = 0; k < rgb.size(); k += 3) {
        for (std::size_t c = 0; c < 3; c++) texels.push_back(static_cast<std::uint8_t>(rgb[k + c]));
        texels.push_back(255);
    }
    return scene::levels_of(texels, width);
}

inline std::string folder_of(const std::string &path) {
    const std::size_t end = path.find_last_of('/');
    return end == std::string::npos ? "" : path.substr(0, end + 1);
}

class Reader {
public:
    Model read(const std::string &path) {
        folder_ = folder_of(path);
        found_.materials.push_back({});
        std::ifstream file = opened(path);
        for (std::string line; std::getline(file, line);) {
            std::istringstream words(line);
            std::string key, name;
            words >> key;
            if (key == "v")
                positions_.push_back(numbers<3>(words));
            else if (key == "vt")
                places_.push_back(numbers<2>(words));
            else if (key == "vn")
                normals_.push_back(numbers<3>(words));
            else if (key == "f")
                add_face(words);
            else if (key == "mtllib" && words >> name)
                read_materials(folder_ + name);
            else if (key == "usemtl" && words >> name)
                use(name);
        }
        return std::move(found_);
    }

private:
    template <std::size_t count>
    static std::array<float, count> numbers(std::istringstream &words) {
        std::array<float, count> found{};
        for (float &number : found)
            if (!(words >> number)) throw std::runtime_error("a line with too few numbers");
        return found;
    }

    void read_materials(const std::string &path) {
        std::ifstream file = opened(path);
        for (std::string line; std::getline(file, line);) {
            std::istringstream words(line);
            std::string key, name;
            words >> key;
            if (key == "newmtl" && words >> name)
                names_[name] = found_.materials.size(), found_.materials.push_back({});
            else if (key == "map_Kd" && words >> name)
                found_.materials.back().texture = read_texture(folder_ + name);
            else if (key == "Kd") {
                const std::array<float, 3> color = numbers<3>(words);
                for (std::size_t c = 0; c < 3; c++) found_.materials.back().color[c] = 255 * color[c];
            }
        }
    }

    void use(const std::string &name) {
        if (!names_.count(name)) throw std::runtime_error("no material " + name);
        material_ = static_cast<std::uint32_t>(names_[name]);
    }

    // An index of a face: from 1, or from the end if it is negative. Nothing is named by 0 or if it is left out.
    template <class T>
    static const T *named(const std::vector<T> &all, const std::string &word) {
        if (word.empty()) return nullptr;
        const long number = std::stol(word), count = static_cast<long>(all.size()),
                   index = number < 0 ? count + number : number - 1;
        if (index < 0 || index >= count) throw std::runtime_error("a face names what there is not: " + word);
        return &all[static_cast<std::size_t>(index)];
    }

    struct Corner {
        scene::Vertex vertex;
        bool has_normal;
    };

    // v, v/vt, v//vn or v/vt/vn.
    Corner corner_of(const std::string &word) const {
        std::istringstream parts(word);
        std::string v, vt, vn;
        std::getline(parts, v, '/'), std::getline(parts, vt, '/'), std::getline(parts, vn, '/');
        const std::array<float, 3> *position = named(positions_, v), *normal = named(normals_, vn);
        const std::array<float, 2> *place = named(places_, vt);
        if (!position) throw std::runtime_error("a corner without a position");
        scene::Vertex found{(*position)[0], (*position)[1], (*position)[2], 0, 0, 0, 0, 0};
        if (place) found.u = (*place)[0], found.v = -(*place)[1]; // v goes upwards in these files
        if (normal) found.nx = (*normal)[0], found.ny = (*normal)[1], found.nz = (*normal)[2];
        return {found, normal != nullptr};
    }

    // A polygon as a fan. Without normals it gets that of its plane.
    void add_face(std::istringstream &words) {
        std::vector<Corner> corners;
        for (std::string word; words >> word;) corners.push_back(corner_of(word));
        for (std::size_t k = 2; k < corners.size(); k++) {
            scene::Vertex triangle[3] = {corners[0].vertex, corners[k - 1].vertex, corners[k].vertex};
            if (!corners[0].has_normal) set_normals(triangle);
            for (const scene::Vertex &vertex : triangle) {
                found_.mesh.indices.push_back(static_cast<std::uint32_t>(found_.mesh.vertices.size()));
                found_.mesh.vertices.push_back(vertex);
            }
            found_.material_of.push_back(material_);
        }
    }

    static void set_normals(scene::Vertex (&triangle)[3]) {
        const auto at = [](const scene::Vertex &v) { return scene::Vector{v.x, v.y, v.z}; };
        const scene::Vector n = cross(at(triangle[1]) - at(triangle[0]), at(triangle[2]) - at(triangle[0]));
        const double length = std::max(std::sqrt(dot(n, n)), 1e-12);
        for (scene::Vertex &v : triangle)
            v.nx = static_cast<float>(n.x / length), v.ny = static_cast<float>(n.y / length),
            v.nz = static_cast<float>(n.z / length);
    }

    Model found_;
    std::string folder_;
    std::vector<std::array<float, 3>> positions_, normals_;
    std::vector<std::array<float, 2>> places_;
    std::map<std::string, std::size_t> names_;
    std::uint32_t material_ = 0;
};

} // namespace obj

#endif
