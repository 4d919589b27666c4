// A walk through a model: a Wavefront OBJ file with materials and textures, in a window of SDL2, or as a picture.
//
//     obj [--size 960 540] [--samples 4] [--threads N] [--eye 0 1.6 0] [--heading 0] [--speed 3] [--near 0.05] [--far
//     200]
//         [--output FILE.ppm] [--path FRAMES] MODEL.obj
//
// W, A, S and D walk, the arrows turn, and Escape ends. Walls go past the eye and through the near plane, so each frame
// is cut in clip space. --heading is in degrees from the direction of -z, to the right. --path walks along a closed
// path, and counts samples: those that show no triangle, and those at which layers are missing or doubled. Of a closed
// model there are none.
//
//     python3 make_hall.py hall && ./obj hall/hall.obj         # a hall to walk through
//     c++ -std=c++17 -O3 -march=native obj.cpp $(pkg-config --cflags --libs trirast sdl2) -pthread
#include <cmath>
#include <exception>
#include <iostream>
#include <string>
#include <vector>

#include "obj.hpp"
#include "texture.hpp"
#include "trirast_frame.hpp"
#include "window.hpp"

namespace {

using trirast::Floats;
using trirast::Integers;

const double DEGREE = std::acos(-1.0) / 180;

struct Eye {
    scene::Vector at{0, 1.6, 0};
    double heading = 0, tilt = 0; // in degrees

    scene::Vector ahead() const {
        const double level = std::cos(DEGREE * tilt);
        return {level * std::sin(DEGREE * heading), std::sin(DEGREE * tilt), -level * std::cos(DEGREE * heading)};
    }
};

struct Options {
    std::string model, output;
    std::uint32_t width = 960, height = 540, samples = 4, path = 0;
    unsigned threads = std::max(1u, std::thread::hardware_concurrency());
    double speed = 3, near_distance = 0.05, far_distance = 200;
    Eye eye;
};

// The materials of eight fragments: each that is there is shaded for all lanes, and taken by its own.
class Materials {
public:
    explicit Materials(const obj::Model &model) : materials_(model.materials) {
        for (const obj::Material &material : materials_)
            texels_.push_back(material.texture ? std::optional<scene::Texels>(*material.texture) : std::nullopt);
    }

    void colors(const trirast::Fragments &at, const scene::Values::Corners &corner, const Integers &material,
                trirast::Colors &out) const {
        out.red = out.green = out.blue = 0.0f;
        for (unsigned left = 255; left != 0;) {
            std::size_t lane = 0;
            while (!(left >> lane & 1)) lane++;
            const std::int32_t number = material[lane];
            const Integers here = material == number;
            left &= ~bits(here);
            trirast::Colors own;
            color(static_cast<std::size_t>(number), at, corner, own);
            out.red = choose(here, own.red, out.red), out.green = choose(here, own.green, out.green);
            out.blue = choose(here, own.blue, out.blue);
        }
    }

private:
    void color(std::size_t number, const trirast::Fragments &at, const scene::Values::Corners &corner,
               trirast::Colors &out) const {
        const std::array<float, 3> &plain = materials_[number].color;
        if (!texels_[number]) {
            out.red = plain[0], out.green = plain[1], out.blue = plain[2];
            return;
        }
        const Floats right_u = at.to_right(corner[0]), right_v = at.to_right(corner[1]);
        const Floats down_u = at.to_below(corner[0]), down_v = at.to_below(corner[1]);
        const Floats step = max(right_u * right_u + right_v * right_v, down_u * down_u + down_v * down_v);
        texels_[number]->colors(at.value(corner[0]), at.value(corner[1]), step, out);
        out.red *= plain[0] / 255, out.green *= plain[1] / 255, out.blue *= plain[2] / 255;
    }

    const std::vector<obj::Material> &materials_;
    std::vector<std::optional<scene::Texels>> texels_;
};

class Renderer {
public:
    Renderer(const obj::Model &model, const Options &options)
        : model_(model), options_(options), materials_(model), values_(scene::values_of(model.mesh)),
          canvas_(canvas_of(options)), pool_(options.threads) {}

    void draw(const Eye &eye) {
        look(eye);
        std::vector<trirast::TileRows> parts = canvas_.split(pool_.threads());
        pool_(parts.size(), [&](std::size_t k) { draw_ids(parts[k]); });
        shade(eye);
    }

    // The samples that show no triangle.
    std::size_t holes(const Eye &eye) {
        look(eye);
        draw_ids(canvas_);
        std::size_t found = 0;
        for (std::uint32_t s = 0; s < options_.samples; s++)
            for (const std::uint32_t id : canvas_.ids(s)) found += id == trirast::no_triangle;
        return found;
    }

    // The samples at which a layer is missing or drawn twice, also one that others hide. If the model is closed, a ray
    // from the eye meets one face more from its front, from where it is counterclockwise, than from behind: that
    // through which it leaves the room.
    std::size_t cracks(const Eye &eye) {
        look(eye);
        for (trirast_vertex &vertex : seen_.vertices) vertex.red = vertex.green = 1, vertex.alpha = 255;
        canvas_.clear({0, 0, 0});
        // Clockwise on the screen is front-facing for a canvas. They are counted in red, and the others in green.
        count_layers(TRIRAST_CULL_BACK, TRIRAST_KEEP_GREEN), count_layers(TRIRAST_CULL_FRONT, TRIRAST_KEEP_RED);
        std::size_t found = 0;
        for (std::uint32_t s = 0; s < options_.samples; s++) {
            const std::vector<std::uint8_t> colors = canvas_.colors(s, TRIRAST_FORMAT_RGB8);
            for (std::size_t k = 0; k < colors.size(); k += 3) found += colors[k + 1] != colors[k] + 1;
        }
        return found;
    }

    const trirast::Canvas &canvas() const { return canvas_; }
    std::size_t cuts() const { return seen_.cuts.size(); }

private:
    static trirast::Canvas canvas_of(const Options &options) {
        trirast::CanvasOptions found;
        found.width = options.width, found.height = options.height, found.samples = options.samples;
        return trirast::Canvas(found);
    }

    // Clips and projects the model. Of each triangle that is left the source says which material it has.
    void look(const Eye &eye) {
        const scene::Mesh &mesh = model_.mesh;
        const double aspect = static_cast<double>(options_.width) / options_.height;
        const scene::Matrix matrix =
            scene::looking(eye.at, eye.at + eye.ahead(), 1.2, aspect, options_.near_distance, options_.far_distance);
        positions_.clear();
        for (const scene::Vertex &v : mesh.vertices) positions_.push_back(scene::seen(matrix, v.x, v.y, v.z));
        trirast::Clip clip{};
        clip.width = static_cast<std::int32_t>(options_.width),
        clip.height = static_cast<std::int32_t>(options_.height);
        trirast::clip_triangles(clip, positions_, mesh.indices, seen_);
        triangles_ = trirast::ShadeTriangles(seen_);
        parts_ = scene::Values(seen_, mesh.indices, values_);
        material_of_.clear();
        for (const std::uint32_t source : seen_.sources) material_of_.push_back(model_.material_of[source]);
    }

    void draw_ids(trirast::TileRows &rows) const {
        trirast::State state;
        state.depth_test = TRIRAST_DEPTH_LESS, state.depth_write = true;
        rows.clear({255, 255, 255});
        rows.draw_ids(seen_.vertices, seen_.indices, 0, state);
    }

    void count_layers(trirast_cull cull, trirast_keep keep) {
        trirast::State state;
        state.cull = cull, state.keep = keep, state.blend = trirast::blend_add;
        canvas_.draw(seen_.vertices, seen_.indices, state);
    }

    void shade(const Eye &eye) {
        const scene::Vector light = scene::unit({0.3, 0.8, 0.5}), ahead = eye.ahead();
        const auto shader = [&](const trirast::Fragments &at, trirast::Colors &out) {
            const scene::Values::Corners corner = parts_.of(at.id);
            materials_.colors(at, corner, trirast::gather(material_of_.data(), at.id), out);
            const Floats x = at.value(corner[2]), y = at.value(corner[3]), z = at.value(corner[4]);
            const Floats length = sqrt(x * x + y * y + z * z);
            const auto facing = [&](const scene::Vector &to) {
                return (x * static_cast<float>(to.x) + y * static_cast<float>(to.y) + z * static_cast<float>(to.z)) /
                       length;
            };
            // A light from above, and a lamp that goes ahead.
            const Floats bright = 0.45f + 0.35f * max(facing(light), 0.0f) + 0.2f * max(-facing(ahead), 0.0f);
            out.red *= bright, out.green *= bright, out.blue *= bright;
        };
        const std::uint32_t columns = trirast::tile_columns(canvas_);
        pool_(std::size_t{columns} * canvas_.end(), [&](std::size_t k) {
            thread_local trirast::TileEntries entries;
            const std::uint32_t tile = static_cast<std::uint32_t>(k);
            trirast::shade_tile(canvas_, tile % columns, tile / columns, triangles_, trirast::Rate::pixel,
                                {150, 180, 210}, shader, entries);
        });
    }

    const obj::Model &model_;
    const Options &options_;
    Materials materials_;
    std::vector<scene::Values::Values> values_;
    std::vector<trirast::ClipPosition> positions_;
    trirast::Clipped seen_;
    trirast::ShadeTriangles triangles_;
    scene::Values parts_;
    std::vector<std::uint32_t> material_of_;
    trirast::Canvas canvas_;
    trirast::Pool pool_;
};

void walk(Eye &eye, const Input &input, double speed) {
    const double step = speed * input.seconds, x = std::sin(DEGREE * eye.heading), z = -std::cos(DEGREE * eye.heading);
    eye.at.x += step * (input.ahead * x - input.aside * z), eye.at.z += step * (input.ahead * z + input.aside * x);
    eye.heading += 90 * input.seconds * input.turn;
    eye.tilt = std::min(std::max(eye.tilt + 60 * input.seconds * input.tilt, -85.0), 85.0);
}

void run(Renderer &renderer, const Options &options) {
    Eye eye = options.eye;
    run_window("obj", options.width, options.height, [&](const Target &target, const Input &input) {
        walk(eye, input, options.speed);
        renderer.draw(eye);
        renderer.canvas().resolve(target.format, {target.pixels, target.size}, target.stride);
        return std::string();
    });
}

// A round that comes close to walls, looking to all sides.
void walk_path(Renderer &renderer, const Options &options) {
    std::size_t holes = 0, cracks = 0, cuts = 0;
    for (std::uint32_t frame = 0; frame < options.path; frame++) {
        const double turn = 360.0 * frame / options.path;
        Eye eye = options.eye;
        eye.at.x += 2.7 * std::sin(DEGREE * turn), eye.at.z -= 5.7 * std::sin(2 * DEGREE * turn);
        eye.heading += 5 * turn, eye.tilt = 50 * std::sin(7 * DEGREE * turn);
        holes += renderer.holes(eye), cracks += renderer.cracks(eye), cuts += renderer.cuts();
    }
    std::cout << options.path << " frames, " << cuts << " cuts, " << holes << " samples without a triangle, " << cracks
              << " with a crack\n";
}

Options read_options(const std::vector<std::string> &words) {
    Options found;
    for (std::size_t k = 0; k < words.size(); k++) {
        const std::string &key = words[k];
        const auto next = [&] {
            return k + 1 < words.size() ? words[++k] : throw std::invalid_argument(key + " without a value");
        };
        const auto number = [&] { return std::stod(next()); };
        const auto count = [&] { return static_cast<std::uint32_t>(std::stoul(next())); };
        if (key == "--size")
            found.width = count(), found.height = count();
        else if (key == "--samples")
            found.samples = count();
        else if (key == "--threads")
            found.threads = std::max(1u, count());
        else if (key == "--eye")
            found.eye.at.x = number(), found.eye.at.y = number(), found.eye.at.z = number();
        else if (key == "--heading")
            found.eye.heading = number();
        else if (key == "--tilt")
            found.eye.tilt = number();
        else if (key == "--speed")
            found.speed = number();
        else if (key == "--near")
            found.near_distance = number();
        else if (key == "--far")
            found.far_distance = number();
        else if (key == "--output")
            found.output = next();
        else if (key == "--path")
            found.path = count();
        else if (key.compare(0, 2, "--") == 0)
            throw std::invalid_argument("no option " + key);
        else
            found.model = key;
    }
    if (found.model.empty()) throw std::invalid_argument("no model; python3 make_hall.py hall makes one");
    return found;
}

} // namespace

int main(int count, char **words) {
    try {
        const Options options = read_options({words + 1, words + count});
        const obj::Model model = obj::Reader().read(options.model);
        Renderer renderer(model, options);
        if (options.path) {
            walk_path(renderer, options);
        } else if (options.output.empty()) {
            run(renderer, options);
        } else {
            renderer.draw(options.eye);
            write_picture(options.output, options.width, options.height, renderer.canvas().pixels(TRIRAST_FORMAT_RGB8));
        }
        return 0;
    } catch (const std::exception &error) {
        std::cerr << "obj: " << error.what() << '\n';
        return 1;
    }
}
