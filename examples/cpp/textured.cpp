// A textured model under a light, with panes of glass, in perspective: in a window of SDL2 in which the eye goes round
// it, or as a picture.
//
//     textured [--scene ring] [--size 960 540] [--samples 4] [--rate pixel] [--threads N] [--turn 0] [--speed 20]
//              [--show shaded] [--pick X Y] [--output FILE.ppm]
//
// Scenes: ring, a knot; front, within a ring, where the near plane cuts; coarse, the same of fewer triangles;
// dust, small triangles. --rate is pixel, centre or sample.
// --show is ids, weights, places (texture coordinates) or shaded. The title has the frames a second. A click, and
// --pick, asks which triangle is seen there. Escape ends.
//
//     c++ -std=c++17 -O3 -march=native textured.cpp $(pkg-config --cflags --libs trirast sdl2) -pthread
//
// Without sdl2 there is no window, and a picture goes to --output.
#include <cstdlib>
#include <exception>
#include <iostream>
#include <string>
#include <vector>

#include "frame.hpp"
#include "trirast_frame.hpp"
#include "window.hpp"

namespace {

struct Options {
    std::string scene = "ring", show = "shaded", output;
    std::uint32_t width = 960, height = 540, samples = 4;
    trirast::Rate rate = trirast::Rate::pixel;
    unsigned threads = std::max(1u, std::thread::hardware_concurrency());
    double turn = 0, speed = 20; // in degrees, and degrees a second
    std::optional<Input::Place> pick;
};

trirast::Canvas canvas_of(std::uint32_t width, std::uint32_t height, std::uint32_t samples,
                          trirast::Origin origin = {}) {
    trirast::CanvasOptions options;
    options.width = width, options.height = height, options.samples = samples, options.origin = origin;
    return trirast::Canvas(options);
}

// Draws frames of a scene.
class Renderer {
public:
    Renderer(const scene::Scene &scene, const Options &options)
        : model_(scene), rate_(options.rate), show_(options.show),
          canvas_(canvas_of(options.width, options.height, options.samples)), rows_(canvas_, options.threads),
          pool_(options.threads) {}

    // What is seen when the eye has gone round by an angle.
    void look(double turn) {
        const trirast::Clip clip =
            scene::clip_of(static_cast<std::int32_t>(canvas_.width()), static_cast<std::int32_t>(canvas_.height()));
        seen_.project(model_, scene::turned(model_.scene, turn), clip, pool_.threads(), pool_);
        seen_.prepare(model_, pool_.threads(), pool_);
    }

    // Ids, colours and glass.
    void draw() {
        if (show_ == "shaded") return draw_by(seen_.shader(model_));
        if (show_ == "ids") return draw_by(color_of_id);
        if (show_ == "weights") return draw_by(color_of_weights);
        if (show_ != "places") throw std::invalid_argument("no picture of " + show_);
        const scene::Values &values = seen_.values(model_);
        draw_by([&values](const trirast::Fragments &at, trirast::Colors &out) {
            const scene::Values::Corners corner = values.of(at.id);
            const trirast::Floats u = at.value(corner[0]), v = at.value(corner[1]);
            out.red = 255.0f * (u - to_floats(floor_to_integers(u))),
            out.green = 255.0f * (v - to_floats(floor_to_integers(v)));
            out.blue = 90.0f;
        });
    }

    const trirast::Canvas &canvas() const { return canvas_; }

    // The triangle of the model that is seen at a pixel, or none: a canvas of one pixel knows it.
    std::optional<std::uint32_t> picked(Input::Place at) const {
        trirast::Canvas pixel = canvas_of(1, 1, 1, {at.x, at.y});
        scene::draw_ids(pixel, seen_);
        const std::uint32_t id = pixel.ids()[0];
        if (id == trirast::no_triangle) return std::nullopt;
        return seen_.mesh.sources[id];
    }

private:
    static void color_of_id(const trirast::Fragments &at, trirast::Colors &out) {
        const auto byte = [&](std::int32_t factor) { return 60.0f + to_floats((at.id * factor) & 127); };
        out.red = byte(37), out.green = byte(73), out.blue = byte(101);
    }

    static void color_of_weights(const trirast::Fragments &at, trirast::Colors &out) {
        out.red = 255.0f * at.weight[0], out.green = 255.0f * at.weight[1], out.blue = 255.0f * at.weight[2];
    }

    template <class Shader>
    void draw_by(const Shader &shader) {
        const trirast::Color background = scene::background(model_.scene);
        const auto shade = [&](trirast::TileRows &rows, std::uint32_t column, std::uint32_t row, const auto *own) {
            thread_local trirast::TileEntries entries;
            trirast::shade_tile(rows, column, row, seen_.triangles, rate_, background, shader, entries, own);
        };
        rows_.draw(seen_, pool_, shade, [&](trirast::TileRows &rows) {
            if (show_ == "shaded") scene::draw_glass(rows, seen_);
        });
    }

    scene::Model model_;
    trirast::Rate rate_;
    std::string show_;
    trirast::Canvas canvas_;
    scene::SharedRows rows_;
    scene::Seen seen_;
    trirast::Pool pool_;
};

std::string said(const std::optional<std::uint32_t> &triangle) {
    return triangle ? ", triangle " + std::to_string(*triangle) : ", no triangle";
}

void run(Renderer &renderer, const Options &options) {
    double turn = options.turn;
    std::string says;
    run_window("textured", options.width, options.height, [&](const Target &target, const Input &input) {
        turn += (options.speed + 60 * input.turn) * input.seconds;
        renderer.look(turn * std::acos(-1.0) / 180);
        renderer.draw();
        renderer.canvas().resolve(target.format, {target.pixels, target.size}, target.stride);
        if (input.click) says = said(renderer.picked(*input.click));
        return says;
    });
}

trirast::Rate rate_of(const std::string &name) {
    if (name == "pixel") return trirast::Rate::pixel;
    if (name == "centre") return trirast::Rate::centre;
    if (name == "sample") return trirast::Rate::sample;
    throw std::invalid_argument("no rate " + name);
}

Options read_options(const std::vector<std::string> &words) {
    Options found;
    for (std::size_t k = 0; k < words.size(); k++) {
        const std::string &key = words[k];
        const auto next = [&] {
            return k + 1 < words.size() ? words[++k] : throw std::invalid_argument(key + " without a value");
        };
        const auto number = [&] { return static_cast<std::uint32_t>(std::stoul(next())); };
        if (key == "--scene")
            found.scene = next();
        else if (key == "--size")
            found.width = number(), found.height = number();
        else if (key == "--samples")
            found.samples = number();
        else if (key == "--rate")
            found.rate = rate_of(next());
        else if (key == "--show")
            found.show = next();
        else if (key == "--threads")
            found.threads = std::max(1u, number());
        else if (key == "--turn")
            found.turn = std::stod(next());
        else if (key == "--speed")
            found.speed = std::stod(next());
        else if (key == "--output")
            found.output = next();
        else if (key == "--pick") {
            const std::int32_t x = std::stoi(next()), y = std::stoi(next());
            found.pick = Input::Place{x, y};
        } else
            throw std::invalid_argument("no option " + key);
    }
    return found;
}

} // namespace

int main(int count, char **words) {
    try {
        const Options options = read_options({words + 1, words + count});
        const scene::Scene scene = scene::made(options.scene, 1, static_cast<double>(options.width) / options.height);
        Renderer renderer(scene, options);
        if (options.output.empty() && !options.pick) {
            run(renderer, options);
            return 0;
        }
        renderer.look(options.turn * std::acos(-1.0) / 180);
        renderer.draw();
        if (options.pick) std::cerr << "textured" << said(renderer.picked(*options.pick)) << '\n';
        if (!options.output.empty())
            write_picture(options.output, options.width, options.height, renderer.canvas().pixels(TRIRAST_FORMAT_RGB8));
        return 0;
    } catch (const std::exception &error) {
        std::cerr << "textured: " << error.what() << '\n';
        return 1;
    }
}
