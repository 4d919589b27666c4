// Times frames of a scene by a canvas with deferred shading, and by llvmpipe with the same triangles, texels and
// shader. Frames alternate in one run. bench/shading.py builds and runs it.
//
//     shading [--scene ring] [--threads 1] [--frames 9] [--width 1280] [--height 720] [--seed 1] [--picture FILE.ppm]
//
// A frame goes from the vertices of the model to resolved pixels in memory: four samples a pixel, textured triangles
// with a depth test, and panes of glass blended over them. For each rate a line of names and numbers goes to standard
// output: the least wall and processor times of a frame by both, in milliseconds, and the least processor times of the
// parts of ours, in frames that do them one after another. `plain` is shading by one colour: reading ids, finding
// pairs, storing colours. `twice` is the processor time of a frame in which each tile is read by
// trirast_canvas_tile_ids and stored by trirast_canvas_tile_store once more, right behind its shading. What it takes
// longer is what both take beside waiting for the memory of the tile, for which any shading has to wait.
#include <algorithm>
#include <chrono>
#include <cstdio>
#include <cstdlib>
#include <cstring>
#include <string>
#include <vector>

#include <time.h>

#include "frame.hpp"
#include "shading_gl.hpp"
#include "trirast_frame.hpp"

namespace {

using Clock = std::chrono::steady_clock;

// Processor time of all threads of the process, in milliseconds.
double processor() {
    timespec now;
    clock_gettime(CLOCK_PROCESS_CPUTIME_ID, &now);
    return 1e3 * static_cast<double>(now.tv_sec) + 1e-6 * static_cast<double>(now.tv_nsec);
}

double milliseconds(Clock::time_point begin) {
    return std::chrono::duration<double, std::milli>(Clock::now() - begin).count();
}

struct Times {
    double setup = 0, ids = 0, shading = 0, glass = 0, resolve = 0;
};

void keep_least(Times &least, const Times &times, bool first) {
    const auto keep = [&](double &a, double b) { a = first ? b : std::min(a, b); };
    keep(least.setup, times.setup), keep(least.ids, times.ids), keep(least.shading, times.shading),
        keep(least.glass, times.glass), keep(least.resolve, times.resolve);
}

trirast::Canvas canvas_of(std::uint32_t width, std::uint32_t height) {
    trirast::CanvasOptions options;
    options.width = width, options.height = height, options.samples = 4;
    return trirast::Canvas(options);
}

// Frames on a canvas.
class Ours {
public:
    Ours(const scene::Model &model, std::uint32_t width, std::uint32_t height, unsigned threads)
        : model_(model), canvas_(canvas_of(width, height)), rows_(canvas_, threads), pool_(threads),
          pixels_(4 * std::size_t{width} * height) {}

    // The processor times of the parts of a frame, one after another.
    Times parts(trirast::Rate rate, bool is_plain) {
        Times found;
        double last = processor();
        const auto next = [&](double &part) {
            part = processor() - last;
            last += part;
        };
        set_up();
        next(found.setup);
        rows_.draw_ids(seen_, pool_);
        next(found.ids);
        if (is_plain)
            shade(rate,
                  [](const trirast::Fragments &, trirast::Colors &out) { out.red = out.green = out.blue = 99.0f; });
        else
            shade(rate, seen_.shader(model_));
        next(found.shading);
        rows_.each_part(pool_, [&](trirast::TileRows &rows) { scene::draw_glass(rows, seen_); });
        next(found.glass);
        rows_.each_part(pool_, [&](const trirast::TileRows &rows) { resolve(rows); });
        next(found.resolve);
        return found;
    }

    // A frame whose parts are timed together: wall and processor time. If `is_twice`, the two calls of a tile are made
    // once more behind its shading, which leaves the same samples.
    std::pair<double, double> frame(trirast::Rate rate, bool is_twice = false) {
        const double spent = processor();
        const Clock::time_point begin = Clock::now();
        set_up();
        const scene::Textured shader = seen_.shader(model_);
        const auto shade = [&](trirast::TileRows &rows, std::uint32_t column, std::uint32_t row, const auto *own) {
            shade_tile(rows, column, row, own, rate, shader);
            if (is_twice) read_and_store(rows, column, row);
        };
        rows_.draw(seen_, pool_, shade, [this](trirast::TileRows &rows) {
            scene::draw_glass(rows, seen_);
            resolve(rows);
        });
        return {milliseconds(begin), processor() - spent};
    }

    const std::vector<std::uint8_t> &pixels() const { return pixels_; }
    const scene::Seen &seen() const { return seen_; }

private:
    template <class Job>
    void each_tile(const Job &job) {
        const std::uint32_t columns = trirast::tile_columns(canvas_);
        pool_(std::size_t{columns} * canvas_.end(), [&](std::size_t k) {
            const std::uint32_t tile = static_cast<std::uint32_t>(k);
            job(tile % columns, tile / columns);
        });
    }

    void set_up() {
        const trirast::Clip clip =
            scene::clip_of(static_cast<std::int32_t>(canvas_.width()), static_cast<std::int32_t>(canvas_.height()));
        seen_.project(model_, model_.scene.matrix, clip, pool_.threads(), pool_);
        seen_.prepare(model_, pool_.threads(), pool_);
    }

    // The two calls of a tile, without shading between them: what is read is stored again.
    static void read_and_store(trirast::TileRows &rows, std::uint32_t column, std::uint32_t row) {
        thread_local trirast::TileEntries entries;
        trirast_canvas canvas = rows.in_c();
        std::uint32_t uniform = 0;
        entries.resize(64 * 64 * 4);
        trirast_canvas_tile_ids(&canvas, column, row, entries.data(), entries.size(), &uniform);
        trirast_canvas_tile_store(&canvas, column, row, entries.data(), uniform ? 1 : entries.size());
    }

    template <class Shader>
    void shade_tile(trirast::TileRows &rows, std::uint32_t column, std::uint32_t row, const trirast::RowTriangles *own,
                    trirast::Rate rate, const Shader &shader) {
        thread_local trirast::TileEntries entries;
        trirast::shade_tile(rows, column, row, seen_.triangles, rate, scene::background(model_.scene), shader, entries,
                            own);
    }

    template <class Shader>
    void shade(trirast::Rate rate, const Shader &shader) {
        each_tile([&](std::uint32_t column, std::uint32_t row) {
            shade_tile(canvas_, column, row, rows_.own(row), rate, shader);
        });
    }

    void resolve(const trirast::TileRows &rows) {
        const std::size_t stride = 4 * std::size_t{rows.width()};
        rows.resolve(TRIRAST_FORMAT_RGBA8, {&pixels_[stride * rows.top()], stride * rows.height()}, stride);
    }

    const scene::Model &model_;
    trirast::Canvas canvas_;
    scene::SharedRows rows_;
    scene::Seen seen_;
    trirast::Pool pool_;
    std::vector<std::uint8_t> pixels_;
};

// Frames by llvmpipe.
class Theirs {
public:
    Theirs(const scene::Model &model, int width, int height)
        : width_(width), height_(height), background_(model.scene.background),
          pixels_(4 * static_cast<std::size_t>(width) * static_cast<std::size_t>(height)) {
        static const char *const solid_vertex = R"(#version 450 core
layout(location = 0) in vec3 position;
layout(location = 1) in vec2 place;
layout(location = 2) in vec3 normal;
uniform mat4 matrix;
out vec2 uv;
out vec3 n;
void main() { gl_Position = matrix * vec4(position, 1.0); uv = place; n = normal; }
)";
        static const char *const solid_fragment = R"(#version 450 core
in vec2 uv;
in vec3 n;
uniform sampler2D texels;
uniform vec3 light;
uniform float ambient;
out vec4 color;
void main() {
    float facing = max(dot(normalize(n), light), 0.0);
    color = vec4(texture(texels, uv).rgb * (ambient + (1.0 - ambient) * facing), 1.0);
}
)";
        static const char *const glass_vertex = R"(#version 450 core
layout(location = 0) in vec3 position;
layout(location = 1) in vec4 tint;
uniform mat4 matrix;
flat out vec4 pane;
void main() { gl_Position = matrix * vec4(position, 1.0); pane = tint; }
)";
        static const char *const glass_fragment = R"(#version 450 core
flat in vec4 pane;
out vec4 color;
void main() { color = pane; }
)";
        solid_ = gl::program(solid_vertex, solid_fragment), glass_ = gl::program(glass_vertex, glass_fragment);
        glUseProgram(glass_);
        glUniformMatrix4fv(glGetUniformLocation(glass_, "matrix"), 1, GL_TRUE, model.scene.matrix.rows.data());
        glUseProgram(solid_);
        glUniformMatrix4fv(glGetUniformLocation(solid_, "matrix"), 1, GL_TRUE, model.scene.matrix.rows.data());
        const scene::Vector light = model.scene.light;
        glUniform3f(glGetUniformLocation(solid_, "light"), static_cast<float>(light.x), static_cast<float>(light.y),
                    static_cast<float>(light.z));
        glUniform1f(glGetUniformLocation(solid_, "ambient"), static_cast<float>(model.scene.ambient));

        glGenVertexArrays(2, arrays_);
        glBindVertexArray(arrays_[0]);
        gl::buffer(GL_ARRAY_BUFFER, model.scene.mesh.vertices);
        gl::buffer(GL_ELEMENT_ARRAY_BUFFER, model.scene.mesh.indices);
        attribute(0, 3, GL_FLOAT, sizeof(scene::Vertex), 0), attribute(1, 2, GL_FLOAT, sizeof(scene::Vertex), 12),
            attribute(2, 3, GL_FLOAT, sizeof(scene::Vertex), 20);
        count_ = static_cast<GLsizei>(model.scene.mesh.indices.size());
        glBindVertexArray(arrays_[1]);
        struct Corner {
            float x, y, z;
            std::uint8_t color[4];
        };
        std::vector<Corner> corners;
        for (std::size_t k = 0; k < model.glass_points.size(); k++) {
            const scene::Vector &p = model.glass_points[k];
            const auto &c = model.glass_colors[k];
            corners.push_back(
                {static_cast<float>(p.x), static_cast<float>(p.y), static_cast<float>(p.z), {c[0], c[1], c[2], c[3]}});
        }
        gl::buffer(GL_ARRAY_BUFFER, corners);
        gl::buffer(GL_ELEMENT_ARRAY_BUFFER, model.glass_indices);
        attribute(0, 3, GL_FLOAT, sizeof(Corner), 0), attribute(1, 4, GL_UNSIGNED_BYTE, sizeof(Corner), 12);
        glass_count_ = static_cast<GLsizei>(model.glass_indices.size());

        GLuint texture;
        glGenTextures(1, &texture);
        glBindTexture(GL_TEXTURE_2D, texture);
        std::uint32_t side = model.scene.texture.side;
        for (std::size_t level = 0; level < model.scene.texture.levels.size(); level++, side /= 2)
            glTexImage2D(GL_TEXTURE_2D, static_cast<GLint>(level), GL_RGBA8, static_cast<GLsizei>(side),
                         static_cast<GLsizei>(side), 0, GL_RGBA, GL_UNSIGNED_BYTE,
                         model.scene.texture.levels[level].data());
        glTexParameteri(GL_TEXTURE_2D, GL_TEXTURE_MIN_FILTER, GL_LINEAR_MIPMAP_LINEAR);
        glTexParameteri(GL_TEXTURE_2D, GL_TEXTURE_MAG_FILTER, GL_LINEAR);

        glGenFramebuffers(2, frames_);
        glBindFramebuffer(GL_FRAMEBUFFER, frames_[1]);
        glFramebufferRenderbuffer(GL_FRAMEBUFFER, GL_COLOR_ATTACHMENT0, GL_RENDERBUFFER,
                                  gl::renderbuffer(GL_RGBA8, 0, width, height));
        glBindFramebuffer(GL_FRAMEBUFFER, frames_[0]);
        glFramebufferRenderbuffer(GL_FRAMEBUFFER, GL_COLOR_ATTACHMENT0, GL_RENDERBUFFER,
                                  gl::renderbuffer(GL_RGBA8, 4, width, height));
        glFramebufferRenderbuffer(GL_FRAMEBUFFER, GL_DEPTH_ATTACHMENT, GL_RENDERBUFFER,
                                  gl::renderbuffer(GL_DEPTH_COMPONENT16, 4, width, height));
        gl::require(glCheckFramebufferStatus(GL_FRAMEBUFFER) == GL_FRAMEBUFFER_COMPLETE, "no frame with four samples");
        GLint samples = 0;
        glGetIntegerv(GL_SAMPLES, &samples);
        gl::require(samples == 4, "another number of samples");
        // The first row of pixels is the uppermost one, and z / w is 0 at the near plane.
        glClipControl(GL_UPPER_LEFT, GL_ZERO_TO_ONE);
        glViewport(0, 0, width, height);
        glEnable(GL_DEPTH_TEST), glEnable(GL_MULTISAMPLE);
        glDepthFunc(GL_LESS), glDisable(GL_DITHER), glMinSampleShading(1);
        glBlendFunc(GL_SRC_ALPHA, GL_ONE_MINUS_SRC_ALPHA);
        gl::check();
    }

    // Wall and processor time.
    std::pair<double, double> frame(bool each_sample) {
        const double spent = processor();
        const auto begin = Clock::now();
        glBindFramebuffer(GL_FRAMEBUFFER, frames_[0]);
        glClearColor(background_[0] / 255.0f, background_[1] / 255.0f, background_[2] / 255.0f, 1);
        glDepthMask(GL_TRUE), glDisable(GL_BLEND);
        (each_sample ? glEnable : glDisable)(GL_SAMPLE_SHADING);
        glClear(GL_COLOR_BUFFER_BIT | GL_DEPTH_BUFFER_BIT);
        glUseProgram(solid_), glBindVertexArray(arrays_[0]);
        glDrawElements(GL_TRIANGLES, count_, GL_UNSIGNED_INT, nullptr);
        glDisable(GL_SAMPLE_SHADING), glEnable(GL_BLEND), glDepthMask(GL_FALSE);
        glUseProgram(glass_), glBindVertexArray(arrays_[1]);
        glDrawElements(GL_TRIANGLES, glass_count_, GL_UNSIGNED_INT, nullptr);
        glBindFramebuffer(GL_READ_FRAMEBUFFER, frames_[0]), glBindFramebuffer(GL_DRAW_FRAMEBUFFER, frames_[1]);
        glBlitFramebuffer(0, 0, width_, height_, 0, 0, width_, height_, GL_COLOR_BUFFER_BIT, GL_NEAREST);
        glBindFramebuffer(GL_READ_FRAMEBUFFER, frames_[1]);
        glReadPixels(0, 0, width_, height_, GL_RGBA, GL_UNSIGNED_BYTE, pixels_.data());
        const std::pair<double, double> found{milliseconds(begin), processor() - spent};
        gl::check();
        return found;
    }

    const std::vector<std::uint8_t> &pixels() const { return pixels_; }

private:
    static void attribute(GLuint index, GLint size, GLenum kind, std::size_t stride, std::size_t first) {
        glVertexAttribPointer(index, size, kind, kind == GL_UNSIGNED_BYTE, static_cast<GLsizei>(stride),
                              reinterpret_cast<const void *>(first));
        glEnableVertexAttribArray(index);
    }

    int width_, height_;
    std::array<std::uint8_t, 3> background_;
    GLuint solid_ = 0, glass_ = 0, arrays_[2] = {}, frames_[2] = {};
    GLsizei count_ = 0, glass_count_ = 0;
    std::vector<std::uint8_t> pixels_;
};

double far_pixels(const std::vector<std::uint8_t> &a, const std::vector<std::uint8_t> &b) {
    std::size_t far = 0;
    for (std::size_t k = 0; k < a.size(); k += 4) {
        int most = 0;
        for (std::size_t c = 0; c < 3; c++) most = std::max(most, std::abs(int{a[k + c]} - int{b[k + c]}));
        far += most > 4;
    }
    return 400.0 * static_cast<double>(far) / static_cast<double>(a.size());
}

void write_picture(const std::string &path, const std::vector<std::uint8_t> &pixels, int width, int height) {
    std::FILE *file = std::fopen(path.c_str(), "wb");
    if (!file) throw std::runtime_error("cannot write " + path);
    std::fprintf(file, "P6\n%d %d\n255\n", width, height);
    for (std::size_t k = 0; k < pixels.size(); k += 4) std::fwrite(&pixels[k], 1, 3, file);
    std::fclose(file);
}

struct Options {
    std::string scene = "ring", picture;
    unsigned threads = 1;
    int frames = 9, width = 1280, height = 720;
    std::uint64_t seed = 1;
};

Options read_options(int count, char **words) {
    Options found;
    for (int k = 1; k + 1 < count; k += 2) {
        const std::string key = words[k], value = words[k + 1];
        if (key == "--scene")
            found.scene = value;
        else if (key == "--threads")
            found.threads = static_cast<unsigned>(std::stoul(value));
        else if (key == "--frames")
            found.frames = std::stoi(value);
        else if (key == "--width")
            found.width = std::stoi(value);
        else if (key == "--height")
            found.height = std::stoi(value);
        else if (key == "--seed")
            found.seed = std::stoull(value);
        else if (key == "--picture")
            found.picture = value;
        else
            throw std::invalid_argument("no option " + key);
    }
    return found;
}

// The frames of one rate, by turns.
void time_rate(Ours &ours, Theirs &theirs, trirast::Rate rate, const Options &options) {
    const bool each_sample = rate == trirast::Rate::sample;
    Times least, plain;
    double our_wall = 0, our_processor = 0, their_wall = 0, their_processor = 0, twice = 0;
    for (int k = 0; k < options.frames; k++) {
        const auto keep = [k](double &a, double b) { a = k == 0 ? b : std::min(a, b); };
        keep_least(plain, ours.parts(rate, true), k == 0);
        keep_least(least, ours.parts(rate, false), k == 0);
        const auto [wall, spent] = ours.frame(rate);
        keep(our_wall, wall), keep(our_processor, spent);
        keep(twice, ours.frame(rate, true).second);
        const auto [theirs_wall, theirs_spent] = theirs.frame(each_sample);
        keep(their_wall, theirs_wall), keep(their_processor, theirs_spent);
    }
    std::printf("rate %s wall %.3f processor %.3f their_wall %.3f their_processor %.3f setup %.3f ids %.3f shading "
                "%.3f plain %.3f twice %.3f "
                "glass %.3f resolve %.3f far %.3f triangles %zu cuts %zu\n",
                each_sample ? "sample" : "pixel", our_wall, our_processor, their_wall, their_processor,
                least.setup, least.ids, least.shading, plain.shading, twice, least.glass, least.resolve,
                far_pixels(ours.pixels(), theirs.pixels()), ours.seen().mesh.sources.size(),
                ours.seen().mesh.cuts.size());
    if (options.picture.empty() || each_sample) return;
    write_picture(options.picture, ours.pixels(), options.width, options.height);
    write_picture(options.picture + ".llvmpipe.ppm", theirs.pixels(), options.width, options.height);
}

} // namespace

int main(int count, char **words) {
    try {
        const Options options = read_options(count, words);
        std::setvbuf(stdout, nullptr, _IOLBF, 0);
        gl::open(options.threads);
        const scene::Scene given =
            scene::made(options.scene, options.seed, static_cast<double>(options.width) / options.height);
        const scene::Model model(given);
        Ours ours(model, static_cast<std::uint32_t>(options.width), static_cast<std::uint32_t>(options.height),
                  options.threads);
        Theirs theirs(model, options.width, options.height);
        std::printf("renderer %s\n", gl::renderer().c_str());
        ours.frame(trirast::Rate::pixel), theirs.frame(false),
            theirs.frame(true); // compiles shaders, touches memory
        for (const trirast::Rate rate : {trirast::Rate::pixel, trirast::Rate::sample})
            time_rate(ours, theirs, rate, options);
        return 0;
    } catch (const std::exception &error) {
        std::fprintf(stderr, "shading: %s\n", error.what());
        return 2;
    }
}
