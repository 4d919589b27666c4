// Draws the frames of a draw list on a canvas by threads, and writes the picture to standard output as a PPM file.
//
//     frames [--frames 1] [--workers 1] [--batch TRIANGLES] < list.json > picture.ppm
//
// A frame is one batch, or batches of at most --batch triangles; it goes from its clear to the pixels in memory.
// The least time of a frame goes to standard error. ../../bench/draw_list.hpp reads the list and trusts it:
// triangles without strips and quads, as the benchmark's scenes are. bench/canvas.py times this program beside the
// program of crates/frames.
//
//     c++ -std=c++17 -O2 -I ../../bench frames.cpp $(pkg-config --cflags --libs trirast) -pthread
#include <algorithm>
#include <chrono>
#include <cstdint>
#include <cstdlib>
#include <cstring>
#include <exception>
#include <iostream>
#include <vector>

#include "draw_list.hpp"
#include "trirast.hpp"

namespace {

struct Options {
    std::uint32_t frames = 1, workers = 1, batch = UINT32_MAX;
};

// The arrays of a list, and the batches of a frame over them.
struct Arrays {
    std::vector<trirast_draw> draws;
    std::vector<trirast_vertex> vertices;
    std::vector<std::uint32_t> indices;
    std::vector<trirast_batch> batches;
};

trirast_draw draw_of(const Draw &draw) {
    const State &state = draw.state;
    trirast_draw found = {};
    found.vertex_count = draw.vertices.size(), found.index_count = 3 * draw.triangles.size();
    found.cull = static_cast<std::uint8_t>(state.cull);
    // The numbers of a list's tests begin with never and end with always, which is 0 here.
    found.depth_test = static_cast<std::uint8_t>((static_cast<int>(state.test) + 1) % 8);
    found.depth_write = state.depth_write, found.blend = state.over ? trirast::blend_over : trirast::blend_none;
    for (int channel = 0; channel < 3; channel++)
        if (!state.write[channel]) found.keep = static_cast<std::uint8_t>(found.keep | TRIRAST_KEEP_RED << channel);
    found.skip_samples = static_cast<std::uint16_t>(~state.mask), found.scissor_enable = 1;
    found.scissor_left = state.scissor[0], found.scissor_top = state.scissor[1];
    found.scissor_right = state.scissor[2], found.scissor_bottom = state.scissor[3];
    return found;
}

trirast_vertex vertex_of(const Vertex &v) {
    const auto byte = [&v](int channel) { return static_cast<std::uint8_t>(v.rgba[channel]); };
    return {v.x, v.y, static_cast<std::uint16_t>(v.z), byte(0), byte(1), byte(2), byte(3), 0};
}

// A draw without triangles has no vertices either, which would be drawn in their order if no draw had triangles.
void add(Arrays &arrays, const Draw &draw) {
    if (draw.triangles.empty()) return;
    arrays.draws.push_back(draw_of(draw));
    for (const Vertex &vertex : draw.vertices) arrays.vertices.push_back(vertex_of(vertex));
    for (const auto &triangle : draw.triangles)
        arrays.indices.insert(arrays.indices.end(), triangle.begin(), triangle.end());
}

trirast_batch batch_of(const trirast_draw *draws, std::size_t draw_count, const trirast_vertex *vertices,
                       std::size_t vertex_count, const std::uint32_t *indices, std::size_t index_count) {
    trirast_batch batch = {};
    batch.draws = draws, batch.draw_count = draw_count, batch.vertices = vertices, batch.vertex_count = vertex_count;
    batch.indices = indices, batch.index_count = index_count;
    return batch;
}

// One batch, or one for each `most` triangles of a draw, all over the same arrays.
void split(Arrays &arrays, std::uint32_t most) {
    if (most == UINT32_MAX) {
        arrays.batches.push_back(batch_of(arrays.draws.data(), arrays.draws.size(), arrays.vertices.data(),
                                          arrays.vertices.size(), arrays.indices.data(), arrays.indices.size()));
        return;
    }
    const std::size_t each = 3 * std::size_t{most};
    std::vector<trirast_draw> cut;
    for (const trirast_draw &draw : arrays.draws)
        for (std::size_t first = 0; first < draw.index_count; first += each) {
            cut.push_back(draw);
            cut.back().index_count = std::min(each, draw.index_count - first);
        }
    std::size_t vertex = 0, index = 0, next = 0;
    for (const trirast_draw &draw : arrays.draws) {
        const std::size_t end = index + draw.index_count;
        for (; index < end; index += cut[next++].index_count)
            arrays.batches.push_back(batch_of(&cut[next], 1, &arrays.vertices[vertex], draw.vertex_count,
                                              &arrays.indices[index], cut[next].index_count));
        vertex += draw.vertex_count;
    }
    arrays.draws.swap(cut);
}

// A picture in memory, with the canvas on which it is drawn.
class Picture {
public:
    Picture(const Scene &scene, std::uint32_t workers)
        : canvas_({static_cast<std::uint32_t>(scene.width), static_cast<std::uint32_t>(scene.height),
                   static_cast<std::uint32_t>(scene.samples)}),
          workers_(workers), stride_(3 * std::size_t{canvas_.width()}), pixels_(stride_ * canvas_.height()),
          clear_{scene.clear.c[0], scene.clear.c[1], scene.clear.c[2], 255, scene.clear.z} {}

    // Each thread has tile rows of its own, and their pixels.
    void draw(const std::vector<trirast_batch> &batches) {
        canvas_.share(workers_, [this, &batches](trirast::TileRows &part) {
            part.clear(clear_);
            for (const trirast_batch &batch : batches) part.draw_batch(batch);
            part.resolve(TRIRAST_FORMAT_RGB8, {pixels_.data() + stride_ * part.top(), stride_ * part.height()});
        });
    }

    const std::vector<std::uint8_t> &pixels() const { return pixels_; }

private:
    trirast::Canvas canvas_;
    std::uint32_t workers_;
    std::size_t stride_;
    std::vector<std::uint8_t> pixels_;
    trirast::Clear clear_;
};

bool parse(int count, char **words, Options &options) {
    for (int k = 1; k < count; k += 2) {
        std::uint32_t *value = !std::strcmp(words[k], "--frames")    ? &options.frames
                               : !std::strcmp(words[k], "--workers") ? &options.workers
                               : !std::strcmp(words[k], "--batch")   ? &options.batch
                                                                     : nullptr;
        if (!value || k + 1 == count) return false;
        const int number = std::atoi(words[k + 1]);
        if (number < 1 || number > 1000000) return false;
        *value = static_cast<std::uint32_t>(number);
    }
    return true;
}

double milliseconds(Picture &picture, const std::vector<trirast_batch> &batches) {
    const auto begun = std::chrono::steady_clock::now();
    picture.draw(batches);
    return std::chrono::duration<double, std::milli>(std::chrono::steady_clock::now() - begun).count();
}

}  // namespace

int main(int count, char **words) {
    Options options;
    if (!parse(count, words, options)) {
        std::cerr << "usage: frames [--frames N] [--workers N] [--batch TRIANGLES] < list.json > picture.ppm\n";
        return 2;
    }
    try {
        const Scene scene = read_standard_input();
        Arrays arrays;
        for (const Draw &draw : scene.draws) add(arrays, draw);
        split(arrays, options.batch);
        Picture picture(scene, options.workers);
        double least = milliseconds(picture, arrays.batches);
        for (std::uint32_t k = 1; k < options.frames; k++)
            least = std::min(least, milliseconds(picture, arrays.batches));
        std::cout << "P6\n" << scene.width << ' ' << scene.height << "\n255\n";
        std::cout.write(reinterpret_cast<const char *>(picture.pixels().data()),
                        static_cast<std::streamsize>(picture.pixels().size()));
        std::cerr << "least_ms " << least << '\n';
        return std::cout.flush() ? 0 : 1;
    } catch (const std::exception &error) {
        std::cerr << "frames: " << error.what() << '\n';
        return 1;
    }
}
