// Draws two batches over one canvas by two threads, and writes the picture to standard output as a PPM file.
//
//     c++ -std=c++17 -O2 canvas.cpp $(pkg-config --cflags --libs trirast) -pthread
#include <cstdint>
#include <exception>
#include <iostream>
#include <vector>

#include "trirast.hpp"

static constexpr std::uint32_t WIDTH = 320, HEIGHT = 240, SAMPLES = 4, THREADS = 2;

// A vertex at a pixel's corner.
static trirast_vertex at(std::int32_t x, std::int32_t y, std::uint16_t depth, const trirast::Clear &color) {
    return {256 * x, 256 * y, depth, color.red, color.green, color.blue, color.alpha, 0};
}

// Draws on some tile rows. No other thread uses these.
static void draw_share(trirast::TileRows &rows) {
    const trirast_vertex solid[] = {
        at(160, 10, 1000, {255, 0, 0}), at(310, 200, 30000, {0, 255, 0}), at(10, 230, 60000, {0, 0, 255})};
    const trirast_vertex glass[] = {at(0, 40, 20000, {255, 255, 255, 200}), at(320, 100, 20000, {255, 255, 0, 90}),
                                    at(40, 200, 20000, {0, 255, 255, 30})};

    rows.clear({24, 24, 32});
    trirast::State state;
    state.depth_test = TRIRAST_DEPTH_LESS, state.depth_write = true;
    rows.draw(solid, {}, state);
    state.blend = trirast::blend_over, state.depth_write = false;
    rows.draw(glass, {}, state);
}

int main() {
    try {
        trirast::Canvas canvas({WIDTH, HEIGHT, SAMPLES});
        canvas.share(THREADS, draw_share);
        const std::vector<std::uint8_t> pixels = canvas.pixels();
        std::cout << "P6\n" << WIDTH << ' ' << HEIGHT << "\n255\n";
        std::cout.write(reinterpret_cast<const char *>(pixels.data()), static_cast<std::streamsize>(pixels.size()));
        return std::cout.flush() ? 0 : 1;
    } catch (const std::exception &error) {
        std::cerr << error.what() << '\n';
        return 1;
    }
}
