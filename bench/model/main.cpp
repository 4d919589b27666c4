// A fast rasterizer of the same rules in C++, to compare trirast's speed with. Nothing of it is proved.
//
// It draws as trirast does: bins, tiles of blocks of 8 by 8 pixels, coverage and values in lanes. So it shows what such
// a program takes without contracts. bench/draw_list.hpp reads the list, and trusts it. A frame goes from the list that
// was read to the pixels in memory. The picture goes to standard output, and the time of the fastest frame to standard
// error. With COUNT_GROUPS, which bench/limits.py defines, it also counts the groups of sixteen samples that one frame
// by one worker meets.
//
//     make model
//     bench/out/model [--frames 1] [--workers 1] [--tile 32] < list.json > picture.ppm

#include <algorithm>
#include <chrono>
#include <cstdio>
#include <cstdlib>
#include <cstring>

#include "frame.hpp"

namespace {

struct Options {
    int frames = 1, workers = 1, tile = 32;
};

bool parse(int count, char** words, Options& options) {
    for (int k = 1; k < count; k += 2) {
        int* value = !std::strcmp(words[k], "--frames")    ? &options.frames
                     : !std::strcmp(words[k], "--workers") ? &options.workers
                     : !std::strcmp(words[k], "--tile")    ? &options.tile
                                                           : nullptr;
        if (!value || k + 1 == count) return false;
        *value = std::atoi(words[k + 1]);
    }
    int tile = options.tile;
    return options.frames >= 1 && options.workers >= 1 && (tile == 8 || tile == 16 || tile == 32 || tile == 64);
}

double milliseconds(Frame& frame) {
    auto begin = std::chrono::steady_clock::now();
    frame.draw();
    return std::chrono::duration<double, std::milli>(std::chrono::steady_clock::now() - begin).count();
}

#ifdef COUNT_GROUPS
void print_counts() {
    for (const GroupCount& count : group_counts())
        std::fprintf(stderr, "depths %d colours %d over %d whole %d stores_depth %d met %llu drawn %llu samples %llu\n",
                     static_cast<int>(count.depths), static_cast<int>(count.colours), count.over, count.whole,
                     count.stores_depth, static_cast<unsigned long long>(count.met),
                     static_cast<unsigned long long>(count.drawn), static_cast<unsigned long long>(count.samples));
}
#endif

bool write(const Scene& scene, const std::vector<uint8_t>& pixels) {
    std::printf("P6\n%d %d\n255\n", scene.width, scene.height);
    return std::fwrite(pixels.data(), 1, pixels.size(), stdout) == pixels.size() && std::fflush(stdout) == 0;
}

}  // namespace

int main(int count, char** words) {
    Options options;
    if (!parse(count, words, options)) {
        std::fputs("usage: model [--frames N] [--workers N] [--tile 8|16|32|64] < list.json > picture.ppm\n", stderr);
        return 2;
    }
    const Scene scene = read_standard_input();
    Frame frame(scene, options.tile, options.workers);
    double least = milliseconds(frame);
    for (int k = 1; k < options.frames; ++k) least = std::min(least, milliseconds(frame));
    if (!write(scene, frame.pixels())) fail("write failed");
    std::fprintf(stderr, "least_ms %.3f\n", least);
#ifdef COUNT_GROUPS
    print_counts();
#endif
    return 0;
}
