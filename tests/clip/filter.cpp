// The filter by trirast_clip.hpp. One result serves all tasks, as it would all frames. Tasks are clipped in 1 to 5
// parts by turns, the last part first.
#include "filter.h"
#include "trirast_clip.hpp"

static trirast::Clipped result;

static void clip_task(const task *now) {
    static std::size_t parts = 0;
    parts = parts % 5 + 1;
    const auto each = [](std::size_t count, const auto &job) {
        while (count > 0) job(--count);
    };
    trirast::clip_triangles(now->clip, {now->positions, now->position_count}, {now->indices, now->index_count}, result,
                            parts, each);
    trirast_clipped out{};
    out.vertices = result.vertices.data(), out.w = result.w.data(), out.cuts = result.cuts.data();
    out.indices = result.indices.data(), out.sources = result.sources.data(), out.folded = result.folded;
    out.cut_count = result.cuts.size(), out.triangle_count = result.sources.size();
    if (result.vertices.size() != result.first_cut + out.cut_count || result.w.size() != result.vertices.size())
        std::exit(1);
    answer(&out, result.first_cut);
}
