/* The filter by trirast_clip.h, with arrays that are as large as they may have to be. */
#include "filter.h"

static void clip_task(const task *now) {
    const size_t most = now->index_count / 3 * TRIRAST_CLIP_MAX_CORNERS, vertices = now->position_count + most;
    trirast_clipped out = {0};
    out.vertices = memory_of(vertices, sizeof *out.vertices), out.w = memory_of(vertices, sizeof *out.w);
    out.marks = memory_of(now->position_count, sizeof *out.marks), out.cuts = memory_of(most, sizeof *out.cuts);
    out.indices = memory_of(3 * most, sizeof *out.indices), out.sources = memory_of(most, sizeof *out.sources);
    out.cut_capacity = out.triangle_capacity = most;
    if (trirast_clip_triangles(&now->clip, now->positions, now->position_count, now->indices, now->index_count, &out))
        exit(1);
    answer(&out, now->position_count);
    free(out.vertices), free(out.w), free(out.marks), free(out.cuts), free(out.indices), free(out.sources);
}
