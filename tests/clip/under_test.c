#include "under_test.h"

trirast_clip_status clip_under_test(const trirast_clip *clip, const trirast_clip_position *positions,
                                    size_t position_count, const uint32_t *indices, size_t index_count,
                                    trirast_clipped *out) {
    return trirast_clip_triangles(clip, positions, position_count, indices, index_count, out);
}

trirast_clip_status begin_under_test(const trirast_clip *clip, trirast_clipping *view) {
    return trirast_clipping_begin(clip, view);
}

unsigned marks_under_test(const trirast_clipping *view, const double place[4]) {
    return trirast_clipping_marks(view, place);
}

double distance_under_test(const trirast_clipping_plane *plane, const double place[4]) {
    return trirast_clipping_distance(plane, place);
}

trirast_clipping_corner cut_under_test(const trirast_clipping_plane *plane, const trirast_clipping_corner *one,
                                       const trirast_clipping_corner *other) {
    return trirast_clipping_cut(plane, one, other);
}

size_t ears_under_test(const trirast_vertex *corners, size_t count, uint8_t *triangles) {
    trirast_clipping_ears ears = trirast_clipping_ears_of(corners, count);
    size_t folds = 0;
    while (ears.left > 2) {
        trirast_clipping_next_ear(&ears, triangles, &folds);
        triangles += 3;
    }
    return folds;
}
