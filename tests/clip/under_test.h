/* The calls of trirast_clip.h as functions of a program, so that a wrong edit of the header compiles under_test.c
 * alone. */
#ifndef UNDER_TEST_H
#define UNDER_TEST_H

#include "trirast_clip.h"

#ifdef __cplusplus
extern "C" {
#endif

trirast_clip_status clip_under_test(const trirast_clip *clip, const trirast_clip_position *positions,
                                    size_t position_count, const uint32_t *indices, size_t index_count,
                                    trirast_clipped *out);
trirast_clip_status begin_under_test(const trirast_clip *clip, trirast_clipping *view);
unsigned marks_under_test(const trirast_clipping *view, const double place[4]);
double distance_under_test(const trirast_clipping_plane *plane, const double place[4]);
trirast_clipping_corner cut_under_test(const trirast_clipping_plane *plane, const trirast_clipping_corner *one,
                                       const trirast_clipping_corner *other);

/* Cuts a polygon of at most TRIRAST_CLIP_MAX_CORNERS into triangles, and writes the corners of each. Returns the folds.
 */
size_t ears_under_test(const trirast_vertex *corners, size_t count, uint8_t *triangles);

#ifdef __cplusplus
}
#endif

#endif
