/* What in_c.c has of trirast_shade.h. */
#ifndef IN_C_H
#define IN_C_H

#include "trirast_shade.h"

#ifdef __cplusplus
extern "C" {
#endif

/* A shader whose colours are 127.5 and `size` times numbers 2 to 4 of the vertices: by weights, or by their difference
 * to the right (by = 1) or below (by = 2). */
typedef struct {
    trirast_shade_attributes attributes;
    int by;
    float size;
} normals_user;
void normals_in_c(const trirast_shade_fragments *at, trirast_shade_colors *out, void *user);
void set_cuts_in_c(const trirast_clipped *seen, size_t position_count, const uint32_t *indices, size_t count,
                   float *values);

void weigh_in_c(const trirast_shade_triangle *triangles, trirast_shade_fragments *at);
void edges_in_c(const trirast_shade_triangle *triangle, int32_t x, int32_t y, float edges[3]);
trirast_status shade_tile_in_c(trirast_canvas *canvas, uint32_t column, uint32_t row, const trirast_shade *shade,
                               uint32_t *entries, size_t count);
trirast_status shade_rows_in_c(trirast_canvas *canvas, const trirast_shade *shade, uint32_t *entries, size_t count);

#ifdef __cplusplus
}
#endif

#endif
