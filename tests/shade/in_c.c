/* trirast_shade.h, compiled as C99, for the tests in C++. */
#include "in_c.h"

void normals_in_c(const trirast_shade_fragments *at, trirast_shade_colors *out, void *user) {
    const normals_user *normals = user;
    float *const channels[3] = {out->red, out->green, out->blue};
    for (size_t c = 0; c < 3; c++) {
        trirast_shade_value(&normals->attributes, 2 + c, at,
                            normals->by == 0   ? at->weight
                            : normals->by == 1 ? at->right
                                               : at->down,
                            channels[c]);
        for (size_t lane = 0; lane < TRIRAST_SHADE_LANES; lane++)
            channels[c][lane] = 127.5f + normals->size * channels[c][lane];
    }
}

void set_cuts_in_c(const trirast_clipped *seen, size_t position_count, const uint32_t *indices, size_t count,
                   float *values) {
    trirast_shade_set_cuts(seen, position_count, indices, count, values);
}

void weigh_in_c(const trirast_shade_triangle *triangles, trirast_shade_fragments *at) {
    trirast_shading_weigh(triangles, at);
}

void edges_in_c(const trirast_shade_triangle *triangle, int32_t x, int32_t y, float edges[3]) {
    trirast_shading_edges(triangle, x - triangle->ax, y - triangle->ay, edges);
}

trirast_status shade_tile_in_c(trirast_canvas *canvas, uint32_t column, uint32_t row, const trirast_shade *shade,
                               uint32_t *entries, size_t count) {
    return trirast_shade_tile(canvas, column, row, shade, entries, count);
}

trirast_status shade_rows_in_c(trirast_canvas *canvas, const trirast_shade *shade, uint32_t *entries, size_t count) {
    return trirast_shade_rows(canvas, shade, entries, count);
}
