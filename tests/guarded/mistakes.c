// Programs with and without the mistakes that TRIRAST_CHECKS reports: the word names one, or "none".
#define TRIRAST_CHECKS
#include <stdio.h>
#include <stdlib.h>
#include <string.h>

#include "trirast_shade.h"

enum { SIDE = 100, SAMPLES = 4, TRIANGLES = 2 };

static const trirast_vertex VERTICES[] = {
    {.x = 0, .y = 0}, {.x = 25600, .y = 0}, {.x = 0, .y = 25600}, {.x = 25600, .y = 25600}};
static const uint32_t INDICES[3 * TRIANGLES] = {0, 1, 2, 1, 3, 2};
static const float W[] = {1, 1, 1, 1};

// Each triangle gets the colour that is the id of the other one.
static void shader(const trirast_shade_fragments *at, trirast_shade_colors *out, void *user) {
    (void)user;
    for (int k = 0; k < TRIRAST_SHADE_LANES; k++)
        out->red[k] = 1.0f - (float)at->id[k], out->green[k] = out->blue[k] = 0;
}

// One word makes one mistake. The status is that of the first call that fails.
static int draw(trirast_canvas *canvas, const char *word) {
    const int is_black = !strcmp(word, "black"), is_short = !strcmp(word, "short");
    const trirast_clear white = {255, 255, 255, 0, 65535, 0};
    const trirast_batch batch = {
        .vertices = VERTICES, .vertex_count = 4, .indices = INDICES, .index_count = 3 * TRIANGLES};
    trirast_shade_triangle triangles[TRIANGLES];
    static uint32_t entries[TRIRAST_TILE_ENTRIES(SAMPLES)];
    trirast_shade how = {.triangles = triangles, .triangle_count = is_short ? 1 : TRIANGLES, .shader = shader};
    trirast_shade_set_triangles(VERTICES, W, INDICES, 0, TRIANGLES, triangles);
    int status = trirast_canvas_clear(canvas, is_black ? NULL : &white);
    if (!status) status = trirast_canvas_draw_ids(canvas, &batch, !strcmp(word, "black from one"), NULL);
    if (!status) status = trirast_shade_rows(canvas, &how, entries, TRIRAST_TILE_ENTRIES(SAMPLES));
    if (!status && !strcmp(word, "twice"))
        status = trirast_shade_rows(canvas, &how, entries, TRIRAST_TILE_ENTRIES(SAMPLES));
    return status;
}

static int draw_polygons(trirast_canvas *canvas) {
    static const trirast_corner corners[] = {{0, 0}, {2560, 0}, {0, 2560}};
    static const uint32_t ring_ends[] = {3}, polygon_ends[] = {1};
    const trirast_polygons polygons = {.corners = corners,
                                       .corner_count = 3,
                                       .ring_ends = ring_ends,
                                       .ring_count = 1,
                                       .polygon_ends = polygon_ends,
                                       .polygon_count = 1};
    const size_t size = trirast_polygons_scratch(canvas, TRIRAST_FILL_EVEN_ODD);
    void *scratch = malloc(size);
    int status = trirast_canvas_clear(canvas, NULL);
    if (!status) status = trirast_canvas_draw_polygon_ids(canvas, &polygons, 0, scratch, size, NULL);
    free(scratch);
    return status;
}

int main(int count, char **words) {
    trirast_canvas canvas = {.width = SIDE, .height = SIDE, .samples = SAMPLES};
    const char *word = count > 1 ? words[1] : "none";
    const size_t size = trirast_canvas_size(&canvas);
    void *memory = malloc(size);
    if (!memory || trirast_canvas_init(&canvas, memory, size)) return 2;
    const int status = strcmp(word, "polygons") ? draw(&canvas, word) : draw_polygons(&canvas);
    free(memory);
    return status;
}
