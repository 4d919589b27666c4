/* A floor that goes past the eye, clipped and drawn in C: writes the pixels of 320 by 180, three bytes each. The arrays
 * are so small that one may be full, so clipping goes on where it stopped. */
#include <math.h>
#include <stdio.h>
#include <stdlib.h>
#include <trirast_clip.h>

enum { POSITIONS = 4, CUTS = TRIRAST_CLIP_MAX_CORNERS, TRIANGLES = TRIRAST_CLIP_MAX_CORNERS };
static trirast_vertex vertices[POSITIONS + CUTS];
static float w[POSITIONS + CUTS];
static uint16_t marks[POSITIONS];
static trirast_clip_cut cuts[CUTS];
static uint32_t corners[3 * TRIANGLES], sources[TRIANGLES];
static const double green[] = {0, 80, 240, 160};
static const uint32_t indices[] = {0, 1, 2, 0, 2, 3};

static void set_colors(const trirast_clipped *seen) {
    for (size_t k = 0; k < POSITIONS + seen->cut_count; k++) {
        double value = k < POSITIONS ? green[k] : 0;
        for (size_t c = 0; k >= POSITIONS && c < 3; c++)
            value += cuts[k - POSITIONS].weights[c] * green[indices[3 * cuts[k - POSITIONS].triangle + c]];
        vertices[k].red = vertices[k].alpha = 255, vertices[k].green = (uint8_t)rint(value);
    }
}

static int draw(trirast_canvas *canvas, const trirast_clipped *seen) {
    const trirast_batch batch = {.vertices = vertices, .vertex_count = POSITIONS + seen->cut_count,
                                 .indices = corners, .index_count = 3 * seen->triangle_count};
    return trirast_canvas_draw(canvas, &batch, NULL);
}

int main(void) {
    const trirast_clip_position positions[] = {
        {-20, -2, -5.1f, -5}, {20, -2, -5.1f, -5}, {20, -2, 39.9f, 40}, {-20, -2, 39.9f, 40}};
    const trirast_clip clip = {.width = 320, .height = 180};
    trirast_clipped seen = {.vertices = vertices, .w = w, .marks = marks, .cuts = cuts, .indices = corners,
                            .sources = sources, .cut_capacity = CUTS, .triangle_capacity = TRIANGLES};
    static uint8_t pixels[320 * 180 * 3];
    const trirast_clear dark = {.red = 24, .green = 24, .blue = 32, .depth = 65535};
    trirast_canvas canvas = {.width = 320, .height = 180, .samples = 4};
    const size_t size = trirast_canvas_size(&canvas);
    trirast_clip_status status;
    if (trirast_canvas_init(&canvas, malloc(size), size) || trirast_canvas_clear(&canvas, &dark)) return 1;
    do {
        seen.cut_count = seen.triangle_count = 0;
        status = trirast_clip_triangles(&clip, positions, POSITIONS, indices, 6, &seen);
        if (status > TRIRAST_CLIP_FULL) return 1;
        set_colors(&seen);
        if (draw(&canvas, &seen)) return 1;
    } while (status == TRIRAST_CLIP_FULL);
    if (trirast_canvas_resolve(&canvas, TRIRAST_FORMAT_RGB8, pixels, sizeof pixels, 0)) return 1;
    free(canvas.memory);
    return fwrite(pixels, 1, sizeof pixels, stdout) != sizeof pixels;
}
