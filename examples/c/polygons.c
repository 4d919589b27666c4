/* Draws polygons on a canvas, and writes the picture to standard output as a PPM file. At the top of the repository:
 *
 *     make library
 *     cc -std=c99 -o polygons examples/c/polygons.c -Iinclude lib/libtrirast.a
 *     ./polygons > polygons.ppm
 */
#include <stdint.h>
#include <stdio.h>
#include <stdlib.h>

#include "trirast.h"

enum { WIDTH = 640, HEIGHT = 480, SAMPLES = 16 };

static uint8_t pixels[3 * WIDTH * HEIGHT];

/* Draws on a canvas that is cleared. */
static trirast_status draw(trirast_canvas *canvas, void *scratch, size_t scratch_size, trirast_error *error) {
    /* A frame, which is a ring with a hole; a star of one ring that crosses itself; and a square whose left side is the
     * frame's inner one. Corners are in 1/256 pixel. */
    const trirast_corner corners[] = {
        {20 * 256, 20 * 256}, {620 * 256, 20 * 256}, {620 * 256, 460 * 256}, {20 * 256, 460 * 256},
        {100 * 256, 100 * 256}, {100 * 256, 380 * 256}, {540 * 256, 380 * 256}, {540 * 256, 100 * 256},
        {320 * 256, 60 * 256}, {440 * 256, 420 * 256}, {130 * 256, 200 * 256}, {510 * 256, 200 * 256},
        {200 * 256, 420 * 256},
        {100 * 256, 100 * 256}, {200 * 256, 100 * 256}, {200 * 256, 200 * 256}, {100 * 256, 200 * 256},
    };
    const uint32_t ring_ends[] = {4, 8, 13, 17};
    const uint32_t polygon_ends[] = {2, 3, 4};
    const uint8_t colors[][4] = {{70, 110, 200, 255}, {230, 180, 40, 200}, {90, 160, 90, 255}};
    trirast_polygons polygons = {0};

    polygons.fill_rule = TRIRAST_FILL_EVEN_ODD;
    polygons.corners = corners;
    polygons.corner_count = sizeof corners / sizeof corners[0];
    polygons.ring_ends = ring_ends;
    polygons.ring_count = sizeof ring_ends / sizeof ring_ends[0];
    polygons.polygon_ends = polygon_ends;
    polygons.polygon_count = sizeof polygon_ends / sizeof polygon_ends[0];
    polygons.colors = colors;
    polygons.color_count = sizeof colors / sizeof colors[0];
    polygons.state.blend = TRIRAST_BLEND_OVER;
    return trirast_canvas_draw_polygons(canvas, &polygons, scratch, scratch_size, error);
}

int main(void) {
    const trirast_clear background = {.red = 24, .green = 24, .blue = 32, .depth = 65535};
    trirast_canvas canvas = {.width = WIDTH, .height = HEIGHT, .samples = SAMPLES};
    const size_t size = trirast_canvas_size(&canvas);
    const size_t scratch_size = trirast_polygons_scratch(&canvas, TRIRAST_FILL_EVEN_ODD);
    void *memory = malloc(size), *scratch = malloc(scratch_size);
    trirast_error error = {0};
    trirast_status status = trirast_canvas_init(&canvas, memory, size);

    if (!status) status = trirast_canvas_clear(&canvas, &background);
    if (!status && !(status = draw(&canvas, scratch, scratch_size, &error)))
        status = trirast_canvas_resolve(&canvas, TRIRAST_FORMAT_RGB8, pixels, sizeof pixels, 0);
    free(scratch);
    free(memory);
    if (status) {
        fprintf(stderr, "polygons: %s\n", trirast_status_string(status));
        return 1;
    }
    printf("P6\n%d %d\n255\n", WIDTH, HEIGHT);
    return fwrite(pixels, 1, sizeof pixels, stdout) == sizeof pixels && fflush(stdout) == 0 ? 0 : 1;
}
