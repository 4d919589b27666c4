/* Draws a triangle on a canvas, and writes the picture to standard output as a PPM file. At the top of the repository:
 *
 *     make library
 *     cc -std=c99 -o canvas examples/c/canvas.c -Iinclude lib/libtrirast.a
 *     ./canvas > canvas.ppm
 */
#include <stdint.h>
#include <stdio.h>
#include <stdlib.h>

#include "trirast.h"

enum { WIDTH = 640, HEIGHT = 480, SAMPLES = 4 };

static uint8_t pixels[HEIGHT * WIDTH * 3];

/* Draws on a canvas that has memory, and writes its colours to `pixels`. The error says what is wrong
 * with the batch. */
static trirast_status draw_triangle(trirast_canvas *canvas, trirast_error *error) {
    /* Positions are in 1/256 pixel, from the upper left corner of the picture. Depths are 0 to 65535; the
     * least is nearest. */
    const trirast_vertex vertices[] = {
        {.x = 320 * 256, .y = 10 * 256, .depth = 100, .red = 255, .alpha = 255},
        {.x = 620 * 256, .y = 450 * 256, .depth = 200, .green = 255, .alpha = 255},
        {.x = 20 * 256, .y = 380 * 256, .depth = 300, .blue = 255, .alpha = 255},
    };
    const uint32_t indices[] = {0, 1, 2};
    const trirast_clear background = {.red = 24, .green = 24, .blue = 32, .depth = 65535};
    /* One draw of all vertices. What is not set has its default, 0. */
    const trirast_draw draw = {.vertex_count = 3, .index_count = 3, .depth_test = TRIRAST_DEPTH_LESS, .depth_write = 1};
    const trirast_batch batch = {
        .draws = &draw, .draw_count = 1, .vertices = vertices, .vertex_count = 3, .indices = indices, .index_count = 3,
    };

    trirast_status status = trirast_canvas_clear(canvas, &background);
    if (status == TRIRAST_STATUS_OK) status = trirast_canvas_draw(canvas, &batch, error);
    if (status == TRIRAST_STATUS_OK)
        status = trirast_canvas_resolve(canvas, TRIRAST_FORMAT_RGB8, pixels, sizeof pixels, 0);
    return status;
}

int main(void) {
    trirast_canvas canvas = {.width = WIDTH, .height = HEIGHT, .samples = SAMPLES};
    const size_t size = trirast_canvas_size(&canvas);
    void *memory = malloc(size);
    trirast_error error = {.draw = TRIRAST_NONE, .element = TRIRAST_NONE, .value = TRIRAST_NONE};

    /* Memory that is NULL is refused here. */
    trirast_status status = trirast_canvas_init(&canvas, memory, size);
    if (status == TRIRAST_STATUS_OK) status = draw_triangle(&canvas, &error);
    free(memory);
    if (status != TRIRAST_STATUS_OK) {
        char message[TRIRAST_ERROR_MESSAGE_SIZE];
        error.status = status;
        trirast_error_message(&error, message, sizeof message);
        fprintf(stderr, "canvas: %s\n", message);
        return 1;
    }
    printf("P6\n%d %d\n255\n", WIDTH, HEIGHT);
    fwrite(pixels, 1, sizeof pixels, stdout);
    if (fflush(stdout) || ferror(stdout)) {
        perror("canvas");
        return 1;
    }
    return 0;
}
