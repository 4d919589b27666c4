/* Draws two batches on a canvas with alpha and 16 samples a pixel by four threads: a triangle without a background,
 * and a pane of glass that is blended over it and reaches past it. Writes the picture to standard output as a PAM
 * file (RGB_ALPHA), whose colours are not multiplied by alpha, as netpbm, ImageMagick and others read it. At the
 * top of the repository:
 *
 *     make library
 *     cc -std=c99 -o threads examples/c/threads.c -Iinclude lib/libtrirast.a -pthread
 *     ./threads > threads.pam
 */
#include <pthread.h>
#include <stdint.h>
#include <stdio.h>
#include <stdlib.h>

#include "trirast.h"

enum { WIDTH = 100, HEIGHT = 200, SAMPLES = 16, THREADS = 4, CHANNELS = 4 };

static uint8_t pixels[HEIGHT * WIDTH * CHANNELS];

/* Positions are in 1/256 pixel. */
static const trirast_vertex solid[] = {
    {.x = 50 * 256, .y = 10 * 256, .red = 255, .alpha = 255},
    {.x = 95 * 256, .y = 190 * 256, .green = 255, .alpha = 255},
    {.x = 5 * 256, .y = 190 * 256, .blue = 255, .alpha = 255},
};
static const trirast_vertex glass[] = {
    {.x = 10 * 256, .y = 50 * 256, .red = 255, .green = 255, .blue = 255, .alpha = 153},
    {.x = 90 * 256, .y = 70 * 256, .red = 255, .green = 255, .blue = 255, .alpha = 153},
    {.x = 45 * 256, .y = 170 * 256, .red = 255, .green = 255, .blue = 255, .alpha = 51},
};

/* Draws one triangle: without indices a batch has its vertices in their order. */
static trirast_status draw_triangle(trirast_canvas *piece, const trirast_vertex corners[3], trirast_blend blend,
                                    trirast_error *error) {
    const trirast_draw draw = {.vertex_count = 3, .blend = blend};
    const trirast_batch batch = {.draws = &draw, .draw_count = 1, .vertices = corners, .vertex_count = 3};
    return trirast_canvas_draw(piece, &batch, error);
}

/* What a thread has: tile rows that no other thread has, and why they were not drawn. */
typedef struct {
    trirast_canvas piece;
    trirast_error error;
} part;

/* Begins with black of alpha 0, on which TRIRAST_BLEND_OVER leaves colours that are multiplied by their alpha. The
 * format divides by it. */
static void *draw_part(void *given) {
    part *own = given;
    const size_t stride = CHANNELS * WIDTH, begin = (size_t)TRIRAST_TILE_SIZE * own->piece.first * stride;
    trirast_status status = trirast_canvas_clear(&own->piece, NULL);
    if (!status) status = draw_triangle(&own->piece, solid, TRIRAST_BLEND_NONE, &own->error);
    if (!status) status = draw_triangle(&own->piece, glass, TRIRAST_BLEND_OVER, &own->error);
    if (!status)
        status = trirast_canvas_resolve(&own->piece, TRIRAST_FORMAT_RGBA8_STRAIGHT, pixels + begin,
                                        sizeof pixels - begin, stride);
    own->error.status = (uint32_t)status;
    return NULL;
}

/* Draws the whole picture. Returns 1 if it was drawn, else 0. */
static int draw_picture(const trirast_canvas *canvas) {
    const uint32_t rows = trirast_canvas_tile_rows(canvas);
    part parts[THREADS] = {0};
    pthread_t threads[THREADS];
    int is_started[THREADS], is_drawn = 1;
    for (uint32_t k = 0; k < THREADS; k++) {
        if (trirast_canvas_split(canvas, rows * k / THREADS, rows * (k + 1) / THREADS, &parts[k].piece)) return 0;
        parts[k].error.draw = parts[k].error.element = TRIRAST_NONE;
    }
    for (int k = 0; k < THREADS; k++) {
        is_started[k] = !pthread_create(&threads[k], NULL, draw_part, &parts[k]);
        if (!is_started[k]) draw_part(&parts[k]);
    }
    for (int k = 0; k < THREADS; k++) {
        char message[TRIRAST_ERROR_MESSAGE_SIZE];
        if (is_started[k]) pthread_join(threads[k], NULL);
        if (!parts[k].error.status) continue;
        trirast_error_message(&parts[k].error, message, sizeof message);
        fprintf(stderr, "threads: %s\n", message);
        is_drawn = 0;
    }
    return is_drawn;
}

int main(void) {
    trirast_canvas canvas = {.width = WIDTH, .height = HEIGHT, .samples = SAMPLES, .channels = CHANNELS};
    const size_t size = trirast_canvas_size(&canvas);
    void *memory = malloc(size);
    const int is_drawn = !trirast_canvas_init(&canvas, memory, size) && draw_picture(&canvas);
    free(memory);
    if (!is_drawn) return 1;
    printf("P7\nWIDTH %d\nHEIGHT %d\nDEPTH %d\nMAXVAL 255\nTUPLTYPE RGB_ALPHA\nENDHDR\n", WIDTH, HEIGHT, CHANNELS);
    return fwrite(pixels, 1, sizeof pixels, stdout) == sizeof pixels && fflush(stdout) == 0 ? 0 : 1;
}
