// Canvases with each number of samples a pixel: four threads draw a quad without the samples that it skips, and each
// sample is read back.
#include <pthread.h>
#include <stdlib.h>

#include "canvases.h"

// The quad covers the upper HEIGHT rows of a canvas with a tile row for each thread.
enum { THREADS = 4, TALL = 250, ALL = WIDTH * TALL, RED = 5, DEPTH = 7, WHITE = 16777215, CLEAR_DEPTH = 9 };

typedef struct {
    const quad *all;
    uint32_t row;
    trirast_status status;
} share;

static void *draw_row(void *argument) {
    static const trirast_clear white = {255, 255, 255, 0, CLEAR_DEPTH, 0};
    share *own = argument;
    trirast_canvas piece;
    trirast_error error;
    own->status = trirast_canvas_split(&own->all->made.whole, own->row, own->row + 1, &piece);
    if (!own->status) own->status = trirast_canvas_clear(&piece, &white);
    if (!own->status) own->status = trirast_canvas_draw(&piece, &own->all->made.batch, &error);
    return NULL;
}

static void draw_by_threads(const quad *all) {
    pthread_t threads[THREADS];
    share shares[THREADS];
    for (uint32_t k = 0; k < THREADS; k++) {
        shares[k] = (share){all, k, TRIRAST_STATUS_OK};
        if (pthread_create(&threads[k], NULL, draw_row, &shares[k])) stop("cannot be started", "a thread");
    }
    for (int k = 0; k < THREADS; k++) {
        pthread_join(threads[k], NULL);
        expect(!shares[k].status, "tile row %d: status %u", k, shares[k].status);
    }
}

// Sample s has the quad's colour and depth if the mask has bit s, else those that were cleared.
static void compare_sample(const quad *all, uint32_t mask, uint32_t s) {
    uint32_t *ids = calloc(ALL, sizeof *ids);
    uint16_t *depths = calloc(ALL, sizeof *depths);
    if (!ids || !depths) stop("out of memory", "a sample");
    int failed = trirast_canvas_ids(&all->made.whole, s, ids, ALL, 4 * WIDTH) ||
                 trirast_canvas_depths(&all->made.whole, s, depths, ALL, 0);
    for (int k = 0; k < ALL; k++) {
        int is_drawn = k < PIXELS && mask >> s & 1;
        expect(!failed && ids[k] == (is_drawn ? RED : WHITE) && depths[k] == (is_drawn ? DEPTH : CLEAR_DEPTH),
               "mask %x: colour %u and depth %u of sample %u of pixel %d", mask, ids[k], depths[k], s, k);
    }
    free(ids), free(depths);
}

static uint8_t mean(uint32_t sum, uint32_t samples) {
    return (uint8_t)((sum + samples / 2) / samples);
}

static void compare_colors(const quad *all, uint32_t mask, uint32_t samples) {
    uint8_t *pixels = calloc(ALL, 3);
    if (!pixels) stop("out of memory", "pixels");
    uint32_t count = 0;
    for (uint32_t s = 0; s < samples; s++) count += mask >> s & 1;
    const uint8_t red = mean(RED * count + 255 * (samples - count), samples),
                  other = mean(255 * (samples - count), samples);
    expect(!trirast_canvas_resolve(&all->made.whole, TRIRAST_FORMAT_RGB8, pixels, 3 * ALL, 3 * WIDTH), "not resolved");
    for (int k = 0; k < ALL; k++) {
        const uint8_t *found = pixels + 3 * k;
        int is_in = k < PIXELS;
        expect(found[0] == (is_in ? red : 255) && found[1] == (is_in ? other : 255) && found[2] == found[1],
               "%u samples, mask %x: %u, %u, %u at pixel %d", samples, mask, found[0], found[1], found[2], k);
    }
    free(pixels);
}

static void compare_mask(uint32_t samples, uint32_t mask) {
    quad all;
    stage tall;
    make_quad(&all);
    make_canvas(&tall, WIDTH, TALL, samples);
    free(all.made.memory.all);
    all.made.whole = tall.whole, all.made.memory = tall.memory;
    all.draws[1].skip_samples = (uint16_t)~mask, all.draws[1].depth_write = 1;
    for (int k = 0; k < 5; k++) all.vertices[k].red = RED, all.vertices[k].green = all.vertices[k].blue = 0;
    draw_by_threads(&all);
    for (uint32_t s = 0; s < samples; s++) compare_sample(&all, mask, s);
    compare_colors(&all, mask, samples);
    free(all.made.memory.all);
}

void compare_samples(void) {
    for (uint32_t samples = 1; samples <= 16; samples *= 2) {
        compare_mask(samples, 0xFFFFu);
        compare_mask(samples, 1u << (samples - 1));
        // Bits of samples that there are not.
        compare_mask(samples, 0xFFFFu & ~0u << samples);
    }
    report("four threads draw every sample of 1, 2, 4, 8 and 16, the last one alone, and none");
    compare_mask(16, 1u << 8);
    compare_mask(16, 1u << 15);
    compare_mask(16, 0xFFFFu ^ 1u << 8 ^ 1u << 15);
    compare_mask(8, 1u << 8 | 1u << 7);
    report("the bits 8 and 15 of the samples that are skipped are those of samples 8 and 15");
}
