// Draws a batch of 1,000,000 triangles over 3,000,000 vertices on canvases: whole, by pieces on four threads, and cut
// into 100 batches. Each has the same colours, the same depths of each sample, and by ids the same ids of each sample.
#include <pthread.h>
#include <stdlib.h>
#include <string.h>

#include "canvases.h"

enum {
    SIDE = 512,
        SAMPLES = 4,
        TRIANGLES = 1000000,
        VERTICES = 3 * TRIANGLES,
        CUTS = 100,
        THREADS = 4,
        FIRST_ID = 1000
    };

// Ways to draw the batch.
enum { WHOLE, PIECES, CUT, WAYS };

// The arrays of the batch, and a canvas.
typedef struct {
    trirast_draw draw;
    trirast_batch batch;
    trirast_vertex *vertices;
    uint32_t *indices;
    stage made;
    int by_ids;
} large;

static uint32_t next(uint64_t *state) {
    *state = *state * 6364136223846793005u + 1442695040888963407u;
    return (uint32_t)(*state >> 33);
}

// Small triangles anywhere on the canvas and a little beside it. No index is its place, so that an offset that
// is left out is seen.
static void make_large(large *all) {
    uint64_t state = 1;
    memset(all, 0, sizeof *all);
    all->vertices = malloc(VERTICES * sizeof *all->vertices), all->indices = malloc(VERTICES * sizeof *all->indices);
    if (!all->vertices || !all->indices) stop("out of memory", "a large batch");
    for (uint32_t k = 0; k < VERTICES; k += 3) {
        int32_t x = (int32_t)(next(&state) % (256 * (SIDE + 40))) - 5120,
                y = (int32_t)(next(&state) % (256 * (SIDE + 40))) - 5120;
        for (uint32_t corner = 0; corner < 3; corner++) {
            uint32_t color = next(&state), place = next(&state);
            all->vertices[k + corner] = (trirast_vertex){
                x + (int32_t)(place % 2560), y + (int32_t)(place / 2560 % 2560), (uint16_t)next(&state),
                (uint8_t)color, (uint8_t)(color >> 8), (uint8_t)(color >> 16), (uint8_t)(64 + next(&state) % 192), 0,
            };
            all->indices[k + corner] = k + (corner + 1) % 3;
        }
    }
    all->draw.vertex_count = VERTICES, all->draw.index_count = VERTICES;
    all->draw.depth_test = TRIRAST_DEPTH_GREATER_EQUAL, all->draw.depth_write = 1, all->draw.blend = TRIRAST_BLEND_OVER;
    all->batch.draws = &all->draw, all->batch.draw_count = 1;
    all->batch.vertices = all->vertices, all->batch.vertex_count = VERTICES;
    all->batch.indices = all->indices, all->batch.index_count = VERTICES;
    make_canvas(&all->made, SIDE, SIDE, SAMPLES);
}

static trirast_status draw_on(const large *all, trirast_canvas *canvas, const trirast_batch *batch, uint32_t first_id) {
    return all->by_ids ? trirast_canvas_draw_ids(canvas, batch, first_id, NULL)
                       : trirast_canvas_draw(canvas, batch, NULL);
}

// ---- The ways -------------------------------------------------------------------------------------------------------

typedef struct {
    const large *all;
    trirast_canvas rows;
    trirast_status status;
} share;

static void *draw_share(void *argument) {
    share *own = argument;
    own->status = draw_on(own->all, &own->rows, &own->all->batch, FIRST_ID);
    return NULL;
}

static trirast_status draw_pieces(large *all) {
    share shares[THREADS];
    pthread_t threads[THREADS];
    trirast_status status = TRIRAST_STATUS_OK;
    for (uint32_t k = 0; k < THREADS; k++) {
        uint32_t rows = all->made.whole.end;
        shares[k].all = all;
        if (trirast_canvas_split(&all->made.whole, rows * k / THREADS, rows * (k + 1) / THREADS, &shares[k].rows))
            stop("no piece", "tile rows");
        if (pthread_create(&threads[k], NULL, draw_share, &shares[k])) stop("cannot be started", "a thread");
    }
    for (int k = 0; k < THREADS; k++) pthread_join(threads[k], NULL);
    for (int k = 0; k < THREADS; k++) status = shares[k].status ? shares[k].status : status;
    return status;
}

// Each batch has the vertices of its triangles alone.
static trirast_status draw_cut(large *all) {
    trirast_status status = TRIRAST_STATUS_OK;
    for (uint32_t k = 0; k < CUTS && !status; k++) {
        trirast_draw draw = all->draw;
        trirast_batch batch = all->batch;
        draw.vertex_count = draw.index_count = VERTICES / CUTS;
        batch.draws = &draw, batch.vertices = all->vertices + VERTICES / CUTS * k;
        batch.vertex_count = batch.index_count = VERTICES / CUTS;
        status = draw_on(all, &all->made.whole, &batch, FIRST_ID + TRIANGLES / CUTS * k);
    }
    return status;
}

static void draw_way(large *all, int way) {
    const trirast_clear clear = {10, 200, 60, 0, 100, 0};
    trirast_status status = trirast_canvas_clear(&all->made.whole, &clear);
    if (!status)
        status = way == WHOLE    ? draw_on(all, &all->made.whole, &all->batch, FIRST_ID)
                 : way == PIECES ? draw_pieces(all)
                                 : draw_cut(all);
    expect(!status, "way %d: status %u", way, status);
}

// ---- What is compared -----------------------------------------------------------------------------------------------

enum { PIXEL_COUNT = SIDE * SIDE, READ_SIZE = PIXEL_COUNT * (3 + SAMPLES * (2 + 4)) };

// The colours of the pixels, and the depths and the ids of all samples.
static void read_all(const trirast_canvas *canvas, uint8_t *bytes) {
    uint32_t *ids = (uint32_t *)(void *)bytes;
    uint16_t *depths = (uint16_t *)(void *)(ids + SAMPLES * PIXEL_COUNT);
    uint8_t *pixels = (uint8_t *)(depths + SAMPLES * PIXEL_COUNT);
    int is_read = !trirast_canvas_resolve(canvas, TRIRAST_FORMAT_RGB8, pixels, 3 * PIXEL_COUNT, 3 * SIDE);
    for (uint32_t s = 0; s < SAMPLES; s++)
        is_read = is_read && !trirast_canvas_depths(canvas, s, depths + s * PIXEL_COUNT, PIXEL_COUNT, 0) &&
                  !trirast_canvas_ids(canvas, s, ids + s * PIXEL_COUNT, PIXEL_COUNT, 0);
    expect(is_read, "a canvas is not read");
}

// How many of the samples changed, so that it is not an empty picture that is compared.
static size_t changed(const uint8_t *bytes) {
    const uint32_t *ids = (const uint32_t *)(const void *)bytes;
    size_t count = 0;
    for (size_t k = 0; k < SAMPLES * PIXEL_COUNT; k++) count += ids[k] != 10 + 256 * 200 + 65536 * 60;
    return count;
}

void compare_large_batches(void) {
    large all;
    make_large(&all);
    uint8_t *wanted = malloc(READ_SIZE), *found = malloc(READ_SIZE);
    if (!wanted || !found) stop("out of memory", "samples");
    for (all.by_ids = 0; all.by_ids < 2; all.by_ids++)
        for (int way = WHOLE; way < WAYS; way++) {
            draw_way(&all, way);
            read_all(&all.made.whole, way == WHOLE ? wanted : found);
            if (way == WHOLE)
                expect(changed(wanted) > SAMPLES * PIXEL_COUNT / 2, "%zu samples changed", changed(wanted));
            else expect(!memcmp(wanted, found, READ_SIZE), "way %d, by ids %d: other samples", way, all.by_ids);
        }
    free(wanted), free(found), free(all.vertices), free(all.indices), free(all.made.memory.all);
    report("a batch of 1,000,000 triangles makes the same samples whole, by pieces on four threads, and cut into 100 "
           "batches");
}
