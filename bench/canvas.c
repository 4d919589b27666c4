// Times canvases on one thread by processor time, and prints the least of some rounds. bench/canvas.py
// builds and runs it.
//
//     canvas scene FILE ROUNDS      microseconds of clearing, of drawing and of resolving a scene
//     canvas batches SIDE ROUNDS    nanoseconds of each of 10,000 batches of two triangles of 8 pixels, by
//                                   colours and by ids
//     canvas samples FILE ROUNDS N  microseconds of clearing and drawing a scene on a canvas of N samples a pixel
//     canvas blend FILE ROUNDS BLEND CHANNELS
//                                   the same with four samples, by a blend of a name on a canvas of 3 or 4 channels
//
// A FILE is three counts, a head and the arrays of a batch, as 32-bit integers: tests/library/lists.py writes
// it, and scenes.c beside it reads it.
#define _POSIX_C_SOURCE 200809L
#include <stdio.h>
#include <stdlib.h>
#include <string.h>
#include <time.h>

#include "cases.h"

enum { BATCHES = 10000 };

static double now(void) {
    struct timespec time;
    clock_gettime(CLOCK_PROCESS_CPUTIME_ID, &time);
    return 1e9 * (double)time.tv_sec + (double)time.tv_nsec;
}

static void must(int holds, const char *what) {
    if (holds) return;
    fprintf(stderr, "%s\n", what);
    exit(1);
}

static void keep_least(double *least, double begun) {
    double taken = now() - begun;
    if (taken < *least) *least = taken;
}

static trirast_canvas new_canvas(uint32_t width, uint32_t height, uint32_t samples, uint32_t channels) {
    trirast_canvas canvas = {.width = width, .height = height, .samples = samples, .channels = channels};
    size_t size = trirast_canvas_size(&canvas);
    must(!trirast_canvas_init(&canvas, size ? aligned_alloc(64, size) : NULL, size), "no canvas");
    return canvas;
}

// ---- Scenes

_Noreturn void stop(const char *what, const char *name) {
    fprintf(stderr, "%s: %s\n", name, what);
    exit(1);
}

static scene scene_in(const char *path) {
    FILE *file = fopen(path, "rb");
    must(file && !fseek(file, 0, SEEK_END), path);
    long size = ftell(file);
    rewind(file);
    uint32_t *integers = malloc((size_t)size);
    must(integers && fread(integers, 1, (size_t)size, file) == (size_t)size, path);
    fclose(file);
    scene read = read_arrays(integers);
    free(integers);
    return read;
}

static void free_scene(scene *read) { free(read->draws), free(read->vertices), free(read->indices); }

static void time_scene(const char *path, int rounds) {
    scene read = scene_in(path);
    trirast_canvas canvas = new_canvas(read.width, read.height, read.samples, 3);
    size_t size = (size_t)read.width * read.height * 3;
    uint8_t *pixels = calloc(size, 1);
    must(pixels != NULL, "out of memory");
    double least[3] = {1e18, 1e18, 1e18}, begun;
    for (int k = 0; k < rounds; k++) {
        begun = now();
        must(!trirast_canvas_clear(&canvas, &read.clear), "clear");
        keep_least(&least[0], begun), begun = now();
        must(!trirast_canvas_draw(&canvas, &read.batch, NULL), "draw");
        keep_least(&least[1], begun), begun = now();
        must(!trirast_canvas_resolve(&canvas, TRIRAST_FORMAT_RGB8, pixels, size, 0), "resolve");
        keep_least(&least[2], begun);
    }
    printf("%.0f %.0f %.0f\n", least[0] / 1e3, least[1] / 1e3, least[2] / 1e3);
    free_scene(&read), free(pixels), free(canvas.memory);
}

// Draws every sample of a pixel, also where a list, which has four at most, draws those four. With a blend it
// is that of each draw.
static void time_samples(const char *path, int rounds, uint32_t samples, uint32_t channels,
                         const trirast_blend *blend) {
    scene read = scene_in(path);
    for (size_t k = 0; k < read.batch.draw_count; k++) {
        read.draws[k].skip_samples = 0;
        if (blend) read.draws[k].blend = *blend;
    }
    trirast_canvas canvas = new_canvas(read.width, read.height, samples, channels);
    double least = 1e18;
    for (int k = 0; k < rounds; k++) {
        double begun = now();
        must(!trirast_canvas_clear(&canvas, &read.clear), "clear");
        must(!trirast_canvas_draw(&canvas, &read.batch, NULL), "draw");
        keep_least(&least, begun);
    }
    printf("%.0f\n", least / 1e3);
    free_scene(&read), free(canvas.memory);
}

// ---- Blends

typedef struct named_blend {
    const char *name;
    trirast_blend blend;
} named_blend;

// Those of the header, and two that are chosen while the program runs: by a constant for colours and another equation
// for alpha, and the stored channel less the new one by the stored alpha.
static trirast_blend blend_of(const char *name) {
    const named_blend all[] = {
        {"none", TRIRAST_BLEND_NONE},
        {"over", TRIRAST_BLEND_OVER},
        {"premultiplied", TRIRAST_BLEND_PREMULTIPLIED},
        {"add", TRIRAST_BLEND_ADD},
        {"constant",
         {TRIRAST_FACTOR_CONSTANT, TRIRAST_FACTOR_INVERSE_CONSTANT, TRIRAST_OPERATION_ADD, TRIRAST_FACTOR_ONE,
          TRIRAST_FACTOR_INVERSE_SOURCE_ALPHA, TRIRAST_OPERATION_ADD, {64, 128, 192, 96}}},
        {"subtract",
         {TRIRAST_FACTOR_STORED_ALPHA, TRIRAST_FACTOR_ONE, TRIRAST_OPERATION_REVERSE_SUBTRACT,
          TRIRAST_FACTOR_STORED_ALPHA, TRIRAST_FACTOR_ONE, TRIRAST_OPERATION_REVERSE_SUBTRACT, {0, 0, 0, 0}}},
    };
    for (size_t k = 0; k < sizeof all / sizeof *all; k++)
        if (!strcmp(all[k].name, name)) return all[k].blend;
    stop("no blend of this name", name);
}

static void time_blend(const char *path, int rounds, const char *name, uint32_t channels) {
    const trirast_blend blend = blend_of(name);
    time_samples(path, rounds, 4, channels, &blend);
}

// ---- Batches

// A square of 8 by 8 pixels as two triangles, at the place of the batch with this number.
static void place(trirast_vertex vertices[4], uint32_t number, uint32_t side) {
    int32_t x = (int32_t)(number * 7919 % (side - 8)) * 256, y = (int32_t)(number * 104729 % (side - 8)) * 256;
    for (int k = 0; k < 4; k++) {
        vertices[k] = (trirast_vertex){
            x + (k == 1 || k == 2 ? 2048 : 0), y + (k > 1 ? 2048 : 0), 100, (uint8_t)number, 90, 30, 255, 0};
    }
}

static void time_batches(uint32_t side, int rounds) {
    const uint32_t indices[6] = {0, 1, 2, 0, 2, 3};
    const trirast_clear white = {255, 255, 255, 255, 65535, 0};
    trirast_canvas canvas = new_canvas(side, side, 1, 3);
    trirast_vertex vertices[4];
    const trirast_batch batch = {.vertices = vertices, .vertex_count = 4, .indices = indices, .index_count = 6};
    double least[2] = {1e18, 1e18};
    for (int k = 0; k < rounds; k++)
        for (int by_ids = 0; by_ids < 2; by_ids++) {
            must(!trirast_canvas_clear(&canvas, &white), "clear");
            double begun = now();
            for (uint32_t number = 0; number < BATCHES; number++) {
                place(vertices, number, side);
                must(!(by_ids ? trirast_canvas_draw_ids(&canvas, &batch, 2 * number, NULL)
                              : trirast_canvas_draw(&canvas, &batch, NULL)),
                     "draw");
            }
            keep_least(&least[by_ids], begun);
        }
    printf("%.0f %.0f\n", least[0] / BATCHES, least[1] / BATCHES);
    free(canvas.memory);
}

int main(int count, char **arguments) {
    must(count >= 4 && count <= 6, "canvas scene FILE ROUNDS, or as the head of bench/canvas.c says");
    int rounds = atoi(arguments[3]);
    uint32_t last = (uint32_t)strtoul(arguments[count - 1], NULL, 10);
    if (!strcmp(arguments[1], "scene"))
        time_scene(arguments[2], rounds);
    else if (!strcmp(arguments[1], "samples") && count == 5)
        time_samples(arguments[2], rounds, last, 3, NULL);
    else if (!strcmp(arguments[1], "blend") && count == 6)
        time_blend(arguments[2], rounds, arguments[4], last);
    else
        time_batches((uint32_t)strtoul(arguments[2], NULL, 10), rounds);
    return 0;
}
