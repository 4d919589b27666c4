// Makes calls on canvases of trirast.h as it reads them, for tests/reference/canvas_in_c.py, by a
// number of threads, each of which makes them on tile rows of its own.
//
// It reads integers of 32 bits. Each call begins with its number of `enum kind`, and canvas_in_c.py
// has the rest. The calls up to READ are made together. The answer is a status, of 32 bits, and if
// it is 0 the pixels with alpha, as they are stored and with colours divided by alpha, and of each
// sample the colours with alpha, the ids and the depths.
#include <pthread.h>
#include <stddef.h>
#include <stdint.h>
#include <stdio.h>
#include <stdlib.h>
#include <string.h>

#include "trirast.h"

enum { MAX_THREADS = 16 };
enum kind { CANVAS, CLEAR, BATCH, POLYGONS, PICTURE, READ };

// ---- Memory, which is kept till the next canvas or the next answer

typedef union block {
    union block *next;
    max_align_t aligned;
} block;

static block *of_canvas, *of_calls;

static void *memory_of(block **all, size_t count, size_t size) {
    block *found = calloc(1, sizeof *found + (count + 1) * size);
    if (!found) exit(2);
    found->next = *all;
    *all = found;
    return found + 1;
}

static void free_all(block **all) {
    while (*all) {
        block *next = (*all)->next;
        free(*all);
        *all = next;
    }
}

// ---- What is read and written

static int32_t number(void) {
    int32_t found;
    if (fread(&found, sizeof found, 1, stdin) != 1) exit(2);
    return found;
}

static uint8_t byte(void) { return (uint8_t)number(); }

static const uint32_t *read_numbers(size_t count) {
    uint32_t *found = memory_of(&of_calls, count, sizeof *found);
    for (size_t k = 0; k < count; k++) found[k] = (uint32_t)number();
    return found;
}

static const uint8_t *read_bytes(size_t count) {
    uint8_t *found = memory_of(&of_calls, count, 1);
    for (size_t k = 0; k < count; k++) found[k] = byte();
    return found;
}

static void write_all(const void *data, size_t size, size_t count) {
    if (fwrite(data, size, count, stdout) != count) exit(2);
}

// ---- Calls

static const uint32_t EVERY_SAMPLE = UINT32_MAX;

typedef struct call {
    trirast_status (*make)(const struct call *own, trirast_canvas *piece);
    trirast_clear clear;
    trirast_batch batch;
    trirast_polygons polygons;
    int by_ids;
    uint32_t first_id;
    trirast_format format;
    uint32_t sample; // or EVERY_SAMPLE
    const uint8_t *pixels;
    struct call *next;
} call;

static trirast_draw read_draw(void) {
    trirast_draw draw = {0};
    draw.vertex_count = (size_t)number(), draw.index_count = (size_t)number();
    draw.topology = byte(), draw.cull = byte(), draw.depth_test = byte(), draw.depth_write = byte(), draw.keep = byte();
    draw.skip_samples = (uint16_t)number(), draw.scissor_enable = byte();
    draw.scissor_left = number(), draw.scissor_top = number(), draw.scissor_right = number(),
        draw.scissor_bottom = number();
    draw.blend.color_source = byte(), draw.blend.color_stored = byte(), draw.blend.color_operation = byte();
    draw.blend.alpha_source = byte(), draw.blend.alpha_stored = byte(), draw.blend.alpha_operation = byte();
    for (int k = 0; k < 4; k++) draw.blend.constant[k] = byte();
    return draw;
}

static trirast_vertex read_vertex(void) {
    trirast_vertex vertex = {0};
    vertex.x = number(), vertex.y = number(), vertex.depth = (uint16_t)number();
    vertex.red = byte(), vertex.green = byte(), vertex.blue = byte(), vertex.alpha = byte();
    return vertex;
}

// The vertices of a batch lie 16, 20, 24 .. bytes apart, or as far as they may, by the number of the call.
static uint32_t stride_of(size_t number) {
    return number % 8 == 7 ? TRIRAST_MAX_STRIDE : (uint32_t)(sizeof(trirast_vertex) + 4 * (number % 8));
}

static trirast_batch read_batch(uint32_t stride) {
    const size_t draws = (size_t)number(), vertices = (size_t)number(), indices = (size_t)number();
    trirast_draw *own_draws = memory_of(&of_calls, draws, sizeof *own_draws);
    unsigned char *own_vertices = memory_of(&of_calls, vertices, stride);
    for (size_t k = 0; k < draws; k++) own_draws[k] = read_draw();
    memset(own_vertices, 0xff, vertices * stride);
    for (size_t k = 0; k < vertices; k++) {
        const trirast_vertex vertex = read_vertex();
        memcpy(own_vertices + k * stride, &vertex, sizeof vertex);
    }
    return (trirast_batch){.draws = own_draws, .draw_count = draws, .vertices = own_vertices, .vertex_count = vertices,
                           .vertex_stride = stride, .indices = read_numbers(indices), .index_count = indices};
}

static trirast_polygons read_polygons(void) {
    trirast_polygons found = {.fill_rule = (uint32_t)number()};
    const int with_boxes = number();
    found.corner_count = (size_t)number(), found.ring_count = (size_t)number(), found.polygon_count = (size_t)number();
    found.state = read_draw();
    trirast_corner *corners = memory_of(&of_calls, found.corner_count, sizeof *corners);
    for (size_t k = 0; k < found.corner_count; k++) corners[k].x = number(), corners[k].y = number();
    found.corners = corners;
    found.ring_ends = read_numbers(found.ring_count), found.polygon_ends = read_numbers(found.polygon_count);
    found.color_count = found.depth_count = found.polygon_count;
    found.colors = (const uint8_t(*)[4])read_bytes(4 * found.polygon_count);
    uint16_t *depths = memory_of(&of_calls, found.polygon_count, sizeof *depths);
    for (size_t k = 0; k < found.polygon_count; k++) depths[k] = (uint16_t)number();
    found.depths = depths;
    if (!with_boxes) return found;
    trirast_box *boxes = memory_of(&of_calls, found.polygon_count, sizeof *boxes);
    if (trirast_polygons_measure(&found, boxes, found.polygon_count, NULL)) exit(2);
    found.boxes = boxes, found.box_count = found.polygon_count;
    return found;
}

static trirast_status clear(const call *own, trirast_canvas *piece) { return trirast_canvas_clear(piece, &own->clear); }

static trirast_status draw(const call *own, trirast_canvas *piece) {
    return own->by_ids ? trirast_canvas_draw_ids(piece, &own->batch, own->first_id, NULL)
                       : trirast_canvas_draw(piece, &own->batch, NULL);
}

static trirast_status draw_polygons(const call *own, trirast_canvas *piece) {
    const size_t size = trirast_polygons_scratch(piece, (trirast_fill_rule)own->polygons.fill_rule);
    void *scratch = malloc(size);
    if (!scratch) exit(2);
    const trirast_status status =
        own->by_ids ? trirast_canvas_draw_polygon_ids(piece, &own->polygons, own->first_id, scratch, size, NULL)
                    : trirast_canvas_draw_polygons(piece, &own->polygons, scratch, size, NULL);
    free(scratch);
    return status;
}

// The pixels of a piece begin as many rows behind those of the canvas as its tile rows do.
static trirast_status store(const call *own, trirast_canvas *piece) {
    const size_t row = (size_t)piece->width * (own->format == TRIRAST_FORMAT_RGB8 ? 3 : 4);
    const size_t before = (size_t)piece->first * TRIRAST_TILE_SIZE * row, size = piece->height * row - before;
    return own->sample == EVERY_SAMPLE
               ? trirast_canvas_load(piece, own->format, own->pixels + before, size, 0)
               : trirast_canvas_store(piece, own->sample, own->format, own->pixels + before, size, 0);
}

static call read_call(enum kind kind, const trirast_canvas *canvas, size_t before) {
    call found = {0};
    if (kind == CLEAR) {
        found.make = clear;
        found.clear.red = byte(), found.clear.green = byte(), found.clear.blue = byte(), found.clear.alpha = byte();
        found.clear.depth = (uint16_t)number();
    } else if (kind == PICTURE) {
        found.make = store;
        found.sample = (uint32_t)number();
        const size_t channels = (size_t)number();
        found.format = channels == 3 ? TRIRAST_FORMAT_RGB8 : TRIRAST_FORMAT_RGBA8;
        found.pixels = read_bytes(channels * canvas->width * canvas->height);
    } else {
        found.make = kind == BATCH ? draw : draw_polygons;
        found.by_ids = number(), found.first_id = (uint32_t)number();
        if (kind == BATCH) found.batch = read_batch(stride_of(before));
        else found.polygons = read_polygons();
    }
    return found;
}

// ---- Threads

typedef struct {
    const call *first;
    trirast_canvas piece;
    trirast_status status;
} part;

static void *make_calls(void *given) {
    part *own = given;
    own->status = TRIRAST_STATUS_OK;
    for (const call *next = own->first; next && !own->status; next = next->next)
        own->status = next->make(next, &own->piece);
    return NULL;
}

static trirast_status make_all(const call *first, const trirast_canvas *canvas, uint32_t threads) {
    const uint32_t rows = trirast_canvas_tile_rows(canvas), count = threads < rows ? threads : rows;
    part parts[MAX_THREADS];
    pthread_t started[MAX_THREADS];
    trirast_status status = TRIRAST_STATUS_OK;
    for (uint32_t k = 0; k < count; k++) {
        parts[k].first = first;
        if (trirast_canvas_split(canvas, rows * k / count, rows * (k + 1) / count, &parts[k].piece)) exit(2);
        if (pthread_create(&started[k], NULL, make_calls, &parts[k])) exit(2);
    }
    for (uint32_t k = 0; k < count; k++) {
        pthread_join(started[k], NULL);
        if (!status) status = parts[k].status;
    }
    return status;
}

// ---- The answer

static void answer(const trirast_canvas *canvas) {
    const size_t pixels = (size_t)canvas->width * canvas->height;
    uint8_t *bytes = memory_of(&of_calls, pixels, 4);
    uint32_t *ids = memory_of(&of_calls, pixels, sizeof *ids);
    uint16_t *depths = memory_of(&of_calls, pixels, sizeof *depths);
    if (trirast_canvas_resolve(canvas, TRIRAST_FORMAT_RGBA8, bytes, 4 * pixels, 0)) exit(2);
    write_all(bytes, 4, pixels);
    if (trirast_canvas_resolve(canvas, TRIRAST_FORMAT_RGBA8_STRAIGHT, bytes, 4 * pixels, 0)) exit(2);
    write_all(bytes, 4, pixels);
    for (uint32_t s = 0; s < canvas->samples; s++) {
        if (trirast_canvas_colors(canvas, s, TRIRAST_FORMAT_RGBA8, bytes, 4 * pixels, 0)) exit(2);
        write_all(bytes, 4, pixels);
        if (trirast_canvas_ids(canvas, s, ids, pixels, 0) || trirast_canvas_depths(canvas, s, depths, pixels, 0))
            exit(2);
        write_all(ids, sizeof *ids, pixels), write_all(depths, sizeof *depths, pixels);
    }
}

static void make_and_answer(const call *first, const trirast_canvas *canvas) {
    const uint32_t status = (uint32_t)make_all(first, canvas, (uint32_t)number());
    write_all(&status, sizeof status, 1);
    if (!status) answer(canvas);
    fflush(stdout);
    free_all(&of_calls);
}

static trirast_canvas read_canvas(void) {
    free_all(&of_canvas);
    trirast_canvas found = {.width = (uint32_t)number()};
    found.height = (uint32_t)number(), found.samples = (uint32_t)number(), found.channels = (uint32_t)number();
    found.origin_x = number(), found.origin_y = number();
    const size_t size = trirast_canvas_size(&found);
    if (trirast_canvas_init(&found, memory_of(&of_canvas, size, 1), size)) exit(2);
    return found;
}

int main(void) {
    trirast_canvas canvas = {0};
    call *first = NULL, **next = &first;
    size_t calls = 0;
    int32_t kind;
    while (fread(&kind, sizeof kind, 1, stdin) == 1) {
        if (kind == CANVAS) {
            canvas = read_canvas();
        } else if (kind == READ) {
            make_and_answer(first, &canvas);
            first = NULL, next = &first, calls = 0;
        } else {
            *next = memory_of(&of_calls, 1, sizeof **next);
            **next = read_call((enum kind)kind, &canvas, calls++);
            next = &(*next)->next;
        }
    }
    return 0;
}
