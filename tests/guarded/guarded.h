// Random calls on canvases, with every buffer between pages that nobody may touch, beside a plain renderer.
#ifndef GUARDED_H
#define GUARDED_H

#include <stddef.h>
#include <stdint.h>
#include <stdio.h>

#include "trirast.h"

// ---- Random numbers, in numbers.c

typedef struct {
    uint64_t state;
} numbers;

uint64_t next(numbers *from);
// From 0 to before `count`.
uint32_t below(numbers *from, uint32_t count);
// Both ends are among them.
int64_t between(numbers *from, int64_t least, int64_t greatest);
// Once in so many times.
int one_in(numbers *from, uint32_t times);

// ---- Memory between pages that nobody may touch, in pages.c

typedef struct {
    unsigned char *first, *end; // what may be touched between the two pages
    unsigned char *bytes;       // what was taken
    size_t size;
} guarded;

// Takes memory that ends at the page behind it, or begins behind the page before it. What lies beside it is marked.
// Without any bytes the address is that of a page that nobody may touch.
void *take(guarded *from, size_t size, int at_end);
// The same, with a copy of these bytes.
void *take_copy(guarded *from, const void *bytes, size_t size, int at_end);
// Makes what was taken readable alone, or writable too.
void protect(const guarded *memory, int is_constant);
// Whether what lies beside it is as `take` left it.
int is_marked(const guarded *memory);

// ---- What a canvas is, sample by sample, in plain.c

typedef struct {
    uint8_t channels[4];
    uint16_t depth;
} plain_sample;

typedef struct {
    uint32_t width, height, samples;
    int has_alpha;
    int64_t origin_x, origin_y;
    plain_sample *all; // of pixel (x, y) sample s is at (y * width + x) * samples + s
} plain;

// Rows of pixels, from `top` to before `bottom`.
typedef struct {
    uint32_t top, bottom;
} plain_rows;

plain_sample *sample_at(const plain *canvas, uint32_t x, uint32_t y, uint32_t s);
void plain_clear(const plain *canvas, plain_rows rows, const trirast_clear *clear);

// A triangle or a polygon as it is drawn: which samples it covers, and what it has there.
typedef struct plain_shape plain_shape;
struct plain_shape {
    trirast_vertex corners[3]; // of a triangle
    const trirast_polygons *polygons;
    size_t polygon; // of these, if there are any
    const trirast_draw *state;
    int has_id;
    uint32_t id;
};

void plain_draw(const plain *canvas, plain_rows rows, const plain_shape *shape);

// A batch as the caller has it. Its vertices lie one behind another, and its indices are words.
typedef struct {
    const trirast_draw *draws;
    size_t draw_count;
    const trirast_vertex *vertices;
    size_t vertex_count;
    const uint32_t *indices;
    size_t index_count;
    int in_order;
} plain_batch;

void plain_draw_batch(const plain *canvas, plain_rows rows, const plain_batch *batch, int by_ids, uint32_t first_id);
void plain_draw_polygons(const plain *canvas, plain_rows rows, const trirast_polygons *polygons, int by_ids,
                         uint32_t first_id);

uint32_t pixel_bytes(uint32_t format);
// Writes the pixel of a colour, and reads it.
void write_pixel(uint32_t format, const uint8_t channels[4], uint8_t *pixel);
void read_pixel(uint32_t format, const uint8_t *pixel, int has_alpha, uint8_t channels[4]);
void plain_mean(const plain *canvas, uint32_t x, uint32_t y, uint8_t channels[4]);
trirast_edges plain_edges(const trirast_corners *corners, int32_t x, int32_t y);

// ---- What a call refuses, in refusals.c

// An error as a call reports it. TRIRAST_STATUS_OK: there is none.
typedef struct {
    trirast_status status;
    trirast_batch_cause cause;
    size_t draw, element, value;
} due;

due due_status(trirast_status status);
due due_piece(const trirast_canvas *canvas);
due due_batch(const trirast_canvas *canvas, const trirast_batch *given, const plain_batch *batch, int by_ids,
              uint32_t first_id);
due due_polygons(const trirast_canvas *canvas, const trirast_polygons *polygons, int by_ids, uint32_t first_id,
                 int has_scratch);
due due_boxes(const trirast_polygons *polygons, size_t room);
due due_image(const trirast_canvas *canvas, uint32_t format, const uint32_t *sample, size_t stride, size_t size);
due due_entries(const trirast_canvas *canvas, uint32_t sample, size_t entry, size_t stride, size_t count);
due due_tile(const trirast_canvas *canvas, uint32_t column, uint32_t row, int has_room);

// ---- A scene, in scene.c and calls.c

typedef enum {
    IN_CANVAS,
    IN_BATCH,
    IN_DRAWS,
    IN_VERTICES,
    IN_INDICES,
    IN_PICTURE,
    IN_POLYGONS,
    IN_CORNERS,
    IN_RINGS,
    IN_ENDS,
    IN_COLORS,
    IN_DEPTHS,
    IN_BOXES,
    IN_SCRATCH,
    IN_ERROR,
    IN_STRUCT,
    BUFFERS
} buffer;

typedef struct {
    uint64_t seed;
    numbers from;
    guarded buffers[BUFFERS];
    trirast_canvas whole, pieces[2];
    size_t piece_count;
    plain canvas;
    const char *call; // the last one
    int is_wrong;
} scene;

// Calls that were made, that were refused, and samples that were compared.
typedef struct {
    uint64_t calls, refused, samples;
} counts;

extern counts done;

// Says what is wrong with the scene, once.
void wrong(scene *now, const char *what);
plain_rows rows_of(const trirast_canvas *piece);
void *give(scene *now, buffer where, const void *bytes, size_t size);
void *give_room(scene *now, buffer where, size_t size);
// Compares how a call ended, and that it wrote nothing beside its buffers and nothing to what it only reads.
int ended(scene *now, trirast_status status, const trirast_error *error, due wanted);

// One call of each kind.
void call_draw(scene *now);
void call_polygons(scene *now);
void call_image(scene *now);
void call_entries(scene *now);
void call_tile(scene *now);
void call_clear(scene *now);
void call_edges(scene *now);
// Makes a canvas one that is nearly right, in one call of four.
trirast_canvas nearly(scene *now, const trirast_canvas *piece);
// A coordinate on the screen near the canvas, by its origin on this axis.
int32_t coordinate(scene *now, int64_t origin, uint32_t side);
trirast_draw state_of(scene *now);

#endif
