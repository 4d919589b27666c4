// What calls on canvases refuse: each by its status, with samples and buffers unchanged.
#include <stdlib.h>
#include <string.h>

#include "canvases.h"

enum { CALLS = 14, BROKEN = 28, BROKEN_PIECES = 8, SHORT = 30, BROKEN_BATCHES = 47, BY_IDS = 3, WRONG_SIZES = 11 };

// ---- Canvases -------------------------------------------------------------------------------------------------------

// One member of the canvas is another. Returns the status that is due.
static trirast_status break_canvas(trirast_canvas *canvas, int change) {
    switch (change) {
    // The size of another release.
    case 0: canvas->struct_size = sizeof *canvas - 8, canvas->width = 0; return TRIRAST_STATUS_BAD_STRUCT_SIZE;
    case 1: canvas->struct_size = sizeof *canvas + 8; return TRIRAST_STATUS_BAD_STRUCT_SIZE;
    case 2: canvas->width = 0; return TRIRAST_STATUS_BAD_CANVAS;
    case 3: canvas->width = 4097; return TRIRAST_STATUS_BAD_CANVAS;
    case 4: canvas->width = UINT32_MAX; return TRIRAST_STATUS_BAD_CANVAS;
    case 5: canvas->height = 0; return TRIRAST_STATUS_BAD_CANVAS;
    case 6: canvas->height = 4097; return TRIRAST_STATUS_BAD_CANVAS;
    case 7: canvas->samples = 3; return TRIRAST_STATUS_BAD_CANVAS;
    case 8: canvas->channels = 5; return TRIRAST_STATUS_BAD_CANVAS;
    case 9: canvas->samples = 17; return TRIRAST_STATUS_BAD_CANVAS;
    case 10: canvas->end++; return TRIRAST_STATUS_BAD_TILE_ROWS;
    case 11: canvas->first = canvas->end + 1; return TRIRAST_STATUS_BAD_TILE_ROWS;
    case 12: canvas->end = UINT32_MAX; return TRIRAST_STATUS_BAD_TILE_ROWS;
    // The memory of more tile rows than these, and of fewer.
    case 13: canvas->first = 1; return TRIRAST_STATUS_BAD_MEMORY;
    case 14: canvas->plane_count /= 3; return TRIRAST_STATUS_BAD_MEMORY;
    case 15: canvas->plane_count--; return TRIRAST_STATUS_BAD_MEMORY;
    case 16: canvas->samples = 1; return TRIRAST_STATUS_BAD_MEMORY;
    case 17: canvas->width = 64; return TRIRAST_STATUS_BAD_MEMORY;
    case 18: canvas->end = canvas->first; return TRIRAST_STATUS_BAD_MEMORY;
    case 19: canvas->samples = 5; return TRIRAST_STATUS_BAD_CANVAS;
    case 20: canvas->samples = UINT32_MAX; return TRIRAST_STATUS_BAD_CANVAS;
    case 21: canvas->samples = 2; return TRIRAST_STATUS_BAD_MEMORY;
    case 22: canvas->samples = 16; return TRIRAST_STATUS_BAD_MEMORY;
    // One sample.
    case 23: canvas->samples = 0; return TRIRAST_STATUS_BAD_MEMORY;
    case 24: canvas->channels = 1; return TRIRAST_STATUS_BAD_CANVAS;
    case 25: canvas->memory = NULL, canvas->plane_count = 0; return TRIRAST_STATUS_BAD_MEMORY;
    case 26: canvas->initialized = 0; return TRIRAST_STATUS_BAD_MEMORY;
    // Nothing but its size is set.
    default:
        canvas->first = canvas->end = canvas->initialized = 0, canvas->memory = NULL, canvas->plane_count = 0;
        return TRIRAST_STATUS_BAD_MEMORY;
    }
}

// Each call on tile rows, by its number, with a buffer for what it reads or writes.
static trirast_status call_on(int call, trirast_canvas *canvas, const quad *all, const marked *buffer,
                              trirast_error *error) {
    static const trirast_clear clear = {1, 2, 3, 4, 9, 0};
    static const trirast_polygons no_polygons = {0};
    static uint64_t scratch[8 * 32 * 2];
    void *bytes = buffer->bytes;
    switch (call) {
    case 0: return trirast_canvas_clear(canvas, &clear);
    case 1: return trirast_canvas_load(canvas, TRIRAST_FORMAT_RGBA8, bytes, buffer->size, 4 * WIDTH);
    case 2: return trirast_canvas_draw(canvas, &all->made.batch, error);
    case 3: return trirast_canvas_draw_ids(canvas, &all->made.batch, 0, error);
    case 4: return trirast_canvas_resolve(canvas, TRIRAST_FORMAT_BGRA8, bytes, buffer->size, 4 * WIDTH);
    case 5: return trirast_canvas_depths(canvas, 3, bytes, buffer->size / 4, 2 * WIDTH);
    case 6: return trirast_canvas_ids(canvas, 3, bytes, buffer->size / 4, 4 * WIDTH);
    case 7: return trirast_canvas_colors(canvas, 3, TRIRAST_FORMAT_RGBA8, bytes, buffer->size, 4 * WIDTH);
    case 8: return trirast_canvas_store(canvas, 3, TRIRAST_FORMAT_RGBA8, bytes, buffer->size, 4 * WIDTH);
    case 9: return trirast_canvas_tile_ids(canvas, 0, 0, bytes, buffer->size / 4, &(uint32_t){9});
    case 10: return trirast_canvas_tile_store(canvas, 0, 0, bytes, buffer->size / 4);
    case 11:
        return trirast_canvas_tile_blend(canvas, 0, 0, all->draws, bytes, buffer->size / 4, &(uint16_t){9}, 1,
                                         &(uint64_t){UINT64_MAX}, 1);
    case 12: return trirast_canvas_draw_polygons(canvas, &no_polygons, scratch, sizeof scratch, error);
    default: return trirast_canvas_draw_polygon_ids(canvas, &no_polygons, 0, scratch, sizeof scratch, error);
    }
}

// Whether a call writes an error.
static int writes_error(int call) { return call == 2 || call == 3 || call >= 12; }

static int is_unchanged(const quad *all, const marked *buffer) {
    return holds_just(&all->made.memory, NULL, 0) && holds_just(buffer, NULL, 0);
}

static void compare_broken_canvases(void) {
    for (int change = 0; change < BROKEN; change++)
        for (int call = 0; call < CALLS; call++) {
            quad all;
            trirast_error error = UNSET;
            make_quad(&all);
            marked buffer = mark(4 * PIXELS);
            trirast_canvas canvas = all.made.whole;
            trirast_status due = break_canvas(&canvas, change), status = call_on(call, &canvas, &all, &buffer, &error);
            int has_error = writes_error(call) ? is_error(&error, status, due) : !memcmp(&error, &UNSET, sizeof UNSET);
            expect(status == due && has_error && is_unchanged(&all, &buffer),
                   "change %d, call %d: status %u where %u was due, or a change", change, call, status, due);
            free(buffer.all), free(all.made.memory.all);
        }
    report("a canvas with a member out of range, or memory of another size, is refused by each call");
}

// Tile rows of which there are none have no samples and no pixels.
static void compare_no_rows(void) {
    for (uint32_t row = 0; row <= 3; row++)
        for (int call = 0; call < CALLS; call++) {
            quad all;
            trirast_error error = UNSET;
            make_quad(&all);
            marked buffer = mark(0);
            trirast_canvas canvas = all.made.whole;
            canvas.first = canvas.end = row, canvas.memory = NULL, canvas.plane_count = 0;
            const marked none = {NULL, NULL, 0};
            trirast_status status = call_on(call, &canvas, &all, call ? &none : &buffer, &error);
            trirast_status due = call >= 9 && call <= 11 ? TRIRAST_STATUS_BAD_TILE : TRIRAST_STATUS_OK;
            expect(status == due && is_unchanged(&all, &buffer), "row %u, call %d: status %u, or a change", row, call,
                   status);
            free(buffer.all), free(all.made.memory.all);
        }
    report("each call takes no tile rows, with NULL for their samples and pixels, and does nothing; there is no tile");
}

// ---- Pieces ---------------------------------------------------------------------------------------------------------

// A piece that the whole does not have, or of a whole that is broken. Returns the status that is due.
static trirast_status break_piece(trirast_canvas *whole, int change, uint32_t *first, uint32_t *end) {
    trirast_status due = TRIRAST_STATUS_BAD_TILE_ROWS;
    *first = 1, *end = 2;
    switch (change - BROKEN) {
    case 0: *first = 2, *end = 1; break;
    case 1: *end = whole->end + 1; break;
    case 2: *end = UINT32_MAX; break;
    case 3: *first = *end = whole->end + 1; break;
    case 4: whole->first = 2, whole->plane_count /= 3, *first = 1; break;
    case 5: whole->memory = NULL; return TRIRAST_STATUS_BAD_MEMORY;
    case 6: whole->memory = (uint8_t *)whole->memory + 1; return TRIRAST_STATUS_BAD_MEMORY;
    case 7: whole->memory = (uint8_t *)whole->memory + 63; return TRIRAST_STATUS_BAD_MEMORY;
    default: due = break_canvas(whole, change);
    }
    // Which size a struct has is a part of which canvas there is. Of two errors that of the tile rows comes first.
    if (due == TRIRAST_STATUS_BAD_STRUCT_SIZE) due = TRIRAST_STATUS_BAD_CANVAS;
    if (due == TRIRAST_STATUS_BAD_MEMORY && (*first < whole->first || *end > whole->end))
        due = TRIRAST_STATUS_BAD_TILE_ROWS;
    return due;
}

static void compare_broken_pieces(void) {
    for (int change = 0; change < BROKEN + BROKEN_PIECES; change++) {
        quad all;
        trirast_canvas piece, kept;
        uint32_t first, end;
        make_quad(&all);
        memset(&piece, MARK, sizeof piece);
        memcpy(&kept, &piece, sizeof piece);
        trirast_canvas whole = all.made.whole;
        trirast_status due = break_piece(&whole, change, &first, &end);
        trirast_status status = trirast_canvas_split(&whole, first, end, &piece);
        expect(status == due && !memcmp(&piece, &kept, sizeof piece),
               "change %d: status %u where %u was due, or a change", change, status, due);
        free(all.made.memory.all);
    }
    report("a piece that the tile rows do not have, of a broken canvas, or of memory at NULL or at an odd address, is "
           "refused");
}

static void compare_pieces_of_pieces(void) {
    quad all;
    trirast_canvas piece, same;
    make_quad(&all);
    int is_made = !trirast_canvas_split(&all.made.whole, 1, 3, &piece) && !trirast_canvas_split(&piece, 2, 2, &same);
    expect(is_made && piece.plane_count == all.made.whole.plane_count / 3 * 2 && same.plane_count == 0, "other sizes");
    expect(trirast_canvas_split(&piece, 0, 1, &same) == TRIRAST_STATUS_BAD_TILE_ROWS,
           "a piece has tile rows of the whole");
    marked buffer = mark(4 * PIXELS);
    trirast_error error;
    for (int call = 0; call < CALLS; call++)
        for (int is_smaller = 0; is_smaller < 2; is_smaller++) {
            // The memory of one tile row for two, and that of two for one.
            trirast_canvas other = piece;
            if (is_smaller) other.plane_count /= 2;
            else other.first++;
            expect(call_on(call, &other, &all, &buffer, &error) == TRIRAST_STATUS_BAD_MEMORY &&
                       is_unchanged(&all, &buffer),
                   "call %d takes a piece with the memory of another", call);
        }
    free(buffer.all), free(all.made.memory.all);
    report("a piece of a piece has its tile rows alone, and one with the memory of another is refused by each call");
}

// ---- Buffers --------------------------------------------------------------------------------------------------------

// Calls that lack a byte or an entry, or name a format or a sample that there is not.
static trirast_status call_short(int change, trirast_canvas *canvas, void *bytes, trirast_status *due) {
    enum { LAST = 4 * PIXELS };
    const trirast_format rgb = TRIRAST_FORMAT_RGB8, rgba = TRIRAST_FORMAT_RGBA8, bgra = TRIRAST_FORMAT_BGRA8;
    *due = change < 18   ? TRIRAST_STATUS_BUFFER_TOO_SMALL
           : change < 22 ? TRIRAST_STATUS_BAD_FORMAT
           : change < 26 ? TRIRAST_STATUS_BAD_SAMPLE
                         : TRIRAST_STATUS_BAD_STRIDE;
    switch (change) {
    case 0: return trirast_canvas_load(canvas, rgba, bytes, LAST - 1, 4 * WIDTH);
    case 1: return trirast_canvas_load(canvas, rgb, bytes, LAST, 3 * WIDTH - 1);
    case 2: return trirast_canvas_load(canvas, bgra, bytes, LAST - 1, 0);
    case 3: return trirast_canvas_load(canvas, rgb, bytes, LAST, SIZE_MAX);
    case 4: return trirast_canvas_load(canvas, rgb, NULL, 0, 3 * WIDTH);
    case 5: return trirast_canvas_resolve(canvas, rgba, bytes, LAST - 1, 4 * WIDTH);
    case 6: return trirast_canvas_resolve(canvas, rgb, bytes, LAST, 3 * WIDTH - 1);
    case 7: return trirast_canvas_resolve(canvas, bgra, bytes, LAST - 1, 0);
    case 8: return trirast_canvas_resolve(canvas, rgb, bytes, LAST, SIZE_MAX);
    case 9: return trirast_canvas_resolve(canvas, rgb, NULL, 0, 0);
    case 10: return trirast_canvas_depths(canvas, 0, bytes, PIXELS - 1, 2 * WIDTH);
    case 11: return trirast_canvas_depths(canvas, 0, bytes, PIXELS, 2 * WIDTH - 2);
    case 12: return trirast_canvas_depths(canvas, 0, bytes, PIXELS, SIZE_MAX - 1);
    case 13: return trirast_canvas_depths(canvas, 0, NULL, 0, 0);
    case 14: return trirast_canvas_ids(canvas, 0, bytes, PIXELS - 1, 0);
    case 15: return trirast_canvas_ids(canvas, 0, bytes, PIXELS, 4 * WIDTH - 4);
    case 16: return trirast_canvas_ids(canvas, 0, bytes, PIXELS, SIZE_MAX - 3);
    case 17: return trirast_canvas_ids(canvas, 0, NULL, 0, 4 * WIDTH);
    case 18: return trirast_canvas_load(canvas, (trirast_format)99, bytes, LAST, 4 * WIDTH);
    case 19: return trirast_canvas_load(canvas, (trirast_format)UINT32_MAX, bytes, LAST, 4 * WIDTH);
    case 20: return trirast_canvas_resolve(canvas, (trirast_format)99, bytes, 0, 0);
    case 21: return trirast_canvas_resolve(canvas, (trirast_format)UINT32_MAX, bytes, LAST, 4 * WIDTH);
    case 22: return trirast_canvas_depths(canvas, 4, bytes, 0, 0);
    case 23: return trirast_canvas_depths(canvas, UINT32_MAX, bytes, PIXELS, 2 * WIDTH);
    case 24: return trirast_canvas_ids(canvas, 4, bytes, 0, 0);
    case 25: return trirast_canvas_ids(canvas, UINT32_MAX, bytes, PIXELS, 4 * WIDTH);
    case 26: return trirast_canvas_depths(canvas, 0, bytes, PIXELS, 2 * WIDTH + 1);
    case 27: return trirast_canvas_depths(canvas, 0, bytes, PIXELS, SIZE_MAX);
    case 28: return trirast_canvas_ids(canvas, 0, bytes, PIXELS, 4 * WIDTH + 2);
    default: return trirast_canvas_ids(canvas, 0, bytes, PIXELS, 15);
    }
}

static void compare_short_buffers(void) {
    for (int change = 0; change < SHORT; change++) {
        quad all;
        trirast_status due;
        make_quad(&all);
        marked buffer = mark(4 * PIXELS);
        trirast_status status = call_short(change, &all.made.whole, buffer.bytes, &due);
        expect(status == due && is_unchanged(&all, &buffer), "change %d: status %u where %u was due, or a change",
               change, status, due);
        free(buffer.all), free(all.made.memory.all);
    }
    report("a buffer or a stride that is too small, no buffer, a format and a sample that there is not, and a stride "
           "of parts of an entry are refused");
}

// ---- Batches --------------------------------------------------------------------------------------------------------

// What is due: a cause, the draw in which it is, and the element, which are TRIRAST_NONE if it is in none.
typedef struct {
    trirast_batch_cause cause;
    size_t draw, element;
} place;

// One number of a draw is outside of its range. Returns the cause that is due.
static trirast_batch_cause break_state(quad *all, int change) {
    trirast_draw *last = &all->draws[1];
    switch (change) {
    case 0: all->draws[0].cull = 3; return TRIRAST_BATCH_BAD_CULL;
    case 1: last->topology = 3; return TRIRAST_BATCH_BAD_TOPOLOGY;
    case 2: last->topology = 255; return TRIRAST_BATCH_BAD_TOPOLOGY;
    case 3: last->cull = 255; return TRIRAST_BATCH_BAD_CULL;
    case 4: last->depth_test = 8; return TRIRAST_BATCH_BAD_DEPTH_TEST;
    case 5: last->depth_test = 255; return TRIRAST_BATCH_BAD_DEPTH_TEST;
    case 6: last->depth_write = 2; return TRIRAST_BATCH_BAD_DEPTH_WRITE;
    case 7: last->keep = 16; return TRIRAST_BATCH_BAD_KEEP;
    case 8: last->keep = 255; return TRIRAST_BATCH_BAD_KEEP;
    case 9: last->scissor_enable = 2; return TRIRAST_BATCH_BAD_SCISSOR_ENABLE;
    case 10: last->blend.color_source = 12; return TRIRAST_BATCH_BAD_FACTOR;
    case 11: last->blend.color_source = 13; return TRIRAST_BATCH_BAD_FACTOR;
    case 12: last->blend.color_source = 16; return TRIRAST_BATCH_BAD_FACTOR;
    case 13: last->blend.color_stored = 12; return TRIRAST_BATCH_BAD_FACTOR;
    case 14: last->blend.color_stored = 255; return TRIRAST_BATCH_BAD_FACTOR;
    case 15: last->blend.color_operation = 6; return TRIRAST_BATCH_BAD_OPERATION;
    case 16: last->blend.alpha_source = 13; return TRIRAST_BATCH_BAD_FACTOR;
    case 17: last->blend.alpha_stored = 16; return TRIRAST_BATCH_BAD_FACTOR;
    case 18: last->blend.alpha_operation = 255; return TRIRAST_BATCH_BAD_OPERATION;
    // Of several the first is named.
    default: last->blend.color_source = 12, last->keep = 16, last->cull = 3; return TRIRAST_BATCH_BAD_CULL;
    }
}

// One thing of the batch is another. Returns what is due.
static place break_batch(quad *all, int change, uint32_t *first_id) {
    trirast_batch *batch = &all->made.batch;
    trirast_draw *last = &all->draws[1];
    switch (change) {
    // By ids alone.
    case 0: *first_id = 16777215; return (place){TRIRAST_BATCH_TOO_MANY_IDS, 1, TRIRAST_NONE};
    case 1: *first_id = 16777216; return (place){TRIRAST_BATCH_TOO_MANY_IDS, 1, TRIRAST_NONE};
    case 2: *first_id = UINT32_MAX; return (place){TRIRAST_BATCH_TOO_MANY_IDS, 0, TRIRAST_NONE};
    case 3: all->indices[3] = 5; return (place){TRIRAST_BATCH_BAD_INDEX, 1, 3};
    case 4: all->indices[0] = UINT32_MAX; return (place){TRIRAST_BATCH_BAD_INDEX, 1, 0};
    case 5:
        last->vertex_count = 0, batch->vertices = NULL, batch->vertex_count = 0;
        return (place){TRIRAST_BATCH_BAD_INDEX, 1, 0};
    case 6: last->index_count = 3, batch->index_count = 3; return (place){TRIRAST_BATCH_NOT_WHOLE, 1, TRIRAST_NONE};
    case 7: last->vertex_count = 6; return (place){TRIRAST_BATCH_TOO_FEW_VERTICES, 1, TRIRAST_NONE};
    case 8: last->vertex_count = SIZE_MAX; return (place){TRIRAST_BATCH_TOO_FEW_VERTICES, 1, TRIRAST_NONE};
    case 9: last->index_count = 8; return (place){TRIRAST_BATCH_TOO_FEW_INDICES, 1, TRIRAST_NONE};
    case 10: last->index_count = SIZE_MAX; return (place){TRIRAST_BATCH_TOO_FEW_INDICES, 1, TRIRAST_NONE};
    case 11:
        batch->indices = NULL, batch->index_count = 0;
        return (place){TRIRAST_BATCH_TOO_FEW_INDICES, 1, TRIRAST_NONE};
    case 12:
        batch->vertices = NULL, batch->vertex_count = 0;
        return (place){TRIRAST_BATCH_TOO_FEW_VERTICES, 1, TRIRAST_NONE};
    case 13: batch->draw_count = 1; return (place){TRIRAST_BATCH_LEFT_OVER, TRIRAST_NONE, TRIRAST_NONE};
    case 14: batch->index_count = 5; return (place){TRIRAST_BATCH_LEFT_OVER, TRIRAST_NONE, TRIRAST_NONE};
    // The draw of {0} is of triangles.
    case 15: batch->draws = NULL, batch->draw_count = 0; return (place){TRIRAST_BATCH_NOT_WHOLE, 0, TRIRAST_NONE};
    case 16: all->vertices[2].x = all->vertices[2].y = 128; return (place){TRIRAST_BATCH_NOT_CONVEX, 1, 0};
    case 17: all->indices[3] = 4; return (place){TRIRAST_BATCH_BAD_POSITION, 1, 4};
    case 18: all->vertices[0].y = -8388609; return (place){TRIRAST_BATCH_BAD_POSITION, 1, 0};
    case 19: all->vertices[1].x = INT32_MIN; return (place){TRIRAST_BATCH_BAD_POSITION, 1, 1};
    case 20: all->made.whole.origin_x = 40000; return (place){TRIRAST_BATCH_BAD_POSITION, 1, 0};
    case 21: all->made.whole.origin_y = INT32_MIN; return (place){TRIRAST_BATCH_BAD_POSITION, 1, 0};
    case 22: batch->vertex_count = 6; return (place){TRIRAST_BATCH_LEFT_OVER, TRIRAST_NONE, TRIRAST_NONE};
    case 23: batch->vertex_count = 4; return (place){TRIRAST_BATCH_TOO_FEW_VERTICES, 1, TRIRAST_NONE};
    case 24: batch->index_count = 3; return (place){TRIRAST_BATCH_TOO_FEW_INDICES, 1, TRIRAST_NONE};
    // As many vertices as would have 80 bytes, those of three, if their size wrapped; and as many as would have none.
    case 25:
        batch->vertex_stride = 32, batch->vertex_count = SIZE_MAX / 32 + 1 + 3;
        last->topology = TRIRAST_TOPOLOGY_TRIANGLES;
        last->vertex_count = last->index_count = batch->index_count = 3;
        return (place){TRIRAST_BATCH_LEFT_OVER, TRIRAST_NONE, TRIRAST_NONE};
    case 26:
        batch->vertex_count = SIZE_MAX / 16 + 1;
        return (place){TRIRAST_BATCH_LEFT_OVER, TRIRAST_NONE, TRIRAST_NONE};
    default: return (place){break_state(all, change - 27), change == 27 ? 0 : 1, TRIRAST_NONE};
    }
}

static void compare_broken_batches(void) {
    for (int change = 0; change < BROKEN_BATCHES; change++)
        for (int by_ids = change < BY_IDS; by_ids < 2; by_ids++) {
            quad all;
            trirast_error error = UNSET;
            uint32_t first_id = 0;
            make_quad(&all);
            const place due = break_batch(&all, change, &first_id);
            trirast_status status = by_ids ? trirast_canvas_draw_ids(&all.made.whole, &all.made.batch, first_id, &error)
                                           : trirast_canvas_draw(&all.made.whole, &all.made.batch, &error);
            int is_index = due.cause == TRIRAST_BATCH_BAD_INDEX;
            int is_there = error.cause == (uint32_t)due.cause && error.draw == due.draw &&
                           error.element == due.element &&
                           error.value == (is_index ? all.indices[due.element] : TRIRAST_NONE);
            expect(is_error(&error, status, TRIRAST_STATUS_BAD_BATCH) && is_there &&
                       holds_just(&all.made.memory, NULL, 0),
                   "change %d: status %u, cause %u in draw %zu at %zu, or a change", change, status, error.cause,
                   error.draw, error.element);
            // Nobody has to want the error.
            status = by_ids ? trirast_canvas_draw_ids(&all.made.whole, &all.made.batch, first_id, NULL)
                            : trirast_canvas_draw(&all.made.whole, &all.made.batch, NULL);
            expect(status == TRIRAST_STATUS_BAD_BATCH && holds_just(&all.made.memory, NULL, 0),
                   "change %d: status %u without an error", change, status);
            free(all.made.memory.all);
        }
    report(
        "a batch with a number out of range, or of other lengths than its draws say, is refused, and nothing is drawn");
}

// A size or a stride of the batch that there is not.
static trirast_status break_size(trirast_batch *batch, int change) {
    switch (change) {
    case 0: batch->struct_size = sizeof *batch + 8; return TRIRAST_STATUS_BAD_STRUCT_SIZE;
    case 1: batch->struct_size = sizeof *batch - 8; return TRIRAST_STATUS_BAD_STRUCT_SIZE;
    case 2: batch->vertex_stride = 15; return TRIRAST_STATUS_BAD_STRIDE;
    case 3: batch->vertex_stride = 12; return TRIRAST_STATUS_BAD_STRIDE;
    case 4: batch->vertex_stride = 18; return TRIRAST_STATUS_BAD_STRIDE;
    case 5: batch->index_size = 3; return TRIRAST_STATUS_BAD_INDEX_SIZE;
    case 6: batch->index_size = 1; return TRIRAST_STATUS_BAD_INDEX_SIZE;
    case 7: batch->index_size = 8; return TRIRAST_STATUS_BAD_INDEX_SIZE;
    case 8: batch->vertex_stride = TRIRAST_MAX_STRIDE + 4; return TRIRAST_STATUS_BAD_STRIDE;
    case 9: batch->vertex_stride = UINT32_MAX - 3; return TRIRAST_STATUS_BAD_STRIDE;
    // The stride is looked at before the size.
    default: batch->index_size = 3, batch->vertex_stride = 22; return TRIRAST_STATUS_BAD_STRIDE;
    }
}

static void compare_wrong_sizes(void) {
    for (int change = 0; change < WRONG_SIZES; change++)
        for (int by_ids = 0; by_ids < 2; by_ids++) {
            quad all;
            trirast_error error = UNSET;
            make_quad(&all);
            trirast_batch *batch = &all.made.batch;
            trirast_status due = break_size(batch, change);
            trirast_status status = by_ids ? trirast_canvas_draw_ids(&all.made.whole, batch, 0, &error)
                                           : trirast_canvas_draw(&all.made.whole, batch, &error);
            expect(is_error(&error, status, due) && holds_just(&all.made.memory, NULL, 0),
                   "change %d: status %u where %u was due", change, status, due);
            free(all.made.memory.all);
        }
    report("a struct of another release, strides of 15, 18 and 2,052 bytes and indices of 3 bytes are refused");
}

void compare_refused_canvases(void) {
    compare_broken_canvases();
    compare_no_rows();
    compare_broken_pieces();
    compare_pieces_of_pieces();
    compare_short_buffers();
    compare_broken_batches();
    compare_wrong_sizes();
}
