// The first check of a call that fails, in the order in which trirast.h names them.
#include "guarded.h"

enum { LOWEST = -8388608, HIGHEST = 8388607, IDS = 16777216 };

due due_status(trirast_status status) {
    const due found = {status, (trirast_batch_cause)0, TRIRAST_NONE, TRIRAST_NONE, TRIRAST_NONE};
    return found;
}

static due cause_in(trirast_batch_cause cause, size_t draw) {
    const due found = {TRIRAST_STATUS_BAD_BATCH, cause, draw, TRIRAST_NONE, TRIRAST_NONE};
    return found;
}

static due cause_at(trirast_batch_cause cause, size_t draw, size_t element) {
    const due found = {TRIRAST_STATUS_BAD_BATCH, cause, draw, element, TRIRAST_NONE};
    return found;
}

static int is_size(uint32_t given, size_t own) { return given == 0 || given == own; }

// ---- Canvases

static uint32_t samples_of(const trirast_canvas *canvas) { return canvas->samples ? canvas->samples : 1; }

static int is_canvas(const trirast_canvas *canvas) {
    const uint32_t samples = samples_of(canvas), channels = canvas->channels;
    return canvas->width >= 1 && canvas->width <= 4096 && canvas->height >= 1 && canvas->height <= 4096 &&
           samples <= 16 && (samples & (samples - 1)) == 0 && (channels == 0 || channels == 3 || channels == 4);
}

due due_piece(const trirast_canvas *canvas) {
    const size_t rows = ((size_t)canvas->height + 63) / 64, columns = ((size_t)canvas->width + 63) / 64;
    if (!is_size(canvas->struct_size, sizeof *canvas)) return due_status(TRIRAST_STATUS_BAD_STRUCT_SIZE);
    if (!is_canvas(canvas)) return due_status(TRIRAST_STATUS_BAD_CANVAS);
    if (canvas->first > canvas->end || canvas->end > rows) return due_status(TRIRAST_STATUS_BAD_TILE_ROWS);
    if (canvas->initialized != 1 ||
        canvas->plane_count != (canvas->end - canvas->first) * columns * (1 + 65 * (size_t)samples_of(canvas)))
        return due_status(TRIRAST_STATUS_BAD_MEMORY);
    return due_status(TRIRAST_STATUS_OK);
}

static size_t shown_rows(const trirast_canvas *canvas) {
    const uint32_t bottom = 64 * canvas->end < canvas->height ? 64 * canvas->end : canvas->height;
    return bottom - (64 * canvas->first < bottom ? 64 * canvas->first : bottom);
}

// Whether rows of so many bytes fit: between the starts of two rows, and the last one before the end.
static int has_room(const trirast_canvas *canvas, size_t row, size_t stride, size_t size) {
    const size_t step = stride ? stride : row, rows = shown_rows(canvas);
    if (row > step) return 0;
    return rows == 0 || (size >= row && (rows == 1 || (size - row) / step >= rows - 1));
}

due due_image(const trirast_canvas *canvas, uint32_t format, const uint32_t *sample, size_t stride, size_t size) {
    const due piece = due_piece(canvas);
    if (piece.status) return piece;
    if (format > TRIRAST_MAX_FORMAT) return due_status(TRIRAST_STATUS_BAD_FORMAT);
    if (sample && *sample >= samples_of(canvas)) return due_status(TRIRAST_STATUS_BAD_SAMPLE);
    return due_status(has_room(canvas, canvas->width * (size_t)pixel_bytes(format), stride, size)
                          ? TRIRAST_STATUS_OK
                          : TRIRAST_STATUS_BUFFER_TOO_SMALL);
}

due due_entries(const trirast_canvas *canvas, uint32_t sample, size_t entry, size_t stride, size_t count) {
    const due piece = due_piece(canvas);
    if (piece.status) return piece;
    if (sample >= samples_of(canvas)) return due_status(TRIRAST_STATUS_BAD_SAMPLE);
    if (stride % entry) return due_status(TRIRAST_STATUS_BAD_STRIDE);
    return due_status(has_room(canvas, canvas->width, stride / entry, count) ? TRIRAST_STATUS_OK
                                                                             : TRIRAST_STATUS_BUFFER_TOO_SMALL);
}

due due_tile(const trirast_canvas *canvas, uint32_t column, uint32_t row, int has_room_for) {
    const due piece = due_piece(canvas);
    if (piece.status) return piece;
    if (column >= (canvas->width + 63) / 64 || row < canvas->first || row >= canvas->end)
        return due_status(TRIRAST_STATUS_BAD_TILE);
    return due_status(has_room_for ? TRIRAST_STATUS_OK : TRIRAST_STATUS_BUFFER_TOO_SMALL);
}

// ---- The state of a draw

static int is_factor(uint32_t factor) { return factor <= 11 || factor == 14 || factor == 15; }

static trirast_batch_cause state_cause(const trirast_draw *draw) {
    const trirast_blend *blend = &draw->blend;
    if (draw->topology > 2) return TRIRAST_BATCH_BAD_TOPOLOGY;
    if (draw->cull > 2) return TRIRAST_BATCH_BAD_CULL;
    if (draw->depth_test > 7) return TRIRAST_BATCH_BAD_DEPTH_TEST;
    if (draw->depth_write > 1) return TRIRAST_BATCH_BAD_DEPTH_WRITE;
    if (draw->keep > 15) return TRIRAST_BATCH_BAD_KEEP;
    if (draw->scissor_enable > 1) return TRIRAST_BATCH_BAD_SCISSOR_ENABLE;
    if (!is_factor(blend->color_source) || !is_factor(blend->color_stored) || !is_factor(blend->alpha_source) ||
        !is_factor(blend->alpha_stored))
        return TRIRAST_BATCH_BAD_FACTOR;
    if (blend->color_operation > 5 || blend->alpha_operation > 5) return TRIRAST_BATCH_BAD_OPERATION;
    return (trirast_batch_cause)0;
}

// ---- Batches

// A draw, whose vertices and indices are the first of these, and what is left of them.
typedef struct {
    const trirast_canvas *canvas;
    const plain_batch *batch;
    const trirast_draw *draw;
    size_t number, vertex, index;
} at_draw;

static size_t index_at(const at_draw *at, size_t place) {
    return at->batch->in_order ? place : at->batch->indices[at->index + place];
}

static int is_position(int64_t value, int64_t origin) {
    const int64_t seen = value - 256 * origin;
    return value >= LOWEST && value <= HIGHEST && seen >= LOWEST && seen <= HIGHEST;
}

static int turn(const trirast_vertex *a, const trirast_vertex *b, const trirast_vertex *c) {
    const int64_t area =
        ((int64_t)b->x - a->x) * ((int64_t)c->y - a->y) - ((int64_t)b->y - a->y) * ((int64_t)c->x - a->x);
    return (area > 0) - (area < 0);
}

static int is_convex(const at_draw *at, size_t quad) {
    const trirast_vertex *corner[4];
    int sum = 0;
    for (size_t k = 0; k < 4; k++) corner[k] = &at->batch->vertices[at->vertex + index_at(at, 4 * quad + k)];
    for (size_t k = 0; k < 4; k++) sum += turn(corner[k], corner[(k + 1) % 4], corner[(k + 2) % 4]);
    return sum == 4 || sum == -4;
}

static due due_elements(const at_draw *at, size_t indices) {
    for (size_t k = 0; k < indices; k++)
        if (index_at(at, k) >= at->draw->vertex_count) {
            due found = cause_at(TRIRAST_BATCH_BAD_INDEX, at->number, k);
            found.value = index_at(at, k);
            return found;
        }
    for (size_t k = 0; k < indices; k++) {
        const trirast_vertex *vertex = &at->batch->vertices[at->vertex + index_at(at, k)];
        if (!is_position(vertex->x, at->canvas->origin_x) || !is_position(vertex->y, at->canvas->origin_y))
            return cause_at(TRIRAST_BATCH_BAD_POSITION, at->number, index_at(at, k));
    }
    for (size_t quad = 0; at->draw->topology == TRIRAST_TOPOLOGY_QUADS && quad < indices / 4; quad++)
        if (!is_convex(at, quad)) return cause_at(TRIRAST_BATCH_NOT_CONVEX, at->number, quad);
    return due_status(TRIRAST_STATUS_OK);
}

static size_t triangles_in(uint32_t topology, size_t indices) {
    if (topology == TRIRAST_TOPOLOGY_QUADS) return indices / 4 * 2;
    return topology == TRIRAST_TOPOLOGY_TRIANGLES ? indices / 3 : indices < 3 ? 0 : indices - 2;
}

// The first error of a draw. If there is none, adds its triangles to the ids.
static due due_draw(const at_draw *at, int by_ids, uint64_t *id) {
    static const size_t corners[3] = {3, 1, 4};
    const trirast_draw *draw = at->draw;
    size_t indices;
    if (draw->vertex_count > at->batch->vertex_count - at->vertex)
        return cause_in(TRIRAST_BATCH_TOO_FEW_VERTICES, at->number);
    if (draw->index_count > (at->batch->in_order ? 0 : at->batch->index_count - at->index))
        return cause_in(TRIRAST_BATCH_TOO_FEW_INDICES, at->number);
    if (state_cause(draw)) return cause_in(state_cause(draw), at->number);
    indices = at->batch->in_order ? draw->vertex_count : draw->index_count;
    if (indices % corners[draw->topology]) return cause_in(TRIRAST_BATCH_NOT_WHOLE, at->number);
    if (by_ids && *id + triangles_in(draw->topology, indices) > IDS)
        return cause_in(TRIRAST_BATCH_TOO_MANY_IDS, at->number);
    *id += triangles_in(draw->topology, indices);
    return due_elements(at, indices);
}

static due due_draws(const trirast_canvas *canvas, const plain_batch *batch, int by_ids, uint32_t first_id) {
    const trirast_draw whole = {.vertex_count = batch->vertex_count, .index_count = batch->index_count};
    at_draw at = {canvas, batch, batch->draw_count ? batch->draws : &whole, 0, 0, 0};
    uint64_t id = first_id;
    for (; at.number < (batch->draw_count ? batch->draw_count : 1); at.number++, at.draw++) {
        const due found = due_draw(&at, by_ids, &id);
        if (found.status) return found;
        at.vertex += at.draw->vertex_count, at.index += at.draw->index_count;
    }
    if (at.vertex < batch->vertex_count || (!batch->in_order && at.index < batch->index_count))
        return cause_in(TRIRAST_BATCH_LEFT_OVER, TRIRAST_NONE);
    return due_status(TRIRAST_STATUS_OK);
}

due due_batch(const trirast_canvas *canvas, const trirast_batch *given, const plain_batch *batch, int by_ids,
              uint32_t first_id) {
    const uint32_t stride = given->vertex_stride, size = given->index_size;
    const due piece = due_piece(canvas);
    if (piece.status) return piece;
    if (!is_size(given->struct_size, sizeof *given)) return due_status(TRIRAST_STATUS_BAD_STRUCT_SIZE);
    if (stride && (stride < 16 || stride > TRIRAST_MAX_STRIDE || stride % 4))
        return due_status(TRIRAST_STATUS_BAD_STRIDE);
    if (size && size != 2 && size != 4) return due_status(TRIRAST_STATUS_BAD_INDEX_SIZE);
    // So many vertices have no room in memory.
    if (given->vertex_count != batch->vertex_count) return cause_in(TRIRAST_BATCH_LEFT_OVER, TRIRAST_NONE);
    return due_draws(canvas, batch, by_ids, first_id);
}

// ---- Polygons

// The first end that is before the one before it, or behind the last of `count` elements. Returns `ends` if there is
// none.
static size_t wrong_end(const uint32_t *all, size_t ends, size_t count) {
    size_t k;
    for (k = 0; k < ends; k++)
        if (all[k] > count || (k && all[k] < all[k - 1])) break;
    return k;
}

static due due_arrays(const trirast_polygons *all) {
    const size_t ring = wrong_end(all->ring_ends, all->ring_count, all->corner_count),
                 polygon = wrong_end(all->polygon_ends, all->polygon_count, all->ring_count);
    if (ring < all->ring_count) return cause_at(TRIRAST_BATCH_BAD_RING, TRIRAST_NONE, ring);
    if ((all->ring_count ? all->ring_ends[all->ring_count - 1] : 0) < all->corner_count)
        return cause_in(TRIRAST_BATCH_LEFT_OVER, TRIRAST_NONE);
    if (polygon < all->polygon_count) return cause_at(TRIRAST_BATCH_BAD_POLYGON, TRIRAST_NONE, polygon);
    if ((all->polygon_count ? all->polygon_ends[all->polygon_count - 1] : 0) < all->ring_count)
        return cause_in(TRIRAST_BATCH_LEFT_OVER, TRIRAST_NONE);
    for (size_t k = 0; !all->box_count && k < all->corner_count; k++)
        if (!is_position(all->corners[k].x, 0) || !is_position(all->corners[k].y, 0))
            return cause_at(TRIRAST_BATCH_BAD_POSITION, TRIRAST_NONE, k);
    if (all->box_count && all->box_count < all->polygon_count)
        return cause_in(TRIRAST_BATCH_TOO_FEW_BOXES, TRIRAST_NONE);
    return due_status(TRIRAST_STATUS_OK);
}

static int is_origin(int32_t origin) { return origin >= -32768 && origin <= 28672; }

due due_polygons(const trirast_canvas *canvas, const trirast_polygons *all, int by_ids, uint32_t first_id,
                 int has_scratch) {
    due found = due_piece(canvas);
    if (found.status) return found;
    if (!is_size(all->struct_size, sizeof *all)) return due_status(TRIRAST_STATUS_BAD_STRUCT_SIZE);
    if (!is_origin(canvas->origin_x) || !is_origin(canvas->origin_y)) return due_status(TRIRAST_STATUS_BAD_POSITION);
    if (!has_scratch) return due_status(TRIRAST_STATUS_BUFFER_TOO_SMALL);
    if (all->fill_rule > TRIRAST_FILL_NONZERO) return cause_in(TRIRAST_BATCH_BAD_FILL_RULE, TRIRAST_NONE);
    if (state_cause(&all->state)) return cause_in(state_cause(&all->state), TRIRAST_NONE);
    found = due_arrays(all);
    if (found.status) return found;
    if (!by_ids && all->color_count < all->polygon_count) return cause_in(TRIRAST_BATCH_TOO_FEW_COLORS, TRIRAST_NONE);
    if (by_ids && first_id + (uint64_t)all->polygon_count > IDS)
        return cause_in(TRIRAST_BATCH_TOO_MANY_IDS, TRIRAST_NONE);
    if (all->depth_count && all->depth_count < all->polygon_count)
        return cause_in(TRIRAST_BATCH_TOO_FEW_DEPTHS, TRIRAST_NONE);
    return due_status(TRIRAST_STATUS_OK);
}

due due_boxes(const trirast_polygons *polygons, size_t room) {
    trirast_polygons all = *polygons;
    if (!is_size(all.struct_size, sizeof all)) return due_status(TRIRAST_STATUS_BAD_STRUCT_SIZE);
    if (room < all.polygon_count) return due_status(TRIRAST_STATUS_BUFFER_TOO_SMALL);
    all.box_count = 0;
    return due_arrays(&all);
}
