// Random batches and polygons, three of four right, and what they draw.
#include <string.h>

#include "guarded.h"

enum { DRAWS = 3, EACH = 12, VERTICES = DRAWS * EACH, INDICES = 2 * VERTICES, RINGS = 5, CORNERS = 40, BAND = 8388607 };

int32_t coordinate(scene *at, int64_t origin, uint32_t side) {
    int64_t found = 256 * origin;
    switch (below(&at->from, 10)) {
    case 0: found += 256 * between(&at->from, -1, side + 1) + 128; break;
    case 1: found += 16 * between(&at->from, -16, 16 * (int64_t)side + 16); break;
    case 2: found += between(&at->from, -1048576, 1048576); break;
    case 3: found += one_in(&at->from, 8) ? (one_in(&at->from, 2) ? -BAND - 1 : BAND) : 0; break;
    default: found += between(&at->from, -512, 256 * (int64_t)side + 512); break;
    }
    return (int32_t)(found < -BAND - 1 ? -BAND - 1 : found > BAND ? BAND : found);
}

static trirast_blend blend_of(scene *at) {
    static const uint8_t factors[] = {0, 1, 2, 3, 4, 5, 6, 7, 8, 9, 10, 11, 14, 15};
    const trirast_blend usual[] = {TRIRAST_BLEND_NONE, TRIRAST_BLEND_OVER,     TRIRAST_BLEND_PREMULTIPLIED,
                                   TRIRAST_BLEND_ADD,  TRIRAST_BLEND_MULTIPLY, TRIRAST_BLEND_KEEP};
    trirast_blend found = usual[below(&at->from, 6)];
    if (!one_in(&at->from, 3)) return found;
    found.color_source = factors[below(&at->from, 14)], found.color_stored = factors[below(&at->from, 14)];
    found.alpha_source = factors[below(&at->from, 14)], found.alpha_stored = factors[below(&at->from, 14)];
    found.color_operation = (uint8_t)below(&at->from, 6), found.alpha_operation = (uint8_t)below(&at->from, 6);
    for (int k = 0; k < 4; k++) found.constant[k] = (uint8_t)next(&at->from);
    return found;
}

trirast_draw state_of(scene *at) {
    trirast_draw found = {0};
    const trirast_canvas *canvas = &at->whole;
    found.topology = (uint8_t)below(&at->from, 3),
    found.cull = (uint8_t)(one_in(&at->from, 3) ? below(&at->from, 3) : 0);
    found.depth_test = (uint8_t)(one_in(&at->from, 2) ? below(&at->from, 8) : 0);
    found.depth_write = (uint8_t)below(&at->from, 2),
    found.keep = (uint8_t)(one_in(&at->from, 3) ? below(&at->from, 16) : 0);
    found.skip_samples = (uint16_t)(one_in(&at->from, 3) ? next(&at->from) : 0);
    found.scissor_enable = (uint8_t)one_in(&at->from, 3);
    found.scissor_left = (int32_t)(canvas->origin_x + between(&at->from, -9, canvas->width) % INT16_MAX);
    found.scissor_top = (int32_t)(canvas->origin_y + between(&at->from, -9, canvas->height) % INT16_MAX);
    found.scissor_right = one_in(&at->from, 9) ? INT32_MAX : found.scissor_left + (int32_t)below(&at->from, 90);
    found.scissor_bottom = one_in(&at->from, 9) ? INT32_MIN : found.scissor_top + (int32_t)below(&at->from, 90);
    found.blend = blend_of(at);
    return found;
}

// One number of a state is out of its range.
static void break_state(scene *at, trirast_draw *draw) {
    uint8_t *const numbers[] = {&draw->topology,
                                &draw->cull,
                                &draw->depth_test,
                                &draw->depth_write,
                                &draw->keep,
                                &draw->scissor_enable,
                                &draw->blend.color_source,
                                &draw->blend.alpha_stored,
                                &draw->blend.color_operation};
    static const uint8_t values[] = {3, 3, 8, 2, 16, 2, 12, 13, 6};
    const uint32_t k = below(&at->from, 9);
    *numbers[k] = one_in(&at->from, 4) ? 255 : values[k];
}

// ---- Batches

typedef struct {
    trirast_draw draws[DRAWS];
    trirast_vertex vertices[VERTICES + 1];
    uint32_t indices[INDICES];
    plain_batch batch;
    trirast_batch given;
    uint32_t first_id;
} made_batch;

static trirast_vertex vertex_of(scene *at) {
    const trirast_canvas *canvas = &at->whole;
    const uint64_t bits = next(&at->from);
    const trirast_vertex found = {coordinate(at, canvas->origin_x, canvas->width),
                                  coordinate(at, canvas->origin_y, canvas->height),
                                  (uint16_t)bits,
                                  (uint8_t)(bits >> 16),
                                  (uint8_t)(bits >> 24),
                                  (uint8_t)(bits >> 32),
                                  (uint8_t)(one_in(&at->from, 3) ? 255 : bits >> 40),
                                  (uint16_t)(bits >> 48)};
    return found;
}

// Makes four vertices the corners of a box, which is strictly convex unless it is empty.
static void make_box(scene *at, trirast_vertex *corners) {
    corners[1].x = corners[2].x, corners[1].y = corners[0].y, corners[3].x = corners[0].x, corners[3].y = corners[2].y;
    if (one_in(&at->from, 4)) corners[2].x += (int32_t)below(&at->from, 40) - 20;
}

static void add_draw(scene *at, made_batch *made, trirast_draw *draw) {
    static const uint32_t corners[] = {3, 1, 4};
    plain_batch *batch = &made->batch;
    const uint32_t unit = corners[draw->topology];
    draw->vertex_count = batch->in_order ? unit * below(&at->from, EACH / unit + 1) : below(&at->from, EACH + 1);
    for (size_t k = 0; k < draw->vertex_count; k++) made->vertices[batch->vertex_count + k] = vertex_of(at);
    for (size_t k = 0; draw->topology == TRIRAST_TOPOLOGY_QUADS && k + 4 <= draw->vertex_count; k += 4)
        make_box(at, &made->vertices[batch->vertex_count + k]);
    draw->index_count = batch->in_order || !draw->vertex_count ? 0 : unit * below(&at->from, 2 * EACH / unit + 1);
    for (size_t k = 0; k < draw->index_count; k++) {
        // Quads of the boxes, in their order.
        const size_t box = draw->vertex_count / 4;
        made->indices[batch->index_count + k] = unit == 4 && box && !one_in(&at->from, 60)
                                                    ? (uint32_t)(4 * (k / 4 % box) + k % 4)
                                                    : below(&at->from, (uint32_t)draw->vertex_count);
    }
    batch->vertex_count += draw->vertex_count, batch->index_count += draw->index_count;
}

static void make_batch(scene *at, made_batch *made) {
    static const uint32_t strides[] = {0, 0, 16, 20, 24, 32, 48, 252, 2048}, sizes[] = {0, 2, 4};
    memset(made, 0, sizeof *made);
    plain_batch *batch = &made->batch;
    batch->draws = made->draws, batch->vertices = made->vertices, batch->indices = made->indices;
    batch->in_order = one_in(&at->from, 3), batch->draw_count = below(&at->from, DRAWS + 1);
    trirast_draw alone = {0};
    for (size_t k = 0; k < batch->draw_count; k++) made->draws[k] = state_of(at), add_draw(at, made, &made->draws[k]);
    if (!batch->draw_count) add_draw(at, made, &alone);
    made->given.struct_size = one_in(&at->from, 2) ? 0 : sizeof made->given;
    made->given.vertex_stride = strides[below(&at->from, 9)], made->given.index_size = sizes[below(&at->from, 3)];
    made->first_id = one_in(&at->from, 4) ? 16777216 - below(&at->from, 40) : below(&at->from, 70000);
}

// One thing of a batch is another, so that it may be refused.
static void break_batch(scene *at, made_batch *made) {
    plain_batch *batch = &made->batch;
    trirast_draw *draw = &made->draws[below(&at->from, DRAWS)];
    switch (below(&at->from, 14)) {
    case 0: draw->vertex_count += one_in(&at->from, 2) ? 1 : SIZE_MAX; break;
    case 1: draw->index_count += one_in(&at->from, 2) ? 1 : SIZE_MAX; break;
    case 2: batch->vertex_count -= batch->vertex_count > 0; break;
    case 3: batch->vertex_count++; break;
    case 4: batch->index_count -= batch->index_count > 0; break;
    case 5: batch->draw_count -= batch->draw_count > 0; break;
    case 6: made->indices[below(&at->from, INDICES)] = one_in(&at->from, 2) ? UINT32_MAX : EACH; break;
    case 7: made->vertices[below(&at->from, EACH)].x = one_in(&at->from, 2) ? INT32_MIN : BAND + 1; break;
    case 8: made->vertices[below(&at->from, EACH)].y = -BAND - 2; break;
    case 9: break_state(at, draw); break;
    case 10: made->given.struct_size = 56; break;
    case 11: made->given.vertex_stride = one_in(&at->from, 2) ? 18 : 2052; break;
    case 12: made->given.index_size = 3; break;
    default: made->first_id = one_in(&at->from, 2) ? 16777217 : UINT32_MAX; break;
    }
}

// Where the vertices lie as the caller has them, by the stride. What lies between them is of no use.
static void give_vertices(scene *at, made_batch *made) {
    static unsigned char bytes[(VERTICES + 1) * TRIRAST_MAX_STRIDE];
    const plain_batch *batch = &made->batch;
    const uint32_t said = made->given.vertex_stride;
    const size_t stride = said == 0 || said % 4 || said > TRIRAST_MAX_STRIDE ? sizeof *made->vertices : said;
    for (size_t k = 0; k < batch->vertex_count; k++) {
        memset(bytes + k * stride, (int)(next(&at->from) & 255), stride);
        memcpy(bytes + k * stride, &batch->vertices[k], sizeof *batch->vertices);
    }
    const size_t size = batch->vertex_count ? (batch->vertex_count - 1) * stride + sizeof *batch->vertices : 0;
    made->given.vertices = give(at, IN_VERTICES, bytes, size), made->given.vertex_count = batch->vertex_count;
    // So many vertices that their bytes, as a size_t, are those of a few.
    if (one_in(&at->from, 100)) made->given.vertex_count += SIZE_MAX / stride + 1;
}

static void give_indices(scene *at, made_batch *made) {
    const plain_batch *batch = &made->batch;
    uint16_t halves[INDICES];
    if (batch->in_order) return;
    made->given.index_count = batch->index_count;
    if (made->given.index_size == 2) {
        for (size_t k = 0; k < INDICES; k++) made->indices[k] = halves[k] = (uint16_t)made->indices[k];
        made->given.indices = give(at, IN_INDICES, halves, 2 * batch->index_count);
    } else {
        made->given.indices = give(at, IN_INDICES, made->indices, 4 * batch->index_count);
    }
}

void call_draw(scene *at) {
    static made_batch made;
    const int by_ids = one_in(&at->from, 3);
    at->call = by_ids ? "draw by ids" : "draw";
    make_batch(at, &made);
    if (one_in(&at->from, 4)) break_batch(at, &made);
    give_vertices(at, &made), give_indices(at, &made);
    made.given.draws = give(at, IN_DRAWS, made.draws, made.batch.draw_count * sizeof *made.draws);
    made.given.draw_count = made.batch.draw_count;
    const trirast_batch *given = give(at, IN_BATCH, &made.given, sizeof made.given);
    for (size_t k = 0; k < at->piece_count && !at->is_wrong; k++) {
        trirast_canvas canvas = nearly(at, &at->pieces[k]);
        trirast_error *error = one_in(&at->from, 4) ? NULL : give_room(at, IN_ERROR, sizeof *error);
        const due wanted = due_batch(&canvas, given, &made.batch, by_ids, made.first_id);
        const trirast_status status = by_ids ? trirast_canvas_draw_ids(&canvas, given, made.first_id, error)
                                             : trirast_canvas_draw(&canvas, given, error);
        if (ended(at, status, error, wanted) && !at->is_wrong)
            plain_draw_batch(&at->canvas, rows_of(&canvas), &made.batch, by_ids, made.first_id);
    }
}

// ---- Polygons

typedef struct {
    trirast_corner corners[CORNERS];
    uint32_t ring_ends[RINGS], polygon_ends[RINGS];
    uint8_t colors[RINGS][4];
    uint16_t depths[RINGS];
    trirast_polygons all;
    uint32_t first_id;
} made_polygons;

static void make_polygons(scene *at, made_polygons *made) {
    const trirast_canvas *canvas = &at->whole;
    trirast_polygons *all = &made->all;
    memset(made, 0, sizeof *made);
    all->ring_count = below(&at->from, RINGS + 1);
    for (size_t k = 0; k < all->ring_count; k++)
        made->ring_ends[k] = (uint32_t)(all->corner_count += below(&at->from, 8));
    for (size_t k = 0; k < all->corner_count; k++) {
        made->corners[k].x = coordinate(at, canvas->origin_x, canvas->width);
        made->corners[k].y =
            one_in(&at->from, 5) && k ? made->corners[k - 1].y : coordinate(at, canvas->origin_y, canvas->height);
    }
    for (size_t rings = 0; rings < all->ring_count; all->polygon_count++) {
        rings += below(&at->from, 2) + (all->polygon_count + 1 == RINGS ? RINGS : 0);
        made->polygon_ends[all->polygon_count] = (uint32_t)(rings < all->ring_count ? rings : all->ring_count);
        if (all->polygon_count + 1 == RINGS)
            made->polygon_ends[all->polygon_count] = (uint32_t)(rings = all->ring_count);
    }
    for (size_t k = 0; k < RINGS; k++) {
        const uint64_t bits = next(&at->from);
        memcpy(made->colors[k], &bits, 4), made->depths[k] = (uint16_t)(bits >> 32);
        if (one_in(&at->from, 2)) made->colors[k][3] = 255;
    }
    all->struct_size = one_in(&at->from, 2) ? 0 : sizeof *all, all->fill_rule = below(&at->from, 2);
    all->color_count = all->polygon_count, all->depth_count = one_in(&at->from, 2) ? 0 : all->polygon_count;
    all->state = state_of(at), all->state.vertex_count = (size_t)next(&at->from);
    made->first_id = one_in(&at->from, 4) ? 16777216 - below(&at->from, 9) : below(&at->from, 70000);
}

static void break_polygons(scene *at, made_polygons *made) {
    trirast_polygons *all = &made->all;
    switch (below(&at->from, 11)) {
    case 0: made->ring_ends[below(&at->from, RINGS)] += one_in(&at->from, 2) ? 1 : UINT32_MAX; break;
    case 1: made->polygon_ends[below(&at->from, RINGS)] += one_in(&at->from, 2) ? 1 : UINT32_MAX; break;
    case 2: all->corner_count -= all->corner_count > 0; break;
    case 3: all->ring_count -= all->ring_count > 0; break;
    case 4: all->polygon_count -= all->polygon_count > 0; break;
    case 5: all->color_count -= all->color_count > 0; break;
    case 6: all->depth_count -= all->depth_count > 0; break;
    case 7: all->fill_rule = one_in(&at->from, 2) ? 2 : UINT32_MAX; break;
    case 8: made->corners[below(&at->from, CORNERS)].x = one_in(&at->from, 2) ? BAND + 1 : INT32_MIN; break;
    case 9: all->struct_size = 8; break;
    default: break_state(at, &all->state); break;
    }
}

static void give_arrays(scene *at, made_polygons *made) {
    trirast_polygons *all = &made->all;
    all->corners = give(at, IN_CORNERS, made->corners, all->corner_count * sizeof *made->corners);
    all->ring_ends = give(at, IN_RINGS, made->ring_ends, 4 * all->ring_count);
    all->polygon_ends = give(at, IN_ENDS, made->polygon_ends, 4 * all->polygon_count);
    all->colors = give(at, IN_COLORS, made->colors, 4 * all->color_count);
    all->depths = all->depth_count ? give(at, IN_DEPTHS, made->depths, 2 * all->depth_count) : NULL;
}

static trirast_box box_of(const trirast_polygons *all, size_t polygon) {
    trirast_box found = {INT32_MAX, INT32_MAX, INT32_MIN, INT32_MIN};
    const size_t first = polygon ? all->polygon_ends[polygon - 1] : 0, last = all->polygon_ends[polygon];
    for (size_t k = first ? all->ring_ends[first - 1] : 0; k < (last ? all->ring_ends[last - 1] : 0); k++) {
        const trirast_corner c = all->corners[k];
        found.left = c.x < found.left ? c.x : found.left, found.right = c.x > found.right ? c.x : found.right;
        found.top = c.y < found.top ? c.y : found.top, found.bottom = c.y > found.bottom ? c.y : found.bottom;
    }
    return found;
}

// Finds the boxes, and compares them. The polygons have them from then on, or one too few.
static void measure(scene *at, made_polygons *made) {
    trirast_polygons *all = &made->all;
    const size_t room = all->polygon_count - (one_in(&at->from, 9) && all->polygon_count);
    trirast_box *boxes = give_room(at, IN_BOXES, room * sizeof *boxes);
    trirast_error error;
    at->call = "measure";
    if (!ended(at, trirast_polygons_measure(all, boxes, room, &error), &error, due_boxes(all, room))) return;
    for (size_t k = 0; k < room; k++) {
        const trirast_box wanted = box_of(all, k);
        if (memcmp(&boxes[k], &wanted, sizeof wanted)) wrong(at, "another box");
    }
    all->boxes = room ? boxes : NULL, all->box_count = room - (one_in(&at->from, 9) && room > 1);
    protect(&at->buffers[IN_BOXES], 1);
}

// The bytes of scratch memory, by its comment: flags of each part of at most four samples, and counters.
static size_t scratch_of(const trirast_canvas *canvas, int is_nonzero, int flags_alone) {
    const size_t samples = canvas->samples ? canvas->samples : 1;
    const size_t parts = (canvas->width + 63) / 64 * 8 * (samples > 4 ? samples / 4 : 1);
    return parts * (!is_nonzero ? 256 : flags_alone ? 3 * 256 : 3 * 256 + 8192);
}

// Draws with scratch memory that is just enough, or in one call of twenty too small or misaligned.
static trirast_status draw_polygons(scene *at, trirast_canvas *canvas, const made_polygons *made, int by_ids,
                                    trirast_error *error, due *wanted) {
    const trirast_polygons *all = give(at, IN_POLYGONS, &made->all, sizeof made->all);
    const int is_nonzero = all->fill_rule != TRIRAST_FILL_EVEN_ODD;
    const trirast_canvas *sized = due_piece(canvas).status ? &at->whole : canvas;
    const size_t needed = scratch_of(sized, is_nonzero, 0), lacks = one_in(&at->from, 40) ? 8 : 0,
                 shift = one_in(&at->from, 40) ? 4 : 0, size = needed - lacks;
    unsigned char *scratch = (unsigned char *)give_room(at, IN_SCRATCH, size + 2 * shift) + shift;
    *wanted = due_polygons(canvas, all, by_ids, made->first_id, !lacks && !shift);
    const trirast_status status =
        by_ids ? trirast_canvas_draw_polygon_ids(canvas, all, made->first_id, scratch, size, error)
               : trirast_canvas_draw_polygons(canvas, all, scratch, size, error);
    for (size_t k = 0; !status && k < scratch_of(sized, is_nonzero, 1); k++)
        if (scratch[k]) wrong(at, "a flag of the scratch memory is no zero");
    return status;
}

void call_polygons(scene *at) {
    static made_polygons made;
    const int by_ids = one_in(&at->from, 3);
    make_polygons(at, &made);
    if (one_in(&at->from, 4)) break_polygons(at, &made);
    give_arrays(at, &made);
    if (one_in(&at->from, 2)) measure(at, &made);
    at->call = by_ids ? "draw polygons by ids" : "draw polygons";
    for (size_t k = 0; k < at->piece_count && !at->is_wrong; k++) {
        trirast_canvas canvas = nearly(at, &at->pieces[k]);
        trirast_error *error = one_in(&at->from, 4) ? NULL : give_room(at, IN_ERROR, sizeof *error);
        due wanted;
        const trirast_status status = draw_polygons(at, &canvas, &made, by_ids, error, &wanted);
        if (ended(at, status, error, wanted) && !at->is_wrong)
            plain_draw_polygons(&at->canvas, rows_of(&canvas), &made.all, by_ids, made.first_id);
    }
}
