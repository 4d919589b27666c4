// What calls on a canvas make of each sample, by the rules of docs/rules.md alone, one sample at a time.
#include <string.h>

#include "guarded.h"

typedef struct {
    uint32_t samples;
    signed char places[16][2];
} pattern;

static const pattern PATTERNS[] = {TRIRAST_SAMPLE_PATTERNS};

plain_sample *sample_at(const plain *canvas, uint32_t x, uint32_t y, uint32_t s) {
    return &canvas->all[((size_t)y * canvas->width + x) * canvas->samples + s];
}

void plain_clear(const plain *canvas, plain_rows rows, const trirast_clear *clear) {
    const plain_sample made = {{clear->red, clear->green, clear->blue, canvas->has_alpha ? clear->alpha : 255},
                               clear->depth};
    for (uint32_t y = rows.top; y < rows.bottom; y++)
        for (uint32_t n = 0; n < canvas->width * canvas->samples; n++) *sample_at(canvas, 0, y, n) = made;
}

// ---- Which samples are covered

static int64_t side(int64_t ax, int64_t ay, int64_t bx, int64_t by, int64_t x, int64_t y) {
    return (bx - ax) * (y - ay) - (by - ay) * (x - ax);
}

// Whether a point passes an edge of a triangle that runs clockwise: inside, or on an edge that is a top or a left one.
static int passes(const trirast_vertex *a, const trirast_vertex *b, int64_t x, int64_t y) {
    const int64_t at = side(a->x, a->y, b->x, b->y, x, y);
    const int is_top = a->y == b->y && b->x > a->x, is_left = b->y < a->y;
    return at > 0 || (at == 0 && (is_top || is_left));
}

static int64_t doubled_area(const trirast_vertex t[3]) { return side(t[0].x, t[0].y, t[1].x, t[1].y, t[2].x, t[2].y); }

static int is_in_triangle(const trirast_vertex t[3], int64_t x, int64_t y) {
    const int64_t area = doubled_area(t);
    const trirast_vertex *b = area > 0 ? &t[1] : &t[2], *c = area > 0 ? &t[2] : &t[1];
    return area != 0 && passes(&t[0], b, x, y) && passes(b, c, x, y) && passes(c, &t[0], x, y);
}

// How an edge is crossed by the ray from a point to the left: 1 downwards, -1 upwards, 0 if it is not. Edges have their
// upper end and not their lower one, and points on an edge lie to the right of it.
static int crossed(trirast_corner from, trirast_corner to, int64_t x, int64_t y) {
    const int is_down = from.y < to.y;
    const trirast_corner upper = is_down ? from : to, lower = is_down ? to : from;
    if (y < upper.y || y >= lower.y || side(upper.x, upper.y, lower.x, lower.y, x, y) > 0) return 0;
    return is_down ? 1 : -1;
}

static int is_in_polygon(const trirast_polygons *all, size_t polygon, int64_t x, int64_t y) {
    int64_t edges = 0, turns = 0;
    for (size_t ring = polygon ? all->polygon_ends[polygon - 1] : 0; ring < all->polygon_ends[polygon]; ring++) {
        const size_t begin = ring ? all->ring_ends[ring - 1] : 0, end = all->ring_ends[ring];
        for (size_t k = begin; k < end; k++) {
            const int found = crossed(all->corners[k], all->corners[k + 1 < end ? k + 1 : begin], x, y);
            edges += found != 0, turns += found;
        }
    }
    return all->fill_rule == TRIRAST_FILL_EVEN_ODD ? edges % 2 != 0 : turns != 0;
}

// ---- Values, tests and blending

// Edge functions are below 2^50 and values below 2^16.
__extension__ typedef __int128 wide;

// A value of the corners at a point, rounded down.
static uint32_t value_at(const trirast_vertex t[3], const uint32_t values[3], int64_t x, int64_t y) {
    const int64_t area = doubled_area(t);
    const wide sum = (wide)side(t[1].x, t[1].y, t[2].x, t[2].y, x, y) * values[0] +
                     (wide)side(t[2].x, t[2].y, t[0].x, t[0].y, x, y) * values[1] +
                     (wide)side(t[0].x, t[0].y, t[1].x, t[1].y, x, y) * values[2];
    return (uint32_t)(sum / area);
}

static int passes_test(uint32_t test, uint16_t depth, uint16_t stored) {
    switch (test) {
    case TRIRAST_DEPTH_NEVER: return 0;
    case TRIRAST_DEPTH_LESS: return depth < stored;
    case TRIRAST_DEPTH_EQUAL: return depth == stored;
    case TRIRAST_DEPTH_LESS_EQUAL: return depth <= stored;
    case TRIRAST_DEPTH_GREATER: return depth > stored;
    case TRIRAST_DEPTH_NOT_EQUAL: return depth != stored;
    case TRIRAST_DEPTH_GREATER_EQUAL: return depth >= stored;
    default: return 1;
    }
}

// What a factor is for channel k, of red, green, blue and alpha.
static int32_t factor_of(uint32_t factor, int k, const uint8_t source[4], const uint8_t stored[4],
                         const uint8_t constant[4]) {
    const int32_t left = 255 - stored[3];
    switch (factor) {
    case TRIRAST_FACTOR_ONE: return 255;
    case TRIRAST_FACTOR_SOURCE_COLOR: return source[k];
    case TRIRAST_FACTOR_INVERSE_SOURCE_COLOR: return 255 - source[k];
    case TRIRAST_FACTOR_SOURCE_ALPHA: return source[3];
    case TRIRAST_FACTOR_INVERSE_SOURCE_ALPHA: return 255 - source[3];
    case TRIRAST_FACTOR_STORED_ALPHA: return stored[3];
    case TRIRAST_FACTOR_INVERSE_STORED_ALPHA: return left;
    case TRIRAST_FACTOR_STORED_COLOR: return stored[k];
    case TRIRAST_FACTOR_INVERSE_STORED_COLOR: return 255 - stored[k];
    case TRIRAST_FACTOR_SOURCE_ALPHA_SATURATED: return k == 3 ? 255 : source[3] < left ? source[3] : left;
    case TRIRAST_FACTOR_CONSTANT: return constant[k];
    case TRIRAST_FACTOR_INVERSE_CONSTANT: return 255 - constant[k];
    default: return 0;
    }
}

static uint8_t blended(const trirast_blend *blend, int k, const uint8_t source[4], const uint8_t stored[4]) {
    const int is_alpha = k == 3;
    const uint32_t by = is_alpha ? blend->alpha_source : blend->color_source,
                   kept = is_alpha ? blend->alpha_stored : blend->color_stored,
                   operation = is_alpha ? blend->alpha_operation : blend->color_operation;
    const int32_t f = source[k] * factor_of(by ? by : TRIRAST_FACTOR_ONE, k, source, stored, blend->constant),
                  g = stored[k] * factor_of(kept ? kept : TRIRAST_FACTOR_ZERO, k, source, stored, blend->constant);
    int32_t x = f + g, q;
    if (operation == TRIRAST_OPERATION_MIN) return source[k] < stored[k] ? source[k] : stored[k];
    if (operation == TRIRAST_OPERATION_MAX) return source[k] > stored[k] ? source[k] : stored[k];
    if (operation == TRIRAST_OPERATION_SUBTRACT) x = f - g;
    if (operation == TRIRAST_OPERATION_REVERSE_SUBTRACT) x = g - f;
    q = x + 127 < 0 ? 0 : (x + 127) / 255;
    return (uint8_t)(q > 255 ? 255 : q);
}

// ---- Drawing

static void merge(const plain *canvas, const plain_shape *shape, const uint8_t source[4], uint16_t depth,
                  plain_sample *sample) {
    const trirast_draw *state = shape->state;
    const plain_sample stored = *sample;
    if (!passes_test(state->depth_test, depth, stored.depth)) return;
    if (state->depth_write) sample->depth = depth;
    for (int k = 0; k < 4; k++) {
        const int is_kept = state->keep >> k & 1, is_alpha = k == 3;
        if (is_alpha ? is_kept || !canvas->has_alpha : is_kept && !shape->has_id) continue;
        sample->channels[k] = shape->has_id ? source[k] : blended(&state->blend, k, source, stored.channels);
    }
}

static int is_culled(const plain_shape *shape) {
    const int64_t area = doubled_area(shape->corners);
    return (shape->state->cull == TRIRAST_CULL_FRONT && area > 0) ||
           (shape->state->cull == TRIRAST_CULL_BACK && area < 0);
}

// What the shape has at a point: its colour and depth.
static void fragment(const plain_shape *shape, int64_t x, int64_t y, uint8_t source[4], uint16_t *depth) {
    const trirast_vertex *t = shape->corners;
    if (!shape->polygons) {
        const uint32_t values[5][3] = {{t[0].red, t[1].red, t[2].red},
                                       {t[0].green, t[1].green, t[2].green},
                                       {t[0].blue, t[1].blue, t[2].blue},
                                       {t[0].alpha, t[1].alpha, t[2].alpha},
                                       {t[0].depth, t[1].depth, t[2].depth}};
        for (int k = 0; k < 4; k++) source[k] = (uint8_t)value_at(t, values[k], x, y);
        *depth = (uint16_t)value_at(t, values[4], x, y);
    } else {
        if (!shape->has_id) memcpy(source, shape->polygons->colors[shape->polygon], 4);
        *depth = shape->polygons->depth_count ? shape->polygons->depths[shape->polygon] : 0;
    }
    if (shape->has_id)
        for (int k = 0; k < 4; k++) source[k] = k == 3 ? 255 : (uint8_t)(shape->id >> 8 * k);
}

static int is_in_scissor(const trirast_draw *state, int64_t x, int64_t y) {
    return !state->scissor_enable || (x >= state->scissor_left && x < state->scissor_right && y >= state->scissor_top &&
                                      y < state->scissor_bottom);
}

static void draw_at(const plain *canvas, const plain_shape *shape, uint32_t x, uint32_t y, const pattern *by) {
    const int64_t across = canvas->origin_x + x, down = canvas->origin_y + y;
    if (!is_in_scissor(shape->state, across, down)) return;
    for (uint32_t s = 0; s < canvas->samples; s++) {
        const int64_t px = 256 * across + 128 + 16 * by->places[s][0], py = 256 * down + 128 + 16 * by->places[s][1];
        uint8_t source[4] = {0, 0, 0, 0};
        uint16_t depth = 0;
        if (shape->state->skip_samples >> s & 1) continue;
        if (!(shape->polygons ? is_in_polygon(shape->polygons, shape->polygon, px, py)
                              : is_in_triangle(shape->corners, px, py)))
            continue;
        fragment(shape, px, py, source, &depth);
        merge(canvas, shape, source, depth, sample_at(canvas, x, y, s));
    }
}

void plain_draw(const plain *canvas, plain_rows rows, const plain_shape *shape) {
    const pattern *by = PATTERNS;
    if (!shape->polygons && is_culled(shape)) return;
    while (by->samples != canvas->samples) by++;
    for (uint32_t y = rows.top; y < rows.bottom; y++)
        for (uint32_t x = 0; x < canvas->width; x++) draw_at(canvas, shape, x, y, by);
}

// ---- Batches and polygons

// The places of corner c of triangle m among the indices of a draw.
static size_t place_of(uint32_t topology, size_t m, size_t c) {
    static const size_t halves[2][3] = {{0, 1, 2}, {2, 3, 0}};
    if (topology == TRIRAST_TOPOLOGY_QUADS) return 4 * (m / 2) + halves[m % 2][c];
    if (topology == TRIRAST_TOPOLOGY_STRIP) return c == 0 ? m : c == 1 ? m + 1 + m % 2 : m + 2 - m % 2;
    return 3 * m + c;
}

static size_t triangles_of(uint32_t topology, size_t indices) {
    if (topology == TRIRAST_TOPOLOGY_QUADS) return indices / 4 * 2;
    if (topology == TRIRAST_TOPOLOGY_STRIP) return indices < 3 ? 0 : indices - 2;
    return indices / 3;
}

void plain_draw_batch(const plain *canvas, plain_rows rows, const plain_batch *batch, int by_ids, uint32_t first_id) {
    const trirast_draw whole = {.vertex_count = batch->vertex_count, .index_count = batch->index_count};
    const trirast_draw *draws = batch->draw_count ? batch->draws : &whole;
    const size_t count = batch->draw_count ? batch->draw_count : 1;
    size_t vertex = 0, index = 0;
    for (size_t k = 0; k < count; k++) {
        const size_t indices = batch->in_order ? draws[k].vertex_count : draws[k].index_count;
        for (size_t m = 0; m < triangles_of(draws[k].topology, indices); m++) {
            plain_shape shape = {.state = &draws[k], .has_id = by_ids, .id = first_id++};
            for (size_t c = 0; c < 3; c++) {
                const size_t place = place_of(draws[k].topology, m, c);
                shape.corners[c] = batch->vertices[vertex + (batch->in_order ? place : batch->indices[index + place])];
            }
            plain_draw(canvas, rows, &shape);
        }
        vertex += draws[k].vertex_count, index += draws[k].index_count;
    }
}

void plain_draw_polygons(const plain *canvas, plain_rows rows, const trirast_polygons *polygons, int by_ids,
                         uint32_t first_id) {
    for (size_t k = 0; k < polygons->polygon_count; k++) {
        const plain_shape shape = {.polygons = polygons,
                                   .polygon = k,
                                   .state = &polygons->state,
                                   .has_id = by_ids,
                                   .id = first_id + (uint32_t)k};
        plain_draw(canvas, rows, &shape);
    }
}

// ---- Pixels

uint32_t pixel_bytes(uint32_t format) { return format == TRIRAST_FORMAT_RGB8 ? 3 : 4; }

static int is_straight(uint32_t format) { return format >= TRIRAST_FORMAT_RGBA8_STRAIGHT; }

// The place of channel k in a pixel.
static int place_in(uint32_t format, int k) {
    const int is_turned = format == TRIRAST_FORMAT_BGRA8 || format == TRIRAST_FORMAT_BGRA8_STRAIGHT;
    return k < 3 && is_turned ? 2 - k : k;
}

void write_pixel(uint32_t format, const uint8_t channels[4], uint8_t *pixel) {
    const uint32_t alpha = channels[3];
    for (int k = 0; k < (int)pixel_bytes(format); k++) {
        uint32_t value = channels[k];
        if (is_straight(format) && k < 3) value = alpha ? (255 * value + alpha / 2) / alpha : 0;
        pixel[place_in(format, k)] = (uint8_t)(value > 255 ? 255 : value);
    }
}

void read_pixel(uint32_t format, const uint8_t *pixel, int has_alpha, uint8_t channels[4]) {
    const uint32_t alpha = format == TRIRAST_FORMAT_RGB8 ? 255 : pixel[3];
    for (int k = 0; k < 3; k++) {
        const uint32_t value = pixel[place_in(format, k)];
        channels[k] = (uint8_t)(is_straight(format) ? (value * alpha + 127) / 255 : value);
    }
    channels[3] = (uint8_t)(has_alpha ? alpha : 255);
}

void plain_mean(const plain *canvas, uint32_t x, uint32_t y, uint8_t channels[4]) {
    for (int k = 0; k < 4; k++) {
        uint32_t sum = canvas->samples / 2;
        for (uint32_t s = 0; s < canvas->samples; s++) sum += sample_at(canvas, x, y, s)->channels[k];
        channels[k] = (uint8_t)(sum / canvas->samples);
    }
}

trirast_edges plain_edges(const trirast_corners *t, int32_t x, int32_t y) {
    const trirast_vertex corners[3] = {{.x = t->ax, .y = t->ay}, {.x = t->bx, .y = t->by}, {.x = t->cx, .y = t->cy}};
    const trirast_edges found = {side(t->bx, t->by, t->cx, t->cy, x, y), side(t->cx, t->cy, t->ax, t->ay, x, y),
                                 side(t->ax, t->ay, t->bx, t->by, x, y), doubled_area(corners),
                                 (uint64_t)is_in_triangle(corners, x, y)};
    return found;
}
