// Polygons in C: what they make of samples, beside triangles, and what the calls refuse: each by its status, with
// samples and scratch memory unchanged.
#include <stdlib.h>
#include <string.h>

#include "canvases.h"

enum { CORNERS = 11, RINGS = 3, POLYGONS = 2, REFUSED = 34, BY_COLOURS = 1, BY_IDS = 3, NO_ROOM = 8 };

// A triangle, and a ring with a hole that runs the other way round.
static const trirast_corner PLACES[CORNERS] = {{0, 0},       {17920, 0},   {0, 33280},   {2560, 2560},
                                               {7680, 2560}, {7680, 7680}, {2560, 7680}, {3840, 3840},
                                               {3840, 5120}, {5120, 5120}, {5120, 3840}};
static const uint8_t COLORS[POLYGONS][4] = {{9, 8, 7, 255}, {40, 50, 60, 128}};
static const uint16_t DEPTHS[POLYGONS] = {7, 6};

// Polygons on a cleared canvas, with scratch memory between margins that is enough for both rules.
typedef struct {
    quad made;
    trirast_corner corners[CORNERS];
    uint32_t ring_ends[RINGS], polygon_ends[POLYGONS];
    trirast_box boxes[POLYGONS];
    trirast_polygons polygons;
    marked scratch;
} set;

static void make_set(set *all) {
    static const uint32_t rings[RINGS] = {3, 7, 11}, polygons[POLYGONS] = {1, 3};
    memset(all, 0, sizeof *all);
    make_quad(&all->made);
    memcpy(all->corners, PLACES, sizeof PLACES);
    memcpy(all->ring_ends, rings, sizeof rings), memcpy(all->polygon_ends, polygons, sizeof polygons);
    all->polygons = (trirast_polygons){.corners = all->corners, .corner_count = CORNERS, .ring_ends = all->ring_ends,
                                       .ring_count = RINGS, .polygon_ends = all->polygon_ends,
                                       .polygon_count = POLYGONS, .colors = COLORS, .color_count = POLYGONS,
                                       .depths = DEPTHS, .depth_count = POLYGONS,
                                       .state = {.depth_test = TRIRAST_DEPTH_LESS, .depth_write = 1}};
    all->scratch = mark(trirast_polygons_scratch(&all->made.made.whole, TRIRAST_FILL_NONZERO));
}

static void free_set(set *all) { free(all->made.made.memory.all), free(all->scratch.all); }

static void give_boxes(set *all) {
    expect(!trirast_polygons_measure(&all->polygons, all->boxes, POLYGONS, NULL), "no boxes");
    all->polygons.boxes = all->boxes, all->polygons.box_count = POLYGONS;
}

static trirast_status draw_set(set *all, int by_ids, uint32_t first_id, trirast_error *error) {
    trirast_canvas *canvas = &all->made.made.whole;
    return by_ids ? trirast_canvas_draw_polygon_ids(canvas, &all->polygons, first_id, all->scratch.bytes,
                                                    all->scratch.size, error)
                  : trirast_canvas_draw_polygons(canvas, &all->polygons, all->scratch.bytes, all->scratch.size, error);
}

// ---- What is drawn

static uint32_t id_at(const trirast_canvas *canvas, uint32_t sample, uint32_t x, uint32_t y) {
    static uint32_t ids[PIXELS];
    expect(!trirast_canvas_ids(canvas, sample, ids, PIXELS, 0), "ids of sample %u", sample);
    return ids[y * WIDTH + x];
}

static void compare_drawn(void) {
    for (uint32_t rule = 0; rule < 2; rule++)
        for (int by_ids = 0; by_ids < 2; by_ids++) {
            set all;
            make_set(&all);
            trirast_canvas *canvas = &all.made.made.whole;
            all.polygons.fill_rule = rule;
            expect(!trirast_canvas_clear(canvas, NULL) && !draw_set(&all, by_ids, 70000, NULL), "rule %u: not drawn",
                   rule);
            const uint32_t first = by_ids ? 70000 : 0x070809, second = by_ids ? 70001 : 0x3C3228;
            expect(id_at(canvas, 3, 0, 0) == first && id_at(canvas, 1, 16, 16) == first &&
                       id_at(canvas, 2, WIDTH - 1, HEIGHT - 1) == 0,
                   "rule %u, ids %d: the triangle", rule, by_ids);
            expect(id_at(canvas, 0, 12, 12) == second && id_at(canvas, 0, 29, 29) == second,
                   "rule %u, ids %d: the ring", rule, by_ids);
            const size_t each = rule == TRIRAST_FILL_EVEN_ODD ? 1 : 3;
            for (size_t n = 0; n < each * trirast_polygons_scratch(canvas, TRIRAST_FILL_EVEN_ODD); n++)
                expect(!all.scratch.bytes[n], "flags are not zeros at %zu", n);
            free_set(&all);
        }
    report("polygons are drawn by both rules, in colours and by ids, with NULL for the error, and flags are zeros "
           "afterwards");
}

// The first polygon alone is the triangle of its corners, sample by sample.
static void compare_with_triangle(void) {
    set all, other;
    make_set(&all), make_set(&other);
    all.polygons.corner_count = 3, all.polygons.ring_count = all.polygons.polygon_count = 1;
    trirast_vertex vertices[3] = {0};
    const uint32_t indices[3] = {0, 1, 2};
    for (int k = 0; k < 3; k++)
        vertices[k] = (trirast_vertex){
            .x = PLACES[k].x, .y = PLACES[k].y, .depth = 7, .red = 9, .green = 8, .blue = 7, .alpha = 255};
    trirast_draw draw = all.polygons.state;
    draw.vertex_count = draw.index_count = 3;
    const trirast_batch batch = {
        .draws = &draw, .draw_count = 1, .vertices = vertices, .vertex_count = 3, .indices = indices, .index_count = 3};
    trirast_canvas *drawn = &all.made.made.whole, *wanted = &other.made.made.whole;
    expect(!trirast_canvas_clear(drawn, NULL) && !trirast_canvas_clear(wanted, NULL), "not cleared");
    expect(!draw_set(&all, 0, 0, NULL) && !trirast_canvas_draw(wanted, &batch, NULL), "not drawn");
    for (uint32_t s = 0; s < 4; s++) {
        static uint32_t ids[2][PIXELS];
        static uint16_t depths[2][PIXELS];
        for (int k = 0; k < 2; k++) {
            const trirast_canvas *canvas = k ? wanted : drawn;
            expect(!trirast_canvas_ids(canvas, s, ids[k], PIXELS, 0) &&
                       !trirast_canvas_depths(canvas, s, depths[k], PIXELS, 0),
                   "sample %u", s);
        }
        expect(!memcmp(ids[0], ids[1], sizeof ids[0]) && !memcmp(depths[0], depths[1], sizeof depths[0]),
               "other samples of index %u", s);
    }
    free_set(&all), free_set(&other);
    report("a polygon of three corners is the triangle of these");
}

// ---- Boxes

static int is_box(const trirast_box *box, int32_t left, int32_t top, int32_t right, int32_t bottom) {
    return box->left == left && box->top == top && box->right == right && box->bottom == bottom;
}

// The least and the greatest coordinates, of a polygon without corners too, and no box more.
static void compare_boxes(void) {
    set all;
    make_set(&all);
    trirast_box boxes[4] = {{0, 0, 0, 0}, {0, 0, 0, 0}, {0, 0, 0, 0}, {1, 2, 3, 4}};
    const uint32_t ends[3] = {1, 1, 3};
    all.polygons.polygon_ends = ends, all.polygons.polygon_count = 3;
    expect(!trirast_polygons_measure(&all.polygons, boxes, 4, NULL), "not measured");
    expect(is_box(&boxes[0], 0, 0, 17920, 33280) && is_box(&boxes[2], 2560, 2560, 7680, 7680), "other boxes");
    expect(is_box(&boxes[1], INT32_MAX, INT32_MAX, INT32_MIN, INT32_MIN), "a box of no corners");
    expect(is_box(&boxes[3], 1, 2, 3, 4), "a box behind the last polygon's");
    free_set(&all);
    report("boxes are the least and the greatest coordinates of each polygon's corners");
}

static int are_same(const trirast_canvas *drawn, const trirast_canvas *wanted, uint32_t sample) {
    static uint32_t ids[2][PIXELS];
    return !trirast_canvas_ids(drawn, sample, ids[0], PIXELS, 0) &&
           !trirast_canvas_ids(wanted, sample, ids[1], PIXELS, 0) && !memcmp(ids[0], ids[1], sizeof ids[0]);
}

// Polygons are drawn in the same way with their boxes, whether they meet the canvas or not.
static void compare_with_boxes(void) {
    for (uint32_t rule = 0; rule < 2; rule++)
        for (int by_ids = 0; by_ids < 2; by_ids++)
            for (int32_t origin = -60; origin <= 60; origin += 30) {
                set all, other;
                make_set(&all), make_set(&other);
                set *const both[2] = {&all, &other};
                for (int k = 0; k < 2; k++) {
                    trirast_canvas *canvas = &both[k]->made.made.whole;
                    canvas->origin_x = origin, canvas->origin_y = -origin, both[k]->polygons.fill_rule = rule;
                    expect(!trirast_canvas_clear(canvas, NULL), "not cleared");
                }
                give_boxes(&all);
                expect(!draw_set(&all, by_ids, 70000, NULL) && !draw_set(&other, by_ids, 70000, NULL), "not drawn");
                for (uint32_t s = 0; s < 4; s++)
                    expect(are_same(&all.made.made.whole, &other.made.made.whole, s), "origin %d: sample %u", origin,
                           s);
                free_set(&all), free_set(&other);
            }
    report("polygons with their boxes are drawn as those without");
}

// By boxes of others, and with a corner outside of the guard band, a polygon is left out as a whole.
static void compare_with_other_boxes(void) {
    for (int change = 0; change < 2; change++) {
        set all;
        make_set(&all);
        trirast_canvas *canvas = &all.made.made.whole;
        expect(!trirast_canvas_clear(canvas, NULL), "not cleared");
        give_boxes(&all);
        if (change) all.corners[1].x = INT32_MAX;
        else all.boxes[0] = (trirast_box){1 << 20, 0, 1 << 21, 256};
        expect(!draw_set(&all, 1, 70000, NULL), "not drawn");
        expect(id_at(canvas, 3, 0, 0) == 0 && id_at(canvas, 0, 12, 12) == 70001, "change %d: other polygons", change);
        free_set(&all);
    }
    report("a polygon with the box of another, or with a corner out of range behind its box, is left out as a whole");
}

// What is wrong with the arrays is said before boxes are believed.
static void compare_refused_boxes(void) {
    set all;
    trirast_error error = UNSET;
    make_set(&all);
    trirast_status status = trirast_polygons_measure(&all.polygons, all.boxes, POLYGONS - 1, &error);
    expect(is_error(&error, status, TRIRAST_STATUS_BUFFER_TOO_SMALL), "room for one: status %u", status);
    all.polygons.struct_size = sizeof all.polygons - 16;
    status = trirast_polygons_measure(&all.polygons, all.boxes, POLYGONS, &error);
    expect(is_error(&error, status, TRIRAST_STATUS_BAD_STRUCT_SIZE), "an older struct: status %u", status);
    all.polygons.struct_size = sizeof all.polygons, all.corners[7].y = 8388608;
    status = trirast_polygons_measure(&all.polygons, all.boxes, POLYGONS, &error);
    expect(is_error(&error, status, TRIRAST_STATUS_BAD_BATCH) && error.cause == TRIRAST_BATCH_BAD_POSITION &&
               error.element == 7,
           "a corner: status %u, cause %u at %zu", status, error.cause, error.element);
    all.ring_ends[2] = 10;
    status = trirast_polygons_measure(&all.polygons, all.boxes, POLYGONS, NULL);
    expect(status == TRIRAST_STATUS_BAD_BATCH, "a corner in no ring: status %u", status);
    free_set(&all);
    report("boxes are found if there is room for them and the arrays are right");
}

// ---- What is refused

typedef struct {
    trirast_status status;
    uint32_t cause;
    size_t element;
} due;

static due of_batch(trirast_batch_cause cause, size_t element) {
    return (due){TRIRAST_STATUS_BAD_BATCH, cause, element};
}

// One number of the state, or the rule, is outside of its range.
static due break_numbers(set *all, int change) {
    trirast_draw *state = &all->polygons.state;
    switch (change) {
    case 0: all->polygons.fill_rule = 2; return of_batch(TRIRAST_BATCH_BAD_FILL_RULE, TRIRAST_NONE);
    // The rule is looked at before the state.
    case 1:
        all->polygons.fill_rule = UINT32_MAX, state->keep = 16;
        return of_batch(TRIRAST_BATCH_BAD_FILL_RULE, TRIRAST_NONE);
    case 2: state->depth_test = 8; return of_batch(TRIRAST_BATCH_BAD_DEPTH_TEST, TRIRAST_NONE);
    case 3: state->depth_write = 2; return of_batch(TRIRAST_BATCH_BAD_DEPTH_WRITE, TRIRAST_NONE);
    case 4: state->keep = 16; return of_batch(TRIRAST_BATCH_BAD_KEEP, TRIRAST_NONE);
    case 5: state->scissor_enable = 2; return of_batch(TRIRAST_BATCH_BAD_SCISSOR_ENABLE, TRIRAST_NONE);
    case 6: state->blend.color_source = 12; return of_batch(TRIRAST_BATCH_BAD_FACTOR, TRIRAST_NONE);
    case 7: state->blend.alpha_stored = 13; return of_batch(TRIRAST_BATCH_BAD_FACTOR, TRIRAST_NONE);
    default: state->blend.color_operation = 6; return of_batch(TRIRAST_BATCH_BAD_OPERATION, TRIRAST_NONE);
    }
}

// One thing of the polygons is another. Returns what is due.
static due break_set(set *all, int change, uint32_t *first_id) {
    trirast_polygons *polygons = &all->polygons;
    switch (change) {
    // In colours alone.
    case 0: polygons->color_count = 1; return of_batch(TRIRAST_BATCH_TOO_FEW_COLORS, TRIRAST_NONE);
    // By ids alone.
    case 1: *first_id = 16777215; return of_batch(TRIRAST_BATCH_TOO_MANY_IDS, TRIRAST_NONE);
    case 2: *first_id = UINT32_MAX; return of_batch(TRIRAST_BATCH_TOO_MANY_IDS, TRIRAST_NONE);
    case 3: polygons->struct_size = sizeof *polygons + 8; return (due){TRIRAST_STATUS_BAD_STRUCT_SIZE, 0, TRIRAST_NONE};
    case 4: polygons->struct_size = sizeof *polygons - 8; return (due){TRIRAST_STATUS_BAD_STRUCT_SIZE, 0, TRIRAST_NONE};
    case 5: all->made.made.whole.origin_x = 28673; return (due){TRIRAST_STATUS_BAD_POSITION, 0, TRIRAST_NONE};
    case 6: all->made.made.whole.origin_y = -32769; return (due){TRIRAST_STATUS_BAD_POSITION, 0, TRIRAST_NONE};
    case 7: all->ring_ends[1] = 2; return of_batch(TRIRAST_BATCH_BAD_RING, 1);
    case 8: all->ring_ends[0] = UINT32_MAX; return of_batch(TRIRAST_BATCH_BAD_RING, 0);
    case 9: all->ring_ends[2] = 12; return of_batch(TRIRAST_BATCH_BAD_RING, 2);
    case 10: all->ring_ends[2] = 10; return of_batch(TRIRAST_BATCH_LEFT_OVER, TRIRAST_NONE);
    case 11: all->polygon_ends[1] = 0; return of_batch(TRIRAST_BATCH_BAD_POLYGON, 1);
    case 12: all->polygon_ends[0] = 4; return of_batch(TRIRAST_BATCH_BAD_POLYGON, 0);
    case 13: all->polygon_ends[1] = 2; return of_batch(TRIRAST_BATCH_LEFT_OVER, TRIRAST_NONE);
    case 14: all->corners[10].x = 8388608; return of_batch(TRIRAST_BATCH_BAD_POSITION, 10);
    case 15: all->corners[4].y = INT32_MIN; return of_batch(TRIRAST_BATCH_BAD_POSITION, 4);
    case 16: polygons->depth_count = 1; return of_batch(TRIRAST_BATCH_TOO_FEW_DEPTHS, TRIRAST_NONE);
    // Corners that are said to be there, and are not.
    case 17: polygons->corner_count = (size_t)1 << 31; return of_batch(TRIRAST_BATCH_LEFT_OVER, TRIRAST_NONE);
    case 18: polygons->corner_count = (size_t)1 << 32; return of_batch(TRIRAST_BATCH_TOO_MANY_CORNERS, TRIRAST_NONE);
    case 19: polygons->corners = NULL, polygons->corner_count = 0; return of_batch(TRIRAST_BATCH_BAD_RING, 0);
    case 20:
        polygons->ring_ends = NULL, polygons->ring_count = 0;
        return of_batch(TRIRAST_BATCH_LEFT_OVER, TRIRAST_NONE);
    case 21:
        polygons->polygon_ends = NULL, polygons->polygon_count = 0;
        return of_batch(TRIRAST_BATCH_LEFT_OVER, TRIRAST_NONE);
    case 22: all->made.made.whole.samples = 3; return (due){TRIRAST_STATUS_BAD_CANVAS, 0, TRIRAST_NONE};
    case 23: give_boxes(all), polygons->box_count = 1; return of_batch(TRIRAST_BATCH_TOO_FEW_BOXES, TRIRAST_NONE);
    // Ends are looked at before boxes, and boxes before colours.
    case 24:
        give_boxes(all), polygons->box_count = 1, all->ring_ends[1] = 2;
        return of_batch(TRIRAST_BATCH_BAD_RING, 1);
    default: return break_numbers(all, change - 25);
    }
}

static int is_unchanged(const set *all) {
    return holds_just(&all->made.made.memory, NULL, 0) && holds_just(&all->scratch, NULL, 0);
}

static void compare_refused_sets(void) {
    for (int change = 0; change < REFUSED; change++)
        for (int by_ids = change >= BY_COLOURS && change < BY_IDS; by_ids < (change < BY_COLOURS ? 1 : 2); by_ids++) {
            set all;
            uint32_t first_id = 0;
            trirast_error error = UNSET;
            make_set(&all);
            const due wanted = break_set(&all, change, &first_id);
            trirast_status status = draw_set(&all, by_ids, first_id, &error);
            expect(is_error(&error, status, wanted.status) && error.cause == wanted.cause &&
                       error.draw == TRIRAST_NONE && error.element == wanted.element && is_unchanged(&all),
                   "change %d, ids %d: status %u, cause %u at %zu, or a change", change, by_ids, status, error.cause,
                   error.element);
            status = draw_set(&all, by_ids, first_id, NULL);
            expect(status == wanted.status && is_unchanged(&all), "change %d: status %u without an error", change,
                   status);
            free_set(&all);
        }
    report("polygons with a number or an end out of range, of another release or with corners that are not there are "
           "refused, and nothing is drawn");
}

// Scratch memory that is too small, at another address than a multiple of 8, or not there.
static void compare_scratch(void) {
    for (int change = 0; change < NO_ROOM; change++) {
        set all;
        trirast_error error = UNSET;
        make_set(&all);
        all.polygons.fill_rule = (uint32_t)(change % 2);
        const size_t size = trirast_polygons_scratch(&all.made.made.whole, (trirast_fill_rule)all.polygons.fill_rule);
        uint8_t *const places[] = {all.scratch.bytes, all.scratch.bytes + 4, all.scratch.bytes, NULL};
        const size_t sizes[] = {size - 1, size, 0, 0};
        trirast_status status = trirast_canvas_draw_polygons(&all.made.made.whole, &all.polygons, places[change / 2],
                                                             sizes[change / 2], &error);
        expect(is_error(&error, status, TRIRAST_STATUS_BUFFER_TOO_SMALL) && is_unchanged(&all),
               "change %d: status %u, or a change", change, status);
        status = trirast_canvas_draw_polygon_ids(&all.made.made.whole, &all.polygons, 0, places[change / 2],
                                                 sizes[change / 2], NULL);
        expect(status == TRIRAST_STATUS_BUFFER_TOO_SMALL && is_unchanged(&all),
               "change %d: status %u by ids, or a change", change, status);
        free_set(&all);
    }
    report("scratch memory that is too small, misaligned or not there is refused");
}

// The size of scratch memory: flags for each part of at most four samples of a pixel, and by the nonzero rule three
// times as many and counters.
static void compare_scratch_sizes(void) {
    static const uint32_t counts[] = {0, 1, 2, 4, 8, 16};
    static const size_t parts[] = {1, 1, 1, 1, 2, 4};
    for (size_t k = 0; k < sizeof counts / sizeof counts[0]; k++) {
        const trirast_canvas canvas = {.width = WIDTH, .height = HEIGHT, .samples = counts[k]};
        expect(trirast_polygons_scratch(&canvas, TRIRAST_FILL_EVEN_ODD) == 16 * 256 * parts[k],
               "flags for %u samples", counts[k]);
        expect(trirast_polygons_scratch(&canvas, TRIRAST_FILL_NONZERO) == 16 * (3 * 256 + 8192) * parts[k],
               "flags and counters for %u samples", counts[k]);
    }
    report("scratch memory has flags for each part of at most four samples, and by the nonzero rule three times as "
           "many and counters");
}

static void compare_messages(void) {
    const struct {
        uint32_t cause;
        size_t element;
        const char *text;
    } cases[] = {{TRIRAST_BATCH_BAD_RING, 1, "ring 1 ends before it begins, or behind the last corner"},
                 {TRIRAST_BATCH_BAD_POLYGON, 0, "polygon 0 ends before it begins, or behind the last ring"},
                 {TRIRAST_BATCH_TOO_FEW_COLORS, TRIRAST_NONE, "there are fewer colors than polygons"},
                 {TRIRAST_BATCH_BAD_FILL_RULE, TRIRAST_NONE, "no such fill rule"}};
    for (size_t k = 0; k < sizeof cases / sizeof cases[0]; k++) {
        const trirast_error error = {TRIRAST_STATUS_BAD_BATCH, cases[k].cause, TRIRAST_NONE, cases[k].element,
                                     TRIRAST_NONE};
        char message[TRIRAST_ERROR_MESSAGE_SIZE];
        trirast_error_message(&error, message, sizeof message);
        expect(!strcmp(message, cases[k].text), "%s", message);
    }
    report("messages name the ring and the polygon");
}

// Alpha becomes 255 where ids are drawn, unless the state keeps it; the other channels that it keeps are written.
static void compare_alpha_of_ids(void) {
    const trirast_clear clear = {1, 2, 3, 64, 65535, 0};
    for (int keeps_alpha = 0; keeps_alpha < 2; keeps_alpha++) {
        set all;
        uint8_t rgba[4 * PIXELS];
        make_set(&all);
        trirast_canvas *canvas = &all.made.made.whole;
        canvas->channels = 4;
        all.polygons.state.keep = keeps_alpha ? TRIRAST_KEEP_ALPHA | TRIRAST_KEEP_RED : TRIRAST_KEEP_RED;
        expect(!trirast_canvas_clear(canvas, &clear) && !draw_set(&all, 1, 70000, NULL), "not drawn");
        expect(!trirast_canvas_colors(canvas, 0, TRIRAST_FORMAT_RGBA8, rgba, sizeof rgba, 0), "no colours");
        expect(rgba[0] == 70000 % 256 && rgba[3] == (keeps_alpha ? 64 : 255), "keep %d: red %d and alpha %d",
               keeps_alpha, rgba[0], rgba[3]);
        free_set(&all);
    }
    report("polygons by ids write alpha unless it is kept, and each colour");
}

void compare_polygons(void) {
    compare_drawn();
    compare_alpha_of_ids();
    compare_with_triangle();
    compare_boxes();
    compare_with_boxes();
    compare_with_other_boxes();
    compare_refused_boxes();
    compare_refused_sets();
    compare_scratch();
    compare_scratch_sizes();
    compare_messages();
}
