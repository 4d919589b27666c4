// Fragments that are blended with one tile: each sample compared with the definition, and with what drawing makes of
// it; and what the call refuses.
#include <stdlib.h>
#include <string.h>

#include "canvases.h"

enum { WIDE = 80, TALL = 70, COLUMNS = 2, ROWS = 2, SAMPLES = WIDE * TALL, RUNS = 8 };

static uint32_t random_state = 7;

static uint32_t random_below(uint32_t end) {
    random_state = random_state * 1664525 + 1013904223;
    return (uint32_t)(((uint64_t)random_state * end) >> 32);
}

// ---- The definition -------------------------------------------------------------------------------------------------

// A channel of a fragment and the stored one, what both have as alpha, and the constant.
typedef struct {
    int source, source_alpha, stored, stored_alpha, constant, is_alpha;
} operands;

static int least(int a, int b) { return a < b ? a : b; }

static int factor_of(uint8_t factor, int otherwise, operands o) {
    switch (factor) {
    case TRIRAST_FACTOR_DEFAULT: return otherwise;
    case TRIRAST_FACTOR_ZERO: return 0;
    case TRIRAST_FACTOR_ONE: return 255;
    case TRIRAST_FACTOR_SOURCE_COLOR: return o.source;
    case TRIRAST_FACTOR_INVERSE_SOURCE_COLOR: return 255 - o.source;
    case TRIRAST_FACTOR_SOURCE_ALPHA: return o.source_alpha;
    case TRIRAST_FACTOR_INVERSE_SOURCE_ALPHA: return 255 - o.source_alpha;
    case TRIRAST_FACTOR_STORED_ALPHA: return o.stored_alpha;
    case TRIRAST_FACTOR_INVERSE_STORED_ALPHA: return 255 - o.stored_alpha;
    case TRIRAST_FACTOR_STORED_COLOR: return o.stored;
    case TRIRAST_FACTOR_INVERSE_STORED_COLOR: return 255 - o.stored;
    case TRIRAST_FACTOR_SOURCE_ALPHA_SATURATED: return o.is_alpha ? 255 : least(o.source_alpha, 255 - o.stored_alpha);
    case TRIRAST_FACTOR_CONSTANT: return o.constant;
    default: return 255 - o.constant;
    }
}

static int blended(uint8_t source, uint8_t stored, uint8_t operation, operands o) {
    const int plus = o.source * factor_of(source, 255, o), minus = o.stored * factor_of(stored, 0, o);
    int sum = plus + minus;
    switch (operation) {
    case TRIRAST_OPERATION_SUBTRACT: sum = plus - minus; break;
    case TRIRAST_OPERATION_REVERSE_SUBTRACT: sum = minus - plus; break;
    case TRIRAST_OPERATION_MIN: return least(o.source, o.stored);
    case TRIRAST_OPERATION_MAX: return o.source > o.stored ? o.source : o.stored;
    default: break;
    }
    return sum < 0 ? 0 : least((sum + 127) / 255, 255);
}

static int passes(uint8_t test, int new, int old) {
    switch (test) {
    case TRIRAST_DEPTH_ALWAYS: return 1;
    case TRIRAST_DEPTH_NEVER: return 0;
    case TRIRAST_DEPTH_LESS: return new < old;
    case TRIRAST_DEPTH_EQUAL: return new == old;
    case TRIRAST_DEPTH_LESS_EQUAL: return new <= old;
    case TRIRAST_DEPTH_GREATER: return new > old;
    case TRIRAST_DEPTH_NOT_EQUAL: return new != old;
    default: return new >= old;
    }
}

// What a fragment makes of a sample: red, green, blue and alpha, and its depth.
static void merge(const trirast_draw *state, int has_alpha, uint32_t color, uint16_t depth, uint8_t *stored,
                  uint16_t *stored_depth) {
    const trirast_blend *by = &state->blend;
    const int source_alpha = (int)(color >> 24), stored_alpha = stored[3];
    if (!passes(state->depth_test, depth, *stored_depth)) return;
    for (int k = 0; k < 3 + has_alpha; k++) {
        const operands o = {color >> 8 * k & 255, source_alpha, stored[k], stored_alpha, by->constant[k], k == 3};
        if (state->keep >> k & 1) continue;
        stored[k] = (uint8_t)(k == 3 ? blended(by->alpha_source, by->alpha_stored, by->alpha_operation, o)
                                     : blended(by->color_source, by->color_stored, by->color_operation, o));
    }
    if (state->depth_write) *stored_depth = depth;
}

// ---- A canvas and its samples ---------------------------------------------------------------------------------------

typedef struct {
    trirast_canvas whole;
    uint8_t *colors;   // RGBA of each sample, sample index by sample index
    uint16_t *depths;
} shown;

static void *room(size_t size) {
    void *all = calloc(size, 1);
    if (!all) stop("out of memory", "tile blends");
    return all;
}

static void read_samples(shown *all) {
    for (uint32_t s = 0; s < all->whole.samples; s++) {
        expect(!trirast_canvas_colors(&all->whole, s, TRIRAST_FORMAT_RGBA8, all->colors + s * 4 * SAMPLES, 4 * SAMPLES,
                                      0),
               "colours of sample %u", s);
        expect(!trirast_canvas_depths(&all->whole, s, all->depths + s * SAMPLES, SAMPLES, 0), "depths of sample %u", s);
    }
}

static void draw_some(trirast_canvas *whole, uint32_t count) {
    for (uint32_t k = 0; k < count; k++) {
        trirast_vertex corners[3] = {0};
        for (int n = 0; n < 3; n++) {
            corners[n].x = (int32_t)random_below(WIDE * 256), corners[n].y = (int32_t)random_below(TALL * 256);
            corners[n].depth = (uint16_t)random_below(65536);
            corners[n].red = (uint8_t)random_below(256), corners[n].green = (uint8_t)random_below(256);
            corners[n].blue = (uint8_t)random_below(256), corners[n].alpha = (uint8_t)random_below(256);
        }
        const trirast_draw draw = {.vertex_count = 3, .depth_write = 1};
        const trirast_batch batch = {.draws = &draw, .draw_count = 1, .vertices = corners, .vertex_count = 3};
        expect(!trirast_canvas_draw(whole, &batch, NULL), "a triangle is not drawn");
    }
}

static shown random_canvas(uint32_t samples, uint32_t channels) {
    shown all = {.whole = {.width = WIDE, .height = TALL, .samples = samples, .channels = channels}};
    const size_t size = trirast_canvas_size(&all.whole);
    void *memory = aligned_alloc(64, size);
    if (!memory) stop("out of memory", "a canvas");
    memset(memory, 0xA5, size);
    const trirast_clear clear = {.red = 70, .green = 80, .blue = 90, .alpha = 200, .depth = 30000};
    expect(!trirast_canvas_init(&all.whole, memory, size), "no canvas of %u samples", samples);
    expect(!trirast_canvas_clear(&all.whole, &clear), "not cleared");
    draw_some(&all.whole, random_below(12));
    all.colors = room(4 * SAMPLES * samples), all.depths = room(SAMPLES * samples * sizeof *all.depths);
    read_samples(&all);
    return all;
}

static void free_canvas(shown *all) { free(all->whole.memory), free(all->colors), free(all->depths); }

static void compare_all(const shown *wanted, const char *what) {
    shown now = *wanted;
    const size_t count = SAMPLES * (size_t)now.whole.samples;
    now.colors = room(4 * count), now.depths = room(count * sizeof *now.depths);
    read_samples(&now);
    expect(!memcmp(now.colors, wanted->colors, 4 * count), "%s, %u samples: other colours", what, now.whole.samples);
    expect(!memcmp(now.depths, wanted->depths, count * sizeof *now.depths), "%s, %u samples: other depths", what,
           now.whole.samples);
    free(now.colors), free(now.depths);
}

// ---- Fragments ------------------------------------------------------------------------------------------------------

typedef struct {
    uint32_t *colors;
    uint16_t *depths;
    uint64_t *kept;
    size_t color_count, depth_count, kept_count;
} fragments;

static fragments random_fragments(uint32_t samples) {
    const size_t entries = TRIRAST_TILE_ENTRIES(samples), masks = TRIRAST_TILE_MASKS(samples);
    fragments made = {room(4 * entries), room(2 * entries), room(8 * masks), random_below(3) ? entries : 1,
                      random_below(3) ? entries : 1, random_below(3) ? masks : 1};
    for (size_t n = 0; n < entries; n++) {
        made.colors[n] = random_below(65536) << 16 | random_below(65536);
        // Some depths are just that of the clear sample.
        made.depths[n] = random_below(4) ? (uint16_t)random_below(65536) : 30000;
    }
    for (size_t n = 0; n < masks; n++) {
        const uint64_t bits = (uint64_t)random_below(65536) << 48 | (uint64_t)random_below(65536) << 32 |
                              (uint64_t)random_below(65536) << 16 | random_below(65536);
        made.kept[n] = random_below(3) ? bits : random_below(2) ? UINT64_MAX : 0;
    }
    return made;
}

static void free_fragments(fragments *made) { free(made->colors), free(made->depths), free(made->kept); }

static uint8_t random_factor(void) {
    const uint32_t factor = random_below(14);
    return (uint8_t)(factor < 12 ? factor : factor + 2);
}

// What the call has no use for is random too.
static trirast_draw random_draw(void) {
    static const trirast_depth_test TESTS[4] = {TRIRAST_DEPTH_ALWAYS, TRIRAST_DEPTH_LESS, TRIRAST_DEPTH_EQUAL,
                                                TRIRAST_DEPTH_GREATER_EQUAL};
    trirast_draw draw = {.vertex_count = random_below(9), .index_count = random_below(9)};
    draw.topology = (uint8_t)random_below(3), draw.cull = (uint8_t)random_below(3);
    draw.depth_test = (uint8_t)(random_below(2) ? TESTS[random_below(4)] : random_below(8));
    draw.depth_write = (uint8_t)random_below(2), draw.keep = (uint8_t)(random_below(2) ? 0 : random_below(16));
    draw.scissor_enable = (uint8_t)random_below(2), draw.skip_samples = (uint16_t)random_below(65536);
    draw.scissor_right = (int32_t)random_below(9);
    if (!random_below(3)) return draw.blend = TRIRAST_BLEND_OVER, draw;
    draw.blend.color_source = random_factor(), draw.blend.color_stored = random_factor();
    draw.blend.alpha_source = random_factor(), draw.blend.alpha_stored = random_factor();
    draw.blend.color_operation = (uint8_t)random_below(6), draw.blend.alpha_operation = (uint8_t)random_below(6);
    for (int k = 0; k < 4; k++) draw.blend.constant[k] = (uint8_t)random_below(256);
    return draw;
}

static trirast_status blend(trirast_canvas *canvas, uint32_t column, uint32_t row, const trirast_draw *state,
                            const fragments *with) {
    return trirast_canvas_tile_blend(canvas, column, row, state, with->colors, with->color_count, with->depths,
                                     with->depth_count, with->kept, with->kept_count);
}

static size_t at_or_one(size_t count, size_t index) { return count == 1 ? 0 : index; }

// What the fragments make of the samples of a tile, by the definition.
static void merge_all(shown *all, uint32_t column, uint32_t row, const trirast_draw *state, const fragments *with) {
    const uint32_t samples = all->whole.samples;
    for (uint32_t s = 0; s < samples; s++)
        for (uint32_t y = 64 * row; y < 64 * row + 64 && y < TALL; y++)
            for (uint32_t x = 64 * column; x < 64 * column + 64 && x < WIDE; x++) {
                const size_t mask = (size_t)(y % 64 / 8 * 8 + x % 64 / 8) * samples + s, k = y % 8 * 8 + x % 8;
                const size_t at = s * SAMPLES + (size_t)y * WIDE + x;
                if (!(with->kept[at_or_one(with->kept_count, mask)] >> k & 1)) continue;
                merge(state, all->whole.channels == 4, with->colors[at_or_one(with->color_count, 64 * mask + k)],
                      with->depths[at_or_one(with->depth_count, 64 * mask + k)], all->colors + 4 * at,
                      all->depths + at);
            }
}

static void compare_tiles(uint32_t samples, uint32_t channels) {
    shown all = random_canvas(samples, channels);
    for (int run = 0; run < RUNS; run++) {
        const uint32_t column = random_below(COLUMNS), row = random_below(ROWS);
        const trirast_draw state = random_draw();
        fragments with = random_fragments(samples);
        expect(!blend(&all.whole, column, row, &state, &with), "tile %u, %u is not blended", column, row);
        merge_all(&all, column, row, &state, &with);
        compare_all(&all, "a tile that was blended");
        free_fragments(&with);
        if (run % 4 == 3) draw_some(&all.whole, 3), read_samples(&all);
    }
    free_canvas(&all);
}

// ---- What drawing makes of the same fragments -----------------------------------------------------------------------

// One colour and one depth for the first tile, drawn as a quad, and blended.
static void compare_drawn(uint32_t samples, uint32_t channels) {
    shown all = random_canvas(samples, channels);
    trirast_canvas other = all.whole;
    const size_t size = trirast_canvas_size(&all.whole);
    other.memory = aligned_alloc(64, size);
    if (!other.memory) stop("out of memory", "another canvas");
    for (int run = 0; run < RUNS; run++) {
        memcpy(other.memory, all.whole.memory, size);
        trirast_draw draw = random_draw();
        const uint32_t color = random_below(65536) << 16 | random_below(65536);
        const uint16_t depth = (uint16_t)(random_below(2) ? 30000 : random_below(65536));
        const uint64_t kept = UINT64_MAX;
        expect(!trirast_canvas_tile_blend(&all.whole, 0, 0, &draw, &color, 1, &depth, 1, &kept, 1), "not blended");
        trirast_vertex corners[4] = {{0}};
        for (int n = 0; n < 4; n++) {
            corners[n].x = n == 1 || n == 2 ? 64 * 256 : 0, corners[n].y = n < 2 ? 0 : 64 * 256;
            corners[n].depth = depth, corners[n].red = (uint8_t)color, corners[n].green = (uint8_t)(color >> 8);
            corners[n].blue = (uint8_t)(color >> 16), corners[n].alpha = (uint8_t)(color >> 24);
        }
        draw.vertex_count = 4, draw.index_count = 0, draw.topology = TRIRAST_TOPOLOGY_QUADS, draw.cull = 0;
        draw.scissor_enable = 0, draw.skip_samples = 0;
        const trirast_batch batch = {.draws = &draw, .draw_count = 1, .vertices = corners, .vertex_count = 4};
        expect(!trirast_canvas_draw(&other, &batch, NULL), "not drawn");
        shown beside = {other, all.colors, all.depths};
        read_samples(&beside);
        compare_all(&all, "a tile that was drawn");
    }
    free(other.memory), free_canvas(&all);
}

// ---- What is refused ------------------------------------------------------------------------------------------------

static void compare_states(const shown *all, const fragments *with) {
    for (int change = 0; change < 14; change++) {
        trirast_draw draw = {0};
        switch (change) {
        case 0: draw.topology = 3; break;
        case 1: draw.cull = 3; break;
        case 2: draw.depth_test = 8; break;
        case 3: draw.depth_write = 2; break;
        case 4: draw.keep = 16; break;
        case 5: draw.scissor_enable = 2; break;
        case 6: draw.blend.color_source = 12; break;
        case 7: draw.blend.color_stored = 13; break;
        case 8: draw.blend.alpha_source = 16; break;
        case 9: draw.blend.alpha_stored = 255; break;
        case 10: draw.blend.color_operation = 6; break;
        case 11: draw.blend.alpha_operation = 6; break;
        case 12: draw.depth_test = 255; break;
        default: draw.keep = 255; break;
        }
        trirast_canvas canvas = all->whole;
        expect(blend(&canvas, 0, 0, &draw, with) == TRIRAST_STATUS_BAD_BATCH, "state %d is taken", change);
        // Of two errors that of the state comes first.
        expect(blend(&canvas, COLUMNS, 0, &draw, with) == TRIRAST_STATUS_BAD_BATCH, "state %d beside a tile", change);
    }
}

static void compare_counts(const shown *all, const fragments *with) {
    const size_t entries = TRIRAST_TILE_ENTRIES(4), masks = TRIRAST_TILE_MASKS(4);
    const size_t wrong[4] = {0, 2, entries - 1, entries + 1}, wrong_masks[4] = {0, 2, masks - 1, entries};
    const trirast_draw draw = {0};
    trirast_canvas canvas = all->whole;
    for (int k = 0; k < 4; k++) {
        fragments few = *with;
        few.color_count = wrong[k];
        expect(blend(&canvas, 0, 0, &draw, &few) == TRIRAST_STATUS_BUFFER_TOO_SMALL, "%zu colours", wrong[k]);
        expect(blend(&canvas, COLUMNS, 0, &draw, &few) == TRIRAST_STATUS_BAD_TILE, "%zu colours of no tile", wrong[k]);
        few = *with, few.depth_count = wrong[k];
        expect(blend(&canvas, 0, 0, &draw, &few) == TRIRAST_STATUS_BUFFER_TOO_SMALL, "%zu depths", wrong[k]);
        few = *with, few.kept_count = wrong_masks[k];
        expect(blend(&canvas, 0, 0, &draw, &few) == TRIRAST_STATUS_BUFFER_TOO_SMALL, "%zu masks", wrong_masks[k]);
    }
    fragments none = {NULL, NULL, NULL, 0, 0, 0};
    expect(blend(&canvas, 0, 0, &draw, &none) == TRIRAST_STATUS_BUFFER_TOO_SMALL, "no fragments");
}

static void compare_refused(void) {
    shown all = random_canvas(4, 4);
    fragments with = random_fragments(4);
    const trirast_draw draw = {0};
    with.color_count = with.depth_count = TRIRAST_TILE_ENTRIES(4), with.kept_count = TRIRAST_TILE_MASKS(4);
    trirast_canvas piece, wrong = all.whole;
    wrong.width = 0;
    expect(!trirast_canvas_split(&all.whole, 1, 2, &piece), "no piece");
    expect(blend(&wrong, 0, 0, &draw, &with) == TRIRAST_STATUS_BAD_CANVAS, "a canvas without columns");
    expect(blend(&all.whole, COLUMNS, 0, &draw, &with) == TRIRAST_STATUS_BAD_TILE, "a column too many");
    expect(blend(&all.whole, 0, ROWS, &draw, &with) == TRIRAST_STATUS_BAD_TILE, "a row too many");
    expect(blend(&all.whole, UINT32_MAX, UINT32_MAX, &draw, &with) == TRIRAST_STATUS_BAD_TILE, "the last tile");
    expect(blend(&piece, 0, 0, &draw, &with) == TRIRAST_STATUS_BAD_TILE, "a row above the piece");
    compare_states(&all, &with);
    compare_counts(&all, &with);
    compare_all(&all, "calls that were refused");
    free_fragments(&with), free_canvas(&all);
}

void compare_tile_blends(void) {
    for (uint32_t samples = 1; samples <= 16; samples *= 2)
        for (uint32_t channels = 3; channels <= 4; channels++) compare_tiles(samples, channels);
    report("each kept sample of a tile takes its fragment by the state, and all other samples stay");
    for (uint32_t samples = 1; samples <= 16; samples *= 2)
        for (uint32_t channels = 3; channels <= 4; channels++) compare_drawn(samples, channels);
    report("a tile that is blended with one fragment is the same as one that a quad is drawn on");
    compare_refused();
    report("the call that blends a tile refuses what there is not, and changes nothing");
}
