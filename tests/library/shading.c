// Colours and ids of one sample index and of one tile, read and stored: the laws of these calls by random canvases with
// each number of samples a pixel, and what they refuse.
#include <stdlib.h>
#include <string.h>

#include "canvases.h"

enum { WIDE = 150, TALL = 135, COLUMNS = 3, ROWS = 3, PADDING = 5, BLACK_DEPTH = 65535 };

static uint32_t random_state = 1;

static uint32_t random_below(uint32_t end) {
    random_state = random_state * 1664525 + 1013904223;
    return (uint32_t)(((uint64_t)random_state * end) >> 32);
}

// A canvas, and its samples as the calls by sample index read them: ids and depths, sample index by sample index.
typedef struct {
    trirast_canvas whole;
    uint32_t *ids;
    uint16_t *depths;
} shown;

static size_t pixels_of(const trirast_canvas *canvas) { return (size_t)canvas->width * canvas->height; }

static void *room(size_t size) {
    void *all = calloc(size, 1);
    if (!all) stop("out of memory", "shading");
    return all;
}

static void read_samples(shown *all) {
    for (uint32_t s = 0; s < all->whole.samples; s++) {
        const size_t from = s * pixels_of(&all->whole);
        expect(!trirast_canvas_ids(&all->whole, s, all->ids + from, pixels_of(&all->whole), 0), "ids of sample %u", s);
        expect(!trirast_canvas_depths(&all->whole, s, all->depths + from, pixels_of(&all->whole), 0),
               "depths of sample %u", s);
    }
}

// Triangles of random ids and depths, all in the left and the upper tiles, so that others stay as they were cleared.
static shown random_canvas(uint32_t samples) {
    shown all = {.whole = {.width = WIDE, .height = TALL, .samples = samples}};
    const size_t size = trirast_canvas_size(&all.whole);
    void *memory = aligned_alloc(64, size);
    if (!memory) stop("out of memory", "a canvas");
    memset(memory, 0xA5, size);
    expect(!trirast_canvas_init(&all.whole, memory, size), "no canvas of %u samples", samples);
    expect(!trirast_canvas_clear(&all.whole, &(trirast_clear){.red = 7, .green = 8, .blue = 9, .depth = BLACK_DEPTH}),
           "not cleared");
    for (int k = 0; k < 40; k++) {
        trirast_vertex corners[3] = {0};
        for (int n = 0; n < 3; n++) {
            corners[n].x = (int32_t)random_below(64 * 256), corners[n].y = (int32_t)random_below(130 * 256);
            corners[n].depth = (uint16_t)random_below(65535);
        }
        const trirast_draw draw = {.vertex_count = 3, .depth_test = TRIRAST_DEPTH_LESS, .depth_write = 1};
        const trirast_batch batch = {.draws = &draw, .draw_count = 1, .vertices = corners, .vertex_count = 3};
        expect(!trirast_canvas_draw_ids(&all.whole, &batch, random_below(16777216), NULL), "ids are not drawn");
    }
    all.ids = room(pixels_of(&all.whole) * samples * sizeof *all.ids);
    all.depths = room(pixels_of(&all.whole) * samples * sizeof *all.depths);
    read_samples(&all);
    return all;
}

static void free_canvas(shown *all) { free(all->whole.memory), free(all->ids), free(all->depths); }

static size_t entry_of(uint32_t samples, uint32_t x, uint32_t y, uint32_t s) {
    return ((size_t)(y % 64 / 8 * 8 + x % 64 / 8) * samples + s) * 64 + y % 8 * 8 + x % 8;
}

// The canvas has these samples still, but those of the tile or of the index that `wanted` already says otherwise of.
static void compare_all(const shown *wanted, const char *what) {
    shown now = *wanted;
    const size_t count = pixels_of(&now.whole) * now.whole.samples;
    now.ids = room(count * sizeof *now.ids), now.depths = room(count * sizeof *now.depths);
    read_samples(&now);
    expect(!memcmp(now.ids, wanted->ids, count * sizeof *now.ids), "%s: other colours", what);
    expect(!memcmp(now.depths, wanted->depths, count * sizeof *now.depths), "%s: other depths", what);
    free(now.ids), free(now.depths);
}

// Reads a tile, and compares each entry with the calls by sample index. Returns how many were written.
static size_t read_tile(const shown *all, uint32_t column, uint32_t row, uint32_t *ids) {
    const uint32_t samples = all->whole.samples;
    uint32_t uniform = 9;
    memset(ids, 0xFF, TRIRAST_TILE_ENTRIES(samples) * sizeof *ids);
    expect(!trirast_canvas_tile_ids(&all->whole, column, row, ids, TRIRAST_TILE_ENTRIES(samples), &uniform),
           "no tile %u, %u", column, row);
    expect(uniform <= 1 && (!uniform || ids[1] == 0xFFFFFFFF), "tile %u, %u: uniform %u, second entry %u", column, row,
           uniform, ids[1]);
    for (uint32_t s = 0; s < samples; s++)
        for (uint32_t y = 64 * row; y < 64 * row + 64 && y < TALL; y++)
            for (uint32_t x = 64 * column; x < 64 * column + 64 && x < WIDE; x++) {
                const uint32_t due = all->ids[s * pixels_of(&all->whole) + (size_t)y * WIDE + x];
                const uint32_t found = ids[uniform ? 0 : entry_of(samples, x, y, s)];
                expect(found == due, "sample %u of pixel %u, %u: id %u where %u was due", s, x, y, found, due);
            }
    return uniform ? 1 : TRIRAST_TILE_ENTRIES(samples);
}

static void store_tile(shown *all, uint32_t column, uint32_t row, const uint32_t *colors, size_t count) {
    const uint32_t samples = all->whole.samples;
    expect(!trirast_canvas_tile_store(&all->whole, column, row, colors, count), "tile %u, %u is not stored", column,
           row);
    for (uint32_t s = 0; s < samples; s++)
        for (uint32_t y = 64 * row; y < 64 * row + 64 && y < TALL; y++)
            for (uint32_t x = 64 * column; x < 64 * column + 64 && x < WIDE; x++)
                all->ids[s * pixels_of(&all->whole) + (size_t)y * WIDE + x] =
                    colors[count == 1 ? 0 : entry_of(samples, x, y, s)] & 0xFFFFFF;
}

static void compare_tiles(uint32_t samples) {
    shown all = random_canvas(samples);
    const size_t entries = TRIRAST_TILE_ENTRIES(samples);
    uint32_t *ids = room(entries * sizeof *ids), *colors = room(entries * sizeof *colors);
    size_t whole = 0;
    for (uint32_t row = 0; row < ROWS; row++)
        for (uint32_t column = 0; column < COLUMNS; column++) {
            const size_t written = read_tile(&all, column, row, ids);
            whole += written == 1;
            expect(!trirast_canvas_tile_store(&all.whole, column, row, ids, written), "ids are not stored");
            expect(read_tile(&all, column, row, ids) == written, "another number of ids after storing them");
        }
    expect(whole >= 6, "%zu tiles are as they were cleared", whole);
    compare_all(&all, "ids stored again");
    for (int k = 0; k < 6; k++) {
        const uint32_t column = random_below(COLUMNS), row = random_below(ROWS);
        const size_t count = k % 3 == 2 ? 1 : entries;
        for (size_t n = 0; n < count; n++) colors[n] = random_below(16777216) | random_below(256) << 24;
        store_tile(&all, column, row, colors, count);
        read_tile(&all, column, row, ids);
        compare_all(&all, "colours of a tile");
    }
    free(ids), free(colors), free_canvas(&all);
}

// Where red, green and blue are in a pixel of a format.
static const uint32_t ORDER[3][3] = {{0, 1, 2}, {0, 1, 2}, {2, 1, 0}};

static void compare_index(shown *all, uint32_t s, trirast_format format) {
    const size_t unit = format == TRIRAST_FORMAT_RGB8 ? 3 : 4, stride = WIDE * unit + PADDING,
                 from = s * pixels_of(&all->whole);
    const size_t size = stride * TALL - PADDING;
    uint8_t *bytes = room(size), *back = room(size);
    for (size_t n = 0; n < size; n++) bytes[n] = (uint8_t)random_below(256);
    expect(!trirast_canvas_store(&all->whole, s, format, bytes, size, stride), "sample %u is not stored", s);
    for (size_t p = 0; p < pixels_of(&all->whole); p++) {
        const uint8_t *pixel = bytes + p / WIDE * stride + p % WIDE * unit;
        all->ids[from + p] =
            pixel[ORDER[format][0]] + 256u * pixel[ORDER[format][1]] + 65536u * pixel[ORDER[format][2]];
    }
    compare_all(all, "colours of a sample index");
    memset(back, 0x5A, size);
    expect(!trirast_canvas_colors(&all->whole, s, format, back, size, stride), "sample %u is not read", s);
    for (size_t n = 0; n < size; n++) {
        const size_t place = n % stride;
        const uint8_t due = place >= WIDE * unit ? 0x5A : place % unit == 3 ? 255 : bytes[n];
        expect(back[n] == due, "sample %u, format %u: byte %zu is %u where %u was due", s, format, n, back[n], due);
    }
    free(bytes), free(back);
}

static void compare_indices(uint32_t samples) {
    shown all = random_canvas(samples);
    for (uint32_t format = 0; format < 3; format++) compare_index(&all, random_below(samples), (trirast_format)format);
    free_canvas(&all);
}

static void compare_refused(void) {
    shown all = random_canvas(4);
    const size_t entries = TRIRAST_TILE_ENTRIES(4), size = (size_t)3 * WIDE * TALL;
    uint32_t *ids = room((entries + 1) * sizeof *ids), uniform = 9;
    uint8_t *bytes = room(size);
    trirast_canvas piece, wrong = all.whole;
    wrong.width = 0;
    expect(!trirast_canvas_split(&all.whole, 1, 2, &piece), "no piece");
    expect(trirast_canvas_tile_ids(&wrong, 0, 0, ids, entries, &uniform) == TRIRAST_STATUS_BAD_CANVAS,
           "a canvas without columns");
    expect(trirast_canvas_tile_ids(&all.whole, COLUMNS, 0, ids, entries, &uniform) == TRIRAST_STATUS_BAD_TILE,
           "a column too many");
    expect(trirast_canvas_tile_ids(&all.whole, 0, ROWS, ids, entries, &uniform) == TRIRAST_STATUS_BAD_TILE,
           "a row too many");
    expect(trirast_canvas_tile_ids(&piece, 0, 0, ids, entries, &uniform) == TRIRAST_STATUS_BAD_TILE,
           "a row above the piece");
    expect(trirast_canvas_tile_ids(&piece, 0, 2, ids, 0, &uniform) == TRIRAST_STATUS_BAD_TILE,
           "a row below the piece, before the size");
    expect(trirast_canvas_tile_ids(&all.whole, 2, 2, ids, entries - 1, &uniform) == TRIRAST_STATUS_BUFFER_TOO_SMALL,
           "an entry too few");
    expect(uniform == 9 && ids[0] == 0, "ids were written");
    expect(trirast_canvas_tile_store(&all.whole, COLUMNS, 0, ids, 1) == TRIRAST_STATUS_BAD_TILE,
           "stored in a column too many");
    expect(trirast_canvas_tile_store(&piece, 0, 0, ids, 1) == TRIRAST_STATUS_BAD_TILE, "stored above the piece");
    for (size_t count = 0; count <= entries + 1; count++)
        if (count != 1 && count != entries && (count < 3 || count + 2 > entries))
            expect(trirast_canvas_tile_store(&all.whole, 0, 0, ids, count) == TRIRAST_STATUS_BUFFER_TOO_SMALL,
                   "%zu colours", count);
    expect(trirast_canvas_colors(&all.whole, 4, (trirast_format)5, bytes, 0, 1) == TRIRAST_STATUS_BAD_FORMAT,
           "a format");
    expect(trirast_canvas_colors(&all.whole, 4, TRIRAST_FORMAT_RGB8, bytes, 0, 1) == TRIRAST_STATUS_BAD_SAMPLE,
           "a sample");
    expect(trirast_canvas_colors(&all.whole, 3, TRIRAST_FORMAT_RGB8, bytes, size - 1, 0) ==
               TRIRAST_STATUS_BUFFER_TOO_SMALL,
           "a byte");
    expect(trirast_canvas_store(&all.whole, 4, (trirast_format)5, bytes, 0, 1) == TRIRAST_STATUS_BAD_FORMAT,
           "a format to store");
    expect(trirast_canvas_store(&all.whole, 4, TRIRAST_FORMAT_RGB8, bytes, 0, 1) == TRIRAST_STATUS_BAD_SAMPLE,
           "a sample to store");
    expect(trirast_canvas_store(&all.whole, 3, TRIRAST_FORMAT_RGB8, bytes, size, 3 * WIDE - 1) ==
               TRIRAST_STATUS_BUFFER_TOO_SMALL,
           "a stride");
    compare_all(&all, "calls that were refused");
    free(ids), free(bytes), free_canvas(&all);
}

void compare_shading(void) {
    for (uint32_t samples = 1; samples <= 16; samples *= 2) compare_tiles(samples);
    report("ids of a tile are those of its samples, and what is stored in a tile is what is read of it");
    for (uint32_t samples = 1; samples <= 16; samples *= 2) compare_indices(samples);
    report("colours of a sample index are stored and read, and all other samples and all depths stay");
    compare_refused();
    report("calls for tiles and sample indices refuse what there is not, and change nothing");
}
