// Calls that clear, read and store samples, and edge functions.
#include <stdlib.h>
#include <string.h>

#include "guarded.h"

void call_clear(scene *at) {
    const uint64_t bits = next(&at->from);
    const trirast_clear any = {(uint8_t)bits,         (uint8_t)(bits >> 8),   (uint8_t)(bits >> 16),
                               (uint8_t)(bits >> 24), (uint16_t)(bits >> 32), 1},
                        black = {0, 0, 0, 0, 65535, 0};
    const trirast_clear *clear = one_in(&at->from, 4) ? NULL : give(at, IN_STRUCT, &any, sizeof any);
    at->call = "clear";
    for (size_t k = 0; k < at->piece_count; k++) {
        trirast_canvas canvas = nearly(at, &at->pieces[k]);
        if (ended(at, trirast_canvas_clear(&canvas, clear), NULL, due_piece(&canvas)))
            plain_clear(&at->canvas, rows_of(&canvas), clear ? clear : &black);
    }
}

// ---- Pictures

// How a picture of a piece lies in memory, in bytes.
typedef struct {
    uint32_t format, sample;
    size_t row, stride, size;
    int is_stored, is_of_sample;
} picture;

// In one call of four there is a byte too few, or the stride is too small, or there is no such format or sample.
static picture picture_of(scene *at, const trirast_canvas *piece) {
    const plain_rows rows = rows_of(piece);
    picture found = {below(&at->from, 5), below(&at->from, at->canvas.samples), 0, 0, 0, one_in(&at->from, 2),
                     one_in(&at->from, 2)};
    found.row = (size_t)at->canvas.width * pixel_bytes(found.format);
    found.stride = one_in(&at->from, 2) ? 0 : found.row + below(&at->from, 20);
    found.size = rows.bottom > rows.top
                     ? (rows.bottom - rows.top - 1) * (found.stride ? found.stride : found.row) + found.row
                     : 0;
    switch (below(&at->from, 20)) {
    case 0: found.size -= found.size > 0; break;
    case 1: found.stride = found.row - 1; break;
    case 2: found.format = one_in(&at->from, 2) ? 5 : 99; break;
    case 3: found.sample = one_in(&at->from, 2) ? at->canvas.samples : UINT32_MAX; break;
    case 4: found.stride = SIZE_MAX - below(&at->from, 9); break;
    default: found.size += one_in(&at->from, 4) ? below(&at->from, 40) : 0; break;
    }
    return found;
}

static uint8_t *pixel_at(const picture *by, uint8_t *pixels, uint32_t row, uint32_t x) {
    return pixels + row * (by->stride ? by->stride : by->row) + (size_t)x * pixel_bytes(by->format);
}

// Makes the pixels of a picture the colours of the samples, or of the sample that it names.
static void store_plainly(const plain *canvas, plain_rows rows, const picture *by, uint8_t *pixels) {
    for (uint32_t y = rows.top; y < rows.bottom; y++)
        for (uint32_t x = 0; x < canvas->width; x++)
            for (uint32_t s = 0; s < canvas->samples; s++)
                if (!by->is_of_sample || s == by->sample)
                    read_pixel(by->format, pixel_at(by, pixels, y - rows.top, x), canvas->has_alpha,
                               sample_at(canvas, x, y, s)->channels);
}

// Writes the pixels of a picture into what the memory had before.
static void read_plainly(const plain *canvas, plain_rows rows, const picture *by, uint8_t *pixels) {
    for (uint32_t y = rows.top; y < rows.bottom; y++)
        for (uint32_t x = 0; x < canvas->width; x++) {
            uint8_t mean[4];
            plain_mean(canvas, x, y, mean);
            write_pixel(by->format, by->is_of_sample ? sample_at(canvas, x, y, by->sample)->channels : mean,
                        pixel_at(by, pixels, y - rows.top, x));
        }
}

static uint8_t *any_bytes(scene *at, size_t size) {
    uint8_t *found = malloc(size + 8);
    if (!found) abort();
    for (size_t k = 0; k < size; k += 8) {
        const uint64_t bits = next(&at->from);
        memcpy(found + k, &bits, 8);
    }
    return found;
}

static trirast_status picture_call(trirast_canvas *canvas, const picture *by, void *pixels) {
    const trirast_format format = (trirast_format)by->format;
    if (by->is_stored)
        return by->is_of_sample ? trirast_canvas_store(canvas, by->sample, format, pixels, by->size, by->stride)
                                : trirast_canvas_load(canvas, format, pixels, by->size, by->stride);
    return by->is_of_sample ? trirast_canvas_colors(canvas, by->sample, format, pixels, by->size, by->stride)
                            : trirast_canvas_resolve(canvas, format, pixels, by->size, by->stride);
}

void call_image(scene *at) {
    static const char *const names[2][2] = {{"resolve", "colors"}, {"load", "store"}};
    for (size_t k = 0; k < at->piece_count && !at->is_wrong; k++) {
        trirast_canvas canvas = nearly(at, &at->pieces[k]);
        const picture by = picture_of(at, &at->pieces[k]);
        uint8_t *wanted = any_bytes(at, by.size);
        void *pixels = by.is_stored ? give(at, IN_PICTURE, wanted, by.size) : give_room(at, IN_PICTURE, by.size);
        if (!by.is_stored && by.size) memcpy(pixels, wanted, by.size);
        at->call = names[by.is_stored][by.is_of_sample];
        const due due_here = due_image(&canvas, by.format, by.is_of_sample ? &by.sample : NULL, by.stride, by.size);
        if (ended(at, picture_call(&canvas, &by, pixels), NULL, due_here) && !at->is_wrong) {
            if (by.is_stored)
                store_plainly(&at->canvas, rows_of(&canvas), &by, wanted);
            else
                read_plainly(&at->canvas, rows_of(&canvas), &by, wanted);
        }
        if (by.size && memcmp(pixels, wanted, by.size)) wrong(at, "other pixels, or bytes between them");
        free(wanted);
    }
}

// ---- Depths and ids

static uint32_t id_of(const plain_sample *sample) {
    return sample->channels[0] | (uint32_t)sample->channels[1] << 8 | (uint32_t)sample->channels[2] << 16;
}

static void write_entry(const plain_sample *sample, size_t entry, uint8_t *to) {
    const uint32_t id = id_of(sample);
    memcpy(to, entry == 2 ? (const void *)&sample->depth : (const void *)&id, entry);
}

static void entries_of(scene *at, const trirast_canvas *piece, size_t entry) {
    const plain_rows rows = rows_of(piece);
    trirast_canvas canvas = nearly(at, piece);
    const size_t row = entry * at->canvas.width, step = one_in(&at->from, 2) ? row : row + entry * below(&at->from, 9);
    size_t size = rows.bottom > rows.top ? (rows.bottom - rows.top - 1) * step + row : 0, stride = step;
    uint32_t sample = below(&at->from, at->canvas.samples);
    switch (below(&at->from, 20)) {
    case 0: size -= size ? entry : 0; break;
    case 1: stride = row - entry; break;
    case 2: stride = step + 1; break;
    case 3: sample = one_in(&at->from, 2) ? at->canvas.samples : UINT32_MAX; break;
    default: stride = step == row && one_in(&at->from, 2) ? 0 : step; break;
    }
    uint8_t *wanted = any_bytes(at, size);
    void *entries = give_room(at, IN_PICTURE, size);
    if (size) memcpy(entries, wanted, size);
    at->call = entry == 2 ? "depths" : "ids";
    const due due_here = due_entries(&canvas, sample, entry, stride, size / entry);
    const trirast_status status = entry == 2 ? trirast_canvas_depths(&canvas, sample, entries, size / entry, stride)
                                             : trirast_canvas_ids(&canvas, sample, entries, size / entry, stride);
    if (ended(at, status, NULL, due_here))
        for (uint32_t y = rows_of(&canvas).top; y < rows_of(&canvas).bottom; y++)
            for (uint32_t x = 0; x < at->canvas.width; x++)
                write_entry(sample_at(&at->canvas, x, y, sample), entry,
                            wanted + (y - rows.top) * (stride ? stride : row) + entry * x);
    if (size && memcmp(entries, wanted, size)) wrong(at, "other entries, or entries between them");
    free(wanted);
}

void call_entries(scene *at) {
    for (size_t k = 0; k < at->piece_count && !at->is_wrong; k++)
        entries_of(at, &at->pieces[k], one_in(&at->from, 2) ? 2 : 4);
}

// ---- Tiles

// A tile of a piece, or in one call of eight one that it may not have.
typedef struct {
    uint32_t column, row;
    size_t entries;
} tile;

static tile tile_of(scene *at, const trirast_canvas *piece) {
    tile found = {below(&at->from, (at->canvas.width + 63) / 64), piece->first,
                  TRIRAST_TILE_ENTRIES(at->canvas.samples)};
    if (piece->end > piece->first) found.row += below(&at->from, piece->end - piece->first);
    if (one_in(&at->from, 16)) found.row = one_in(&at->from, 2) ? piece->end : piece->first - 1;
    if (one_in(&at->from, 16)) found.column = one_in(&at->from, 2) ? (at->canvas.width + 63) / 64 : UINT32_MAX;
    return found;
}

// The entry of each sample of a pixel of the canvas in the tile, one after another. Returns 0 behind the last one.
typedef struct {
    uint32_t x, y, s;
    size_t entry;
} tile_sample;

static int next_in(const plain *canvas, const tile *at, tile_sample *found) {
    if (++found->s >= canvas->samples) found->s = 0, found->x++;
    if (found->x >= 64 * at->column + 64 || found->x >= canvas->width) found->x = 64 * at->column, found->y++;
    if (found->y >= 64 * at->row + 64 || found->y >= canvas->height) return 0;
    const size_t x = found->x % 64, y = found->y % 64;
    found->entry = ((y / 8 * 8 + x / 8) * canvas->samples + found->s) * 64 + y % 8 * 8 + x % 8;
    return 1;
}

static tile_sample before(const tile *at) {
    const tile_sample found = {64 * at->column, 64 * at->row, UINT32_MAX, 0};
    return found;
}

static void tile_ids(scene *at, const trirast_canvas *piece) {
    trirast_canvas canvas = nearly(at, piece);
    const tile here = tile_of(at, piece);
    const size_t count = here.entries - one_in(&at->from, 16);
    uint32_t *ids = give_room(at, IN_PICTURE, 4 * count), *uniform = give_room(at, IN_STRUCT, 4);
    tile_sample each = before(&here);
    at->call = "tile_ids";
    if (!ended(at, trirast_canvas_tile_ids(&canvas, here.column, here.row, ids, count, uniform), NULL,
               due_tile(&canvas, here.column, here.row, count == here.entries)))
        return;
    if (*uniform > 1) wrong(at, "uniform is neither 0 nor 1");
    while (next_in(&at->canvas, &here, &each))
        if (ids[*uniform ? 0 : each.entry] != id_of(sample_at(&at->canvas, each.x, each.y, each.s)))
            wrong(at, "another id");
}

static void tile_store(scene *at, const trirast_canvas *piece) {
    trirast_canvas canvas = nearly(at, piece);
    const tile here = tile_of(at, piece);
    const size_t count = one_in(&at->from, 3) ? 1 : here.entries - one_in(&at->from, 16);
    uint8_t *bytes = any_bytes(at, 4 * count);
    const uint32_t *colors = give(at, IN_PICTURE, bytes, 4 * count);
    tile_sample each = before(&here);
    at->call = "tile_store";
    if (ended(at, trirast_canvas_tile_store(&canvas, here.column, here.row, colors, count), NULL,
              due_tile(&canvas, here.column, here.row, count == 1 || count == here.entries)))
        while (next_in(&at->canvas, &here, &each)) {
            plain_sample *sample = sample_at(&at->canvas, each.x, each.y, each.s);
            for (int k = 0; k < 3; k++) sample->channels[k] = (uint8_t)(colors[count == 1 ? 0 : each.entry] >> 8 * k);
        }
    free(bytes);
}

void call_tile(scene *at) {
    for (size_t k = 0; k < at->piece_count && !at->is_wrong; k++)
        (one_in(&at->from, 2) ? tile_ids : tile_store)(at, &at->pieces[k]);
}

// ---- Edge functions

static int is_in_band(int64_t value) { return value >= -8388608 && value <= 8388607; }

static int32_t any_coordinate(scene *at) {
    return one_in(&at->from, 40) ? (int32_t)next(&at->from) : (int32_t)between(&at->from, -8388608, 8388607);
}

void call_edges(scene *at) {
    enum { MOST = 5 };
    static const size_t strides[] = {0, 8, 12, 16, 256};
    trirast_corners corners = {any_coordinate(at), any_coordinate(at), any_coordinate(at), any_coordinate(at), 0, 0};
    trirast_point points[MOST];
    const size_t count = below(&at->from, MOST + 1), stride = strides[below(&at->from, 5)], step = stride ? stride : 8;
    uint8_t *bytes = any_bytes(at, MOST * step);
    int is_in = is_in_band(corners.ax) && is_in_band(corners.ay) && is_in_band(corners.bx) && is_in_band(corners.by);
    for (size_t k = 0; k < count; k++) {
        points[k].x = any_coordinate(at), points[k].y = any_coordinate(at);
        is_in = is_in && is_in_band(points[k].x) && is_in_band(points[k].y);
        memcpy(bytes + k * step, &points[k], sizeof *points);
    }
    const void *given = give(at, IN_VERTICES, bytes, count ? (count - 1) * step + sizeof *points : 0);
    trirast_edges *edges = give_room(at, IN_PICTURE, count * sizeof *edges);
    const size_t odd = one_in(&at->from, 8) ? (one_in(&at->from, 2) ? 10 : SIZE_MAX - 7) : stride;
    const int is_stride = odd == stride || (odd % 4 == 0 && count < 2);
    const due wanted = due_status(!is_stride ? TRIRAST_STATUS_BAD_STRIDE
                                  : is_in    ? TRIRAST_STATUS_OK
                                             : TRIRAST_STATUS_BAD_POSITION);
    at->call = "edges_at";
    if (ended(at, trirast_edges_at(&corners, given, odd, count, edges), NULL, wanted))
        for (size_t k = 0; k < count; k++) {
            const trirast_edges found = plain_edges(&corners, points[k].x, points[k].y);
            if (memcmp(&edges[k], &found, sizeof found)) wrong(at, "other edge functions");
        }
    free(bytes);
}
