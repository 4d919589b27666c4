// Draws on canvases: the scenes of the cases, whole, by pieces and by threads, and what is read back.
#include <pthread.h>
#include <stdlib.h>
#include <string.h>

#include "canvases.h"

void make_canvas(stage *made, uint32_t width, uint32_t height, uint32_t samples) {
    memset(made, 0, sizeof *made);
    made->whole.width = width, made->whole.height = height, made->whole.samples = samples;
    size_t size = trirast_canvas_size(&made->whole);
    made->memory = mark(size);
    if (trirast_canvas_init(&made->whole, made->memory.bytes, size)) stop("there is not", "a canvas");
}

static void make_stage(stage *made, const list_case *one) {
    make_canvas(made, one->arrays.width, one->arrays.height, one->arrays.samples);
    made->batch = one->arrays.batch, made->clear = one->arrays.clear;
}

// What the program's file has of the rows of pixels from `top` on, taken from a canvas: 3 bytes a
// pixel, or 2 of a depth.
static int shows_rows(const list_case *one, const trirast_canvas *canvas, uint32_t top, uint32_t bottom) {
    uint32_t width = one->info.width, rows = bottom - top;
    size_t unit = one->info.pixel_bytes, size = (size_t)rows * width * unit;
    const uint8_t *wanted = (const uint8_t *)one->wanted.bytes + one->info.header_bytes + (size_t)top * width * unit;
    uint8_t *bytes = malloc(size + 1);
    if (!bytes) stop("out of memory", "a picture");
    int is_same;
    if (unit == 3) {
        is_same = !trirast_canvas_resolve(canvas, TRIRAST_FORMAT_RGB8, bytes, size, 3 * (size_t)width) &&
                  !memcmp(bytes, wanted, size);
    } else {
        uint16_t *depths = (uint16_t *)(void *)bytes;
        is_same = !trirast_canvas_depths(canvas, 0, depths, (size_t)rows * width, 0);
        for (size_t k = 0; is_same && k < (size_t)rows * width; k++)
            is_same = depths[k] == 256 * wanted[2 * k] + wanted[2 * k + 1];
    }
    free(bytes);
    return is_same;
}

// The margins around the memory of the samples are unchanged.
static int has_margins(const stage *made) {
    for (size_t k = 0; k < MARGIN; k++)
        if (made->memory.all[k] != MARK || made->memory.bytes[made->memory.size + k] != MARK) return 0;
    return 1;
}

static void compare_whole(const list_case *one) {
    stage made;
    trirast_error error = UNSET;
    make_stage(&made, one);
    trirast_status cleared = trirast_canvas_clear(&made.whole, &made.clear);
    trirast_status drawn_so = trirast_canvas_draw(&made.whole, &made.batch, &error);
    expect(!cleared && is_error(&error, drawn_so, TRIRAST_STATUS_OK) && has_margins(&made) &&
               shows_rows(one, &made.whole, 0, one->info.height),
           "%s: status %u, or other pixels", one->name, drawn_so);
    free(made.memory.all);
}

void draw_on_canvas(const list_case *one) {
    stage made;
    trirast_error error;
    make_stage(&made, one);
    size_t width = made.whole.width, size = 4 * width * made.whole.height;
    marked entries = mark(size);
    int failed = trirast_canvas_clear(&made.whole, &made.clear) ||
                 trirast_canvas_draw(&made.whole, &made.batch, &error) ||
                 trirast_canvas_draw_ids(&made.whole, &made.batch, 0, &error) ||
                 trirast_canvas_resolve(&made.whole, TRIRAST_FORMAT_BGRA8, entries.bytes, size, 4 * width) ||
                 trirast_canvas_load(&made.whole, TRIRAST_FORMAT_RGBA8, entries.bytes, size, 4 * width) ||
                 trirast_canvas_depths(&made.whole, 0, (uint16_t *)(void *)entries.bytes, size / 2, 2 * width) ||
                 trirast_canvas_ids(&made.whole, 0, (uint32_t *)(void *)entries.bytes, size / 4, 4 * width);
    if (failed) stop("a call on a canvas failed", one->name);
    free(entries.all), free(made.memory.all);
}

// ---- Pieces and threads ---------------------------------------------------------------------------------------------

enum { THREADS = 4 };

typedef struct {
    const list_case *one;
    stage *made;
    uint32_t first, end;
} share;

static void *draw_piece(void *argument) {
    share *own = argument;
    trirast_canvas piece;
    trirast_error error = UNSET;
    uint32_t side = TRIRAST_TILE_SIZE, height = own->made->whole.height;
    trirast_status status = trirast_canvas_split(&own->made->whole, own->first, own->end, &piece);
    if (!status) status = trirast_canvas_clear(&piece, &own->made->clear);
    if (!status) status = trirast_canvas_draw(&piece, &own->made->batch, &error);
    uint32_t top = side * own->first < height ? side * own->first : height;
    uint32_t bottom = side * own->end < height ? side * own->end : height;
    expect(!status && shows_rows(own->one, &piece, top, bottom), "%s: tile rows %u to %u: status %u, or other pixels",
           own->one->name, own->first, own->end, status);
    return NULL;
}

static void compare_pieces(const list_case *one) {
    stage made;
    make_stage(&made, one);
    uint32_t rows = made.whole.end;
    for (uint32_t row = rows; row-- > 0;) draw_piece(&(share){one, &made, row, row + 1});
    draw_piece(&(share){one, &made, rows, rows});
    expect(has_margins(&made) && shows_rows(one, &made.whole, 0, one->info.height), "%s: other pixels of the whole",
           one->name);
    free(made.memory.all);
}

static void compare_threads(const list_case *one) {
    stage made;
    make_stage(&made, one);
    share shares[THREADS];
    pthread_t threads[THREADS];
    for (uint32_t k = 0; k < THREADS; k++) {
        shares[k] = (share){one, &made, made.whole.end * k / THREADS, made.whole.end * (k + 1) / THREADS};
        if (pthread_create(&threads[k], NULL, draw_piece, &shares[k])) stop("cannot be started", "a thread");
    }
    for (int k = 0; k < THREADS; k++) pthread_join(threads[k], NULL);
    expect(has_margins(&made) && shows_rows(one, &made.whole, 0, one->info.height), "%s: other pixels", one->name);
    free(made.memory.all);
}

// ---- What is read back ----------------------------------------------------------------------------------------------

void make_quad(quad *all) {
    const int32_t places[5][2] = {{0, 0}, {17920, 0}, {17920, 33280}, {0, 33280}, {1 << 30, 0}};
    memset(all, 0, sizeof *all);
    make_canvas(&all->made, WIDTH, HEIGHT, 4);
    all->draws[1].vertex_count = 5, all->draws[1].index_count = 4, all->draws[1].topology = TRIRAST_TOPOLOGY_QUADS;
    for (int k = 0; k < 5; k++)
        all->vertices[k] = (trirast_vertex){places[k][0], places[k][1], 7, 255, 255, 255, 255, 0};
    for (uint32_t k = 0; k < 4; k++) all->indices[k] = k;
    all->made.batch.draws = all->draws, all->made.batch.draw_count = 2;
    all->made.batch.vertices = all->vertices, all->made.batch.vertex_count = 5;
    all->made.batch.indices = all->indices, all->made.batch.index_count = 4;
}

// The quad covers all; the upper left pixel of the canvas is one of the screen.
static void compare_ids_at(int32_t x, int32_t y) {
    quad all;
    trirast_error error = UNSET;
    const trirast_clear white = {255, 255, 255, 0, 9, 0};
    make_quad(&all);
    all.made.whole.origin_x = x, all.made.whole.origin_y = y;
    trirast_status status = trirast_canvas_clear(&all.made.whole, &white);
    if (!status) status = trirast_canvas_draw_ids(&all.made.whole, &all.made.batch, 70000, &error);
    marked ids = mark(4 * PIXELS), depths = mark(2 * PIXELS);
    const uint32_t *id = (const uint32_t *)(const void *)ids.bytes;
    if (!status) status = trirast_canvas_ids(&all.made.whole, 2, (uint32_t *)(void *)ids.bytes, PIXELS, 0);
    if (!status)
        status = trirast_canvas_depths(&all.made.whole, 2, (uint16_t *)(void *)depths.bytes, PIXELS, 2 * WIDTH);
    expect(!status, "status %u", status);
    for (int32_t j = 0; j < HEIGHT; j++)
        for (int32_t i = 0; i < WIDTH; i++) {
            int is_in = 0 <= i + x && i + x < WIDTH && 0 <= j + y && j + y < HEIGHT;
            uint32_t found = id[j * WIDTH + i];
            // The diagonal from the upper left to the lower right: the first triangle is above it.
            int is_one = found == 70000 || found == 70001;
            expect(is_in ? is_one : found == 16777215, "origin %d, %d: id %u at %d, %d", x, y, found, i, j);
        }
    expect(id[WIDTH - 2] == (x == 0 && y == 0 ? 70000 : id[WIDTH - 2]), "the first triangle is the upper right one");
    free(ids.all), free(depths.all), free(all.made.memory.all);
}

// The largest ids that there are: a batch of two triangles may end with the last one.
static void compare_last_ids(void) {
    quad all;
    trirast_error error = UNSET;
    make_quad(&all);
    uint32_t *ids = calloc(PIXELS, sizeof *ids);
    if (!ids) stop("out of memory", "ids");
    trirast_status status = trirast_canvas_draw_ids(&all.made.whole, &all.made.batch, 16777214, &error);
    if (!status) status = trirast_canvas_ids(&all.made.whole, 0, ids, PIXELS, 4 * WIDTH);
    expect(is_error(&error, status, TRIRAST_STATUS_OK), "status %u", status);
    for (int k = 0; k < PIXELS; k++) expect(ids[k] == 16777214 || ids[k] == 16777215, "id %u of pixel %d", ids[k], k);
    free(ids), free(all.made.memory.all);
    report("ids up to 16,777,215 are drawn");
}

// A canvas whose memory is aligned to 2 and to no more shows the same picture.
static void compare_alignments(void) {
    static const size_t offsets[] = {0, 2, 6, 30, 62};
    quad all;
    make_quad(&all);
    size_t size = 4 * PIXELS, bytes = all.made.memory.size;
    uint8_t *pixels[2] = {calloc(size, 1), calloc(size, 1)}, *memory = aligned_alloc(64, bytes + 64);
    if (!pixels[0] || !pixels[1] || !memory) stop("out of memory", "a canvas");
    for (int k = 0; k < 5; k++) {
        trirast_canvas canvas = all.made.whole;
        trirast_error error = UNSET;
        canvas.memory = memory + offsets[k];
        trirast_status status = trirast_canvas_clear(&canvas, NULL);
        if (!status) status = trirast_canvas_draw(&canvas, &all.made.batch, &error);
        if (!status) status = trirast_canvas_resolve(&canvas, TRIRAST_FORMAT_RGBA8, pixels[k > 0], size, 4 * WIDTH);
        expect(!status && (k == 0 || !memcmp(pixels[0], pixels[1], size)), "offset %zu: status %u, or other pixels",
               offsets[k], status);
    }
    free(pixels[0]), free(pixels[1]), free(memory), free(all.made.memory.all);
    report("a canvas whose memory is aligned to 2 shows the same pixels");
}

static void compare_loaded(void) {
    quad all;
    make_quad(&all);
    size_t stride = 3 * WIDTH + 5, size = stride * (HEIGHT - 1) + 3 * WIDTH;
    marked from = mark(size), to = mark(size), other = mark(4 * PIXELS);
    for (size_t k = 0; k < size; k++)
        if (k % stride < 3 * WIDTH) from.bytes[k] = (uint8_t)(k * 7);
    trirast_status status = trirast_canvas_clear(&all.made.whole, NULL);
    if (!status) status = trirast_canvas_load(&all.made.whole, TRIRAST_FORMAT_RGB8, from.bytes, size, stride);
    if (!status) status = trirast_canvas_resolve(&all.made.whole, TRIRAST_FORMAT_RGB8, to.bytes, size, stride);
    if (!status)
        status = trirast_canvas_resolve(&all.made.whole, TRIRAST_FORMAT_BGRA8, other.bytes, 4 * PIXELS, 4 * WIDTH);
    expect(!status && holds_just(&to, from.bytes, size), "status %u, or other bytes", status);
    for (size_t k = 0; k < PIXELS; k++) {
        const uint8_t *rgb = from.bytes + k / WIDTH * stride + k % WIDTH * 3, *bgra = other.bytes + 4 * k;
        expect(bgra[0] == rgb[2] && bgra[1] == rgb[1] && bgra[2] == rgb[0] && bgra[3] == 255, "pixel %zu", k);
    }
    free(from.all), free(to.all), free(other.all), free(all.made.memory.all);
    report("a picture is loaded and resolved with a stride, and bytes between rows are unchanged");
}

static void compare_edges(void) {
    const trirast_corners corners = {0, 0, 2560, 0, 0, 2560};
    trirast_edges edges = {1, 1, 1, 1, 1};
    trirast_status status = trirast_edges_at_point(&corners, 256, 512, &edges);
    expect(!status && edges.a == 2560 * (2560 - 768) && edges.b == 256 * 2560 && edges.c == 512 * 2560 &&
               edges.doubled_area == 2560 * 2560 && edges.covered == 1,
           "status %u: %lld %lld %lld", status, (long long)edges.a, (long long)edges.b, (long long)edges.c);
    const trirast_edges inside = edges;
    status = trirast_edges_at_point(&corners, 2560, 2560, &edges);
    expect(!status && edges.covered == 0 && edges.a < 0, "a point outside: status %u", status);
    const trirast_edges kept = edges;
    status = trirast_edges_at_point(&corners, 8388608, 0, &edges);
    expect(status == TRIRAST_STATUS_BAD_POSITION && !memcmp(&kept, &edges, sizeof kept), "status %u", status);
    const trirast_corners far = {0, 0, 2560, 0, 0, -8388609};
    status = trirast_edges_at_point(&far, 0, 0, &edges);
    expect(status == TRIRAST_STATUS_BAD_POSITION && !memcmp(&kept, &edges, sizeof kept), "status %u", status);
    // The positions of vertices are points with a stride.
    const trirast_vertex vertices[2] = {{.x = 2560, .y = 2560}, {.x = 256, .y = 512}};
    const trirast_point points[2] = {{2560, 2560}, {256, 512}};
    trirast_edges many[2][2];
    memset(many, 0, sizeof many);
    status = trirast_edges_at(&corners, vertices, sizeof *vertices, 2, many[0]);
    if (!status) status = trirast_edges_at(&corners, points, 0, 2, many[1]);
    for (int k = 0; k < 2; k++)
        expect(!status && !memcmp(&many[k][0], &kept, sizeof kept) && !memcmp(&many[k][1], &inside, sizeof inside),
               "many points: status %u", status);
    report("the edge functions of a triangle at a point and at many");
}

static size_t size_of(uint32_t width, uint32_t height, uint32_t samples, uint32_t channels) {
    const trirast_canvas canvas = {.width = width, .height = height, .samples = samples, .channels = channels};
    return trirast_canvas_size(&canvas);
}

static uint32_t tile_rows_of(uint32_t height) {
    const trirast_canvas canvas = {.width = 1, .height = height};
    return trirast_canvas_tile_rows(&canvas);
}

static void compare_sizes(void) {
    expect(size_of(4096, 4096, 4, 0) == (size_t)4096 * 261 * 384, "the largest canvas");
    expect(size_of(4096, 4096, 16, 3) == (size_t)4096 * 1041 * 384, "the largest canvas of sixteen samples");
    for (uint32_t samples = 0; samples <= 33; samples++) {
        int is_count = samples <= 2 || samples == 4 || samples == 8 || samples == 16;
        uint32_t count = samples ? samples : 1;
        expect(size_of(1, 1, samples, 0) == (is_count ? (1 + 65 * count) * 384 : 0), "one tile of %u samples", samples);
    }
    expect(size_of(65, 1, 1, 0) == 2 * 66 * 384 && size_of(1, 65, 1, 0) == 2 * 66 * 384, "two tiles");
    expect(!size_of(0, 1, 1, 0) && !size_of(4097, 1, 1, 0) && !size_of(1, 0, 1, 0) && !size_of(1, 4097, 1, 0) &&
               !size_of(1, 1, 1, 5) && !size_of(1, 1, 1, 1) && !size_of(1, 1, UINT32_MAX, 0),
           "none");
    expect(tile_rows_of(1) == 1 && tile_rows_of(64) == 1 && tile_rows_of(65) == 2 && tile_rows_of(4096) == 64 &&
               !tile_rows_of(0) && !tile_rows_of(4097),
           "tile rows");
    report("the bytes and the tile rows of a canvas");
}

// The same triangles with sizes and strides that are named, with indices of 16 bits, and with vertices that are
// members of other structs.
static void compare_forms(void) {
    quad all;
    make_quad(&all);
    struct {
        uint32_t label[3];
        trirast_vertex vertex;
        uint32_t others[5];
    } apart[5];
    // The last one ends where its memory ends, and the first one lies 2,048 bytes before the second.
    marked far = mark(4 * TRIRAST_MAX_STRIDE + sizeof(trirast_vertex));
    uint16_t short_indices[4];
    memset(apart, MARK, sizeof apart);
    for (int k = 0; k < 5; k++) apart[k].vertex = all.vertices[k], apart[k].vertex.red = (uint8_t)(10 * k);
    for (int k = 0; k < 5; k++) all.vertices[k] = apart[k].vertex;
    for (int k = 0; k < 5; k++) memcpy(far.bytes + k * TRIRAST_MAX_STRIDE, &all.vertices[k], sizeof *all.vertices);
    for (int k = 0; k < 4; k++) short_indices[k] = (uint16_t)all.indices[k];
    // The quad by its corners in their order, without indices.
    trirast_vertex in_order[4];
    trirast_draw alone = all.draws[1];
    for (int k = 0; k < 4; k++) in_order[k] = all.vertices[all.indices[k]];
    alone.vertex_count = 4, alone.index_count = 0;
    trirast_batch forms[6];
    for (int k = 0; k < 6; k++) forms[k] = all.made.batch;
    forms[1].struct_size = sizeof *forms, forms[1].vertex_stride = sizeof(trirast_vertex), forms[1].index_size = 4;
    forms[2].indices = short_indices, forms[2].index_size = 2;
    forms[3].draws = &alone, forms[3].draw_count = 1, forms[3].vertices = in_order, forms[3].vertex_count = 4;
    forms[3].indices = NULL, forms[3].index_count = 0;
    forms[4].vertices = &apart->vertex, forms[4].vertex_stride = sizeof *apart;
    forms[5].vertices = far.bytes, forms[5].vertex_stride = TRIRAST_MAX_STRIDE, forms[5].indices = short_indices,
        forms[5].index_size = 2;
    uint8_t *pixels[2] = {calloc(PIXELS, 3), calloc(PIXELS, 3)};
    if (!pixels[0] || !pixels[1]) stop("out of memory", "pixels");
    for (int k = 0; k < 6; k++) {
        trirast_status status = trirast_canvas_clear(&all.made.whole, NULL);
        trirast_status drawn_so = trirast_canvas_draw(&all.made.whole, &forms[k], NULL);
        if (!status)
            status = trirast_canvas_resolve(&all.made.whole, TRIRAST_FORMAT_RGB8, pixels[k > 0], 3 * PIXELS, 0);
        expect(!status && !drawn_so && (!k || !memcmp(pixels[0], pixels[1], 3 * PIXELS)),
               "form %d: status %u, or other pixels", k, drawn_so);
    }
    free(pixels[0]), free(pixels[1]), free(all.made.memory.all), free(far.all);
    report("the same batch with its sizes named, with indices of 16 bits, without indices, and with other strides "
           "makes the same pixels");
}

// What a white pixel with alpha 128 over 10, 100, 200 becomes by each preset.
static void compare_blends(void) {
    const trirast_blend presets[] = {TRIRAST_BLEND_NONE, TRIRAST_BLEND_OVER,     TRIRAST_BLEND_PREMULTIPLIED,
                                     TRIRAST_BLEND_ADD,  TRIRAST_BLEND_MULTIPLY, TRIRAST_BLEND_KEEP};
    const uint8_t wanted[][3] = {{255, 255, 255}, {133, 178, 228}, {255, 255, 255},
                                 {138, 228, 255}, {10, 100, 200},  {10, 100, 200}};
    const trirast_clear clear = {10, 100, 200, 0, 9, 0};
    for (int k = 0; k < 6; k++) {
        quad all;
        uint8_t pixels[3 * PIXELS];
        make_quad(&all);
        all.draws[1].blend = presets[k];
        for (int n = 0; n < 5; n++) all.vertices[n].alpha = 128;
        trirast_status status = trirast_canvas_clear(&all.made.whole, &clear);
        if (!status) status = trirast_canvas_draw(&all.made.whole, &all.made.batch, NULL);
        if (!status) status = trirast_canvas_resolve(&all.made.whole, TRIRAST_FORMAT_RGB8, pixels, sizeof pixels, 0);
        expect(!status && !memcmp(pixels, wanted[k], 3), "preset %d: status %u: %d, %d, %d", k, status, pixels[0],
               pixels[1], pixels[2]);
        free(all.made.memory.all);
    }
    report("each blend preset makes its colour");
}

// What a white pixel with alpha 128 over 10, 100, 200 and alpha 64 becomes, whatever the format in which it is written.
static void compare_alpha(void) {
    const struct {
        trirast_blend blend;
        uint8_t keep, stored[4], straight[4];
    } cases[] = {
        {TRIRAST_BLEND_NONE, 0, {255, 255, 255, 128}, {255, 255, 255, 128}},
        {TRIRAST_BLEND_OVER, 0, {133, 178, 228, 160}, {212, 255, 255, 160}},
        {TRIRAST_BLEND_NONE, TRIRAST_KEEP_ALPHA, {255, 255, 255, 64}, {255, 255, 255, 64}},
        {TRIRAST_BLEND_KEEP, 0, {10, 100, 200, 64}, {40, 255, 255, 64}},
    };
    const trirast_clear clear = {10, 100, 200, 64, 9, 0};
    for (size_t k = 0; k < sizeof cases / sizeof *cases; k++) {
        quad all;
        uint8_t rgba[4 * PIXELS], straight[4 * PIXELS], again[4 * PIXELS];
        make_quad(&all);
        all.made.whole.channels = 4;
        all.draws[1].blend = cases[k].blend, all.draws[1].keep = cases[k].keep;
        for (int n = 0; n < 5; n++) all.vertices[n].alpha = 128;
        trirast_canvas *const canvas = &all.made.whole;
        trirast_status status = trirast_canvas_clear(canvas, &clear);
        if (!status) status = trirast_canvas_draw(canvas, &all.made.batch, NULL);
        if (!status) status = trirast_canvas_resolve(canvas, TRIRAST_FORMAT_RGBA8, rgba, sizeof rgba, 0);
        if (!status)
            status = trirast_canvas_resolve(canvas, TRIRAST_FORMAT_RGBA8_STRAIGHT, straight, sizeof straight, 0);
        expect(!status && !memcmp(rgba, cases[k].stored, 4), "alpha %zu: status %u: %d, %d, %d, %d", k, status, rgba[0],
               rgba[1], rgba[2], rgba[3]);
        expect(!memcmp(straight, cases[k].straight, 4), "straight %zu: %d, %d, %d, %d", k, straight[0], straight[1],
               straight[2], straight[3]);
        status = trirast_canvas_load(canvas, TRIRAST_FORMAT_RGBA8, rgba, sizeof rgba, 0);
        if (!status) status = trirast_canvas_resolve(canvas, TRIRAST_FORMAT_RGBA8, again, sizeof again, 0);
        expect(!status && !memcmp(rgba, again, sizeof rgba), "a picture with alpha is loaded as it was written");
        free(all.made.memory.all);
    }
    report("a canvas with alpha blends and keeps it, and writes colours as they are and divided by it");
}

void compare_canvases(void) {
    compare_sizes();
    for (int k = 0; k < drawn_count; k++) compare_whole(&drawn[k]);
    report("a canvas that is cleared and drawn on shows the program's pixels");
    for (int k = 0; k < drawn_count; k++) compare_pieces(&drawn[k]);
    report("so do its tile rows, each drawn by itself, the last one first");
    for (int k = 0; k < drawn_count; k++) compare_threads(&drawn[k]);
    report("so does a canvas that four threads share");
    compare_ids_at(0, 0);
    compare_ids_at(13, 40);
    compare_ids_at(-5, -70);
    report("a quad drawn by ids, with and without a window");
    compare_last_ids();
    compare_alignments();
    compare_loaded();
    compare_edges();
    compare_forms();
    compare_blends();
    compare_alpha();
    compare_samples();
    compare_shading();
    compare_tile_blends();
    compare_polygons();
    compare_refused_canvases();
}
