// Calls the functions that include/trirast.h defines itself with what it allows and what it refuses: each ends with the
// status that the header names, and changes nothing after an error. tests/library/sanitized.py builds it as C
// and as C++, with sanitizers.
#include <stdio.h>
#include <stdlib.h>
#include <string.h>

#include "trirast.h"

enum { WIDTH = 70, HEIGHT = 130, PIXELS = WIDTH * HEIGHT };

static int failures = 0;

static void expect(int holds, const char *what, int number) {
    if (holds) return;
    printf("failed %s: %d\n", what, number);
    failures++;
}

// ---- A canvas and a batch

typedef struct {
    trirast_canvas canvas;
    unsigned char *memory, *kept;
    size_t size;
    trirast_vertex vertices[3];
    uint32_t indices[3];
    trirast_batch batch;
} stage;

static void make(stage *made) {
    static const int32_t places[3][2] = {{0, 0}, {17920, 0}, {0, 33280}};
    memset(made, 0, sizeof *made);
    made->canvas.width = WIDTH, made->canvas.height = HEIGHT;
    made->size = trirast_canvas_size(&made->canvas);
    // As large as it has to be, so that a byte behind it is seen.
    made->memory = (unsigned char *)malloc(made->size), made->kept = (unsigned char *)malloc(made->size);
    if (!made->memory || !made->kept) exit(2);
    memset(made->memory, 77, made->size), memset(made->kept, 77, made->size);
    for (int k = 0; k < 3; k++)
        made->vertices[k].x = places[k][0], made->vertices[k].y = places[k][1], made->vertices[k].red = 9;
    for (uint32_t k = 0; k < 3; k++) made->indices[k] = k;
    made->batch.vertices = made->vertices, made->batch.vertex_count = 3, made->batch.indices = made->indices,
        made->batch.index_count = 3;
    expect(trirast_canvas_init(&made->canvas, made->memory, made->size) == TRIRAST_STATUS_OK, "init", 0);
}

static int is_unchanged(const stage *made) { return !memcmp(made->memory, made->kept, made->size); }

static void end(stage *made) { free(made->memory), free(made->kept); }

// ---- init and split

// A canvas that there is not. Returns 0 behind the last one.
static int break_canvas(trirast_canvas *canvas, int change) {
    switch (change) {
    case 0: canvas->width = 0; return 1;
    case 1: canvas->width = 4097; return 1;
    case 2: canvas->height = 0; return 1;
    case 3: canvas->height = 4097; return 1;
    case 4: canvas->samples = 3; return 1;
    case 5: canvas->samples = 17; return 1;
    case 6: canvas->channels = 5; return 1;
    case 7: canvas->channels = 1; return 1;
    case 8: canvas->struct_size = sizeof *canvas + 8; return 1;
    case 9: canvas->struct_size = 1; return 1;
    default: return 0;
    }
}

static void compare_init(void) {
    stage made;
    trirast_canvas canvas, kept;
    make(&made);
    for (int change = 0;; change++) {
        memset(&canvas, 0, sizeof canvas);
        canvas.width = WIDTH, canvas.height = HEIGHT;
        if (!break_canvas(&canvas, change)) break;
        kept = canvas;
        expect(trirast_canvas_size(&canvas) == 0 && trirast_canvas_tile_rows(&canvas) == 0, "the size of no canvas",
               change);
        expect(trirast_canvas_init(&canvas, made.memory, made.size) == TRIRAST_STATUS_BAD_CANVAS, "init of no canvas",
               change);
        expect(!memcmp(&canvas, &kept, sizeof kept), "init of no canvas changes it", change);
    }
    memset(&canvas, 0, sizeof canvas);
    canvas.width = WIDTH, canvas.height = HEIGHT;
    kept = canvas;
    void *const places[] = {NULL, made.memory + 1, made.memory, made.memory, NULL};
    const size_t sizes[] = {made.size, made.size, made.size - 1, 0, 0};
    for (int k = 0; k < 5; k++) {
        expect(trirast_canvas_init(&canvas, places[k], sizes[k]) == TRIRAST_STATUS_BAD_MEMORY, "init with wrong memory",
               k);
        expect(!memcmp(&canvas, &kept, sizeof kept), "init with wrong memory changes the canvas", k);
    }
    expect(trirast_canvas_init(&canvas, made.memory, made.size + 1) == TRIRAST_STATUS_OK && canvas.first == 0 &&
               canvas.end == 3,
           "init with more", 0);
    expect(is_unchanged(&made), "init writes to the samples", 0);
    end(&made);
}

// A piece that is refused. Returns the status that is due, or TRIRAST_STATUS_OK behind the last one.
static trirast_status break_piece(trirast_canvas *whole, int change, uint32_t *first, uint32_t *last) {
    switch (change) {
    case 0: *first = 2, *last = 1; return TRIRAST_STATUS_BAD_TILE_ROWS;
    case 1: *last = 4; return TRIRAST_STATUS_BAD_TILE_ROWS;
    case 2: *last = UINT32_MAX; return TRIRAST_STATUS_BAD_TILE_ROWS;
    case 3: *first = *last = 4; return TRIRAST_STATUS_BAD_TILE_ROWS;
    case 4: whole->end = 4; return TRIRAST_STATUS_BAD_TILE_ROWS;
    case 5: whole->end = UINT32_MAX; return TRIRAST_STATUS_BAD_TILE_ROWS;
    case 6: whole->first = 2; return TRIRAST_STATUS_BAD_TILE_ROWS;
    case 7: whole->memory = NULL; return TRIRAST_STATUS_BAD_MEMORY;
    case 8: whole->memory = (unsigned char *)whole->memory + 1; return TRIRAST_STATUS_BAD_MEMORY;
    case 9: whole->plane_count--; return TRIRAST_STATUS_BAD_MEMORY;
    case 10: whole->plane_count = SIZE_MAX; return TRIRAST_STATUS_BAD_MEMORY;
    default: return break_canvas(whole, change - 11) ? TRIRAST_STATUS_BAD_CANVAS : TRIRAST_STATUS_OK;
    }
}

static void compare_split(void) {
    stage made;
    make(&made);
    for (int change = 0;; change++) {
        trirast_canvas whole = made.canvas, piece, kept;
        uint32_t first = 1, last = 2;
        const trirast_status due = break_piece(&whole, change, &first, &last);
        if (due == TRIRAST_STATUS_OK) break;
        memset(&piece, 77, sizeof piece), memset(&kept, 77, sizeof kept);
        expect(trirast_canvas_split(&whole, first, last, &piece) == due, "split", change);
        expect(!memcmp(&piece, &kept, sizeof kept), "split that is refused writes", change);
    }
    trirast_canvas piece;
    expect(trirast_canvas_split(&made.canvas, 1, 3, &piece) == TRIRAST_STATUS_OK && piece.first == 1 &&
               piece.end == 3 && piece.plane_count == made.canvas.plane_count / 3 * 2 &&
               piece.memory == made.memory + made.size / 3,
           "a piece", 0);
    // Tile rows of which there are none have no memory, to which nothing is added.
    trirast_canvas none = made.canvas;
    none.end = 0, none.memory = NULL, none.plane_count = 0;
    expect(trirast_canvas_split(&none, 0, 0, &piece) == TRIRAST_STATUS_OK && !piece.memory && !piece.plane_count,
           "a piece of none", 0);
    // A piece may be written where the whole is.
    expect(trirast_canvas_split(&made.canvas, 2, 3, &made.canvas) == TRIRAST_STATUS_OK && made.canvas.first == 2,
           "in place", 0);
    expect(is_unchanged(&made), "split writes to the samples", 0);
    end(&made);
}

// ---- clear and draw

static void compare_clear(void) {
    const trirast_clear red = {255, 0, 0, 9, 7, 0};
    unsigned char pixels[3 * PIXELS];
    uint16_t depths[PIXELS];
    for (int k = 0; k < 2; k++) {
        stage made;
        make(&made);
        expect(trirast_canvas_clear(&made.canvas, k ? &red : NULL) == TRIRAST_STATUS_OK, "clear", k);
        expect(trirast_canvas_resolve(&made.canvas, TRIRAST_FORMAT_RGB8, pixels, sizeof pixels, 0) == TRIRAST_STATUS_OK,
               "resolve", k);
        expect(trirast_canvas_depths(&made.canvas, 0, depths, PIXELS, 0) == TRIRAST_STATUS_OK, "depths", k);
        expect(pixels[0] == (k ? 255 : 0) && pixels[sizeof pixels - 1] == 0 && depths[PIXELS - 1] == (k ? 7 : 65535),
               "what clear leaves", k);
        end(&made);
    }
    stage made;
    make(&made);
    for (int change = 0;; change++) {
        trirast_canvas canvas = made.canvas;
        if (!break_canvas(&canvas, change)) break;
        const trirast_status due = change < 8 ? TRIRAST_STATUS_BAD_CANVAS : TRIRAST_STATUS_BAD_STRUCT_SIZE;
        expect(trirast_canvas_clear(&canvas, NULL) == due && trirast_canvas_clear(&canvas, &red) == due &&
                   is_unchanged(&made),
               "clear of no canvas", change);
    }
    end(&made);
}

static void compare_draw(void) {
    stage made;
    trirast_error error;
    make(&made);
    for (int with_error = 0; with_error < 2; with_error++)
        for (int by_ids = 0; by_ids < 2; by_ids++) {
            trirast_error *wanted = with_error ? &error : NULL;
            trirast_batch batch = made.batch;
            trirast_status status = by_ids ? trirast_canvas_draw_ids(&made.canvas, &batch, 5, wanted)
                                           : trirast_canvas_draw(&made.canvas, &batch, wanted);
            expect(status == TRIRAST_STATUS_OK, "draw", by_ids);
            memcpy(made.kept, made.memory, made.size);
            batch.index_count = 2;
            status = by_ids ? trirast_canvas_draw_ids(&made.canvas, &batch, 5, wanted)
                            : trirast_canvas_draw(&made.canvas, &batch, wanted);
            expect(status == TRIRAST_STATUS_BAD_BATCH && is_unchanged(&made), "a batch that is refused", by_ids);
            if (with_error)
                expect(error.cause == TRIRAST_BATCH_NOT_WHOLE && error.draw == 0 && error.element == TRIRAST_NONE,
                       "its error", by_ids);
        }
    end(&made);
}

// The same triangle with each stride that there is; of the last vertex there are 16 bytes, and with none
// of these none is read.
static void compare_strides(void) {
    stage packed, made;
    make(&packed), make(&made);
    expect(!trirast_canvas_clear(&packed.canvas, NULL) && !trirast_canvas_draw(&packed.canvas, &packed.batch, NULL),
           "a packed batch", 0);
    for (uint32_t stride = 0; stride <= TRIRAST_MAX_STRIDE + 5; stride++) {
        const int is_there = stride == 0 || (stride >= 16 && stride <= TRIRAST_MAX_STRIDE && stride % 4 == 0);
        const size_t step = stride ? stride : sizeof(trirast_vertex),
                     size = is_there ? 2 * step + sizeof(trirast_vertex) : 0;
        unsigned char *apart = (unsigned char *)malloc(size ? size : 1);
        if (!apart) exit(2);
        memset(apart, 77, size ? size : 1);
        for (size_t k = 0; k < 3 && size; k++) memcpy(apart + k * step, &made.vertices[k], sizeof(trirast_vertex));
        trirast_batch batch = made.batch;
        batch.vertices = apart, batch.vertex_stride = stride;
        expect(!trirast_canvas_clear(&made.canvas, NULL), "clear", (int)stride);
        memcpy(made.kept, made.memory, made.size);
        const trirast_status status = trirast_canvas_draw(&made.canvas, &batch, NULL);
        expect(status == (is_there ? TRIRAST_STATUS_OK : TRIRAST_STATUS_BAD_STRIDE), "a stride", (int)stride);
        expect(!memcmp(made.memory, is_there ? packed.memory : made.kept, made.size), "what is drawn with a stride",
               (int)stride);
        free(apart);
    }
    trirast_batch none = made.batch;
    none.vertices = NULL, none.vertex_count = 0, none.index_count = 0, none.vertex_stride = 20;
    expect(trirast_canvas_draw(&made.canvas, &none, NULL) == TRIRAST_STATUS_OK, "no vertices with a stride", 20);
    end(&packed), end(&made);
}

// ---- Polygons

static trirast_status draw_polygons(trirast_canvas *canvas, const trirast_polygons *polygons, int by_ids, void *scratch,
                                    size_t size, trirast_error *error) {
    return by_ids ? trirast_canvas_draw_polygon_ids(canvas, polygons, 5, scratch, size, error)
                  : trirast_canvas_draw_polygons(canvas, polygons, scratch, size, error);
}

// Draws a polygon with scratch memory that is as large as it has to be, and with what the header refuses.
static void compare_polygon(stage *made, const trirast_polygons *polygons, int by_ids, trirast_error *error) {
    const size_t size = trirast_polygons_scratch(&made->canvas, (trirast_fill_rule)polygons->fill_rule);
    unsigned char *scratch = (unsigned char *)malloc(size);
    if (!scratch) exit(2);
    expect(size == (polygons->fill_rule == TRIRAST_FILL_EVEN_ODD ? 16 * 256 : 16 * 8960), "the size of scratch memory",
           (int)size);
    expect(draw_polygons(&made->canvas, polygons, by_ids, scratch, size, error) == TRIRAST_STATUS_OK, "polygons",
           by_ids);
    memcpy(made->kept, made->memory, made->size);
    void *const places[] = {scratch, scratch + 1, scratch + 4, scratch, NULL};
    const size_t sizes[] = {size - 1, size, size, 0, 0};
    for (int k = 0; k < 5; k++)
        expect(draw_polygons(&made->canvas, polygons, by_ids, places[k], sizes[k], error) ==
                       TRIRAST_STATUS_BUFFER_TOO_SMALL &&
                   is_unchanged(made),
               "scratch memory", k);
    for (int change = 0;; change++) {
        trirast_canvas canvas = made->canvas;
        if (!break_canvas(&canvas, change)) break;
        const trirast_status due = change < 8 ? TRIRAST_STATUS_BAD_CANVAS : TRIRAST_STATUS_BAD_STRUCT_SIZE;
        expect(trirast_polygons_scratch(&canvas, TRIRAST_FILL_NONZERO) == 0, "scratch memory of no canvas", change);
        expect(draw_polygons(&canvas, polygons, by_ids, scratch, size, error) == due && is_unchanged(made),
               "polygons on no canvas", change);
    }
    trirast_polygons broken = *polygons;
    broken.fill_rule = 2;
    expect(draw_polygons(&made->canvas, &broken, by_ids, scratch, size, error) != TRIRAST_STATUS_OK &&
               is_unchanged(made),
           "no such rule", by_ids);
    broken = *polygons, broken.corner_count = 2;
    expect(draw_polygons(&made->canvas, &broken, by_ids, scratch, size, error) == TRIRAST_STATUS_BAD_BATCH &&
               is_unchanged(made),
           "a ring", by_ids);
    if (error)
        expect(error->cause == TRIRAST_BATCH_BAD_RING && error->draw == TRIRAST_NONE && error->element == 0,
               "its error", by_ids);
    free(scratch);
}

static void compare_polygons(void) {
    static const trirast_corner corners[] = {{0, 0}, {17920, 0}, {0, 33280}};
    static const uint32_t ends[] = {3, 1};
    static const uint8_t color[1][4] = {{9, 8, 7, 255}};
    trirast_error error;
    stage made;
    make(&made);
    trirast_polygons polygons;
    memset(&polygons, 0, sizeof polygons);
    polygons.corners = corners, polygons.corner_count = 3, polygons.ring_ends = ends, polygons.ring_count = 1;
    polygons.polygon_ends = ends + 1, polygons.polygon_count = 1, polygons.colors = color, polygons.color_count = 1;
    for (int way = 0; way < 8; way++) {
        polygons.fill_rule = way & 1;
        compare_polygon(&made, &polygons, way & 2, way & 4 ? &error : NULL);
    }
    end(&made);
}

// ---- Edge functions

static void compare_edges(void) {
    const trirast_corners corners = {0, 0, 2560, 0, 0, 2560};
    // One element behind the other, and nothing behind the last.
    trirast_point *points = (trirast_point *)malloc(2 * sizeof *points);
    trirast_vertex *vertices = (trirast_vertex *)calloc(2, sizeof *vertices);
    trirast_edges *edges = (trirast_edges *)malloc(2 * sizeof *edges), kept[2];
    if (!points || !vertices || !edges) exit(2);
    memset(edges, 77, sizeof kept), memset(kept, 77, sizeof kept);
    points[0].x = vertices[0].x = 256, points[0].y = vertices[0].y = 512,
        points[1].x = vertices[1].x = points[1].y = vertices[1].y = 2560;
    // The last two would go backwards if addresses wrapped.
    const size_t strides[] = {15, 4, 7, 9, 1, SIZE_MAX, SIZE_MAX - 2, SIZE_MAX - 7, SIZE_MAX / 2 + 1};
    for (int k = 0; k < 9; k++)
        expect(trirast_edges_at(&corners, points, strides[k], 2, edges) == TRIRAST_STATUS_BAD_STRIDE &&
                   !memcmp(edges, kept, sizeof kept),
               "stride", k);
    expect(trirast_edges_at(&corners, NULL, 0, 0, NULL) == TRIRAST_STATUS_OK, "no points", 0);
    const trirast_corners far = {0, 0, 2560, 0, 0, 8388608};
    expect(trirast_edges_at(&far, points, 0, 2, edges) == TRIRAST_STATUS_BAD_POSITION &&
               !memcmp(edges, kept, sizeof kept),
           "a far corner", 0);
    expect(trirast_edges_at(&far, NULL, 0, 0, NULL) == TRIRAST_STATUS_BAD_POSITION, "a far corner and no points", 0);
    // The last point alone is too far: nothing is written of the first.
    points[1].y = -8388609;
    expect(trirast_edges_at(&corners, points, 0, 2, edges) == TRIRAST_STATUS_BAD_POSITION &&
               !memcmp(edges, kept, sizeof kept),
           "a far point", 0);
    points[1].y = 2560;
    expect(trirast_edges_at(&corners, points, 0, 2, edges) == TRIRAST_STATUS_OK && edges[0].covered == 1 &&
               edges[1].covered == 0,
           "points", 0);
    memcpy(kept, edges, sizeof kept), memset(edges, 77, sizeof kept);
    expect(trirast_edges_at(&corners, vertices, sizeof *vertices, 2, edges) == TRIRAST_STATUS_OK &&
               !memcmp(edges, kept, sizeof kept),
           "vertices", 0);
    free(points), free(vertices), free(edges);
}

// ---- Lists

static const char LIST[] = "{\"width\":3,\"height\":3,\"draws\":[{\"vertices\":[[128,128,0,255,255,255,255],"
                           "[640,128,0,255,255,255,255],[128,640,0,255,255,255,255]],\"triangles\":[[0,1,2]]}]}";

// Each call of a list, by its number, with pointers that may be NULL.
static trirast_status call_list(int call, const char *text, size_t length, int with_info, trirast_error *error,
                                uint8_t *file) {
    trirast_image_info info;
    trirast_sample_info sample;
    trirast_sample_counts counts;
    trirast_event event;
    trirast_history_request request;
    memset(&request, 0, sizeof request);
    switch (call) {
    case 0: return trirast_list_info(text, length, with_info ? &info : NULL, error);
    case 1: return trirast_list_draw(text, length, 32, file, 38, error);
    case 2: return trirast_list_draw_rows(text, length, 32, 0, 1, file, 38, error);
    case 3: return trirast_list_history(text, length, &request, &event, 1, with_info ? &sample : NULL, error);
    default: return trirast_list_triangle_samples(text, length, 0, 0, &counts, error);
    }
}

static void compare_lists(void) {
    uint8_t *file = (uint8_t *)malloc(38), kept[38];
    if (!file) exit(2);
    for (int call = 0; call < 5; call++)
        for (int with = 0; with < 4; with++) {
            trirast_error error;
            trirast_error *wanted = with & 1 ? &error : NULL;
            expect(call_list(call, LIST, sizeof LIST - 1, with & 2, wanted, file) == TRIRAST_STATUS_OK, "a list", call);
            memcpy(kept, file, sizeof kept);
            expect(call_list(call, "{}", 2, with & 2, wanted, file) == TRIRAST_STATUS_BAD_LIST &&
                       !memcmp(file, kept, sizeof kept),
                   "no list", call);
            if (wanted)
                expect(error.cause == TRIRAST_LIST_MISSING_KEY && error.draw == TRIRAST_NONE, "its error", call);
            expect(call_list(call, NULL, 0, with & 2, wanted, file) == TRIRAST_STATUS_BAD_LIST, "no text", call);
        }
    free(file);
}

// ---- Statuses

static void compare_statuses(void) {
    for (int number = 0; number < 19; number++) {
        const char *text = trirast_status_string((trirast_status)number);
        expect(text && strcmp(text, "unknown status") && strlen(text) < TRIRAST_ERROR_MESSAGE_SIZE,
               "the string of a status", number);
    }
    expect(!strcmp(trirast_status_string((trirast_status)31), "unknown status"), "the string of no status", 31);
}

int main(void) {
    compare_init();
    compare_split();
    compare_clear();
    compare_draw();
    compare_strides();
    compare_polygons();
    compare_edges();
    compare_lists();
    compare_statuses();
    return failures ? 1 : 0;
}
