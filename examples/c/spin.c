/* A model that turns in a window, drawn on a canvas by as many threads as the machine has processors. A
 * click picks a triangle.
 *
 *     spin [--size 640 480] [--threads N] [--turn 25] [--speed 30] [--pick X Y] [--save FILE] [--list FILE] MODEL.obj
 *
 * The title has the frames a second. Escape ends. --turn is where the model begins, in degrees, and --speed the
 * degrees a second. --pick picks the triangle at a pixel as a click does. With --save one frame goes to a PPM
 * file, and no window is opened; --list writes the draw list of the first frame, from which the program trirast
 * draws the same picture.
 *
 *     cc -O2 spin.c $(pkg-config --cflags --libs trirast sdl2) -pthread -lm
 */
#include <SDL.h>
#include <pthread.h>

#include "obj.h"
#include "trirast.h"

enum { SAMPLES = 4, MAX_THREADS = 64, MAX_SIDE = 4096, RIM = 48, FARTHEST = 65535, NONE = 16777215 };
/* The draws of a frame, in their order. The last one is there if a triangle was picked. */
enum { BACKGROUND, FLOOR, SHADOW, MODEL, PICKED, DRAWS };

static const double TURN = 6.283185307179586, TILT = 0.52, AWAY = 3.9, ZOOM = 1.85, GROUND = -0.62;
static const vector LIGHT = {-0.46, 0.76, 0.46};

/* ---- A frame as a batch ---- */

/* The arrays of the batch. They are allocated once, and the vertices are made anew for each frame. */
typedef struct {
    const model *shape;
    int width, height;
    uint32_t picked; /* the triangle that was picked, or NONE */
    trirast_draw draws[DRAWS];
    trirast_vertex *vertices;
    uint32_t *indices;
    trirast_batch batch;
} frame;

/* A point as the camera sees it, which looks down at the origin. The depth is a plane on the screen: it goes
 * with 1 / distance. */
static trirast_vertex seen(const frame *made, vector point, vector color, double alpha) {
    double side = made->width < made->height ? made->width : made->height;
    double up = point.y * cos(TILT) - point.z * sin(TILT), distance = AWAY - point.y * sin(TILT) - point.z * cos(TILT);
    double scale = 256 * ZOOM * side / distance, near = AWAY - 1.1, far = AWAY + 1.1;
    double depth = (FARTHEST - 2) * (1 / near - 1 / distance) / (1 / near - 1 / far);
    return (trirast_vertex){
        .x = (int32_t)lround(128 * made->width + scale * point.x),
        .y = (int32_t)lround(120 * made->height - scale * up),
        .depth = (uint16_t)fmin(fmax(depth, 0), FARTHEST - 2),
        .red = (uint8_t)lround(255 * fmin(fmax(color.x, 0), 1)),
        .green = (uint8_t)lround(255 * fmin(fmax(color.y, 0), 1)),
        .blue = (uint8_t)lround(255 * fmin(fmax(color.z, 0), 1)),
        .alpha = (uint8_t)lround(255 * alpha),
    };
}

/* The colour of a point in the light: ambient, diffuse, a highlight, and a brighter rim. */
static vector lit(vector place, vector normal, vector at) {
    double along = atan2(place.z, place.x) / TURN;
    vector color = {0.58 + 0.42 * cos(TURN * (along + 0.02)), 0.5 + 0.34 * cos(TURN * (along - 0.3)),
                    0.56 + 0.44 * cos(TURN * (along - 0.56))};
    vector view = unit(minus((vector){0, AWAY * sin(TILT), AWAY * cos(TILT)}, at)), light = unit(LIGHT);
    double diffuse = fmax(0, dot(normal, light)), facing = fmax(0, dot(normal, view));
    double highlight = 0.5 * pow(fmax(0, dot(normal, unit(plus(light, view)))), 24), rim = 0.22 * pow(1 - facing, 3);
    color = times(color, 0.2 + 0.06 * normal.y + 0.86 * diffuse);
    return plus(color, (vector){highlight + rim, highlight + rim, 0.92 * highlight + 1.15 * rim});
}

/* Where the light throws a point's shadow on the ground. */
static vector shadow_of(vector point) { return minus(point, times(LIGHT, (point.y - GROUND) / LIGHT.y)); }

static void make_surroundings(frame *made) {
    trirast_vertex *corner = made->vertices, *floor = corner + 4;
    for (int k = 0; k < 4; k++) {
        int is_right = k == 1 || k == 2, is_low = k > 1;
        corner[k] =
            (trirast_vertex){is_right ? 256 * made->width : 0, is_low ? 256 * made->height : 0, 0, 40, 46, 62, 255, 0};
        if (is_low) corner[k].red = 14, corner[k].green = 16, corner[k].blue = 24;
    }
    /* A pool of light that ends in nothing. */
    vector light = {0.62, 0.66, 0.78};
    floor[0] = seen(made, (vector){0, GROUND, 0}, light, 0.42);
    for (int k = 0; k < RIM; k++)
        floor[k + 1] = seen(made, (vector){1.9 * cos(TURN * k / RIM), GROUND, 1.9 * sin(TURN * k / RIM)}, light, 0);
}

/* Makes the vertices of a frame, the model turned by this angle. */
static void make_frame(frame *made, double turn) {
    const model *shape = made->shape;
    trirast_vertex *shadow = made->vertices + 4 + RIM + 1, *vertices = shadow + shape->point_count;
    make_surroundings(made);
    for (size_t k = 0; k < shape->point_count; k++) {
        vector point = turned(shape->points[k], turn);
        vertices[k] = seen(made, point, lit(shape->points[k], turned(shape->normals[k], turn), point), 1);
        /* All shadow has one depth, behind the model: with the depth test a sample is darkened once. */
        shadow[k] = seen(made, shadow_of(point), (vector){0.02, 0.02, 0.05}, 0.55);
        shadow[k].depth = FARTHEST - 1;
    }
    made->batch.draw_count = made->picked == NONE ? PICKED : DRAWS;
    made->batch.vertex_count =
        (size_t)(vertices - made->vertices) + shape->point_count + (made->picked == NONE ? 0 : 3);
    made->batch.index_count = 4 + 3 * RIM + 2 * shape->corner_count + (made->picked == NONE ? 0 : 3);
    if (made->picked == NONE) return;
    for (int k = 0; k < 3; k++) {
        trirast_vertex *corner = vertices + shape->point_count + k;
        *corner = vertices[shape->corners[3 * made->picked + (uint32_t)k]];
        corner->red = corner->green = 255, corner->blue = 200;
    }
}

/* A frame whose vertices are still to be made. */
static frame new_frame(const model *shape, int width, int height) {
    const size_t points = shape->point_count, corners = shape->corner_count;
    const trirast_blend over = TRIRAST_BLEND_OVER;
    frame made = {
        .shape = shape, .width = width, .height = height, .picked = NONE,
        .vertices = calloc(4 + RIM + 1 + 2 * points + 3, sizeof *made.vertices),
        .indices = calloc(4 + 3 * RIM + 2 * corners + 3, sizeof *made.indices),
        .draws = {
            [BACKGROUND] = {.vertex_count = 4, .index_count = 4, .topology = TRIRAST_TOPOLOGY_QUADS},
            [FLOOR] = {.vertex_count = RIM + 1, .index_count = 3 * RIM, .blend = over},
            [SHADOW] = {.vertex_count = points, .index_count = corners, .blend = over,
                        .depth_test = TRIRAST_DEPTH_LESS, .depth_write = 1},
            [MODEL] = {.vertex_count = points, .index_count = corners, .cull = TRIRAST_CULL_BACK,
                       .depth_test = TRIRAST_DEPTH_LESS, .depth_write = 1},
            /* The picked triangle once more, where the model shows it: its depths are the same to the last bit. */
            [PICKED] = {.vertex_count = 3, .index_count = 3, .depth_test = TRIRAST_DEPTH_EQUAL},
        },
    };
    if (!made.vertices || !made.indices) stop("no memory", "out of memory");
    uint32_t *index = made.indices;
    for (uint32_t k = 0; k < 4; k++) *index++ = k;
    for (uint32_t k = 0; k < RIM; k++) *index++ = 0, *index++ = k + 1, *index++ = (k + 1) % RIM + 1;
    for (int k = 0; k < 2; k++, index += corners) memcpy(index, shape->corners, corners * sizeof *index);
    for (uint32_t k = 0; k < 3; k++) *index++ = k;
    return made;
}

/* ---- Drawing ---- */

static trirast_canvas new_canvas(uint32_t width, uint32_t height, uint32_t samples) {
    trirast_canvas canvas = {.width = width, .height = height, .samples = samples};
    const size_t size = trirast_canvas_size(&canvas);
    if (trirast_canvas_init(&canvas, malloc(size), size))
        stop("no canvas", "a side is not 1 to 4096 pixels, or out of memory");
    return canvas;
}

/* A thread's tile rows, and where their pixels go. */
typedef struct {
    trirast_canvas rows;
    const trirast_batch *batch;
    trirast_format format;
    uint8_t *pixels;
    size_t size, stride;
    trirast_status status;
} share;

static void *draw_share(void *argument) {
    share *own = argument;
    own->status = trirast_canvas_clear(&own->rows, NULL);
    if (!own->status) own->status = trirast_canvas_draw(&own->rows, own->batch, NULL);
    if (!own->status)
        own->status = trirast_canvas_resolve(&own->rows, own->format, own->pixels, own->size, own->stride);
    return NULL;
}

/* Draws a batch on a canvas by this number of threads, or one for each tile row if these are fewer, and
 * writes the pixels. */
static void draw(const trirast_canvas *canvas, const trirast_batch *batch, int threads, trirast_format format,
                 uint8_t *pixels, size_t stride) {
    share shares[MAX_THREADS];
    pthread_t ids[MAX_THREADS];
    uint32_t rows = canvas->end, count = (uint32_t)threads < rows ? (uint32_t)threads : rows, side = TRIRAST_TILE_SIZE;
    for (uint32_t k = 0; k < count; k++) {
        uint32_t first = rows * k / count, end = rows * (k + 1) / count,
                 bottom = end < rows ? end * side : canvas->height;
        shares[k] =
            (share){.batch = batch, .format = format, .pixels = pixels + first * side * stride, .stride = stride};
        shares[k].size = (bottom - first * side) * stride;
        if (trirast_canvas_split(canvas, first, end, &shares[k].rows)) stop("no piece", "tile rows");
        if (pthread_create(&ids[k], NULL, draw_share, &shares[k])) stop("no thread", "it cannot be started");
    }
    for (uint32_t k = 0; k < count; k++) pthread_join(ids[k], NULL);
    for (uint32_t k = 0; k < count; k++)
        if (shares[k].status) stop("a call failed", trirast_status_string(shares[k].status));
}

/* Picks the triangle of the model at a pixel. The model is drawn by ids on a canvas of this pixel alone, a
 * window on the screen. */
static void pick(frame *made, int x, int y) {
    const size_t points = made->shape->point_count, corners = made->shape->corner_count;
    const trirast_clear none = {.red = 255, .green = 255, .blue = 255, .depth = FARTHEST};
    const trirast_batch alone = {
        .draws = &made->draws[MODEL], .draw_count = 1,
        .vertices = made->vertices + 4 + RIM + 1 + points, .vertex_count = points,
        .indices = made->indices + 4 + 3 * RIM + corners, .index_count = corners,
    };
    trirast_canvas canvas = new_canvas(1, 1, 1);
    uint32_t id = NONE;
    canvas.origin_x = x, canvas.origin_y = y;
    trirast_status status = trirast_canvas_clear(&canvas, &none);
    if (!status) status = trirast_canvas_draw_ids(&canvas, &alone, 0, NULL);
    if (!status) status = trirast_canvas_ids(&canvas, 0, &id, 1, 0);
    if (status) stop("a call failed", trirast_status_string(status));
    free(canvas.memory);
    made->picked = id;
    if (id == NONE) printf("no triangle at %d, %d\n", x, y);
    else printf("triangle %u at %d, %d\n", id, x, y);
    fflush(stdout);
}

/* ---- Files ---- */

static FILE *opened(const char *path, const char *mode) {
    FILE *file = fopen(path, mode);
    if (!file) stop(path, "it cannot be opened");
    return file;
}

static void close_written(FILE *file, const char *path) {
    int is_wrong = ferror(file);
    if (fclose(file) || is_wrong) stop(path, "it cannot be written");
}

static void save(const char *path, const trirast_canvas *canvas, const frame *made, int threads) {
    size_t stride = 3 * (size_t)made->width, size = stride * (size_t)made->height;
    uint8_t *pixels = malloc(size);
    if (!pixels) stop("no memory", "out of memory");
    draw(canvas, &made->batch, threads, TRIRAST_FORMAT_RGB8, pixels, stride);
    FILE *file = opened(path, "wb");
    fprintf(file, "P6\n%d %d\n255\n", made->width, made->height);
    fwrite(pixels, 1, size, file);
    close_written(file, path);
    free(pixels);
}

/* Writes numbers as rows of this many. */
static void write_rows(FILE *file, const char *key, const int64_t *numbers, size_t count, size_t row) {
    fprintf(file, ",\"%s\":[", key);
    for (size_t k = 0; k < count; k++)
        fprintf(file, "%s%lld%s", k % row ? "," : k ? ",[" : "[", (long long)numbers[k], k % row == row - 1 ? "]" : "");
    fprintf(file, "]");
}

static void write_draw(FILE *file, const trirast_draw *draw, const trirast_vertex *vertices, const uint32_t *indices) {
    int is_quads = draw->topology == TRIRAST_TOPOLOGY_QUADS;
    const char *test = draw->depth_test == TRIRAST_DEPTH_ALWAYS ? "always"
                       : draw->depth_test == TRIRAST_DEPTH_LESS ? "less"
                                                                : "equal";
    int64_t *numbers = calloc(7 * draw->vertex_count + draw->index_count, sizeof *numbers), *number = numbers;
    if (!numbers) stop("no memory", "out of memory");
    for (size_t k = 0; k < draw->vertex_count; k++) {
        const trirast_vertex *one = vertices + k;
        const int64_t row[7] = {one->x, one->y, one->depth, one->red, one->green, one->blue, one->alpha};
        memcpy(number, row, sizeof row), number += 7;
    }
    for (size_t k = 0; k < draw->index_count; k++) number[k] = indices[k];
    fprintf(file, "{\"cull\":\"%s\",\"depth_test\":\"%s\",\"depth_write\":%s,\"blend\":\"%s\"",
            draw->cull == TRIRAST_CULL_BACK ? "back" : "none", test, draw->depth_write ? "true" : "false",
            draw->blend.color_source == TRIRAST_FACTOR_SOURCE_ALPHA ? "over" : "none");
    write_rows(file, "vertices", numbers, 7 * draw->vertex_count, 7);
    write_rows(file, is_quads ? "quads" : "triangles", number, draw->index_count, is_quads ? 4 : 3);
    fprintf(file, "}");
    free(numbers);
}

/* Writes the batch as a draw list. */
static void write_list(const char *path, const frame *made) {
    FILE *file = opened(path, "w");
    const trirast_vertex *vertices = made->vertices;
    const uint32_t *indices = made->indices;
    fprintf(file, "{\"width\":%d,\"height\":%d,\"samples\":%d,\"draws\":[\n", made->width, made->height, SAMPLES);
    for (size_t k = 0; k < made->batch.draw_count; k++) {
        if (k) fprintf(file, ",\n");
        write_draw(file, &made->draws[k], vertices, indices);
        vertices += made->draws[k].vertex_count, indices += made->draws[k].index_count;
    }
    fprintf(file, "]}\n");
    close_written(file, path);
}

/* ---- The window ---- */

static trirast_format format_of(const SDL_Surface *surface) {
    switch (surface->format->format) {
    case SDL_PIXELFORMAT_RGB888:
    case SDL_PIXELFORMAT_ARGB8888: return TRIRAST_FORMAT_BGRA8;
    case SDL_PIXELFORMAT_BGR888:
    case SDL_PIXELFORMAT_ABGR8888: return TRIRAST_FORMAT_RGBA8;
    default: break;
    }
    stop("the window", "its pixels have no format of a canvas");
    return TRIRAST_FORMAT_RGBA8;
}

static void must(int holds) {
    if (!holds) stop("SDL", SDL_GetError());
}

/* Takes what the user did since the last frame. Returns 0 if that is to end. */
static int take_events(frame *made) {
    SDL_Event event;
    while (SDL_PollEvent(&event)) {
        if (event.type == SDL_QUIT || (event.type == SDL_KEYDOWN && event.key.keysym.sym == SDLK_ESCAPE)) return 0;
        if (event.type == SDL_MOUSEBUTTONDOWN) pick(made, event.button.x, event.button.y);
    }
    return 1;
}

static void show_rate(SDL_Window *window, const frame *made, int threads, double rate) {
    char title[128], picked[32] = "";
    if (made->picked != NONE) snprintf(picked, sizeof picked, ", triangle %u", made->picked);
    snprintf(title, sizeof title, "spin: %.0f frames a second by %d threads%s", rate, threads, picked);
    SDL_SetWindowTitle(window, title);
}

static void run(const trirast_canvas *canvas, frame *made, int threads, double turn, double speed) {
    must(!SDL_Init(SDL_INIT_VIDEO));
    SDL_Window *window =
        SDL_CreateWindow("spin", SDL_WINDOWPOS_CENTERED, SDL_WINDOWPOS_CENTERED, made->width, made->height, 0);
    must(window != NULL);
    Uint64 begun = SDL_GetTicks64(), since = begun;
    for (int frames = 0; take_events(made); frames++) {
        SDL_Surface *surface = SDL_GetWindowSurface(window);
        must(surface != NULL);
        Uint64 now = SDL_GetTicks64();
        make_frame(made, turn + speed * (double)(now - begun) / 1000);
        draw(canvas, &made->batch, threads, format_of(surface), surface->pixels, (size_t)surface->pitch);
        must(!SDL_UpdateWindowSurface(window));
        if (now - since < 500) continue;
        show_rate(window, made, threads, 1000.0 * (frames + 1) / (double)(now - since));
        since = now, frames = -1;
    }
    SDL_DestroyWindow(window);
    SDL_Quit();
}

/* ---- Arguments ---- */

typedef struct {
    int size[2], picked[2], threads;
    double turn, speed;
    const char *save, *list, *model;
} options;

static double number(char **words, double low, double high) {
    char *end = NULL;
    double value = *words ? strtod(*words, &end) : 0;
    if (!*words || end == *words || *end || value < low || value > high)
        stop("a number is missing or out of range", *words ? *words : "");
    return value;
}

static options read_options(char **words) {
    options asked = {{640, 480}, {-1, -1}, SDL_GetCPUCount(), 25, 30, NULL, NULL, NULL};
    for (; *words; words++) {
        if (!strcmp(*words, "--size"))
            asked.size[0] = (int)number(++words, 1, MAX_SIDE), asked.size[1] = (int)number(++words, 1, MAX_SIDE);
        else if (!strcmp(*words, "--pick"))
            asked.picked[0] = (int)number(++words, 0, MAX_SIDE), asked.picked[1] = (int)number(++words, 0, MAX_SIDE);
        else if (!strcmp(*words, "--threads")) asked.threads = (int)number(++words, 1, MAX_THREADS);
        else if (!strcmp(*words, "--turn")) asked.turn = number(++words, -1e6, 1e6);
        else if (!strcmp(*words, "--speed")) asked.speed = number(++words, -1e6, 1e6);
        else if (!strcmp(*words, "--save") && words[1]) asked.save = *++words;
        else if (!strcmp(*words, "--list") && words[1]) asked.list = *++words;
        else asked.model = *words;
    }
    if (!asked.model) stop("no model", "spin [--size 640 480] [--threads N] [--save FILE] MODEL.obj");
    if (asked.threads > MAX_THREADS) asked.threads = MAX_THREADS;
    return asked;
}

int main(int count, char **words) {
    (void)count;
    options asked = read_options(words + 1);
    double degree = TURN / 360;
    model shape = read_model(asked.model);
    frame made = new_frame(&shape, asked.size[0], asked.size[1]);
    made.batch.draws = made.draws, made.batch.vertices = made.vertices, made.batch.indices = made.indices;
    trirast_canvas canvas = new_canvas((uint32_t)made.width, (uint32_t)made.height, SAMPLES);
    make_frame(&made, asked.turn * degree);
    if (asked.picked[0] >= 0) {
        pick(&made, asked.picked[0], asked.picked[1]);
        make_frame(&made, asked.turn * degree);
    }
    if (asked.list) write_list(asked.list, &made);
    if (asked.save) save(asked.save, &canvas, &made, asked.threads);
    else run(&canvas, &made, asked.threads, asked.turn * degree, asked.speed * degree);
    free(canvas.memory), free(made.vertices), free(made.indices);
    free(shape.points), free(shape.normals), free(shape.corners);
    return 0;
}
