/* A renderer's frame loop: makes a draw list for each frame, and draws it with threads of its own.
 *
 *     frames [--frames 8] [--threads 4] [FOLDER]
 *
 * A ring of tiles turns in perspective. Its corners are turned, projected and lit here, since a draw list holds
 * positions on the screen. Each thread draws some tile rows into its own part of one buffer. With a folder each frame
 * is written there as frame-N.ppm, and its list as frame-N.json; without one, the frames are drawn and forgotten.
 *
 *     cc -O2 frames.c $(pkg-config --cflags --libs trirast) -pthread -lm
 */
#include <math.h>
#include <pthread.h>
#include <stdarg.h>
#include <stdio.h>
#include <stdlib.h>
#include <string.h>

#include "trirast.h"

enum { WIDTH = 480, HEIGHT = 320, TILE_SIZE = 32, ALONG = 48, ROUND = 16, MAX_THREADS = 64 };

static const double TURN = 6.283185307179586;

static void stop(const char *why) {
    fprintf(stderr, "frames: %s\n", why);
    exit(1);
}

/* ---- The list of a frame ---- */

/* A string that grows. It is kept from frame to frame, so that only the first frames allocate. */
typedef struct {
    char *bytes;
    size_t length, size;
} text;

static void add(text *list, const char *format, ...) {
    for (;;) {
        va_list values;
        va_start(values, format);
        size_t left = list->size - list->length;
        int count = vsnprintf(left ? list->bytes + list->length : NULL, left, format, values);
        va_end(values);
        if (count < 0) stop("a number cannot be written");
        if ((size_t)count < left) {
            list->length += (size_t)count;
            return;
        }
        list->size = 2 * list->size + (size_t)count + 1;
        list->bytes = realloc(list->bytes, list->size);
        if (!list->bytes) stop("out of memory");
    }
}

/* A corner of the ring as a vertex of the list: x and y in 1/256 pixel, depth, colour, alpha. */
static void add_vertex(text *list, int along, int around, double turn) {
    double a = TURN * along / ALONG + turn, b = TURN * around / ROUND, tilt = 0.7 + 0.3 * sin(2 * turn);
    double x = (2 + 0.8 * cos(b)) * cos(a), y = 0.8 * sin(b), z = (2 + 0.8 * cos(b)) * sin(a);
    double height = cos(tilt) * y + sin(tilt) * z, away = 6.5 - sin(tilt) * y + cos(tilt) * z;
    double light = 0.4 + 0.6 * fmax(0, 0.8 * sin(b) - 0.6 * sin(a) * cos(b));
    /* A depth that is a plane on the screen: it goes with 1/away, from 0 at a distance of 3 to 65535 at 10. */
    double depth = 65535 * (1.0 / 3 - 1 / away) / (1.0 / 3 - 1.0 / 10);
    int is_dark = (along / 2 + around / 2) % 2;
    add(list, "[%ld,%ld,%ld,%d,%d,%d,255]", lround(256 * (WIDTH / 2 + 380 * x / away)),
        lround(256 * (HEIGHT / 2 - 380 * height / away)), lround(depth), (int)(light * (is_dark ? 60 : 250)),
        (int)(light * (is_dark ? 110 : 220)), (int)(light * (is_dark ? 190 : 150)));
}

static void make_list(text *list, double turn) {
    list->length = 0;
    add(list, "{\"width\":%d,\"height\":%d,\"samples\":4,\"clear\":[16,18,24],\"draws\":[{", WIDTH, HEIGHT);
    add(list, "\"depth_test\":\"less\",\"depth_write\":true,\"vertices\":[");
    for (int along = 0; along < ALONG; along++)
        for (int around = 0; around < ROUND; around++) {
            if (along + around) add(list, ",");
            add_vertex(list, along, around, turn);
        }
    add(list, "],\"triangles\":[");
    for (int along = 0; along < ALONG; along++)
        for (int around = 0; around < ROUND; around++) {
            int here = along * ROUND, ahead = (along + 1) % ALONG * ROUND, beside = (around + 1) % ROUND;
            add(list, "%s[%d,%d,%d],[%d,%d,%d]", along + around ? "," : "", here + around, ahead + around,
                here + beside, here + beside, ahead + around, ahead + beside);
        }
    add(list, "]}]}\n");
}

/* ---- Drawing with threads ---- */

/* One thread's part of a picture: the tile rows from first to before end, and where their pixels go. */
typedef struct {
    const text *list;
    uint32_t first, end;
    uint8_t *pixels;
    size_t size;
    trirast_status status;
    trirast_error error;
} part;

static void *draw_part(void *argument) {
    part *own = argument;
    own->status = trirast_list_draw_rows(own->list->bytes, own->list->length, TILE_SIZE, own->first, own->end,
                                         own->pixels, own->size, &own->error);
    return NULL;
}

static void stop_on(const part *own) {
    char message[TRIRAST_ERROR_MESSAGE_SIZE];
    if (own->status == TRIRAST_STATUS_OK) return;
    trirast_error_message(&own->error, message, sizeof message);
    stop(message);
}

/* Draws the list's pixels by this number of threads, or one for each tile row if these are fewer. The width and the
 * height are the program's own, so it does not call trirast_list_info. */
static void draw(const text *list, uint8_t *pixels, int threads) {
    part parts[MAX_THREADS];
    pthread_t ids[MAX_THREADS];
    uint32_t rows = (HEIGHT + TILE_SIZE - 1) / TILE_SIZE;
    size_t row_bytes = 3 * WIDTH;
    if ((uint32_t)threads > rows) threads = (int)rows;
    for (int k = 0; k < threads; k++) {
        uint32_t first = rows * (uint32_t)k / (uint32_t)threads, end = rows * (uint32_t)(k + 1) / (uint32_t)threads;
        size_t top = (size_t)first * TILE_SIZE, bottom = end == rows ? HEIGHT : (size_t)end * TILE_SIZE;
        parts[k] = (part){
            .list = list,
            .first = first,
            .end = end,
            .pixels = pixels + top * row_bytes,
            .size = (bottom - top) * row_bytes,
        };
        if (pthread_create(&ids[k], NULL, draw_part, &parts[k])) stop("a thread cannot be started");
    }
    for (int k = 0; k < threads; k++) pthread_join(ids[k], NULL);
    for (int k = 0; k < threads; k++) stop_on(&parts[k]);
}

/* ---- Frames ---- */

static void write_file(const char *folder, int frame, const char *ending, const char *header, const void *bytes,
                       size_t length) {
    char path[4096];
    if (snprintf(path, sizeof path, "%s/frame-%d.%s", folder, frame, ending) >= (int)sizeof path) stop("a long path");
    FILE *file = fopen(path, "wb");
    if (!file) stop("a file cannot be opened");
    int is_written = fputs(header, file) >= 0 && fwrite(bytes, 1, length, file) == length;
    if (fclose(file) || !is_written) stop("a file cannot be written");
}

static int number(const char *text, int max) {
    int value = text ? atoi(text) : 0;
    if (value < 1 || value > max) stop("usage: frames [--frames NUMBER] [--threads 1 to 64] [FOLDER]");
    return value;
}

int main(int count, char **arguments) {
    int frames = 8, threads = 4;
    const char *folder = NULL;
    for (int k = 1; k < count; k++) {
        if (!strcmp(arguments[k], "--frames")) frames = number(arguments[++k], 1000000);
        else if (!strcmp(arguments[k], "--threads")) threads = number(arguments[++k], MAX_THREADS);
        else folder = arguments[k];
    }
    if (trirast_interface() < TRIRAST_INTERFACE) stop("the library is older than its header");
    size_t length = (size_t)3 * WIDTH * HEIGHT;
    uint8_t *pixels = malloc(length);
    if (!pixels) stop("out of memory");
    char header[32];
    snprintf(header, sizeof header, "P6\n%d %d\n255\n", WIDTH, HEIGHT);
    text list = {NULL, 0, 0};
    for (int frame = 0; frame < frames; frame++) {
        make_list(&list, TURN * frame / frames);
        draw(&list, pixels, threads);
        if (folder) {
            write_file(folder, frame, "json", "", list.bytes, list.length);
            write_file(folder, frame, "ppm", header, pixels, length);
        }
    }
    printf("%d frames of %d by %d pixels by %d threads\n", frames, WIDTH, HEIGHT, threads);
    free(list.bytes);
    free(pixels);
    return 0;
}
