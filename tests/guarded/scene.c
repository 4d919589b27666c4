// Scenes from seeds: a canvas, calls on it, and after each of them its samples beside those of the plain renderer.
//
//     guarded [--scenes COUNT] [--seconds COUNT] [--seed FIRST]
//
// Prints what was compared. Exit status 1 if anything is another than it has to be: the line names the scene's seed,
// with which --scenes 1 --seed makes it again.
#define _POSIX_C_SOURCE 200809L
#include <signal.h>
#include <stdlib.h>
#include <string.h>
#include <time.h>
#include <unistd.h>

#include "guarded.h"

counts done;

static scene now;

// ---- What went wrong

void wrong(scene *at, const char *what) {
    if (!at->is_wrong) printf("scene %llu, %s: %s\n", (unsigned long long)at->seed, at->call, what);
    at->is_wrong = 1;
}

static void touched(int number) {
    char text[128];
    const int size =
        snprintf(text, sizeof text, "scene %llu, %s: signal %d\n", (unsigned long long)now.seed, now.call, number);
    if (write(1, text, (size_t)size) != size) _exit(3);
    _exit(1);
}

// ---- Buffers

void *give(scene *at, buffer where, const void *bytes, size_t size) {
    void *found = take_copy(&at->buffers[where], bytes, size, below(&at->from, 4) > 0);
    protect(&at->buffers[where], 1);
    return found;
}

void *give_room(scene *at, buffer where, size_t size) {
    return take(&at->buffers[where], size, below(&at->from, 4) > 0);
}

static int is_due_error(const trirast_error *error, due wanted) {
    const int is_batch = wanted.status == TRIRAST_STATUS_BAD_BATCH;
    return error->status == (uint32_t)wanted.status && error->cause == (is_batch ? (uint32_t)wanted.cause : 0) &&
           error->draw == wanted.draw && error->element == wanted.element && error->value == wanted.value;
}

int ended(scene *at, trirast_status status, const trirast_error *error, due wanted) {
    char text[160];
    done.calls++, done.refused += status != TRIRAST_STATUS_OK;
    if (status != wanted.status || (error && !is_due_error(error, wanted))) {
        snprintf(text, sizeof text, "status %d, cause %u in draw %zd at %zd, and not %d, %d, %zd, %zd", status,
                 error ? error->cause : 0, error ? error->draw : 0, error ? error->element : 0, wanted.status,
                 wanted.cause, wanted.draw, wanted.element);
        wrong(at, text);
    }
    for (int k = 0; k < BUFFERS; k++)
        if (!is_marked(&at->buffers[k])) wrong(at, "a byte beside a buffer was written");
    return status == TRIRAST_STATUS_OK;
}

plain_rows rows_of(const trirast_canvas *piece) {
    const uint32_t bottom = 64 * piece->end < piece->height ? 64 * piece->end : piece->height;
    const plain_rows found = {64 * piece->first < bottom ? 64 * piece->first : bottom, bottom};
    return found;
}

// ---- A canvas and its pieces

static int64_t any_origin(scene *at) {
    static const int64_t odd[] = {-32768, 28672, -32769, 28673, -1000000, INT32_MIN, INT32_MAX};
    if (one_in(&at->from, 3)) return 0;
    if (one_in(&at->from, 12)) return odd[below(&at->from, 7)];
    return between(&at->from, -300, 300) * (one_in(&at->from, 4) ? 90 : 1);
}

static uint32_t any_side(scene *at) {
    return one_in(&at->from, 6) ? 1 + below(&at->from, 150) : 1 + below(&at->from, 24);
}

static void begin_canvas(scene *at) {
    static const uint32_t samples[] = {0, 1, 2, 4, 4, 8, 16}, channels[] = {0, 3, 4, 4};
    trirast_canvas *whole = &at->whole;
    memset(whole, 0, sizeof *whole);
    whole->struct_size = one_in(&at->from, 2) ? 0 : sizeof *whole;
    whole->width = any_side(at), whole->height = any_side(at);
    whole->samples = samples[below(&at->from, 7)], whole->channels = channels[below(&at->from, 4)];
    whole->origin_x = (int32_t)any_origin(at), whole->origin_y = (int32_t)any_origin(at);
    const size_t size = trirast_canvas_size(whole);
    if (size == 0 || trirast_canvas_init(whole, give_room(at, IN_CANVAS, size), size)) wrong(at, "no canvas");
    plain *canvas = &at->canvas;
    canvas->width = whole->width, canvas->height = whole->height, canvas->samples = whole->samples ? whole->samples : 1;
    canvas->has_alpha = whole->channels == 4, canvas->origin_x = whole->origin_x, canvas->origin_y = whole->origin_y;
    canvas->all = calloc((size_t)canvas->width * canvas->height * canvas->samples, sizeof *canvas->all);
    if (!canvas->all) abort();
}

// The whole canvas, or two pieces of it, of which one may have no tile rows.
static void split(scene *at) {
    const uint32_t at_row = below(&at->from, at->whole.end + 1);
    at->piece_count = one_in(&at->from, 2) ? 1 : 2;
    at->pieces[0] = at->whole;
    if (at->piece_count == 2 && (trirast_canvas_split(&at->whole, 0, at_row, &at->pieces[0]) ||
                                 trirast_canvas_split(&at->whole, at_row, at->whole.end, &at->pieces[1])))
        wrong(at, "no pieces");
}

trirast_canvas nearly(scene *at, const trirast_canvas *piece) {
    trirast_canvas found = *piece;
    if (!one_in(&at->from, 16)) return found;
    switch (below(&at->from, 11)) {
    case 0: found.struct_size = sizeof found + 8; break;
    case 1: found.width = one_in(&at->from, 2) ? 0 : 4097; break;
    case 2: found.height = one_in(&at->from, 2) ? 0 : UINT32_MAX; break;
    case 3: found.samples = found.samples == 4 ? 3 : 32; break;
    case 4: found.channels = 5; break;
    case 5: found.end++; break;
    case 6: found.first = found.end + 1; break;
    case 7: found.plane_count += one_in(&at->from, 2) ? 1 : SIZE_MAX; break;
    case 8: found.initialized = 0; break;
    case 9: found.first = found.end = found.initialized = 0, found.memory = NULL, found.plane_count = 0; break;
    default: found.samples = found.samples == 2 ? 8 : 2; break;
    }
    return found;
}

// ---- Comparing

static int is_alike(const plain_sample *wanted, const uint8_t *rgba, uint16_t depth) {
    return !memcmp(wanted->channels, rgba, 4) && wanted->depth == depth;
}

// Compares sample s of each pixel.
static void compare_samples(scene *at, uint32_t s) {
    const size_t pixels = (size_t)at->canvas.width * at->canvas.height;
    uint8_t *rgba = malloc(4 * pixels);
    uint16_t *depths = malloc(2 * pixels);
    if (!rgba || !depths) abort();
    if (trirast_canvas_colors(&at->whole, s, TRIRAST_FORMAT_RGBA8, rgba, 4 * pixels, 0) ||
        trirast_canvas_depths(&at->whole, s, depths, pixels, 0))
        wrong(at, "samples cannot be read");
    for (size_t k = 0; k < pixels && !at->is_wrong; k++)
        if (!is_alike(&at->canvas.all[k * at->canvas.samples + s], &rgba[4 * k], depths[k])) {
            const plain_sample *due_there = &at->canvas.all[k * at->canvas.samples + s];
            char text[160];
            snprintf(text, sizeof text, "sample %u of pixel %zu, %zu is %d, %d, %d, %d, %d, and not %d, %d, %d, %d, %d",
                     s, k % at->canvas.width, k / at->canvas.width, rgba[4 * k], rgba[4 * k + 1], rgba[4 * k + 2],
                     rgba[4 * k + 3], depths[k], due_there->channels[0], due_there->channels[1], due_there->channels[2],
                     due_there->channels[3], due_there->depth);
            wrong(at, text);
        }
    done.samples += pixels;
    free(rgba), free(depths);
}

static void one_call(scene *at) {
    static void (*const calls[])(scene *) = {call_draw,  call_draw,    call_draw, call_polygons, call_polygons,
                                             call_image, call_entries, call_tile, call_clear,    call_edges};
    calls[below(&at->from, sizeof calls / sizeof *calls)](at);
    for (int k = 0; k < BUFFERS; k++) protect(&at->buffers[k], 0);
    compare_samples(at, below(&at->from, at->canvas.samples));
}

static int one_scene(uint64_t seed) {
    now.seed = now.from.state = seed, now.is_wrong = 0, now.call = "beginning";
    next(&now.from);
    begin_canvas(&now);
    split(&now);
    const trirast_clear clear = {9, 99, 199, (uint8_t)below(&now.from, 256), (uint16_t)below(&now.from, 65536), 0};
    if (trirast_canvas_clear(&now.whole, &clear)) wrong(&now, "no clear");
    plain_clear(&now.canvas, rows_of(&now.whole), &clear);
    for (uint32_t calls = 2 + below(&now.from, 6); calls > 0 && !now.is_wrong; calls--) one_call(&now);
    for (uint32_t s = 0; s < now.canvas.samples && !now.is_wrong; s++) compare_samples(&now, s);
    free(now.canvas.all);
    return !now.is_wrong;
}

static uint64_t option(int count, char **words, const char *name, uint64_t otherwise) {
    for (int k = 1; k + 1 < count; k++)
        if (!strcmp(words[k], name)) return strtoull(words[k + 1], NULL, 10);
    return otherwise;
}

int main(int count, char **words) {
    const uint64_t scenes = option(count, words, "--scenes", UINT64_MAX), first = option(count, words, "--seed", 1);
    const time_t end = time(NULL) + (time_t)option(count, words, "--seconds", scenes == UINT64_MAX ? 30 : 1u << 30);
    uint64_t made = 0, failed = 0;
    signal(SIGSEGV, touched), signal(SIGBUS, touched), signal(SIGILL, touched);
    for (; made < scenes && failed < 10 && time(NULL) < end; made++) failed += !one_scene(first + made);
    printf("%llu scenes, %llu calls, %llu refused, %llu samples, %llu wrong\n", (unsigned long long)made,
           (unsigned long long)done.calls, (unsigned long long)done.refused, (unsigned long long)done.samples,
           (unsigned long long)failed);
    return failed || made == 0;
}
