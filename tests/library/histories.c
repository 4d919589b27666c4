// Asks for the histories of samples, and for the samples of triangles: what is written into arrays of every size, that
// the ends make the pixels of the program's picture, that the counts agree with the histories, and what is refused.
#include <stdio.h>
#include <stdlib.h>
#include <string.h>

#include "cases.h"

enum { PLACES = 5, MAX_SAMPLES = 2048 };

static const trirast_sample_info NO_INFO = {77, 77, 77, 77, 77, {77, 77, 77, 77}, {77, 77, 77, 77}};

static trirast_history_request request_of(uint32_t x, uint32_t y, uint32_t sample, uint32_t all) {
    return (trirast_history_request){.x = x, .y = y, .sample = sample, .all = all};
}

// Asks with an array of this many events, and compares the status. The caller frees the array.
static marked ask(const list_case *one, const trirast_history_request *request, size_t capacity,
                  trirast_sample_info *info, trirast_status due) {
    marked events = mark(capacity * sizeof(trirast_event));
    trirast_error error = UNSET;
    *info = NO_INFO;
    trirast_status status = trirast_list_history(one->list.bytes, one->list.length, request,
                                                 (trirast_event *)events.bytes, capacity, info, &error);
    expect(is_error(&error, status, due), "%s: status %u where %u was due", one->name, status, due);
    if (due)
        expect(!memcmp(info, &NO_INFO, sizeof NO_INFO) && holds_just(&events, NULL, 0), "%s: written after an error",
               one->name);
    return events;
}

static int is_same(const trirast_stored *one, const trirast_stored *other) { return !memcmp(one, other, sizeof *one); }

// Whether each event begins with what the one before it left, in draw order, and each has a reason or was drawn.
static int chain_holds(const trirast_event *events, const trirast_sample_info *info) {
    const trirast_stored *stored = &info->begin;
    for (size_t k = 0; k < info->event_count; k++) {
        const trirast_event *event = &events[k];
        int has_area = event->doubled_area != 0, fails = event->failure_ab || event->failure_bc || event->failure_ca;
        if (!is_same(&event->before, stored) || (k && event->number <= events[k - 1].number)) return 0;
        if ((event->result == TRIRAST_RESULT_DRAWN) != !event->reasons) return 0;
        if ((event->result == TRIRAST_RESULT_DEPTH_FAILED) != (event->reasons == TRIRAST_REASON_DEPTH_FAILED)) return 0;
        if (!!(event->reasons & TRIRAST_REASON_NOT_COVERED) != fails || event->covered != (has_area && !fails))
            return 0;
        if (event->result != TRIRAST_RESULT_DRAWN && !is_same(&event->before, &event->after)) return 0;
        stored = &event->after;
    }
    return is_same(stored, &info->end);
}

// Whether the shorter history has the events of the longer one that cover the sample, and no others.
static int are_covering(const trirast_event *some, size_t some_count, const trirast_event *all, size_t all_count) {
    size_t found = 0;
    for (size_t k = 0; k < all_count; k++)
        if (all[k].covered && (found == some_count || memcmp(&some[found++], &all[k], sizeof *all))) return 0;
    return found == some_count;
}

// The history of a sample, by arrays that are too small, just large enough and too large. Gives the
// sample beside its events.
static trirast_sample_info compare_sample(const list_case *one, uint32_t x, uint32_t y, uint32_t sample) {
    trirast_sample_info info, again;
    marked kept[2];
    size_t counts[2];
    for (uint32_t all = 0; all < 2; all++) {
        trirast_history_request request = request_of(x, y, sample, all);
        marked none = ask(one, &request, 0, &info, TRIRAST_STATUS_OK);
        free(none.all);
        size_t count = counts[all] = info.event_count;
        kept[all] = ask(one, &request, count, &again, TRIRAST_STATUS_OK);
        expect(!memcmp(&info, &again, sizeof info) && chain_holds((trirast_event *)kept[all].bytes, &info),
               "%s: %u, %u, %u", one->name, x, y, sample);
        const size_t sizes[] = {1, count / 2, count ? count - 1 : 0, count + 3};
        for (size_t k = 0; k < sizeof sizes / sizeof *sizes; k++) {
            marked events = ask(one, &request, sizes[k], &again, TRIRAST_STATUS_OK);
            size_t written = sizes[k] < count ? sizes[k] : count;
            expect(!memcmp(&info, &again, sizeof info) &&
                       holds_just(&events, kept[all].bytes, written * sizeof(trirast_event)),
                   "%s: %u, %u, %u: an array of %zu events for %zu", one->name, x, y, sample, sizes[k], count);
            free(events.all);
        }
    }
    expect(are_covering((trirast_event *)kept[0].bytes, counts[0], (trirast_event *)kept[1].bytes, counts[1]),
           "%s: %u, %u, %u: other events than those that cover the sample", one->name, x, y, sample);
    free(kept[0].all), free(kept[1].all);
    return info;
}

static uint8_t mean(const uint32_t *values, uint32_t count) {
    uint32_t sum = 0;
    for (uint32_t k = 0; k < count; k++) sum += values[k];
    return (uint8_t)((2 * sum + count) / (2 * count));
}

// The histories of a pixel's samples end with what the program's picture shows there.
static void compare_pixel(const list_case *one, uint32_t x, uint32_t y) {
    uint32_t red[4] = {0}, green[4] = {0}, blue[4] = {0}, depth = 0, samples = 1;
    for (uint32_t s = 0; s < samples; s++) {
        trirast_sample_info info = compare_sample(one, x, y, s);
        samples = info.samples;
        expect((samples == 1 || samples == 4) && info.output == (one->info.pixel_bytes == 2), "%s: %u samples",
               one->name, samples);
        if (samples > 4) return;
        red[s] = info.end.red, green[s] = info.end.green, blue[s] = info.end.blue;
        if (!s) depth = info.end.depth;
    }
    const uint8_t *pixel = (const uint8_t *)one->wanted.bytes + one->info.header_bytes +
                           ((size_t)y * one->info.width + x) * one->info.pixel_bytes;
    int is_color = one->info.pixel_bytes == 3;
    int is_right =
        is_color ? pixel[0] == mean(red, samples) && pixel[1] == mean(green, samples) && pixel[2] == mean(blue, samples)
                 : pixel[0] == depth / 256 && pixel[1] == depth % 256;
    expect(is_right, "%s: the picture has another pixel %u, %u", one->name, x, y);
    trirast_sample_info info;
    const struct {
        trirast_history_request request;
        trirast_status due;
    } refused_ones[] = {
        {request_of(x, y, samples, 0), TRIRAST_STATUS_BAD_SAMPLE},
        {request_of(one->info.width, y, samples, 0), TRIRAST_STATUS_BAD_PIXEL},
        {request_of(x, one->info.height, 0, 1), TRIRAST_STATUS_BAD_PIXEL},
        {request_of(4294967295u, 4294967295u, 4294967295u, 1), TRIRAST_STATUS_BAD_PIXEL},
    };
    for (size_t k = 0; k < sizeof refused_ones / sizeof *refused_ones; k++)
        free(ask(one, &refused_ones[k].request, 2, &info, refused_ones[k].due).all);
}

// How many samples of a small picture each triangle covers and changes, by the histories of all samples.
static void compare_counts(const list_case *one, uint32_t samples) {
    trirast_history_request request = request_of(0, 0, 0, 1);
    trirast_sample_info info;
    marked events = ask(one, &request, 0, &info, TRIRAST_STATUS_OK);
    size_t triangles = info.event_count;
    free(events.all);
    trirast_sample_counts *counts = calloc(triangles + 1, sizeof *counts);
    size_t(*places)[2] = calloc(triangles + 1, sizeof *places);
    if (!counts || !places) stop("out of memory", "counts");
    for (uint32_t k = 0; k < one->info.width * one->info.height * samples; k++) {
        request = request_of(k / samples % one->info.width, k / samples / one->info.width, k % samples, 1);
        events = ask(one, &request, triangles, &info, TRIRAST_STATUS_OK);
        size_t last = triangles;
        for (size_t n = 0; n < triangles; n++) {
            const trirast_event *event = &((trirast_event *)events.bytes)[n];
            places[n][0] = event->draw, places[n][1] = event->triangle;
            counts[n].covered += event->covered;
            if (is_same(&event->before, &event->after)) continue;
            counts[n].changed++;
            last = n;
        }
        counts[last].shown += last < triangles;
        free(events.all);
    }
    for (size_t n = 0; n < triangles; n++) {
        trirast_sample_counts found = {77, 77, 77};
        trirast_error error = UNSET;
        trirast_status status = trirast_list_triangle_samples(one->list.bytes, one->list.length, places[n][0],
                                                              places[n][1], &found, &error);
        expect(is_error(&error, status, TRIRAST_STATUS_OK) && !memcmp(&found, &counts[n], sizeof found),
               "%s: triangle %zu: %u, %u, %u", one->name, n, found.covered, found.changed, found.shown);
    }
    free(counts), free(places);
}

static void compare_refused_histories(void) {
    for (int k = 0; k < refused_count; k++) {
        trirast_history_request request = request_of(0, 0, 0, 0);
        trirast_sample_info info;
        free(ask(&refused[k], &request, 2, &info, TRIRAST_STATUS_BAD_LIST).all);
        trirast_sample_counts counts = {77, 77, 77};
        trirast_error error = UNSET;
        trirast_status status =
            trirast_list_triangle_samples(refused[k].list.bytes, refused[k].list.length, 0, 0, &counts, &error);
        expect(is_error(&error, status, TRIRAST_STATUS_BAD_LIST) && counts.covered == 77 && counts.changed == 77 &&
                   counts.shown == 77,
               "%s: status %u", refused[k].name, status);
    }
    report("a refused list has no history, and nothing is written");
    for (int k = 0; k < drawn_count; k++) {
        trirast_history_request request = request_of(0, 0, 0, 0);
        uint32_t *const sizes[] = {&request.struct_size, &request.event_size, &request.info_size};
        const uint32_t own[] = {sizeof request, sizeof(trirast_event), sizeof(trirast_sample_info)};
        trirast_sample_info info;
        for (size_t n = 0; n < 3; n++) {
            for (int by = -8; by < 9; by += 8) {
                *sizes[n] = own[n] + (uint32_t)by;
                free(ask(&drawn[k], &request, 2, &info, by ? TRIRAST_STATUS_BAD_STRUCT_SIZE : TRIRAST_STATUS_OK).all);
            }
            *sizes[n] = 0;
        }
        trirast_sample_counts counts = {77, 77, 77};
        trirast_error error = UNSET;
        trirast_status status =
            trirast_list_triangle_samples(drawn[k].list.bytes, drawn[k].list.length, 1024, SIZE_MAX, &counts, &error);
        expect(is_error(&error, status, TRIRAST_STATUS_BAD_TRIANGLE) && counts.covered == 77, "%s: status %u",
               drawn[k].name, status);
    }
    report("structs of another size, and triangles that are not there, are refused, and nothing is written");
}

void ask_for_history(const list_case *one) {
    trirast_history_request request = request_of(0, 0, 0, 1);
    trirast_event events[2];
    trirast_sample_info info;
    trirast_sample_counts counts;
    trirast_error error;
    trirast_list_history(one->list.bytes, one->list.length, &request, events, 2, &info, &error);
    trirast_list_triangle_samples(one->list.bytes, one->list.length, 0, 0, &counts, &error);
}

void compare_histories(void) {
    for (int k = 0; k < drawn_count; k++) {
        uint32_t width = drawn[k].info.width, height = drawn[k].info.height;
        const uint32_t places[PLACES][2] = {{0, 0}, {width - 1, height - 1}, {width / 2, height / 2},
                                            {width / 3, height * 2 / 3}, {width * 3 / 4, height / 4}};
        for (int n = 0; n < PLACES; n++) compare_pixel(&drawn[k], places[n][0], places[n][1]);
    }
    report("histories of samples in arrays of each size end with the picture's pixels");
    for (int k = 0; k < drawn_count; k++) {
        trirast_history_request request = request_of(0, 0, 0, 1);
        trirast_sample_info info;
        free(ask(&drawn[k], &request, 0, &info, TRIRAST_STATUS_OK).all);
        if ((uint64_t)drawn[k].info.width * drawn[k].info.height * info.samples <= MAX_SAMPLES &&
            info.event_count <= 64)
            compare_counts(&drawn[k], info.samples);
    }
    report("the samples of triangles are those of the histories");
    compare_refused_histories();
}
