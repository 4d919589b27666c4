// Calls libtrirast in one of several ways, and prints a line for each thing that was compared: "ok WHAT" or
// "failed WHAT: WHY". tests/library/in_c.py builds it, makes the cases with the program, and runs it:
//
//     library_test pictures|rows|buffers|refused|messages|odd|canvases|large|histories|threads|stack|memory MANIFEST
//
// A line of the manifest is `drawn LIST FILE`, where FILE is what the program writes for LIST, or
// `refused LIST LINE`, where LINE is what it writes to the standard error. `memory` is there with -DWRAPPED, for the
// static library alone: see memory.c.
#define _GNU_SOURCE
#include <pthread.h>
#include <stdio.h>
#include <stdlib.h>
#include <string.h>

#include "cases.h"

enum { THREADS = 4 };

static const uint32_t TILE_SIZES[] = {8, 16, 32, 64};

// ---- Calls on a case ------------------------------------------------------------------------------------------------

// Draws the whole file into a buffer of this size, and compares the status and every byte.
static void draw_case(const list_case *one, uint32_t tile_size, size_t size, trirast_status due) {
    marked buffer = mark(size);
    trirast_error error = UNSET;
    trirast_status status = trirast_list_draw(one->list.bytes, one->list.length, tile_size, buffer.bytes, size, &error);
    size_t length = due ? 0 : one->wanted.length;
    expect(is_error(&error, status, due) && holds_just(&buffer, one->wanted.bytes, length),
           "%s, tile size %u, buffer size %zu: status %u where %u was due, or other bytes", one->name, tile_size, size,
           status, due);
    free(buffer.all);
}

// The same of tile rows, into a buffer of `less` bytes fewer than they take.
static void draw_rows_case(const list_case *one, uint32_t tile_size, uint32_t first, uint32_t end, size_t less,
                           trirast_status due) {
    size_t begin = 0, length = 0;
    if (due != TRIRAST_STATUS_BAD_TILE_ROWS) {
        begin = offset_of(one, tile_size, first);
        length = offset_of(one, tile_size, end) - begin;
    }
    marked buffer = mark(length - less);
    trirast_error error = UNSET;
    trirast_status status = trirast_list_draw_rows(one->list.bytes, one->list.length, tile_size, first, end,
                                                   buffer.bytes, buffer.size, &error);
    const char *wanted = one->wanted.bytes + one->info.header_bytes + begin;
    expect(is_error(&error, status, due) && holds_just(&buffer, wanted, due ? 0 : length),
           "%s, tile size %u, rows %u to %u, buffer size %zu: status %u where %u was due, or other bytes", one->name,
           tile_size, first, end, buffer.size, status, due);
    free(buffer.all);
}

// ---- The ways -----------------------------------------------------------------------------------------------------

static void compare_pictures(void) {
    char release[64];
    snprintf(release, sizeof release, "%d.%d.%d", TRIRAST_VERSION_MAJOR, TRIRAST_VERSION_MINOR, TRIRAST_VERSION_PATCH);
    expect(trirast_interface() == TRIRAST_INTERFACE, "interface %u", trirast_interface());
    expect(!strcmp(trirast_version_string(), TRIRAST_VERSION_STRING) && !strcmp(release, TRIRAST_VERSION_STRING),
           "release %s", trirast_version_string());
    report("release and interface are the header's");
    for (int k = 0; k < drawn_count; k++) {
        const trirast_image_info *info = &drawn[k].info;
        char header[64];
        int count = snprintf(header, sizeof header, "P%c\n%u %u\n%s\n", info->pixel_bytes == 3 ? '6' : '5', info->width,
                             info->height, info->pixel_bytes == 3 ? "255" : "65535");
        uint64_t bytes = info->header_bytes + (uint64_t)info->width * info->height * info->pixel_bytes;
        expect(info->file_bytes == drawn[k].wanted.length && bytes == info->file_bytes &&
                   (uint32_t)count == info->header_bytes && !memcmp(header, drawn[k].wanted.bytes, info->header_bytes),
               "%s", drawn[k].name);
    }
    report("trirast_list_info gives the header, the pixels and the length of the program's file");
    for (int k = 0; k < drawn_count; k++)
        for (int s = 0; s < 4; s++) draw_case(&drawn[k], TILE_SIZES[s], drawn[k].wanted.length, TRIRAST_STATUS_OK);
    report("trirast_list_draw writes the program's file, with each tile size");
}

static void compare_rows(void) {
    for (int k = 0; k < drawn_count; k++)
        for (int s = 0; s < 4; s++) {
            uint32_t rows = rows_of(&drawn[k], TILE_SIZES[s]);
            for (uint32_t first = 0; first < rows; first++)
                for (uint32_t end = first + 1; end <= rows; end++)
                    if (rows <= 5 || end - first == 1 || end - first == rows)
                        draw_rows_case(&drawn[k], TILE_SIZES[s], first, end, 0, TRIRAST_STATUS_OK);
        }
    report("trirast_list_draw_rows writes the pixels of its tile rows and nothing else");
    for (int k = 0; k < drawn_count; k++) {
        uint32_t rows = rows_of(&drawn[k], 32);
        draw_rows_case(&drawn[k], 32, 0, rows + 1, 0, TRIRAST_STATUS_BAD_TILE_ROWS);
        draw_rows_case(&drawn[k], 32, 1, 0, 0, TRIRAST_STATUS_BAD_TILE_ROWS);
        draw_rows_case(&drawn[k], 32, 0, 0, 0, TRIRAST_STATUS_BAD_TILE_ROWS);
        draw_rows_case(&drawn[k], 32, rows, rows, 0, TRIRAST_STATUS_BAD_TILE_ROWS);
        draw_rows_case(&drawn[k], 32, rows + 1, rows + 1, 0, TRIRAST_STATUS_BAD_TILE_ROWS);
        draw_rows_case(&drawn[k], 32, 0, UINT32_MAX, 0, TRIRAST_STATUS_BAD_TILE_ROWS);
        draw_rows_case(&drawn[k], 64, 1u << 26, 1u << 26, 0, TRIRAST_STATUS_BAD_TILE_ROWS);
    }
    report("tile rows that the picture does not have are refused");
}

static void compare_buffers(void) {
    for (int k = 0; k < drawn_count; k++) {
        size_t length = drawn[k].wanted.length;
        draw_case(&drawn[k], 32, length - 1, TRIRAST_STATUS_BUFFER_TOO_SMALL);
        draw_case(&drawn[k], 8, length - drawn[k].info.header_bytes, TRIRAST_STATUS_BUFFER_TOO_SMALL);
        draw_case(&drawn[k], 64, 0, TRIRAST_STATUS_BUFFER_TOO_SMALL);
        draw_case(&drawn[k], 16, length + 1, TRIRAST_STATUS_OK);
        draw_case(&drawn[k], 32, 2 * length, TRIRAST_STATUS_OK);
    }
    for (size_t size = 0; size < drawn[0].wanted.length && size < 4096; size++)
        draw_case(&drawn[0], 8, size, TRIRAST_STATUS_BUFFER_TOO_SMALL);
    report("a file takes a buffer of its length: short by a byte, without the header, empty, longer");
    for (int k = 0; k < drawn_count; k++)
        for (int s = 0; s < 4; s++)
            for (uint32_t row = 0; row < rows_of(&drawn[k], TILE_SIZES[s]) && row < 4; row++) {
                size_t length = offset_of(&drawn[k], TILE_SIZES[s], row + 1) - offset_of(&drawn[k], TILE_SIZES[s], row);
                draw_rows_case(&drawn[k], TILE_SIZES[s], row, row + 1, 1, TRIRAST_STATUS_BUFFER_TOO_SMALL);
                draw_rows_case(&drawn[k], TILE_SIZES[s], row, row + 1, length, TRIRAST_STATUS_BUFFER_TOO_SMALL);
            }
    report("so do tile rows");
    for (uint32_t tile_size = 0; tile_size < 70; tile_size++)
        if (tile_size != 8 && tile_size != 16 && tile_size != 32 && tile_size != 64) {
            draw_case(&drawn[0], tile_size, drawn[0].wanted.length, TRIRAST_STATUS_BAD_TILE_SIZE);
        }
    draw_case(&drawn[0], UINT32_MAX, drawn[0].wanted.length, TRIRAST_STATUS_BAD_TILE_SIZE);
    report("a tile size that there is not is refused");
    trirast_error error = UNSET;
    trirast_status status = trirast_list_draw(drawn[0].list.bytes, drawn[0].list.length, 32, NULL, 0, &error);
    expect(is_error(&error, status, TRIRAST_STATUS_BUFFER_TOO_SMALL), "status %u", status);
    status = trirast_list_draw_rows(drawn[0].list.bytes, drawn[0].list.length, 32, 0, 1, NULL, 0, &error);
    expect(is_error(&error, status, TRIRAST_STATUS_BUFFER_TOO_SMALL), "rows: status %u", status);
    expect(trirast_error_message(&error, NULL, 0) > 0, "no message");
    expect(trirast_list_draw(drawn[0].list.bytes, drawn[0].list.length, 32, NULL, 0, NULL) ==
               TRIRAST_STATUS_BUFFER_TOO_SMALL,
           "without an error");
    report("no buffer, NULL and 0, is too small");
}

// One refused list by one of the three calls that read a list.
static trirast_status call_refused(int call, const blob *list, marked *buffer, trirast_error *error) {
    uint8_t *bytes = buffer->bytes;
    trirast_image_info info;
    memset(&info, MARK, sizeof info);
    if (call == 1) return trirast_list_draw(list->bytes, list->length, 32, bytes, buffer->size, error);
    if (call == 2) return trirast_list_draw_rows(list->bytes, list->length, 32, 0, 1, bytes, buffer->size, error);
    trirast_status status = trirast_list_info(list->bytes, list->length, &info, error);
    for (size_t k = 0; k < sizeof info; k++) expect(((uint8_t *)&info)[k] == MARK, "an image info was written");
    return status;
}

// What trirast_error_message says where the program writes this line: the same without "trirast: " and the line feed.
static void message_of(const blob *line, char *message, size_t size) {
    const size_t before = strlen("trirast: ");
    snprintf(message, size, "%.*s", (int)(line->length - before - 1), line->bytes + before);
}

static void compare_refused(void) {
    for (int k = 0; k < refused_count; k++)
        for (int call = 0; call < 3; call++) {
            marked buffer = mark(4096), line = mark(TRIRAST_ERROR_MESSAGE_SIZE);
            trirast_error error = UNSET;
            char wanted[512];
            trirast_status status = call_refused(call, &refused[k].list, &buffer, &error);
            message_of(&refused[k].wanted, wanted, sizeof wanted);
            expect(is_error(&error, status, TRIRAST_STATUS_BAD_LIST) && error.element == TRIRAST_NONE &&
                       holds_just(&buffer, NULL, 0),
                   "%s: status %u", refused[k].name, status);
            expect(trirast_error_message(&error, (char *)line.bytes, line.size) == strlen(wanted) &&
                       holds_just(&line, wanted, strlen(wanted) + 1),
                   "%s: %.*s", refused[k].name, 100, (const char *)line.bytes);
            expect(call_refused(call, &refused[k].list, &buffer, NULL) == TRIRAST_STATUS_BAD_LIST &&
                       holds_just(&buffer, NULL, 0),
                   "%s: without an error", refused[k].name);
            free(buffer.all), free(line.all);
        }
    report("a refused list gives the program's words, and leaves the buffer unchanged");
}

static void compare_messages(void) {
    const trirast_error long_one = {TRIRAST_STATUS_BAD_BATCH, TRIRAST_BATCH_BAD_INDEX, SIZE_MAX - 1, SIZE_MAX - 1,
                                    UINT32_MAX};
    char whole[256];
    size_t length = trirast_error_message(&long_one, whole, sizeof whole);
    expect(length == strlen(whole) && length < TRIRAST_ERROR_MESSAGE_SIZE && strstr(whole, "18446744073709551614"),
           "%s", whole);
    for (size_t size = 0; size < sizeof whole; size++) {
        marked line = mark(size);
        char cut[256];
        size_t fits = size ? (size <= length ? size - 1 : length) : 0;
        memcpy(cut, whole, fits), cut[fits] = '\0';
        expect(trirast_error_message(&long_one, (char *)line.bytes, size) == length &&
                   holds_just(&line, cut, size ? fits + 1 : 0),
               "a buffer of %zu bytes", size);
        free(line.all);
    }
    report("as much of a message is written as fits, with a zero byte");
    for (uint32_t number = 0; number < 40; number++) {
        const trirast_error error = {number, 0, TRIRAST_NONE, TRIRAST_NONE, TRIRAST_NONE};
        const char *name = trirast_status_string((trirast_status)number);
        int is_placed = number == TRIRAST_STATUS_BAD_LIST || number == TRIRAST_STATUS_BAD_BATCH;
        length = trirast_error_message(&error, whole, sizeof whole);
        expect(length == strlen(whole) && length < TRIRAST_ERROR_MESSAGE_SIZE && (is_placed || !strcmp(whole, name)),
               "status %u: %s", number, whole);
        int is_known = number <= TRIRAST_STATUS_BAD_INDEX_SIZE;
        for (uint32_t other = 0; other < number && is_known; other++)
            expect(strcmp(name, trirast_status_string((trirast_status)other)), "%u and %u: %s", other, number, name);
        expect(is_known == !!strcmp(name, "unknown status"), "%u: %s", number, name);
    }
    report("each status has a string of its own, which is its message");
    for (uint32_t cause = 1; cause <= TRIRAST_BATCH_TOO_FEW_BOXES; cause++)
        for (uint32_t other = 1; other < cause; other++) {
            const trirast_error one = {TRIRAST_STATUS_BAD_BATCH, cause, 7, 9, TRIRAST_NONE},
                                two = {TRIRAST_STATUS_BAD_BATCH, other, 7, 9, TRIRAST_NONE};
            char words[256];
            trirast_error_message(&one, whole, sizeof whole), trirast_error_message(&two, words, sizeof words);
            expect(strcmp(whole, words) && !strncmp(whole, "draw 7: ", 8), "causes %u and %u: %s", cause, other, whole);
        }
    report("each cause of a batch has words of its own, behind its draw");
}

static void compare_odd_lists(void) {
    char *long_list = malloc(67108865);
    if (!long_list) stop("out of memory", "a long list");
    memset(long_list, ' ', 67108865);
    const struct {
        const char *what;
        blob list;
        trirast_status due;
        uint32_t cause;
    } lists[] = {
        {"a list of no bytes is no JSON", {long_list, 0}, TRIRAST_STATUS_BAD_LIST, TRIRAST_LIST_NOT_JSON},
        {"no list, NULL and 0, has the same error", {NULL, 0}, TRIRAST_STATUS_BAD_LIST, TRIRAST_LIST_NOT_JSON},
        {"a list of 67,108,864 bytes is read", {long_list, 67108864}, TRIRAST_STATUS_BAD_LIST, TRIRAST_LIST_NOT_JSON},
        {"a list of 67,108,865 bytes is too long", {long_list, 67108865}, TRIRAST_STATUS_INPUT_TOO_LONG, 0},
    };
    for (size_t k = 0; k < sizeof lists / sizeof *lists; k++) {
        for (int call = 0; call < 3; call++) {
            marked buffer = mark(4096);
            trirast_error error = UNSET;
            trirast_status status = call_refused(call, &lists[k].list, &buffer, &error);
            expect(is_error(&error, status, lists[k].due) && error.cause == lists[k].cause &&
                       error.draw == TRIRAST_NONE && holds_just(&buffer, NULL, 0),
                   "status %u, cause %u", status, error.cause);
            free(buffer.all);
        }
        report(lists[k].what);
    }
    free(long_list);
}

// ---- Threads ------------------------------------------------------------------------------------------------------

static void *draw_all(void *argument) {
    int own = *(const int *)argument;
    for (int k = 0; k < drawn_count; k++) {
        const list_case *one = &drawn[(k + own * drawn_count / THREADS) % drawn_count];
        draw_case(one, TILE_SIZES[(k + own) % 4], one->wanted.length, TRIRAST_STATUS_OK);
        draw_case(one, TILE_SIZES[(k + own) % 4], one->wanted.length - 1, TRIRAST_STATUS_BUFFER_TOO_SMALL);
    }
    return NULL;
}

// A thread's part of one picture that all threads draw.
typedef struct {
    const list_case *one;
    int number;
    uint8_t *pixels;
    trirast_error error;
} share;

static void *draw_share(void *argument) {
    share *own = argument;
    uint32_t rows = rows_of(own->one, 8);
    uint32_t first = rows * (uint32_t)own->number / THREADS, end = rows * (uint32_t)(own->number + 1) / THREADS;
    size_t begin = offset_of(own->one, 8, first), stop_at = offset_of(own->one, 8, end);
    own->error.status = TRIRAST_STATUS_OK;
    if (first < end)
        trirast_list_draw_rows(own->one->list.bytes, own->one->list.length, 8, first, end, own->pixels + begin,
                               stop_at - begin, &own->error);
    return NULL;
}

static void run_threads(void *(*body)(void *), void *arguments, size_t size) {
    pthread_t threads[THREADS];
    for (size_t k = 0; k < THREADS; k++)
        if (pthread_create(&threads[k], NULL, body, (char *)arguments + k * size))
            stop("cannot be started", "a thread");
    for (size_t k = 0; k < THREADS; k++) pthread_join(threads[k], NULL);
}

static void compare_threads(void) {
    int numbers[THREADS] = {0, 1, 2, 3};
    run_threads(draw_all, numbers, sizeof *numbers);
    report("four threads draw other lists at the same time");
    for (int k = 0; k < drawn_count; k++) {
        size_t length = drawn[k].wanted.length - drawn[k].info.header_bytes;
        marked pixels = mark(length);
        share shares[THREADS];
        for (int n = 0; n < THREADS; n++) shares[n] = (share){&drawn[k], n, pixels.bytes, UNSET};
        run_threads(draw_share, shares, sizeof *shares);
        for (int n = 0; n < THREADS; n++)
            expect(shares[n].error.status == TRIRAST_STATUS_OK, "%s: error", drawn[k].name);
        expect(holds_just(&pixels, drawn[k].wanted.bytes + drawn[k].info.header_bytes, length), "%s", drawn[k].name);
        free(pixels.all);
    }
    report("four threads draw one picture, each a part of it");
}

int main(int count, char **arguments) {
    const struct {
        const char *name;
        void (*compare)(void);
    } ways[] = {
        {"pictures", compare_pictures},   {"rows", compare_rows},           {"buffers", compare_buffers},
        {"refused", compare_refused},     {"odd", compare_odd_lists},       {"messages", compare_messages},
        {"threads", compare_threads},     {"canvases", compare_canvases},   {"large", compare_large_batches},
        {"histories", compare_histories},
#ifndef _WIN32
        {"stack", compare_stack},
#endif
#ifdef WRAPPED
        {"memory", compare_memory},
#endif
    };
    if (count != 3) stop("usage: library_test WAY MANIFEST", "two arguments are needed");
    read_manifest(arguments[2]);
    if (!drawn_count || !refused_count) stop("has too few cases", arguments[2]);
    for (size_t k = 0; k < sizeof ways / sizeof *ways; k++)
        if (!strcmp(ways[k].name, arguments[1])) {
            ways[k].compare();
            free_cases();
            return test_status();
        }
    stop("no such way", arguments[1]);
}
