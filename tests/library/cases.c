// Comparisons, cases and buffers: see cases.h.
#include "cases.h"

#include <pthread.h>
#include <stdarg.h>
#include <stdio.h>
#include <stdlib.h>
#include <string.h>

// ---- Comparisons --------------------------------------------------------------------------------------------------

static struct {
    char why[512];
    long count;
    int has_failed;
} compared;

static pthread_mutex_t compared_lock = PTHREAD_MUTEX_INITIALIZER;
static int status = 0;

void expect(int holds, const char *format, ...) {
    pthread_mutex_lock(&compared_lock);
    compared.count++;
    if (!holds && !compared.has_failed) {
        va_list values;
        va_start(values, format);
        vsnprintf(compared.why, sizeof compared.why, format, values);
        va_end(values);
        compared.has_failed = 1;
    }
    pthread_mutex_unlock(&compared_lock);
}

void report(const char *what) {
    if (!compared.has_failed && compared.count) printf("ok %s (%ld comparisons)\n", what, compared.count);
    else printf("failed %s: %s\n", what, compared.count ? compared.why : "there was nothing to compare");
    if (compared.has_failed || !compared.count) status = 1;
    memset(&compared, 0, sizeof compared);
}

int test_status(void) { return status; }

// ---- Cases --------------------------------------------------------------------------------------------------------

list_case drawn[MAX_CASES], refused[MAX_CASES];
int drawn_count = 0, refused_count = 0;

_Noreturn void stop(const char *what, const char *name) {
    fprintf(stderr, "library_test: %s: %s\n", what, name);
    exit(2);
}

static blob read_file(const char *path) {
    FILE *file = fopen(path, "rb");
    if (!file || fseek(file, 0, SEEK_END)) stop("cannot be read", path);
    blob all = {NULL, (size_t)ftell(file)};
    all.bytes = malloc(all.length + 1);
    rewind(file);
    if (!all.bytes || fread(all.bytes, 1, all.length, file) != all.length) stop("cannot be read", path);
    fclose(file);
    return all;
}

void read_manifest(const char *path) {
    FILE *file = fopen(path, "r");
    if (!file) stop("cannot be read", path);
    char kind[16], list[1024 + sizeof ".scene"], wanted[1024];
    while (fscanf(file, "%15s %1023s %1023s", kind, list, wanted) == 3) {
        int is_drawn = !strcmp(kind, "drawn");
        list_case *next = is_drawn ? &drawn[drawn_count++] : &refused[refused_count++];
        if (drawn_count == MAX_CASES || refused_count == MAX_CASES) stop("has too many cases", path);
        snprintf(next->name, sizeof next->name, "%s", list);
        next->list = read_file(list);
        next->wanted = read_file(wanted);
        trirast_error error;
        if (is_drawn) {
            // The arrays lie beside the list, as NAME.scene beside NAME.json.
            snprintf(strrchr(list, '.'), sizeof ".scene", ".scene");
            blob numbers = read_file(list);
            next->arrays = read_arrays((const uint32_t *)(const void *)numbers.bytes);
            free(numbers.bytes);
        }
        if (is_drawn && trirast_list_info(next->list.bytes, next->list.length, &next->info, &error))
            stop("refused", list);
    }
    fclose(file);
}

void free_cases(void) {
    for (int k = 0; k < drawn_count; k++) {
        free(drawn[k].list.bytes), free(drawn[k].wanted.bytes);
        free(drawn[k].arrays.draws), free(drawn[k].arrays.vertices), free(drawn[k].arrays.indices);
    }
    for (int k = 0; k < refused_count; k++) free(refused[k].list.bytes), free(refused[k].wanted.bytes);
}

// ---- Buffers ------------------------------------------------------------------------------------------------------

marked mark(size_t size) {
    marked buffer = {malloc(size + 2 * MARGIN), NULL, size};
    if (!buffer.all) stop("out of memory", "a buffer");
    buffer.bytes = buffer.all + MARGIN;
    memset(buffer.all, MARK, size + 2 * MARGIN);
    return buffer;
}

int holds_just(const marked *buffer, const void *bytes, size_t length) {
    if (length > buffer->size || (length && memcmp(buffer->bytes, bytes, length))) return 0;
    for (size_t k = 0; k < MARGIN; k++)
        if (buffer->all[k] != MARK) return 0;
    for (size_t k = length; k < buffer->size + MARGIN; k++)
        if (buffer->bytes[k] != MARK) return 0;
    return 1;
}

int is_error(const trirast_error *error, trirast_status status, trirast_status due) {
    int is_placed = due == TRIRAST_STATUS_OK || due == TRIRAST_STATUS_BAD_LIST || due == TRIRAST_STATUS_BAD_BATCH;
    int is_alone =
        !error->cause && error->draw == TRIRAST_NONE && error->element == TRIRAST_NONE && error->value == TRIRAST_NONE;
    return status == due && error->status == (uint32_t)due && (is_placed || is_alone);
}

const trirast_error UNSET = {99, 99, 99, 99, 99};

uint32_t rows_of(const list_case *one, uint32_t tile_size) { return (one->info.height + tile_size - 1) / tile_size; }

size_t offset_of(const list_case *one, uint32_t tile_size, uint32_t row) {
    uint32_t top = row * tile_size < one->info.height ? row * tile_size : one->info.height;
    return (size_t)top * one->info.width * one->info.pixel_bytes;
}
