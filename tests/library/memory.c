// Lets the library's allocations fail: each in turn, and each with all after it. It is linked with -Wl,--wrap for
// malloc, realloc and free, so that the calls of the library come here.
#include <stdlib.h>
#include <string.h>

#include "cases.h"

// Whether calls are counted, which of them fails, whether those after it fail too, and the counts.
static struct {
    int is_on, with_later;
    long failing_call, calls, failures, live;
} heap;

void *__real_malloc(size_t size);
void *__real_realloc(void *old, size_t size);
void __real_free(void *block);
void *__wrap_malloc(size_t size);
void *__wrap_realloc(void *old, size_t size);
void __wrap_free(void *block);

static int fails(void) {
    if (!heap.is_on) return 0;
    heap.calls++;
    int is_failing = heap.calls == heap.failing_call || (heap.with_later && heap.calls > heap.failing_call);
    heap.failures += is_failing;
    return is_failing;
}

void *__wrap_malloc(size_t size) {
    if (fails()) return NULL;
    if (heap.is_on) heap.live++;
    return __real_malloc(size);
}

void *__wrap_realloc(void *old, size_t size) {
    if (fails()) return NULL;
    if (heap.is_on && !old) heap.live++;
    return __real_realloc(old, size);
}

void __wrap_free(void *block) {
    if (heap.is_on && block) heap.live--;
    __real_free(block);
}

// The history of a sample, or how many samples a triangle has. Neither may write anything if it fails.
static trirast_status ask(int call, const list_case *one, trirast_error *error) {
    const trirast_history_request request = {.all = 1};
    trirast_event events[2], unset[2];
    trirast_sample_info info, no_info;
    trirast_sample_counts counts = {77, 77, 77};
    memset(events, MARK, sizeof events), memset(unset, MARK, sizeof unset);
    memset(&info, MARK, sizeof info), memset(&no_info, MARK, sizeof no_info);
    trirast_status status =
        call == 3 ? trirast_list_history(one->list.bytes, one->list.length, &request, events, 2, &info, error)
                  : trirast_list_triangle_samples(one->list.bytes, one->list.length, 0, 0, &counts, error);
    if (status) {
        expect(!memcmp(events, unset, sizeof events) && !memcmp(&info, &no_info, sizeof info), "%s: a history",
               one->name);
        expect(counts.covered == 77 && counts.changed == 77 && counts.shown == 77, "%s: counts", one->name);
    }
    // A list may have no triangle.
    if (status == TRIRAST_STATUS_BAD_TRIANGLE) *error = (trirast_error){0}, status = TRIRAST_STATUS_OK;
    return status;
}

// One call in which this allocation fails, and its status: 0 image info, 1 the file, 2 its first tile row, 3 the
// history of a sample, 4 the samples of a triangle.
static trirast_status call_short_of_memory(int call, const list_case *one, marked *buffer, long number,
                                           int with_later) {
    trirast_error error = UNSET;
    trirast_image_info info;
    trirast_status status;
    heap.is_on = 1, heap.with_later = with_later, heap.failing_call = number;
    heap.calls = heap.failures = heap.live = 0;
    if (call == 0) status = trirast_list_info(one->list.bytes, one->list.length, &info, &error);
    else if (call > 2)
        status = ask(call, one, &error);
    else if (call == 1)
        status = trirast_list_draw(one->list.bytes, one->list.length, 16, buffer->bytes, buffer->size, &error);
    else
        status =
            trirast_list_draw_rows(one->list.bytes, one->list.length, 16, 0, 1, buffer->bytes, buffer->size, &error);
    heap.is_on = 0;
    expect(error.status == (uint32_t)status, "%s: another status in the error", one->name);
    expect(heap.live == 0, "%s, call %d, allocation %ld: %ld blocks were kept", one->name, call, number, heap.live);
    return status;
}

// Lets one allocation after another fail, until a round has none. Returns how many rounds ended out of memory.
static long fail_each(int call, const list_case *one, trirast_status due, int with_later) {
    long ended = 0;
    for (long number = 1;; number++) {
        marked buffer = mark(due ? 64 : one->wanted.length);
        trirast_status status = call_short_of_memory(call, one, &buffer, number, with_later);
        const char *wanted = one->wanted.bytes;
        size_t length = call && call < 3 && !status ? one->wanted.length : 0;
        if (call == 2) wanted += one->info.header_bytes, length = status ? 0 : offset_of(one, 16, 1);
        expect(holds_just(&buffer, wanted, length), "%s, call %d, allocation %ld: other bytes", one->name, call,
               number);
        expect(status == due || (status == TRIRAST_STATUS_OUT_OF_MEMORY && heap.failures),
               "%s, call %d, allocation %ld: status %u", one->name, call, number, status);
        free(buffer.all);
        ended += status == TRIRAST_STATUS_OUT_OF_MEMORY;
        if (!heap.failures) return ended;
    }
}

void compare_memory(void) {
    for (int with_later = 0; with_later < 2; with_later++) {
        long ended = 0;
        for (int call = 0; call < 5; call++) {
            for (int k = 0; k < drawn_count; k++) ended += fail_each(call, &drawn[k], TRIRAST_STATUS_OK, with_later);
            for (int k = 0; k < refused_count; k++)
                ended += fail_each(call, &refused[k], TRIRAST_STATUS_BAD_LIST, with_later);
        }
        expect(ended > 0, "no call was out of memory");
        report(with_later ? "each allocation fails with all after it: out of memory and an unchanged buffer"
                          : "each allocation fails in turn: out of memory and an unchanged buffer, or the picture");
    }
}
