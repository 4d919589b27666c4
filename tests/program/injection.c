// Makes allocations fail and threads not start, in the program that it is loaded into by LD_PRELOAD.
// tests/program/injection.py builds it, and asks in the environment:
//
//     REFUSE_ALLOCATION   the number of the allocation that fails, counted from 1
//     REFUSE_THREAD       the number of the thread that is not started, counted from 1
//     REFUSE_LATER        what else is refused after that: -1 is each later one of its kind, and K is the Kth
//                         allocation of the first thread, counted from there
//     TILE_BYTES          a malloc of this size is counted as one of a tile's pixels
//     REPORT              the file descriptor to which each refusal is reported, in one line; so is a thread that
//                         the system refuses
//
// 0 is none of them. A line has the refusal's number, whether the first thread was refused, and what was counted
// before it: the bytes written to standard output, the tiles that the first thread allocated, the threads that were
// started and that were joined, the allocations of the first thread since it last joined one, and how many of these
// there were at its last write.
#define _GNU_SOURCE
#include <dlfcn.h>
#include <errno.h>
#include <pthread.h>
#include <stdatomic.h>
#include <stddef.h>
#include <stdio.h>
#include <stdlib.h>
#include <unistd.h>

static long which_allocation, which_thread, later, tile_bytes, report_to;
static atomic_long allocations, threads, refusals, later_allocations;
static atomic_long written, tiles, started, joined, since_join, at_write;
static pthread_t first_thread;
static void *(*next_malloc)(size_t);
static void *(*next_realloc)(void *, size_t);
static void *(*next_aligned_alloc)(size_t, size_t);
static ssize_t (*next_write)(int, const void *, size_t);
static int (*next_join)(pthread_t, void **);
static int (*next_create)(pthread_t *, const pthread_attr_t *, void *(*)(void *), void *);

static long number_in(const char *name) {
    const char *text = getenv(name);
    return text ? atol(text) : 0;
}

__attribute__((constructor)) static void begin(void) {
    if (next_create) return;
    first_thread = pthread_self();
    next_malloc = (void *(*)(size_t))dlsym(RTLD_NEXT, "malloc");
    next_realloc = (void *(*)(void *, size_t))dlsym(RTLD_NEXT, "realloc");
    next_aligned_alloc = (void *(*)(size_t, size_t))dlsym(RTLD_NEXT, "aligned_alloc");
    next_write = (ssize_t (*)(int, const void *, size_t))dlsym(RTLD_NEXT, "write");
    next_join = (int (*)(pthread_t, void **))dlsym(RTLD_NEXT, "pthread_join");
    next_create =
        (int (*)(pthread_t *, const pthread_attr_t *, void *(*)(void *), void *))dlsym(RTLD_NEXT, "pthread_create");
    which_allocation = number_in("REFUSE_ALLOCATION");
    which_thread = number_in("REFUSE_THREAD");
    later = number_in("REFUSE_LATER");
    tile_bytes = number_in("TILE_BYTES");
    report_to = number_in("REPORT");
}

static int in_first_thread(void) { return pthread_equal(pthread_self(), first_thread) != 0; }

static void report(long number) {
    char line[256];
    int length = snprintf(line, sizeof line, "%ld %d %ld %ld %ld %ld %ld %ld\n", number, in_first_thread(), written,
                          tiles, started, joined, since_join, at_write);
    if (next_write((int)report_to, line, (size_t)length) != length) abort();
}

// Whether a call with this number is refused, where the number of the first one of its kind is asked
// for, and 0 if none is.
static int is_refused(long number, long first, int also) {
    if (number != first && !(first > 0 && later == -1 && number > first) && !also) return 0;
    report(atomic_fetch_add(&refusals, 1) + 1);
    return 1;
}

static int allocation_is_refused(void) {
    long number = atomic_fetch_add(&allocations, 1) + 1;
    int is_later =
        later > 0 && refusals > 0 && in_first_thread() && atomic_fetch_add(&later_allocations, 1) + 1 == later;
    if (is_refused(number, which_allocation, is_later)) {
        errno = ENOMEM;
        return 1;
    }
    if (in_first_thread()) atomic_fetch_add(&since_join, 1);
    return 0;
}

void *malloc(size_t size) {
    begin();
    if (allocation_is_refused()) return NULL;
    if ((long)size == tile_bytes && in_first_thread()) atomic_fetch_add(&tiles, 1);
    return next_malloc(size);
}

void *realloc(void *old, size_t size) {
    begin();
    return allocation_is_refused() ? NULL : next_realloc(old, size);
}

void *aligned_alloc(size_t align, size_t size) {
    begin();
    return allocation_is_refused() ? NULL : next_aligned_alloc(align, size);
}

// Counted as started before it runs, so that what the thread itself is refused comes after.
int pthread_create(pthread_t *thread, const pthread_attr_t *attributes, void *(*body)(void *), void *argument) {
    begin();
    if (is_refused(atomic_fetch_add(&threads, 1) + 1, which_thread, 0)) return EAGAIN;
    atomic_fetch_add(&started, 1);
    int status = next_create(thread, attributes, body, argument);
    if (status != 0) {
        atomic_fetch_sub(&started, 1);
        report(atomic_fetch_add(&refusals, 1) + 1);
    }
    return status;
}

int pthread_join(pthread_t thread, void **result) {
    begin();
    int status = next_join(thread, result);
    atomic_fetch_add(&joined, 1);
    atomic_store(&since_join, 0);
    return status;
}

ssize_t write(int to, const void *bytes, size_t count) {
    begin();
    ssize_t taken = next_write(to, bytes, count);
    if (to == STDOUT_FILENO && taken > 0) {
        atomic_fetch_add(&written, taken);
        atomic_store(&at_write, since_join);
    }
    return taken;
}
