// Measures how much stack each call touches, on a thread whose stack is marked.
#define _GNU_SOURCE
#include <pthread.h>
#include <stdio.h>
#include <stdlib.h>
#include <string.h>
#include <sys/mman.h>

#include "cases.h"

enum { STACK_SIZE = 1 << 23 };

// A case, and a buffer that is large enough for its file and for a line.
typedef struct {
    const list_case *one;
    marked buffer;
} task;

static void do_nothing(task *own) { (void)own; }

static void read_info(task *own) {
    trirast_image_info info;
    trirast_error error;
    trirast_list_info(own->one->list.bytes, own->one->list.length, &info, &error);
}

static void draw_file(task *own) {
    trirast_error error;
    trirast_list_draw(own->one->list.bytes, own->one->list.length, 64, own->buffer.bytes, own->buffer.size, &error);
}

static void draw_row(task *own) {
    trirast_error error;
    trirast_list_draw_rows(own->one->list.bytes, own->one->list.length, 64, 0, 1, own->buffer.bytes, own->buffer.size,
                           &error);
}

static void ask_why(task *own) { ask_for_history(own->one); }

static void use_canvas(task *own) {
    if (own->one->arrays.draws) draw_on_canvas(own->one);
}

static void write_message(task *own) {
    const trirast_error error = {TRIRAST_STATUS_BAD_BATCH, TRIRAST_BATCH_BAD_INDEX, SIZE_MAX - 1, SIZE_MAX - 1,
                                 UINT32_MAX};
    trirast_error_message(&error, (char *)own->buffer.bytes, own->buffer.size);
}

// Each call by its name in the header, with the bytes of stack that it says are enough.
static const struct {
    const char *name;
    void (*call)(task *own);
    size_t enough;
} CALLS[] = {
    {"no call", do_nothing, 16384},
    {"trirast_error_message", write_message, 16384},
    {"trirast_list_info", read_info, TRIRAST_STACK_TEXT},
    {"trirast_list_draw", draw_file, TRIRAST_STACK_TEXT},
    {"trirast_list_draw_rows", draw_row, TRIRAST_STACK_TEXT},
    {"trirast_list_history and trirast_list_triangle_samples", ask_why, TRIRAST_STACK_TEXT},
    {"trirast_canvas_*", use_canvas, TRIRAST_STACK},
};
enum { CALL_COUNT = sizeof CALLS / sizeof *CALLS };

typedef struct {
    void (*call)(task *own);
    task own;
} start;

static void *run(void *argument) {
    start *given = argument;
    given->call(&given->own);
    return NULL;
}

// How many bytes of stack a thread touched that made a call on a case.
static size_t stack_of(start *given) {
    uint8_t *stack = mmap(NULL, STACK_SIZE, PROT_READ | PROT_WRITE, MAP_PRIVATE | MAP_ANONYMOUS | MAP_STACK, -1, 0);
    pthread_attr_t attributes;
    pthread_t thread;
    if (stack == MAP_FAILED) stop("out of memory", "a stack");
    memset(stack, MARK, STACK_SIZE);
    pthread_attr_init(&attributes);
    pthread_attr_setstack(&attributes, stack, STACK_SIZE);
    if (pthread_create(&thread, &attributes, run, given)) stop("cannot be started", "a thread");
    pthread_join(thread, NULL);
    pthread_attr_destroy(&attributes);
    size_t untouched = 0;
    while (untouched < STACK_SIZE && stack[untouched] == MARK) untouched++;
    munmap(stack, STACK_SIZE);
    return STACK_SIZE - untouched;
}

void compare_stack(void) {
    for (int call = 0; call < CALL_COUNT; call++) {
        size_t most = 0;
        const char *where = "";
        for (int k = 0; k < drawn_count + refused_count; k++) {
            const list_case *one = k < drawn_count ? &drawn[k] : &refused[k - drawn_count];
            start given = {CALLS[call].call, {one, mark(one->wanted.length + 4096)}};
            size_t bytes = stack_of(&given);
            free(given.own.buffer.all);
            if (bytes > most) most = bytes, where = one->name;
        }
        printf("stack %zu bytes by %s, the most of %d lists, by %s\n", most, CALLS[call].name,
               drawn_count + refused_count, where);
        expect(most <= CALLS[call].enough, "%s: %zu bytes of stack, and %zu were enough", CALLS[call].name, most,
               CALLS[call].enough);
    }
    report("the stack that a thread touches is less than the header says");
}
