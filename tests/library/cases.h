// What the ways of the library's test share: comparisons, the cases of the manifest, and buffers between margins.
#ifndef CASES_H
#define CASES_H

#include <stddef.h>
#include <stdint.h>

#include "trirast.h"

enum { MARGIN = 64, MARK = 0xA5, MAX_CASES = 1024 };

typedef struct {
    char *bytes;
    size_t length;
} blob;

// The arrays of a list, which lie beside it as NAME.scene: its picture, and what is drawn on it.
typedef struct {
    uint32_t width, height, samples, output;
    trirast_clear clear;
    trirast_draw *draws;
    trirast_vertex *vertices;
    uint32_t *indices;
    trirast_batch batch;
} scene;

// A list with what the program made of it: a file, or a line where it was refused. A drawn one has its arrays too.
typedef struct {
    char name[2048];
    blob list, wanted;
    trirast_image_info info;
    scene arrays;
} list_case;

// A buffer between margins, all of it marked.
typedef struct {
    uint8_t *all, *bytes;
    size_t size;
} marked;

extern list_case drawn[MAX_CASES], refused[MAX_CASES];
extern int drawn_count, refused_count;

// What an error is before a call: no call reports it.
extern const trirast_error UNSET;

// Counts a comparison, and keeps the first that fails.
void expect(int holds, const char *format, ...);

// Prints the line of all comparisons since the last one.
void report(const char *what);

// The exit status: 1 once a line has failed.
int test_status(void);

// Ends the program: nothing can be compared.
_Noreturn void stop(const char *what, const char *name);

void read_manifest(const char *path);
void free_cases(void);

// The arrays of a file of 32-bit integers, in memory of their own. tests/library/lists.py writes the file.
scene read_arrays(const uint32_t *numbers);

marked mark(size_t size);

// Whether the buffer begins with these bytes, and the rest and the margins are unchanged.
int holds_just(const marked *buffer, const void *bytes, size_t length);

// Whether a call returned the status that was due, and wrote its error, which is in no draw but for a list or a batch.
int is_error(const trirast_error *error, trirast_status status, trirast_status due);

// The number of tile rows of a case's picture.
uint32_t rows_of(const list_case *one, uint32_t tile_size);

// The offset in bytes of a tile row's pixels among the picture's.
size_t offset_of(const list_case *one, uint32_t tile_size, uint32_t row);

// The way in which allocations fail, in memory.c.
void compare_memory(void);

// The way that draws on canvases, in canvases.c.
void compare_canvases(void);

// The way that draws a large batch, in large_batch.c.
void compare_large_batches(void);

// The way that asks for histories of samples, in histories.c.
void compare_histories(void);

// The way that measures the stack of each call, in stack.c.
void compare_stack(void);

// Asks for the history of a sample of a case, and for the samples of a triangle.
void ask_for_history(const list_case *one);

// Makes each call on a canvas of a case that has arrays.
void draw_on_canvas(const list_case *one);

#endif
