/* A program that clips what it reads: the same source for the header in C and for the one in C++, which define
 * clip_task.
 *
 * A task on standard input is 10 integers of 32 bits, those of trirast_clip in their order, the number of positions and
 * that of indices; then the positions and the indices. The answer is four integers of 32 bits, the numbers of vertices,
 * cuts and triangles and the folded polygons, and the arrays. Numbers have the order of the machine. */
#ifndef FILTER_H
#define FILTER_H

#include <stdio.h>
#include <stdlib.h>

#include "trirast_clip.h"

typedef struct task {
    trirast_clip clip;
    trirast_clip_position *positions;
    uint32_t *indices;
    size_t position_count, index_count;
} task;

static void write_all(const void *data, size_t size, size_t count) {
    if (fwrite(data, size, count, stdout) != count) exit(1);
}

static void read_all(void *data, size_t size, size_t count) {
    if (fread(data, size, count, stdin) != count) exit(1);
}

/* Writes an answer. */
static void answer(const trirast_clipped *out, size_t position_count) {
    const uint32_t counts[4] = {(uint32_t)(position_count + out->cut_count), (uint32_t)out->cut_count,
                                (uint32_t)out->triangle_count, (uint32_t)out->folded};
    size_t k;
    write_all(counts, sizeof counts[0], 4);
    write_all(out->vertices, sizeof *out->vertices, counts[0]);
    write_all(out->w, sizeof *out->w, counts[0]);
    for (k = 0; k < out->cut_count; k++) write_all(&out->cuts[k].triangle, sizeof out->cuts[k].triangle, 1);
    for (k = 0; k < out->cut_count; k++) write_all(out->cuts[k].weights, sizeof out->cuts[k].weights, 1);
    write_all(out->indices, sizeof *out->indices, 3 * out->triangle_count);
    write_all(out->sources, sizeof *out->sources, out->triangle_count);
}

static void *memory_of(size_t count, size_t size) {
    void *found = calloc(count + 1, size);
    if (!found) exit(1);
    return found;
}

/* Clips a task and writes its answer. */
static void clip_task(const task *now);

int main(void) {
    int32_t numbers[10];
    while (fread(numbers, sizeof numbers[0], 10, stdin) == 10) {
        task now;
        now.clip.left = numbers[0], now.clip.top = numbers[1], now.clip.width = numbers[2],
        now.clip.height = numbers[3];
        now.clip.near_plane = (uint32_t)numbers[4], now.clip.sides = (uint32_t)numbers[5];
        now.clip.near_depth = (uint16_t)numbers[6], now.clip.far_depth = (uint16_t)numbers[7];
        now.position_count = (size_t)numbers[8], now.index_count = (size_t)numbers[9];
        now.positions = (trirast_clip_position *)memory_of(now.position_count, sizeof *now.positions);
        now.indices = (uint32_t *)memory_of(now.index_count, sizeof *now.indices);
        read_all(now.positions, sizeof *now.positions, now.position_count);
        read_all(now.indices, sizeof *now.indices, now.index_count);
        clip_task(&now);
        free(now.positions);
        free(now.indices);
    }
    return 0;
}

#endif
