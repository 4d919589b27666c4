// The arrays of a case, which lie beside its list as NAME.scene.
#include <stdlib.h>

#include "cases.h"

enum { HEAD = 11, DRAW = 13, VERTEX = 7 };

static void *taken(size_t count, size_t size) {
    void *memory = calloc(count + 1, size);
    if (!memory) stop("out of memory", "the arrays of a list");
    return memory;
}

static trirast_draw draw_of(const uint32_t *numbers) {
    trirast_draw draw = {.vertex_count = numbers[0], .index_count = numbers[1], .scissor_enable = 1};
    draw.topology = (uint8_t)numbers[2], draw.cull = (uint8_t)numbers[3], draw.depth_test = (uint8_t)numbers[4];
    draw.depth_write = (uint8_t)numbers[5], draw.keep = (uint8_t)numbers[7], draw.skip_samples = (uint16_t)numbers[8];
    if (numbers[6]) draw.blend = TRIRAST_BLEND_OVER;
    draw.scissor_left = (int32_t)numbers[9], draw.scissor_top = (int32_t)numbers[10];
    draw.scissor_right = (int32_t)numbers[11], draw.scissor_bottom = (int32_t)numbers[12];
    return draw;
}

static trirast_vertex vertex_of(const uint32_t *numbers) {
    return (trirast_vertex){.x = (int32_t)numbers[0], .y = (int32_t)numbers[1], .depth = (uint16_t)numbers[2],
                            .red = (uint8_t)numbers[3], .green = (uint8_t)numbers[4], .blue = (uint8_t)numbers[5],
                            .alpha = (uint8_t)numbers[6]};
}

scene read_arrays(const uint32_t *numbers) {
    const size_t draws = numbers[0], vertices = numbers[1], indices = numbers[2];
    const uint32_t *draw = numbers + HEAD, *vertex = draw + DRAW * draws, *index = vertex + VERTEX * vertices;
    scene read = {.width = numbers[3], .height = numbers[4], .samples = numbers[5], .output = numbers[6]};
    read.clear =
        (trirast_clear){(uint8_t)numbers[7], (uint8_t)numbers[8], (uint8_t)numbers[9], 0, (uint16_t)numbers[10], 0};
    read.draws = taken(draws, sizeof *read.draws), read.vertices = taken(vertices, sizeof *read.vertices);
    read.indices = taken(indices, sizeof *read.indices);
    for (size_t k = 0; k < draws; k++) read.draws[k] = draw_of(draw + DRAW * k);
    for (size_t k = 0; k < vertices; k++) read.vertices[k] = vertex_of(vertex + VERTEX * k);
    for (size_t k = 0; k < indices; k++) read.indices[k] = index[k];
    read.batch.draws = read.draws, read.batch.draw_count = draws;
    read.batch.vertices = read.vertices, read.batch.vertex_count = vertices;
    read.batch.indices = read.indices, read.batch.index_count = indices;
    // Without any index each draw would have its vertices in their order, where a list draws nothing.
    if (!indices) {
        for (size_t k = 0; k < draws; k++) read.draws[k].vertex_count = 0;
        read.batch.vertex_count = 0;
    }
    return read;
}
