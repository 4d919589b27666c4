// What the tests of canvases share: a canvas between margins, and a quad on one.
#ifndef CANVASES_H
#define CANVASES_H

#include "cases.h"

enum { WIDTH = 70, HEIGHT = 130, PIXELS = WIDTH * HEIGHT };

// A batch on a canvas with memory between margins.
typedef struct {
    trirast_clear clear;
    trirast_batch batch;
    trirast_canvas whole;
    marked memory;
} stage;

// A quad of white vertices, and a canvas of marked samples. The last vertex is named by no index.
typedef struct {
    trirast_draw draws[2];
    trirast_vertex vertices[5];
    uint32_t indices[4];
    stage made;
} quad;

void make_canvas(stage *made, uint32_t width, uint32_t height, uint32_t samples);
void make_quad(quad *all);

// Each number of samples a pixel, in samples.c.
void compare_samples(void);

// Colours of one sample index and of one tile, in shading.c.
void compare_shading(void);

// Fragments that are blended with one tile, in tile_blends.c.
void compare_tile_blends(void);

// Polygons, in polygons.c.
void compare_polygons(void);

// What each call refuses, in refused_canvases.c.
void compare_refused_canvases(void);

#endif
