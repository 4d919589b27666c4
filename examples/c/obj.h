/* Models of triangles: Wavefront OBJ files, and vectors in three dimensions. spin.c includes it. */
#ifndef OBJ_H
#define OBJ_H

#include <math.h>
#include <stdint.h>
#include <stdio.h>
#include <stdlib.h>
#include <string.h>

static void stop(const char *what, const char *why) {
    fprintf(stderr, "spin: %s: %s\n", what, why);
    exit(1);
}

/* Room for more elements behind those that are there: it doubles. */
static void *grown(void *array, size_t count, size_t size) {
    if (count & (count - 1)) return array;
    array = realloc(array, (count ? 2 * count : 1) * size);
    if (!array) stop("no memory", "out of memory");
    return array;
}

/* ---- Vectors ---- */

typedef struct {
    double x, y, z;
} vector;

static vector plus(vector a, vector b) { return (vector){a.x + b.x, a.y + b.y, a.z + b.z}; }
static vector times(vector a, double factor) { return (vector){a.x * factor, a.y * factor, a.z * factor}; }
static vector minus(vector a, vector b) { return plus(a, times(b, -1)); }
static double dot(vector a, vector b) { return a.x * b.x + a.y * b.y + a.z * b.z; }
static vector unit(vector a) { return times(a, 1 / fmax(sqrt(dot(a, a)), 1e-9)); }
static vector cross(vector a, vector b) {
    return (vector){a.y * b.z - a.z * b.y, a.z * b.x - a.x * b.z, a.x * b.y - a.y * b.x};
}

/* Turned about the upright axis. */
static vector turned(vector a, double turn) {
    return (vector){a.x * cos(turn) + a.z * sin(turn), a.y, a.z * cos(turn) - a.x * sin(turn)};
}

/* ---- The model ---- */

typedef struct {
    vector *points, *normals;
    size_t point_count;
    uint32_t *corners; /* three points a triangle, which run clockwise seen from outside */
    size_t corner_count;
} model;

/* A face of three points or more as a fan. It is counterclockwise in the file. */
static void add_face(model *read, char *words, const char *path) {
    long corners[3];
    int count = 0;
    for (char *word = strtok(words, " \t\r\n"); word; word = strtok(NULL, " \t\r\n"), count++) {
        long number = strtol(word, NULL, 10), index = number < 0 ? (long)read->point_count + number : number - 1;
        if (index < 0 || (size_t)index >= read->point_count) stop(path, "a face has a point that there is not");
        corners[count < 2 ? count : 2] = index;
        if (count < 2) continue;
        for (int k = 0; k < 3; k++) {
            read->corners = grown(read->corners, read->corner_count, sizeof *read->corners);
            read->corners[read->corner_count++] = (uint32_t)corners[k ? 3 - k : 0];
        }
        corners[1] = corners[2];
    }
}

/* Into the ball of radius 1 about the origin. */
static void fit(model *read) {
    vector low = read->points[0], high = low;
    for (size_t k = 0; k < read->point_count; k++) {
        vector point = read->points[k];
        low = (vector){fmin(low.x, point.x), fmin(low.y, point.y), fmin(low.z, point.z)};
        high = (vector){fmax(high.x, point.x), fmax(high.y, point.y), fmax(high.z, point.z)};
    }
    vector middle = times(plus(low, high), 0.5);
    double radius = 1e-9;
    for (size_t k = 0; k < read->point_count; k++) {
        read->points[k] = minus(read->points[k], middle);
        radius = fmax(radius, sqrt(dot(read->points[k], read->points[k])));
    }
    for (size_t k = 0; k < read->point_count; k++) read->points[k] = times(read->points[k], 1 / radius);
}

/* The normal of a point is the sum of those of its triangles, each as long as the triangle is large. */
static void add_normals(model *read) {
    read->normals = calloc(read->point_count, sizeof *read->normals);
    if (!read->normals) stop("no memory", "out of memory");
    for (size_t k = 0; k < read->corner_count; k += 3) {
        const uint32_t *corner = read->corners + k;
        vector a = read->points[corner[0]];
        vector normal = cross(minus(read->points[corner[2]], a), minus(read->points[corner[1]], a));
        for (int n = 0; n < 3; n++) read->normals[corner[n]] = plus(read->normals[corner[n]], normal);
    }
    for (size_t k = 0; k < read->point_count; k++) read->normals[k] = unit(read->normals[k]);
}

/* The middle of an edge, moved towards the planes that touch its ends, so that the edge becomes a curve. */
static void add_middle(model *made, uint32_t a, uint32_t b) {
    vector middle = times(plus(made->points[a], made->points[b]), 0.5);
    double over_a = dot(minus(middle, made->points[a]), made->normals[a]),
           over_b = dot(minus(middle, made->points[b]), made->normals[b]);
    vector moved = plus(times(made->normals[a], over_a), times(made->normals[b], over_b));
    made->normals[made->point_count] = unit(plus(made->normals[a], made->normals[b]));
    made->points[made->point_count++] = minus(middle, times(moved, 0.375));
}

/* Cuts each triangle into four. A middle of an edge is there for each of its triangles, and at the same place. */
static void refine(model *made) {
    size_t points = made->point_count + made->corner_count, corners = 4 * made->corner_count, next = 0;
    uint32_t *cut = malloc(corners * sizeof *cut);
    made->points = realloc(made->points, points * sizeof *made->points);
    made->normals = realloc(made->normals, points * sizeof *made->normals);
    if (!cut || !made->points || !made->normals) stop("no memory", "out of memory");
    for (size_t k = 0; k < made->corner_count; k += 3) {
        const uint32_t *corner = made->corners + k;
        uint32_t middle = (uint32_t)made->point_count;
        for (int n = 0; n < 3; n++) add_middle(made, corner[n], corner[(n + 1) % 3]);
        const uint32_t four[12] = {corner[0], middle, middle + 2, middle, corner[1], middle + 1,
                                   middle + 2, middle + 1, corner[2], middle, middle + 1, middle + 2};
        memcpy(cut + next, four, sizeof four), next += 12;
    }
    free(made->corners);
    made->corners = cut, made->corner_count = corners;
}

/* Reads the lines v and f of an OBJ file, and makes its surface smooth. */
static model read_model(const char *path) {
    model read = {NULL, NULL, 0, NULL, 0};
    char line[4096];
    FILE *file = fopen(path, "r");
    if (!file) stop(path, "it cannot be opened");
    while (fgets(line, sizeof line, file)) {
        vector point;
        if (!strncmp(line, "v ", 2)) {
            if (sscanf(line + 2, "%lf %lf %lf", &point.x, &point.y, &point.z) != 3)
                stop(path, "a point has three numbers");
            read.points = grown(read.points, read.point_count, sizeof *read.points);
            read.points[read.point_count++] = point;
        } else if (!strncmp(line, "f ", 2)) add_face(&read, line + 2, path);
    }
    fclose(file);
    if (!read.corner_count) stop(path, "it has no faces");
    fit(&read);
    add_normals(&read);
    refine(&read);
    return read;
}

#endif
