/* A textured cube that turns before a moving camera: triangles in clip space, and a shader that is called for eight
 * fragments at a time. Writes a frame to standard output as a PPM file. At the top of the repository:
 *
 *     make library
 *     cc -std=c99 -O2 -o cube examples/c/cube.c -Iinclude lib/libtrirast.a -lm
 *     ./cube 0.3 > cube.ppm            (how far the camera has gone: 0 to 1 is once round)
 */
#include <math.h>
#include <stdint.h>
#include <stdio.h>
#include <stdlib.h>

#include "trirast_shade.h"

enum { WIDTH = 400, HEIGHT = 300, SAMPLES = 4, CORNERS = 24, TRIANGLES = 12, NUMBERS = 3, SIDE = 64 };
/* What comes out of clipping: seven planes make at most this many corners of a triangle. */
enum { CUTS = TRIANGLES * TRIRAST_CLIP_MAX_CORNERS, VERTICES = CORNERS + CUTS };

/* Of each face four corners: where they are, texture coordinates, and how bright the face is. */
typedef struct {
    float x, y, z, u, v, light;
} corner;

static void make_cube(corner corners[CORNERS], uint32_t indices[3 * TRIANGLES]) {
    static const float lights[6] = {0.85f, 0.6f, 1.0f, 0.5f, 0.92f, 0.7f};
    static const uint32_t two[6] = {0, 1, 2, 0, 2, 3};
    for (uint32_t k = 0; k < CORNERS; k++) {
        const uint32_t face = k / 4, axis = face / 2;
        const float side = face % 2 ? -1.0f : 1.0f;
        const float u = k % 4 == 1 || k % 4 == 2 ? 1.0f : 0.0f, v = k % 4 > 1 ? 1.0f : 0.0f;
        float place[3];
        place[axis] = side, place[(axis + 1) % 3] = 2 * u - 1, place[(axis + 2) % 3] = side * (2 * v - 1);
        corners[k] = (corner){place[0], place[1], place[2], u, v, lights[face]};
    }
    for (uint32_t k = 0; k < 3 * TRIANGLES; k++) indices[k] = 4 * (k / 6) + two[k % 6];
}

/* Where the camera sees a point. It goes round the cube, up and down, and comes so near that the near plane, at which
 * z / w is 0, cuts a corner off. */
static trirast_clip_position seen_from_camera(const corner *at, double turn) {
    const double away = 2.6 + 1.3 * cos(3 * turn), high = 1.3 * sin(2 * turn), tilt = atan2(high, away);
    const double side = at->x * cos(turn) + at->z * sin(turn), ahead = away - (at->z * cos(turn) - at->x * sin(turn));
    const double up = at->y - high, distance = ahead * cos(tilt) - up * sin(tilt);
    const double height = up * cos(tilt) + ahead * sin(tilt), near = 0.1, far = 20, zoom = 1.5;
    return (trirast_clip_position){(float)(zoom * HEIGHT / WIDTH * side), (float)(zoom * height),
                                   (float)(far / (far - near) * (distance - near)), (float)distance};
}

/* What the shader looks up. */
typedef struct {
    uint8_t texels[SIDE][SIDE][3];
    trirast_shade_attributes attributes;
} scene;

static void make_texture(uint8_t texels[SIDE][SIDE][3]) {
    for (int y = 0; y < SIDE; y++)
        for (int x = 0; x < SIDE; x++) {
            const int check = (x / 8 + y / 8) % 2, rim = x < 4 || y < 4 || x >= SIDE - 4 || y >= SIDE - 4;
            texels[y][x][0] = rim ? 240 : check ? 236 : 150;
            texels[y][x][1] = rim ? 228 : check ? 150 : 60;
            texels[y][x][2] = rim ? 200 : check ? 60 : 40;
        }
}

/* The nearest texel, in the light of the face. */
static void shader(const trirast_shade_fragments *at, trirast_shade_colors *out, void *user) {
    const scene *given = user;
    float u[TRIRAST_SHADE_LANES], v[TRIRAST_SHADE_LANES], light[TRIRAST_SHADE_LANES];
    trirast_shade_value(&given->attributes, 0, at, at->weight, u);
    trirast_shade_value(&given->attributes, 1, at, at->weight, v);
    trirast_shade_value(&given->attributes, 2, at, at->weight, light);
    for (int k = 0; k < TRIRAST_SHADE_LANES; k++) {
        /* Weights are never negative, but may add up to a little more than 1. */
        const int x = (int)fminf(u[k] * SIDE, SIDE - 1), y = (int)fminf(v[k] * SIDE, SIDE - 1);
        const uint8_t *texel = given->texels[y][x];
        out->red[k] = light[k] * texel[0], out->green[k] = light[k] * texel[1], out->blue[k] = light[k] * texel[2];
    }
}

/* Draws the triangles by ids, and puts colours in their place. */
static trirast_status draw(trirast_canvas *canvas, const trirast_clipped *seen, scene *given) {
    static uint32_t entries[TRIRAST_TILE_ENTRIES(SAMPLES)];
    static trirast_shade_triangle triangles[CUTS];
    const trirast_clear white = {.red = 255, .green = 255, .blue = 255, .depth = 65535};
    const trirast_draw nearest = {.vertex_count = CORNERS + seen->cut_count, .index_count = 3 * seen->triangle_count,
                                  .depth_test = TRIRAST_DEPTH_LESS, .depth_write = 1};
    const trirast_batch batch = {.draws = &nearest, .draw_count = 1,
                                 .vertices = seen->vertices, .vertex_count = nearest.vertex_count,
                                 .indices = seen->indices, .index_count = nearest.index_count};
    const trirast_shade shade = {.triangles = triangles, .triangle_count = seen->triangle_count, .shader = shader,
                                 .user = given, .red = 24, .green = 24, .blue = 32};
    trirast_status status = trirast_canvas_clear(canvas, &white);
    trirast_shade_set_triangles(seen->vertices, seen->w, seen->indices, 0, seen->triangle_count, triangles);
    if (status == TRIRAST_STATUS_OK) status = trirast_canvas_draw_ids(canvas, &batch, 0, NULL);
    if (status == TRIRAST_STATUS_OK)
        status = trirast_shade_rows(canvas, &shade, entries, TRIRAST_TILE_ENTRIES(SAMPLES));
    return status;
}

int main(int count, char **words) {
    static trirast_vertex vertices[VERTICES];
    static float w[VERTICES], values[NUMBERS * VERTICES];
    static uint16_t marks[CORNERS];
    static trirast_clip_cut cuts[CUTS];
    static uint32_t corners_seen[3 * CUTS], sources[CUTS], indices[3 * TRIANGLES];
    static uint8_t pixels[HEIGHT * WIDTH * 3];
    static corner cube[CORNERS];
    static scene given;
    trirast_clip_position positions[CORNERS];
    const trirast_clip clip = {.width = WIDTH, .height = HEIGHT};
    trirast_clipped seen = {.vertices = vertices, .w = w, .marks = marks, .cuts = cuts, .indices = corners_seen,
                            .sources = sources, .cut_capacity = CUTS, .triangle_capacity = CUTS};
    trirast_canvas canvas = {.width = WIDTH, .height = HEIGHT, .samples = SAMPLES};
    const size_t size = trirast_canvas_size(&canvas);
    trirast_status status = trirast_canvas_init(&canvas, malloc(size), size);

    make_cube(cube, indices), make_texture(given.texels);
    for (int k = 0; k < CORNERS; k++) {
        positions[k] = seen_from_camera(&cube[k], 6.2831853 * (count > 1 ? atof(words[1]) : 0.3));
        values[NUMBERS * k] = cube[k].u, values[NUMBERS * k + 1] = cube[k].v, values[NUMBERS * k + 2] = cube[k].light;
    }
    /* The arrays are large enough for all that can come out, so the call does not return TRIRAST_CLIP_FULL. */
    if (trirast_clip_triangles(&clip, positions, CORNERS, indices, 3 * TRIANGLES, &seen)) return 1;
    trirast_shade_set_cuts(&seen, CORNERS, indices, NUMBERS, values);
    given.attributes = (trirast_shade_attributes){values, corners_seen, NUMBERS};
    if (status == TRIRAST_STATUS_OK) status = draw(&canvas, &seen, &given);
    if (status == TRIRAST_STATUS_OK)
        status = trirast_canvas_resolve(&canvas, TRIRAST_FORMAT_RGB8, pixels, sizeof pixels, 0);
    free(canvas.memory);
    if (status != TRIRAST_STATUS_OK) return fprintf(stderr, "cube: %s\n", trirast_status_string(status)), 1;
    printf("P6\n%d %d\n255\n", WIDTH, HEIGHT);
    return fwrite(pixels, 1, sizeof pixels, stdout) != sizeof pixels;
}
