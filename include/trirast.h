/* trirast: draws triangles into memory, the same bytes as the program trirast writes. For C99 and later, and for C++.
 *
 *     1. trirast_canvas_* draw batch after batch of triangles, and polygons, over samples that stay in the caller's
 *        memory: docs/canvas.md, docs/polygons.md.
 *     2. trirast_list_* take a draw list, a JSON text (docs/draw-list.md): trirast_list_info gives the size of its
 *        picture's file, trirast_list_draw draws it, trirast_list_draw_rows a part of it, so that several threads share
 *        a picture, trirast_list_history says why a sample is what it is, and trirast_list_triangle_samples which
 *        samples a triangle has.
 *     3. trirast_edges_* give the edge functions of a triangle, with which a caller interpolates values of its own.
 *
 * Rules of every call:
 *
 * - Zero is the default. Each struct that a caller fills may begin as {0}, and a member that is left at zero means what
 *   most callers want. A struct_size of 0 is the struct as it is in this header; else it is the size that the caller
 *   knows, sizeof the struct.
 * - Memory. The caller owns all memory that it passes. A call keeps no pointer, and frees all that it allocates before
 *   it returns. It allocates by malloc, realloc and free; a program that replaces one of these replaces all three. The
 *   calls trirast_canvas_* and trirast_edges_* allocate nothing.
 * - NULL. An array is a pointer and a count of elements; if the count is 0, the pointer may be NULL, but of the indices
 *   of a batch that says that there are none: trirast_batch. `error` may be NULL, and so may each pointer of which the
 *   call's text says so. Every other pointer points to a valid object.
 * - Strides are in bytes: from the beginning of one element or row to that of the next. 0 is without a gap.
 * - Reading and writing. A call writes to its non-const pointers alone. The memory behind them must not overlap with
 *   any other memory that is passed to the same call, and no other thread may use it during the call.
 * - Threads. No call starts a thread or keeps a state, so any number of threads may call at once. No call may be made
 *   from a signal handler, or in the forked child of a process with threads.
 * - Stack. Who calls on a thread with less stack than a call needs may end the process. TRIRAST_STACK bytes are enough
 *   for each call, and TRIRAST_STACK_TEXT for one that reads a draw list. The calls that draw on a canvas need the
 *   first. This is measured with a margin, and not proved.
 *
 * Rules of every call that returns a trirast_status:
 *
 * - If the status is TRIRAST_STATUS_OK, the call did what its text says. The bytes of the buffer behind those that the
 *   text names are unchanged.
 * - Otherwise `*error` says why, if the call has one, and nothing else was written. The exception is
 *   trirast_polygons_measure, whose boxes are unspecified after an error of the polygons.
 * - Of several errors the first in this order is reported: TRIRAST_STATUS_BAD_STRUCT_SIZE,
 *   TRIRAST_STATUS_BAD_TILE_SIZE, TRIRAST_STATUS_INPUT_TOO_LONG, TRIRAST_STATUS_BAD_LIST, TRIRAST_STATUS_BAD_TILE_ROWS,
 *   TRIRAST_STATUS_BAD_PIXEL, TRIRAST_STATUS_BAD_SAMPLE, TRIRAST_STATUS_BAD_TRIANGLE, TRIRAST_STATUS_BUFFER_TOO_SMALL.
 *   TRIRAST_STATUS_OUT_OF_MEMORY is reported as soon as an allocation fails, which is tested and not proved; later
 *   checks are not made. The calls on a canvas have an order of their own, which stands there.
 *
 * Functions whose names begin with trirast_proved_ are those that are proved where the plain name is an inline function
 * over them: one that takes NULL or a stride, or that checks the size and the alignment of scratch memory. Call the
 * plain name; the library has it as a function too.
 */
#ifndef TRIRAST_H
#define TRIRAST_H

#include <stddef.h>
#include <stdint.h>

/* C++ need not warn of the casts of C in what is inline here. */
#if defined(__cplusplus) && defined(__GNUC__)
#pragma GCC diagnostic push
#pragma GCC diagnostic ignored "-Wold-style-cast"
#endif

#ifdef __cplusplus
extern "C" {
#endif

/* The release of this header, and the number of the interface that it describes. A library of a greater number has all
 * of it, in the same form. */
#define TRIRAST_VERSION_MAJOR 0
#define TRIRAST_VERSION_MINOR 1
#define TRIRAST_VERSION_PATCH 0
#define TRIRAST_VERSION_STRING "0.1.0"
#define TRIRAST_INTERFACE 2

/* Returns the release of the library, as "0.1.0". */
const char *trirast_version_string(void);

/* Returns the number of the library's interface: 2. */
uint32_t trirast_interface(void);

/* generated: stack */
/* Bytes of stack that are enough for each call: docs/reference/calls.md. */
#define TRIRAST_STACK 262144

/* Bytes of stack that are enough for a call that reads a draw list: docs/reference/calls.md. */
#define TRIRAST_STACK_TEXT 196608
/* end of stack */

/* No index: what the error names is not in a draw, or no element. */
#define TRIRAST_NONE SIZE_MAX

/* generated: message_size */
/* Bytes that are enough for each message of trirast_error_message with its zero byte. */
#define TRIRAST_ERROR_MESSAGE_SIZE 128
/* end of message_size */

/* ---- Errors ---- */

/* generated: errors */
/* What a call returns. */
typedef enum trirast_status {
    TRIRAST_STATUS_OK = 0,               /* done */
    TRIRAST_STATUS_BAD_LIST = 1,         /* the text is no draw list: `cause` and `draw` of the error say why and
                                          * where */
    TRIRAST_STATUS_INPUT_TOO_LONG = 2,   /* the draw list has more than 67,108,864 bytes */
    TRIRAST_STATUS_OUT_OF_MEMORY = 3,    /* `malloc` or `realloc` returned NULL */
    TRIRAST_STATUS_BUFFER_TOO_SMALL = 4, /* the buffer has fewer bytes than the call would write, or its rows are too
                                          * short */
    TRIRAST_STATUS_BAD_TILE_SIZE = 5,    /* the tile size is none of 8, 16, 32 and 64 */
    TRIRAST_STATUS_BAD_TILE_ROWS = 6,    /* the picture or the canvas has no such tile rows: the call says which it
                                          * takes */
    TRIRAST_STATUS_BAD_STRUCT_SIZE = 7,  /* a size member is neither 0 nor the library's own */
    TRIRAST_STATUS_BAD_CANVAS = 8,       /* no such canvas: the members of `trirast_canvas` say which sides, samples and
                                          * channels it has */
    TRIRAST_STATUS_BAD_MEMORY = 9,       /* the memory of the samples is not of the size that the tile rows need, NULL
                                          * or misaligned, or the canvas was never initialized */
    TRIRAST_STATUS_BAD_FORMAT = 10,      /* the number is not that of a format */
    TRIRAST_STATUS_BAD_SAMPLE = 11,      /* a pixel has no sample of this index: 0 to its samples less 1 */
    TRIRAST_STATUS_BAD_POSITION = 12,    /* a position is outside of -8388608 to 8388607 in 1/256 pixel, or an origin
                                          * outside of -32768 to 28672 pixels */
    TRIRAST_STATUS_BAD_PIXEL = 13,       /* the picture has no such pixel */
    TRIRAST_STATUS_BAD_TRIANGLE = 14,    /* the list has no such draw, or the draw no such triangle */
    TRIRAST_STATUS_BAD_BATCH = 15,       /* the batch cannot be drawn: `cause`, `draw` and `element` of the error say
                                          * why and where */
    TRIRAST_STATUS_BAD_STRIDE = 16,      /* a stride is too short, too long or no multiple of 4 bytes or of an entry, as
                                          * the call says; 0 is always right */
    TRIRAST_STATUS_BAD_TILE = 17,        /* the tile rows have no such tile */
    TRIRAST_STATUS_BAD_INDEX_SIZE = 18   /* an index has none of these sizes: 2 or 4 bytes */
} trirast_status;

/* Why a text is no draw list: the numbers and names of docs/draw-list.md. */
typedef enum trirast_list_cause {
    TRIRAST_LIST_NOT_JSON = 1,     /* the bytes are no JSON text */
    TRIRAST_LIST_UNKNOWN_KEY = 2,  /* a key that a list does not have */
    TRIRAST_LIST_MISSING_KEY = 3,  /* a key that a list must have is not there */
    TRIRAST_LIST_WRONG_KIND = 4,   /* a value of another kind, as a string instead of an integer */
    TRIRAST_LIST_OUT_OF_RANGE = 5, /* a number outside of its range */
    TRIRAST_LIST_BAD_INDEX = 6,    /* an index that names no vertex of its draw */
    TRIRAST_LIST_TOO_MANY = 7,     /* more elements than a list may have */
    /* 8 is running out of memory, which is a status here */
    TRIRAST_LIST_TWO_LISTS = 9,    /* a draw with two of triangles, strip and quads */
    TRIRAST_LIST_NOT_CONVEX = 10   /* a quad that is not strictly convex */
} trirast_list_cause;

/* Why a batch cannot be drawn. */
typedef enum trirast_batch_cause {
    TRIRAST_BATCH_TOO_FEW_VERTICES = 1,    /* fewer vertices are left than the draw has */
    TRIRAST_BATCH_TOO_FEW_INDICES = 2,     /* fewer indices are left than the draw has */
    TRIRAST_BATCH_BAD_STATE = 3,           /* not reported: 15 to 23 say which number is outside of its range */
    TRIRAST_BATCH_NOT_WHOLE = 4,           /* the indices of the draw, or without any its vertices, make no whole
                                            * triangles or quads */
    TRIRAST_BATCH_TOO_MANY_IDS = 5,        /* the id of a triangle or a polygon would be greater than 16,777,215 */
    TRIRAST_BATCH_BAD_INDEX = 6,           /* an index, which is the error's value, is not less than the draw's
                                            * `vertex_count`; element: the index */
    TRIRAST_BATCH_BAD_POSITION = 7,        /* a vertex that an index names, or a corner, is outside of -8388608 to
                                            * 8388607 in 1/256 pixel, on the screen or as seen from the canvas's origin;
                                            * element: the vertex or corner */
    TRIRAST_BATCH_NOT_CONVEX = 8,          /* a quad is not strictly convex; element: the quad */
    TRIRAST_BATCH_LEFT_OVER = 9,           /* a vertex or an index is in no draw, or a corner or a ring is in no
                                            * polygon */
    TRIRAST_BATCH_TOO_MANY_CORNERS = 10,   /* polygons have 2^32 corners or more */
    TRIRAST_BATCH_BAD_RING = 11,           /* a ring ends before it begins, or behind the last corner; element: the
                                            * ring */
    TRIRAST_BATCH_BAD_POLYGON = 12,        /* a polygon ends before it begins, or behind the last ring; element: the
                                            * polygon */
    TRIRAST_BATCH_TOO_FEW_COLORS = 13,     /* there are fewer colours than polygons */
    TRIRAST_BATCH_TOO_FEW_DEPTHS = 14,     /* there are depths, but fewer than polygons */
    TRIRAST_BATCH_BAD_TOPOLOGY = 15,       /* `topology` is not the number of a topology */
    TRIRAST_BATCH_BAD_CULL = 16,           /* `cull` is not the number of a culling */
    TRIRAST_BATCH_BAD_DEPTH_TEST = 17,     /* `depth_test` is not the number of a depth test */
    TRIRAST_BATCH_BAD_DEPTH_WRITE = 18,    /* `depth_write` is neither 0 nor 1 */
    TRIRAST_BATCH_BAD_KEEP = 19,           /* a bit of `keep` is not that of a channel */
    TRIRAST_BATCH_BAD_SCISSOR_ENABLE = 20, /* `scissor_enable` is neither 0 nor 1 */
    TRIRAST_BATCH_BAD_FACTOR = 21,         /* a factor of `blend` is not the number of a factor */
    TRIRAST_BATCH_BAD_OPERATION = 22,      /* an operation of `blend` is not the number of an operation */
    TRIRAST_BATCH_BAD_FILL_RULE = 23,      /* `fill_rule` is not the number of a fill rule */
    TRIRAST_BATCH_TOO_FEW_BOXES = 24       /* there are boxes, but fewer than polygons */
} trirast_batch_cause;
/* end of errors */

/* Why a call failed. */
typedef struct trirast_error {
    uint32_t status; /* the trirast_status that the call returned */
    uint32_t cause;  /* a trirast_list_cause or a trirast_batch_cause if the status is one of a list or
                      * of a batch, else 0 */
    size_t draw;     /* the index of the draw in which the error is, from 0; TRIRAST_NONE if it is in none */
    size_t element;  /* which one of the draw's indices, vertices or quads it is, or of the polygons' corners, rings or
                      * polygons, from 0: the cause says of which. TRIRAST_NONE if it is none */
    size_t value;    /* the index itself if the cause is TRIRAST_BATCH_BAD_INDEX, else TRIRAST_NONE */
} trirast_error;

/* Returns a string for a status, without a line feed, as "out of memory".
 *
 * @status: what a call returned. For any other number the string is "unknown status". */
inline const char *trirast_status_string(trirast_status status) {
    switch (status) {
    /* generated: strings */
    case TRIRAST_STATUS_OK: return "ok";
    case TRIRAST_STATUS_BAD_LIST: return "not a draw list";
    case TRIRAST_STATUS_INPUT_TOO_LONG: return "input too long";
    case TRIRAST_STATUS_OUT_OF_MEMORY: return "out of memory";
    case TRIRAST_STATUS_BUFFER_TOO_SMALL: return "buffer too small";
    case TRIRAST_STATUS_BAD_TILE_SIZE: return "no such tile size";
    case TRIRAST_STATUS_BAD_TILE_ROWS: return "no such tile rows";
    case TRIRAST_STATUS_BAD_STRUCT_SIZE: return "wrong struct size";
    case TRIRAST_STATUS_BAD_CANVAS: return "no such canvas";
    case TRIRAST_STATUS_BAD_MEMORY: return "wrong memory";
    case TRIRAST_STATUS_BAD_FORMAT: return "no such format";
    case TRIRAST_STATUS_BAD_SAMPLE: return "no such sample";
    case TRIRAST_STATUS_BAD_POSITION: return "position out of range";
    case TRIRAST_STATUS_BAD_PIXEL: return "no such pixel";
    case TRIRAST_STATUS_BAD_TRIANGLE: return "no such triangle";
    case TRIRAST_STATUS_BAD_BATCH: return "wrong batch";
    case TRIRAST_STATUS_BAD_STRIDE: return "wrong stride";
    case TRIRAST_STATUS_BAD_TILE: return "no such tile";
    case TRIRAST_STATUS_BAD_INDEX_SIZE: return "no such index size";
    /* end of strings */
    }
    return "unknown status";
}

/* Writes a line that says what went wrong, without a line feed and with a zero byte behind it, or as much of it as
 * fits: "out of memory", "draw 3: index 17 is 9, which is not less than the number of vertices", where 17 is the place
 * and 9 the value, or "list fault 6 BadIndex in draw 1". So the habits are those of snprintf.
 *
 * @error: what a call wrote; not NULL.
 * @buffer: where the line goes. Bytes behind its zero byte are unchanged.
 * @size: the bytes of the buffer. If it is not 0, at most size bytes are written, of which the last one is zero.
 *
 * Returns the length of the whole line in bytes, without its zero byte: less than TRIRAST_ERROR_MESSAGE_SIZE. */
size_t trirast_error_message(const trirast_error *error, char *buffer, size_t size);

/* ---- What is drawn: draws with their vertices and indices ---- */

/* generated: states */
/* What the indices of a draw are, or without any its vertices in their order. */
typedef enum trirast_topology {
    TRIRAST_TOPOLOGY_TRIANGLES = 0, /* three indices each */
    TRIRAST_TOPOLOGY_STRIP = 1,     /* a triangle strip: docs/rules.md, Order; fewer than three indices are none */
    TRIRAST_TOPOLOGY_QUADS = 2      /* strictly convex quads, four indices each */
} trirast_topology;

/* Which triangles are dropped. Front-facing ones run clockwise as they are seen on the screen: y goes down there, and
 * (bx - ax) * (cy - ay) - (by - ay) * (cx - ax) is above 0. Where y goes up, as in trirast_clip.h, that number of the
 * same triangles is below 0. If the outer sides of a model run counter-clockwise, as in OBJ files and OpenGL,
 * TRIRAST_CULL_FRONT drops the inner sides, and TRIRAST_CULL_BACK the outer ones. */
typedef enum trirast_cull {
    TRIRAST_CULL_NONE = 0,
    TRIRAST_CULL_FRONT = 1, /* front-facing ones */
    TRIRAST_CULL_BACK = 2   /* those that run anticlockwise */
} trirast_cull;

/* When the new depth passes its test against the stored one: the numbers of D3D11_COMPARISON_FUNC, but 0 in place of
 * 8. */
typedef enum trirast_depth_test {
    TRIRAST_DEPTH_ALWAYS = 0,
    TRIRAST_DEPTH_NEVER = 1,
    TRIRAST_DEPTH_LESS = 2,         /* the new depth is less */
    TRIRAST_DEPTH_EQUAL = 3,        /* both are equal */
    TRIRAST_DEPTH_LESS_EQUAL = 4,   /* the new depth is less or equal */
    TRIRAST_DEPTH_GREATER = 5,      /* the new depth is greater */
    TRIRAST_DEPTH_NOT_EQUAL = 6,    /* both differ */
    TRIRAST_DEPTH_GREATER_EQUAL = 7 /* the new depth is greater or equal */
} trirast_depth_test;

/* Channels that a draw keeps as they are stored. Each is a bit. */
typedef enum trirast_keep {
    TRIRAST_KEEP_RED = 1,
    TRIRAST_KEEP_GREEN = 2,
    TRIRAST_KEEP_BLUE = 4,
    TRIRAST_KEEP_ALPHA = 8
} trirast_keep;

/* What a blend equation multiplies a term by: the numbers of D3D11_BLEND. Channels are 0 to 255, of which 255 is one; s
 * is the new channel and a the new alpha, d the stored channel and e the stored alpha, 255 on a canvas without alpha;
 * in the equation of alpha s is a, and d is e. */
typedef enum trirast_factor {
    TRIRAST_FACTOR_DEFAULT = 0,                 /* ONE for the new colour, ZERO for the stored one */
    TRIRAST_FACTOR_ZERO = 1,                    /* 0 */
    TRIRAST_FACTOR_ONE = 2,                     /* 255 */
    TRIRAST_FACTOR_SOURCE_COLOR = 3,            /* s */
    TRIRAST_FACTOR_INVERSE_SOURCE_COLOR = 4,    /* 255 - s */
    TRIRAST_FACTOR_SOURCE_ALPHA = 5,            /* a */
    TRIRAST_FACTOR_INVERSE_SOURCE_ALPHA = 6,    /* 255 - a */
    TRIRAST_FACTOR_STORED_ALPHA = 7,            /* e */
    TRIRAST_FACTOR_INVERSE_STORED_ALPHA = 8,    /* 255 - e */
    TRIRAST_FACTOR_STORED_COLOR = 9,            /* d */
    TRIRAST_FACTOR_INVERSE_STORED_COLOR = 10,   /* 255 - d */
    TRIRAST_FACTOR_SOURCE_ALPHA_SATURATED = 11, /* min(a, 255 - e); for alpha 255 */
    TRIRAST_FACTOR_CONSTANT = 14,               /* the constant's channel */
    TRIRAST_FACTOR_INVERSE_CONSTANT = 15        /* 255 less that */
} trirast_factor;

/* How a blend equation combines its terms, f = s by its factor and g = d by its factor: the numbers of D3D11_BLEND_OP,
 * and 0 for ADD. The new channel is the q with 255 q <= x + 127 < 255 (q + 1), at least 0 and at most 255. */
typedef enum trirast_operation {
    TRIRAST_OPERATION_DEFAULT = 0,          /* as ADD */
    TRIRAST_OPERATION_ADD = 1,              /* x = f + g */
    TRIRAST_OPERATION_SUBTRACT = 2,         /* x = f - g */
    TRIRAST_OPERATION_REVERSE_SUBTRACT = 3, /* x = g - f */
    TRIRAST_OPERATION_MIN = 4,              /* the lesser of s and d, without factors */
    TRIRAST_OPERATION_MAX = 5               /* the greater of s and d, without factors */
} trirast_operation;
/* end of states */

/* What the new colour does to the stored one. {0}: it replaces it. */
typedef struct trirast_blend {
    uint8_t color_source;    /* a trirast_factor: what the new colour is multiplied by */
    uint8_t color_stored;    /* a trirast_factor: what the stored colour is multiplied by */
    uint8_t color_operation; /* a trirast_operation */
    uint8_t alpha_source;    /* a trirast_factor: what the new alpha is multiplied by */
    uint8_t alpha_stored;    /* a trirast_factor: what the stored alpha is multiplied by */
    uint8_t alpha_operation; /* a trirast_operation */
    uint8_t constant[4];     /* red, green, blue, alpha */
} trirast_blend;

/* Equations with names of their own, as values: draw.blend = TRIRAST_BLEND_OVER; In C such a value is no constant: a
 * struct of static storage gets it by an assignment. */
#ifdef __cplusplus
#define TRIRAST_BLEND_VALUE trirast_blend
#else
#define TRIRAST_BLEND_VALUE (trirast_blend)
#endif
/* The new colour replaces the stored one. */
#define TRIRAST_BLEND_NONE TRIRAST_BLEND_VALUE{0, 0, 0, 0, 0, 0, {0, 0, 0, 0}}
/* The new colour over the stored one by its alpha: "over" of draw lists. */
#define TRIRAST_BLEND_OVER \
    TRIRAST_BLEND_VALUE{TRIRAST_FACTOR_SOURCE_ALPHA, TRIRAST_FACTOR_INVERSE_SOURCE_ALPHA, TRIRAST_OPERATION_ADD, \
                        TRIRAST_FACTOR_ONE, TRIRAST_FACTOR_INVERSE_SOURCE_ALPHA, TRIRAST_OPERATION_ADD, {0, 0, 0, 0}}
/* The new colour, which is multiplied by its alpha already, over the stored one. */
#define TRIRAST_BLEND_PREMULTIPLIED \
    TRIRAST_BLEND_VALUE{TRIRAST_FACTOR_ONE, TRIRAST_FACTOR_INVERSE_SOURCE_ALPHA, TRIRAST_OPERATION_ADD, \
                        TRIRAST_FACTOR_ONE, TRIRAST_FACTOR_INVERSE_SOURCE_ALPHA, TRIRAST_OPERATION_ADD, {0, 0, 0, 0}}
/* The new colour, multiplied by its alpha, is added to the stored one. */
#define TRIRAST_BLEND_ADD \
    TRIRAST_BLEND_VALUE{TRIRAST_FACTOR_SOURCE_ALPHA, TRIRAST_FACTOR_ONE, TRIRAST_OPERATION_ADD, \
                        TRIRAST_FACTOR_ONE, TRIRAST_FACTOR_ONE, TRIRAST_OPERATION_ADD, {0, 0, 0, 0}}
/* The product of both. */
#define TRIRAST_BLEND_MULTIPLY \
    TRIRAST_BLEND_VALUE{TRIRAST_FACTOR_STORED_COLOR, TRIRAST_FACTOR_ZERO, TRIRAST_OPERATION_ADD, \
                        TRIRAST_FACTOR_STORED_COLOR, TRIRAST_FACTOR_ZERO, TRIRAST_OPERATION_ADD, {0, 0, 0, 0}}
/* The stored colour is left. */
#define TRIRAST_BLEND_KEEP \
    TRIRAST_BLEND_VALUE{TRIRAST_FACTOR_ZERO, TRIRAST_FACTOR_ONE, TRIRAST_OPERATION_ADD, \
                        TRIRAST_FACTOR_ZERO, TRIRAST_FACTOR_ONE, TRIRAST_OPERATION_ADD, {0, 0, 0, 0}}

/* A vertex: 16 bytes. */
typedef struct trirast_vertex {
    int32_t x;       /* to the right, in 1/256 pixel of the screen: -8388608 to 8388607 */
    int32_t y;       /* downwards, in 1/256 pixel of the screen: -8388608 to 8388607 */
    uint16_t depth;  /* 0 is nearest */
    uint8_t red;
    uint8_t green;
    uint8_t blue;
    uint8_t alpha;   /* 255 is opaque */
    uint16_t unused; /* not read */
} trirast_vertex;

/* One draw of a batch. {0} draws triangles everywhere, without a depth test, and replaces what is stored. */
typedef struct trirast_draw {
    size_t vertex_count;    /* its vertices, which follow those of the draws before it */
    size_t index_count;     /* its indices, which follow those of the draws before it */
    uint8_t topology;       /* a trirast_topology */
    uint8_t cull;           /* a trirast_cull */
    uint8_t depth_test;     /* a trirast_depth_test */
    uint8_t depth_write;    /* 1 if the new depth is stored if it passes the test, else 0 */
    uint8_t keep;           /* every trirast_keep that is not written, added */
    uint8_t scissor_enable; /* 1 if the scissor is looked at, else 0 */
    uint16_t skip_samples;  /* bit s is 1 if sample s is not drawn. Bits past a pixel's samples are not looked at */
    int32_t scissor_left;   /* the pixels of the screen that are drawn, right and bottom outside */
    int32_t scissor_top;
    int32_t scissor_right;
    int32_t scissor_bottom;
    trirast_blend blend;    /* what the new colour does to the stored one */
} trirast_draw;

/* generated: stride */
/* The greatest vertex_stride: D3D11_REQ_MULTI_ELEMENT_STRUCTURE_SIZE_IN_BYTES. */
#define TRIRAST_MAX_STRIDE 2048
/* end of stride */

/* Draws with their vertices and indices. If draw_count is 0, they are one draw of {0} with all vertices and indices. */
typedef struct trirast_batch {
    uint32_t struct_size;   /* 0 or sizeof(trirast_batch) */
    uint32_t vertex_stride; /* bytes from a vertex to the next, a multiple of 4 from 16 to
                             * TRIRAST_MAX_STRIDE; 0 is 16 */
    uint32_t index_size;    /* bytes of an index: 2 or 4; 0 is 4 */
    const trirast_draw *draws; /* in the order in which they are drawn */
    size_t draw_count;
    const void *vertices;   /* trirast_vertex, of all draws, one draw's after another's; aligned to 4. With
                             * a vertex_stride each lies in the 16 bytes at its index times that, and
                             * nothing else is read */
    size_t vertex_count;
    const void *indices;    /* uint32_t or uint16_t by index_size, of all draws, one draw's after another's; 0 is
                             * the first vertex of the draw. NULL if there are none at all: each draw has its
                             * vertices in their order */
    size_t index_count;
} trirast_batch;

/* If indices is NULL and index_count is 0, each draw is of its vertices in their order, and its own index_count has to
 * be 0: else it is TRIRAST_BATCH_TOO_FEW_INDICES. So whoever has indices, but in this batch none, as behind clipping,
 * passes a pointer that is not NULL, or no vertices: then nothing is drawn. A draw without indices in a batch that has
 * some draws nothing. */

/* A batch as the functions that are proved take it. trirast_canvas_draw makes it of its caller's. */
typedef struct trirast_proved_batch {
    uint32_t struct_size;   /* of the caller's trirast_batch */
    uint32_t vertex_stride;
    uint32_t index_size;
    uint32_t in_order;      /* 0 if there are indices; else each draw has its vertices in their order */
    const trirast_draw *draws;
    size_t draw_count;
    const void *vertices;      /* trirast_vertex; none if vertex_stride is neither 0 nor 16 */
    size_t vertex_count;
    const void *strided;       /* the bytes in which the vertices lie; none if vertex_stride is 0 or 16 */
    size_t strided_size;
    size_t vertex_total;       /* of the caller's trirast_batch: unless as many lie there, the batch is
                                * TRIRAST_BATCH_LEFT_OVER */
    const void *indices;       /* uint32_t; none if index_size is 2 */
    size_t index_count;
    const void *short_indices; /* uint16_t; none if index_size is not 2 */
    size_t short_index_count;
} trirast_proved_batch;

inline trirast_proved_batch trirast_proved_batch_of(const trirast_batch *batch) {
    const int is_short = batch->index_size == 2;
    const size_t stride = batch->vertex_stride;
    const int is_packed = stride == 0 || stride == sizeof(trirast_vertex);
    const int is_strided = stride > sizeof(trirast_vertex) && stride <= TRIRAST_MAX_STRIDE && stride % 4 == 0;
    const size_t step = is_strided ? stride : sizeof(trirast_vertex);
    /* No object has more bytes than half of all addresses. Vertices that would are not passed on: their bytes, as a
     * size_t, may be few. */
    const size_t count = batch->vertex_count <= (size_t)-1 / 2 / step ? batch->vertex_count : 0;
    const size_t packed = is_packed ? count : 0;
    /* The last vertex has its 16 bytes, and none behind them. */
    const size_t size = is_strided && count ? (count - 1) * stride + sizeof(trirast_vertex) : 0;
    const trirast_proved_batch proved = {
        batch->struct_size, batch->vertex_stride, batch->index_size, batch->indices || batch->index_count ? 0u : 1u,
        batch->draws, batch->draw_count, packed ? batch->vertices : NULL, packed,
        size ? batch->vertices : NULL, size, batch->vertex_count,
        is_short ? NULL : batch->indices, is_short ? 0 : batch->index_count,
        is_short ? batch->indices : NULL, is_short ? batch->index_count : 0};
    return proved;
}

/* ---- Canvases: samples that stay in the caller's memory ---- */

/* The tile rows of a canvas, or some of them, with the memory of their samples. Begin with {0}, set width and height,
 * and call trirast_canvas_size and trirast_canvas_init. A tile row has TRIRAST_TILE_SIZE rows of pixels, the last one
 * those that are left.
 *
 * During a call that clears, loads or draws, no other thread may touch the samples of these tile rows. So threads that
 * share a canvas each pass a struct of their own with a piece of it (trirast_canvas_split), and may then call at once:
 * two pieces without a tile row in common have no memory in common. They may share a batch as long as nobody writes to
 * it. trirast_canvas_resolve, trirast_canvas_depths and trirast_canvas_ids only read samples: they may run at once on
 * the same tile rows, each with a buffer of its own.
 *
 * A canvas is a window on the screen: pixel (x, y) of the canvas is pixel (x + origin_x, y + origin_y) of the screen.
 * Positions and scissors are those of the screen, and the canvas shows what lies there, sample by sample.
 *
 * The samples of a pixel lie in the standard patterns of Direct3D 11: docs/rules.md. */
typedef struct trirast_canvas {
    uint32_t struct_size; /* 0 or sizeof(trirast_canvas) */
    uint32_t width;       /* of the whole canvas, in pixels: 1 to 4096 */
    uint32_t height;      /* of the whole canvas, in pixels: 1 to 4096 */
    uint32_t samples;     /* samples of a pixel: TRIRAST_SAMPLE_COUNTS; 0 for 1 */
    uint32_t channels;    /* 3, without alpha; 0 for 3; 4, with alpha */
    int32_t origin_x;     /* the pixel of the screen at which the upper left one of the canvas lies; 0,
                           * 0 without a window */
    int32_t origin_y;
    uint32_t first;       /* the first of these tile rows. trirast_canvas_init sets this and what follows,
                           * for the whole canvas */
    uint32_t end;         /* the tile row behind the last one */
    uint32_t initialized; /* 1 once trirast_canvas_init gave the canvas its memory */
    void *memory;         /* the samples of these tile rows. Their layout is not specified. Clear them before the first
                           * draw: till then they are unspecified */
    size_t plane_count;   /* the size of the memory in units of TRIRAST_PLANE_BYTES */
} trirast_canvas;

/* generated: samples */
/* The numbers of samples that a pixel of a canvas may have, for messages. */
#define TRIRAST_SAMPLE_COUNTS "1, 2, 4, 8 or 16"

/* Where they lie, of the least number first: an array of structs {uint32_t samples; signed char places[16][2];}
 * is set by {TRIRAST_SAMPLE_PATTERNS}. A place is how far right of the pixel's centre and below it a sample
 * lies, in 1/16 pixel. */
#define TRIRAST_SAMPLE_PATTERNS \
    {1, {{0, 0}}}, \
    {2, {{4, 4}, {-4, -4}}}, \
    {4, {{-2, -6}, {6, -2}, {-6, 2}, {2, 6}}}, \
    {8, {{1, -3}, {-1, 3}, {5, 1}, {-3, -5}, {-5, 5}, {-7, -1}, {3, 7}, {7, -7}}}, \
    {16, {{1, 1}, {-1, -3}, {-3, 2}, {4, -1}, {-5, -2}, {2, 5}, {5, 3}, {3, -5}, {-2, 6}, {0, -7}, {-4, -6}, \
          {-6, 4}, {-8, 0}, {7, -4}, {6, 7}, {-7, -8}}}
/* end of samples */

/* generated: sizes */
/* The width and height of a tile of a canvas, in pixels. */
#define TRIRAST_TILE_SIZE 64

/* Bytes of one sample index over a block of 8 by 8 pixels, 64 samples of 6 bytes: the unit of a canvas's memory. A
 * canvas without alpha has room for it too, which is 255 once it was cleared or loaded. */
#define TRIRAST_PLANE_BYTES 384
/* end of sizes */

/* Returns the bytes of the samples of a whole canvas, by struct_size, width, height, samples and channels alone.
 * Returns 0 if there is no such canvas. The bytes are a multiple of 64. A tile takes (1 + 65 * samples) *
 * TRIRAST_PLANE_BYTES bytes, so the largest canvas takes 104 MB with one sample, 206 MB with 2, 411 MB with 4, 819 MB
 * with 8 and 1.64 GB with 16. */
size_t trirast_canvas_size(const trirast_canvas *canvas);

/* Returns the number of tile rows of a whole canvas: height / TRIRAST_TILE_SIZE, rounded up. Returns 0 if there is no
 * such canvas. */
uint32_t trirast_canvas_tile_rows(const trirast_canvas *canvas);

/* Gives a canvas its memory: sets first, end, initialized, memory and plane_count, for the whole canvas.
 *
 * @canvas: of which struct_size, width, height, samples, channels and the origin are set.
 * @memory: the samples: aligned to 2; aligned to 64 is faster.
 * @size: its bytes: at least trirast_canvas_size(canvas).
 *
 * Returns TRIRAST_STATUS_OK; TRIRAST_STATUS_BAD_CANVAS if there is no such canvas or its struct_size is wrong; or
 * TRIRAST_STATUS_BAD_MEMORY if the memory is NULL, misaligned or too small. */
inline trirast_status trirast_canvas_init(trirast_canvas *canvas, void *memory, size_t size) {
    const size_t needed = trirast_canvas_size(canvas);
    if (needed == 0) return TRIRAST_STATUS_BAD_CANVAS;
    if (!memory || (uintptr_t)memory % 2 != 0 || size < needed) return TRIRAST_STATUS_BAD_MEMORY;
    canvas->first = 0;
    canvas->end = trirast_canvas_tile_rows(canvas);
    canvas->initialized = 1;
    canvas->memory = memory;
    canvas->plane_count = needed / TRIRAST_PLANE_BYTES;
    return TRIRAST_STATUS_OK;
}

/* Checks of every call on a canvas, of which the first that fails is reported: TRIRAST_STATUS_BAD_STRUCT_SIZE,
 * TRIRAST_STATUS_BAD_CANVAS, TRIRAST_STATUS_BAD_TILE_ROWS if first is greater than end, or end is greater than
 * the number of tile rows, TRIRAST_STATUS_BAD_MEMORY if trirast_canvas_init was never called, or plane_count is not
 * exactly as great as these tile rows need. Then come those that the call's own text names. `first` may be `end`: then
 * there are no samples, and memory may be NULL. */

/* Makes a struct for some of the tile rows of another. The piece has no memory of its own: it is a part of the whole's.
 *
 * @whole: some tile rows of a canvas.
 * @first, @end: the tile rows of the piece: from first to before end.
 * @piece: where the struct goes.
 *
 * Returns TRIRAST_STATUS_OK; TRIRAST_STATUS_BAD_CANVAS if there is no such canvas or its struct_size is wrong;
 * TRIRAST_STATUS_BAD_TILE_ROWS if the whole lacks one of the tile rows; or TRIRAST_STATUS_BAD_MEMORY, as every call on
 * the whole, and also if its memory is NULL or not aligned to 2, which no other call can see. */
inline trirast_status trirast_canvas_split(const trirast_canvas *whole, uint32_t first, uint32_t end,
                                           trirast_canvas *piece) {
    const uint32_t rows = trirast_canvas_tile_rows(whole);
    size_t row; /* planes of a tile row */
    if (rows == 0) return TRIRAST_STATUS_BAD_CANVAS;
    if (first < whole->first || first > end || end > whole->end || whole->end > rows)
        return TRIRAST_STATUS_BAD_TILE_ROWS;
    row = trirast_canvas_size(whole) / TRIRAST_PLANE_BYTES / rows;
    if (whole->initialized != 1 || whole->plane_count != (whole->end - whole->first) * row)
        return TRIRAST_STATUS_BAD_MEMORY;
    if (row != 0 && whole->plane_count != 0 && (!whole->memory || (uintptr_t)whole->memory % 2 != 0))
        return TRIRAST_STATUS_BAD_MEMORY;
    *piece = *whole;
    piece->first = first;
    piece->end = end;
    /* Without tile rows the memory may be NULL, to which nothing is added. */
    if (first != whole->first)
        piece->memory = (unsigned char *)whole->memory + (first - whole->first) * row * TRIRAST_PLANE_BYTES;
    piece->plane_count = (end - first) * row;
    return TRIRAST_STATUS_OK;
}

/* What samples are made by trirast_canvas_clear. */
typedef struct trirast_clear {
    uint8_t red;
    uint8_t green;
    uint8_t blue;
    uint8_t alpha;   /* not looked at on a canvas without alpha */
    uint16_t depth;  /* 65535 is farthest */
    uint16_t unused; /* not read */
} trirast_clear;

trirast_status trirast_proved_canvas_clear(trirast_canvas *canvas, const trirast_clear *clear);

/* Makes each sample of these tile rows one of this colour and depth.
 *
 * @canvas: the tile rows.
 * @clear: the colour, with alpha if the canvas has it, and the depth. NULL is black, alpha 0 and depth 65535.
 *
 * Returns TRIRAST_STATUS_OK, or the first check that fails. */
inline trirast_status trirast_canvas_clear(trirast_canvas *canvas, const trirast_clear *clear) {
    const trirast_clear black = {0, 0, 0, 0, 65535, 0};
    return trirast_proved_canvas_clear(canvas, clear ? clear : &black);
}

/* generated: formats */
/* How the colour of a pixel lies in bytes, in the order of the name. The first three have channels as they are stored.
 * The other two are what image files have: colours are divided by alpha when they are written, and multiplied by it
 * when they are loaded, so that a canvas that was cleared to 0, 0, 0 and alpha 0, and drawn on with TRIRAST_BLEND_OVER
 * or TRIRAST_BLEND_PREMULTIPLIED, is the picture of what was drawn, without a background. A channel c with alpha a is
 * written as 0 where a is 0, else as the q with a q <= 255 c + a / 2 < a (q + 1), of which a / 2 is rounded down, or as
 * 255 if that is less; and it is loaded as the q with 255 q <= c a + 127 < 255 (q + 1). What was written of colours
 * that are at most alpha, is loaded as it was stored. The other way round it may differ: red 200 with alpha 10 is
 * stored as 8, and written as 204.
 *
 * A canvas without alpha has 255 there since it was cleared or loaded, which is written, and alpha that is loaded is
 * not stored. A picture in RGB8 is loaded with alpha 255. */
typedef enum trirast_format {
    TRIRAST_FORMAT_RGB8 = 0,           /* red, green and blue */
    TRIRAST_FORMAT_RGBA8 = 1,          /* red, green, blue and alpha, as they are stored */
    TRIRAST_FORMAT_BGRA8 = 2,          /* blue, green, red and alpha, as they are stored */
    TRIRAST_FORMAT_RGBA8_STRAIGHT = 3, /* red, green, blue and alpha as image files have them */
    TRIRAST_FORMAT_BGRA8_STRAIGHT = 4  /* blue, green, red and alpha as image files have them */
} trirast_format;

/* The greatest trirast_format. */
#define TRIRAST_MAX_FORMAT TRIRAST_FORMAT_BGRA8_STRAIGHT
/* end of formats */

/* Makes a picture the colour of all samples of its pixels, whose alpha is 255 on a canvas without alpha. Depths are
 * unchanged.
 *
 * @canvas: the tile rows.
 * @format: a trirast_format.
 * @pixels: the first pixel of the first row of pixels of these tile rows.
 * @size: the bytes that are there. The last row needs no padding behind its pixels.
 * @stride: the bytes from the beginning of a row to that of the next: at least those of a row of pixels; 0 for just
 *     these.
 *
 * Returns TRIRAST_STATUS_OK; or the first check that fails, then TRIRAST_STATUS_BAD_FORMAT, then
 * TRIRAST_STATUS_BUFFER_TOO_SMALL if the stride is less than a row of pixels, or the last row of pixels ends behind
 * size. */
trirast_status trirast_canvas_load(trirast_canvas *canvas, trirast_format format, const void *pixels, size_t size,
                                   size_t stride);

trirast_status trirast_proved_canvas_draw(trirast_canvas *canvas, const trirast_proved_batch *batch,
                                          trirast_error *error);

/* generated: batch_checks */
/* What is looked for in each draw of a batch, in this order:
 * - TRIRAST_BATCH_TOO_FEW_VERTICES if fewer vertices are left than the draw has
 * - TRIRAST_BATCH_TOO_FEW_INDICES if fewer indices are left than the draw has
 * - TRIRAST_BATCH_BAD_TOPOLOGY if `topology` is not the number of a topology
 * - TRIRAST_BATCH_BAD_CULL if `cull` is not the number of a culling
 * - TRIRAST_BATCH_BAD_DEPTH_TEST if `depth_test` is not the number of a depth test
 * - TRIRAST_BATCH_BAD_DEPTH_WRITE if `depth_write` is neither 0 nor 1
 * - TRIRAST_BATCH_BAD_KEEP if a bit of `keep` is not that of a channel
 * - TRIRAST_BATCH_BAD_SCISSOR_ENABLE if `scissor_enable` is neither 0 nor 1
 * - TRIRAST_BATCH_BAD_FACTOR if a factor of `blend` is not the number of a factor
 * - TRIRAST_BATCH_BAD_OPERATION if an operation of `blend` is not the number of an operation
 * - TRIRAST_BATCH_NOT_WHOLE if the indices of the draw, or without any its vertices, make no whole triangles or quads
 * - TRIRAST_BATCH_TOO_MANY_IDS if the id of a triangle would be greater than 16,777,215, or `first_id` is greater than
 *   16,777,216 (trirast_canvas_draw_ids alone)
 * - TRIRAST_BATCH_BAD_INDEX if an index is not less than the draw's `vertex_count`
 * - TRIRAST_BATCH_BAD_POSITION if a coordinate of a vertex that an index names is not -8388608 to 8388607, or is not so
 *   as seen from the canvas's origin: x - 256 * `origin_x` and y - 256 * `origin_y`
 * - TRIRAST_BATCH_NOT_CONVEX if a quad is not strictly convex
 * - TRIRAST_BATCH_LEFT_OVER if a vertex or an index is in no draw, which is looked for when all draws are right. A
 *   batch with more vertices than there are addresses for them has this cause before any draw is looked at
 */
/* end of batch_checks */

/* Draws a batch over what is stored: each sample ends as the batch's triangles make it, one after another, in the order
 * in which they stand. So a picture does not depend on the batches into which its triangles are split.
 *
 * Only vertices that an index names are looked at; without indices, all. A batch may have any number of vertices,
 * triangles and draws.
 *
 * @canvas: the tile rows.
 * @batch: what is drawn on them.
 * @error: why nothing was drawn, or NULL.
 *
 * Returns TRIRAST_STATUS_OK; or the first check that fails, then TRIRAST_STATUS_BAD_STRUCT_SIZE of the batch, then
 * TRIRAST_STATUS_BAD_STRIDE by its vertex_stride, then TRIRAST_STATUS_BAD_INDEX_SIZE, then TRIRAST_STATUS_BAD_BATCH
 * with the first error of the first draw that has one, as listed above. */
inline trirast_status trirast_canvas_draw(trirast_canvas *canvas, const trirast_batch *batch, trirast_error *error) {
    const trirast_proved_batch proved = trirast_proved_batch_of(batch);
    trirast_error unread;
    return trirast_proved_canvas_draw(canvas, &proved, error ? error : &unread);
}

trirast_status trirast_proved_canvas_draw_ids(trirast_canvas *canvas, const trirast_proved_batch *batch,
                                              uint32_t first_id, trirast_error *error);

/* Draws a batch over what is stored, with the id of each triangle in place of a colour: first_id and its index in the
 * batch, counted over all draws. Ids are written unblended, whatever channels a draw keeps; the alpha of a canvas that
 * has one becomes 255, unless the draw keeps it. So each sample has the id of the last triangle that passed there, or
 * the number of the colour to which it was cleared: white is 16,777,215.
 *
 * @canvas, @batch, @error: as for trirast_canvas_draw.
 * @first_id: the id of the first triangle.
 *
 * Returns what trirast_canvas_draw returns. */
inline trirast_status trirast_canvas_draw_ids(trirast_canvas *canvas, const trirast_batch *batch, uint32_t first_id,
                                              trirast_error *error) {
    const trirast_proved_batch proved = trirast_proved_batch_of(batch);
    trirast_error unread;
    return trirast_proved_canvas_draw_ids(canvas, &proved, first_id, error ? error : &unread);
}

/* ---- Polygons: rings of corners, in one colour each ---- */

/* generated: fill_rules */
/* Which points are inside of a polygon, by the edges of its rings that a ray to the left crosses. */
typedef enum trirast_fill_rule {
    TRIRAST_FILL_EVEN_ODD = 0, /* an odd number of edges is crossed */
    TRIRAST_FILL_NONZERO = 1   /* more edges are crossed downwards than upwards, or fewer */
} trirast_fill_rule;
/* end of fill_rules */

/* A corner of a ring, or any point, in 1/256 pixel of the screen: -8388608 to 8388607. */
typedef struct trirast_corner {
    int32_t x; /* to the right */
    int32_t y; /* downwards */
} trirast_corner;

/* The box of a polygon's corners in 1/256 pixel of the screen: the least and the greatest x and y of them. The box of
 * no corners has INT32_MAX on its left and at its top, and INT32_MIN on its right and at its bottom. */
typedef struct trirast_box {
    int32_t left;
    int32_t top;
    int32_t right;  /* the greatest x, which is in the box */
    int32_t bottom; /* the greatest y, which is in the box */
} trirast_box;

/* Polygons with their colours. A polygon is any number of rings, which may have holes, touch and cross each other and
 * themselves; a ring is closed from its last corner to its first, and one of fewer than three corners covers nothing.
 * Which samples a polygon covers is exact. Polygons that fit together leave no gap and no overlap: docs/polygons.md
 * says when they do. A ring of a triangle's corners covers what trirast_canvas_draw draws of the triangle.
 *
 * The arrays of shapely.to_ragged_array and of GeoArrow are these, but that each of their arrays of ends begins with a
 * 0, which is left out here. */
typedef struct trirast_polygons {
    uint32_t struct_size;           /* 0 or sizeof(trirast_polygons) */
    uint32_t fill_rule;             /* a trirast_fill_rule */
    const trirast_corner *corners;  /* of all rings, one ring's after another's */
    size_t corner_count;
    const uint32_t *ring_ends;      /* of each ring the index behind its last corner, where the next ring begins */
    size_t ring_count;
    const uint32_t *polygon_ends;   /* of each polygon the index behind its last ring, where the next polygon begins */
    size_t polygon_count;
    const uint8_t (*colors)[4];     /* of each polygon red, green, blue and alpha; not looked at where ids are drawn */
    size_t color_count;
    const uint16_t *depths;         /* of each polygon its depth; NULL with depth_count 0: 0 */
    size_t depth_count;
    const trirast_box *boxes;       /* of each polygon its box, as trirast_polygons_measure finds it: see there. NULL
                                     * with box_count 0: a call that draws looks at all corners for them */
    size_t box_count;
    trirast_draw state;             /* how they are drawn. Its vertex_count and index_count are not looked at.
                                     * Its topology and cull have to be in range and change nothing: a polygon
                                     * may run either way round */
} trirast_polygons;

/* What lies where in scratch memory: columns of flags, and after them columns of counters. */
typedef struct trirast_scratch_layout {
    size_t flag_columns;
    size_t counter_columns;
    size_t counters_at; /* the byte at which the counters begin */
    size_t size;        /* the bytes of both */
} trirast_scratch_layout;

void trirast_proved_polygons_scratch(const trirast_canvas *canvas, uint32_t fill_rule, trirast_scratch_layout *layout);

/* Returns the bytes of scratch memory of a call that draws polygons by this rule on this canvas: for each 8 pixels of
 * its width, rounded up to whole tiles, 256 bytes for each part of at most four samples of a pixel, and by the nonzero
 * rule 2 * 256 + 8,192 more for each part. So for 1,024 pixels that is 32 KB or 1.1 MB, and with 16 samples 128 KB or
 * 4.6 MB. Returns 0 if there is no such canvas. */
inline size_t trirast_polygons_scratch(const trirast_canvas *canvas, trirast_fill_rule fill_rule) {
    trirast_scratch_layout layout;
    trirast_proved_polygons_scratch(canvas, (uint32_t)fill_rule, &layout);
    return layout.size;
}

trirast_status trirast_proved_polygons_measure(const trirast_polygons *polygons, trirast_box *boxes, size_t box_count,
                                               trirast_error *error);

/* Checks corners and ends, and finds the box of each polygon's corners. Polygons with these boxes may be drawn as often
 * as one likes, by any number of threads, on any canvas: no such call looks at the corners of a polygon whose box lies
 * beside its canvas. Without boxes each call looks at all corners first.
 *
 * Boxes are not checked. Whoever changes a corner, a ring or a polygon afterwards has to find them anew. With boxes
 * that do not hold their polygons' corners, some polygons may be left out, each as a whole, and no error says so. A
 * polygon that has a corner outside of the guard band is then left out too. Both are tested and not proved.
 *
 * @polygons: whose boxes are found. Only the corners and where rings and polygons end are looked at.
 * @boxes: where they go, one for each polygon. Those behind are unchanged.
 * @box_count: how many fit there.
 * @error: why there are none, or NULL.
 *
 * Returns TRIRAST_STATUS_OK; or the first check that fails: TRIRAST_STATUS_BAD_STRUCT_SIZE of the polygons, then
 * TRIRAST_STATUS_BUFFER_TOO_SMALL if there is no room for a box of each, then TRIRAST_STATUS_BAD_BATCH with the first
 * error of corners, rings and polygons, as trirast_canvas_draw_polygons without boxes has it. After
 * TRIRAST_STATUS_BAD_BATCH what is in boxes is unspecified; after any other error they are unchanged. */
inline trirast_status trirast_polygons_measure(const trirast_polygons *polygons, trirast_box *boxes, size_t box_count,
                                               trirast_error *error) {
    trirast_error unread;
    return trirast_proved_polygons_measure(polygons, boxes, box_count, error ? error : &unread);
}

trirast_status trirast_proved_canvas_draw_polygons(trirast_canvas *canvas, const trirast_polygons *polygons,
                                                   void *flags, size_t flag_columns, void *counters,
                                                   size_t counter_columns, trirast_error *error);

/* generated: polygon_checks */
/* What is looked for in polygons, in this order:
 * - TRIRAST_BATCH_BAD_FILL_RULE if `fill_rule` is not the number of a fill rule
 * - TRIRAST_BATCH_BAD_TOPOLOGY if `topology` is not the number of a topology; then the causes of the other numbers of
 *   the state, as of a draw
 * - TRIRAST_BATCH_TOO_MANY_CORNERS if polygons have 2^32 corners or more
 * - TRIRAST_BATCH_BAD_RING if a ring ends before it begins, or behind the last corner
 * - TRIRAST_BATCH_LEFT_OVER if the last ring ends before the last corner
 * - TRIRAST_BATCH_BAD_POLYGON if a polygon ends before it begins, or behind the last ring
 * - TRIRAST_BATCH_LEFT_OVER if the last polygon ends before the last ring
 * - TRIRAST_BATCH_BAD_POSITION if there are no boxes and a coordinate of a corner is not -8388608 to 8388607
 * - TRIRAST_BATCH_TOO_FEW_BOXES if there are boxes, but fewer than polygons
 * - TRIRAST_BATCH_TOO_FEW_COLORS if there are fewer colours than polygons (trirast_canvas_draw_polygons alone)
 * - TRIRAST_BATCH_TOO_MANY_IDS if the id of a polygon would be greater than 16,777,215, or `first_id` is greater than
 *   16,777,216 (trirast_canvas_draw_polygon_ids alone)
 * - TRIRAST_BATCH_TOO_FEW_DEPTHS if there are depths, but fewer than polygons
 */
/* end of polygon_checks */

/* Draws polygons over what is stored: each sample ends as the polygons make it, one after another, in their order. A
 * polygon makes of a sample that it covers what a triangle of one colour and one depth does in this state.
 *
 * @canvas: the tile rows. Threads may draw the same polygons on pieces of a canvas, each with scratch
 * memory of its own.
 * @polygons: what is drawn on them.
 * @scratch: memory that the call uses, aligned to 8. What is in it before does not matter. After TRIRAST_STATUS_OK its
 *     first trirast_polygons_scratch(canvas, TRIRAST_FILL_EVEN_ODD) bytes, by the nonzero rule three times as many, are
 *     zeros, and what is in the counters behind them is unspecified; otherwise it is unchanged.
 * @scratch_size: its bytes: at least that number.
 * @error: why nothing was drawn, or NULL.
 *
 * Returns TRIRAST_STATUS_OK; or the first check that fails, then TRIRAST_STATUS_BAD_STRUCT_SIZE of the polygons, then
 * TRIRAST_STATUS_BAD_POSITION if origin_x or origin_y of the canvas is not -32768 to 28672, then
 * TRIRAST_STATUS_BUFFER_TOO_SMALL if the scratch memory is too small or not aligned to 8, then TRIRAST_STATUS_BAD_BATCH
 * with the first error of the polygons, as listed above. */
inline trirast_status trirast_canvas_draw_polygons(trirast_canvas *canvas, const trirast_polygons *polygons,
                                                   void *scratch, size_t scratch_size, trirast_error *error) {
    const trirast_scratch_layout none = {0, 0, 0, 0};
    trirast_scratch_layout layout;
    trirast_proved_polygons_scratch(canvas, polygons->fill_rule, &layout);
    if ((uintptr_t)scratch % 8 != 0 || scratch_size < layout.size) layout = none;
    /* Scratch memory of no bytes may be NULL, to which nothing is added. */
    void *counters = layout.size ? (unsigned char *)scratch + layout.counters_at : scratch;
    trirast_error unread;
    return trirast_proved_canvas_draw_polygons(
        canvas, polygons, scratch, layout.flag_columns, counters, layout.counter_columns, error ? error : &unread);
}

trirast_status trirast_proved_canvas_draw_polygon_ids(trirast_canvas *canvas, const trirast_polygons *polygons,
                                                      uint32_t first_id, void *flags, size_t flag_columns,
                                                      void *counters, size_t counter_columns, trirast_error *error);

/* Draws polygons over what is stored, with the id of each in place of a colour: first_id and its index. As by
 * trirast_canvas_draw_ids they are written unblended, whatever channels the state keeps; the alpha of a canvas that has
 * one becomes 255, unless the state keeps it.
 *
 * @canvas, @polygons, @scratch, @scratch_size, @error: as for trirast_canvas_draw_polygons.
 * @first_id: the id of the first polygon.
 *
 * Returns what trirast_canvas_draw_polygons returns. */
inline trirast_status trirast_canvas_draw_polygon_ids(trirast_canvas *canvas, const trirast_polygons *polygons,
                                                      uint32_t first_id, void *scratch, size_t scratch_size,
                                                      trirast_error *error) {
    const trirast_scratch_layout none = {0, 0, 0, 0};
    trirast_scratch_layout layout;
    trirast_proved_polygons_scratch(canvas, polygons->fill_rule, &layout);
    if ((uintptr_t)scratch % 8 != 0 || scratch_size < layout.size) layout = none;
    /* Scratch memory of no bytes may be NULL, to which nothing is added. */
    void *counters = layout.size ? (unsigned char *)scratch + layout.counters_at : scratch;
    trirast_error unread;
    return trirast_proved_canvas_draw_polygon_ids(
        canvas, polygons, first_id, scratch, layout.flag_columns, counters, layout.counter_columns,
        error ? error : &unread);
}

/* Writes the colour of each pixel: each channel is the mean of its samples, rounded to the nearest, halves up. Bytes
 * between the rows of pixels are unchanged.
 *
 * @canvas, @format, @stride: as for trirast_canvas_load.
 * @pixels: where the first pixel of the first row of pixels of these tile rows goes.
 * @size: the bytes that are there.
 *
 * Returns what trirast_canvas_load returns. */
trirast_status trirast_canvas_resolve(const trirast_canvas *canvas, trirast_format format, void *pixels, size_t size,
                                      size_t stride);

/* Writes the depth of one sample of each pixel. Entries between the rows of pixels are unchanged.
 *
 * @canvas: the tile rows.
 * @sample: the index of the sample: less than the samples of a pixel.
 * @depths: where that of the first pixel of the first row of pixels of these tile rows goes.
 * @count: the entries that are there.
 * @stride: the bytes from the beginning of a row to that of the next: a multiple of those of an entry, and at least
 *     those of a row; 0 for just these.
 *
 * Returns TRIRAST_STATUS_OK; or the first check that fails, then TRIRAST_STATUS_BAD_SAMPLE, then
 * TRIRAST_STATUS_BAD_STRIDE if the stride is no multiple of an entry, then TRIRAST_STATUS_BUFFER_TOO_SMALL if it is
 * less than a row, or the last row of pixels ends behind count. */
trirast_status trirast_canvas_depths(const trirast_canvas *canvas, uint32_t sample, uint16_t *depths, size_t count,
                                     size_t stride);

/* Writes the id of one sample of each pixel: its red + 256 * green + 65536 * blue. Entries between the rows of
 * pixels are unchanged.
 *
 * @canvas, @sample, @count, @stride: as for trirast_canvas_depths.
 * @ids: where that of the first pixel of the first row of pixels of these tile rows goes.
 *
 * Returns what trirast_canvas_depths returns. */
trirast_status trirast_canvas_ids(const trirast_canvas *canvas, uint32_t sample, uint32_t *ids, size_t count,
                                  size_t stride);

/* ---- The colours of samples, to be shaded ---- */

/* A caller who draws ids can shade what is seen, and put colours in their place: trirast_canvas_draw_ids, then for each
 * tile trirast_canvas_tile_ids, colours of the caller's own, and trirast_canvas_tile_store. Depths stay, so more can be
 * drawn over it, and trirast_canvas_resolve gives the picture. By trirast_canvas_ids and trirast_canvas_store it does
 * so for one sample index of all pixels at a time.
 *
 * trirast_canvas_colors and trirast_canvas_tile_ids only read samples, and the other three change them: what the
 * comment of trirast_canvas says of threads holds for them too. */

/* Writes the colour of one sample of each pixel. Nothing is resolved. Bytes between the rows of pixels are unchanged.
 *
 * @canvas: the tile rows.
 * @sample: the index of the sample: less than the samples of a pixel.
 * @format: a trirast_format.
 * @pixels: where the first pixel of the first row of pixels of these tile rows goes.
 * @size: the bytes that are there. The last row needs no padding behind its pixels.
 * @stride: the bytes from the beginning of a row to that of the next: at least those of a row of pixels; 0 for just
 *     these.
 *
 * Returns TRIRAST_STATUS_OK; or the first check that fails, then TRIRAST_STATUS_BAD_FORMAT, then
 * TRIRAST_STATUS_BAD_SAMPLE, then TRIRAST_STATUS_BUFFER_TOO_SMALL if the stride is less than a row of pixels, or the
 * last row of pixels ends behind size. */
trirast_status trirast_canvas_colors(const trirast_canvas *canvas, uint32_t sample, trirast_format format, void *pixels,
                                     size_t size, size_t stride);

/* Makes a picture the colour of one sample of its pixels, whose alpha is 255 on a canvas without alpha. Depths and
 * other samples are unchanged. What trirast_canvas_colors then writes in this format are the same colours, with the
 * same alpha or 255 on a canvas without alpha. In the two formats with colours divided by alpha they may differ: red
 * 200 with alpha 10 is stored as 8, and written as 204.
 *
 * @canvas, @sample, @format, @size, @stride: as for trirast_canvas_colors.
 * @pixels: the first pixel of the first row of pixels of these tile rows.
 *
 * Returns what trirast_canvas_colors returns. If the status is not TRIRAST_STATUS_OK, no sample is changed. */
trirast_status trirast_canvas_store(trirast_canvas *canvas, uint32_t sample, trirast_format format, const void *pixels,
                                    size_t size, size_t stride);

/* The entries of a tile of a canvas with so many samples a pixel (1, not 0): 64 blocks of 8 by 8 pixels, row by row; in
 * a block sample index by sample index; of each the 64 pixels, row by row. So entry (b * samples + s) * 64 + k is of
 * sample s of the pixel in column 8 * (b % 8) + k % 8 and row 8 * (b / 8) + k / 8 of the tile. */
#ifdef __cplusplus
#define TRIRAST_TILE_ENTRIES(samples) (4096 * static_cast<size_t>(samples))
#else
#define TRIRAST_TILE_ENTRIES(samples) (4096 * (size_t)(samples))
#endif

/* Writes the ids of all samples of one tile, red + 256 * green + 65536 * blue each, those of pixels beside the picture
 * too. If all blocks of the tile are stored as cleared and have one id, as after trirast_canvas_clear, only that entry
 * is written, and the others are unchanged.
 *
 * @canvas: the tile rows.
 * @column: of tiles, from 0 at the left: less than width / TRIRAST_TILE_SIZE, rounded up.
 * @row: the tile row: one of these.
 * @ids: where they go.
 * @count: the entries that are there: at least TRIRAST_TILE_ENTRIES(samples), also for a tile of which one is written.
 * @uniform: 1 if one entry was written, else 0; not NULL.
 *
 * Returns TRIRAST_STATUS_OK; or the first check that fails, then TRIRAST_STATUS_BAD_TILE, then
 * TRIRAST_STATUS_BUFFER_TOO_SMALL. */
trirast_status trirast_canvas_tile_ids(const trirast_canvas *canvas, uint32_t column, uint32_t row, uint32_t *ids,
                                       size_t count, uint32_t *uniform);

/* Stores the colours of all samples of one tile, red + 256 * green + 65536 * blue each; the upper byte is not read.
 * Depths and other tiles are unchanged, and so is alpha, also on a canvas without alpha, where trirast_canvas_load and
 * trirast_canvas_store make it 255: such a canvas has to be cleared or loaded before. Storing what
 * trirast_canvas_tile_ids wrote changes nothing, and what was stored is what it then writes, with an upper byte of 0.
 *
 * @canvas, @column, @row: as for trirast_canvas_tile_ids.
 * @colors: as trirast_canvas_tile_ids writes ids.
 * @count: TRIRAST_TILE_ENTRIES(samples); or 1, and then all samples of the tile get the one colour. A tile of which
 *     trirast_canvas_tile_ids writes one id then stays such a tile (docs/generated/promises.md: tile_store, uniform).
 *
 * Returns TRIRAST_STATUS_OK; or the first check that fails, then TRIRAST_STATUS_BAD_TILE, then
 * TRIRAST_STATUS_BUFFER_TOO_SMALL if count is neither of the two. If the status is not TRIRAST_STATUS_OK, no sample is
 * changed. */
trirast_status trirast_canvas_tile_store(trirast_canvas *canvas, uint32_t column, uint32_t row, const uint32_t *colors,
                                         size_t count);

/* The masks of a tile of a canvas with so many samples a pixel (1, not 0), one for each 64 entries. Bit k of mask n is
 * of entry 64 * n + k. */
#ifdef __cplusplus
#define TRIRAST_TILE_MASKS(samples) (64 * static_cast<size_t>(samples))
#else
#define TRIRAST_TILE_MASKS(samples) (64 * (size_t)(samples))
#endif

/* Blends a fragment of the caller's with each kept sample of one tile, exactly as drawing does with a sample that a
 * triangle covers: by the depth test, the depth write, the channels and the blend equations of a draw. So a shaded
 * layer is blended over the tile, and what the shader discards is not kept. All other samples are unchanged.
 *
 * @canvas, @column, @row: as for trirast_canvas_tile_ids.
 * @state: how; not NULL. depth_test, depth_write, keep and blend have a part. The other numbers have none, but those of
 *     the state have to be in their range: 0 is right for each.
 * @colors: red + 256 * green + 65536 * blue + 16777216 * alpha each, 0 to 255, in the order of TRIRAST_TILE_ENTRIES.
 * @color_count: TRIRAST_TILE_ENTRIES(samples); or 1, and then that is the colour of all fragments.
 * @depths: 0 to 65535 each, in the same order. With TRIRAST_DEPTH_ALWAYS and without depth_write they have no part.
 * @depth_count: as color_count.
 * @kept: the masks: a bit is 1 if the sample is blended. Those of pixels beside the picture are read too.
 * @kept_count: TRIRAST_TILE_MASKS(samples); or 1, and then that mask is used for each 64 entries.
 *
 * Returns TRIRAST_STATUS_OK; or the first check that fails, then TRIRAST_STATUS_BAD_BATCH if a number of the state is
 * out of its range, then TRIRAST_STATUS_BAD_TILE, then TRIRAST_STATUS_BUFFER_TOO_SMALL if a count is neither of its
 * two. If the status is not TRIRAST_STATUS_OK, no sample is changed. */
trirast_status trirast_canvas_tile_blend(trirast_canvas *canvas, uint32_t column, uint32_t row,
                                         const trirast_draw *state, const uint32_t *colors, size_t color_count,
                                         const uint16_t *depths, size_t depth_count, const uint64_t *kept,
                                         size_t kept_count);

/* ---- Edge functions ---- */

/* The corners of a triangle, in 1/256 pixel: -8388608 to 8388607 each. */
typedef struct trirast_corners {
    int32_t ax, ay;
    int32_t bx, by;
    int32_t cx, cy;
} trirast_corners;

/* A point, in 1/256 pixel: -8388608 to 8388607. The centre of pixel (i, j) is (256 * i + 128, 256 * j + 128). */
typedef struct trirast_point {
    int32_t x, y;
} trirast_point;

/* The edge functions of a triangle at a point, in 1/65536 square pixel. For a point inside they have the sign of the
 * doubled area, and a / doubled_area is the weight of the corner a there. */
typedef struct trirast_edges {
    int64_t a;            /* of the edge across from the corner a */
    int64_t b;
    int64_t c;
    int64_t doubled_area; /* positive if the triangle runs clockwise on the screen; a + b + c */
    uint64_t covered;     /* 1 if the triangle covers the point by the top-left rule, else 0 */
} trirast_edges;

/* Writes the edge functions of a triangle at one point. They are exact.
 *
 * @corners: the triangle.
 * @x, @y: the point.
 * @edges: where they go.
 *
 * Returns TRIRAST_STATUS_OK, or TRIRAST_STATUS_BAD_POSITION if a coordinate is out of range. */
trirast_status trirast_edges_at_point(const trirast_corners *corners, int32_t x, int32_t y, trirast_edges *edges);

/* Writes the edge functions of a triangle at many points.
 *
 * @corners: the triangle.
 * @points: the first trirast_point; a trirast_vertex begins with one.
 * @stride: the bytes from a point to the next: 0 for 8, or a multiple of 4 from 8 on, by which the points fit into
 *     memory.
 * @count: the number of points.
 * @edges: where their edge functions go: as many.
 *
 * Returns TRIRAST_STATUS_OK; TRIRAST_STATUS_BAD_STRIDE; or TRIRAST_STATUS_BAD_POSITION if a coordinate of the triangle
 * or of a point is out of range. */
inline trirast_status trirast_edges_at(const trirast_corners *corners, const void *points, size_t stride, size_t count,
                                       trirast_edges *edges) {
    const size_t step = stride == 0 ? sizeof(trirast_point) : stride;
    trirast_edges tried;
    trirast_status status;
    size_t number;
    if (step < sizeof(trirast_point) || step % 4 != 0) return TRIRAST_STATUS_BAD_STRIDE;
    if (count > 1 && step > (size_t)-1 / 2 / count) return TRIRAST_STATUS_BAD_STRIDE;
    status = trirast_edges_at_point(corners, 0, 0, &tried);
    for (number = 0; status == TRIRAST_STATUS_OK && number < count; number++) {
        const trirast_point *point = (const trirast_point *)((const unsigned char *)points + number * step);
        if (point->x < -8388608 || point->x > 8388607 || point->y < -8388608 || point->y > 8388607)
            status = TRIRAST_STATUS_BAD_POSITION;
    }
    for (number = 0; status == TRIRAST_STATUS_OK && number < count; number++) {
        const trirast_point *point = (const trirast_point *)((const unsigned char *)points + number * step);
        status = trirast_edges_at_point(corners, point->x, point->y, &edges[number]);
    }
    return status;
}

/* ---- Draw lists ---- */

/* The size of a picture and of its file. file_bytes is header_bytes + (uint64_t)width * height * pixel_bytes. */
typedef struct trirast_image_info {
    uint32_t width;        /* in pixels: 1 to 4096 */
    uint32_t height;       /* in pixels: 1 to 4096 */
    uint32_t pixel_bytes;  /* bytes of a pixel: 3 for colours (P6), 2 for depths (P5) */
    uint32_t header_bytes; /* bytes of the file before its first pixel */
    uint64_t file_bytes;   /* bytes of the whole file */
} trirast_image_info;

trirast_status trirast_proved_list_info(const char *json, size_t json_len, trirast_image_info *info,
                                        trirast_error *error);

/* Reads a draw list, and writes the size of its picture. Nothing is drawn.
 *
 * @json: the draw list. No zero byte is needed behind it.
 * @json_len: its length in bytes: at most 67,108,864.
 * @info: where the size goes, or NULL.
 * @error: why there is none, or NULL.
 *
 * Returns TRIRAST_STATUS_OK; TRIRAST_STATUS_INPUT_TOO_LONG if the list is too long; TRIRAST_STATUS_BAD_LIST if the
 * bytes are no draw list; or TRIRAST_STATUS_OUT_OF_MEMORY if an allocation fails. */
inline trirast_status trirast_list_info(const char *json, size_t json_len, trirast_image_info *info,
                                        trirast_error *error) {
    trirast_image_info unread;
    trirast_error unread_error;
    return trirast_proved_list_info(json, json_len, info ? info : &unread, error ? error : &unread_error);
}

trirast_status trirast_proved_list_draw(const char *json, size_t json_len, uint32_t tile_size, uint8_t *buffer,
                                        size_t buffer_size, trirast_error *error);

/* Draws the picture of a draw list, and writes its file, header and pixels, at the beginning of the buffer.
 *
 * @json: the draw list.
 * @json_len: its length in bytes: at most 67,108,864.
 * @tile_size: the width and height of a tile in pixels: 8, 16, 32 or 64. It changes no byte; 32 is a good one.
 * @buffer: where the file goes. The file is drawn into memory of the call's own and then copied, so drawing allocates
 *     as many bytes again.
 * @buffer_size: the bytes of the buffer: at least file_bytes of the picture's info.
 * @error: why nothing was drawn, or NULL.
 *
 * Returns TRIRAST_STATUS_OK; TRIRAST_STATUS_BAD_TILE_SIZE if the tile size is none of the four;
 * TRIRAST_STATUS_INPUT_TOO_LONG if the list is too long; TRIRAST_STATUS_BAD_LIST if the bytes are no draw list;
 * TRIRAST_STATUS_BUFFER_TOO_SMALL if the file has more than buffer_size bytes; or TRIRAST_STATUS_OUT_OF_MEMORY if an
 * allocation fails. */
inline trirast_status trirast_list_draw(const char *json, size_t json_len, uint32_t tile_size, uint8_t *buffer,
                                        size_t buffer_size, trirast_error *error) {
    trirast_error unread;
    return trirast_proved_list_draw(json, json_len, tile_size, buffer, buffer_size, error ? error : &unread);
}

trirast_status trirast_proved_list_draw_rows(const char *json, size_t json_len, uint32_t tile_size, uint32_t first,
                                             uint32_t end, uint8_t *buffer, size_t buffer_size, trirast_error *error);

/* Draws some tile rows of the picture of a draw list, and writes their rows of pixels, without a header, at the
 * beginning of the buffer.
 *
 * A picture has (height + tile_size - 1) / tile_size tile rows. Tile row r has the rows of pixels from r * tile_size to
 * before (r + 1) * tile_size, or to before height. So a call writes (bottom - top) * width * pixel_bytes bytes, with
 * top = first * tile_size and bottom = min(end * tile_size, height). Threads that share one picture each pass tile rows
 * of their own, and the part of one buffer that begins at top * width * pixel_bytes. Only these rows are drawn, but
 * each call reads the whole list.
 *
 * @json: the draw list.
 * @json_len: its length in bytes: at most 67,108,864.
 * @tile_size: the width and height of a tile in pixels: 8, 16, 32 or 64.
 * @first: the first tile row, counted from 0 at the top.
 * @end: the tile row behind the last one: greater than first, and at most the number of tile rows.
 * @buffer: where the rows of pixels go. They are copied there, as the file of trirast_list_draw.
 * @buffer_size: the bytes of the buffer: at least as many as the call writes.
 * @error: why nothing was drawn, or NULL.
 *
 * Returns TRIRAST_STATUS_OK; TRIRAST_STATUS_BAD_TILE_SIZE if the tile size is none of the four;
 * TRIRAST_STATUS_INPUT_TOO_LONG if the list is too long; TRIRAST_STATUS_BAD_LIST if the bytes are no draw list;
 * TRIRAST_STATUS_BAD_TILE_ROWS if first is not less than end, or end is greater than the number of tile rows;
 * TRIRAST_STATUS_BUFFER_TOO_SMALL if the rows of pixels have more than buffer_size bytes; or
 * TRIRAST_STATUS_OUT_OF_MEMORY if an allocation fails. */
inline trirast_status trirast_list_draw_rows(const char *json, size_t json_len, uint32_t tile_size, uint32_t first,
                                             uint32_t end, uint8_t *buffer, size_t buffer_size, trirast_error *error) {
    trirast_error unread;
    return trirast_proved_list_draw_rows(json, json_len, tile_size, first, end, buffer, buffer_size,
                                         error ? error : &unread);
}

/* generated: output_kinds */
/* What a picture shows. */
typedef enum trirast_output {
    TRIRAST_OUTPUT_COLOR = 0, /* the colours, as a PPM file */
    TRIRAST_OUTPUT_DEPTH = 1  /* the depths of sample 0, as a PGM file */
} trirast_output;
/* end of output_kinds */

/* ---- Histories: why a sample is what it is ---- */

/* What a sample stores. */
typedef struct trirast_stored {
    uint32_t red;   /* 0 to 255 */
    uint32_t green; /* 0 to 255 */
    uint32_t blue;  /* 0 to 255 */
    uint32_t depth; /* 0 to 65535 */
} trirast_stored;

/* What a triangle has at a sample, each value rounded down. */
typedef struct trirast_fragment {
    uint32_t red;   /* 0 to 255 */
    uint32_t green; /* 0 to 255 */
    uint32_t blue;  /* 0 to 255 */
    uint32_t alpha; /* 0 to 255 */
    uint32_t depth; /* 0 to 65535 */
} trirast_fragment;

/* generated: events */
/* What a triangle did to a sample. */
typedef enum trirast_result {
    TRIRAST_RESULT_MISSED = 0,       /* nothing, for a reason other than TRIRAST_REASON_DEPTH_FAILED */
    TRIRAST_RESULT_DEPTH_FAILED = 1, /* nothing, and TRIRAST_REASON_DEPTH_FAILED is the only reason */
    TRIRAST_RESULT_DRAWN = 2         /* it was drawn: there is no reason against it */
} trirast_result;

/* Why a triangle is not drawn at a sample. Each reason that holds is a bit of an event's reasons. */
typedef enum trirast_reason {
    TRIRAST_REASON_CULLED = 1,          /* the triangle is culled */
    TRIRAST_REASON_ZERO_AREA = 2,       /* the triangle has no area */
    TRIRAST_REASON_NOT_COVERED = 4,     /* the sample fails the top-left rule at an edge: `failure_ab`, `failure_bc`,
                                         * `failure_ca` */
    TRIRAST_REASON_OUTSIDE_SCISSOR = 8, /* the pixel is outside of the scissor */
    TRIRAST_REASON_MASKED = 16,         /* the sample's bit in the sample mask is 0 */
    TRIRAST_REASON_DEPTH_FAILED = 32    /* the triangle covers the sample with a fragment that fails the depth test */
} trirast_reason;

/* How a sample fails the top-left rule at an edge. */
typedef enum trirast_failure {
    TRIRAST_FAILURE_NONE = 0,    /* it passes; or the triangle has zero area, and the sample is not on the edge's
                                  * line */
    TRIRAST_FAILURE_OUTSIDE = 1, /* the signs of the edge function and of the doubled area are opposite */
    TRIRAST_FAILURE_ON_EDGE = 2  /* the edge function is zero, and the edge is neither a top nor a left edge */
} trirast_failure;

/* What a draw writes. Each is a bit of an event's writes. */
typedef enum trirast_write {
    TRIRAST_WRITE_RED = 1,
    TRIRAST_WRITE_GREEN = 2,
    TRIRAST_WRITE_BLUE = 4,
    TRIRAST_WRITE_DEPTH = 8  /* the depth */
} trirast_write;
/* end of events */

/* What a triangle of a draw list did to a sample, and why. a, b and c are its vertices, as it lists them. */
typedef struct trirast_event {
    int64_t doubled_area;      /* in 1/65536 square pixel: positive if the triangle runs clockwise on the screen */
    int64_t edge_ab;           /* the edge function of the edge from a to b at the sample, in 1/65536 square pixel */
    int64_t edge_bc;
    int64_t edge_ca;
    size_t number;             /* of the triangle in draw order, from 0 */
    size_t draw;               /* the index of its draw, from 0 */
    size_t triangle;           /* its number in the draw, from 0; a strip and quads count the triangles as
                                * which they are drawn */
    uint32_t failure_ab;       /* a trirast_failure at the edge from a to b */
    uint32_t failure_bc;
    uint32_t failure_ca;
    uint32_t result;           /* a trirast_result */
    uint32_t reasons;          /* every trirast_reason that holds, added */
    uint32_t writes;           /* every trirast_write of its draw, added */
    uint32_t covered;          /* 1 if the triangle covers the sample, else 0 */
    trirast_fragment fragment; /* all zeros if covered is 0 */
    trirast_stored before;     /* the sample before the triangle */
    trirast_stored after;      /* the sample after the triangle */
} trirast_event;

/* A sample beside its events. */
typedef struct trirast_sample_info {
    size_t event_count;   /* the events that were asked for, of which the array may hold the first ones alone */
    uint32_t samples;     /* samples of a pixel: 1 or 4 */
    uint32_t output;      /* a trirast_output: what the picture shows */
    int32_t x;            /* where the sample lies, in 1/256 pixel */
    int32_t y;
    trirast_stored begin; /* the clear colour and depth */
    trirast_stored end;   /* what the picture is made of */
} trirast_sample_info;

/* The sample whose history is asked for. Begin with {0}, and set x, y and sample. */
typedef struct trirast_history_request {
    uint32_t struct_size; /* 0 or sizeof(trirast_history_request) */
    uint32_t event_size;  /* 0 or sizeof(trirast_event) */
    uint32_t info_size;   /* 0 or sizeof(trirast_sample_info) */
    uint32_t x;           /* the column of the pixel, from 0 at the left */
    uint32_t y;           /* the row of the pixel, from 0 at the top */
    uint32_t sample;      /* the index of the sample in the pixel, from 0 */
    uint32_t all;         /* 0: an event for each triangle that covers the sample; otherwise one for each triangle */
} trirast_history_request;

trirast_status trirast_proved_list_history(const char *json, size_t json_len, const trirast_history_request *request,
                                           trirast_event *events, size_t capacity, trirast_sample_info *info,
                                           trirast_error *error);

/* Writes the history of a sample of a draw list's picture: an event for each triangle, in draw order, at the beginning
 * of the array, as many as it holds. Nothing is drawn.
 *
 * A caller who does not know how many events there are may ask with the capacity 0 first, and then with the event_count
 * of the info. Each call reads the whole list.
 *
 * @json: the draw list.
 * @json_len: its length in bytes: at most 67,108,864.
 * @request: the sample.
 * @events: where the events go. Those behind the last one are unchanged.
 * @capacity: the number of events that the array holds. If it is 0, events may be NULL.
 * @info: where the number of all events goes, and what the sample begins and ends with; or NULL.
 * @error: why nothing was written, or NULL.
 *
 * Returns TRIRAST_STATUS_OK, also if the array is too small for all events; TRIRAST_STATUS_BAD_STRUCT_SIZE if a size
 * member of request is another than its comment says; TRIRAST_STATUS_INPUT_TOO_LONG if the list is too long;
 * TRIRAST_STATUS_BAD_LIST if the bytes are no draw list; TRIRAST_STATUS_BAD_PIXEL if the picture has no such pixel;
 * TRIRAST_STATUS_BAD_SAMPLE if the pixel has no such sample; or TRIRAST_STATUS_OUT_OF_MEMORY if an allocation fails. */
inline trirast_status trirast_list_history(const char *json, size_t json_len, const trirast_history_request *request,
                                           trirast_event *events, size_t capacity, trirast_sample_info *info,
                                           trirast_error *error) {
    trirast_sample_info unread;
    trirast_error unread_error;
    return trirast_proved_list_history(json, json_len, request, events, capacity, info ? info : &unread,
                                       error ? error : &unread_error);
}

/* How many samples of the picture a triangle has. */
typedef struct trirast_sample_counts {
    uint32_t covered; /* those that it covers by the top-left rule, be it culled, scissored or masked there or not */
    uint32_t changed; /* those that it changes: they store another colour or depth after it than before it */
    uint32_t shown;   /* those that still show it: it is the last triangle that changes them */
} trirast_sample_counts;

trirast_status trirast_proved_list_triangle_samples(const char *json, size_t json_len, size_t draw, size_t triangle,
                                                    trirast_sample_counts *counts, trirast_error *error);

/* Writes how many samples of a draw list's picture a triangle covers, changes and is shown by.
 *
 * @json: the draw list.
 * @json_len: its length in bytes: at most 67,108,864.
 * @draw: the index of the triangle's draw, from 0.
 * @triangle: its number in the draw, from 0. A strip and quads count the triangles as which they are drawn.
 * @counts: where the counts go.
 * @error: why there are none, or NULL.
 *
 * Returns TRIRAST_STATUS_OK; TRIRAST_STATUS_INPUT_TOO_LONG if the list is too long; TRIRAST_STATUS_BAD_LIST if the
 * bytes are no draw list; TRIRAST_STATUS_BAD_TRIANGLE if the list has no such draw, or the draw no such triangle; or
 * TRIRAST_STATUS_OUT_OF_MEMORY if an allocation fails. */
inline trirast_status trirast_list_triangle_samples(const char *json, size_t json_len, size_t draw, size_t triangle,
                                                    trirast_sample_counts *counts, trirast_error *error) {
    trirast_error unread;
    return trirast_proved_list_triangle_samples(json, json_len, draw, triangle, counts, error ? error : &unread);
}

#ifdef __cplusplus
}
#endif

/* ---- Checks of a program that is being written ---- */

/* Define TRIRAST_CHECKS before you include this header, and calls look for mistakes that no status reports:
 *
 * - ids are drawn on a canvas that was not cleared to white (here);
 * - a sample has an id that no triangle has, or a tile is shaded twice (trirast_shade.h, trirast_shade.hpp).
 *
 * For each mistake a call passes a line of text to TRIRAST_CHECK_FAILED. It prints the line and aborts, unless you
 * define it as something else. The checks read samples and allocate, so leave them out of what you ship. */
#ifdef TRIRAST_CHECKS
#include <stdio.h>
#include <stdlib.h>

#ifndef TRIRAST_CHECK_FAILED
#define TRIRAST_CHECK_FAILED(text) (fprintf(stderr, "trirast: %s\n", text), abort())
#endif

/* The id that no triangle has. */
#define TRIRAST_CHECKS_WHITE 0xFFFFFFu

/* Checks that a tile is white if it is unchanged since it was cleared, or has the number of an id before the first. */
static inline void trirast_check_tile_is_white(const trirast_canvas *canvas, uint32_t column, uint32_t row,
                                               uint32_t first_id, uint32_t *ids, size_t count) {
    uint32_t uniform = 0;
    char text[160];
    if (trirast_canvas_tile_ids(canvas, column, row, ids, count, &uniform) != TRIRAST_STATUS_OK || !uniform) return;
    if (ids[0] == TRIRAST_CHECKS_WHITE || ids[0] < first_id) return;
    snprintf(text, sizeof text, "ids are drawn on a canvas that was cleared to %u, %u, %u: clear it to 255, 255, 255",
             (unsigned)(ids[0] & 255), (unsigned)(ids[0] >> 8 & 255), (unsigned)(ids[0] >> 16));
    TRIRAST_CHECK_FAILED(text);
}

/* Checks each tile of these tile rows. A canvas that a call rejects, or no memory, leaves nothing to check. */
static inline void trirast_check_is_white(const trirast_canvas *canvas, uint32_t first_id) {
    const uint32_t columns = canvas->width / TRIRAST_TILE_SIZE + (canvas->width % TRIRAST_TILE_SIZE != 0);
    const size_t count = TRIRAST_TILE_ENTRIES(canvas->samples == 0 ? 1 : canvas->samples);
    uint32_t *ids = trirast_canvas_size(canvas) ? (uint32_t *)malloc(count * sizeof *ids) : NULL;
    uint32_t column, row;
    for (row = canvas->first; ids && canvas->end <= trirast_canvas_tile_rows(canvas) && row < canvas->end; row++)
        for (column = 0; column < columns; column++)
            trirast_check_tile_is_white(canvas, column, row, first_id, ids, count);
    free(ids);
}

static inline trirast_status trirast_checked_canvas_draw_ids(trirast_canvas *canvas, const trirast_batch *batch,
                                                             uint32_t first_id, trirast_error *error) {
    trirast_check_is_white(canvas, first_id);
    return trirast_canvas_draw_ids(canvas, batch, first_id, error);
}

static inline trirast_status trirast_checked_canvas_draw_polygon_ids(trirast_canvas *canvas,
                                                                     const trirast_polygons *polygons,
                                                                     uint32_t first_id, void *scratch,
                                                                     size_t scratch_size, trirast_error *error) {
    trirast_check_is_white(canvas, first_id);
    return trirast_canvas_draw_polygon_ids(canvas, polygons, first_id, scratch, scratch_size, error);
}

#define trirast_canvas_draw_ids trirast_checked_canvas_draw_ids
#define trirast_canvas_draw_polygon_ids trirast_checked_canvas_draw_polygon_ids
#endif

#if defined(__cplusplus) && defined(__GNUC__)
#pragma GCC diagnostic pop
#endif

#endif
