/* trirast_clip.h: triangles in clip space, cut and projected, so that a canvas can draw them. For C99 and later, and
 * for C++.
 *
 * Everything stands in this header, and the library is not called: link with -lm alone. docs/clipping.md has examples
 * and a picture. For C++17 trirast_clip.hpp has the same with vectors. Nothing here is proved; docs/clipping.md says
 * what is tested.
 *
 * No cracks. Two triangles that share an edge, by two equal positions, get equal vertices on it: on the screen, in
 * depth and in w, to the last bit. Their third corners, their order and their indices do not matter. So the top-left
 * rule gives each sample along the edge to one of them. Five rules bring this about:
 *
 * 1. Whether a plane keeps a position depends on the plane and on that position alone.
 * 2. The point in which a plane cuts an edge depends on the plane and on the two ends alone. The ends are taken in the
 *    order of their coordinates, never in the order in which a triangle has them.
 * 3. All triangles meet the planes in one order, and each meets those planes that a corner of it is behind. So both
 *    triangles of an edge meet every plane that an end of the edge is behind.
 * 4. A position is rounded to 1/256 pixel once, after the last cut, and the result depends on that position alone.
 * 5. No sum has a product that a compiler may fuse with it in one place and not in another. Each product that is added
 *    is exact, since one factor is 0 or a power of two, or it is stored to memory before it is added.
 *
 * Bounds, with u = 2^-53, the rounding error of a double (IEEE 754), and s the greatest of |x|, |y|, |z| and g |w| of
 * the corners of a triangle, where g is the power of two of half viewports that the guard band has to each side:
 *
 * - The side of a plane on which a position lies is exact: the products are exact, and the sign of a sum of two
 *   doubles is that of the exact sum.
 * - A cut is the sum of the corners by the weights that it names, each coordinate but for 32 u s for each plane that
 *   cuts the triangle. Differences, products and sums of coordinates and of weights are off by 14 u s. The share along
 *   the edge, a quotient of two sums, is off by 4 u of itself, which moves the coordinate that the plane fixes by 8 u
 *   s. The weights add up to 1 but for 9 u a plane, three roundings of each.
 * - On the screen a vertex lies at most 1/512 pixel from x / w and y / w, in each direction, and at most half a unit
 *   of depth from z / w. The error of a cut, divided by its w, adds to that: in a viewport of 1280 pixels less than
 *   1/1000 of 1/256 pixel for each plane, if s / w is at most 800,000 there.
 *
 * Compile with the default rounding to nearest, and without -ffast-math. Then every compiler and processor with
 * doubles of IEEE 754 gives the same bytes, also if products are fused elsewhere (-ffp-contract).
 *
 * Sources: Sutherland and Hodgman, Reentrant polygon clipping, CACM 17 (1974); Blinn and Newell, Clipping using
 * homogeneous coordinates, SIGGRAPH 1978; Meisters, Polygons have ears, American Mathematical Monthly 82 (1975). The
 * planes are those that Direct3D, Vulkan and OpenGL have: OpenGL 4.6, Core profile, 13.7, Primitive clipping.
 */
#ifndef TRIRAST_CLIP_H
#define TRIRAST_CLIP_H

#include <math.h>
#include <stddef.h>
#include <stdint.h>

#include "trirast.h"

/* C++ need not warn of the casts of C in what is inline here. */
#if defined(__cplusplus) && defined(__GNUC__)
#pragma GCC diagnostic push
#pragma GCC diagnostic ignored "-Wold-style-cast"
#endif

#if defined(__FAST_MATH__)
#error "trirast_clip.h: with -ffast-math triangles would not fit together along their edges"
#endif

/* A position in clip space. It is in front of the eye if w is positive. x / w goes to the right and y / w upwards, each
 * from -1 to 1 over the viewport. */
typedef struct trirast_clip_position {
    float x, y, z, w;
} trirast_clip_position;

/* What z / w is at the near plane. At the far plane it is 1. */
typedef enum trirast_clip_near {
    TRIRAST_CLIP_NEAR_AT_ZERO = 0,     /* as in Direct3D and Vulkan */
    TRIRAST_CLIP_NEAR_AT_MINUS_ONE = 1 /* as in OpenGL */
} trirast_clip_near;

/* Which planes cut a triangle beside near and far. */
typedef enum trirast_clip_sides {
    TRIRAST_CLIP_GUARD_BAND = 0, /* those of the guard band, far outside of the viewport, so that few triangles are cut.
                                  * What lies outside of the viewport may be drawn or not; a scissor leaves it out. A
                                  * canvas takes the vertices if its origin is 0 or in the viewport, corners included */
    TRIRAST_CLIP_VIEWPORT = 1    /* those of the viewport, but for the rounding to 1/256 pixel */
} trirast_clip_sides;

/* How to project. Begin with {0}, and set width and height. */
typedef struct trirast_clip {
    int32_t left, top;     /* the first pixel of the viewport on the screen: -16384 to 16384 each */
    int32_t width, height; /* the pixels over which x / w and y / w go from -1 to 1: 1 to 16384 each */
    uint32_t near_plane;   /* a trirast_clip_near */
    uint32_t sides;        /* a trirast_clip_sides */
    uint16_t near_depth;   /* the depth at the near plane */
    uint16_t far_depth;    /* the depth at the far plane. If both are 0, they are 0 and 65535 */
} trirast_clip;

/* A vertex that a cut made: a point of a triangle of the source. The weights of that triangle's corners are those of
 * clip space, so an attribute is the weighted sum of the corners' attributes, without a division. They are 0 to 1, and
 * add up to 1 but for rounding. */
typedef struct trirast_clip_cut {
    uint32_t triangle; /* of the source */
    double weights[3];
} trirast_clip_cut;

/* A plane adds at most half as many corners as there are, so seven of them make 42 of 3. Without rounding errors there
 * would be 10. */
#define TRIRAST_CLIP_MAX_CORNERS 42

/* Triangles on the screen, in arrays of the caller. Begin with {0}, and set the pointers and the capacities.
 *
 * The first vertices are the projected positions, at the indices that they have in the source. Those that a plane does
 * not keep are unspecified. Behind them lie those that cuts made. Colours are 0. */
typedef struct trirast_clipped {
    trirast_vertex *vertices; /* position_count + cut_capacity */
    float *w;                 /* of each vertex, as many: positive, for weights that are right in perspective */
    uint16_t *marks;          /* position_count: of use to trirast_clip_triangles alone */
    trirast_clip_cut *cuts;   /* cut_capacity: cuts[k] is that of vertices[position_count + k] */
    uint32_t *indices;        /* 3 * triangle_capacity: three a triangle, in the order of the source */
    uint32_t *sources;        /* triangle_capacity: of each triangle, that of the source of which it is a part */
    size_t cut_capacity;      /* TRIRAST_CLIP_MAX_CORNERS are always enough to go on */
    size_t cut_count;
    size_t triangle_capacity; /* TRIRAST_CLIP_MAX_CORNERS are always enough to go on */
    size_t triangle_count;
    size_t taken;  /* triangles of the source that are done. 0: a call begins anew */
    size_t folded; /* polygons that the rounding to 1/256 pixel has folded, so that a part of them is turned over. They
                    * are thinner than 1/256 pixel, and a sample in one may be drawn twice */
} trirast_clipped;

/* What trirast_clip_triangles returns. */
typedef enum trirast_clip_status {
    TRIRAST_CLIP_OK = 0,           /* all triangles of the source are done */
    TRIRAST_CLIP_FULL = 1,         /* what comes of triangle `taken` does not fit */
    TRIRAST_CLIP_BAD_VIEWPORT = 2, /* left, top, width or height is out of range */
    TRIRAST_CLIP_BAD_OPTION = 3,   /* near_plane or sides is none of its enumeration */
    TRIRAST_CLIP_BAD_INDEX = 4,    /* an index of triangle `taken` is not less than position_count */
    TRIRAST_CLIP_TOO_MANY = 5      /* more than 4,294,967,295 triangles, or positions and cut_capacity together */
} trirast_clip_status;

/* Returns a string for a status, as "no such viewport". For any other number it is "unknown status". */
static inline const char *trirast_clip_status_string(trirast_clip_status status) {
    switch (status) {
    case TRIRAST_CLIP_OK: return "ok";
    case TRIRAST_CLIP_FULL: return "an array is full";
    case TRIRAST_CLIP_BAD_VIEWPORT: return "no such viewport";
    case TRIRAST_CLIP_BAD_OPTION: return "no such near plane or sides";
    case TRIRAST_CLIP_BAD_INDEX: return "an index that names no position";
    case TRIRAST_CLIP_TOO_MANY: return "too many positions or triangles";
    }
    return "unknown status";
}

/* ---- Planes. What is named trirast_clipping_* is of use to this header alone, and may change. ---- */

/* The planes, in the order in which they cut. The usual projections leave nothing to IN_FRONT that NEAR keeps. */
enum {
    TRIRAST_CLIPPING_NEAR,
    TRIRAST_CLIPPING_IN_FRONT,
    TRIRAST_CLIPPING_FAR,
    TRIRAST_CLIPPING_LEFT,
    TRIRAST_CLIPPING_RIGHT,
    TRIRAST_CLIPPING_BOTTOM,
    TRIRAST_CLIPPING_TOP,
    TRIRAST_CLIPPING_PLANES
};

/* Marks of a position: a bit for each plane that does not keep it, then one for each side of the viewport that it lies
 * beyond, then one if a coordinate is infinite or not a number. */
#define TRIRAST_CLIPPING_ALL_PLANES ((1u << TRIRAST_CLIPPING_PLANES) - 1)
#define TRIRAST_CLIPPING_NOT_FINITE (1u << (TRIRAST_CLIPPING_PLANES + 4))

/* The least w that is kept, 2^-30, so that nothing is divided by zero. */
#define TRIRAST_CLIPPING_LEAST_W (1.0 / 1073741824.0)

/* A plane keeps a position if factor * w + sign * (its coordinate on the axis) is at least `constant`. The factor is 0
 * or a power of two and the sign 1 or -1, so that products are exact. */
typedef struct trirast_clipping_plane {
    double factor, sign, constant;
    unsigned axis;
} trirast_clipping_plane;

/* What does not change from triangle to triangle. */
typedef struct trirast_clipping {
    trirast_clipping_plane planes[TRIRAST_CLIPPING_PLANES];
    double half[2], centre[2]; /* of the viewport, to the right and downwards, in 1/256 pixel */
    double near_factor;        /* as that of the near plane */
    double near_depth, depth_scale, least_depth, greatest_depth;
} trirast_clipping;

/* Returns a number that is not negative if the plane keeps the position. Its sign is exact. */
static inline double trirast_clipping_distance(const trirast_clipping_plane *plane, const double place[4]) {
    return plane->factor * place[3] + plane->sign * place[plane->axis] - plane->constant;
}

static inline trirast_clipping_plane trirast_clipping_plane_of(double factor, double sign, unsigned axis,
                                                               double constant) {
    trirast_clipping_plane plane;
    plane.factor = factor, plane.sign = sign, plane.axis = axis, plane.constant = constant;
    return plane;
}

/* Returns the largest power of two of half viewports from the middle that fit the positions of a canvas, with a pixel
 * to spare: on the screen, and relative to an origin in the viewport, which is at most half a viewport from the middle.
 */
static inline double trirast_clipping_guard(double half, double centre) {
    const double away = centre < 0 ? -centre : centre, reach = away < half ? half : away;
    double found = 1;
    while (2 * found * half + reach <= 8388607.0 - 256) found *= 2;
    return found;
}

static inline trirast_clip_status trirast_clipping_begin(const trirast_clip *clip, trirast_clipping *view) {
    const int32_t starts[2] = {clip->left, clip->top}, sizes[2] = {clip->width, clip->height};
    const double far_depth = clip->near_depth || clip->far_depth ? clip->far_depth : 65535;
    const double span = far_depth - clip->near_depth;
    int k;
    if (clip->near_plane > TRIRAST_CLIP_NEAR_AT_MINUS_ONE || clip->sides > TRIRAST_CLIP_VIEWPORT)
        return TRIRAST_CLIP_BAD_OPTION;
    view->near_factor = clip->near_plane == TRIRAST_CLIP_NEAR_AT_ZERO ? 0 : 1;
    view->near_depth = clip->near_depth;
    view->depth_scale = span / (1 + view->near_factor);
    view->least_depth = span < 0 ? far_depth : clip->near_depth;
    view->greatest_depth = span < 0 ? clip->near_depth : far_depth;
    view->planes[TRIRAST_CLIPPING_NEAR] = trirast_clipping_plane_of(view->near_factor, 1, 2, 0);
    view->planes[TRIRAST_CLIPPING_IN_FRONT] = trirast_clipping_plane_of(0, 1, 3, TRIRAST_CLIPPING_LEAST_W);
    view->planes[TRIRAST_CLIPPING_FAR] = trirast_clipping_plane_of(1, -1, 2, 0);
    for (k = 0; k < 2; k++) {
        double guard = 1;
        if (starts[k] < -16384 || starts[k] > 16384 || sizes[k] < 1 || sizes[k] > 16384)
            return TRIRAST_CLIP_BAD_VIEWPORT;
        view->half[k] = 128.0 * sizes[k];
        view->centre[k] = 256.0 * starts[k] + 128.0 * sizes[k];
        if (clip->sides == TRIRAST_CLIP_GUARD_BAND) guard = trirast_clipping_guard(view->half[k], view->centre[k]);
        view->planes[TRIRAST_CLIPPING_LEFT + 2 * k] = trirast_clipping_plane_of(guard, 1, (unsigned)k, 0);
        view->planes[TRIRAST_CLIPPING_LEFT + 2 * k + 1] = trirast_clipping_plane_of(guard, -1, (unsigned)k, 0);
    }
    return TRIRAST_CLIP_OK;
}

/* ---- Positions ---- */

static inline unsigned trirast_clipping_marks(const trirast_clipping *view, const double place[4]) {
    const double x = place[0], y = place[1], w = place[3];
    unsigned found = 0, plane;
    for (plane = 0; plane < TRIRAST_CLIPPING_PLANES; plane++)
        found |= (unsigned)(trirast_clipping_distance(&view->planes[plane], place) < 0) << plane;
    found |=
        ((unsigned)(w + x < 0) | (unsigned)(w - x < 0) << 1 | (unsigned)(w + y < 0) << 2 | (unsigned)(w - y < 0) << 3)
        << TRIRAST_CLIPPING_PLANES;
    /* A number minus itself is 0, and of an infinite one it is not a number. */
    if (x - x != 0 || y - y != 0 || place[2] - place[2] != 0 || w - w != 0) found |= TRIRAST_CLIPPING_NOT_FINITE;
    return found;
}

static inline double trirast_clipping_within(double value, double least, double greatest) {
    return value < least ? least : value > greatest ? greatest : value;
}

/* Returns the vertex of a position that all planes keep. Each number is a rounded quotient times a factor, plus an
 * integer. */
static inline trirast_vertex trirast_clipping_snapped(const trirast_clipping *view, const double place[4]) {
    const double w = place[3];
    const double right = nearbyint(place[0] / w * view->half[0]), down = nearbyint(-place[1] / w * view->half[1]);
    const double depth = nearbyint((place[2] + view->near_factor * w) / w * view->depth_scale);
    trirast_vertex found = {0, 0, 0, 0, 0, 0, 0, 0};
    found.x = (int32_t)trirast_clipping_within(right + view->centre[0], -8388608.0, 8388607.0);
    found.y = (int32_t)trirast_clipping_within(down + view->centre[1], -8388608.0, 8388607.0);
    found.depth = (uint16_t)trirast_clipping_within(view->near_depth + depth, view->least_depth, view->greatest_depth);
    return found;
}

/* ---- Polygons ---- */

typedef struct trirast_clipping_corner {
    double place[4];   /* x, y, z, w */
    double weights[3]; /* of the corners of the triangle of the source */
    uint32_t vertex;   /* its index in the source, or TRIRAST_CLIPPING_MADE */
} trirast_clipping_corner;

#define TRIRAST_CLIPPING_MADE UINT32_MAX

typedef struct trirast_clipping_polygon {
    trirast_clipping_corner corners[TRIRAST_CLIP_MAX_CORNERS];
    size_t count;
} trirast_clipping_polygon;

/* Returns 1 if a position stands before another in the order of their coordinates. */
static inline int trirast_clipping_before(const double one[4], const double other[4]) {
    int k;
    for (k = 0; k < 3; k++)
        if (one[k] != other[k]) break;
    return one[k] < other[k];
}

/* Returns the number that lies between two by a share, and not beyond them whatever is rounded: so w stays positive.
 * The product is stored, so that no compiler fuses it with the sum. */
static inline double trirast_clipping_between(double share, double first, double last) {
    volatile double product = share * (last - first);
    return trirast_clipping_within(first + product, first < last ? first : last, first < last ? last : first);
}

/* Returns the point in which a plane cuts the edge between two corners on either side of it. */
static inline trirast_clipping_corner trirast_clipping_cut(const trirast_clipping_plane *plane,
                                                           const trirast_clipping_corner *one,
                                                           const trirast_clipping_corner *other) {
    const int turned = trirast_clipping_before(other->place, one->place);
    const trirast_clipping_corner *from = turned ? other : one, *to = turned ? one : other;
    const double behind = trirast_clipping_distance(plane, from->place);
    const double share = behind / (behind - trirast_clipping_distance(plane, to->place));
    trirast_clipping_corner found;
    int k;
    for (k = 0; k < 4; k++) found.place[k] = trirast_clipping_between(share, from->place[k], to->place[k]);
    for (k = 0; k < 3; k++) found.weights[k] = trirast_clipping_between(share, from->weights[k], to->weights[k]);
    /* What the plane says of a coordinate holds to the last bit. */
    found.place[plane->axis] = plane->sign * (plane->constant - plane->factor * found.place[3]);
    found.vertex = TRIRAST_CLIPPING_MADE;
    return found;
}

/* Writes what a plane keeps of a polygon. */
static inline void trirast_clipping_keep(const trirast_clipping_plane *plane, const trirast_clipping_polygon *polygon,
                                         trirast_clipping_polygon *kept) {
    size_t k;
    kept->count = 0;
    for (k = 0; k < polygon->count; k++) {
        const trirast_clipping_corner *here = &polygon->corners[k];
        const trirast_clipping_corner *next = &polygon->corners[k + 1 < polygon->count ? k + 1 : 0];
        const double at = trirast_clipping_distance(plane, here->place),
                     ahead = trirast_clipping_distance(plane, next->place);
        if (at >= 0) kept->corners[kept->count++] = *here;
        /* An end that lies on the plane is the cut itself. */
        if ((at > 0 && ahead < 0) || (at < 0 && ahead > 0))
            kept->corners[kept->count++] = trirast_clipping_cut(plane, here, next);
    }
}

/* ---- Polygons on the screen, cut into triangles ---- */

static inline int64_t trirast_clipping_doubled_area(const trirast_vertex *a, const trirast_vertex *b,
                                                    const trirast_vertex *c) {
    return ((int64_t)b->x - a->x) * ((int64_t)c->y - a->y) - ((int64_t)b->y - a->y) * ((int64_t)c->x - a->x);
}

/* The corners that are left of a polygon. Rounding to 1/256 pixel may bend a side inwards, so a fan from the first
 * corner could have triangles that lie upon each other. */
typedef struct trirast_clipping_ears {
    const trirast_vertex *corners;
    uint8_t order[TRIRAST_CLIP_MAX_CORNERS];
    size_t left;
    int64_t sense; /* the sign of the polygon's area */
} trirast_clipping_ears;

static inline trirast_clipping_ears trirast_clipping_ears_of(const trirast_vertex *corners, size_t count) {
    trirast_clipping_ears found;
    int64_t area = 0;
    size_t k;
    for (k = 0; k < count; k++) found.order[k] = (uint8_t)k;
    for (k = 1; k + 1 < count; k++) area += trirast_clipping_doubled_area(&corners[0], &corners[k], &corners[k + 1]);
    found.corners = corners, found.left = count, found.sense = area < 0 ? -1 : 1;
    return found;
}

/* Returns the doubled area of three of the corners that are left, positive in the polygon's sense. */
static inline int64_t trirast_clipping_area(const trirast_clipping_ears *ears, size_t a, size_t b, size_t c) {
    const uint8_t *order = ears->order;
    const size_t left = ears->left;
    return ears->sense * trirast_clipping_doubled_area(&ears->corners[order[a % left]], &ears->corners[order[b % left]],
                                                       &ears->corners[order[c % left]]);
}

/* Returns 1 if the corner behind `first` can be cut off: it does not bend inwards, no other corner lies in what is cut
 * off, and a triangle that is left is not turned over. */
static inline int trirast_clipping_is_ear(const trirast_clipping_ears *ears, size_t first) {
    const size_t a = first, b = first + 1, c = first + 2;
    size_t k;
    if (trirast_clipping_area(ears, a, b, c) < 0) return 0;
    for (k = first + 3; k < first + ears->left; k++)
        if (trirast_clipping_area(ears, a, b, k) > 0 && trirast_clipping_area(ears, b, c, k) > 0 &&
            trirast_clipping_area(ears, c, a, k) > 0)
            return 0;
    return ears->left != 4 || trirast_clipping_area(ears, a, c, first + 3) >= 0;
}

/* Cuts off a triangle, and writes its corners. If the polygon is folded, so that there is no ear, adds to `folds`. */
static inline void trirast_clipping_next_ear(trirast_clipping_ears *ears, uint8_t ear[3], size_t *folds) {
    size_t best = 0, k;
    while (best < ears->left && !trirast_clipping_is_ear(ears, best)) best++;
    if (best == ears->left) best = 0, ++*folds;
    for (k = 0; k < 3; k++) ear[k] = ears->order[(best + k) % ears->left];
    ears->left--;
    for (k = (best + 1) % (ears->left + 1); k < ears->left; k++) ears->order[k] = ears->order[k + 1];
}

/* ---- Triangles ---- */

static inline void trirast_clipping_add(trirast_clipped *out, uint32_t a, uint32_t b, uint32_t c, uint32_t source) {
    uint32_t *corners = &out->indices[3 * out->triangle_count];
    corners[0] = a, corners[1] = b, corners[2] = c;
    out->sources[out->triangle_count++] = source;
}

/* Adds a polygon that all planes keep. Returns 0, and adds nothing, if it does not fit. */
static inline int trirast_clipping_add_polygon(const trirast_clipping *view, const trirast_clipping_polygon *polygon,
                                               uint32_t source, size_t position_count, trirast_clipped *out) {
    trirast_vertex corners[TRIRAST_CLIP_MAX_CORNERS];
    uint32_t vertices[TRIRAST_CLIP_MAX_CORNERS];
    trirast_clipping_ears ears;
    size_t made = 0, folds = 0, k;
    for (k = 0; k < polygon->count; k++) made += polygon->corners[k].vertex == TRIRAST_CLIPPING_MADE;
    if (made > out->cut_capacity - out->cut_count || polygon->count - 2 > out->triangle_capacity - out->triangle_count)
        return 0;
    for (k = 0; k < polygon->count; k++) {
        const trirast_clipping_corner *corner = &polygon->corners[k];
        vertices[k] = corner->vertex;
        if (corner->vertex == TRIRAST_CLIPPING_MADE) {
            trirast_clip_cut *cut = &out->cuts[out->cut_count];
            vertices[k] = (uint32_t)(position_count + out->cut_count++);
            out->vertices[vertices[k]] = trirast_clipping_snapped(view, corner->place);
            out->w[vertices[k]] = (float)corner->place[3];
            cut->triangle = source;
            cut->weights[0] = corner->weights[0], cut->weights[1] = corner->weights[1],
            cut->weights[2] = corner->weights[2];
        }
        corners[k] = out->vertices[vertices[k]];
    }
    ears = trirast_clipping_ears_of(corners, polygon->count);
    while (ears.left > 2) {
        uint8_t ear[3];
        trirast_clipping_next_ear(&ears, ear, &folds);
        trirast_clipping_add(out, vertices[ear[0]], vertices[ear[1]], vertices[ear[2]], source);
    }
    out->folded += folds > 0;
    return 1;
}

/* Cuts a triangle by the planes of which `planes` has the bits, and adds what is left. Returns 0 if it does not fit.
 *
 * The planes are those that a corner is behind, and no others: rounding errors would cut parts off a triangle that lies
 * in a plane, as a sky whose z is w. */
static inline int trirast_clipping_add_cut(const trirast_clipping *view, const trirast_clip_position *positions,
                                           size_t position_count, const uint32_t *corners, unsigned planes,
                                           uint32_t source, trirast_clipped *out) {
    trirast_clipping_polygon polygons[2];
    unsigned now = 0, plane;
    int k;
    polygons[0].count = 3;
    for (k = 0; k < 3; k++) {
        const trirast_clip_position *position = &positions[corners[k]];
        const trirast_clipping_corner corner = {{position->x, position->y, position->z, position->w},
                                                {(double)(k == 0), (double)(k == 1), (double)(k == 2)},
                                                corners[k]};
        polygons[0].corners[k] = corner;
    }
    for (plane = 0; plane < TRIRAST_CLIPPING_PLANES; plane++)
        if (planes >> plane & 1) {
            trirast_clipping_keep(&view->planes[plane], &polygons[now], &polygons[1 - now]);
            now = 1 - now;
            if (polygons[now].count < 3) return 1;
        }
    return trirast_clipping_add_polygon(view, &polygons[now], source, position_count, out);
}

static inline void trirast_clipping_project(const trirast_clipping *view, const trirast_clip_position *positions,
                                            size_t position_count, trirast_clipped *out) {
    const trirast_vertex none = {0, 0, 0, 0, 0, 0, 0, 0};
    size_t k;
    for (k = 0; k < position_count; k++) {
        const double place[4] = {positions[k].x, positions[k].y, positions[k].z, positions[k].w};
        const unsigned marks = trirast_clipping_marks(view, place);
        out->marks[k] = (uint16_t)marks;
        out->w[k] = positions[k].w;
        out->vertices[k] = marks & (TRIRAST_CLIPPING_ALL_PLANES | TRIRAST_CLIPPING_NOT_FINITE)
                               ? none
                               : trirast_clipping_snapped(view, place);
    }
}

/* Adds what is left of the triangles from `taken` to before `end`. Returns as trirast_clip_triangles does. */
static inline trirast_clip_status trirast_clipping_add_triangles(const trirast_clipping *view,
                                                                 const trirast_clip_position *positions,
                                                                 size_t position_count, const uint32_t *indices,
                                                                 size_t end, trirast_clipped *out) {
    for (; out->taken < end; out->taken++) {
        const uint32_t *corners = &indices[3 * out->taken], source = (uint32_t)out->taken;
        unsigned a, b, c;
        if (corners[0] >= position_count || corners[1] >= position_count || corners[2] >= position_count)
            return TRIRAST_CLIP_BAD_INDEX;
        a = out->marks[corners[0]], b = out->marks[corners[1]], c = out->marks[corners[2]];
        if (a & b & c || (a | b | c) & TRIRAST_CLIPPING_NOT_FINITE) continue;
        if ((a | b | c) & TRIRAST_CLIPPING_ALL_PLANES) {
            const unsigned planes = (a | b | c) & TRIRAST_CLIPPING_ALL_PLANES;
            if (!trirast_clipping_add_cut(view, positions, position_count, corners, planes, source, out))
                return TRIRAST_CLIP_FULL;
        } else {
            if (out->triangle_count == out->triangle_capacity) return TRIRAST_CLIP_FULL;
            trirast_clipping_add(out, corners[0], corners[1], corners[2], source);
        }
    }
    return TRIRAST_CLIP_OK;
}

/* Makes the triangles on the screen of triangles in clip space.
 *
 * A triangle that a plane does not cut keeps its indices, so a mesh that nothing cuts comes out as it went in.
 * Triangles that cover no sample of the viewport may be left out, and those with a coordinate that is infinite or not a
 * number are.
 *
 * The call allocates nothing. If an array is full, it returns TRIRAST_CLIP_FULL. Then enlarge the arrays, or draw what
 * is in them and set cut_count and triangle_count to 0; and call again with the same positions and indices, which goes
 * on with triangle `taken`.
 *
 * @clip: how to project.
 * @positions, @position_count: the vertices of the source.
 * @indices, @index_count: its triangles, three indices each. One or two that are over are not read.
 * @out: the arrays, and how much is in them. If taken is 0, the call begins with arrays that are empty.
 *
 * Returns TRIRAST_CLIP_OK; TRIRAST_CLIP_BAD_OPTION, TRIRAST_CLIP_BAD_VIEWPORT or TRIRAST_CLIP_TOO_MANY, after which
 * nothing was written; or TRIRAST_CLIP_BAD_INDEX or TRIRAST_CLIP_FULL, after which the triangles before `taken` are
 * done. */
static inline trirast_clip_status trirast_clip_triangles(const trirast_clip *clip,
                                                         const trirast_clip_position *positions, size_t position_count,
                                                         const uint32_t *indices, size_t index_count,
                                                         trirast_clipped *out) {
    const size_t triangles = index_count / 3;
    trirast_clipping view;
    const trirast_clip_status status = trirast_clipping_begin(clip, &view);
    if (status != TRIRAST_CLIP_OK) return status;
    if (position_count > UINT32_MAX || out->cut_capacity > UINT32_MAX - position_count || triangles > UINT32_MAX)
        return TRIRAST_CLIP_TOO_MANY;
    if (out->taken == 0) {
        out->cut_count = out->triangle_count = out->folded = 0;
        trirast_clipping_project(&view, positions, position_count, out);
    }
    return trirast_clipping_add_triangles(&view, positions, position_count, indices, triangles, out);
}

#if defined(__cplusplus) && defined(__GNUC__)
#pragma GCC diagnostic pop
#endif

#endif
