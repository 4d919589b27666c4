/* trirast for C++17 and later: canvases, polygons, edge functions and draw lists over trirast.h, which says what each
 * call does. docs/reference/calls.md has examples.
 *
 * Memory is freed by destructors, arrays are spans, and errors are exceptions. Nothing is added to what the library
 * does: each function here is one call, or one on each part of a canvas, and a call that throws has changed nothing.
 *
 * Include this header; its parts lie in the folder trirast beside it.
 */
#ifndef TRIRAST_HPP
#define TRIRAST_HPP

#include "trirast.h"
#include "trirast/canvas.hpp"
#include "trirast/edges.hpp"
#include "trirast/error.hpp"
#include "trirast/list.hpp"
#include "trirast/polygons.hpp"
#include "trirast/span.hpp"
#include "trirast/state.hpp"
#include "trirast/tile_rows.hpp"
#include "trirast/values.hpp"

#endif
