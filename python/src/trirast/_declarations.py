"""The structs of include/trirast.h by ctypes, and the types of its calls.

Written by `python3 -m tools.interface` from that header.
"""

import ctypes
from typing import Any, Dict, List, Tuple

BYTE, HALF, WORD, SIGNED = ctypes.c_uint8, ctypes.c_uint16, ctypes.c_uint32, ctypes.c_int32
LONG, COUNT, POINTER, TEXT = ctypes.c_int64, ctypes.c_size_t, ctypes.c_void_p, ctypes.c_char_p
to = ctypes.POINTER


def fields(kind: Any, names: str) -> List[Tuple[str, Any]]:
    """Fields of one type."""
    return [(name, kind) for name in names.split()]


class CError(ctypes.Structure):
    """trirast_error of the header."""

    _fields_ = [*fields(WORD, "status cause"), *fields(COUNT, "draw element value")]


class CBlend(ctypes.Structure):
    """trirast_blend of the header."""

    _fields_ = [
        *fields(BYTE, "color_source color_stored color_operation alpha_source alpha_stored alpha_operation"),
        ("constant", 4 * BYTE),
    ]


class CVertex(ctypes.Structure):
    """trirast_vertex of the header."""

    _fields_ = [*fields(SIGNED, "x y"), ("depth", HALF), *fields(BYTE, "red green blue alpha"), ("unused", HALF)]


class CDraw(ctypes.Structure):
    """trirast_draw of the header."""

    _fields_ = [
        *fields(COUNT, "vertex_count index_count"),
        *fields(BYTE, "topology cull depth_test depth_write keep scissor_enable"), ("skip_samples", HALF),
        *fields(SIGNED, "scissor_left scissor_top scissor_right scissor_bottom"), ("blend", CBlend),
    ]


class CBatch(ctypes.Structure):
    """trirast_batch of the header. `kept` is what its pointers point to."""

    kept: Tuple[Any, ...]
    _fields_ = [
        *fields(WORD, "struct_size vertex_stride index_size"), ("draws", POINTER), ("draw_count", COUNT),
        ("vertices", POINTER), ("vertex_count", COUNT), ("indices", POINTER), ("index_count", COUNT),
    ]


class CCanvas(ctypes.Structure):
    """trirast_canvas of the header. `kept` is what its pointers point to."""

    kept: Tuple[Any, ...]
    _fields_ = [
        *fields(WORD, "struct_size width height samples channels"), *fields(SIGNED, "origin_x origin_y"),
        *fields(WORD, "first end initialized"), ("memory", POINTER), ("plane_count", COUNT),
    ]


class CClear(ctypes.Structure):
    """trirast_clear of the header."""

    _fields_ = [*fields(BYTE, "red green blue alpha"), *fields(HALF, "depth unused")]


class CCorner(ctypes.Structure):
    """trirast_corner of the header."""

    _fields_ = fields(SIGNED, "x y")


class CBox(ctypes.Structure):
    """trirast_box of the header."""

    _fields_ = fields(SIGNED, "left top right bottom")


class CPolygons(ctypes.Structure):
    """trirast_polygons of the header. `kept` is what its pointers point to."""

    kept: Tuple[Any, ...]
    _fields_ = [
        *fields(WORD, "struct_size fill_rule"), ("corners", POINTER), ("corner_count", COUNT), ("ring_ends", POINTER),
        ("ring_count", COUNT), ("polygon_ends", POINTER), ("polygon_count", COUNT), ("colors", POINTER),
        ("color_count", COUNT), ("depths", POINTER), ("depth_count", COUNT), ("boxes", POINTER), ("box_count", COUNT),
        ("state", CDraw),
    ]


class CScratchLayout(ctypes.Structure):
    """trirast_scratch_layout of the header."""

    _fields_ = fields(COUNT, "flag_columns counter_columns counters_at size")


class CCorners(ctypes.Structure):
    """trirast_corners of the header."""

    _fields_ = fields(SIGNED, "ax ay bx by cx cy")


class CPoint(ctypes.Structure):
    """trirast_point of the header."""

    _fields_ = fields(SIGNED, "x y")


class CEdges(ctypes.Structure):
    """trirast_edges of the header."""

    _fields_ = [*fields(LONG, "a b c doubled_area"), ("covered", ctypes.c_uint64)]


class CImageInfo(ctypes.Structure):
    """trirast_image_info of the header."""

    _fields_ = [*fields(WORD, "width height pixel_bytes header_bytes"), ("file_bytes", ctypes.c_uint64)]


class CStored(ctypes.Structure):
    """trirast_stored of the header."""

    _fields_ = fields(WORD, "red green blue depth")


class CFragment(ctypes.Structure):
    """trirast_fragment of the header."""

    _fields_ = fields(WORD, "red green blue alpha depth")


class CEvent(ctypes.Structure):
    """trirast_event of the header."""

    _fields_ = [
        *fields(LONG, "doubled_area edge_ab edge_bc edge_ca"), *fields(COUNT, "number draw triangle"),
        *fields(WORD, "failure_ab failure_bc failure_ca result reasons writes covered"), ("fragment", CFragment),
        *fields(CStored, "before after"),
    ]


class CSampleInfo(ctypes.Structure):
    """trirast_sample_info of the header."""

    _fields_ = [
        ("event_count", COUNT), *fields(WORD, "samples output"), *fields(SIGNED, "x y"), *fields(CStored, "begin end"),
    ]


class CHistoryRequest(ctypes.Structure):
    """trirast_history_request of the header."""

    _fields_ = fields(WORD, "struct_size event_size info_size x y sample all")


class CSampleCounts(ctypes.Structure):
    """trirast_sample_counts of the header."""

    _fields_ = fields(WORD, "covered changed shown")


# Of each call that returns a status its parameters, and of each other one also its result.
STATUSES: Dict[str, List[Any]] = {
    "trirast_canvas_init": [to(CCanvas), POINTER, COUNT],
    "trirast_canvas_split": [to(CCanvas), WORD, WORD, to(CCanvas)],
    "trirast_canvas_clear": [to(CCanvas), to(CClear)],
    "trirast_canvas_load": [to(CCanvas), WORD, POINTER, COUNT, COUNT],
    "trirast_canvas_draw": [to(CCanvas), to(CBatch), to(CError)],
    "trirast_canvas_draw_ids": [to(CCanvas), to(CBatch), WORD, to(CError)],
    "trirast_polygons_measure": [to(CPolygons), POINTER, COUNT, to(CError)],
    "trirast_canvas_draw_polygons": [to(CCanvas), to(CPolygons), POINTER, COUNT, to(CError)],
    "trirast_canvas_draw_polygon_ids": [to(CCanvas), to(CPolygons), WORD, POINTER, COUNT, to(CError)],
    "trirast_canvas_resolve": [to(CCanvas), WORD, POINTER, COUNT, COUNT],
    "trirast_canvas_depths": [to(CCanvas), WORD, POINTER, COUNT, COUNT],
    "trirast_canvas_ids": [to(CCanvas), WORD, POINTER, COUNT, COUNT],
    "trirast_canvas_colors": [to(CCanvas), WORD, WORD, POINTER, COUNT, COUNT],
    "trirast_canvas_store": [to(CCanvas), WORD, WORD, POINTER, COUNT, COUNT],
    "trirast_canvas_tile_ids": [to(CCanvas), WORD, WORD, POINTER, COUNT, to(WORD)],
    "trirast_canvas_tile_store": [to(CCanvas), WORD, WORD, POINTER, COUNT],
    "trirast_canvas_tile_blend": [to(CCanvas), WORD, WORD, to(CDraw), POINTER, COUNT, POINTER, COUNT, POINTER, COUNT],
    "trirast_edges_at_point": [to(CCorners), SIGNED, SIGNED, to(CEdges)],
    "trirast_edges_at": [to(CCorners), POINTER, COUNT, COUNT, POINTER],
    "trirast_list_info": [TEXT, COUNT, to(CImageInfo), to(CError)],
    "trirast_list_draw": [TEXT, COUNT, WORD, POINTER, COUNT, to(CError)],
    "trirast_list_draw_rows": [TEXT, COUNT, WORD, WORD, WORD, POINTER, COUNT, to(CError)],
    "trirast_list_history": [TEXT, COUNT, to(CHistoryRequest), POINTER, COUNT, to(CSampleInfo), to(CError)],
    "trirast_list_triangle_samples": [TEXT, COUNT, COUNT, COUNT, to(CSampleCounts), to(CError)],
}
OTHERS: Dict[str, Tuple[List[Any], Any]] = {
    "trirast_version_string": ([], TEXT),
    "trirast_interface": ([], WORD),
    "trirast_status_string": ([WORD], TEXT),
    "trirast_error_message": ([to(CError), POINTER, COUNT], COUNT),
    "trirast_canvas_size": ([to(CCanvas)], COUNT),
    "trirast_canvas_tile_rows": ([to(CCanvas)], WORD),
    "trirast_polygons_scratch": ([to(CCanvas), WORD], COUNT),
}
