"""What no parameter takes: each call raises a TypeError, a ValueError or an error of the package, whose message names
the parameter, or takes it as a number."""

import ctypes
import unittest
from array import array
from decimal import Decimal
from fractions import Fraction
from typing import Any, Callable, Dict, List, Tuple

import trirast

from .common import DRAW_LIST, NUMPY, VERTICES

KINDS = (TypeError, ValueError, trirast.Error)
SQUARE = [(0, 0), (512, 0), (512, 512), (0, 512)]


class Unhashable(str):
    """A text without a hash."""

    __hash__ = None  # type: ignore[assignment]

    def __eq__(self, other: object) -> bool:
        return False


def views() -> List[Any]:
    """Of several dimensions, of none, and of formats that Python does not read."""
    made = [memoryview(bytearray(24)).cast("B", shape=shape) for shape in ([2, 3, 4], [4, 3, 2], [3, 8], [24, 1])]
    made += [memoryview(bytearray(8)).cast("i", shape=[1, 1, 2]), memoryview(ctypes.c_int(5)), memoryview(b"")]
    swapped: Any = ctypes.c_int32
    big: Any = (swapped.__ctype_be__ * 2 * 3)()
    return made + [big, memoryview(big), (ctypes.c_void_p * 3)(), memoryview((ctypes.c_longdouble * 3)())]


def oddities() -> List[Any]:
    numbers: List[Any] = [
        10**400, -(10**400), 10**5000, -(10**5000), 1 << 31, 1 << 32, 1 << 63, 1 << 64, -1, 0.5, float("nan"),
        float("inf"), -float("inf"), 1e308, 1j, Decimal(1), Decimal("sNaN"), Fraction(1, 3), True,
    ]
    texts: List[Any] = ["", "x", "\ud800", Unhashable("over"), b"", b"123", bytearray(b"1"), "9" * 5000]
    others: List[Any] = [None, [], {}, set(), (), object(), type, iter([]), {0: 1, 1: 2, 2: 3}, {1, 2, 3}, array("d")]
    nested: List[Any] = [[each] for each in numbers] + [[[each, each]] for each in numbers]
    nested += [[each] * 3 for each in numbers[:6]] + [[[each] * 4] * 3 for each in numbers[:6]]
    nested += [[None], [[None, None]], [[]], [[[]]], [[1, 2], [3]], ["ab"], [{}], [set()]]
    if NUMPY is not None:
        np = NUMPY
        nested += [
            np.zeros((2, 3, 4)), np.zeros((1, 2, 2), int), np.array(5), np.array(0.5), np.array([None, 5]),
            np.array([10**400]), np.array([[10**400, 0]]), np.array(["a"]), np.zeros(3, "M8[s]"), np.zeros(2, "c16"),
            np.ma.masked_array([1, 2], [0, 1]), np.zeros(3, [("x", "O"), ("y", "O")]), np.zeros((0, 2)),
            np.zeros((2, 0)), np.zeros(3, [("x", "i4"), ("y", "i4", 2)]), np.float64("nan"), np.zeros(2, np.longdouble),
        ]
    return numbers + texts + others + nested + views()


def calls() -> Dict[str, Tuple[Callable[..., Any], Dict[str, Any]]]:
    """Public calls with arguments that they take."""
    canvas = trirast.Canvas(5, 70, samples=2)
    triangle = {"vertices": VERTICES, "triangles": [(0, 1, 2)]}
    state = {"colors": (1, 2, 3), "depth": 5, "blend": "over", "cull": "none", "depth_test": "less", "keep": "r"}
    state.update(depth_write=True, sample_mask=3, scissor=(0, 0, 9, 9))
    polygon: Dict[str, Any] = {"corners": SQUARE, "ring_ends": [4], "polygon_ends": [1]}
    of_polygon = {name: value for name, value in state.items() if name != "cull"}
    some: Dict[str, Tuple[Callable[..., Any], Dict[str, Any]]] = {
        "Canvas": (trirast.Canvas, {"width": 5, "height": 5, "samples": 1, "alpha": True, "origin": (0, 0)}),
        "memory": (trirast.Canvas, {"width": 5, "height": 5, "memory": bytearray(99999)}),
        "size": (trirast.Canvas.size, {"width": 5, "height": 5, "samples": 1}),
        "clear": (canvas.clear, {"color": (1, 2, 3), "depth": 5, "threads": 2}),
        "load": (canvas.load, {"image": bytes(1050), "format": "rgb", "threads": 2}),
        "store": (canvas.store, {"image": bytes(1050), "sample": 1, "format": "rgb", "threads": 2}),
        "Draw": (trirast.Draw, {**triangle, **state}),
        "strip": (canvas.draw, {"vertices": VERTICES, "strip": [0, 1, 2], "first_id": 0, "threads": 2}),
        "quads": (canvas.draw, {"vertices": SQUARE, "quads": [(0, 1, 2, 3)]}),
        "draw_batch": (canvas.draw_batch, {"draws": [trirast.Draw(VERTICES)], "first_id": 0, "threads": 2}),
        "draw_polygons": (canvas.draw_polygons, {**polygon, **of_polygon, "rule": "nonzero", "threads": 2}),
        "by_boxes": (canvas.draw_polygons, {**polygon, "boxes": [(0, 0, 512, 512)], "first_id": 0}),
        "polygon_boxes": (trirast.polygon_boxes, polygon),
        "rgb": (canvas.rgb, {"out": bytearray(1050), "threads": 2}),
        "rgba": (canvas.rgba, {"straight": True}),
        "depth": (canvas.depth, {"sample": 1, "out": array("H", bytes(700))}),
        "colors": (canvas.colors, {"sample": 1, "format": "rgb", "threads": 2}),
        "draw": (trirast.draw, {"draw_list": DRAW_LIST, "tile_size": 8, "threads": 2, "out": bytearray(27)}),
        "draw_file": (trirast.draw_file, {"draw_list": DRAW_LIST, "tile_size": 8}),
        "why": (trirast.why, {"draw_list": DRAW_LIST, "x": 1, "y": 1, "sample": 0, "all_triangles": True}),
        "triangle_samples": (trirast.triangle_samples, {"draw_list": DRAW_LIST, "draw": 0, "triangle": 0}),
        "snap": (trirast.snap, {"xy": [(0.5, 1)], "scale": 2}),
        "edges_at": (trirast.edges_at, {"a": (0, 0), "b": (512, 0), "c": (0, 512), "points": [(1, 1)]}),
        "pixel": (trirast.draw(DRAW_LIST).pixel, {"column": 1, "row": 1}),
        "save": (canvas.save, {"path": "/no folder/a.png", "dpi": 5}),
    }
    for name in trirast.Blend._fields:
        made = trirast.Blend()._asdict()
        some[f"Blend.{name}"] = (
            lambda name=name, **more: trirast.Draw(VERTICES, blend=trirast.Blend(**more)), {name: made[name]}
        )
    if NUMPY is not None:
        clip = {"viewport": (0, 0, 5, 5), "near_plane": "zero", "sides": "viewport", "depths": (0, 9)}
        places = [(0, 0, 0, 1), (1, 0, 0, 1), (0, 1, 0, 1)]
        some["clip"] = (trirast.clip, {"positions": places, "triangles": [(0, 1, 2)], **clip})
        seen = trirast.clip(places, [(0, 1, 2)], (0, 0, 5, 5))
        shown = trirast.Canvas(5, 70, samples=2)
        shown.clear((255, 255, 255))
        shown.draw(seen.vertices, seen.triangles, first_id=0)
        whole: Dict[str, Any] = {"vertices": seen.vertices, "triangles": seen.triangles, "w": seen.w}
        found = shown.fragments(**whole)
        some["attributes"] = (seen.attributes, {"values": [1, 2, 3]})
        some["fragments"] = (shown.fragments, {**whole, "rate": "pixel", "tile": (0, 1), "threads": 2})
        some["value"] = (found.value, {"values": [1, 2, 3]})
        some["picture"] = (found.picture, {"colors": [(1, 2, 3)] * len(found.id), "background": (1, 2, 3)})
        some["shade"] = (shown.shade, {"fragments": found, "colors": [(1, 2, 3)] * len(found.id), "threads": 2})
    return some


class Oddities(unittest.TestCase):
    def test_are_refused_by_an_error_of_their_kind(self) -> None:
        for name, (call, given) in calls().items():
            for parameter in given:
                for value in oddities():
                    try:
                        call(**{**given, parameter: value})
                    except KINDS as error:
                        # json itself says so of an integer in a list.
                        is_of_python = "Exceeds the limit" in str(error) and parameter != "draw_list"
                        self.assertFalse(is_of_python, (name, parameter))
                    except (OSError, IndexError) as error:
                        self.assertEqual(name, "save" if isinstance(error, OSError) else "pixel", error)
                    except Exception as error:
                        self.fail(f"{name}: {parameter}: {value!r:.60}: {error!r}")


if __name__ == "__main__":
    unittest.main()
