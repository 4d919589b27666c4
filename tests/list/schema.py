"""Tries docs/draw-list.schema.json on the examples, on refused lists, and on what a schema cannot refuse.

    python3 -m tests.list.schema

It needs python's package jsonschema with draft 2020-12 (4.0 or later). Exit status 0 if all is as the tables below
say, 1 if something is not, 77 if the package is missing. The reader is tests/reference/renderer.py, so that the tables
stay true of the rules.
"""

from __future__ import annotations

import json
import sys
from typing import Any, Callable

from tools import places
from tests.reference import renderer
from tools.counts import MISSING
from tools.draw_list import DrawList

VERTEX = [0, 0, 0, 255, 255, 255, 255]


def scene(**changes: Any) -> DrawList:
    """A list that is accepted, with changes. A change to None takes the key away."""
    return without({"width": 2, "height": 2, "draws": [], **changes})


def draw(**changes: Any) -> DrawList:
    """A list with one draw that is accepted, with changes in the draw."""
    return scene(draws=[without({"vertices": [VERTEX] * 3, "triangles": [[0, 1, 2]], **changes})])


def without(value: dict[str, Any]) -> dict[str, Any]:
    return {key: element for key, element in value.items() if element is not None}


def vertex(index: int, number: float) -> DrawList:
    """A list with one vertex in which one number is changed."""
    changed: list[float] = [*VERTEX]
    changed[index] = number
    return draw(vertices=[changed, VERTEX, VERTEX])


def square(**faces: Any) -> DrawList:
    """A list with one draw over the corners of a square."""
    corners = [[x, y, *VERTEX[2:]] for x, y in ((0, 0), (256, 0), (256, 256), (0, 256))]
    return draw(vertices=corners, triangles=None, **faces)


# Lists that are accepted at the ends of their ranges.
ACCEPTED: list[tuple[str, DrawList]] = [
    ("no draws", scene()),
    ("the largest picture", scene(width=4096, height=4096)),
    ("four samples", scene(samples=4)),
    ("a clear colour and depth", scene(clear=[0, 128, 255], clear_depth=0)),
    ("the most draws", scene(draws=[{"vertices": [], "triangles": []}] * 1024)),
    ("the most vertices", draw(vertices=[VERTEX] * 65536)),
    ("the most triangles", draw(triangles=[[0, 1, 2]] * 65536)),
    ("vertices that no triangle names", draw(triangles=[])),
    ("an index that repeats", draw(triangles=[[0, 0, 0]])),
    ("the ends of the guard band", draw(vertices=[[-8388608, 8388607, 65535, 0, 0, 0, 0]] * 3)),
    ("a picture of depths", scene(output="depth")),
    ("a picture of colours", scene(output="color")),
    ("no indices of a strip", draw(triangles=None, strip=[])),
    ("the most indices of a strip", draw(triangles=None, strip=[0] * 65538)),
    ("no quads", draw(triangles=None, quads=[])),
    ("the most quads", square(quads=[[0, 1, 2, 3]] * 32768)),
    ("every key of a draw", draw(cull="back", depth_test="less_equal", depth_write=True, blend="over",
                                 write=[True, False, True], sample_mask=0, scissor=[0, 0, 4096, 4096])),
    ("an empty scissor", draw(scissor=[3, 0, 0, 3])),
]

# Lists that reader and schema refuse: why, the list, and the error of the reader.
REFUSED: list[tuple[str, Any, str]] = [
    ("no object", [], "4 WrongKind"),
    ("no object", None, "4 WrongKind"),
    ("an unknown key", scene(fog=1), "2 UnknownKey"),
    ("a key in other case", scene(Width=2), "2 UnknownKey"),
    ("width missing", scene(width=None), "3 MissingKey"),
    ("height missing", scene(height=None), "3 MissingKey"),
    ("draws missing", scene(draws=None), "3 MissingKey"),
    ("width no number", scene(width="2"), "4 WrongKind"),
    ("width a truth value", scene(width=True), "4 WrongKind"),
    ("width not whole", scene(width=1.5), "4 WrongKind"),
    ("width 0", scene(width=0), "5 OutOfRange"),
    ("width 4097", scene(width=4097), "5 OutOfRange"),
    ("height 0", scene(height=0), "5 OutOfRange"),
    ("height 4097", scene(height=4097), "5 OutOfRange"),
    ("two samples", scene(samples=2), "5 OutOfRange"),
    ("samples a text", scene(samples="4"), "4 WrongKind"),
    ("a clear colour of two channels", scene(clear=[0, 0]), "4 WrongKind"),
    ("a clear colour of four channels", scene(clear=[0, 0, 0, 0]), "4 WrongKind"),
    ("a clear channel of 256", scene(clear=[0, 0, 256]), "5 OutOfRange"),
    ("a clear channel under 0", scene(clear=[-1, 0, 0]), "5 OutOfRange"),
    ("a clear channel that is a text", scene(clear=[0, "0", 0]), "4 WrongKind"),
    ("a clear depth of 65536", scene(clear_depth=65536), "5 OutOfRange"),
    ("a clear depth under 0", scene(clear_depth=-1), "5 OutOfRange"),
    ("draws no array", scene(draws={}), "4 WrongKind"),
    ("1025 draws", scene(draws=[{"vertices": [], "triangles": []}] * 1025), "7 TooMany"),
    ("a draw that is no object", scene(draws=[[]]), "4 WrongKind in draw 0"),
    ("an unknown key of a draw", draw(strips=[0, 1, 2]), "2 UnknownKey in draw 0"),
    ("output a number", scene(output=0), "4 WrongKind"),
    ("output in other case", scene(output="Depth"), "5 OutOfRange"),
    ("triangles and a strip", draw(strip=[0, 1, 2]), "9 TwoLists in draw 0"),
    ("triangles and quads", draw(quads=[]), "9 TwoLists in draw 0"),
    ("a strip and quads", draw(triangles=None, strip=[], quads=[]), "9 TwoLists in draw 0"),
    ("all three lists", draw(strip=[], quads=[]), "9 TwoLists in draw 0"),
    ("a strip of triangles", draw(triangles=None, strip=[[0, 1, 2]]), "4 WrongKind in draw 0"),
    ("65539 indices of a strip", draw(triangles=None, strip=[0] * 65539), "7 TooMany in draw 0"),
    ("an index of a strip under 0", draw(triangles=None, strip=[0, 1, -1]), "6 BadIndex in draw 0"),
    ("a quad of three", square(quads=[[0, 1, 2]]), "4 WrongKind in draw 0"),
    ("a corner that is a text", square(quads=[[0, 1, 2, "3"]]), "4 WrongKind in draw 0"),
    ("a corner of 65536", square(quads=[[0, 1, 2, 65536]]), "6 BadIndex in draw 0"),
    ("32769 quads", square(quads=[[0, 1, 2, 3]] * 32769), "7 TooMany in draw 0"),
    ("vertices missing", draw(vertices=None), "3 MissingKey in draw 0"),
    ("triangles missing", draw(triangles=None), "3 MissingKey in draw 0"),
    ("cull in other case", draw(cull="Back"), "5 OutOfRange in draw 0"),
    ("cull a number", draw(cull=0), "4 WrongKind in draw 0"),
    ("no such depth test", draw(depth_test="lequal"), "5 OutOfRange in draw 0"),
    ("depth write a number", draw(depth_write=1), "4 WrongKind in draw 0"),
    ("no such blending", draw(blend="add"), "5 OutOfRange in draw 0"),
    ("a write mask of four", draw(write=[True] * 4), "4 WrongKind in draw 0"),
    ("a write mask of numbers", draw(write=[1, 1, 1]), "4 WrongKind in draw 0"),
    ("a sample mask of 16", draw(sample_mask=16), "5 OutOfRange in draw 0"),
    ("a sample mask under 0", draw(sample_mask=-1), "5 OutOfRange in draw 0"),
    ("a scissor of three", draw(scissor=[0, 0, 2]), "4 WrongKind in draw 0"),
    ("a scissor to 4097", draw(scissor=[0, 0, 4097, 2]), "5 OutOfRange in draw 0"),
    ("a scissor from -1", draw(scissor=[-1, 0, 2, 2]), "5 OutOfRange in draw 0"),
    ("vertices no array", draw(vertices="abc"), "4 WrongKind in draw 0"),
    ("a vertex of six numbers", draw(vertices=[VERTEX[:6]]), "4 WrongKind in draw 0"),
    ("a vertex of eight numbers", draw(vertices=[VERTEX + [0]]), "4 WrongKind in draw 0"),
    ("x past the guard band", vertex(0, 8388608), "5 OutOfRange in draw 0"),
    ("y before the guard band", vertex(1, -8388609), "5 OutOfRange in draw 0"),
    ("a depth of 65536", vertex(2, 65536), "5 OutOfRange in draw 0"),
    ("red of 256", vertex(3, 256), "5 OutOfRange in draw 0"),
    ("alpha under 0", vertex(6, -1), "5 OutOfRange in draw 0"),
    ("a coordinate that is not whole", vertex(0, 0.5), "4 WrongKind in draw 0"),
    ("65537 vertices", draw(vertices=[VERTEX] * 65537), "7 TooMany in draw 0"),
    ("65537 triangles", draw(triangles=[[0, 1, 2]] * 65537), "7 TooMany in draw 0"),
    ("a triangle of two", draw(triangles=[[0, 1]]), "4 WrongKind in draw 0"),
    ("a triangle of four", draw(triangles=[[0, 1, 2, 0]]), "4 WrongKind in draw 0"),
    ("an index under 0", draw(triangles=[[0, 1, -1]]), "6 BadIndex in draw 0"),
    ("an index that is a text", draw(triangles=[[0, 1, "2"]]), "4 WrongKind in draw 0"),
    ("an index of 65536", draw(triangles=[[0, 1, 65536]]), "6 BadIndex in draw 0"),
]

# null is refused at each key that may be left out, and at each that may not.
REFUSED += [(f"{key} null", {**scene(), key: None}, "4 WrongKind") for key in renderer.TOP_KEYS]
REFUSED += [
    (f"{key} null", scene(draws=[{"vertices": [], "triangles": [], key: None}]), "4 WrongKind in draw 0")
    for key in renderer.STATE_KEYS + ("vertices",)
]
REFUSED += [
    (f"{key} null", scene(draws=[{"vertices": [], key: None}]), "4 WrongKind in draw 0")
    for key in renderer.FACE_KEYS
]

# Lists that the reader refuses and a schema accepts: why a schema cannot refuse them, the text, and the
# error of the reader.
BEYOND_A_SCHEMA = [
    ("1.0 is an integer of JSON Schema", '{"width":1.0,"height":1,"draws":[]}', "4 WrongKind"),
    ("1e0 is an integer of JSON Schema", '{"width":1e0,"height":1,"draws":[]}', "4 WrongKind"),
    ("an index is compared with a length", json.dumps(draw(triangles=[[0, 1, 3]])), "6 BadIndex in draw 0"),
    ("an index into no vertices", json.dumps(draw(vertices=[], triangles=[[0, 0, 0]])), "6 BadIndex in draw 0"),
    ("an index of a strip, too", json.dumps(draw(triangles=None, strip=[0, 1, 3])), "6 BadIndex in draw 0"),
    ("corners are compared with each other", json.dumps(square(quads=[[0, 1, 3, 2]])), "10 NotConvex in draw 0"),
    (
        "a strip and quads are counted by their triangles",
        json.dumps(scene(draws=[square(strip=[0] * 65537)["draws"][0], square(quads=[[0, 1, 2, 3]])["draws"][0]])),
        "7 TooMany in draw 1",
    ),
    (
        "triangles are summed over draws",
        json.dumps(scene(draws=[{"vertices": [VERTEX] * 3, "triangles": [[0, 1, 2]] * n} for n in (40000, 25537)])),
        "7 TooMany in draw 1",
    ),
]


def error_of(text: str) -> str | None:
    """The reader's error at a text, or `None` if it accepts it."""
    try:
        renderer.read(text.encode())
    except renderer.ListFault as error:
        return str(error).replace("trirast: list fault ", "")
    return None


class Check:
    """The lists on which schema and reader do not answer as the tables say."""

    def __init__(self, is_valid: Callable[[object], bool]) -> None:
        self.is_valid = is_valid
        self.wrong: list[str] = []

    def expect(self, name: str, holds: bool, why: str) -> None:
        if not holds:
            self.wrong.append(f"{name}: {why}")

    def answers(self, name: str, text: str, accepted_by_schema: bool, error: str | None) -> None:
        """Checks one list: whether the schema accepts it, and the error that the reader reports, or `None`."""
        accepts = self.is_valid(json.loads(text))
        self.expect(name, accepts == accepted_by_schema, f"the schema {'accepts' if accepts else 'refuses'} it")
        self.expect(name, error_of(text) == error, f"the reader reports {error_of(text)}, not {error}")


def main() -> int:
    try:
        from jsonschema import Draft202012Validator
    except ImportError:
        print("python's package jsonschema, 4.0 or later, is not there", file=sys.stderr)
        return MISSING
    schema = json.loads(places.text_of("docs", "draw-list.schema.json"))
    Draft202012Validator.check_schema(schema)
    check = Check(Draft202012Validator(schema).is_valid)
    examples = places.files("examples", "*.json")
    check.expect("examples", bool(examples), "there are none")
    for path in examples:
        check.answers(path, places.text_of(path), True, None)
    for name, value in ACCEPTED:
        check.answers(name, json.dumps(value), True, None)
    for name, value, error in REFUSED:
        check.answers(name, json.dumps(value), False, error)
    for name, text, error in BEYOND_A_SCHEMA:
        check.answers(name, text, True, error)
    for line in check.wrong:
        print(line)
    print(
        f"{len(examples)} examples and {len(ACCEPTED)} lists accepted, {len(REFUSED)} refused, "
        f"{len(BEYOND_A_SCHEMA)} that a schema cannot refuse; {len(check.wrong)} wrong"
    )
    return 1 if check.wrong else 0


if __name__ == "__main__":
    sys.exit(main())
