"""Calls that hypothesis makes up: layouts, types, shapes, derived classes, threads, interrupts, copies and arrays that
change, triangles, polygons with boxes, and what clip leaves for any origin.

Each call is made on a canvas in the way that was made up, and on a second one in the plainest way: lists of integers,
one thread. Both have the same picture after each call, and what one refuses the other does. TRIRAST_FUZZ_CALLS says how
many calls there are, and then each run makes up other ones; python3 -m tests.python.fuzz_package does so with 10,000.
"""

import copy
import ctypes
import importlib.util
import os
import pickle
import signal
import threading
import unittest
from array import array
from typing import Any, Callable, Dict, Iterator, List, Tuple

for needed in ("numpy", "hypothesis"):
    if importlib.util.find_spec(needed) is None:
        raise unittest.SkipTest(f"the calls that are made up need {needed}")

import numpy
import pytest
from hypothesis import HealthCheck, Phase, given, settings
from hypothesis import strategies as st

import trirast
from trirast._numbers import FACTORS, OPERATIONS

from .common import bytes_of

# Not all of its functions have types.
np: Any = numpy
CALLS = int(os.environ.get("TRIRAST_FUZZ_CALLS", "400"))
IS_REPEATED = "TRIRAST_FUZZ_CALLS" not in os.environ
A_SESSION = 12
ERRORS = (TypeError, ValueError)

Rows = List[List[int]]
Data = Any


# ---- Interrupts


class Interrupts:
    """An interrupt, or two, some microseconds after the beginning of a call."""

    is_armed = False

    def __init__(self) -> None:
        signal.signal(signal.SIGALRM, self._raise)

    def _raise(self, *_: Any) -> None:
        if self.is_armed:
            raise KeyboardInterrupt

    def made(self, call: Callable[[], Any], seconds: float) -> bool:
        """Makes the call. Returns whether it was interrupted."""
        try:
            self.is_armed = True
            signal.setitimer(signal.ITIMER_REAL, seconds, seconds)
            call()
        except KeyboardInterrupt:
            return True
        finally:
            self.is_armed = False
            signal.setitimer(signal.ITIMER_REAL, 0)
        return False


# ---- Forms of rows


KINDS = ("i1", "u1", "i2", "u2", "i4", "u4", "i8", "u8", ">i2", ">i4", ">u4", ">i8")
NO_INTEGERS = ("f2", "f4", "f8", ">f8", "?", "O", "S4", "M8[s]", "c8")
LAYOUTS: Dict[str, Callable[[Any], Any]] = {
    "C": lambda rows: rows,
    "F": np.asfortranarray,
    "reversed": lambda rows: rows[::-1].copy()[::-1],
    "every second": lambda rows: np.repeat(np.repeat(rows, 2, 0), 2, 1)[::2, ::2],
    "frozen": lambda rows: np.frombuffer(rows.tobytes(), rows.dtype).reshape(rows.shape),
    "memoryview": memoryview,
    "unaligned": lambda rows: np.frombuffer(b"1" + rows.tobytes(), np.uint8)[1:].view(rows.dtype).reshape(rows.shape),
}


def fits(rows: Rows, kind: str) -> bool:
    limits = np.iinfo(kind)
    return all(limits.min <= value <= limits.max for row in rows for value in row)


def of_numpy(data: Data, rows: Rows, columns: int) -> Any:
    kind = data.draw(st.sampled_from([kind for kind in KINDS if fits(rows, kind)] or ["i8"]))
    if not fits(rows, kind):
        return rows
    made = np.array(rows, kind).reshape(len(rows), columns)
    return LAYOUTS[data.draw(st.sampled_from(sorted(LAYOUTS)))](made)


def of_array(data: Data, rows: Rows, columns: int) -> Any:
    codes = [code for code in "bBhHiIlLqQ" if fits(rows, code)]
    if not codes or (columns == 7 and not rows):
        return rows
    made = array(data.draw(st.sampled_from(codes)), sum(rows, []))
    return made if columns < 7 else memoryview(made).cast("B").cast(made.typecode, shape=[len(rows), columns])


def of_bytes(data: Data, rows: Rows, columns: int) -> Any:
    """Indices, or records."""
    kind = data.draw(st.sampled_from((bytes, bytearray)))
    if columns < 7:
        return kind(array("I", sum(rows, []))) if fits(rows, "I") else rows
    return kind(own_records(rows)) if are_records(rows) else rows


def are_records(rows: Rows) -> bool:
    """Whether rows fit records."""
    limits = [np.iinfo(kind) for _name, kind in trirast.VERTEX]
    return all(limit.min <= value <= limit.max for row in rows for limit, value in zip(limits, row))


def own_records(rows: Rows) -> Any:
    return np.array([(*row, 77) for row in rows], trirast.VERTEX)


def of_records(data: Data, rows: Rows, columns: int) -> Any:
    """An array with fields."""
    if columns < 7 or not are_records(rows):
        return of_numpy(data, rows, columns)
    own, other = own_records(rows), np.zeros(len(rows), [(name, "i8") for name, _kind in trirast.VERTEX[::-1]])
    for name, _kind in trirast.VERTEX:
        other[name] = own[name]
    forms: List[Callable[[], Any]] = [
        lambda: own, lambda: np.repeat(own, 2)[::2], lambda: other, lambda: np.frombuffer(own.tobytes(), own.dtype),
        lambda: np.frombuffer(b"12" + own.tobytes(), np.uint8)[2:].view(own.dtype),
        lambda: among_others(own, [("before", "u4")], [("behind", "u1", 4 * len(own))]),
        lambda: among_others(own, [], [("behind", "u1", 509)]),
        lambda: among_others(own, [("before", "u2")], [("behind", "O")]),
        lambda: among_others(own, [("before", "f8")], [])[::-1].copy()[::-1],
        lambda: np.repeat(own, 3).reshape(len(own), 3)[:, 1],
    ]
    return data.draw(st.sampled_from(forms))()


def among_others(own: Any, before: List[Any], behind: List[Any]) -> Any:
    """The same records with other members before and behind each."""
    made = np.full(len(own), 7, before + trirast.VERTEX + behind)
    for name, _kind in trirast.VERTEX:
        made[name] = own[name]
    return made


class Lying:
    """What a class derived from bytes, a sequence or an array says of itself."""

    def __len__(self) -> int:
        return 1 << 30

    def __bytes__(self) -> bytes:
        return LongBytes(b"12")


class LongBytes(Lying, bytes):
    pass


class LongBytearray(Lying, bytearray):
    pass


class LongArray(Lying, np.ndarray):  # type: ignore[misc]
    strides = property(lambda _self: (4096,))
    shape = property(lambda _self: (1 << 30,))


def of_derived(data: Data, rows: Rows, columns: int) -> Any:
    """Of classes that say something else of themselves than they have."""
    if data.draw(st.booleans()):
        made = of_bytes(data, rows, columns)
        return made if made is rows else data.draw(st.sampled_from((LongBytes, LongBytearray)))(made)
    array = of_records(data, rows, columns)
    return np.ndarray.view(array, LongArray) if isinstance(array, np.ndarray) and array.flags.c_contiguous else array


def of_ctypes(data: Data, rows: Rows, columns: int) -> Any:
    if not fits(rows, "i"):
        return rows
    made: Any = (ctypes.c_int32 * columns * len(rows))()
    for number, row in enumerate(rows):
        made[number][:] = row
    return made


def of_sequences(data: Data, rows: Rows, columns: int) -> Any:
    outer, inner = (data.draw(st.sampled_from((list, tuple))) for _ in range(2))
    return outer(inner(row) for row in rows)


FORMS = (of_numpy, of_records, of_array, of_bytes, of_derived, of_ctypes, of_sequences)


def in_a_form(data: Data, rows: Rows, columns: int) -> Any:
    return data.draw(st.sampled_from(FORMS))(data, rows, columns)


def nonsense(data: Data, rows: Rows, columns: int) -> Any:
    """What is no array of such rows."""
    kind = data.draw(st.sampled_from(NO_INTEGERS))
    made: List[Callable[[], Any]] = [
        lambda: np.zeros((len(rows) + 1, columns), kind),
        lambda: np.zeros((2, columns + 1), np.int32),
        lambda: np.zeros((1, 1, columns), np.int32),
        lambda: np.ma.masked_array(np.zeros((2, columns), np.int32), np.eye(2, columns)),
        lambda: np.int64(5),
        lambda: [[0.5] * columns],
        lambda: [[0] * (columns + 1)],
        lambda: [["1"] * columns],
        lambda: 5,
        lambda: "xyz",
        lambda: b"123",
        lambda: [[1 << 40] * columns],
        lambda: np.full((1, columns), -(1 << 40)),
        lambda: [None],
    ]
    return data.draw(st.sampled_from(made))()


# ---- What is drawn


NEAR = st.integers(-40 * 256, 300 * 256)
FAR = st.sampled_from((-8388608, 8388607, -8388609, 8388608, (1 << 31) - 1, -(1 << 31), 1 << 31, 1 << 63, 0))
BYTES = st.integers(0, 255)
VERTICES = st.tuples(NEAR, NEAR, st.integers(0, 65535), BYTES, BYTES, BYTES, BYTES).map(list)


def vertices_of(data: Data) -> Rows:
    rows: Rows = data.draw(st.lists(VERTICES, max_size=6))
    if rows and not data.draw(st.integers(0, 9)):
        rows[data.draw(st.integers(0, len(rows) - 1))][data.draw(st.integers(0, 6))] = data.draw(FAR)
    return rows


def indices_of(data: Data, count: int, columns: int) -> Rows:
    index = st.integers(0, max(count - 1, 0))
    rows: Rows = data.draw(st.lists(st.lists(index, min_size=columns, max_size=columns), max_size=5 if count else 0))
    if rows and not data.draw(st.integers(0, 9)):
        rows[-1][-1] = data.draw(st.sampled_from((count, -1, 0x7FFFFFFF, 0xFFFFFFFF, 1 << 32)))
    return rows


def blends(data: Data) -> Any:
    """A name, or any blend."""
    factors, operations = st.sampled_from(sorted(FACTORS)), st.sampled_from(sorted(OPERATIONS))
    some = st.builds(
        trirast.Blend, factors, factors, operations, factors, factors, operations, st.tuples(BYTES, BYTES, BYTES, BYTES)
    )
    return data.draw(st.sampled_from(sorted(trirast.BLENDS)) | some)


def state_of(data: Data) -> Dict[str, Any]:
    side = st.sampled_from((-(1 << 31), -50, 0, 1, 5, 30, 64, 4096, (1 << 31) - 1))
    state = {
        "cull": st.sampled_from(("none", "front", "back")),
        "depth_test": st.sampled_from(
            ("never", "less", "equal", "less_equal", "greater", "not_equal", "greater_equal", "always")
        ),
        "depth_write": st.booleans(),
        "keep": st.sets(st.sampled_from("rgba")).map("".join),
        "sample_mask": st.integers(0, 15) | st.integers(0, 65535),
        "scissor": st.none() | st.tuples(side, side, side, side),
    }
    chosen = data.draw(st.sets(st.sampled_from(sorted(state))))
    return {**{key: data.draw(state[key]) for key in sorted(chosen)}, "blend": blends(data)}


def given_to_draw(data: Data, rows: Rows) -> Dict[str, Any]:
    """Vertices in a form, or their positions, with colours and depths in forms of their own."""
    if data.draw(st.booleans()):
        return {"vertices": in_a_form(data, rows, 7)}
    places, depths, colors = [row[:2] for row in rows], [row[2:3] for row in rows], [row[3:] for row in rows]
    form = of_numpy if rows else of_sequences
    depth: Any = form(data, depths, 1)
    depth = depth.ravel() if isinstance(depth, np.ndarray) else [value for row in depths for value in row]
    return {"vertices": form(data, places, 2), "colors": form(data, colors, 4), "depth": depth}


def change_in_place(data: Data, array: Any) -> None:
    """Gives an array other numbers, and another type or shape if it has room for that."""
    if isinstance(array, bytearray):
        array[:] = bytes(2 * len(array))
    if not isinstance(array, np.ndarray):
        return
    kind, shape = data.draw(st.sampled_from(("u1", "i2", "f8"))), data.draw(st.sampled_from(((1, -1), (-1, 1))))
    changes: List[Callable[[], Any]] = [
        lambda: array.fill(array.dtype.type(0) if array.dtype.names is None else 0),
        lambda: setattr(array, "dtype", kind), lambda: setattr(array, "shape", shape),
    ]
    for change in changes:
        try:
            change()
        except (TypeError, ValueError, AttributeError):
            pass


def a_polygon(data: Data) -> List[Rows]:
    ring = st.lists(st.tuples(NEAR, NEAR).map(lambda place: [*place]), max_size=7)
    rings: List[Rows] = data.draw(st.lists(ring, max_size=3))
    return rings


# ---- Sessions


class Session:
    """A canvas and a plain one, and calls on both."""

    def __init__(self, data: Data, interrupts: Interrupts) -> None:
        self.data, self.interrupts = data, interrupts
        size = data.draw(st.integers(1, 70)), data.draw(st.integers(1, 330))
        far = st.integers(-16384, 12288)
        origin = data.draw(st.sampled_from(((0, 0), (-7, 0), (3, -70), (-100, -3), (40, 8))) | st.tuples(far, far))
        self.more: Dict[str, Any] = {"samples": data.draw(st.sampled_from((1, 2, 4, 8, 16))), "origin": origin}
        self.canvas = trirast.Canvas(size[0], size[1], **self.more, memory=self.memory(size))
        self.plain = trirast.Canvas(size[0], size[1], **self.more)
        self.canvas.clear()
        self.plain.clear()

    def memory(self, size: Tuple[int, int]) -> Any:
        """Memory for the samples: of the caller's, or of the canvas's own."""
        needed = trirast.Canvas.size(*size, samples=self.more["samples"])
        return self.data.draw(st.sampled_from((bytearray(needed), np.empty(needed // 2, np.uint16), None)))

    @property
    def threads(self) -> Any:
        count = self.data.draw(st.integers(1, 6))
        return np.int64(count) if count == 3 else count

    def both(self, fancy: Callable[[], Any], plain: Callable[[], Any]) -> None:
        """Makes the call on both canvases. Either both refuse it or none, and an interrupt leaves it
        done or not begun."""
        before = pickle.dumps(self.plain)
        wanted, found = refused(plain), None
        if self.data.draw(st.integers(0, 3)):
            found = refused(fancy)
        elif self.interrupts.made(lambda: fancy_or_refused(fancy), self.data.draw(st.sampled_from((1e-5, 5e-5, 2e-4)))):
            if self.pixels(self.canvas) != self.pixels(self.plain):
                self.plain = pickle.loads(before)
            return
        else:
            found = wanted
        if (wanted is None) != (found is None):
            raise AssertionError(f"{found!r}, and not {wanted!r}")

    def pixels(self, canvas: trirast.Canvas) -> Tuple[bytes, ...]:
        last = self.more["samples"] - 1
        return tuple(map(bytes_of, (canvas.rgb(), canvas.depth(last), canvas.ids(last))))

    def must_be_alike(self) -> None:
        if self.pixels(self.canvas) != self.pixels(self.plain):
            raise AssertionError("another picture")

    # Calls

    def clear(self) -> None:
        color = self.data.draw(st.tuples(BYTES, BYTES, BYTES))
        depth, threads = self.data.draw(st.integers(0, 65535)), self.threads
        form = self.data.draw(st.sampled_from((tuple, list, np.array, bytes, bytearray)))
        self.both(
            lambda: self.canvas.clear(form(color), depth, threads=threads), lambda: self.plain.clear(color, depth)
        )

    def load(self) -> None:
        kind = self.data.draw(st.sampled_from(("rgb", "rgba", "bgra")))
        shape = (self.canvas.height, self.canvas.width, 3 if kind == "rgb" else 4)
        image = np.random.default_rng(self.data.draw(st.integers(0, 99))).integers(0, 256, shape, np.uint8)
        layout, threads = LAYOUTS[self.data.draw(st.sampled_from(sorted(LAYOUTS)))](image), self.threads
        self.both(
            lambda: self.canvas.load(layout, format=kind, threads=threads),
            lambda: self.plain.load(image.tobytes(), format=kind),
        )

    def draw(self) -> None:
        data, name = self.data, self.data.draw(st.sampled_from(("triangles", "strip", "quads")))
        columns = {"triangles": 3, "strip": 1, "quads": 4}[name]
        vertices, state, threads = vertices_of(data), state_of(data), self.threads
        indices = indices_of(data, len(vertices), columns)
        rows, primitives = given_to_draw(data, vertices), in_a_form(data, indices, columns)
        flat: Any = [index for row in indices for index in row] if name == "strip" else indices
        primitives = flat if name == "strip" and primitives is indices else primitives
        if name == "strip" and isinstance(primitives, (list, tuple)):
            primitives = flat
        by_ids = data.draw(st.booleans())

        def draw_on(canvas: trirast.Canvas, primitives: Any, **more: Any) -> None:
            canvas.draw(**{name: primitives}, **more, **state, first_id=5 if by_ids else None)

        self.both(
            lambda: draw_on(self.canvas, primitives, threads=threads, **rows),
            lambda: draw_on(self.plain, flat, vertices=vertices),
        )

    def draw_several(self) -> None:
        lists = [(vertices_of(self.data), state_of(self.data)) for _ in range(self.data.draw(st.integers(0, 3)))]
        triangles = [indices_of(self.data, len(vertices), 3) for vertices, _ in lists]
        forms = [
            (in_a_form(self.data, vertices, 7), in_a_form(self.data, rows, 3))
            for (vertices, _), rows in zip(lists, triangles)
        ]
        threads, first = self.threads, self.data.draw(st.sampled_from((None, 0, 70000)))

        def batch(given: Any) -> List[trirast.Draw]:
            return [trirast.Draw(vertices, rows, **state) for (vertices, rows), (_, state) in zip(given, lists)]

        plain = [(vertices, rows) for (vertices, _), rows in zip(lists, triangles)]
        self.both(
            lambda: self.canvas.draw_batch(batch(forms), first_id=first, threads=threads),
            lambda: self.plain.draw_batch(batch(plain), first_id=first),
        )

    def draw_what_has_changed(self) -> None:
        """Draws are made of arrays, which then change."""
        data, vertices, state = self.data, vertices_of(self.data), state_of(self.data)
        triangles = indices_of(data, len(vertices), 3)
        rows, indices, threads = in_a_form(data, vertices, 7), in_a_form(data, triangles, 3), self.threads

        def draw_changed() -> None:
            draw = trirast.Draw(rows, indices, **state)
            for given in (rows, indices):
                change_in_place(data, given)
            self.canvas.draw_batch([draw], threads=threads)

        wanted = refused(lambda: self.plain.draw(vertices, triangles, **state))
        found = refused(draw_changed)
        if (wanted is None) != (found is None):
            raise AssertionError(f"{found!r}, and not {wanted!r}")

    def draw_polygons(self) -> None:
        """With boxes and threads, and without any."""
        data = self.data
        polygons = [a_polygon(data) for _ in range(data.draw(st.integers(0, 4)))]
        corners = [corner for rings in polygons for ring in rings for corner in ring]
        ring_ends = np.cumsum([len(ring) for rings in polygons for ring in rings], dtype=int).tolist()
        polygon_ends = np.cumsum([len(rings) for rings in polygons], dtype=int).tolist()
        colors = [[*data.draw(st.tuples(BYTES, BYTES, BYTES, BYTES))] for _ in polygons]
        state = {name: value for name, value in state_of(data).items() if name != "cull"}
        state["rule"] = data.draw(st.sampled_from(("even-odd", "nonzero")))
        ids: Dict[str, Any] = data.draw(st.sampled_from(({}, {"first_id": 7})))
        boxes = trirast.polygon_boxes(corners, ring_ends, polygon_ends) if data.draw(st.booleans()) else None
        if boxes is not None and len(boxes) and data.draw(st.booleans()):
            boxes = np.asarray(boxes).astype(np.int64) + (-300, -1, 9, 70000)
        form, threads = of_numpy if corners else of_sequences, self.threads
        places, ends = form(data, corners, 2), (np.array(ring_ends, "u4"), array("I", polygon_ends))
        more: Dict[str, Any] = {**state, **ids}

        self.both(
            lambda: self.canvas.draw_polygons(places, ends[0], ends[1], colors, boxes=boxes, threads=threads, **more),
            lambda: self.plain.draw_polygons(corners, ring_ends, polygon_ends, colors, **more),
        )

    def draw_clipped(self) -> None:
        """What clip leaves is drawn, wherever the viewport lies: around the canvas, or the canvas itself."""
        data, (left, top) = self.data, self.canvas.origin
        number = st.floats(-4, 4, width=32) | st.floats(-(2.0**40), 2.0**40, width=32)
        positions = data.draw(st.lists(st.tuples(number, number, number, number), min_size=3, max_size=6))
        triangles = data.draw(st.lists(st.permutations(range(len(positions))).map(lambda all: all[:3]), max_size=3))
        before = data.draw(st.integers(0, 2000)), data.draw(st.integers(0, 2000))
        viewport = (
            max(left - before[0], -16384), max(top - before[1], -16384), self.canvas.width + before[0],
            self.canvas.height + data.draw(st.integers(0, 2000)) + before[1],
        )
        sides = data.draw(st.sampled_from(("guard_band", "viewport")))
        seen = trirast.clip(positions, triangles, viewport, sides=sides)
        rows = [list(row)[:7] for row in seen.vertices.tolist()]
        for canvas, vertices, threads in ((self.canvas, seen.vertices, self.threads), (self.plain, rows, 1)):
            canvas.draw(vertices, seen.triangles.tolist(), first_id=3, threads=threads)

    def draw_nonsense(self) -> None:
        vertices: Any = vertices_of(self.data)
        indices: Any = indices_of(self.data, len(vertices), 3)
        if self.data.draw(st.booleans()):
            vertices = nonsense(self.data, vertices, 7)
        else:
            indices = nonsense(self.data, indices, 3)
        if refused(lambda: self.canvas.draw(vertices, indices, threads=self.threads)) is None:
            raise AssertionError(f"{vertices!r} and {indices!r} were drawn")

    def read(self) -> None:
        threads, canvas = self.threads, self.canvas
        name, kind, channels = self.data.draw(
            st.sampled_from(
                (("rgb", "u1", 3), ("rgba", "u1", 4), ("bgra", "u1", 4), ("depth", "u2", 0), ("ids", "u4", 0))
            )
        )
        shape = (canvas.height, canvas.width) + ((channels,) if channels else ())
        outs: List[Any] = [
            None, np.empty(shape, kind), np.empty(int(np.prod(shape)), kind), memoryview(np.empty(shape, kind))
        ]
        outs += [bytearray(np.empty(shape, kind).nbytes)] if kind == "u1" else []
        out = self.data.draw(st.sampled_from(outs))
        found: List[Any] = []
        seconds = self.data.draw(st.sampled_from((1.0, 1e-5, 1e-4)))
        if not self.interrupts.made(lambda: found.append(getattr(canvas, name)(out=out, threads=threads)), seconds):
            if bytes_of(found[0]) != bytes_of(getattr(self.plain, name)()) or (out is not None and found[0] is not out):
                raise AssertionError(f"other {name}")

    def read_nonsense(self) -> None:
        h, w = self.canvas.height, self.canvas.width
        name = self.data.draw(st.sampled_from(("rgb", "rgba", "depth", "ids")))
        shape = self.data.draw(st.sampled_from(((h, w, 3), (h, w, 4), (h, w), (h + 1, w), (h, w, 3, 1), (0,))))
        kind = self.data.draw(st.sampled_from(("u1", "i1", "?", ">u2", "u2", "i2", "f4", ">u4", "u4", "u8", "O")))
        out = np.zeros(shape, kind, order=self.data.draw(st.sampled_from("CF")))
        out = self.data.draw(st.sampled_from((lambda each: each, np.ma.masked_array, lambda each: each[::-1])))(out)
        fits_well = {
            "rgb": (np.uint8, (h, w, 3)), "rgba": (np.uint8, (h, w, 4)), "depth": (np.uint16, (h, w)),
            "ids": (np.uint32, (h, w)),
        }
        is_well = (
            (out.dtype, out.shape) == fits_well[name] and out.flags.c_contiguous
            and not isinstance(out, np.ma.MaskedArray)
        )
        error = refused(lambda: getattr(self.canvas, name)(out=out, threads=self.threads))
        if (error is None) != is_well:
            raise AssertionError(f"{name}: {out.dtype} of the shape {out.shape}: {error!r}")

    def copy(self) -> None:
        how: Callable[[Any], Any] = self.data.draw(
            st.sampled_from((copy.copy, copy.deepcopy, lambda each: pickle.loads(pickle.dumps(each))))
        )
        old, self.canvas = self.canvas, how(self.canvas)
        old.clear((9, 9, 9))

    def change_arrays_meanwhile(self) -> None:
        """Another thread changes arrays as they are drawn. What is drawn is not specified."""
        vertices, indices = (
            np.array([[0] * 7, [9999] + [0] * 6, [0, 9999] + [0] * 5], np.int32), np.array([0, 1, 2] * 300, np.uint32)
        )
        is_over = threading.Event()

        def change() -> None:
            while not is_over.is_set():
                for place, value in ((-1, 0x7FFFFFFF), (-1, 2)):
                    indices[place] = value
                for number in (-(1 << 31), (1 << 31) - 1, 70000):
                    vertices[1, :2] = number

        changing = threading.Thread(target=change)
        changing.start()
        for _ in range(4):
            refused(lambda: self.canvas.draw(vertices, indices, threads=self.threads))
        is_over.set()
        changing.join()
        for canvas in (self.canvas, self.plain):
            canvas.clear()

    def compare_with_a_list(self) -> None:
        """Draws of arrays and of a list have one picture, of any number of threads."""
        vertices, state = vertices_of(self.data), state_of(self.data)
        triangles = indices_of(self.data, len(vertices), 3)
        # What a list cannot say is left out, and what it says in another way.
        state = {key: value for key, value in state.items() if key in ("cull", "depth_test", "depth_write")}
        state["blend"], keep = (
            self.data.draw(st.sampled_from(("none", "over"))), self.data.draw(st.sets(st.sampled_from("rgb")))
        )
        samples = self.data.draw(st.sampled_from((1, 4)))
        draw_list = {
            "width": 40, "height": 130, "samples": samples,
            "draws": [
                {
                    "vertices": vertices, "triangles": triangles, "write": [letter not in keep for letter in "rgb"],
                    **state,
                }
            ],
        }
        found: List[bytes] = []
        error = refused(lambda: found.append(trirast.draw(draw_list, 16, self.threads).bytes))
        rows, indices = in_a_form(self.data, vertices, 7), in_a_form(self.data, triangles, 3)
        canvas = trirast.Canvas(40, 130, samples)
        canvas.clear()
        other = refused(lambda: canvas.draw(rows, indices, keep="".join(keep), **state))
        found += [bytes_of(canvas.rgb())] if other is None else []
        # A list looks at vertices that no index names, too.
        if (error is None and other is not None) or (error is None and len(set(found)) > 1):
            raise AssertionError(f"{error!r}, {other!r}, {len(found)} pictures")


NAMES = (
    "clear", "load", "draw", "draw", "draw", "draw_several", "draw_what_has_changed", "draw_polygons", "draw_clipped",
    "draw_nonsense", "read", "read_nonsense", "copy", "change_arrays_meanwhile", "compare_with_a_list",
)


def refused(call: Callable[[], Any]) -> Any:
    """The error with which a call refuses what it is given, or None."""
    try:
        call()
    except ERRORS as error:
        return error
    return None


def fancy_or_refused(call: Callable[[], Any]) -> None:
    refused(call)


def sessions(calls: int) -> Iterator[int]:
    """How many sessions hypothesis makes up at a time, until there were as many calls."""
    left = calls
    while left > 0:
        yield min(50, -(-left // A_SESSION))
        left -= 50 * A_SESSION


class Fuzz(unittest.TestCase):
    # An interrupt within a callback of Python's own, as that of a weak reference, ends there with a warning.
    @pytest.mark.filterwarnings(r"ignore:[\s\S]*KeyboardInterrupt:pytest.PytestUnraisableExceptionWarning")
    def test_no_call_crashes_or_draws_another_picture(self) -> None:
        interrupts, calls = Interrupts(), 0
        self.addCleanup(signal.signal, signal.SIGALRM, signal.SIG_DFL)

        def session(data: Data) -> None:
            nonlocal calls
            made = Session(data, interrupts)
            for name in data.draw(st.lists(st.sampled_from(NAMES), min_size=A_SESSION, max_size=A_SESSION)):
                getattr(made, name)()
                made.must_be_alike()
                calls += 1

        for examples in sessions(CALLS):
            of_some = settings(
                max_examples=examples, deadline=None, database=None, derandomize=IS_REPEATED,
                phases=(Phase.generate, Phase.shrink),
                suppress_health_check=list(HealthCheck),
            )
            of_some(given(st.data())(session))()
        self.assertGreaterEqual(calls, CALLS)
        print(f"{calls} calls")


if __name__ == "__main__":
    unittest.main()
