"""Vertices as C has them: records of 16 bytes."""

from array import array
from typing import Any, Optional

from ._arguments import between, color_of, has_length, without_texts
from ._buffers import exact_bytes, refuse_masked
from ._numpy import np
from ._records import Column, Columns, Copy, table_of

# The fields of a vertex, as numpy takes them: numpy.zeros(3, trirast.VERTEX) are three. x and y are in 1/256 pixel.
# The last is not read.
VERTEX = [
    ("x", "i4"), ("y", "i4"), ("depth", "u2"), ("red", "u1"), ("green", "u1"), ("blue", "u1"), ("alpha", "u1"),
    ("unused", "u2"),
]
VERTEX_BYTES = 16
X, Y, DEPTH = Column("x", "i", 0), Column("y", "i", 4), Column("depth", "H", 8)
RED, GREEN, BLUE, ALPHA = (Column(name, "B", 10 + k) for k, name in enumerate(("red", "green", "blue", "alpha")))
PLACE, COLOR = (X, Y), (RED, GREEN, BLUE, ALPHA)
WHOLE = (*PLACE, DEPTH, *COLOR)
# What a vertex without a depth and a colour has: 0, and opaque white.
BLANK = bytes(10) + b"\xff" * 4 + bytes(2)
OPAQUE = 255
# Two numbers of 64 bits, which numpy moves at once.
RECORD = "c16"


def vertices_of(vertices: Any, colors: Optional[Any] = None, depth: Optional[Any] = None) -> Copy:
    """Copies vertices, with these colours and depths in place of their own. So what becomes of an array of numpy later,
    or in another thread, is not drawn: neither its numbers nor its size."""
    records = records_of(vertices)
    if colors is None and depth is None:
        return records
    made = records if isinstance(records, bytearray) else bytearray(records)
    count = count_of(made)
    if colors is not None:
        put_colors(made, count, colors)
    if depth is not None:
        put_depths(made, count, depth)
    return made


def count_of(vertices: Copy) -> int:
    """How many vertices there are."""
    return len(vertices) // VERTEX_BYTES


def records_of(vertices: Any) -> Copy:
    """Vertices as records one after another."""
    if getattr(getattr(vertices, "dtype", None), "names", None):
        return of_fields(vertices)
    if isinstance(vertices, (bytes, bytearray)):
        found = exact_bytes(vertices)
        if len(found) % VERTEX_BYTES:
            raise ValueError(f"vertices: expected records of {VERTEX_BYTES} bytes, got {len(found)} bytes")
        return found
    table = table_of("vertices", vertices, PLACE, WHOLE)
    return table.fill(bytearray(BLANK * table.count), VERTEX_BYTES)


def of_fields(vertices: Any) -> Copy:
    """Vertices of an array of numpy with fields."""
    refuse_masked("vertices", vertices)
    # A view of our own: its size stays if someone gives the array another type or shape in place.
    given: Any = np.asarray(vertices).view()
    names = given.dtype.names or ()
    if not {"x", "y"} <= set(names) or given.ndim != 1:
        found = f"{', '.join(names)} of the shape {given.shape}"
        raise ValueError(f"vertices: expected one dimension with the fields x and y, got {found}")
    if has_members(given) and not given.dtype.hasobject and len(given):
        made = bytearray(VERTEX_BYTES * len(given))
        np.frombuffer(made, RECORD)[:] = given.getfield(RECORD, given.dtype.fields["x"][1])
        return made
    made = bytearray(BLANK * len(given))
    for column in WHOLE:
        if column.name in names:
            table_of("vertices", given[column.name], (column,)).fill(made, VERTEX_BYTES)
    return made


def is_own_layout(vertices: Any) -> bool:
    """Whether an array has the records that C reads, one at the end of another."""
    # numpy takes records at any address for aligned.
    is_packed = vertices.itemsize == VERTEX_BYTES and vertices.flags.c_contiguous and vertices.ctypes.data % 4 == 0
    return bool(is_packed and has_members(vertices) and len(vertices))


def has_members(vertices: Any) -> bool:
    """Whether each record of an array has the members of VERTEX in their order, anywhere in it."""
    fields, whole = vertices.dtype.fields, np.dtype(VERTEX).fields
    names = [column.name for column in WHOLE]
    if not all(name in fields and fields[name][0] == whole[name][0] for name in names):
        return False
    first = fields["x"][1]
    is_inside = first + VERTEX_BYTES <= vertices.dtype.itemsize
    return is_inside and all(fields[name][1] - first == whole[name][1] for name in names)


def is_one_color(colors: Any) -> bool:
    """Whether these are channels, or a text, and not rows of them."""
    if isinstance(colors, str):
        return True
    try:
        is_row = getattr(colors, "ndim", 1) == 1 and has_length(colors, 3, 4)
        return is_row and not hasattr(next(iter(colors), ()), "__len__")
    except (TypeError, NotImplementedError):
        return False  # Python does not read each format of a memoryview.


def put_colors(records: bytearray, count: int, colors: Any, columns: Columns = COLOR, size: int = VERTEX_BYTES) -> None:
    """Writes a colour to all records of this size, or one to each. One of three channels is opaque."""
    colors = without_texts("colors", colors)
    if not is_one_color(colors):
        records[columns[3].begin :: size] = bytes([OPAQUE]) * count
        table_of("colors", colors, columns[:3], columns).fill(records, size)
        return
    for column, channel in zip(columns, (*color_of("colors", colors, 3, 4), OPAQUE)):
        records[column.begin :: size] = bytes([channel]) * count


def put_depths(records: bytearray, count: int, depth: Any) -> None:
    """Writes a depth to all records, or one to each."""
    if hasattr(depth, "__index__") and not hasattr(depth, "__len__"):
        memoryview(records).cast("H")[4::8] = array("H", [between("depth", depth, 0, 65535)]) * count
        return
    table_of("depth", depth, (DEPTH,)).fill(records, VERTEX_BYTES)
