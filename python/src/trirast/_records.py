"""Rows of integers as records of C, in memory that nobody else has.

Nothing is rounded, wrapped or guessed. A message has the parameter's name, row and column, what is wanted and what was
passed.
"""

import operator
import sys
from array import array
from typing import Any, Iterable, List, NamedTuple, Optional, Sequence, Tuple, Union

from ._arguments import CHANNEL, of_length, shown
from ._buffers import OTHER_ORDER, buffer_of, exact_bytes, family_of, kind_of, refuse_masked
from ._numbers import HIGHEST_POSITION, LOWEST_POSITION

# Positions are in 1/256 pixel, and these are the least and the greatest: the guard band.
UNIT = 256
LOW, HIGH = LOWEST_POSITION, HIGHEST_POSITION
POSITION = " in 1/256 pixel"
SNAP = "use trirast.snap(xy)"
# The least and the greatest integer of each type, by the letter that array, numpy and memoryview have for it.
LIMITS = {"i": (-(1 << 31), (1 << 31) - 1), "I": (0, (1 << 32) - 1), "H": (0, 65535), "B": (0, 255)}
# The letter of signed integers by their bytes.
WIDTHS = {1: "b", 2: "h", 4: "i", 8: "q"}
# Rows that are looked at and then copied, so that what is copied is still in a processor's cache.
CHUNK = 1 << 13
# Memory that nobody else has.
Copy = Union[bytes, bytearray]


class Column(NamedTuple):
    """A column of rows: its name, its type and the byte at which it begins in a record."""

    name: str
    code: str
    begin: int

    @property
    def is_position(self) -> bool:
        """Whether it is a coordinate of a vertex or a corner, which lies in the guard band."""
        return self.name in ("x", "y")

    @property
    def unit(self) -> str:
        """What its integers are, in a message that refuses a float."""
        return {"i": POSITION, "B": CHANNEL}.get(self.code, "")

    def refused(self, where: str, value: Any) -> Optional[Exception]:
        """The error of a value, or `None` if it is an integer that fits."""
        least, greatest = LIMITS[self.code]
        try:
            if least <= operator.index(value) <= greatest:
                return None
        except TypeError:
            is_real = self.is_position and hasattr(value, "__float__")
            unit = self.unit if is_real or not self.is_position else ""
            return TypeError(f"{where}: expected an integer{unit}, got {shown(value)}{f'; {SNAP}' * is_real}")
        # What lies between the band and 32 bits the library refuses, if an index names it.
        wanted = f"{LOW} to {HIGH}{POSITION}" if self.is_position else f"{least} to {greatest}"
        return ValueError(f"{where}: expected {wanted}, got {shown(value)}")


Columns = Sequence[Column]


def index_columns(count: int) -> Columns:
    """The columns of rows of indices."""
    return tuple(Column(f"[{number}]", "I", 4 * number) for number in range(count))


class Table:
    """Integers by columns, as they came: arrays of numpy, or sequences.

    It lets them go before an error is raised, since who keeps the error keeps the frames that have it.
    """

    def __init__(self, name: str, columns: Columns, values: Sequence[Any]) -> None:
        self._name, self._columns, self._values = name, columns, values
        self.count = len(values[0])

    def fill(self, made: bytearray, size: int) -> bytearray:
        """Writes the columns to records of this size, and returns these. Raises the error of the first value that does
        not fit, and ValueError if there are more or fewer records than rows."""
        error: Optional[Exception] = None
        if self.count * size == len(made):
            error = self._put(made, size)
        else:
            error = ValueError(f"{self._name}: expected {len(made) // size} rows, got {self.count}")
        self._values = ()
        if error is not None:
            raise error
        return made

    def _put(self, made: bytearray, size: int) -> Optional[Exception]:
        """Writes each column to its place in records of this size. Returns the error of the first value that does not
        fit."""
        numpy = sys.modules.get("numpy")
        for first in range(0, self.count, CHUNK):
            for column, values in zip(self._columns, self._values):
                part = values[first : first + CHUNK]
                width = array(column.code).itemsize
                start, step = (first * size + column.begin) // width, size // width
                whole = slice(start, start + step * (len(part) - 1) + 1, step)
                if numpy is not None and isinstance(part, numpy.ndarray):
                    if not fits(numpy, column, part):
                        return self._error(column, part.tolist(), first)
                    numpy.frombuffer(made, column.code)[whole] = part
                    continue
                try:
                    memoryview(made).cast(column.code)[whole] = array(column.code, map(operator.index, part))
                except (TypeError, OverflowError):
                    return self._error(column, part, first)
        return None

    def _error(self, column: Column, values: Iterable[Any], first: int) -> Exception:
        """The error of the first of a column's values that is refused. The row of the first one is `first`."""
        # A column of its own is named by the rows, as strip[1], and another one as strip[1].x or quads[1][2].
        name = column.name if column.name.startswith("[") else f".{column.name}"
        part = name * (len(self._columns) > 1)
        errors = (column.refused(f"{self._name}[{row}]{part}", value) for row, value in enumerate(values, first))
        return next(
            (error for error in errors if error),
            TypeError(f"{self._name}: expected integers, got some that another thread changes"),
        )


def fits(numpy: Any, column: Column, part: Any) -> bool:
    """Whether each integer of an array fits a column."""
    if numpy.can_cast(part.dtype, column.code):
        return True
    least, greatest = LIMITS[column.code]
    if least:
        return bool(least <= part.min() and part.max() <= greatest)
    # A number with a sign has bits beyond the limit if it is negative.
    return 0 <= int(numpy.bitwise_or.reduce(part)) <= greatest


def table_of(name: str, values: Any, *choices: Columns) -> Table:
    """Rows of integers with as many columns as one of the choices. A flat buffer is cut into rows if there is one
    choice alone.

    Raises TypeError at what has no integers, and ValueError at rows of another length.
    """
    refuse_masked(name, values)
    view = buffer_of(values)
    if view is None:
        return of_sequence(name, values, choices)
    columns, family, kind, shape = choice_of(view, choices), family_of(view), kind_of(view), view.shape or ()
    if columns is None or 0 in shape or family not in ("int", "uint"):
        view.release()
        return nothing_of(name, columns, family, kind, shape, choices)
    numpy = sys.modules.get("numpy")
    if numpy is not None:
        return Table(name, columns, list(numpy.asarray(view).reshape(-1, len(columns)).T))
    try:
        rows: List[Any] = in_own_order(view, family).tolist()
    except NotImplementedError:
        view.release()
        raise TypeError(f"{name}: expected integers in the machine's order, got {kind}") from None
    if view.ndim == 1:
        return Table(name, columns, [rows[k :: len(columns)] for k in range(len(columns))])
    return Table(name, columns, list(zip(*rows)))


def in_own_order(view: memoryview, family: str) -> memoryview:
    """The same integers by a code without an order of bytes, which `tolist` does not know. Arrays of ctypes name
    the machine's own."""
    order = view.format[0]
    if order not in "<>=!" or (view.itemsize > 1 and order in OTHER_ORDER):
        return view
    code = WIDTHS[view.itemsize]
    return memoryview(view.tobytes()).cast(code if family == "int" else code.upper(), shape=list(view.shape or ()))


def choice_of(view: memoryview, choices: Sequence[Columns]) -> Optional[Columns]:
    """The choice that a buffer has the columns of, or `None`."""
    shape = view.shape or ()
    for columns in choices:
        is_flat = len(shape) == 1 and len(choices) == 1 and shape[0] % len(columns) == 0
        if is_flat or (len(shape) == 2 and shape[1] == len(columns)) or shape == (0,):
            return columns
    return None


def nothing_of(
    name: str, columns: Optional[Columns], family: str, kind: str, shape: Tuple[int, ...], choices: Sequence[Columns]
) -> Table:
    """The table of a buffer without rows. Raises the error of one that has no rows of integers."""
    if columns is None:
        raise ValueError(f"{name}: expected {rows_of(choices)}, got the shape {shape}")
    if 0 in shape:
        return Table(name, columns, [()] * len(columns))
    how = f"; {SNAP}" * (family == "float" and columns[0].is_position)
    raise TypeError(f"{name}: expected integers{columns[0].unit}, got {kind}{how}")


def rows_of(choices: Sequence[Columns]) -> str:
    """What rows may be."""
    counts = " or ".join(str(len(columns)) for columns in choices)
    return "integers" if counts == "1" else f"rows of {counts} integers"


def of_sequence(name: str, values: Any, choices: Sequence[Columns]) -> Table:
    """A sequence of rows, or of integers if a row has one."""
    try:
        rows = list(values)
    except TypeError:
        raise TypeError(f"{name}: expected {rows_of(choices)}, got {shown(values)}") from None
    if len(choices[0]) == 1:
        return Table(name, choices[0], [rows])
    first = len(rows[0]) if rows and hasattr(rows[0], "__len__") else len(choices[0])
    columns = next((each for each in choices if len(each) == first), None)
    if columns is None:
        counts = " or ".join(str(len(each)) for each in choices)
        raise ValueError(f"{name}[0]: expected {counts} values, got {first}")
    listed: List[Tuple[Any, ...]] = [
        tuple(of_length(f"{name}[{number}]", row, len(columns))) for number, row in enumerate(rows)
    ]
    return Table(name, columns, list(zip(*listed)) or [()] * len(columns))


def indices_of(name: str, values: Any, columns: Columns) -> Copy:
    """Rows of indices, 32 bits each."""
    size = 4 * len(columns)
    if isinstance(values, (bytes, bytearray)):
        found = exact_bytes(values)
        if len(found) % size:
            raise ValueError(f"{name}: expected {rows_of([columns])} of 4 bytes, got {len(found)} bytes")
        return found
    table = table_of(name, values, columns)
    return table.fill(bytearray(size * table.count), size)
