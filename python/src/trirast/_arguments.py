"""What callers pass, as numbers. `_buffers` does the same for arrays.

Each function takes the name of the parameter. Its message is that name, what is wanted and what was passed: "threads:
expected at least 1, got 0". Nothing is rounded, cut or guessed.
"""

import math
import operator
import reprlib
from numbers import Complex, Real
from typing import Any, Callable, Collection, Mapping, SupportsIndex, Tuple, TypeVar

from ._color_names import TEXTS, channels_of

Choice = TypeVar("Choice")
NUMBERS = 1 << 32
LONGEST = 60
CHANNEL = " of 0 to 255"
# What to do with the colours of matplotlib.
OF_FLOATS = "; of matplotlib's colours of 0 to 1, pass cmap(values, bytes=True) or 255 times as much, rounded"
# Python makes no text of an integer of more bits than some 14,000.
MOST_BITS = 4096


class Short(reprlib.Repr):
    """Values in a message."""

    def __init__(self) -> None:
        super().__init__()
        self.maxother = self.maxstring = LONGEST

    def repr_int(self, x: int, level: int) -> str:
        return super().repr_int(x, level) if x.bit_length() <= MOST_BITS else f"an integer of {x.bit_length()} bits"


SHORT = Short()


def shown(value: Any) -> str:
    """A value in a message: short, and on one line."""
    return " ".join(SHORT.repr(value).split())


def integer(name: str, value: SupportsIndex, unit: str = "") -> int:
    """An integer of Python or numpy. Raises TypeError at any other number. The unit stands in the message."""
    try:
        return operator.index(value)
    except TypeError:
        raise TypeError(f"{name}: expected an integer{unit}, got {shown(value)}") from None


def number(name: str, value: SupportsIndex, otherwise: int = NUMBERS - 1) -> int:
    """An integer that the library judges: if it does not fit 32 bits, another that no range has. ctypes
    would cut it."""
    given = integer(name, value)
    return given if 0 <= given < NUMBERS else otherwise


def between(
    name: str, value: SupportsIndex, least: int, greatest: int, refused: Callable[[str], Exception] = ValueError,
    unit: str = "",
) -> int:
    """An integer in a range. Raises ValueError at any other, or what is made of the message."""
    given = integer(name, value, unit)
    if not least <= given <= greatest:
        raise refused(f"{name}: expected {least} to {greatest}{unit}, got {shown(given)}")
    return given


def signed(name: str, value: SupportsIndex) -> int:
    """An integer of 32 bits with a sign. Raises ValueError at any other."""
    return between(name, value, -(NUMBERS >> 1), (NUMBERS >> 1) - 1)


def real(name: str, value: Any) -> float:
    """A real number as a float. Raises TypeError at what is none, and ValueError at NaN and infinities."""
    try:
        if isinstance(value, Complex) and not isinstance(value, Real):
            raise TypeError("of numpy's, of which float would take the real part")
        # float would read a text.
        given = math.ldexp(value, 0)
    except TypeError:
        raise TypeError(f"{name}: expected a real number, got {shown(value)}") from None
    except OverflowError:
        given = math.inf
    if not math.isfinite(given):
        raise ValueError(f"{name}: expected a finite float, got {shown(value)}")
    return given


def thread_count(threads: SupportsIndex, name: str = "threads") -> int:
    """The number of threads of a call. Raises ValueError if it is less than 1."""
    given = integer(name, threads)
    if given < 1:
        raise ValueError(f"{name}: expected at least 1, got {shown(given)}")
    return given


def has_length(values: Any, *lengths: int) -> bool:
    """Whether values are a sequence of one of these lengths."""
    try:
        return len(values) in lengths
    except TypeError:
        return False


def of_length(name: str, values: Any, length: int) -> Tuple[Any, ...]:
    """The values of a sequence of as many. Raises ValueError at one of another length, and TypeError at what is
    none."""
    try:
        count = len(values)
        # A class derived from a sequence may say another length than it has.
        found = tuple(values) if count == length else ()
    # Python does not look into a memoryview of several dimensions.
    except (TypeError, NotImplementedError):
        raise TypeError(f"{name}: expected a sequence of {length} values, got {shown(values)}") from None
    if count != length or len(found) != length:
        raise ValueError(f"{name}: expected {length} values, got {len(found) if found else count}")
    return found


def each_of(name: str, values: Any, length: int, read: Callable[[str, Any], Choice]) -> Tuple[Choice, ...]:
    """What is read of each value of a sequence of as many, by a name with its place."""
    return tuple(read(f"{name}[{place}]", value) for place, value in enumerate(of_length(name, values, length)))


def color_of(name: str, values: Any, *lengths: int) -> Tuple[int, ...]:
    """As many channels as one of the lengths, the first of which counts in a message: 0 to 255 each. Raises ValueError
    at any other."""
    if isinstance(values, str):
        return of_text(name, values, lengths)
    found = next((each for each in lengths if has_length(values, each)), lengths[0])
    return each_of(name, values, found, channel_of)


def of_text(name: str, text: str, lengths: Tuple[int, ...]) -> Tuple[int, ...]:
    """The channels of a name of CSS or of a text as #rrggbb, opaque if they have to be four."""
    found = channels_of(str.__str__(text))
    if found is None:
        raise ValueError(f"{name}: expected {TEXTS}, got {shown(text)}")
    if len(found) in lengths:
        return found
    if len(found) > max(lengths):
        raise ValueError(f"{name}: expected a colour without alpha, got {shown(text)}")
    return (*found, 255)


def without_texts(name: str, colors: Any) -> Any:
    """Colours as they are, but a list with texts as a list of channels."""
    if not isinstance(colors, (list, tuple)) or not any(isinstance(each, str) for each in colors):
        return colors
    return [(*color_of(f"{name}[{row}]", each, 3, 4), 255)[:4] for row, each in enumerate(colors)]


def channel_of(name: str, value: Any) -> int:
    """A channel. Raises ValueError at one out of range."""
    try:
        return between(name, integer(name, value, CHANNEL), 0, 255)
    except TypeError as error:
        if isinstance(value, Real):
            raise TypeError(f"{error}{OF_FLOATS}") from None
        raise


def flag(name: str, value: Any) -> int:
    """1 of a truth value of Python or numpy that is true, else 0. 1 and 0 are such values too."""
    if getattr(getattr(value, "dtype", None), "kind", "") == "b" and not value.shape:
        return int(bool(value))
    if isinstance(value, int) and value in (0, 1):
        return int(value)
    raise TypeError(f"{name}: expected True or False, got {shown(value)}")


def named(name: str, names: Collection[str], value: Any) -> int:
    """The index of a name among those that there are."""
    # Of a class derived from str the text itself, whatever it says of its hash.
    given = str.__str__(value) if isinstance(value, str) else None
    if given is None or given not in names:
        raise ValueError(f"{name}: expected one of {', '.join(names)}, got {shown(value)}")
    return list(names).index(given)


def chosen(name: str, choices: Mapping[str, Choice], value: Any) -> Choice:
    """What a name stands for."""
    return list(choices.values())[named(name, choices, value)]
