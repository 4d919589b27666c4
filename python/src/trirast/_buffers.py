"""What callers pass, as views. `_arguments` does the same for numbers, and `_records` for rows of integers."""

import ctypes
import sys
from math import prod
from typing import Any, NamedTuple, Optional, Tuple

from ._arguments import shown

# By the letter of a buffer's format, as the module struct has it.
FAMILIES = {
    **dict.fromkeys("bhilqn", "int"), **dict.fromkeys("cBHILQN", "uint"), **dict.fromkeys("efdg", "float"), "?": "bool"
}
ORDERS = ("", "@", "=", "<", ">", "!")
OTHER_ORDER, OTHER_NAME = (">!", "big-endian") if sys.byteorder == "little" else ("<", "little-endian")
ARRAY_PROTOCOLS = ("__array__", "__array_interface__")
# The high byte first, as PGM has depths.
HIGH_FIRST = "big-endian uint16" if sys.byteorder == "little" else "uint16"


def family_of(view: memoryview) -> str:
    """"int", "uint", "float" or "bool" by the items of a buffer, and of others nothing."""
    return FAMILIES.get(view.format[-1:], "") if view.format[:-1] in ORDERS else ""


def kind_of(view: memoryview) -> str:
    """The type of a buffer's items, as "uint8" or "big-endian int32"."""
    family = family_of(view)
    if not family:
        return f"the format {view.format!r}"
    name = family if family == "bool" else f"{family}{8 * view.itemsize}"
    return f"{OTHER_NAME} {name}" if view.itemsize > 1 and view.format[0] in OTHER_ORDER else name


def refusal(name: str, wanted: str, view: memoryview, is_written: bool) -> ValueError:
    """The error of another buffer. The view is released, since who keeps the error keeps the frames that have it."""
    given = f"{kind_of(view)} of the shape {view.shape}"
    if is_written:
        given += ", read-only" * view.readonly + ", not contiguous" * (not view.c_contiguous)
    view.release()
    return ValueError(f"{name}: expected {wanted}, got {given}")


def refuse_masked(name: str, value: Any) -> None:
    """Raises TypeError at a masked array of numpy: its buffer has what is masked too."""
    if hasattr(value, "mask") and hasattr(value, "filled"):
        raise TypeError(f"{name}: expected an array without a mask, got a masked one; use filled")


def buffer_of(value: Any) -> Optional[memoryview]:
    """The buffer of an object, or None if it has none, or one that cannot be read."""
    numpy = sys.modules.get("numpy")
    if (
        numpy is not None and not isinstance(value, numpy.ndarray)
        and any(hasattr(value, name) for name in ARRAY_PROTOCOLS)
    ):
        value = numpy.asarray(value)
    try:
        return memoryview(value)
    except (TypeError, ValueError, BufferError):
        return None


def exact_bytes(value: Any) -> bytes:
    """The bytes of a buffer, whatever a class derived from bytes says of them."""
    return value if type(value) is bytes else bytes(memoryview(value))


class Form(NamedTuple):
    """What a buffer may be: the type of its items, by the names of numpy, and its shape, which may be flat too."""

    kinds: Tuple[str, ...]
    shape: Tuple[int, ...]

    def fits(self, view: memoryview) -> bool:
        return kind_of(view) in self.kinds and view.shape in (self.shape, (self.items,))

    @property
    def items(self) -> int:
        """The number of items."""
        return prod(self.shape)

    def __str__(self) -> str:
        return f"{self.kinds[0]} of the shape {self.shape}"


class Buffer:
    """The bytes of a contiguous buffer, and their address, which stays as long as `memory` is held.

    A `with` lets them go at its end. So a frame that an error keeps holds no buffer of the caller.
    """

    def __init__(self, view: memoryview) -> None:
        of_bytes = ctypes.c_uint8 * view.nbytes
        copies = view.readonly or not view.nbytes
        self.memory: Any = of_bytes.from_buffer_copy(view) if copies else of_bytes.from_buffer(view)
        self.address, self.size = ctypes.addressof(self.memory), view.nbytes

    def __enter__(self) -> "Buffer":
        return self

    def __exit__(self, *_error: Any) -> None:
        self.memory = None


def check_writable(name: str, value: Any, *forms: Form) -> memoryview:
    """A buffer that can be written, of one of these forms. Raises TypeError at what is none, and
    ValueError at another."""
    wanted = f"{' or '.join(map(str, forms))}, contiguous and writable"
    view = view_of(name, value, wanted)
    if view.readonly or not view.c_contiguous or not any(form.fits(view) for form in forms):
        raise refusal(name, wanted, view, True)
    return view


def view_of(name: str, value: Any, wanted: str) -> memoryview:
    """The buffer of an object itself. Raises TypeError at what has none."""
    refuse_masked(name, value)
    try:
        return memoryview(value)
    except (TypeError, ValueError, BufferError):
        raise TypeError(f"{name}: expected {wanted}, got {shown(value)}") from None


def readable(name: str, value: Any, *forms: Form) -> Tuple[Form, Buffer]:
    """A buffer of one of these forms, and this form. It is copied if it cannot be written or is not contiguous."""
    refuse_masked(name, value)
    wanted = " or ".join(map(str, forms))
    view = buffer_of(value)
    if view is None:
        raise TypeError(f"{name}: expected {wanted}, got {shown(value)}")
    for form in forms:
        if form.fits(view):
            return form, Buffer(view if view.c_contiguous else memoryview(view.tobytes()))
    raise refusal(name, wanted, view, False)


def raw(name: str, value: Any, size: int) -> Buffer:
    """A buffer of any items that can be written, of at least as many bytes."""
    wanted = f"at least {size} bytes, contiguous and writable"
    view = view_of(name, value, wanted)
    if view.readonly or not view.c_contiguous or view.nbytes < size:
        raise refusal(name, wanted, view, True)
    return Buffer(view)
