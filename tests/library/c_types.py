"""The structs and calls of include/trirast.h as ctypes has them, read from the header itself."""

from __future__ import annotations

import ctypes
import re
from functools import lru_cache
from typing import Any

from tools import places
from tests.library import declarations
from tools.places import SHARED_LIBRARY

NUMBERS: dict[str, Any] = {
    "u8": ctypes.c_uint8, "u16": ctypes.c_uint16, "u32": ctypes.c_uint32, "u64": ctypes.c_uint64, "i32": ctypes.c_int32,
    "i64": ctypes.c_int64, "usize": ctypes.c_size_t, "c_char": ctypes.c_char,
}
TEXT = "*const c_char"


@lru_cache(maxsize=None)
def declared() -> dict[str, str]:
    return declarations.in_c(places.text_of("include", "trirast.h"))


def number(name: str) -> int:
    """A number that the header gives a name."""
    return int(declared()[name])


def parts_of(listed: str) -> list[tuple[str, str]]:
    """Names and types of members or parameters."""
    return [(name, kind) for name, kind in (part.split(": ") for part in re.split(r", (?=\w+: )", listed) if part)]


@lru_cache(maxsize=None)
def struct(name: str) -> Any:
    """A struct of the header, whose members lie where its compiler puts them."""
    members = [(member, type_of(kind)) for member, kind in parts_of(declared()[name])]
    return type(name, (ctypes.Structure,), {"_fields_": members})


def type_of(kind: str) -> Any:
    """A type in the words of Rust. Every pointer is one to anything, but one to a text that is returned."""
    if kind.startswith("*"):
        return ctypes.c_void_p
    array = re.fullmatch(r"\[(\w+); (\d+)\]", kind)
    if array:
        return NUMBERS[array[1]] * int(array[2])
    return NUMBERS.get(kind) or struct(kind)


@lru_cache(maxsize=None)
def library() -> Any:
    """The library with the types of its calls."""
    loaded = ctypes.CDLL(SHARED_LIBRARY)
    for name, text in declared().items():
        if text.startswith("("):
            parameters, result = text[1:].split(") -> ")
            call = getattr(loaded, name)
            call.argtypes = [type_of(kind) for _, kind in parts_of(parameters)]
            call.restype = ctypes.c_char_p if result == TEXT else type_of(result)
    return loaded


def address(value: Any) -> Any:
    """What a call takes for a struct, an array or None."""
    return value if value is None or isinstance(value, (int, bytes)) else ctypes.addressof(value)
