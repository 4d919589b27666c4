"""Packs a WebAssembly module for the page, without what that does not need: its custom sections, which name functions
for debuggers (WebAssembly Core Specification, Binary Format, Custom Section), and the bodies of the functions that draw
polygons. The linker keeps all calls of the library, and the page draws triangles alone: a call of those would trap.

    python3 -m tests.web.module MODULE PATH

Two runs give the same bytes.
"""

from __future__ import annotations

import gzip
import sys
from typing import Iterator, NamedTuple

HEADER = b"\0asm\1\0\0\0"
CUSTOM, IMPORT, CODE = 0, 2, 10
# Of the section of names: the names of functions.
OF_FUNCTIONS = 1
# What polygons alone need: two crates, and blocks of up to four colours, which only polygons make.
UNUSED = ("fills::", "polygons::", "blocks::palette::")
# No locals, `unreachable` and `end`.
TRAP = bytes((0x00, 0x00, 0x0B))


class Section(NamedTuple):
    kind: int
    content: bytes


def number_at(module: bytes, at: int) -> tuple[int, int]:
    """The number in LEB128 that begins at an index, and the index behind it."""
    number = shift = 0
    while True:
        byte = module[at]
        number |= (byte & 127) << shift
        at, shift = at + 1, shift + 7
        if byte < 128:
            return number, at


def in_leb128(number: int) -> bytes:
    found = bytearray()
    while number > 127:
        found.append(number & 127 | 128)
        number >>= 7
    return bytes((*found, number))


def sized(content: bytes) -> bytes:
    return in_leb128(len(content)) + content


def vector(content: bytes, at: int) -> tuple[bytes, int]:
    """The bytes behind their number, and the index behind them."""
    size, begin = number_at(content, at)
    return content[begin : begin + size], begin + size


def sections_of(module: bytes) -> Iterator[Section]:
    """Raises a `ValueError` if the bytes are no module."""
    if not module.startswith(HEADER):
        raise ValueError("no WebAssembly module of version 1")
    at = len(HEADER)
    while at < len(module):
        content, behind = vector(module, at + 1)
        yield Section(module[at], content)
        at = behind


def function_names(section: bytes) -> dict[int, str]:
    """The names of functions by their indices, of a custom section; none if it is not that of names."""
    name, at = vector(section, 0)
    found: dict[int, str] = {}
    while name == b"name" and at < len(section):
        kind = section[at]
        part, at = vector(section, at + 1)
        count, k = number_at(part, 0) if kind == OF_FUNCTIONS else (0, 0)
        for _ in range(count):
            index, k = number_at(part, k)
            of_function, k = vector(part, k)
            found[index] = of_function.decode()
    return found


def without_unused(code: bytes, names: dict[int, str]) -> bytes:
    """The section of code, in which functions that the page does not need trap."""
    count, at = number_at(code, 0)
    bodies = []
    for index in range(count):
        body, at = vector(code, at)
        bodies.append(sized(TRAP if names.get(index, "").startswith(UNUSED) else body))
    return in_leb128(count) + b"".join(bodies)


def packed(module: bytes) -> bytes:
    """The module without its custom sections and without what the page does not need. Raises a `ValueError` if it is
    none, or if it has imports, since the indices of its own functions come behind these."""
    sections = list(sections_of(module))
    if any(section.kind == IMPORT for section in sections):
        raise ValueError("a module with imports")
    names = {k: name for kind, part in sections if kind == CUSTOM for k, name in function_names(part).items()}
    return HEADER + b"".join(
        bytes((kind,)) + sized(without_unused(part, names) if kind == CODE else part)
        for kind, part in sections
        if kind != CUSTOM
    )


def main() -> None:
    with open(sys.argv[1], "rb") as file:
        written = gzip.compress(packed(file.read()), mtime=0)
    with open(sys.argv[2], "wb") as file:
        file.write(written)


if __name__ == "__main__":
    main()
