"""Tests of the module that is packed for the page."""

from __future__ import annotations

import pytest

from tests.web.module import HEADER, TRAP, in_leb128, number_at, packed, sized

TYPES = bytes((1, 4, 1, 0x60, 0, 0))
DEBUG = bytes((0, 6, 5)) + b"debug"
LONG, SHORT = bytes(200), bytes((0, 0x0B))


def code_of(*bodies: bytes) -> bytes:
    return bytes((10,)) + sized(in_leb128(len(bodies)) + b"".join(map(sized, bodies)))


def names_of(*names: bytes) -> bytes:
    """The section of names, with a name of the module before those of functions."""
    functions = b"".join(in_leb128(k) + sized(name) for k, name in enumerate(names))
    return bytes((0,)) + sized(
        sized(b"name") + bytes((0,)) + sized(sized(b"canvas")) + bytes((1,)) + sized(in_leb128(len(names)) + functions)
    )


def test_custom_sections_are_left_out_and_others_stay() -> None:
    module = HEADER + DEBUG + TYPES + DEBUG + code_of(LONG, SHORT) + DEBUG
    assert packed(module) == HEADER + TYPES + code_of(LONG, SHORT)


def test_what_draws_polygons_traps() -> None:
    names = names_of(
        b"canvas::ids", b"fills::strip", b"polygons::sum", b"blocks::palette::set", b"blocks::place::way"
    )
    module = HEADER + TYPES + code_of(LONG, LONG, SHORT, LONG, SHORT) + names
    assert packed(module) == HEADER + TYPES + code_of(LONG, TRAP, TRAP, TRAP, SHORT)


def test_a_module_with_imports_is_refused() -> None:
    with pytest.raises(ValueError, match="imports"):
        packed(HEADER + bytes((2, 1, 0)))


def test_numbers_may_have_several_bytes() -> None:
    assert number_at(bytes((0xE5, 0x8E, 0x26, 7)), 0) == (624485, 3)
    assert in_leb128(624485) == bytes((0xE5, 0x8E, 0x26))


def test_another_file_is_refused() -> None:
    with pytest.raises(ValueError, match="WebAssembly"):
        packed(b"no module")
