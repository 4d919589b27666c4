"""Structs and tables of the page for browsers."""

from __future__ import annotations

from tools.interface.header import Struct, Variable, header
from tools.interface.lines import bracketed
from tools.interface.numbers import Pattern

KINDS = {"uint8_t": "u8", "uint16_t": "u16", "uint32_t": "u32", "int32_t": "i32", "size_t": "size"}


def page_kind(member: Variable) -> str:
    """The kind of a member on the page. A struct is its bytes."""
    if member.type in header().structs and not member.is_pointer:
        return str(bytes_of(header().structs[member.type]))
    return f"'{'size' if member.is_pointer else KINDS[member.type]}'"


def page_members(struct: Struct, name: str) -> str:
    """The members of a struct with their kinds on the page."""
    parts = [f"{member.name}: {page_kind(member)}" for member in struct.members]
    return bracketed(parts, f"export const {name} = new Struct();", "{}", 2)


def bytes_of(struct: Struct) -> int:
    """The bytes of a struct of bytes."""
    return sum(member.length or 1 for member in struct.members)


def page_text(word: str) -> str:
    return f"'{word}'"


def page_places(pattern: Pattern) -> str:
    """Where samples lie from the upper left corner of a pixel, in 1/256 pixel."""
    places = [f"[{128 + 16 * x}, {128 + 16 * y}]" for x, y in pattern.places]
    return bracketed(places, f"  {pattern.count}: ", indent=2)
