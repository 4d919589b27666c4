"""Structs and calls by ctypes, and tables of Python."""

from __future__ import annotations

from typing import Iterable

from tools.interface.header import Function, Struct, Variable, header
from tools.interface.lines import bracketed
from tools.interface.numbers import Number, Pattern

CTYPES = {
    "uint8_t": "BYTE", "uint16_t": "HALF", "uint32_t": "WORD", "uint64_t": "ctypes.c_uint64", "int32_t": "SIGNED",
    "int64_t": "LONG", "size_t": "COUNT",
}


def python_name(struct: str) -> str:
    """The class of a struct: CImageInfo."""
    return "C" + "".join(word.capitalize() for word in struct.split("_")[1:])


def python_field(member: Variable) -> str:
    """The type of a member by ctypes."""
    if member.is_pointer:
        return "POINTER"
    kind = CTYPES.get(member.type) or python_name(member.type)
    return f"{member.length} * {kind}" if member.length else kind


def python_fields(struct: Struct) -> str:
    """The fields of a struct by ctypes, those of a type together."""
    runs: list[tuple[str, list[str]]] = []
    for member in struct.members:
        kind = python_field(member)
        if runs and runs[-1][0] == kind:
            runs[-1][1].append(member.name)
        else:
            runs.append((kind, [member.name]))
    parts = [
        f'("{names[0]}", {kind})' if len(names) == 1 else f'*fields({kind}, "{" ".join(names)}")'
        for kind, names in runs
    ]
    if len(parts) == 1 and parts[0].startswith("*"):
        return parts[0][1:]
    return bracketed(parts, "    _fields_ = ")


def python_parameter(function: Function, place: int) -> str:
    """The type of a parameter by ctypes. A pointer with a count behind it is to many, and so is one to structs behind
    the count of others: these are addresses."""
    each = function.parameters[place]
    before, behind = function.parameters[:place][-1:], function.parameters[place + 1 :][:1]
    if not each.is_pointer:
        return CTYPES.get(each.type, "WORD")
    if each.type == "char" and each.is_const:
        return "TEXT"
    is_many = any(other.type == "size_t" for other in behind)
    if each.type in header().structs:
        is_many = is_many or any(other.name == "count" for other in before)
        return "POINTER" if is_many else f"to({python_name(each.type)})"
    return f"to({CTYPES[each.type]})" if each.type in CTYPES and not is_many else "POINTER"


def python_result(function: Function) -> str:
    """The type of what a function returns by ctypes."""
    return "TEXT" if function.result.is_pointer else CTYPES.get(function.result.type, "WORD")


def python_status_call(function: Function) -> str:
    """The types of the parameters of a call that returns a status, by its name."""
    parts = [python_parameter(function, place) for place in range(len(function.parameters))]
    return f'    "{function.name}": {bracketed(parts, f"    {function.name}:   ")},'


def python_call(function: Function) -> str:
    """The types of a call's parameters, by its name."""
    parts = [python_parameter(function, place) for place in range(len(function.parameters))]
    kinds = bracketed(parts, f'    "{function.name}": (')
    return f'    "{function.name}": ({kinds}, {python_result(function)}),'


def python_text(word: str) -> str:
    return f'"{word}"'


def python_topology(number: Number) -> str:
    return f'("{number.word}", {number.indices})'


def python_literal(words: Iterable[str], name: str) -> str:
    """A type that is one of these words."""
    return "Literal" + bracketed(list(map(python_text, words)), f"{name} = Literal")


def python_places(pattern: Pattern) -> str:
    places = [f"({x}, {y})" for x, y in pattern.places]
    only = "," * (len(places) == 1)
    return bracketed(places, f"    {pattern.count}: ", "()").replace("))", f"){only})")
