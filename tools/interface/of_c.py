"""The header's enumerations, limits and comments, and the calls that it defines inline."""

from __future__ import annotations

import textwrap
from typing import Iterable

from tools.interface.header import Function
from tools.interface.lines import WIDTH, parts_kept
from tools.interface.numbers import Enumeration, Number, Pattern, in_words, interface


def c_comment(text: str, column: int = 0) -> str:
    """A comment of C that begins in this column, without what is before it in its first line."""
    space = " " * column
    lines: list[str] = []
    for paragraph in text.strip().split("\n\n"):
        lines += [""] if lines else []
        lines += textwrap.wrap(paragraph, WIDTH - column - 3, break_long_words=False, break_on_hyphens=False)
    # The end needs three more columns.
    if len(lines[-1]) + 6 > WIDTH - column:
        lines[-1], _space, last = lines[-1].rpartition(" ")
        lines.append(last)
    return "/* " + f"\n{space} * ".join(lines).replace(" * \n", " *\n") + " */"


def c_meaning(number: Number) -> str:
    """What a number means, if its name does not say all."""
    if number.formula or number.meaning == in_words(number.name).lower():
        return number.formula
    return f"{number.meaning}; element: the {number.element}" if number.element else number.meaning


def with_comment(declared: str, meaning: str, column: int) -> str:
    """What is declared with a comment behind it that begins in this column."""
    return f"{declared:<{column}}{c_comment(meaning, column)}" if meaning else declared


def c_enumeration(enumeration: Enumeration) -> str:
    """An enumeration with its comments."""
    last = enumeration.numbers[-1]
    declared = {
        number.name: f"    TRIRAST_{enumeration.prefix}_{number.in_c} = {number.value}{',' * (number is not last)}"
        for number in enumeration.numbers
    }
    column = max(map(len, declared.values())) + 1
    lines = [
        with_comment(declared[number.name], c_meaning(number), column) if number.name in declared
        else f"    {c_comment(f'{number.value} is {number.meaning}', 4)}"
        for number in enumeration.every
    ]
    name = f"trirast_{enumeration.name}"
    return "\n".join([c_comment(enumeration.about), f"typedef enum {name} {{", *lines, f"}} {name};"])


def c_enumerations(names: Iterable[str]) -> str:
    """Enumerations below each other."""
    return "\n\n".join(c_enumeration(interface().enumerations[name]) for name in names)


def c_macros(names: Iterable[str]) -> str:
    """Limits below each other."""
    limits = (interface().limits[name] for name in names)
    return "\n\n".join(f"{c_comment(limit.meaning)}\n#define TRIRAST_{limit.in_c} {limit.value}" for limit in limits)


def c_declaration(function: Function) -> str:
    """A declaration with its parameters below each other where they do not fit."""
    head, _paren, parameters = f"extern inline {function.text}".partition("(")
    lines = parts_kept(parameters.rstrip(")").split(", "), WIDTH - len(head) - 3)
    return f"{head}(" + f",\n{' ' * (len(head) + 1)}".join(lines) + ");"


def c_factor_rows(factors: list[Number]) -> str:
    """Lines of a macro, each with what the interfaces call a factor."""
    values = {number.name: number.value for number in factors}
    rows = [
        f"    ROW({number.value}, {values[number.of_alpha or number.name]}, {number.vulkan}, 0x{number.opengl:04X})"
        for number in factors
    ]
    column = max(map(len, rows[:-1])) + 1
    lines = [f"{line:<{column}}\\" for line in ["#define FACTORS(ROW)", *rows[:-1]]]
    return "\n".join([*lines, rows[-1]])


def c_places(pattern: Pattern) -> str:
    """Where samples lie, in lines of a macro."""
    begin = f"    {{{pattern.count}, {{"
    lines = parts_kept([f"{{{x}, {y}}}" for x, y in pattern.places], WIDTH - len(begin) - 6)
    return begin + f", \\\n{' ' * len(begin)}".join(lines) + "}}"


def c_list(title: str, checks: Iterable[tuple[Number, str]]) -> str:
    """A comment with a list of causes."""
    lines = [f"/* {title}"]
    for number, when in checks:
        text = f"TRIRAST_BATCH_{number.in_c} if {when}"
        lines += textwrap.wrap(text, WIDTH, initial_indent=" * - ", subsequent_indent=" *   ")
    return "\n".join([*lines, " */"])
