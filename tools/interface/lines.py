"""How words and parts lie in lines."""

from __future__ import annotations

import textwrap
from typing import Iterable

from tools.interface.numbers import Number, Pattern, interface

WIDTH = 120
# Of a page of docs/.
PAGE_WIDTH = 110


def sentence(text: str) -> str:
    """A meaning as a sentence."""
    return f"{text[0].upper()}{text[1:]}."


def bullet(text: str) -> str:
    """An entry of a list of a page."""
    return "\n".join(
        textwrap.wrap(" ".join(text.split()), PAGE_WIDTH, initial_indent="- ", subsequent_indent="  ",
                      break_long_words=False, break_on_hyphens=False)
    )


def wrapped(text: str, begin: str = "", width: int = WIDTH) -> str:
    """Words in lines that all begin so."""
    return "\n".join(
        textwrap.wrap(text, width, initial_indent=begin, subsequent_indent=begin, break_long_words=False,
                      break_on_hyphens=False)
    )


def bracketed(parts: Iterable[str], before: str, brackets: str = "[]", indent: int = 4) -> str:
    """Parts between brackets behind what is before: in one line, or in as many as they take."""
    begin, end, parts = brackets[0], brackets[1], list(parts)
    gap = " " * (begin == "{")
    line = begin + gap + ", ".join(parts) + gap + end
    if len(before) + len(line) + 1 <= WIDTH:
        return line
    space = " " * (len(before) - len(before.lstrip()))
    lines = parts_kept(parts, WIDTH - len(space) - indent - 1)
    return begin + "".join(f"\n{space}{' ' * indent}{each}," for each in lines) + f"\n{space}{end}"


def parts_kept(parts: list[str], width: int) -> list[str]:
    """Parts in lines, of which none is broken within."""
    lines = [""]
    for part in parts:
        if lines[-1] and len(lines[-1]) + len(part) + 2 > width:
            lines.append(part)
        else:
            lines[-1] = f"{lines[-1]}, {part}" if lines[-1] else part
    return lines


def counts_in_words(samples: Iterable[Pattern]) -> str:
    """How many samples a pixel may have."""
    *few, most = (str(pattern.count) for pattern in samples)
    return f"{', '.join(few)} or {most}"


def reported(calls: Iterable[str]) -> str:
    """The names of calls and of groups of them."""
    names = [f"*{name.replace('_', ' ')}*" if name in interface().groups else f"`{name}`" for name in calls]
    return " and ".join(", ".join(names).rsplit(", ", 1))


def later(number: Number) -> str:
    return f", since interface {number.since}" if number.since > 1 else ""
