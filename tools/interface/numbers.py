"""The numbers of interface/numbers.toml."""

from __future__ import annotations

import importlib
import re
from dataclasses import dataclass
from functools import lru_cache
from typing import Any

from tools.places import text_of

PATH = "interface/numbers.toml"
# Tables that are no enumerations.
OTHERS = ("groups", "limits", "order", "samples")


def in_words(name: str) -> str:
    """The name in C of BadList and the like: BAD_LIST."""
    return re.sub(r"(?<!^)(?=[A-Z])", "_", name).upper()


@dataclass(frozen=True)
class Number:
    """One number of an enumeration, or a limit."""

    name: str
    value: int
    meaning: str
    # The number of the interface that had it first.
    since: int
    # Which of a draw's or the polygons' elements an error names.
    element: str = ""
    # The calls that report it, without `trirast_`, or groups of them.
    calls: tuple[str, ...] = ()
    # The line of a status; what the line of a cause says behind its element.
    text: str = ""
    # Of polygons how many there have to be, and how many there are: members of the struct.
    counts: tuple[str, ...] = ()
    # What is wrong with the arrays of polygons, by the names of crates/polygons.
    arrays: tuple[str, ...] = ()
    # Its name in draw lists and in Python.
    word: str = ""
    # What the header has instead of the meaning.
    formula: str = ""
    # Of a factor its name in Vulkan, its number in OpenGL, and the factor for alpha if that is another.
    vulkan: str = ""
    opengl: int = 0
    of_alpha: str = ""
    # What the bindings say of it besides.
    note: str = ""
    # Its exception in Python.
    exception: str = ""
    # The cause of a draw list of which a batch with this one is made.
    list_cause: str = ""
    # The bytes of a pixel in a format.
    bytes: int = 0
    # The indices of a primitive of a topology.
    indices: int = 0
    # The type in C of a limit that is a macro.
    macro: str = ""
    # Whether it is 0, for which the bindings have no name.
    is_default: bool = False
    # Whether nothing has the number.
    is_reserved: bool = False

    @property
    def in_c(self) -> str:
        return in_words(self.name)


@dataclass(frozen=True)
class Enumeration:
    """An enumeration of C."""

    name: str
    # What begins its numbers' names, behind TRIRAST_.
    prefix: str
    about: str
    every: tuple[Number, ...]

    @property
    def numbers(self) -> list[Number]:
        """Those that something has."""
        return [number for number in self.every if not number.is_reserved]

    @property
    def named(self) -> list[Number]:
        """Those for which the bindings have names."""
        return [number for number in self.numbers if not number.is_default]

    @property
    def first_sentence(self) -> str:
        return re.split(r"(?<=\.)\s", self.about)[0]

    def of(self, name: str) -> Number:
        """The number of a name."""
        return next(number for number in self.every if number.name == name)


@dataclass(frozen=True)
class Pattern:
    """Where the samples of a pixel lie, in 1/16 pixel right of its centre and below it."""

    count: int
    places: tuple[tuple[int, int], ...]
    since: int


@dataclass(frozen=True)
class Interface:
    enumerations: dict[str, Enumeration]
    limits: dict[str, Number]
    samples: tuple[Pattern, ...]
    groups: dict[str, list[str]]
    # The causes of draws and of polygons in the order of their checks, each with when it is reported.
    order: dict[str, list[tuple[Number, str]]]

    def calls(self, names: tuple[str, ...] | list[str]) -> list[str]:
        """The calls of these names, of which some may be groups."""
        found: list[str] = []
        for name in names:
            found += self.calls(self.groups[name]) if name in self.groups else [name]
        return found


def number_of(name: str, table: dict[str, Any]) -> Number:
    """A number of a table. Raises TypeError at an unknown key, or if one lacks."""
    words: dict[str, Any] = {"word": in_words(name).lower(), **table}
    words.update({key: tuple(words[key]) for key in ("arrays", "calls", "counts") if key in words})
    return Number(name=name, **words)


def enumeration_of(name: str, table: dict[str, Any]) -> Enumeration:
    """An enumeration of a table. Raises ValueError if two numbers are one."""
    every = tuple(number_of(key, value) for key, value in table.items() if isinstance(value, dict))
    if len({number.value for number in every}) != len(every):
        raise ValueError(f"{PATH}: {name} has a value twice")
    return Enumeration(name, table["prefix"], table["about"], every)


def interface_of(text: str) -> Interface:
    """What a text of TOML says."""
    # The types of Python 3.9, by which the sources are checked, lack it.
    found: dict[str, Any] = importlib.import_module("tomllib").loads(text)
    enumerations = {name: enumeration_of(name, table) for name, table in found.items() if name not in OTHERS}
    causes = {number.name: number for number in enumerations["batch_cause"].numbers}
    return Interface(
        enumerations,
        {name: number_of(name, table) for name, table in found["limits"].items()},
        tuple(
            Pattern(each["count"], tuple((x, y) for x, y in each["places"]), each["since"]) for each in found["samples"]
        ),
        found["groups"],
        {
            name: [(causes[each["cause"]], each.get("when") or causes[each["cause"]].meaning) for each in checks]
            for name, checks in found["order"].items()
        },
    )


@lru_cache(maxsize=None)
def interface() -> Interface:
    """The numbers of the repository."""
    return interface_of(text_of(PATH))
