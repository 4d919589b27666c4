"""The structs and functions that include/trirast.h declares."""

from __future__ import annotations

import re
from dataclasses import dataclass
from functools import lru_cache

from tools.places import text_of

PATH = "include/trirast.h"
COMMENT = re.compile(r"/\*.*?\*/", re.DOTALL)
# A type, or a pointer to one, and a name; or a pointer to arrays, or an array.
VARIABLE = re.compile(r"(const )?(\w+(?: \w+)*?) ?(\*?)(?:\(\*(\w+)\)\[(\d+)\]|(\w+)(?:\[(\d+)\])?)$")


@dataclass(frozen=True)
class Variable:
    """A member or a parameter."""

    name: str
    # The type behind the pointer, if it is one.
    type: str
    is_pointer: bool = False
    is_const: bool = False
    # How many it is an array of, or points to arrays of; 0 if it is none.
    length: int = 0


@dataclass(frozen=True)
class Struct:
    name: str
    members: tuple[Variable, ...]
    # The first sentence above it.
    about: str

    @property
    def has_pointers(self) -> bool:
        return any(member.is_pointer for member in self.members)


@dataclass(frozen=True)
class Function:
    name: str
    parameters: tuple[Variable, ...]
    result: Variable
    is_inline: bool
    # The declaration as the header has it, without what is in its comments.
    text: str

    @property
    def is_public(self) -> bool:
        """Whether a caller calls it, and not an inline function of the header alone."""
        return not self.name.startswith("trirast_proved_")


def variable_of(text: str) -> Variable:
    """A variable. Raises ValueError if its form is none that the header has."""
    found = VARIABLE.fullmatch(" ".join(text.split()).replace("* ", "*"))
    if found is None:
        raise ValueError(f"{PATH}: what is {text!r}")
    const, kind, star, to_array, of_pointer, name, of_array = found.groups()
    length = int(of_pointer or of_array or 0)
    return Variable(to_array or name, kind, bool(star or to_array), bool(const), length)


def members_of(text: str) -> tuple[Variable, ...]:
    """The members of a struct. Several of a type may stand in one declaration."""
    found: list[Variable] = []
    for line in COMMENT.sub("", text).split(";"):
        first, *more = (part.strip() for part in line.split(","))
        if first:
            found.append(variable_of(first))
            found += [Variable(name, found[-1].type) for name in more]
    return tuple(found)


def about_of(comment: str) -> str:
    """The first sentence of a comment."""
    words = " ".join(re.sub(r"^/\*|\*/$|^ \*", "", line).strip() for line in comment.split("\n"))
    return re.split(r"(?<=\.)\s", " ".join(words.split()))[0]


def structs_in(text: str) -> dict[str, Struct]:
    """The structs of a header, in its order."""
    found = re.findall(
        r"(/\*(?:(?!\*/).)*\*/)?\n?typedef struct \w+ \{(.*?)^\} (\w+);", text, re.DOTALL | re.MULTILINE
    )
    return {name: Struct(name, members_of(body), about_of(comment)) for comment, body, name in found}


def functions_in(text: str) -> dict[str, Function]:
    """The functions of a header that are no static ones, in its order."""
    code = COMMENT.sub("", text)
    found: dict[str, Function] = {}
    for inline, result, parameters in re.findall(
        r"^(inline )?((?:const )?\w+ \*?trirast_\w+)\(([^)]*(?:\([^)]*\)[^)]*)*)\)(?=;| \{)", code, re.MULTILINE
    ):
        of = variable_of(result)
        each = () if parameters == "void" else tuple(map(variable_of, parameters.split(",")))
        words = " ".join(f"{result}({parameters})".split())
        found[of.name] = Function(of.name, each, of, bool(inline), words)
    return found


@dataclass(frozen=True)
class Header:
    structs: dict[str, Struct]
    functions: dict[str, Function]

    @property
    def public(self) -> list[Function]:
        """The functions that a caller calls by name."""
        return [each for each in self.functions.values() if each.is_public]


@lru_cache(maxsize=None)
def header() -> Header:
    """What the repository's header declares."""
    text = text_of(PATH)
    return Header(structs_in(text), functions_in(text))
