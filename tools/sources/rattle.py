"""What a source in Rattle has: the functions of a .rt file, and the definitions of a .antt file. Both are
laid out by `rt fmt`."""

from __future__ import annotations

import re
from dataclasses import dataclass
from typing import Iterator

OWNER = re.compile(r"(?:pub )?(impl|trait)\b(?:<(?:[^<>]|<[^<>]*>)*>)? (\w+(?:<[^>]*>)? for )?(\w+)")
FUNCTION = re.compile(r'(?P<indent>\s*)(?P<public>pub )?(?:pub\(\w+\) )?(?:const )?(?:extern "C" )?fn (?P<name>\w+)')
CLAUSE = re.compile(r"^(?:ensures|requires)(?: (\w+))? ?(?:\{|$)", re.MULTILINE)
# A field of a record is `pub NAME :`, and so is no head.
DEFINITION = re.compile(r"\s*(?:(?:abbrev|unfoldable|opaque) pub|pub (?:record|data)) (\S+)")
FIELD = re.compile(r"^ +pub (\w+) :", re.MULTILINE)
SEPARATOR = "-- ----"


@dataclass(frozen=True)
class Function:
    """A function: its type or trait if it has one, whether callers see it, and its head and clauses without
    comments and layout."""

    owner: str
    name: str
    is_public: bool
    text: str

    @property
    def clauses(self) -> set[str | None]:
        """The names of its clauses: `ensures { .. }` has none, and `ensures tiles { .. }` has one."""
        return {name or None for name in CLAUSE.findall(self.text)}


def head_of(lines: list[str], indent: str) -> str:
    """A function's head and clauses, of the lines from its first one on: up to its body."""
    taken: list[str] = []
    # The braces that a clause has open, of which a record has some.
    depth = 0
    for line in lines:
        if line.lstrip().startswith("//"):
            continue
        if line in (indent + "{", indent + "{}"):
            break
        taken.append(line.strip())
        if depth or re.match(r"\s*(requires|ensures)", line):
            depth += line.count("{") - line.count("}")
            if depth == 0 and line.endswith(";"):
                break
            continue
        if len(taken) > 1 and line.startswith(indent + "}"):
            break
        if re.search(r"[);>\w] \{$", line) or line.endswith(";"):
            break
    return "\n".join(taken).removesuffix(" {")


def functions_in(text: str) -> Iterator[Function]:
    """The functions of a .rt file, in their order. Callers see those that are `pub`, and those of a trait."""
    lines = text.split("\n")
    kind = owner = ""
    for number, line in enumerate(lines):
        head, found = OWNER.match(line), FUNCTION.match(line)
        if head:
            kind, owner = "for" if head[2] else head[1], head[3]
        elif line[:1].strip() and not found:
            kind = owner = ""
        elif found:
            is_public = len(found["indent"]) <= 4 and (kind == "trait" or bool(found["public"]) and kind != "for")
            yield Function(
                owner if found["indent"] else "", found["name"], is_public, head_of(lines[number:], found["indent"])
            )


@dataclass(frozen=True)
class Defined:
    """A public definition: its name, its comment as one line, and its code up to the next blank line. Also both as they
    stand, with the number of their first line."""

    name: str
    comment: str
    code: str
    text: str
    line_number: int

    @property
    def sentence(self) -> str:
        """The first sentence of the comment."""
        return re.split(r"(?<=\.) ", self.comment, maxsplit=1)[0]

    @property
    def line(self) -> str:
        return f"--   {self.name}: {self.sentence}"

    @property
    def fields(self) -> list[str]:
        return FIELD.findall(self.code)


def definitions_in(text: str) -> Iterator[Defined]:
    """The public definitions of a .antt file, in their order."""
    lines = text.split("\n")
    for at, line in enumerate(lines):
        head = DEFINITION.match(line)
        if not head:
            continue
        begin = at
        while begin and re.match(r"\s*--", lines[begin - 1]) and not lines[begin - 1].lstrip().startswith(SEPARATOR):
            begin -= 1
        end = next(number for number in range(at, len(lines) + 1) if number == len(lines) or not lines[number].strip())
        comment = " ".join(part.strip().removeprefix("--").strip() for part in lines[begin:at])
        yield Defined(head[1], comment, "\n".join(lines[at:end]), "\n".join(lines[begin:end]), begin + 1)
