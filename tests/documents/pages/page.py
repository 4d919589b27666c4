"""The pages of which commands and examples are run, and what stands on them."""

from __future__ import annotations

import re
from typing import Iterator, NamedTuple

from tools import places

PAGES = ("README.md", *(
    f"docs/{name}.md" for name in (
        "canvas", "draw-list", "explain/drivers", "gallery", "how-to/areas", "how-to/explain-a-sample",
        "how-to/frames", "how-to/install", "how-to/map-layers", "how-to/plot-geodata", "how-to/polygons-in-python",
        "how-to/shade-in-python", "how-to/test-a-driver",
        "how-to/textures", "maps", "matplotlib", "performance", "polygons", "posters",
        "proofs", "python", "reference/calls", "reference/conformance", "reference/matplotlib", "rules",
        "shaded_frames", "shading", "web",
    )
))
FENCE = re.compile(r"^```(\w*)\n(.*?)^```$", re.MULTILINE | re.DOTALL)
# A command within a sentence. A goal of make alone, such as `make test`, is no example:
# tests/documents/test_documents.py looks for it.
INLINE = re.compile(
    r"(?<!`)`((?:\w+=\S+ )*(?:python3 -m|/usr/bin/python3 [^`]|bin/\w+ [^`]|make demo|bench/out/\w+ "
    r"|c?c(?:\+\+)? -|apt-get |export |pip install )[^`]*)`(?!`)"
)


class Block(NamedTuple):
    """A part of a page: `language` is that of its fence, `sh` without one, or `inline` if it is a command
    within a sentence."""

    line: int
    language: str
    text: str


def blocks_of(page: str) -> list[Block]:
    """The blocks of a page, in their order."""
    text = places.text_of(page)
    found = [(it.start(), it[1] or "sh", it[2]) for it in FENCE.finditer(text)]
    # Fences are blanked, so that places stay.
    prose = FENCE.sub(lambda it: re.sub(r"[^\n]", " ", it[0]), text)
    found += [(it.start(), "inline", it[1].replace("\n", " ") + "\n") for it in INLINE.finditer(prose)]
    return [Block(text.count("\n", 0, start) + 1, language, body) for start, language, body in sorted(found)]


def commands_of(block: Block) -> Iterator[str]:
    """The commands of a block for the shell, each a line; those of `console` begin with a dollar sign."""
    for line in block.text.splitlines():
        if block.language in ("sh", "inline"):
            yield line
        elif block.language == "console" and line.startswith("$ "):
            yield line[2:]


def answer_of(block: Block) -> str:
    """What a block of `console` shows below its command."""
    return "".join(f"{line}\n" for line in block.text.splitlines()[1:])


def printed_by(block: Block, following: Block | None) -> list[str]:
    """The lines that a page says an example in Python prints: a block of `text` behind it, or the comments behind
    its calls of print."""
    if following and following.language == "text":
        return following.text.splitlines()
    return re.findall(r"^ *print\(.*\) +# (.*)$", block.text, re.MULTILINE)
