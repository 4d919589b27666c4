"""What is written: each file, whole, or in it what lies between two lines of comments."""

from __future__ import annotations

import os
import re
from typing import Any

from tools.interface import lines, of_c, of_crates, of_page, of_python, of_rust
from tools.interface.header import header
from tools.interface.numbers import interface
from tools.places import TOP, text_of

FOLDER = os.path.join(TOP, "interface", "templates")
# The files that are written whole, by their templates, and those of which a part is, by the blocks of theirs.
WHOLE = {
    "trirast-sys.rs": "bindings/rust/trirast-sys/src/lib.rs",
    "cause.rs": "bindings/rust/trirast/src/cause.rs",
    "numbers.rs": "bindings/rust/trirast/src/numbers.rs",
    "numbers.py": "python/src/trirast/_numbers.py",
    "declarations.py": "python/src/trirast/_declarations.py",
    "interface.js": "web/interface.js",
    "structs.js": "web/structs.js",
    "calls.c": "packaging/calls.c",
    "errors.md": "docs/generated/errors.md",
}
SCHEMA = "docs/conformance.schema.json"
PARTS = {
    "trirast.h": "include/trirast.h",
    "values.hpp": "include/trirast/values.hpp",
    "factors.hpp": "conformance/rasterize/factors.hpp",
    "status.rt": "crates/c_abi/src/status.rt",
    "Statuses.antt": "crates/c_abi/specs/Statuses.antt",
    "fault.rt": "crates/batch/src/fault.rt",
    "Causes.antt": "crates/batch/specs/Causes.antt",
    "blend.rt": "crates/batch/src/blend.rt",
    "Equations.antt": "crates/batch/specs/Equations.antt",
    "images.rt": "crates/canvas_c/src/images.rt",
    "Pieces.antt": "crates/canvas_c/specs/Pieces.antt",
    "polygon_arrays.rt": "crates/canvas_c/src/polygon_arrays.rt",
    "PolygonChecks.antt": "crates/canvas_c/specs/PolygonChecks.antt",
    "messages.rt": "crates/trirast_c/src/messages.rt",
}
# What stands between: a comment `generated: NAME`, lines, and a comment `end of NAME`, at any column.
BEGIN, END = r"(?:/\*|//|--) generated: (\w+)(?: \*/)?", r"(?:/\*|//|--) end of (\w+)(?: \*/)?"
# The layout of specs/ may have an empty line before the last comment, which stays.
BETWEEN = re.compile(rf"(?ms)^( *)({BEGIN}\n)(.*?)((?:^\n)?^ *{END}$)")


def environment() -> Any:
    """The templates with what they use."""
    # A machine that only runs the tests may lack it.
    import jinja2

    found = jinja2.Environment(
        loader=jinja2.FileSystemLoader(FOLDER), undefined=jinja2.StrictUndefined, trim_blocks=True, lstrip_blocks=True,
        keep_trailing_newline=True, autoescape=False,
    )
    for module in (lines, of_c, of_crates, of_page, of_python, of_rust):
        found.filters.update({name: value for name, value in vars(module).items() if callable(value)})
    of_header = text_of("include", "trirast.h")
    found.globals.update(
        interface=interface(), header=header(), **interface().enumerations, limits=interface().limits,
        samples=interface().samples, structs=header().structs, functions=header().public,
        defined=dict(re.findall(r'^#define TRIRAST_(\w+) "?([\w.]+)"?$', of_header, re.MULTILINE)),
    )
    return found


def with_parts(text: str, template: Any) -> str:
    """A text with what each pair of comments has between them written anew. Raises KeyError if a template lacks it, and
    ValueError if it ends another or a block has no place."""
    unused = set(template.blocks)

    def part(found: "re.Match[str]") -> str:
        space, begin, name, _old, end, ended = found.groups()
        if name != ended:
            raise ValueError(f"what is generated as {name} ends as {ended}")
        unused.discard(name)
        block = "".join(template.blocks[name](template.new_context())).strip("\n")
        return f"{space}{begin}{block}\n{end}"

    made = BETWEEN.sub(part, text)
    if unused:
        raise ValueError(f"{template.name}: no place for {', '.join(sorted(unused))}")
    return made


def with_sample_counts(schema: str) -> str:
    """The schema of results with the numbers of samples."""
    counts = ", ".join(str(pattern.count) for pattern in interface().samples)
    return re.sub(r'(?<="samples": \{"enum": \[)[^]]*', counts, schema, count=1)


def outputs() -> dict[str, str]:
    """The texts of the files that are written, each named from the top of the repository."""
    templates = environment()
    made = {path: with_parts(text_of(path), templates.get_template(f"{name}.j2")) for name, path in PARTS.items()}
    made[SCHEMA] = with_sample_counts(text_of(SCHEMA))
    return {**made, **{path: templates.get_template(f"{name}.j2").render() for name, path in WHOLE.items()}}


def stale() -> list[str]:
    """The files that have something else than would be written."""
    return [
        path for path, text in outputs().items()
        if not os.path.exists(os.path.join(TOP, path)) or text_of(path) != text
    ]
