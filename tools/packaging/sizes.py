"""The sizes of the libraries, as docs/how-to/install.md states them.

    python3 -m tools.packaging.sizes [--write]

Prints the line of the page, and with --write puts it into the page. It needs `make library` and strip.
"""

from __future__ import annotations

import argparse
import os
import re
import subprocess
import tempfile

from tools.places import SHARED_LIBRARY, STATIC_LIBRARY, text_of, write_text

PAGE = os.path.join("docs", "how-to", "install.md")
LINE = re.compile(r"^- Sizes: .*\n", re.MULTILINE)


def stripped(path: str) -> int:
    """The bytes of a library as the Debian package has it."""
    with tempfile.NamedTemporaryFile() as file:
        subprocess.run(["strip", "--strip-unneeded", "-o", file.name, path], check=True)
        return os.path.getsize(file.name)


def measured() -> list[int]:
    """Of the shared library and of the static one the bytes, and those of the static one when it is stripped."""
    return [os.path.getsize(SHARED_LIBRARY), os.path.getsize(STATIC_LIBRARY), stripped(STATIC_LIBRARY)]


def stated() -> list[int]:
    """The same by the page, in bytes."""
    line, = LINE.findall(text_of(PAGE))
    return [1000 * int(number.replace(",", "")) for number in re.findall(r"([\d,]+) KB", line)]


def line_of(sizes: list[int]) -> str:
    shared, static, smaller = (f"{(size + 500) // 1000:,} KB" for size in sizes)
    return f"- Sizes: {shared} shared, {static} static, and {smaller} static in the Debian package.\n"


def main() -> None:
    parser = argparse.ArgumentParser(description="The sizes of the libraries, as docs/how-to/install.md states them.")
    parser.add_argument("--write", action="store_true", help=f"put them into {PAGE}")
    options = parser.parse_args()
    line = line_of(measured())
    print(line, end="")
    if options.write:
        write_text(PAGE, LINE.sub(line, text_of(PAGE), count=1))


if __name__ == "__main__":
    main()
