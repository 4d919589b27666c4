"""Packs the lists of examples/, each with what examples/README.md says that it shows, into one file for the page.

    python3 -m tests.web.examples PATH

The file is gzipped JSON: an object of objects with the keys `shows` and `list`, in the order of the table of that page.
Two runs give the same bytes.
"""

from __future__ import annotations

import gzip
import json
import os
import re
import sys
from typing import Any

from tools.draw_list import encode
from tools.places import EXAMPLES, files, text_of

ROW = re.compile(r"^\| `(\w+)\.json` \| .* \| (.*) \|$", re.MULTILINE)


def examples() -> dict[str, dict[str, Any]]:
    """The lists by their names. Raises a `ValueError` if the table and the folder do not name the same ones."""
    table = {name: shows.replace("`", "") for name, shows in ROW.findall(text_of("examples", "README.md"))}
    there = {os.path.splitext(os.path.basename(path))[0] for path in files("examples", "*.json")}
    if set(table) != there:
        raise ValueError(f"examples/README.md and the folder differ: {sorted(set(table) ^ there)}")
    return {
        name: {"shows": shows, "list": json.loads(text_of(EXAMPLES, f"{name}.json"))} for name, shows in table.items()
    }


def main() -> None:
    with open(sys.argv[1], "wb") as file:
        file.write(gzip.compress(encode(examples()), mtime=0))


if __name__ == "__main__":
    main()
