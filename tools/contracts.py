"""Compares the public contracts and the definitions of two trees of this repository, for a change that moves code.

    python3 -m tools.contracts BEFORE [AFTER]

BEFORE and AFTER are folders of checkouts, as `git worktree add out/before REVISION` makes one. AFTER is this one if it
is left out. A public call is found by its owner and name, and a definition by its name, in whichever file they stand.
What moved from crate OLD to NEW is found by --crate OLD=NEW, and other names that were changed by --rename OLD=NEW.
Where lines break does not count. Prints a diff of each that is not the same, then the counts. Exit status 1 if a
contract or a definition differs or is gone.
"""

from __future__ import annotations

import argparse
import difflib
import re
import sys
from pathlib import Path
from typing import Iterator

from tools.places import TOP
from tools.sources.layers import layers
from tools.sources.rattle import definitions_in, functions_in

# The texts of each contract and definition, by its name. Those that share a name are in the order of their texts.
Items = dict[str, list[str]]


def crates(top: Path) -> Iterator[Path]:
    """The folders of the crates that promise something: all but those of tests and tools."""
    without = {one.name for layer in layers() if not layer.is_product for one in layer.crates}
    for folder in sorted((top / "crates").iterdir()):
        if (folder / "src").is_dir() and folder.name not in without:
            yield folder


def items(top: Path) -> Items:
    """All contracts and definitions of a tree."""
    found: Items = {}
    for crate in crates(top):
        for path in crate.glob("src/**/*.rt"):
            for call in functions_in(path.read_text(encoding="utf-8")):
                if call.is_public:
                    found.setdefault(f"call {call.owner}::{call.name}", []).append(call.text)
        for path in crate.glob("specs/**/*.antt"):
            for one in definitions_in(path.read_text(encoding="utf-8")):
                found.setdefault(f"definition {one.name}", []).append(one.code)
    return {name: sorted(texts) for name, texts in found.items()}


def mapped(text: str, words: dict[str, str], moved: dict[str, str]) -> str:
    """The text with the names of the tree before, and with single spaces."""
    text = re.sub(r"\b(\w+)(?=::|\.)", lambda found: moved.get(found[1], found[1]), text)
    text = re.sub(r"[\w◌]+", lambda found: words.get(found[0], found[0]), text)
    return "\n".join(" ".join(line.split()) for line in text.splitlines())


def flat(text: str) -> str:
    """The text without its layout: on one line, with no space beside a bracket, and with no comma or semicolon
    before one that closes."""
    text = re.sub(r"\s*([()\[\]{}])\s*", r"\1", " ".join(text.split()))
    return re.sub(r"[,;](?=[)\]}])", "", text)


def lines_of(texts: list[str]) -> list[str]:
    return "\n".join(texts).split("\n")


def compare(before: Items, after: Items, words: dict[str, str], moved: dict[str, str]) -> bool:
    """Prints a diff of each item that is not the same, and the counts. Returns whether all that was
    before is the same."""
    renamed: Items = {}
    for name, texts in after.items():
        renamed.setdefault(mapped(name, words, moved), []).extend(mapped(text, words, moved) for text in texts)
    same = changed = gone = 0
    for name, texts in sorted(before.items()):
        old, new = sorted(mapped(text, {}, moved) for text in texts), sorted(renamed.get(name, []))
        if sorted(map(flat, old)) == sorted(map(flat, new)):
            same += 1
        elif new:
            changed += 1
            print(*difflib.unified_diff(lines_of(old), lines_of(new), name, name, n=1, lineterm=""), sep="\n")
        else:
            gone += 1
            print(f"gone: {name}")
    added = sorted(renamed.keys() - before.keys())
    for name in added:
        print(f"new: {name}")
    print(f"{same} the same, {changed} changed, {gone} gone, {len(added)} new")
    return changed == gone == 0


def main() -> int:
    parser = argparse.ArgumentParser(description="Compares the public contracts and definitions of two trees.")
    parser.add_argument("before", type=Path, metavar="BEFORE", help="the folder of a checkout")
    parser.add_argument(
        "after", type=Path, nargs="?", default=Path(TOP), metavar="AFTER", help="another (default: this one)"
    )
    parser.add_argument("--rename", action="append", default=[], metavar="OLD=NEW", help="a name that was changed")
    parser.add_argument(
        "--crate", action="append", default=[], metavar="OLD=NEW", help="a crate from which something moved"
    )
    options = parser.parse_args()
    words, moved = (
        {new: old for old, new in (pair.split("=") for pair in pairs)} for pairs in (options.rename, options.crate)
    )
    return 0 if compare(items(options.before), items(options.after), words, moved) else 1


if __name__ == "__main__":
    sys.exit(main())
