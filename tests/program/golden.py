"""Compares the pictures of examples/ and tests/regressions/ with their recorded checksums and with the
reference renderer.

    python3 -m tests.program.golden [--program bin/trirast]
    python3 -m tests.program.golden --record

Beside the lists stands SHA256SUMS, with the sum of the picture file of each. NAME.json has its sum as NAME.pnm, the
name under which `make demo` leaves the picture in out/. Three checks are made of each list. Its recorded sum must be
that of the picture that tests/reference/renderer.py draws; and bin/trirast must draw those bytes, by default and with
tiles of 8 pixels and one worker. Each list must also have a line in the README.md beside it, and each sum a list. If a
picture differs, the list is left in out/golden/ with NAME.got.png, NAME.expected.png and NAME.difference.png: equal
channels are black there, and all others at least half bright. --record writes the sums anew, by the reference alone.
Exit status 1 if a check failed.
"""

from __future__ import annotations

import argparse
import glob
import hashlib
import os
import re
import shutil
import sys
from concurrent.futures import ProcessPoolExecutor
from dataclasses import dataclass

from tools import answers, picture_file, png
from tools.answers import Answer
from tools.counts import Counts
from tools.picture_file import NotAPicture, PictureFile
from tools.places import PROGRAM, TOP, is_built

FOLDERS = ("examples", os.path.join("tests", "regressions"))
OUT = os.path.join("out", "golden")
SUMS = "SHA256SUMS"
LINE = re.compile(r"([0-9a-f]{64})  ([\w-]+)\.pnm")
# The arguments of the two runs of each list.
RUNS: tuple[tuple[str, ...], ...] = ((), ("--tile", "8", "--workers", "1"))


class BadSums(Exception):
    """A SHA256SUMS file is missing, or one of its lines has another form or repeats a name."""


@dataclass(frozen=True)
class Entry:
    """A list, by its folder and its name without .json, and its bytes."""

    folder: str
    name: str
    text: bytes

    @property
    def path(self) -> str:
        return os.path.join(self.folder, f"{self.name}.json")


def checksum(picture: bytes) -> str:
    return hashlib.sha256(picture).hexdigest()


def read_sums(path: str) -> dict[str, str]:
    """The sums of a file, by the names of their lists."""
    sums: dict[str, str] = {}
    try:
        with open(path, encoding="utf-8") as file:
            lines = file.read().splitlines()
    except OSError as error:
        raise BadSums(error.strerror) from None
    for number, line in enumerate(lines, 1):
        found = LINE.fullmatch(line)
        if not found or found[2] in sums:
            raise BadSums(f"line {number} is not a sum and a new name")
        sums[found[2]] = found[1]
    return sums


def read_lists(top: str, folder: str) -> list[Entry]:
    entries = []
    for path in sorted(glob.glob(os.path.join(top, folder, "*.json"))):
        with open(path, "rb") as file:
            entries.append(Entry(folder, os.path.basename(path)[: -len(".json")], file.read()))
    return entries


def expected_answers(entries: list[Entry]) -> dict[Entry, Answer]:
    """The reference's answers to these lists, computed side by side, the longest list first."""
    entries = sorted(entries, key=lambda entry: len(entry.text), reverse=True)
    with ProcessPoolExecutor() as workers:
        return dict(zip(entries, workers.map(answers.expected, [entry.text for entry in entries])))


def difference_pixels(got: PictureFile, wanted: PictureFile) -> bytes:
    """The pixels of a picture of differences: 0 for equal channels, else half of the range and half of
    the difference."""
    size = 2 if wanted.pixel_bytes == 2 else 1
    half = 1 << (8 * size - 1)
    pixels = bytearray()
    for first in range(0, len(wanted.pixel_data), size):
        one, other = (int.from_bytes(file.pixel_data[first : first + size], "big") for file in (got, wanted))
        pixels += (half + abs(one - other) // 2 if one != other else 0).to_bytes(size, "big")
    return bytes(pixels)


def as_png(file: PictureFile, pixels: bytes) -> bytes:
    return png.encode(file.width, file.height, file.pixel_bytes, pixels)


def pictures(got: bytes, wanted: bytes) -> dict[str, bytes]:
    """PNG files of two picture files that differ, by what they show; those that can be made."""
    files = {}
    for name, data in (("got", got), ("expected", wanted)):
        try:
            files[name] = picture_file.decode(data)
        except NotAPicture:
            continue
    made = {name: as_png(file, file.pixel_data) for name, file in files.items()}
    if len(files) == 2 and files["got"].shape == files["expected"].shape:
        made["difference"] = as_png(files["expected"], difference_pixels(files["got"], files["expected"]))
    return made


class Golden:
    """The checks of the lists below one folder of the repository, counted as they are made."""

    def __init__(self, top: str, program: str) -> None:
        self.top, self.program = top, program
        self.counts = Counts()

    def passed(self) -> None:
        self.counts += Counts(passed=1)

    def failed(self, text: str) -> None:
        print(f"golden: {text}", flush=True)
        self.counts += Counts(failed=1)

    def leave(self, entry: Entry, got: Answer, wanted: Answer) -> str:
        """Leaves a list and its pictures in out/golden/. Returns a pattern of their names."""
        stem = os.path.join(OUT, entry.name)
        os.makedirs(os.path.join(self.top, OUT), exist_ok=True)
        files = {f"{kind}.png": data for kind, data in pictures(got.output, wanted.output).items()}
        for ending, data in {"json": entry.text, **files}.items():
            with open(os.path.join(self.top, f"{stem}.{ending}"), "wb") as file:
                file.write(data)
        return f"{stem}.*"

    def check_run(self, entry: Entry, arguments: tuple[str, ...], wanted: Answer) -> bool:
        """Draws a list once; whether the program's answer is the reference's."""
        got = answers.drawn(self.program, entry.text, arguments)
        if got == wanted:
            self.passed()
            return True
        run = " ".join((os.path.relpath(self.program, self.top), *arguments, "<", entry.path))
        if (got.status, got.line) != (wanted.status, wanted.line):
            what = f"got {got}, expected {wanted}"
        else:
            what = f"got and expected: {picture_file.difference(got.output, wanted.output)}"
        self.failed(f"{run}: {what}; see {self.leave(entry, got, wanted)}")
        return False

    def check_list(self, entry: Entry, recorded: str, wanted: Answer) -> None:
        if recorded == checksum(wanted.output):
            self.passed()
        else:
            self.failed(
                f"{entry.path}: the sum in {SUMS} is not that of the reference's picture, {checksum(wanted.output)}"
            )
        for arguments in RUNS:
            if not self.check_run(entry, arguments, wanted):
                return

    def check_names(self, folder: str, entries: list[Entry], sums: dict[str, str]) -> None:
        """Each list has a sum and a line in the README, and each sum has a list."""
        try:
            with open(os.path.join(self.top, folder, "README.md"), encoding="utf-8") as file:
                text = file.read()
        except OSError:
            text = ""
        for entry in entries:
            if entry.name not in sums:
                self.failed(f"{entry.path} has no sum in {folder}/{SUMS}; --record writes it")
            if f"| `{entry.name}.json` |" not in text:
                self.failed(f"{entry.path} has no line in {folder}/README.md")
        for name in sorted(set(sums) - {entry.name for entry in entries}):
            self.failed(f"{folder}/{SUMS} has a sum of {name}.pnm, and there is no {name}.json")
        if not entries:
            self.failed(f"there is no list in {folder}")

    def check(self) -> Counts:
        """All checks. Returns their counts."""
        shutil.rmtree(os.path.join(self.top, OUT), ignore_errors=True)
        recorded = {}
        for folder in FOLDERS:
            entries = read_lists(self.top, folder)
            try:
                sums = read_sums(os.path.join(self.top, folder, SUMS))
            except BadSums as error:
                self.failed(f"{folder}/{SUMS}: {error}")
                continue
            self.check_names(folder, entries, sums)
            recorded.update({entry: sums[entry.name] for entry in entries if entry.name in sums})
        wanted = expected_answers(list(recorded))
        for entry, recorded_sum in recorded.items():
            self.check_list(entry, recorded_sum, wanted[entry])
        return self.counts


def record(top: str) -> None:
    """Writes the sums of all lists, of the reference's pictures."""
    for folder in FOLDERS:
        entries = read_lists(top, folder)
        wanted = expected_answers(entries)
        with open(os.path.join(top, folder, SUMS), "w", encoding="utf-8") as file:
            file.writelines(f"{checksum(wanted[entry].output)}  {entry.name}.pnm\n" for entry in entries)


def main() -> int:
    parser = argparse.ArgumentParser(description="Compares the pictures of recorded lists with their checksums.")
    parser.add_argument("--program", default=PROGRAM, help="default bin/trirast")
    parser.add_argument(
        "--record", action="store_true", help="write the sums of the reference's pictures, and check nothing"
    )
    options = parser.parse_args()
    if options.record:
        record(TOP)
        return 0
    if not is_built(options.program):
        return 2
    counts = Golden(TOP, os.path.abspath(options.program)).check()
    print(counts, flush=True)
    return 1 if counts.failed else 0


if __name__ == "__main__":
    sys.exit(main())
