"""Draws suites of draw lists by Direct3D 11 and through the program, and reports where they differ.

    python3 -m conformance.d3d11.run [--device hardware|warp|N] [--suite NAME ..] [--bits N] [--html report.html]
    python3 -m conformance.d3d11.run --write requests.bin
    python3 -m conformance.d3d11.run --read answers.bin [--against others.bin]

By itself it runs rasterize.exe, on Windows directly and elsewhere under Wine. With --write the requests go to a file,
which rasterize.exe draws on any machine, and --read compares its answers, with the same --suite and --bits. With
--against they are compared with other answers to the same requests, and not with the program.
docs/reference/conformance.md says what is compared.

Exit status 0: coverage agreed, and values did within what Direct3D allows. 1: a sample differed. 2: no sample was
compared; a line on standard error has the cause, for streams with the name of the error: `NotAStream`, `OtherVersion`,
`OtherSuite`, `CutShort`, `BadChecksum`, `Malformed`.
"""

from __future__ import annotations

import argparse
import os
import re
import sys
import tempfile
from typing import Callable, Sequence

from conformance import suites
from conformance.d3d11 import process
from conformance.d3d11.direct3d import Direct3D, Questions, asked
from conformance.d3d11.requests import version_of
from conformance.d3d11.streams import StreamError, read_answers, write_requests
from conformance.expected import BadLine
from conformance.program import Program, Refused
from conformance.renderer import Candidate
from conformance.run import add_shared, measure, publish
from conformance.suites.setting import Setting
from tools.draw_list import DrawList
from tools.places import is_built

NAMES = [suite.name for suite in suites.DIRECT3D]


def device(text: str) -> str:
    """The name of a device, checked."""
    if text in ("hardware", "warp") or re.fullmatch(r"\d{1,3}", text):
        return text
    raise argparse.ArgumentTypeError("hardware, warp, or the number of an adapter")


def requests_of(chosen: Sequence[suites.Suite], bits: int = 8, limit: int | None = None) -> list[bytes]:
    """What a comparison over these suites asks, or one over the first lists of each."""

    def compare(questions: Questions) -> object:
        # Both sides are black, so that no list is written.
        with tempfile.TemporaryDirectory() as folder:
            return measure(Black(), questions, chosen, folder, bits, limit)

    return asked(compare)


class Black:
    """A renderer whose pictures are black."""

    def said(self) -> list[tuple[str, str]]:
        return []

    def left_out(self) -> Sequence[tuple[str, str]]:
        return ()

    def through(self, _setting: Setting) -> Black:
        return self

    def picture(self, scene: DrawList) -> bytes:
        return bytes(3 * scene["width"] * scene["height"])

    def pixels(self, scene: DrawList) -> bytes:
        return bytes(4 * scene["width"] * scene["height"])


def answered(options: argparse.Namespace, requests: Sequence[bytes]) -> Direct3D:
    """Direct3D's answers, from a file or by the program. Raises `StreamError`, `CannotRun` or `OSError`."""
    stream = write_requests(requests, version_of(requests))
    drawn = read_or_drawn(
        options, lambda: process.draw(stream, process.command(options.exe, options.device, options.run))
    )
    return Direct3D(requests, read_answers(drawn, requests))


def read_or_drawn(options: argparse.Namespace, draw: Callable[[], bytes]) -> bytes:
    """The answers of a file, or those that are drawn, which are kept if a file is named for them."""
    if options.read:
        with open(options.read, "rb") as file:
            return file.read()
    drawn = draw()
    if options.keep:
        with open(options.keep, "wb") as file:
            file.write(drawn)
    return drawn


def add_streams(parser: argparse.ArgumentParser) -> None:
    """The options of interfaces whose requests and answers are streams."""
    parser.add_argument("--write", metavar="FILE", help="write the requests, and compare nothing")
    parser.add_argument("--read", metavar="FILE", help="compare answers that were drawn elsewhere")
    parser.add_argument("--keep", metavar="FILE", help="write the answers too, for --read and --against")
    parser.add_argument("--against", metavar="FILE", help="compare with these answers, and not with the program")


def rules_of(options: argparse.Namespace, requests: Sequence[bytes]) -> Candidate:
    """What answers are compared with: the program, or other answers. Raises `StreamError`, `CannotRun` or `OSError`."""
    if not options.against:
        return Program(os.path.abspath(options.program), options.mutant)
    if options.mutant:
        raise process.CannotRun("--mutant changes the rules, which are not asked with --against")
    with open(options.against, "rb") as file:
        return Direct3D(requests, read_answers(file.read(), requests))


def arguments() -> argparse.Namespace:
    parser = argparse.ArgumentParser(description="Compares Direct3D 11's samples with the program's.")
    parser.add_argument("--device", type=device, default="hardware", help="hardware, warp, or the number of an adapter")
    add_streams(parser)
    parser.add_argument("--exe", default=process.EXE, help="default conformance/out/rasterize.exe")
    parser.add_argument(
        "--run", metavar="COMMAND", help=f"what runs the .exe; default {' '.join(process.WINE)}, nothing on Windows"
    )
    add_shared(parser, NAMES)
    return parser.parse_args()


def main() -> int:
    options = arguments()
    chosen = [suite for suite in suites.DIRECT3D if suite.name in options.suite]
    if not (options.write or options.against) and not is_built(options.program):
        return 2
    requests = requests_of(chosen, options.bits)
    try:
        if options.write:
            with open(options.write, "wb") as file:
                file.write(write_requests(requests, version_of(requests)))
            return 0
        driver = answered(options, requests)
        program = rules_of(options, requests)
        return publish(measure(program, driver, chosen, options.lists, options.bits, interface="Direct3D 11"), options)
    except (StreamError, process.CannotRun, Refused, OSError, BadLine) as error:
        print(f"conformance: {error}", file=sys.stderr)
        return 2


if __name__ == "__main__":
    sys.exit(main())
