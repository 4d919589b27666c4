"""Options that several benchmarks have."""

from __future__ import annotations

import sys
from argparse import ArgumentParser
from typing import Sequence

from bench import scenes
from tools.places import FRAMES_PROGRAM, is_built


def frames_program(path: str) -> str:
    """This program, if it is there. Else the benchmark ends with exit status 2."""
    if not is_built(path, made_by="make frames"):
        sys.exit(2)
    return path


def add_frames_program(parser: ArgumentParser, flag: str) -> None:
    where = "the program of crates/frames (default: where make frames leaves it)"
    parser.add_argument(flag, type=frames_program, default=FRAMES_PROGRAM, metavar="PROGRAM", help=where)


def add_before(parser: ArgumentParser, what: str) -> None:
    """A program of another build, which takes turns with today's."""
    parser.add_argument("--before", default="", metavar="PROGRAM", help=f"{what} of another build, in turn")


def builds(program: str, before: str) -> dict[str, str]:
    """The programs that take turns, by what the names of their rows end in."""
    return {"": program, **({", before": before} if before else {})}


def add_runs(parser: ArgumentParser, default: int, meaning: str) -> None:
    parser.add_argument("--runs", type=int, default=default, help=f"{meaning} (default {default})")


def add_scenes(parser: ArgumentParser, names: Sequence[str], default: Sequence[str] = ()) -> None:
    """Scenes of these names, by default all of them."""
    parser.add_argument(
        "--scenes", nargs="+", choices=names, default=default or names, metavar="NAME", help=", ".join(names)
    )


def add_any_scenes(parser: ArgumentParser, default: Sequence[str]) -> None:
    """Scenes of bench/scenes.py, by default these."""
    choices = tuple(scenes.SCENES)
    parser.add_argument(
        "--scenes", nargs="+", choices=choices, default=default, metavar="NAME", help="default " + ", ".join(default)
    )
