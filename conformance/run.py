"""Draws suites of draw lists through the machine's OpenGL driver and through the program, and reports
where they differ.

    python3 -m conformance.run [--driver llvmpipe|zink|default] [--suite NAME ..] [--bits N] [--html report.html]
        [--json results.json] [--expected FILE]

The report goes to standard output, and the first list of each subject that differs to conformance/out.
docs/reference/conformance.md says what is compared. EGL and OpenGL are called by ctypes.

Exit status 0: coverage agreed. 1: a sample differed; with --expected, one of a list that the file does not name. 2: no
sample was compared, for example because there is no such driver or no program.
"""

from __future__ import annotations

import argparse
import os
import sys
from typing import Sequence

from conformance import expected, results, suites
from conformance.comparison import VALUE, Example, compare_suite, only_sample, samples_of
from conformance.driver import Driver
from conformance.findings import findings
from conformance.history import NO_PROGRAM, histories
from conformance.mutants import DRAWABLE
from conformance.program import Program, Refused, as_bytes
from conformance.renderer import Candidate
from conformance.report import Report, page, text
from conformance.sample_counts import OF_LISTS, alone
from conformance.suites.setting import PLAIN
from conformance.suites.shapes import PLACES
from tools.opengl.gl import MESA, Unavailable
from tools.places import PROGRAM, TOP, WHY_PROGRAM, is_built

LISTS = os.path.join(TOP, "conformance", "out")
MUTANT_HELP = (
    "compare with the rules as this mutant changes them, to see if it explains what differs: " + ", ".join(DRAWABLE)
)
BITS_HELP = "round the lists' positions to N subpixel bits first, for a driver that keeps fewer than 8 (default 8)"


def write_list(folder: str, name: str, example: Example) -> str:
    """Writes the list of an example, of the one sample index that differs, and gives the file's name."""
    scene, count = example.scene, samples_of(example.scene)
    if count not in OF_LISTS:
        scene = alone(scene, example.sample, PLACES[count][example.sample])
    elif example.kind != VALUE:
        scene = only_sample(scene, example.sample)
    os.makedirs(folder, exist_ok=True)
    path = os.path.join(folder, f"{name}.json")
    with open(path, "wb") as file:
        file.write(as_bytes(scene))
    near = os.path.relpath(path)
    return path if near.startswith(os.pardir) else near


def measure(
    program: Candidate, driver: Candidate, chosen: Sequence[suites.Suite], folder: str, bits: int = 8,
    limit: int | None = None, why: str = WHY_PROGRAM, interface: str = "OpenGL",
) -> Report:
    """The report of a driver over these suites, or over the first lists of each."""
    tallies = [
        compare_suite(suite, samples, program, driver, bits, limit) for suite in chosen for samples in suite.samples
    ]
    examples = [named for tally in tallies for named in tally.named_examples()]
    files = {name: write_list(folder, name, example) for name, example in examples}
    found = findings(program.through(PLAIN), driver.through(PLAIN))
    coverage = [(name, example) for name, example in examples if example.kind != VALUE]
    missing = "" if os.access(why, os.X_OK) else NO_PROGRAM.format(os.path.relpath(why))
    with_whom = dict(program.said()).get("renderer", "the rules")
    return Report(
        driver.said(), found, tallies, files, driver.left_out(), histories(why, coverage), missing, interface,
        with_whom, bits,
    )


def publish(report: Report, options: argparse.Namespace) -> int:
    """Prints the report, and writes it as one HTML file, as JSON, and as a file of expected differences where names are
    given. Returns the exit status."""
    report.mutant = options.mutant
    # A file that cannot be read ends the run before anything is printed.
    allowed = expected.parse(text_of(options.expected)) if options.expected else None
    found = results.as_json(report)
    print(text(report))
    if options.html:
        write_text(options.html, page(report))
    if options.json:
        results.write(options.json, found)
    if options.write_expected:
        write_text(options.write_expected, expected.written(results.cases_of(found)))
    if not report.samples_compared():
        return 2
    if allowed is None:
        return 0 if report.agrees() else 1
    verdict = expected.judge(results.cases_of(found), allowed)
    print("\n".join(verdict.lines()))
    return 1 if verdict.new else 0


def text_of(path: str) -> str:
    with open(path, encoding="utf-8") as file:
        return file.read()


def write_text(path: str, content: str) -> None:
    with open(path, "w", encoding="utf-8") as file:
        file.write(content)


def add_shared(parser: argparse.ArgumentParser, names: Sequence[str]) -> None:
    """The options that each interface has."""
    parser.add_argument("--suite", nargs="+", choices=names, default=names, metavar="NAME", help=", ".join(names))
    parser.add_argument("--bits", type=int, choices=range(9), default=8, metavar="N", help=BITS_HELP)
    parser.add_argument("--html", metavar="FILE", help="write the report as one HTML file too")
    parser.add_argument("--json", metavar="FILE", help="write the results as JSON too, by docs/conformance.schema.json")
    parser.add_argument(
        "--expected", metavar="FILE", help="differences that are expected: exit status 1 for others alone"
    )
    parser.add_argument("--write-expected", metavar="FILE", help="write what differs as such a file")
    parser.add_argument("--mutant", choices=DRAWABLE, default="", metavar="NAME", help=MUTANT_HELP)
    parser.add_argument("--program", default=PROGRAM, help="default bin/trirast")
    parser.add_argument("--lists", default=LISTS, metavar="FOLDER", help="default conformance/out")


def arguments() -> argparse.Namespace:
    parser = argparse.ArgumentParser(description="Compares a driver's samples with the program's.")
    parser.add_argument("--driver", choices=("default", *MESA), default="default", help="default: EGL's choice")
    add_shared(parser, [suite.name for suite in suites.OPENGL])
    return parser.parse_args()


def main() -> int:
    options = arguments()
    if not is_built(options.program):
        return 2
    chosen = [suite for suite in suites.OPENGL if suite.name in options.suite]
    try:
        program, driver = Program(os.path.abspath(options.program), options.mutant), Driver(options.driver)
        report = measure(program, driver, chosen, options.lists, options.bits)
        return publish(report, options)
    except (Unavailable, Refused, OSError, expected.BadLine) as error:
        print(f"conformance: {error}", file=sys.stderr)
        return 2


if __name__ == "__main__":
    sys.exit(main())
