"""What draws requests without Direct3D: the rules in Python, or one of their mutants, in rasterize.exe's place.

    python3 -m conformance.d3d11.stand_in [--mutant NAME] < requests > answers
"""

from __future__ import annotations

import argparse
import sys
from typing import Callable

from conformance.d3d11 import pictures, requests
from conformance.d3d11.streams import PICTURE, VALUES, Answer, Answers, StreamError, read_requests, write_answers
from conformance.model import Model
from conformance.mutants import MUTANTS
from conformance.renderer import Candidate


def draw_by(renderer: Candidate) -> Callable[[bytes], bytes]:
    """Draws a stream of requests by a renderer."""

    def answer(request: bytes) -> Answer:
        scene, setting = requests.read(request)
        drawn = renderer.through(setting)
        if requests.output_of(request) == requests.PIXELS:
            return Answer(VALUES, drawn.pixels(scene))
        return Answer(PICTURE, pictures.encode(drawn.picture(scene)))

    def draw(stream: bytes) -> bytes:
        identity, listed = read_requests(stream)
        answers = [answer(request) for request in listed]
        about = "".join(f"{question}\t{answer}\n" for question, answer in renderer.said())
        return write_answers(identity, Answers(about, answers))

    return draw


def main() -> int:
    parser = argparse.ArgumentParser(description="Draws requests by the rules, or by a mutant of them.")
    parser.add_argument("--mutant", choices=MUTANTS, default="", metavar="NAME", help=", ".join(MUTANTS))
    options = parser.parse_args()
    try:
        sys.stdout.buffer.write(draw_by(Model(options.mutant))(sys.stdin.buffer.read()))
    except StreamError as error:
        print(f"stand_in: {error}", file=sys.stderr)
        return 2
    return 0


if __name__ == "__main__":
    sys.exit(main())
