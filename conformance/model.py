"""The rules as a renderer without a driver: tests/reference/renderer.py, or one of its mutants."""

from __future__ import annotations

from conformance.rules import Rules
from conformance.sample_counts import resolved
from tools import picture_file
from tests.reference import renderer
from tools.draw_list import DrawList, encode


class Model(Rules):
    """A renderer by the reference."""

    def __init__(self, mutant: str = "") -> None:
        super().__init__(f"model with {mutant}" if mutant else "model", mutant)

    def picture(self, scene: DrawList) -> bytes:
        drawn = self.list_drawn(scene)
        with self.mutant.rules():
            return resolved(drawn, renderer.SAMPLES, rendered)


def rendered(scene: DrawList) -> bytes:
    """The reference's picture of a list."""
    return picture_file.decode(renderer.render(renderer.read(encode(scene)))).pixel_data
