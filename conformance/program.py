"""The measure: bin/trirast as a renderer of draw lists, and the rule of blend equations, which lists do not have."""

from __future__ import annotations

from conformance.rules import Rules
from conformance.sample_counts import resolved
from conformance.suites.shapes import PLACES
from tools import answers, picture_file
from tools.draw_list import DrawList, encode


def as_bytes(scene: DrawList) -> bytes:
    """A list as the bytes of its file, the same each time."""
    return encode(scene) + b"\n"


class Refused(Exception):
    """The program refused a list, or did not write a picture of its size."""


class Program(Rules):
    """A renderer by a program."""

    def __init__(self, path: str, mutant: str = "") -> None:
        super().__init__(f"{path}, {mutant}" if mutant else path, mutant)
        self.path = path

    def picture(self, scene: DrawList) -> bytes:
        return resolved(self.list_drawn(scene), PLACES, self.rendered)

    def rendered(self, scene: DrawList) -> bytes:
        """The program's own picture of a list."""
        answer = answers.drawn(self.path, as_bytes(scene))
        if answer.status != 0:
            raise Refused(str(answer))
        try:
            picture = picture_file.decode(answer.output)
        except picture_file.NotAPicture as error:
            raise Refused(str(error)) from None
        if (picture.width, picture.height, picture.pixel_bytes) != (scene["width"], scene["height"], 3):
            raise Refused("no picture of the list's size")
        return picture.pixel_data
