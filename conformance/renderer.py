"""What is compared: renderers of draw lists, and why one cannot be asked to draw a list."""

from __future__ import annotations

from typing import Protocol, Sequence

from conformance.suites.setting import Setting
from tools.draw_list import DrawList


class CannotAsk(Exception):
    """A list that a renderer cannot be asked to draw."""


class Renderer(Protocol):
    """What draws lists."""

    def picture(self, scene: DrawList) -> bytes:
        """Red, green and blue of the list's pixels, row by row. Raises `CannotAsk` for a list that it cannot draw."""


class Candidate(Renderer, Protocol):
    """A renderer under a setting: an interface and the driver behind it, or the rules themselves."""

    def said(self) -> list[tuple[str, str]]:
        """What the renderer says of itself, as pairs of a question and its answer."""

    def left_out(self) -> Sequence[tuple[str, str]]:
        """What no list asks of this interface, as pairs of a matter and the reason."""

    def through(self, setting: Setting) -> Candidate:
        """The renderer under this setting."""

    def pixels(self, scene: DrawList) -> bytes:
        """Red, green, blue and alpha of the list's pixels. Raises `CannotAsk` too."""


def require_powers_of_two(scene: DrawList) -> None:
    """Raises `CannotAsk` unless floats hold the clip coordinates of each position exactly."""
    if any(scene[side] & (scene[side] - 1) for side in ("width", "height")):
        raise CannotAsk("a picture whose size is no power of two: its positions are rounded as floats")
