"""Rectangles of pixels."""

from typing import NamedTuple


class Box(NamedTuple):
    """The pixels from the column `left` to before `right`, and from the row `top` to before `bottom`."""

    left: int
    top: int
    right: int
    bottom: int

    @property
    def width(self) -> int:
        """How many columns it has."""
        return self.right - self.left

    @property
    def height(self) -> int:
        """How many rows it has."""
        return self.bottom - self.top

    @property
    def pixels(self) -> int:
        """How many pixels it has."""
        return self.width * self.height

    @property
    def is_empty(self) -> bool:
        """Whether it has no pixels."""
        return self.width <= 0 or self.height <= 0

    def common(self, other: "Box") -> "Box":
        """Returns the pixels that both boxes have."""
        return Box(
            max(self.left, other.left), max(self.top, other.top), min(self.right, other.right),
            min(self.bottom, other.bottom),
        )

    def meets(self, other: "Box") -> bool:
        """Returns whether both boxes have a pixel."""
        return not self.common(other).is_empty

    def is_within(self, other: "Box") -> bool:
        """Returns whether it has pixels, all of which another box has."""
        return not self.is_empty and self.common(other) == self
