"""Labels, legends and scale bars as images, by Pillow."""

from __future__ import annotations

import math
from typing import Any, Iterable, Iterator, List, NamedTuple, Optional, Sequence

import numpy as np

from .._box import Box
from ._errors import EngineMissingError, MapError
from ._georeference import RADIUS
from ._map_style import PLANE, Style, is_number, shown
from ._marks import Mark

FONTS = ("DejaVuSans.ttf", "Arial.ttf")
CORNERS = ("upper left", "upper right", "lower left", "lower right")
# Pixels between the sheet's border and what is in a corner, around labels, and around the text of a legend.
AWAY, HALO, PADDING = 16, 2, 8
TEXT_SIZE = 16
BLACK, WHITE = (0, 0, 0, 255), (255, 255, 255, 255)
PAPER = (255, 255, 255, 224)
# The share of the sheet's width that a scale bar has at most, and its height in pixels.
SHARE, BAR = 0.2, 6
DECIMAL = (5, 2, 1)


class Label(NamedTuple):
    """A text at a position in pixels: in its middle, or beside a disc of this radius."""

    text: str
    x: float
    y: float
    size: float
    color: Sequence[int]
    radius: Optional[float]


class Legend(NamedTuple):
    """The corner of a legend, and its rows: a colour and a text."""

    corner: str
    rows: Sequence[Any]


def marks_of(style: Style, labels: Iterable[Label], legend: Optional[Legend], bar: Any, unit: Any) -> Sequence[Mark]:
    """Everything that is written on a sheet. Labels that would overlap others, or what is in a corner, are left out."""
    labels = list(labels)
    if not labels and legend is None and bar is None:
        return ()
    corners: List[Mark] = []
    if legend is not None:
        corners.append(in_corner(legend_image(style, legend), "legend", legend.corner, style))
    if bar is not None:
        corners.append(in_corner(bar_image(style, unit), "scale-bar", bar, style))
    found = list(corners)
    for label in labels:
        mark = label_mark(label)
        if is_inside(mark, style) and not any(overlap(mark, other) for other in found):
            found.append(mark)
    return found


def in_corner(image: Any, key: str, corner: Any, style: Style) -> Mark:
    if corner not in CORNERS:
        raise MapError(f"style.{key}: expected one of {', '.join(CORNERS)}, got {shown(corner)}")
    height, width = image.shape[:2]
    left = AWAY if corner.endswith("left") else style.sheet.width - AWAY - width
    top = AWAY if corner.startswith("upper") else style.sheet.height - AWAY - height
    return Mark(left, top, image)


def is_inside(mark: Mark, style: Style) -> bool:
    return box_of(mark).is_within(Box(0, 0, style.sheet.width, style.sheet.height))


def box_of(mark: Mark) -> Box:
    height, width = mark.image.shape[:2]
    return Box(mark.left, mark.top, mark.left + width, mark.top + height)


def overlap(mark: Mark, other: Mark) -> bool:
    return box_of(mark).meets(box_of(other))


# ---- Text


def pillow() -> Any:
    try:
        import PIL.Image
        import PIL.ImageDraw
        import PIL.ImageFont
    except ImportError as error:
        raise EngineMissingError(f"labels: expected Pillow, got {error}; install python3-pil") from error
    return PIL


def font_of(size: float) -> Any:
    fonts = pillow().ImageFont
    for name in FONTS:
        try:
            return fonts.truetype(name, round(size))
        except OSError:
            continue
    return fonts.load_default()


def drawn(width: float, height: float) -> Any:
    """A clear image, and what draws on it."""
    images = pillow()
    image = images.Image.new("RGBA", (math.ceil(width), math.ceil(height)), (255, 255, 255, 0))
    return image, images.ImageDraw.Draw(image)


def label_mark(label: Label) -> Mark:
    """A label with a halo, in the middle of its place or right of its disc."""
    if not is_number(label.size) or not 1 <= label.size <= 1000:
        raise MapError(f"style.label-size: expected 1 to 1000 pixels, got {shown(label.size)}")
    font = font_of(label.size)
    left, top, right, bottom = font.getbbox(label.text, stroke_width=HALO)
    image, pen = drawn(right - left, bottom - top)
    pen.text((-left, -top), label.text, tuple(label.color), font, stroke_width=HALO, stroke_fill=WHITE)
    x = label.x - image.width / 2 if label.radius is None else label.x + label.radius + HALO
    return Mark(round(x), round(label.y - image.height / 2), np.asarray(image))


def legend_image(style: Style, legend: Legend) -> Any:
    """Boxes in the colours of the map, each with its text."""
    font = font_of(TEXT_SIZE)
    step = TEXT_SIZE + PADDING
    width = max(font.getlength(text) for _color, text in legend.rows) + 2 * step + PADDING
    image, pen = drawn(width, step * len(legend.rows) + PADDING)
    pen.rectangle((0, 0, image.width, image.height), PAPER)
    for row, (color, text) in enumerate(legend.rows):
        top = PADDING + step * row
        pen.rectangle((PADDING, top, PADDING + step, top + TEXT_SIZE), blended(color, style), BLACK)
        pen.text((2 * PADDING + step, top + TEXT_SIZE / 2), text, BLACK, font, anchor="lm")
    return np.asarray(image)


def blended(color: Any, style: Style) -> Any:
    """A colour over the background, as areas show it."""
    *channels, alpha = (*color, 255)[:4]
    return tuple((alpha * c + (255 - alpha) * g + 127) // 255 for c, g in zip(channels, style.sheet.clear))


# ---- A scale bar


def unit_length(style: Style) -> float:
    """The metres of a pixel in the middle of a sheet; of a plane, its units."""
    west, south, east, north = style.window
    across = (east - west) / style.sheet.width
    if style.projection == PLANE:
        return across
    return math.radians(across) * RADIUS * math.cos(math.radians((south + north) / 2))


def bar_image(style: Style, unit: Any) -> Any:
    """A bar of a round length, which is right in the middle of the sheet."""
    if unit is not None and not isinstance(unit, str):
        raise MapError(f"style.unit: expected the name of a plane's unit, got {shown(unit)}")
    pixel = unit_length(style)
    length = round_length(SHARE * style.sheet.width * pixel)
    font, text = font_of(TEXT_SIZE), length_text(length, "m" if unit is None else unit)
    width = max(length / pixel, font.getlength(text)) + 2 * PADDING
    image, pen = drawn(width, TEXT_SIZE + BAR + 3 * PADDING)
    pen.rectangle((0, 0, image.width, image.height), PAPER)
    pen.text((PADDING, PADDING), text, BLACK, font)
    top = 2 * PADDING + TEXT_SIZE
    pen.rectangle((PADDING, top, PADDING + round(length / pixel), top + BAR), BLACK)
    return np.asarray(image)


def round_length(most: float) -> float:
    """The greatest of 1, 2 and 5 times a power of ten that is at most this."""
    power = 10.0 ** math.floor(math.log10(most))
    return next(power * digit for digit in DECIMAL if power * digit <= most)


def length_text(length: float, unit: str) -> str:
    return f"{length / 1000:,.10g} km" if unit == "m" and length >= 1000 else f"{length:,.10g} {unit}"
