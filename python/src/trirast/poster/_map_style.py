"""The style of a map: its window, its projection, and colours by a property. docs/maps.md has its keys."""

from __future__ import annotations

import json
import math
from typing import Any, Iterator, Mapping, NamedTuple, Optional, Sequence

import numpy as np
from numpy.typing import NDArray

from .._arguments import OF_FLOATS
from .._color_names import channels_of
from ._errors import MapError
from ._scene import MAX_SIDE, Sheet

# Where the map of Web Mercator ends, which is a square then.
STEEPEST = math.degrees(math.atan(math.sinh(math.pi)))
# How far a plane reaches to each side, in units of its file: no number of pixels overflows.
PLANE, FAR = "plane", 1e15
WORLD = {
    "plate carree": (-180.0, -90.0, 180.0, 90.0), "web mercator": (-180.0, -STEEPEST, 180.0, STEEPEST),
    PLANE: (-FAR, -FAR, FAR, FAR),
}
# The window that is as wide and high as what is drawn.
DATA = "data"
KEYS = (
    "projection", "crs", "layer", "window", "width", "samples", "background", "color", "property", "colors", "steps",
    "opacity",
)

# What JSON calls its values.
TYPES = {
    str: "string", int: "number", float: "number", bool: "boolean", type(None): "null", list: "array", dict: "object"
}
# How many of a property's values an error lists.
FEW = 4

Places = NDArray[np.float64]
Color = Sequence[int]


class Style(NamedTuple):
    """How a map is drawn, as docs/maps.md has it."""

    projection: str
    # West, south, east and north, in degrees, or by a plane in the file's own units.
    window: tuple[float, float, float, float]
    sheet: Sheet
    color: Color
    property: Optional[str]
    colors: Mapping[str, Color]
    # In place of `colors`.
    steps: Optional[Sequence[tuple[float, Color]]]

    def color_of(self, properties: Mapping[str, Any]) -> Optional[Color]:
        """The colour of a feature with these properties, or `None` if it has `color`."""
        if self.property is None or self.property not in properties:
            return None
        value = properties[self.property]
        if self.steps is None:
            return self.colors.get(name_of(value))
        below = [color for least, color in self.steps if least <= value] if is_number(value) else []
        return below[-1] if below else None

    def count_plain(self, features: Sequence[Mapping[str, Any]]) -> str:
        """How many of some features, of these properties, are coloured by the style's property, and how many have
        `color`; and by steps, why."""
        plain = [properties for properties in features if self.color_of(properties) is None]
        below = sum(is_number(properties.get(self.property or "")) for properties in plain)
        why = "" if self.steps is None else f" ({len(plain) - below} without a number, {below} below the first step)"
        coloured = "" if self.property is None else f"{len(features) - len(plain)} coloured by {self.property}, "
        return f"{coloured}{len(plain)} in the style's color{why}"

    def check_values(self, features: Sequence[Mapping[str, Any]], path: str) -> None:
        """Raises MapError if no feature of a file, of these properties, has the style's property, or none has a
        value for its colours."""
        if self.property is None or not features:
            return
        names = {name for properties in features for name in properties}
        if self.property not in names:
            found = f"{shown(sorted(names))} of {path}"
            raise MapError(f"style.property: expected one of {found}, got {shown(self.property)}")
        values = [properties[self.property] for properties in features if self.property in properties]
        if self.steps is not None and not any(map(is_number, values)):
            raise MapError(
                f"style.steps: expected a number as {shown(self.property)} of {path}, got {some_of(values)}"
            )
        if self.steps is not None and not any(is_number(value) and value >= self.steps[0][0] for value in values):
            least = shown(self.steps[0][0])
            raise MapError(
                f"style.steps: expected {shown(self.property)} of at least {least} in {path}, got {some_of(values)}"
            )
        if self.steps is None and not any(name_of(value) in self.colors for value in values):
            wanted = shown(list(self.colors))
            raise MapError(
                f"style.colors: expected one of {wanted} as {shown(self.property)} of {path}, got {some_of(values)}"
            )


def style_of(value: Any) -> Style:
    if not isinstance(value, dict):
        raise MapError(f"style: expected an object with some of the keys {', '.join(KEYS)}, got {shown(value)}")
    for key in value:
        if key not in KEYS:
            raise MapError(f"style: expected some of the keys {', '.join(KEYS)}, got {shown(key)}")
    projection = value.get("projection", "plate carree")
    if not isinstance(projection, str) or projection not in WORLD:
        raise MapError(
            f"style.projection: expected {', '.join(WORLD)}, got {shown(projection)}; a file that is projected "
            f"already, as in metres, is a {PLANE}"
        )
    window = window_of(given_window(value, projection), WORLD[projection])
    opacity = value.get("opacity", 1)
    if not is_number(opacity) or not 0 <= opacity <= 1:
        raise MapError(f"style.opacity: expected 0 to 1, got {shown(opacity)}")
    if ("property" in value) != ("colors" in value or "steps" in value):
        raise MapError("style: expected a property with colors or steps, or neither, got one alone")
    if "colors" in value and "steps" in value:
        raise MapError("style: expected colors or steps, got both")
    for key in ("crs", "layer"):
        if not isinstance(value.get(key, ""), str):
            raise MapError(f"style.{key}: expected a name, got {shown(value[key])}")
    if not isinstance(value.get("property", ""), str):
        raise MapError(f"style.property: expected a name, got {shown(value['property'])}")

    def color(name: str, given: Any) -> Color:
        red, green, blue, *alpha = color_of(name, given)
        return red, green, blue, *(alpha or [round(255 * opacity)])

    if value.get("steps") == []:
        raise MapError("style.steps: expected one step or more, got []")
    steps = [(least, color("steps", given)) for least, given in pairs_of(value.get("steps", []))]
    numbers = [least for least, _ in steps]
    if numbers != sorted(numbers):
        raise MapError(f"style.steps: expected numbers that rise, got {shown(numbers)}")
    colors = value.get("colors", {})
    if not isinstance(colors, dict):
        raise MapError(f"style.colors: expected an object of values and their colours, got {shown(colors)}")
    named = {name: color(f"colors[{name}]", given) for name, given in colors.items()}
    sheet = sheet_of(value, projection, window)
    plain = color("color", value.get("color", "#d0c8b0"))
    return Style(projection, window, sheet, plain, value.get("property"), named, steps if "steps" in value else None)


def is_of_data(value: Mapping[str, Any]) -> bool:
    """Whether the window of a style is as wide and high as what is drawn."""
    return bool(value.get("window", DATA if value.get("projection") == PLANE else None) == DATA)


def given_window(value: Mapping[str, Any], projection: str) -> Any:
    """A style's window, or the world until the data are known."""
    return WORLD[projection] if is_of_data(value) else value.get("window", WORLD[projection])


def of_data(value: Mapping[str, Any], places: Places) -> Style:
    """A style whose window is the bounds of what is drawn, within its projection."""
    _, least, _, most = WORLD[value.get("projection", "plate carree")]
    (west, south), (east, north) = places.min(0).tolist(), places.max(0).tolist()
    return style_of({**value, "window": [west, max(south, least), east, min(north, most)]})


def window_of(given: Any, world: Sequence[float]) -> tuple[float, float, float, float]:
    if not isinstance(given, (list, tuple)) or len(given) != 4 or not all(map(is_number, given)):
        wanted = f"west, south, east and north in degrees, or {DATA!r}"
        raise MapError(f"style.window: expected {wanted}, got {shown(given)}")
    west, south, east, north = map(float, given)
    if not (west < east and world[1] <= south < north <= world[3] and east - west <= max(360, world[2] - world[0])):
        raise MapError(
            f"style.window: expected west below east, and south below north within {world[1]:.10g} to "
            f"{world[3]:.10g}, got {shown(given)}"
        )
    return west, south, east, north


def sheet_of(value: Mapping[str, Any], projection: str, window: tuple[float, float, float, float]) -> Sheet:
    west, south, east, north = window
    width = value.get("width", 4096)
    rise = math.degrees(mercator(north) - mercator(south)) if projection == "web mercator" else north - south
    if type(width) is not int or not 1 <= width <= MAX_SIDE:
        raise MapError(f"style.width: expected 1 to {MAX_SIDE} pixels, got {shown(width)}")
    red, green, blue, *_ = color_of("background", value.get("background", "#ffffff"))
    height = width * rise / (east - west)
    if not height < MAX_SIDE + 0.5:
        raise MapError(
            f"style.width: expected a height of at most {MAX_SIDE} by this window, got {height:.0f} from {width}"
        )
    return Sheet(width, max(1, round(height)), value.get("samples", 4), (red, green, blue))


def color_of(name: str, given: Any) -> Color:
    """A colour of 3 or 4 numbers, or a text as channels_of has them."""
    found = channels_of(given) if isinstance(given, str) else None
    if found is not None:
        return found
    is_list = isinstance(given, (list, tuple)) and len(given) in (3, 4)
    if is_list and all(type(each) is int and 0 <= each <= 255 for each in given):
        return tuple(given)
    raise MapError(
        f"style.{name}: expected a colour as #rrggbb, #rrggbbaa, a name or three or four numbers up to 255, "
        f"got {shown(given)}{OF_FLOATS * is_float_color(given)}"
    )


def is_float_color(given: Any) -> bool:
    """Whether a colour has channels of 0 to 1, as those of matplotlib have."""
    return isinstance(given, (list, tuple)) and any(isinstance(each, float) for each in given)


def pairs_of(steps: Any) -> Iterator[tuple[float, Any]]:
    for step in steps if isinstance(steps, list) else [steps]:
        if not isinstance(step, list) or len(step) != 2 or not is_number(step[0]):
            raise MapError(f"style.steps: expected pairs of a number and a colour, got {shown(step)}")
        yield step[0], step[1]


def mercator(latitude: Any) -> Any:
    """The height of a latitude on a map of Mercator whose globe has the radius 1."""
    return np.arctanh(np.sin(np.radians(latitude)))


def is_number(value: Any) -> bool:
    """Whether a value is a number that a float can have."""
    try:
        return isinstance(value, (int, float)) and not isinstance(value, bool) and math.isfinite(value)
    except OverflowError:
        return False


def name_of(value: Any) -> str:
    """A value as a name of `colors`: a text is its own, and others stand as in JSON."""
    return value if isinstance(value, str) else json.dumps(value)


def some_of(values: Sequence[Any]) -> str:
    """The first few different values, with their types."""
    found = dict.fromkeys(f"{shown(value)} ({TYPES[type(value)]})" for value in values)
    return ", ".join(list(found)[:FEW]) + (", .." if len(found) > FEW else "")


def shown(value: Any) -> str:
    text = repr(value)
    return text if len(text) <= 80 else f"{text[:77]}..."
