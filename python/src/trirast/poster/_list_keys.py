"""What the keys of a list without arrays may be, for messages: the library's own say the kind of a fault
and its draw alone."""

from __future__ import annotations

from itertools import chain
from typing import Any, Callable, Mapping, NamedTuple

from .._arguments import shown
from .._draw import EVERY_SAMPLE
from .._numbers import CULLS, DEPTH_TESTS
from .._patterns import COUNTS
from .._rings import RULES
from ._scene import MAX_SIDE, OUTPUTS, SAMPLES


class Key(NamedTuple):
    """What a value may be, in words, and whether one is that."""

    allowed: str
    is_one: Callable[[Any], bool]


def numbers(least: int, most: int, unit: str = "") -> Key:
    """Integers of a range."""
    return Key(f"an integer from {least} to {most}{unit}", lambda value: type(value) is int and least <= value <= most)


def rows(count: str, length: int, of: Key) -> Key:
    """As many values in a list."""
    is_list: Callable[[Any], bool] = (
        lambda value: isinstance(value, (list, tuple)) and len(value) == length and all(map(of.is_one, value))
    )
    return Key(f"{count}, each {of.allowed}", is_list)


def names(*some: str) -> Key:
    """Texts."""
    return Key(f"one of {', '.join(map(repr, some))}", lambda value: isinstance(value, str) and value in some)


FLAG = Key("True or False", lambda value: isinstance(value, bool))
COUNT = Key("a number of them, 0 or more", lambda value: type(value) is int and value >= 0)
OF_LIST: Mapping[str, Key] = {
    "width": numbers(1, MAX_SIDE, " pixels"),
    "height": numbers(1, MAX_SIDE, " pixels"),
    "draws": Key("a list of draws", lambda value: isinstance(value, (list, tuple))),
    "samples": Key(COUNTS, lambda value: type(value) is int and value in SAMPLES),
    "clear": rows("three numbers", 3, numbers(0, 255)),
    "clear_depth": numbers(0, 65535),
    "output": names(*OUTPUTS),
}
NEEDED = ("width", "height", "draws")
OF_DRAW: Mapping[str, Key] = {
    "polygons": COUNT,
    "triangles": COUNT,
    "rule": names(*RULES),
    "cull": names(*CULLS),
    "depth_test": names(*DEPTH_TESTS),
    "depth_write": FLAG,
    "blend": names("none", "over"),
    "write": rows("three of them", 3, FLAG),
    "sample_mask": numbers(0, EVERY_SAMPLE),
    "scissor": rows("left, top, right and bottom", 4, numbers(0, MAX_SIDE, " pixels")),
}


def fault_of(value: Any) -> str:
    """What is wrong with a list without arrays, as `blend: expected one of 'none', 'over', got 'alpha'`; nothing if it
    is found to be right."""
    if not isinstance(value, dict):
        return f"expected a dict with the keys {', '.join(OF_LIST)}, got {shown(value)}"
    missing = [f"{key}: expected {OF_LIST[key].allowed}, got none" for key in NEEDED if key not in value]
    draws = value.get("draws", ())
    listed = draws if isinstance(draws, (list, tuple)) else ()
    of_draws = (text for draw in listed for text in faults(OF_DRAW, draw))
    return next(chain(faults(OF_LIST, value), missing, of_draws), "")


def faults(keys: Mapping[str, Key], value: Any) -> list[str]:
    """What is wrong with an object of these keys, key by key."""
    if not isinstance(value, dict):
        return [f"expected a dict with some of the keys {', '.join(keys)}, got {shown(value)}"]
    unknown = [f"expected some of the keys {', '.join(keys)}, got {shown(key)}" for key in value if key not in keys]
    known = [(key, keys[key], each) for key, each in value.items() if key in keys]
    return unknown + [
        f"{name}: expected {key.allowed}, got {shown(each)}" for name, key, each in known if not key.is_one(each)
    ]
