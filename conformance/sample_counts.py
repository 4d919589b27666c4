"""Lists with any number of samples by lists with one: what draw lists themselves have is 1 and 4."""

from __future__ import annotations

from typing import Callable, Mapping, Sequence

from conformance.suites.setting import move
from conformance.suites.shapes import all_samples, each_draw
from tools.draw_list import Draw, DrawList

OF_LISTS = (1, 4)


def alone(scene: DrawList, sample: int, place: Sequence[int]) -> DrawList:
    """The list with one sample whose pixels have the colours of this sample, which lies at this place of a pixel: all
    is moved until it lies in the centre."""

    def masked(draw: Draw) -> Draw:
        return {**draw, "sample_mask": draw.get("sample_mask", all_samples(scene)) >> sample & 1}

    return {**move(each_draw(scene, masked), 128 - place[0], 128 - place[1]), "samples": 1}


def resolved(
    scene: DrawList, patterns: Mapping[int, Sequence[Sequence[int]]], picture: Callable[[DrawList], bytes]
) -> bytes:
    """The picture of a list with any number of samples, by what draws lists with one and with four: the
    mean, to the nearest."""
    count = scene.get("samples", 1)
    if count in OF_LISTS:
        return picture(scene)
    cleared = bytes(scene.get("clear", (0, 0, 0))) * (scene["width"] * scene["height"])
    planes = []
    for sample, place in enumerate(patterns[count]):
        draws = any(draw.get("sample_mask", all_samples(scene)) >> sample & 1 for draw in scene["draws"])
        planes.append(picture(alone(scene, sample, place)) if draws else cleared)
    return bytes((sum(channels) + count // 2) // count for channels in zip(*planes))
