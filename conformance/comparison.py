"""A driver's pictures compared with the program's, or with another driver's, list by list, and what is counted of them.

With several samples the samples are compared one by one: a list is drawn with one sample index left in its masks and a
black clear, so that the resolved pixel is a share of that sample's colour, of four samples a quarter. The suites' exact
lists have colours whose shares are integers.
"""

from __future__ import annotations

import hashlib
from collections import Counter
from dataclasses import dataclass, field

from conformance.renderer import Candidate, CannotAsk, Renderer
from conformance.suites import Suite
from conformance.suites.shapes import all_samples, each_draw
from tools.draw_list import Draw, DrawList, encode


def samples_of(scene: DrawList) -> int:
    return int(scene.get("samples", 1))


def only_sample(scene: DrawList, sample: int) -> DrawList:
    """The list of one sample index, which the program draws to that sample's colour, or a share of it."""
    if samples_of(scene) == 1:
        return scene

    def masked(draw: Draw) -> Draw:
        return {**draw, "sample_mask": draw.get("sample_mask", all_samples(scene)) & 1 << sample}

    return {**each_draw(scene, masked), "clear": [0, 0, 0]}


def planes(renderer: Renderer, scene: DrawList) -> list[bytes]:
    """The pictures of a list's sample indices, one after another."""
    return [renderer.picture(only_sample(scene, sample)) for sample in range(samples_of(scene))]


def colour_at(picture: bytes, width: int, place: tuple[int, int]) -> bytes:
    """The colour of the pixel in this column and row of a picture."""
    start = 3 * (place[1] * width + place[0])
    return picture[start : start + 3]


def pixels_that_differ(one: bytes, other: bytes) -> list[int]:
    """The numbers of the pixels of which two pictures have different bytes."""
    if one == other:
        return []
    row = 3 * 64
    found: list[int] = []
    for first in range(0, len(one), row):
        if one[first : first + row] != other[first : first + row]:
            ends = range(first, min(first + row, len(one)), 3)
            found += [k // 3 for k in ends if one[k : k + 3] != other[k : k + 3]]
    return found


# How a sample differs.
EXTRA, MISSING, OTHER = "extra", "missing", "other"
KINDS = {EXTRA: "drawn by the driver alone", MISSING: "missing", OTHER: "of another triangle"}
VALUE = "value"  # the kind of a channel that is near and not equal


def kind_of(expected: bytes, drawn: bytes) -> str:
    """How the two colours of a sample that differs do so."""
    if not any(expected):
        return EXTRA
    return OTHER if any(drawn) else MISSING


@dataclass
class Example:
    """A list of a subject whose worst pixel is shown, the sample that differs there and how, and both sides' pictures.
    The list is the one that the rules draw."""

    title: str
    kind: str
    scene: DrawList
    sample: int
    pixel: int
    expected: list[bytes]
    drawn: list[bytes]

    @property
    def place(self) -> tuple[int, int]:
        """The column and the row of the pixel."""
        row, column = divmod(self.pixel, self.scene["width"])
        return column, row

    def colours(self) -> tuple[bytes, bytes]:
        """The sample's colour by the rules and by the driver, a quarter of it if there are four samples."""
        expected, drawn = (
            colour_at(planes[self.sample], self.scene["width"], self.place) for planes in (self.expected, self.drawn)
        )
        return expected, drawn


@dataclass(frozen=True)
class Case:
    """What was seen of one list: its number in its subject, its title, and how many samples or channels differ, of
    channels those that differ by more than is allowed."""

    number: int
    title: str
    differ: int


@dataclass
class Tally:
    """What was seen of one subject with one number of samples."""

    suite: Suite
    samples: int
    lists: int = 0
    compared: int = 0  # samples of exact subjects, channels of the others
    differ: int = 0
    kinds: Counter[str] = field(default_factory=Counter)  # of exact subjects
    examples: dict[str, Example] = field(default_factory=dict)  # one of each kind, as they were found
    errors: Counter[int] = field(default_factory=Counter)  # of subjects that are not exact, by size
    left_out: Counter[str] = field(default_factory=Counter)
    cases: list[Case] = field(default_factory=list)  # the lists that differ
    identity: str = ""  # of the subject's lists

    @property
    def name(self) -> str:
        return f"{self.suite.name}-{self.samples}"

    @property
    def first(self) -> Example | None:
        return next(iter(self.examples.values()), None)

    @property
    def example(self) -> Example:
        """The example of a subject that has one."""
        if self.first is None:
            raise ValueError(f"no list of {self.name} differs")
        return self.first

    def named_examples(self) -> list[tuple[str, Example]]:
        """The examples with their names: the subject's own for the first, and with the kind behind it
        for the others."""
        return [
            (f"{self.name}-{kind}" if n else self.name, example)
            for n, (kind, example) in enumerate(self.examples.items())
        ]

    @property
    def agrees(self) -> bool:
        """Whether nothing differs, or no channel by more than is allowed."""
        allowed = self.suite.tolerance(self.samples)
        return not self.differ if allowed is None else max(self.errors, default=0) <= allowed


def worst(differing: list[list[int]]) -> tuple[int, int]:
    """The sample index and the pixel shown of a list: the first of the pixels with most samples that differ."""
    counts = Counter(pixel for pixels in differing for pixel in pixels)
    pixel = max(counts, key=lambda pixel: (counts[pixel], -pixel))
    return next(sample for sample, pixels in enumerate(differing) if pixel in pixels), pixel


def by_kind(differing: list[list[int]], expected: list[bytes], drawn: list[bytes]) -> dict[str, list[list[int]]]:
    """The pixels that differ of each sample index, by how they do."""
    kinds: dict[str, list[list[int]]] = {}
    for sample, pixels in enumerate(differing):
        for pixel in pixels:
            kind = kind_of(*(planes[sample][3 * pixel : 3 * pixel + 3] for planes in (expected, drawn)))
            kinds.setdefault(kind, [[] for _ in differing])[sample].append(pixel)
    return kinds


def compare_exactly(
    tally: Tally, title: str, scene: DrawList, rules: DrawList, program: Renderer, driver: Renderer
) -> None:
    """Compares what the driver makes of a list with what the program does. The example is the list that
    the rules draw."""
    drawn = planes(driver, scene)
    expected = planes(program, scene)
    differing = [pixels_that_differ(*pair) for pair in zip(expected, drawn)]
    tally.compared += samples_of(scene) * scene["width"] * scene["height"]
    tally.differ += sum(map(len, differing))
    for kind, pixels in by_kind(differing, expected, drawn).items():
        tally.kinds[kind] += sum(map(len, pixels))
        if kind not in tally.examples:
            tally.examples[kind] = Example(title, kind, rules, *worst(pixels), expected, drawn)


def compare_values(
    tally: Tally, title: str, scene: DrawList, rules: DrawList, program: Candidate, driver: Candidate
) -> None:
    """Compares channels: red, green and blue, or alpha too."""
    drawn, expected = ((one.pixels if tally.suite.has_alpha else one.picture)(scene) for one in (driver, program))
    channels = 4 if tally.suite.has_alpha else 3
    tally.compared += len(expected)
    errors = Counter({0: len(expected)}) if expected == drawn else Counter(abs(a - b) for a, b in zip(expected, drawn))
    greatest = max(errors)
    if greatest > max(tally.errors, default=0):
        place = next(k for k, (a, b) in enumerate(zip(expected, drawn)) if abs(a - b) == greatest)
        shown = [as_colours(one, channels, place % channels) for one in (expected, drawn)]
        tally.examples = {VALUE: Example(title, VALUE, rules, 0, place // channels, shown[:1], shown[1:])}
    tally.differ += len(expected) - errors[0]
    tally.errors += errors


def as_colours(picture: bytes, channels: int, worst_channel: int) -> bytes:
    """A picture as it is shown: its colours, or its alpha as grey if that is what differs most."""
    if channels == 3:
        return picture
    order = (3, 3, 3) if worst_channel == 3 else (0, 1, 2)
    return bytes(channel for at in range(0, len(picture), 4) for channel in (picture[at + k] for k in order))


def beyond(tally: Tally) -> int:
    """How many of a subject's samples differ, or of its channels by more than is allowed."""
    allowed = tally.suite.tolerance(tally.samples)
    return tally.differ if tally.suite.exact else sum(n for size, n in tally.errors.items() if size > (allowed or 0))


def compare_suite(
    suite: Suite, samples: int, program: Candidate, driver: Candidate, bits: int = 8, limit: int | None = None
) -> Tally:
    """The tally of one subject, or of its first lists, with positions of this number of subpixel bits. A list that one
    of the two cannot be asked is left out."""
    tally = Tally(suite, samples)
    compare = compare_exactly if suite.exact else compare_values
    identity = hashlib.sha256()
    for number, (title, scene) in enumerate(suite.lists(samples, bits)):
        if limit is not None and number >= limit:
            break
        setting, before = suite.setting(number), beyond(tally)
        identity.update(f"{setting}{encode(scene).decode()}".encode())
        try:
            compare(tally, title, scene, setting.by_rules(scene), program.through(setting), driver.through(setting))
            tally.lists += 1
        except CannotAsk as error:
            tally.left_out[str(error)] += 1
        if beyond(tally) > before:
            tally.cases.append(Case(number, title, beyond(tally) - before))
    tally.identity = identity.hexdigest()
    return tally
