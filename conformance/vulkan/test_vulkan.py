"""Tests of the comparison with Vulkan without a device: the requests' new words, subjects, and values at samples.

    python3 -m pytest conformance/vulkan/test_vulkan.py
"""

from __future__ import annotations

import struct
import unittest
from dataclasses import replace
from fractions import Fraction
from typing import Sequence

from conformance import suites
from conformance.d3d11 import pictures, requests
from conformance.d3d11.requests import COLOURS, DEPTHS, HAS_MORE, RESOLVED, request, version_of
from conformance.d3d11.streams import PICTURE, REFUSED, VALUES, Answer, Answers
from conformance.model import Model
from conformance.renderer import CannotAsk
from conformance.sample_counts import alone
from conformance.suites.setting import PLAIN, WS, Setting, finest_depths
from conformance.suites.shapes import PLACES, Triangle, draw, flat, own_colour, rectangle, scene, triangles_in, vertex
from conformance.vulkan import samples
from conformance.vulkan.run import Vulkan, asks_values
from conformance.vulkan.samples import OTHERS, RULES, SUBJECTS, Places, Plane, compare, lists_of
from tools.draw_list import DrawList

BY_NAME = {suite.name: suite for suite in suites.VULKAN}
PERSPECTIVE = Setting(perspective=True)


def square(count: int = 4) -> DrawList:
    return scene([draw(rectangle(0, 0, 2, 2), scissor=[0, 0, 1, 2])], count, 2, 2)


class Requests(unittest.TestCase):
    def test_a_request_without_the_new_words_is_the_old_one(self) -> None:
        for setting in (PLAIN, Setting(64, (3, -5), True, 32)):
            data = request(square(), setting)
            self.assertEqual(
                (version_of([data]), struct.unpack_from("<i", data, 16)[0]), (1, int(setting.anticlockwise_front))
            )

    def test_the_new_words(self) -> None:
        for setting, output, more in (
            (PERSPECTIVE, RESOLVED, (0, 5)), (PLAIN, COLOURS, (1, 4)), (PERSPECTIVE, DEPTHS, (2, 5))
        ):
            data = request(square(), setting, output)
            words = struct.unpack(f"<{len(data) // 4}i", data)
            self.assertEqual((version_of([data]), words[4], words[16:18]), (2, HAS_MORE, more))
            if setting.perspective:
                self.assertEqual(words[32:52:5], (0, 512, 0, 512))
                self.assertEqual(words[36:57:5], (*WS[:5],))

    def test_a_request_is_read_again(self) -> None:
        coloured = scene([draw([[vertex((k, 0), own_colour(k)) for k in range(3)]])], 1, 8, 8)
        whole = {
            "cull": "none", "depth_test": "always", "depth_write": False, "blend": "none", "write": [True] * 3,
            "sample_mask": 15,
        }
        for setting in (PERSPECTIVE, Setting(leading=0), Setting(2048, depth_bits=32, leading=0, perspective=True)):
            read, found = requests.read(request(coloured, setting))
            self.assertEqual(found, setting)
            self.assertEqual(read["draws"], [{**whole, **coloured["draws"][0]}])


class Settings(unittest.TestCase):
    def test_the_finest_depths(self) -> None:
        listed = scene([draw([[vertex((0, 0), z=z) for z in (0, 3, 15)]])], 1, 8, 8, clear_depth=2)
        drawn = finest_depths(listed)
        self.assertEqual([corner[2] for corner in drawn["draws"][0]["vertices"]], [0, 3 * 4369, 65535])
        self.assertEqual(drawn["clear_depth"], 2 * 4369)
        self.assertEqual(Setting(depth_bits=32).by_rules(listed), drawn)
        self.assertEqual(Setting().by_rules(listed), listed)
        self.assertEqual(finest_depths(square()), square())  # cleared to 65535

    def test_the_leading_vertex(self) -> None:
        corners = [vertex((k, k * k), own_colour(k), alpha=k) for k in range(4)]
        listed = scene([{"vertices": corners, "strip": [0, 1, 2, 3]}], 1, 8, 8)
        for leading in (0, 2):
            (drawn,) = Setting(leading=leading).by_rules(listed)["draws"]
            first, second = (tuple(own_colour(n)) + (n,) for n in ((0, 2)[leading // 2], (1, 2)[leading // 2]))
            self.assertEqual([tuple(corner[3:]) for corner in drawn["vertices"]], [first] * 3 + [second] * 3)


class Subjects(unittest.TestCase):
    def test_colours_of_eight_and_sixteen_samples_have_shares(self) -> None:
        for name in ("pattern-positions", "pattern-edges", "pattern-scissor"):
            for count in (8, 16):
                lists = [listed for _title, listed in BY_NAME[name].lists(count)]
                channels = {
                    channel
                    for one in lists
                    for drawn in one["draws"]
                    for corner in drawn["vertices"]
                    for channel in corner[3:6]
                }
                self.assertEqual({channel % count for channel in channels}, {0})
                self.assertNotIn(0, channels)

    def test_a_list_of_one_sample_by_each_place(self) -> None:
        edge = scene([draw([flat([(40, -512), (2560, -512), (40, 2560)])])], 16, 2, 2)
        for count in (2, 8, 16):
            listed = {**edge, "samples": count}
            drawn = [n for n, (x, y) in enumerate(PLACES[count]) if any(Model().picture(alone(listed, n, (x, y)))[:3])]
            self.assertEqual(drawn, [n for n, (x, _y) in enumerate(PLACES[count]) if x >= 40])

    def test_depths_keep_their_margin(self) -> None:
        for _title, listed in list(BY_NAME["steep-depths"].lists(4))[::8]:
            for triangle in triangles_in(listed["draws"][0])[::5]:
                for places in PLACES.values():
                    for place in places:
                        self.assertEqual(depth_at(triangle, place) % 8, 4)

    def test_fine_planes_keep_their_margin(self) -> None:
        for _title, listed in list(BY_NAME["float-planes"].lists(4))[::4]:
            for x in range(0, 32 * 8, 7):
                for y in range(0, 32 * 8, 11):
                    plane, *layers = (depth_at(triangles_in(drawn)[0], (32 * x, 32 * y)) for drawn in listed["draws"])
                    self.assertGreaterEqual(min(abs(plane - layer) for layer in layers), Fraction(1, 4736))


def depth_at(triangle: Triangle, place: Sequence[int]) -> Fraction:
    planes_ = [Plane(triangle, values) for values in ([corner[2] for corner in triangle], (1, 1, 1))]
    depth, area = (next(iter(plane.at_pixels(1, (place[0], place[1])))) for plane in planes_)
    return Fraction(depth, area)


def drawn_at(subject: samples.Subject, listed: DrawList, places: Places) -> Answer:
    """The answer of a driver that takes values at these places, and rounds them to the nearest."""
    channels = [[Fraction(*pair) for pair in channel] for channel in samples.exact(subject, listed, places)]
    if subject.output == COLOURS:
        return Answer(PICTURE, pictures.encode(bytes(round(value) for pixel in zip(*channels) for value in pixel)))
    if subject.is_float:
        return Answer(VALUES, struct.pack(f"<{len(channels[0])}f", *(value / 65535 for value in channels[0])))
    return Answer(VALUES, struct.pack(f"<{len(channels[0])}I", *(round(value) for value in channels[0])))


class Comparing(unittest.TestCase):
    def test_only_the_standard_locations_are_comparable(self) -> None:
        listed = [request(square(count), PLAIN) for count in (1, 4)]
        drawn = [Answer(PICTURE, pictures.encode(bytes(12))) for _ in listed]
        for said, is_comparable in (("yes", True), ("no", False)):
            driver = Vulkan(listed, Answers(f"standard sample locations\t{said}\n", drawn))
            self.assertEqual(driver.picture(square(1)), bytes(12))
            if is_comparable:
                self.assertEqual(driver.picture(square(4)), bytes(12))
            else:
                with self.assertRaisesRegex(CannotAsk, "not comparable"):
                    driver.picture(square(4))

    def test_values_at_samples_are_asked_with_all_subjects_alone(self) -> None:
        self.assertIs(suites.VULKAN, suites.DIRECT3D)  # the archive for Windows makes the requests of both at once
        self.assertTrue(asks_values(suites.VULKAN))
        self.assertFalse(asks_values(suites.VULKAN[1:]))


class Samples(unittest.TestCase):
    """Values at samples against exact fractions."""

    SMALL = [replace(subject, side=8) for subject in SUBJECTS]

    def test_the_rules_agree(self) -> None:
        for subject in self.SMALL:
            for count in PLACES:
                lists = lists_of(subject, count)[:2]
                tally = compare(subject, count, lists, [drawn_at(subject, one, RULES) for one in lists])
                self.assertTrue(tally.agrees, tally)
                self.assertLessEqual(tally.greatest, 0.5 + 1e-9)

    def test_other_places_are_named(self) -> None:
        for subject in self.SMALL:
            if "gentle" in subject.title:
                continue
            for places in OTHERS:
                lists = lists_of(subject, 4)[:3]
                tally = compare(subject, 4, lists, [drawn_at(subject, one, places) for one in lists])
                # Only a colour in perspective is divided by w, and no other value depends on where w is taken.
                bends = subject.setting.perspective and subject.output == COLOURS
                if places is OTHERS[0] and not bends:
                    continue
                self.assertEqual((tally.agrees, tally.explained), (False, places.title), subject.title)

    def test_a_refusal(self) -> None:
        subject = SUBJECTS[0]
        tally = compare(subject, 8, lists_of(subject, 8)[:1], [Answer(REFUSED, b"no target")])
        self.assertEqual((tally.refused, sum(tally.errors.values())), ("no target", 0))

    def test_a_float_that_is_far(self) -> None:
        subject = next(one for one in self.SMALL if one.is_float)
        lists = lists_of(subject, 1)[:1]
        answer = drawn_at(subject, lists[0], RULES)
        (first,) = struct.unpack_from("<f", answer.data)
        moved = struct.pack("<f", first + 17 / 2**24) + answer.data[4:]
        self.assertEqual(compare(subject, 1, lists, [Answer(VALUES, moved)]).explained, "not explained")
