"""Tests of the comparison with Direct3D, without a driver: its streams and requests, reports, the archive for Windows,
and a stream that rasterize.exe wrote, which is compared again.

    python3 -m pytest conformance/d3d11/test_direct3d.py
"""

from __future__ import annotations

import hashlib
import os
import shutil
import struct
import subprocess
import sys
import tempfile
import unittest
import zlib
from typing import Callable, Sequence

from conformance import suites
from conformance.comparison import EXTRA, MISSING, compare_suite
from conformance.d3d11 import pictures, process, requests, streams, windows
from conformance.d3d11.direct3d import Direct3D, asked, drawn_by
from conformance.d3d11.run import Black, requests_of
from conformance.d3d11.stand_in import draw_by
from conformance.d3d11.streams import (
    REFUSED, Answer, Answers, BadChecksum, CutShort, Malformed, NotAStream, OtherSuite, OtherVersion, StreamError,
    identity_of, read_answers, read_requests, write_answers, write_requests,
)
from conformance.model import Model
from conformance.program import as_bytes
from conformance.report import page, text
from conformance.run import measure
from conformance.sample_counts import OF_LISTS, alone
from conformance.suites.setting import PLAIN, Setting
from conformance.suites.shapes import PLACES, draw, flat, rectangle, scene, vertex
from tests.reference import renderer
from tools.draw_list import DrawList
from tools.places import TOP

BY_NAME = {suite.name: suite for suite in suites.DIRECT3D}
RECORDED = os.path.join(TOP, "conformance", "d3d11", "recorded", "wine-llvmpipe.bin.z")


def small_lists() -> list[bytes]:
    square = scene([draw(rectangle(0, 0, 2, 2), scissor=[0, 0, 1, 2])], 4, 2, 2)
    return [requests.request(square, PLAIN), requests.request(square, Setting(64, (3, -5), True, 32))]


def small_answers(listed: Sequence[bytes]) -> bytes:
    answer = Answer(streams.PICTURE, pictures.encode(bytes(12)))
    return write_answers(identity_of(listed), Answers("renderer\tnone\n", [answer, Answer(REFUSED, b"no reason")]))


def with_version(stream: bytes, version: int) -> bytes:
    body = stream[:8] + struct.pack("<I", version) + stream[12:-4]
    return body + struct.pack("<I", zlib.crc32(body))


class Streams(unittest.TestCase):
    LISTED = small_lists()
    STREAMS: tuple[tuple[bytes, Callable[[bytes], object]], ...] = (
        (write_requests(LISTED), read_requests),
        (small_answers(LISTED), lambda data: read_answers(data, Streams.LISTED)),
    )

    def test_what_is_written_is_read(self) -> None:
        self.assertEqual(read_requests(write_requests(self.LISTED)), (identity_of(self.LISTED), self.LISTED))
        found = read_answers(small_answers(self.LISTED), self.LISTED)
        self.assertEqual((found.about, found.answers[1]), ("renderer\tnone\n", Answer(REFUSED, b"no reason")))

    def test_cut_at_each_byte(self) -> None:
        for stream, read in self.STREAMS:
            for length in range(len(stream)):
                with self.assertRaises(CutShort):
                    read(stream[:length])

    def test_of_another_version(self) -> None:
        for stream, read in self.STREAMS:
            for version in (0, streams.LAST_VERSION + 1):
                with self.assertRaises(OtherVersion):
                    read(with_version(stream, version))

    def test_no_stream(self) -> None:
        for stream, read in self.STREAMS:
            # A picture's file, the other stream, and this one with the line ends of a text.
            other = self.STREAMS[0][0] if stream[:8] == streams.ANSWERS else self.STREAMS[1][0]
            for foreign in (b"P6\n2 2\n255\n", other, stream.replace(b"\r\n", b"\n"), stream.replace(b"\n", b"\r\n")):
                with self.assertRaises(NotAStream):
                    read(foreign)

    def test_answers_to_another_suite(self) -> None:
        with self.assertRaises(OtherSuite):
            read_answers(small_answers(self.LISTED[::-1]), self.LISTED)
        with self.assertRaises(OtherSuite):
            read_answers(small_answers(self.LISTED[:1]), self.LISTED)

    def test_changed_bytes(self) -> None:
        for stream, read in self.STREAMS:
            for place in range(len(stream)):
                changed = stream[:place] + bytes((stream[place] ^ 16,)) + stream[place + 1 :]
                with self.assertRaises(StreamError):
                    read(changed)
            for place in (44, len(stream) - 1):
                changed = stream[:place] + bytes((stream[place] ^ 1,)) + stream[place + 1 :]
                with self.assertRaises((BadChecksum, CutShort)):
                    read(changed)
            with self.assertRaises(BadChecksum):
                read(stream + b"\0")

    def test_fewer_answers_than_requests(self) -> None:
        one = write_answers(identity_of(self.LISTED), Answers("", [Answer(REFUSED, b"")]))
        with self.assertRaises(Malformed):
            read_answers(one, self.LISTED)


class Requests(unittest.TestCase):
    def test_a_request_is_read_again(self) -> None:
        shaded = [
            vertex((-8388608, 8388607), (1, 2, 3), 65535, 200), vertex((0, 1), (4, 5, 6)),
            vertex((2, 3), (7, 8, 255), 9, 0),
        ]
        state = {
            "cull": "back", "depth_test": "less", "depth_write": True, "blend": "over", "write": [True, False, True],
            "sample_mask": 5,
        }
        listed = scene([draw([shaded], **state, scissor=[1, 2, 3, 4])], 4, 8, 16, clear=[1, 2, 3], clear_depth=77)
        for setting in (PLAIN, Setting(2048, (-1, 255), True, 32)):
            self.assertEqual(requests.read(requests.request(listed, setting)), (listed, setting))

    def test_the_words_of_one_request(self) -> None:
        listed = scene([draw([flat([(0, 0), (512, 0), (0, 512)], (1, 2, 3))])], 1, 2, 4)
        words = struct.unpack("<45i", requests.request(listed, Setting(8)))
        self.assertEqual(words[:16], (2, 4, 1, 16, 0, -3, -2, 8, 8, 0, 0, 0, 0, 0, 65535, 1))
        self.assertEqual(words[16:30], (0, 7, 0, 0, 15, 15, 0, 0, 0, 0, 2, 4, 3, 3))
        self.assertEqual(words[30:34], (0, 0, 0, 0x030201 - (1 << 24)))  # alpha is 255
        self.assertEqual(words[42:], (0, 1, 2))

    def test_too_few_and_too_many_words(self) -> None:
        whole = small_lists()[0]
        for data in (whole[:-4], whole[:40], whole + bytes(4)):
            with self.assertRaises(Malformed):
                requests.read(data)


class Runs(unittest.TestCase):
    def test_pictures(self) -> None:
        for picture in (bytes(3), bytes(3 * 1000), bytes(range(255)), b"abc" * 256 + b"abd" * 257, b"\1\2\3\3\2\1" * 9):
            self.assertEqual(pictures.decode(pictures.encode(picture), len(picture) // 3), picture)
        self.assertEqual(pictures.encode(b"abc" * 257), b"abc\xffabc\0")

    def test_of_another_size(self) -> None:
        for runs, pixels in ((b"abc\1", 1), (b"abc\1", 3), (b"abc\0ab", 1), (b"", 1)):
            with self.assertRaises(Malformed):
                pictures.decode(runs, pixels)


class Settings(unittest.TestCase):
    CLOCKWISE = flat([(0, 0), (2048, 0), (0, 2048)])

    def test_what_the_rules_draw(self) -> None:
        listed = scene([draw([self.CLOCKWISE], cull="front", scissor=[0, 0, 4, 4])], 1, 8, 8)
        self.assertEqual(Setting(2048, depth_bits=32).by_rules(listed), listed)
        (turned,) = Setting(anticlockwise_front=True).by_rules(listed)["draws"]
        self.assertEqual((turned["cull"], turned["vertices"]), ("back", listed["draws"][0]["vertices"]))
        (moved,) = Setting(moved=(3, -5)).by_rules(listed)["draws"]
        self.assertEqual([corner[:2] for corner in moved["vertices"]], [[3, -5], [2051, -5], [3, 2043]])
        self.assertEqual((moved["scissor"], moved["cull"]), ([0, 0, 4, 4], "front"))

    def test_each_setting_of_a_subject_is_tried(self) -> None:
        for suite in suites.DIRECT3D:
            for samples in suite.samples:
                count = sum(1 for _ in suite.lists(samples))
                self.assertGreaterEqual(count, len(suite.settings), suite.name)

    def test_no_list_is_refused(self) -> None:
        asked_of_opengl = {suite.name for suite in suites.OPENGL}
        for suite in suites.DIRECT3D:
            if suite.name in asked_of_opengl:
                continue
            for samples in suite.samples:
                for number, (title, listed) in enumerate(suite.lists(samples)):
                    with self.subTest(suite=suite.name, title=title):
                        drawn = suite.setting(number).by_rules(listed)
                        alone_ = drawn if samples in OF_LISTS else alone(drawn, 0, PLACES[samples][0])
                        self.assertEqual(renderer.read(as_bytes(alone_)).samples, samples if samples in OF_LISTS else 1)

    def test_the_first_tenth_has_all_parts(self) -> None:
        titles = [title for title, _ in BY_NAME["depth-tests"].lists(1)]
        self.assertEqual((len(titles), len(set(titles)), BY_NAME["depth-tests"].tenth(1)), (56, 56, 6))
        self.assertEqual(len({title.split(",")[0] for title in titles[:6]}), 6)


def answered(listed: Sequence[bytes], answer: Callable[[int], Answer]) -> Direct3D:
    return Direct3D(listed, Answers("renderer\tnone\n", [answer(n) for n in range(len(listed))]))


class Comparing(unittest.TestCase):
    def test_refused_requests_are_left_out_by_name(self) -> None:
        suite = BY_NAME["colours"]
        listed = asked(lambda questions: compare_suite(suite, 4, Black(), questions, limit=3))
        driver = answered(listed, lambda _n: Answer(REFUSED, b"`sample` interpolation: not taken"))
        tally = compare_suite(suite, 4, Black(), driver, limit=3)
        self.assertEqual(
            (tally.lists, tally.compared, dict(tally.left_out)), (0, 0, {"`sample` interpolation: not taken": 3})
        )

    def test_values_within_and_beyond_what_is_allowed(self) -> None:
        for more, agrees in ((1, True), (2, False)):
            suite = BY_NAME["one-layer"]
            listed = asked(lambda questions: compare_suite(suite, 1, Black(), questions, limit=1))
            grey = Answer(streams.PICTURE, pictures.encode(bytes((more,)) * 3 * 128 * 128))
            tally = compare_suite(suite, 1, Black(), answered(listed, lambda _n: grey), limit=1)
            self.assertEqual((tally.agrees, max(tally.errors)), (agrees, more))

    def test_no_request_is_written_twice(self) -> None:
        listed = requests_of([BY_NAME["sample-positions"]])
        self.assertEqual(len(listed), len(set(listed)))


HISTORY = """#!{python}
import json, sys
place, sample = sys.argv[1], int(sys.argv[sys.argv.index("--sample") + 1])
json.load(sys.stdin)
events = [{{"draw": 0, "triangle": n, "result": "missed", "reasons": ["outside_scissor"], "fragment": {{"depth": 7}},
            "before": None, "after": None}} for n in range(2)]
x, y = map(int, place.split(","))
begin = {{"color": [0, 0, 0], "depth": 65535}}
one = {{"sample": sample, "position": [256 * x + 128, 256 * y + 128], "begin": begin, "events": events, "end": begin}}
print(json.dumps({{"x": x, "y": y, "color": [0, 0, 0], "samples": [one]}}))
"""


class Reports(unittest.TestCase):
    def report(self, why: str, folder: str, mutant: str = "moved scissor") -> tuple[str, str]:
        chosen = [suites.Suite("one", "One scissor", lambda _rng, samples: iter([("a scissor", self.LISTED)]), (1,))]
        driver = drawn_by(draw_by(Model(mutant)), asked(lambda q: measure(Black(), q, chosen, folder)))
        report = measure(Model(), driver, chosen, folder, why=why)
        return text(report), page(report)

    LISTED = scene([draw(rectangle(0, 0, 8, 8), scissor=[2, 2, 5, 5])], 1, 8, 8)

    def test_a_picture_of_each_kind_of_difference(self) -> None:
        with tempfile.TemporaryDirectory() as folder:
            lines, shown = self.report("no-such-program", folder)
            self.assertEqual(sorted(os.listdir(folder)), [f"one-1-{EXTRA}.json", "one-1.json"])
        self.assertEqual(shown.count("<svg"), 6)
        self.assertIn(", missing</h3>", shown)
        self.assertIn(", drawn by the driver alone</h3>", shown)
        self.assertIn(f"3 drawn by the driver alone, 3 {MISSING}", lines)
        for written in (lines, shown):
            self.assertIn("There is no program no-such-program", written)

    def test_the_history_of_the_sample(self) -> None:
        with tempfile.TemporaryDirectory() as folder:
            path = os.path.join(folder, "why")
            with open(path, "w", encoding="utf-8") as file:
                file.write(HISTORY.format(python=sys.executable))
            os.chmod(path, 0o755)
            lines, shown = self.report(path, os.path.join(folder, "lists"))
        # Column 5 of row 2 is drawn by the mutant alone.
        self.assertIn("draw 0; triangle 0; result missed; reasons outside_scissor; fragment depth 7", lines)
        self.assertIn("by the rules, at 1408 640, from color 0 0 0, depth 65535:", lines)
        self.assertIn("<td>outside_scissor</td>", shown)
        self.assertNotIn("There is no program", lines + shown)


class RecordedAnswers(unittest.TestCase):
    """Answers of rasterize.exe under Wine 8.0, with Mesa 22.3.6's llvmpipe, to the first list of the subjects below."""

    SUBJECTS = (
        "top-left", "sample-positions", "culling", "anticlockwise", "scissor", "mask-of-one", "fraction",
        "negative-fraction", "clear",
    )
    CHECKSUM = "8944cc488e0e984384900c7e9762f3e5bd09e7b2a50304efbfed740caa118ff2"
    # llvmpipe's scissor; wined3d's sample mask, and its viewport with a negative fraction. In all other
    # rows no sample differs.
    DIFFER = {"scissor-4": 55, "mask-of-one-1": 11313, "negative-fraction-1": 751, "negative-fraction-4": 2867}

    def test_the_counts_of_the_recorded_answers(self) -> None:
        with open(RECORDED, "rb") as file:
            data = file.read()
        self.assertEqual(hashlib.sha256(data).hexdigest(), self.CHECKSUM)
        chosen = [BY_NAME[name] for name in self.SUBJECTS]
        listed = requests_of(chosen, limit=1)
        driver = Direct3D(listed, read_answers(zlib.decompress(data), listed))
        rows = [(suite, samples) for suite in chosen for samples in suite.samples]
        tallies = [compare_suite(suite, samples, Model(), driver, limit=1) for suite, samples in rows]
        self.assertEqual({tally.name: tally.differ for tally in tallies if tally.differ}, self.DIFFER)
        self.assertEqual(dict(driver.said())["system"], "Wine 8.0")


class Archive(unittest.TestCase):
    def test_its_files(self) -> None:
        listed = small_lists()
        found = windows.contents(b"MZ", listed, b"MZ", listed[:1])
        programs = {"rasterize.exe", "requests.bin", "rasterize-vulkan.exe", "requests-vulkan.bin"}
        self.assertEqual(set(found), {"README.txt", "draw.cmd", *programs})
        self.assertEqual(read_requests(found["requests.bin"])[1], listed)
        self.assertEqual(read_requests(found["requests-vulkan.bin"])[1], listed[:1])
        self.assertEqual(found["draw.cmd"].count(b"\r\n"), 4)
        for each in (listed, listed[:1]):
            self.assertIn(identity_of(each).hex().encode(), found["README.txt"])
        for name in (b"answers-warp.bin", b"answers-hardware.bin", b"answers-vulkan.bin"):
            self.assertIn(name, found["draw.cmd"])
            self.assertIn(name, found["README.txt"])

    def test_the_same_bytes_each_time(self) -> None:
        with tempfile.TemporaryDirectory() as folder:
            made = []
            for name in ("one.zip", "other.zip"):
                path = os.path.join(folder, name)
                windows.write_archive(path, {"a": b"1", "b": b"2"})
                with open(path, "rb") as file:
                    made.append(file.read())
        self.assertEqual(*made)


class Command(unittest.TestCase):
    """The command of run.py, with streams that cannot be compared."""

    def run_with(self, *arguments: str) -> tuple[int, bytes, bytes]:
        command = [
            sys.executable, "-m", "conformance.d3d11.run", "--suite", "clear", "--program", sys.executable, *arguments
        ]
        run = subprocess.run(command, cwd=TOP, capture_output=True)
        return run.returncode, run.stdout, run.stderr

    def test_a_named_error_and_no_count(self) -> None:
        with tempfile.TemporaryDirectory() as folder:
            asked_for, path = os.path.join(folder, "requests.bin"), os.path.join(folder, "answers.bin")
            self.assertEqual(self.run_with("--write", asked_for), (0, b"", b""))
            with open(asked_for, "rb") as file:
                listed = read_requests(file.read())[1]
            whole = write_answers(identity_of(listed), Answers("", [Answer(REFUSED, b"") for _ in listed]))
            for name, stream in (
                ("CutShort", whole[:-1]), ("CutShort", b""), ("OtherVersion", with_version(whole, 3)),
                ("NotAStream", b"\0" * 100), ("OtherSuite", small_answers(Streams.LISTED)),
                ("BadChecksum", whole + b"\0"),
            ):
                with open(path, "wb") as file:
                    file.write(stream)
                status, output, line = self.run_with("--read", path)
                self.assertEqual((status, output), (2, b""), name)
                self.assertTrue(line.startswith(b"conformance: " + name.encode() + b": "), line)

    def test_no_program(self) -> None:
        status, output, line = self.run_with("--exe", "no.exe", "--run", sys.executable)
        self.assertEqual((status, output), (2, b""))
        self.assertIn(b"there is no program at no.exe", line)


def why_not_built() -> str:
    """Builds rasterize.exe, or says what is missing for that or for Wine."""
    for tool in ("x86_64-w64-mingw32-g++", *process.WINE[::2]):
        if not shutil.which(tool):
            return f"no {tool}, so rasterize.exe is not run"
    subprocess.run(["make", "-s", os.path.relpath(process.EXE, TOP)], cwd=TOP, check=True, stdout=subprocess.DEVNULL)
    return ""


NO_PROGRAM = why_not_built()


@unittest.skipIf(NO_PROGRAM, NO_PROGRAM)
class Rasterize(unittest.TestCase):
    """rasterize.exe with streams that it cannot draw, which needs no device."""

    def test_a_named_error(self) -> None:
        whole = write_requests(small_lists())
        for name, stream in (
            ("CutShort", whole[:-1]), ("CutShort", whole[:70]), ("CutShort", b""),
            ("OtherVersion", with_version(whole, 3)), ("NotAStream", small_answers(Streams.LISTED)),
            ("BadChecksum", whole[:-1] + b"\0"), ("BadChecksum", whole + bytes(4)),
        ):
            with self.assertRaises(process.CannotRun) as raised:
                process.draw(stream, process.command(process.EXE, "hardware", None))
            self.assertIn(f"rasterize: {name}: ", str(raised.exception))
