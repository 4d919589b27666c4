"""Tests of the program `rasterize` for Vulkan: streams, devices and calls that it must refuse or that fail, and what a
device draws. What needs a device is left out where there is none.

    python3 -m pytest conformance/vulkan/test_program.py
"""

from __future__ import annotations

import contextlib
import os
import shutil
import struct
import subprocess
import tempfile
import unittest
from typing import Iterator, Sequence

import pytest

from conformance import suites
from conformance.comparison import Tally, compare_suite, planes
from conformance.d3d11 import pictures
from conformance.d3d11.direct3d import Direct3D, asked
from conformance.d3d11.process import CannotRun, ran
from conformance.d3d11.requests import COLOURS, DEPTHS, request, version_of
from conformance.d3d11.run import Black
from conformance.d3d11.streams import PICTURE, REFUSED, VALUES, Answer, read_answers, write_requests
from conformance.model import Model
from conformance.renderer import Candidate
from conformance.suites.setting import PLAIN, Setting
from conformance.suites.shapes import draw, flat, rectangle, scene
from conformance.vulkan import process
from tools.draw_list import DrawList
from tools.places import TOP

BY_NAME = {suite.name: suite for suite in suites.VULKAN}
PERSPECTIVE = Setting(perspective=True)


def square(count: int = 4) -> DrawList:
    return scene([draw(rectangle(0, 0, 2, 2), scissor=[0, 0, 1, 2])], count, 2, 2)


def why_not_built() -> str:
    """Builds the program, or says what is missing for that."""
    for tool in ("make", "g++", "glslangValidator"):
        if not shutil.which(tool):
            return f"no {tool}, so the program for Vulkan is not built"
    header = subprocess.run(["g++", "-E", "-include", "vulkan/vulkan.h", "-x", "c++", os.devnull], capture_output=True)
    if header.returncode:
        return "no vulkan/vulkan.h (libvulkan-dev), so the program for Vulkan is not built"
    subprocess.run(
        ["make", "-s", os.path.relpath(process.PROGRAM, TOP)], cwd=TOP, check=True, stdout=subprocess.DEVNULL
    )
    return ""


def why_no_device() -> str:
    """Why nothing can be drawn."""
    if NO_PROGRAM:
        return NO_PROGRAM
    try:
        return "" if process.devices(process.PROGRAM) else "Vulkan's loader finds no device"
    except CannotRun as error:
        return str(error)


NO_PROGRAM = why_not_built()
NO_DEVICE = why_no_device()


def ended_with(stream: bytes, *arguments: str) -> tuple[int, bytes, str]:
    run = subprocess.run([process.PROGRAM, *arguments], input=stream, capture_output=True)
    return run.returncode, run.stdout, run.stderr.decode()


# Vulkan's calls that `failing.c` lets fail, by how often a small stream of requests makes them at least.
CALLS = {
    1: (
        "vkCreateInstance", "vkCreateDevice", "vkCreateCommandPool", "vkCreateFence", "vkAllocateCommandBuffers",
        "vkCreateSampler", "vkCreateDescriptorSetLayout", "vkCreateDescriptorPool", "vkAllocateDescriptorSets",
        "vkCreateComputePipelines",
    ),
    2: (
        "vkEnumeratePhysicalDevices", "vkCreatePipelineLayout", "vkCreateRenderPass", "vkCreateFramebuffer",
        "vkCreateGraphicsPipelines",
    ),
    3: (
        "vkCreateBuffer", "vkMapMemory", "vkCreateImage", "vkCreateImageView", "vkAllocateMemory",
        "vkCreateShaderModule", "vkBeginCommandBuffer", "vkEndCommandBuffer", "vkQueueSubmit", "vkWaitForFences",
    ),
}
RESULTS = {-1: "OutOfMemory", -2: "OutOfDeviceMemory", -4: "DeviceLost", -3: "DeviceFailure"}


def with_words(data: bytes, place: int, *words: int) -> bytes:
    """A request with these words at a place."""
    return data[: 4 * place] + struct.pack(f"<{len(words)}i", *words) + data[4 * (place + len(words)) :]


@unittest.skipIf(NO_PROGRAM, NO_PROGRAM)
class Refused(unittest.TestCase):
    """Streams and arguments that `rasterize` cannot draw: one line, exit status 2, and no answer."""

    WHOLE = write_requests([request(square(), PLAIN)])

    def refuses(self, name: str, stream: bytes, *arguments: str) -> None:
        status, output, lines = ended_with(stream, *arguments)
        self.assertEqual((status, output), (2, b""), name)
        self.assertRegex(lines, rf"\A(rasterize: )?{name}: [^\n]*\n\Z")

    def test_cut_at_each_word(self) -> None:
        for length in range(0, len(self.WHOLE), 4):
            self.refuses("CutShort", self.WHOLE[:length])
        self.refuses("CutShort", self.WHOLE[:-1])

    def test_streams(self) -> None:
        changed = bytearray(self.WHOLE)
        changed[70] ^= 1
        for name, stream in (
            ("NotAStream", b"P6\n2 2\n255\n"), ("BadChecksum", bytes(changed)), ("BadChecksum", self.WHOLE + bytes(4)),
            ("OtherVersion", write_requests([request(square(), PLAIN)], 3)),
        ):
            self.refuses(name, stream)

    @unittest.skipIf(NO_DEVICE, NO_DEVICE)
    def test_requests(self) -> None:
        plain, more = request(square(), PLAIN), request(square(), PERSPECTIVE, COLOURS)
        blended = request({**square(), "clear_alpha": 0}, PLAIN)
        for version, data in (
            (1, more),  # version 1 has no such flag
            (1, with_words(plain, 4, 4)), (2, with_words(plain, 4, 8)), (2, with_words(more, 16, 4)),
            (2, with_words(more, 17, 6)), *((2, with_words(blended, place, 16)) for place in range(32, 38)),
            (2, with_words(blended, 31, 2)),
            (2, with_words(blended, 16, 256)),  # the clear colour's alpha
            (2, with_words(more, 36, 0)), (2, with_words(more, 36, -256)),  # w is not positive
            (1, with_words(plain, 0, 0)), (1, with_words(plain, 0, 16385)), (1, with_words(plain, 2, 33)),
            (1, with_words(plain, 3, 24)), (1, with_words(plain, 11, 256)), (1, with_words(plain, 14, 65536)),
            (1, plain[:-4]), (1, plain + bytes(4)), (1, with_words(plain, len(plain) // 4 - 1, 6)),
        ):
            self.refuses("Malformed", write_requests([plain, data], version))

    def test_a_wrong_device(self) -> None:
        for device in ("no such device", "999", "9999"):
            self.refuses("NoDevice", self.WHOLE, "--device", device)

    def test_no_driver(self) -> None:
        run = subprocess.run(
            [process.PROGRAM], input=self.WHOLE, capture_output=True,
            env={**os.environ, "VK_ICD_FILENAMES": "/none", "VK_DRIVER_FILES": "/none"},
        )
        self.assertEqual((run.returncode, run.stdout), (2, b""))
        self.assertRegex(run.stderr.decode(), r"\Arasterize: NoDevice: [^\n]*\n\Z")

    def test_arguments(self) -> None:
        for arguments in (("--device",), ("--read", "both"), ("--fast",), ("1",)):
            status, output, lines = ended_with(self.WHOLE, *arguments)
            self.assertEqual((status, output), (2, b""))
            self.assertTrue(lines.startswith("usage: rasterize "), lines)


@unittest.skipIf(NO_DEVICE, NO_DEVICE)
class CallsThatFail(unittest.TestCase):
    """Each call of Vulkan that can fail, once: one line with the error's name, exit status 2, and no answer."""

    STREAM = write_requests(
        [request(square(), PLAIN), request(square(), PERSPECTIVE, COLOURS), request(square(1), PLAIN, DEPTHS)], 2
    )

    def test_a_device_that_is_lost_in_the_middle(self) -> None:
        with self.library() as library:
            for call in ("vkQueueSubmit", "vkWaitForFences"):
                for number in (1, 2, 3):
                    self.fails(library, f"{call}:{number}:-4", "DeviceLost")

    def test_memory_that_is_short(self) -> None:
        with self.library() as library:
            self.fails(library, "vkAllocateMemory:1:-2", "OutOfDeviceMemory")
            self.fails(library, "vkAllocateMemory:2:-1", "OutOfMemory")

    @pytest.mark.long
    def test_each_call(self) -> None:
        with self.library() as library:
            for times, calls in CALLS.items():
                for call in calls:
                    for number in range(1, times + 1):
                        for result, name in RESULTS.items():
                            with self.subTest(call=call, number=number, result=name):
                                self.fails(library, f"{call}:{number}:{result}", name)

    @contextlib.contextmanager
    def library(self) -> Iterator[str]:
        """The library of calls that fail, built."""
        with tempfile.TemporaryDirectory() as folder:
            made = os.path.join(folder, "failing.so")
            source = os.path.join(os.path.dirname(os.path.abspath(__file__)), "failing.c")
            subprocess.run(["cc", "-shared", "-fPIC", "-o", made, source, "-ldl"], check=True)
            yield made

    def fails(self, library: str, failing: str, name: str) -> None:
        given = {**os.environ, "LD_PRELOAD": library, "VULKAN_FAILS": failing}
        run = subprocess.run([process.PROGRAM], input=self.STREAM, capture_output=True, env=given)
        self.assertEqual((run.returncode, run.stdout), (2, b""))
        self.assertRegex(run.stderr.decode(), rf"\Arasterize: {name}: [^\n]*\n\Z")


@unittest.skipIf(NO_DEVICE, NO_DEVICE)
class Drawn(unittest.TestCase):
    """What a device draws, whichever it is."""

    def answers(self, listed: Sequence[bytes], *arguments: str) -> list[Answer]:
        stream = ran([process.PROGRAM, *arguments], write_requests(listed, version_of(listed)))
        return read_answers(stream, listed).answers

    def test_the_three_ways_to_read_samples(self) -> None:
        """By a sampled image, by an input attachment, and one at a time by the sample mask."""
        lists = [listed for _title, listed in BY_NAME["top-left"].lists(4)][:3]
        whole = [request(one, PLAIN, COLOURS) for one in lists]
        ways = {way: self.answers(whole, "--read", way) for way in ("sampled", "input")}
        masked = asked(lambda questions: [planes(questions, one) for one in lists])
        driver = Direct3D(masked, read_answers(ran([process.PROGRAM], write_requests(masked)), masked))
        for n, listed in enumerate(lists):
            quarters = b"".join(planes(driver, listed))
            for way, answered in ways.items():
                if answered[n].status == PICTURE:
                    found_ = pictures.decode(answered[n].data, 4 * 128 * 128)
                    self.assertEqual(bytes(channel // 4 for channel in found_), quarters, way)
                else:
                    self.assertEqual(answered[n].status, REFUSED, way)

    def test_a_small_suite(self) -> None:
        """Subjects of which the rules leave nothing open to a device with eight subpixel bits, first lists,
        against the rules."""
        chosen = [
            BY_NAME[name] for name in ("sample-positions", "leading-vertex", "depth-ends", "strips", "layered-alpha")
        ]

        def compare_all(driver: Candidate) -> list[Tally]:
            return [
                compare_suite(suite, count, Model(), driver, limit=1) for suite in chosen for count in suite.samples
            ]

        listed = asked(
            lambda questions: [
                compare_suite(suite, n, Black(), questions, limit=1) for suite in chosen for n in suite.samples
            ]
        )
        stream = ran([process.PROGRAM], write_requests(listed, version_of(listed)))
        answers = read_answers(stream, listed)
        if "subpixel bits\t8\n" not in answers.about:
            self.skipTest("the device has other than eight subpixel bits")
        for tally in compare_all(Direct3D(listed, answers)):
            self.assertTrue(tally.agrees, tally.name)
            self.assertEqual((tally.lists, tally.compared > 0), (1, True), tally.name)

    def test_a_stored_depth(self) -> None:
        for bits, expected in ((16, struct.pack("<I", 12345)), (32, struct.pack("<f", 12345 / 65535))):
            for count in (1, 4):
                listed = scene(
                    [draw([flat([(-512, -512), (2560, -512), (-512, 2560)], z=12345)], depth_write=True)], count, 2, 2
                )
                (answer,) = self.answers([request(listed, Setting(64, depth_bits=bits), DEPTHS)])
                self.assertEqual((answer.status, answer.data), (VALUES, expected * 4 * count))

    def test_a_count_of_samples_that_no_device_has(self) -> None:
        refused, drawn = self.answers([request(scene([], 3, 2, 2), PLAIN), request(scene([], 1, 2, 2), PLAIN)])
        self.assertEqual((refused.status, drawn.status), (REFUSED, PICTURE))
        self.assertIn(b"3 samples", refused.data)

    def test_the_same_answers_each_time(self) -> None:
        listed = [request(one, PLAIN) for _title, one in BY_NAME["colours"].lists(4)][:4]
        self.assertEqual(self.answers(listed), self.answers(listed))

    def test_a_device_by_its_number_and_its_name(self) -> None:
        listed = [request(square(1), PLAIN)]
        number, name, _kind = process.devices(process.PROGRAM)[0].split("\t")
        by_number = ran([process.PROGRAM, "--device", number], write_requests(listed))
        self.assertIn(f"renderer\t{name}\n", read_answers(by_number, listed).about)

