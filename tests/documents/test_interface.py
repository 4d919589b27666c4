#!/usr/bin/env python3
"""Tests that what is written from interface/numbers.toml and the header is what they say, that the header's comments
and the crates have the same numbers, and that the second renderer has the same sample positions.

    python3 -m pytest tests/documents/test_interface.py
"""

from __future__ import annotations

import re
from unittest import mock

import pytest

from tests.reference import renderer
from tools.interface import __main__ as command
from tools.interface import numbers, outputs
from tools.interface.header import Function, functions_in, header, structs_in
from tools.interface.numbers import interface
from tools.places import text_of

# What every call on a canvas checks first, in the words of the header: "the first check that fails".
OF_EVERY_CALL = {"BadStructSize", "BadCanvas", "BadTileRows", "BadMemory"}
NUMBERS = interface().enumerations


def crate(*path: str) -> str:
    return text_of("crates", *path)


class TestWritten:
    def test_nothing_is_stale(self) -> None:
        pytest.importorskip("jinja2")
        assert outputs.stale() == [] and command.main(["--check"]) == 0

    def test_what_differs_is_stale(self) -> None:
        pytest.importorskip("jinja2")
        text = text_of(numbers.PATH)
        for old, new, stale in (
            ('"there are boxes, but fewer than polygons"', '"there are few boxes"', {
                "bindings/rust/trirast/src/cause.rs", "docs/generated/errors.md", "include/trirast.h",
            }),
            ("count = 2\n", "count = 3\n", {
                "bindings/rust/trirast/src/numbers.rs", "include/trirast.h", "python/src/trirast/_numbers.py",
                "web/interface.js",
            }),
        ):
            assert text.count(old) == 1
            changed = numbers.interface_of(text.replace(old, new))
            with mock.patch.object(outputs, "interface", lambda: changed):
                assert stale <= set(outputs.stale())

    def test_a_file_has_each_block_once(self) -> None:
        jinja2 = pytest.importorskip("jinja2")
        template = jinja2.Template("{% block one %}1{% endblock %}")
        lines = "a\n/* generated: one */\nold\n/* end of one */\nb\n"
        assert outputs.with_parts(lines, template) == lines.replace("old", "1")
        for wrong in ("a\n", lines.replace("end of one", "end of two")):
            pytest.raises(ValueError, outputs.with_parts, wrong, template)

    def test_a_number_has_one_name(self) -> None:
        text = text_of(numbers.PATH)
        twice = text.replace("[format.Bgra8]\nvalue = 2", "[format.Bgra8]\nvalue = 1")
        assert twice != text
        with pytest.raises(ValueError, match="format has a value twice"):
            numbers.interface_of(twice)


class TestHeader:
    def test_declarations_are_read(self) -> None:
        text = (
            "/* A pair. More. */\ntypedef struct trirast_pair {\n    int32_t x, y; /* places; */\n"
            "    const uint8_t (*colors)[4];\n} trirast_pair;\n\n"
            "inline size_t trirast_f(const trirast_pair *pair,\n                        void *memory) {\n}\n"
            "trirast_status trirast_g(void);\nstatic inline int trirast_h(int x) {\n}\n"
        )
        (pair,) = structs_in(text).values()
        assert [(each.name, each.type, each.length) for each in pair.members] == [
            ("x", "int32_t", 0), ("y", "int32_t", 0), ("colors", "uint8_t", 4)
        ]
        assert pair.about == "A pair." and pair.has_pointers
        first, second = functions_in(text).values()
        assert (first.name, first.is_inline, [each.name for each in first.parameters]) == (
            "trirast_f", True, ["pair", "memory"]
        )
        assert (second.name, second.is_inline, second.parameters) == ("trirast_g", False, ())

    def test_none_is_left_out(self) -> None:
        text = re.sub(r"/\*.*?\*/", "", text_of("include", "trirast.h"), flags=re.DOTALL)
        calls = set(re.findall(r"^(?:inline )?(?:const )?\w+ \*?(trirast_\w+)\(", text, re.MULTILINE))
        assert set(header().functions) == calls and len(calls) > 40
        assert set(header().structs) == set(re.findall(r"^typedef struct (\w+) \{$", text, re.MULTILINE))

    @pytest.mark.parametrize("name", [each.name for each in header().public if each.result.type == "trirast_status"])
    def test_a_comment_names_the_statuses_of_its_call(self, name: str) -> None:
        function = header().functions[name]
        name = name.removeprefix("trirast_")
        listed = {each.name for each in NUMBERS["status"].numbers if name in interface().calls(each.calls)}
        assert statuses_of(function) == listed


def statuses_of(function: Function) -> set[str]:
    """The statuses that a call returns after an error, by the comment above it in the header."""
    text = text_of("include", "trirast.h")
    place = re.search(rf"^(?:inline )?trirast_status {function.name}\(", text, re.MULTILINE)
    assert place is not None
    comment = text[: place.start()].rpartition("\n/* ")[2].rpartition("Returns ")[2]
    names = {numbers.in_words(each.name): each.name for each in NUMBERS["status"].numbers}
    found = {names[name] for name in re.findall(r"TRIRAST_STATUS_(\w+)", comment)} - {"Ok"}
    if "the first check that fails" in comment and any(each.type == "trirast_canvas" for each in function.parameters):
        found |= OF_EVERY_CALL
    same = re.match(r"what (trirast_\w+) returns", comment)
    return found | statuses_of(header().functions[same[1]]) if same else found


class TestCauses:
    @pytest.mark.parametrize("group", interface().order)
    def test_the_order_has_those_that_the_calls_report(self, group: str) -> None:
        calls = set(interface().calls([group]))
        causes = NUMBERS["batch_cause"].numbers
        reported = {cause.name for cause in causes if calls & set(interface().calls(cause.calls))}
        ordered = {cause.name for cause, _when in interface().order[group]}
        # Of polygons one line stands for all numbers of a state.
        state = {cause.name for cause in causes if cause.note.endswith("such a state.")}
        assert ordered == reported - (state - {"BadFillRule", "BadTopology"} if group == "polygons" else set())

    def test_each_call_is_in_the_header(self) -> None:
        for enumeration in NUMBERS.values():
            for number in enumeration.every:
                for call in interface().calls(number.calls):
                    assert f"trirast_{call}" in header().functions

    def test_counts_are_members(self) -> None:
        members = {member.name for member in header().structs["trirast_polygons"].members}
        assert all(set(cause.counts) <= members for cause in NUMBERS["batch_cause"].numbers)


class TestCrates:
    """What crates have by hand. Numbers and texts of the crates that C calls are written there too."""

    def test_causes_of_lists(self) -> None:
        every = {number.name: number.value for number in NUMBERS["list_cause"].every}
        for folder, file, arm in (
            ("src", "fault.rt", r"^ +ReadKind::(\w+) => (\d+),$"),
            ("specs", "Fault.antt", r"^kind_number (\w+) = (\d+)$"),
        ):
            found = re.findall(arm, crate("draw_list", folder, file), re.MULTILINE)
            assert {name: int(number) for name, number in found} == every

    def test_arrays_of_polygons(self) -> None:
        text = crate("polygons", "src", "arrays.rt")
        (body,) = re.findall(r"pub enum ArraysError \{(.*?)^\}", text, re.DOTALL | re.MULTILINE)
        variants = dict(re.findall(r"^    (\w+)(\(usize\))?,$", body, re.MULTILINE))
        causes = {name: cause for cause in NUMBERS["batch_cause"].numbers for name in cause.arrays}
        assert {name: bool(cause.element) for name, cause in causes.items()} == {
            name: bool(index) for name, index in variants.items()
        }

    @pytest.mark.parametrize("name", ["topology", "cull", "depth_test"])
    def test_states(self, name: str) -> None:
        (most,) = re.findall(rf"check \(d\.{name} ≤ (\d+)\)", crate("batch", "specs", "States.antt"))
        assert [number.value for number in NUMBERS[name].numbers] == list(range(int(most) + 1))

    def test_samples(self) -> None:
        found = re.findall(r"^ +(\d+) => Some\(SampleCount::", crate("grid", "src", "sample_count.rt"), re.MULTILINE)
        assert list(map(int, found)) == [pattern.count for pattern in interface().samples]

    @pytest.mark.parametrize("path", [path for path in outputs.PARTS.values() if path.startswith("crates/")])
    def test_no_bare_number_is_left_beside_what_is_written(self, path: str) -> None:
        by_hand = outputs.BETWEEN.sub("", text_of(path))
        of_code = r"(?:of_all|at_element|Err)\(\d+[,)]|^ +\d+ => (?:\(|Some\(|Status)"
        of_specs = r"cause = \d+|≤ \d+\) \d+ \("
        assert re.findall(rf"{of_code}|{of_specs}", by_hand, re.MULTILINE) == []


class TestOthers:
    def test_the_second_renderer_has_the_sample_positions(self) -> None:
        assert {pattern.count: pattern.places for pattern in interface().samples} == renderer.PATTERNS
        assert [pattern.count for pattern in interface().samples] == list(renderer.PATTERNS)

    def test_each_number_is_of_an_interface_that_there_was(self) -> None:
        (last,) = re.findall(r"^#define TRIRAST_INTERFACE (\d+)$", text_of("include", "trirast.h"), re.MULTILINE)
        every = [number.since for enumeration in NUMBERS.values() for number in enumeration.every]
        every += [limit.since for limit in interface().limits.values()]
        assert all(1 <= since <= int(last) for since in every + [pattern.since for pattern in interface().samples])
