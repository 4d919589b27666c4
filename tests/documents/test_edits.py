#!/usr/bin/env python3
"""Tests of the must-fail edits: that each can be applied, and is named for a function that it changes and
for the clause that refuses it; that the page of wrong bodies has them; and that docs/proofs.md names tests that are
there.

    python3 -m pytest tests/documents/test_edits.py
"""

from __future__ import annotations

import os
import re
from functools import partial

import pytest

from tests.mutants import Mutant
from tools import places
from tools.edits import clause_in
from tools.places import text_of
from tools.sources import wrong_bodies
from tools.sources.rattle import functions_in
from tools.sources.wrong_bodies import Edit, promises

EDITS = wrong_bodies.edits()


def tests() -> set[str]:
    """The tests of all crates, as crate::function, those of the whole program in Python, as acceptance::function
    without `test_`, and the calls that have worked values, as worked_values::call and worked_lists::call."""
    found: set[str] = set()
    for path in places.files("tests", "program", "*.py"):
        found.update(f"acceptance::{name}" for name in re.findall(r"^def test_(\w+)", text_of(path), re.MULTILINE))
    for path in places.files("crates", "*", "src", "**", "*.rt"):
        crate = path.split(os.sep)[1]
        found.update(f"{crate}::{name}" for name in re.findall(r"#\[test\]\s+fn (\w+)", text_of(path)))
    for crate in ("worked_values", "worked_lists"):
        lines = text_of("crates", crate, "stdin").splitlines()
        found.update(f"{crate}::{line.split()[0]}" for line in lines if line and not line.startswith("#"))
    return found


def test_each_crate_with_edits_is_in_the_page() -> None:
    assert {edit.crate for edit in EDITS} == set(wrong_bodies.crates())


@pytest.mark.parametrize("edit", EDITS, ids=lambda edit: f"{edit.crate}/{edit.name}")
def test_an_edit_can_be_applied_and_names_its_function_and_clause(edit: Edit) -> None:
    assert re.fullmatch(r"\w+\.\w+", edit.name), "an edit is named FUNCTION.WHAT_IS_WRONG"
    changed = Mutant(edit.name, tuple(edit.pairs)).texts(partial(text_of, "crates", edit.crate))
    assert all(file.startswith("src/") for file in changed)
    function = edit.function()
    assert function, f"there is no function {edit.name.split('.')[0]}"
    named, names = clause_in(edit.text), promises(function)
    if len(names) > 1:
        assert named in names, f"its line 'clause:' names one of {', '.join(names)}"
    else:
        assert not named or named in names


def test_edits_change_different_texts() -> None:
    seen: dict[tuple[object, ...], str] = {}
    for edit in EDITS:
        made = (edit.crate, tuple(edit.pairs))
        assert made not in seen, f"{edit.path} is {seen[made]}"
        seen[made] = edit.path


def test_the_page_has_them() -> None:
    assert text_of(wrong_bodies.PAGE) == wrong_bodies.page(), "run python3 -m tools.sources.wrong_bodies"


def test_wrong_bodies_that_only_a_test_rejects_name_one_that_exists() -> None:
    section = text_of("docs", "proofs.md").split("| Mutant | Test |\n")[1].split("\n## ")[0]
    rows = [line.strip("|").split(" | ") for line in section.split("\n") if line.startswith("| ")]
    assert rows
    for body, named in rows:
        names = re.findall(r"`([^`]+)`", named)
        assert names and set(names) <= tests(), body


def test_a_clause_with_a_record_is_read_whole() -> None:
    text = (
        "pub fn f() -> R\n    ensures { result ≡ record {\n      a = 1;\n    } }\n    "
        "ensures last { A }\n{\n    g()\n}\n"
    )
    (call,) = functions_in(text)
    assert call.text.split("\n")[1:] == ["ensures { result ≡ record {", "a = 1;", "} }", "ensures last { A }"]
    assert promises(call) == ["", "last"]
