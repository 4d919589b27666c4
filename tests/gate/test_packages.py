"""Tests of what make says when the kit or packages of Debian are missing."""

from __future__ import annotations

import os
import re
import shutil
import subprocess
import sys
from pathlib import Path

import pytest

from tools import packages
from tools.ci.checks import CHECKS
from tools.packages import Package
from tools.places import TOP, text_of

# What the Makefile calls before it builds anything.
BASICS = ("bash", "cat", "dirname", "env", "expr", "find", "make", "mkdir", "sed", "sh")


def made(goal: str, path: Path, python: str = sys.executable) -> list[str]:
    """The lines of a goal of make that cannot be built, with no command but the basic ones. The level has no build."""
    for name in BASICS:
        if found := shutil.which(name):
            (path / name).symlink_to(found)
    words = ["make", "--no-print-directory", f"PYTHON={python}", "RT=no-kit", "CPU=no-level", goal]
    done = subprocess.run(
        words, cwd=TOP, env={"PATH": str(path)}, stdout=subprocess.PIPE, stderr=subprocess.STDOUT, text=True, timeout=60
    )
    assert done.returncode != 0, done.stdout
    return [line for line in done.stdout.splitlines() if not re.match(r"make(\[\d\])?: \*\*\*", line)]


@pytest.mark.parametrize("goal", ["all", "look", "prove", "frames"])
def test_make_says_that_the_kit_is_missing(goal: str, tmp_path: Path) -> None:
    (said,) = made(goal, tmp_path)
    assert re.match(r"no-kit: not found\. .*Rattle kit.*README\.md.* tests\.reference\.renderer .*make model", said)


def test_goals_that_need_no_kit_are_goals() -> None:
    makefile = text_of("Makefile")
    (named,) = re.findall(r"Without it these run: .*, make ([\w -]+)", makefile)
    goals = set(re.findall(r"^([\w-]+):", makefile, re.MULTILINE)) | {check.name for check in CHECKS}
    assert len(named.split()) > 3 and set(named.split()) <= goals


def test_demo_names_packages_before_the_kit(tmp_path: Path) -> None:
    first, second = made("demo", tmp_path)
    assert first == "make demo writes no PNG files without these packages: apt-get install netpbm"
    assert second.startswith("no-kit: not found. ")


def test_test_does_not_start_without_packages(tmp_path: Path) -> None:
    (said,) = made("test", tmp_path)
    assert re.fullmatch(r"make test cannot start without these packages: apt-get install (.* )?gcc .*binutils", said)


@pytest.mark.parametrize("goal", ["demo", "test"])
def test_all_packages_are_named_without_python(goal: str, tmp_path: Path) -> None:
    (said,) = made(goal, tmp_path, "no-python")
    names = [package.name for package in (*packages.GOALS["test"].needed, *packages.GOALS["demo"].optional)]
    assert said == f"make {goal} cannot start without these packages: apt-get install {' '.join(names)}"


def test_what_is_there_is_not_named() -> None:
    assert packages.line("test", lambda gives: True) == ("", True)
    assert packages.line("test", lambda gives: gives != "gcc") == (
        "make test cannot start without these packages: apt-get install gcc", False
    )
    assert packages.line("test", lambda gives: gives not in ("valgrind", "python:numpy")) == (
        "make test skips some checks without these packages: apt-get install python3-numpy valgrind", True
    )
    said, can_start = packages.line("test", lambda gives: False)
    assert said.count("apt-get") == 1 and not can_start
    assert said.endswith(" ".join(package.name for package in packages.GOALS["test"].needed))


def test_commands_modules_and_files_are_found(tmp_path: Path) -> None:
    assert packages.is_there("sh") and packages.is_there("python:json") and packages.is_there(str(tmp_path))
    for lacking in ("no-such-command", "python:no_such_module", os.path.join(tmp_path, "no-such-file")):
        assert not packages.is_there(lacking)
    assert packages.is_there("python:json", [sys.executable]) and not packages.is_there("python:json", ["no-python"])


def test_the_list_is_of_checks() -> None:
    listed = packages.packages_in(text_of(packages.LIST))
    assert {"start", "demo"} < set(listed) <= {"start", "demo", *(check.name for check in CHECKS)}
    gives = {(package.name, package.gives) for of_one in listed.values() for package in of_one}
    assert len(gives) >= len({name for name, _gives in gives}) > 30
    assert packages.packages_in("# a\none: a b=python:c\ntwo: d=/e\none: f\n") == {
        "one": [Package("a", "a"), Package("b", "python:c"), Package("f", "f")], "two": [Package("d", "/e")],
    }


def test_readme_names_what_is_needed() -> None:
    (line,) = re.findall(r"`apt-get install (.*?)`", text_of("README.md"), re.DOTALL)
    names = [package.name for package in (*packages.GOALS["test"].needed, *packages.GOALS["demo"].optional)]
    assert line.split() == ["make", *names]
