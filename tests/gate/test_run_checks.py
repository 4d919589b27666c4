"""Tests of `make test`, of the list of the checks and of the sum of `.ci/run`, with commands of their own."""

from __future__ import annotations

import importlib.util
import os
import re
import shlex
import subprocess
import sys
import threading
from itertools import takewhile
from pathlib import Path

import pytest

from tools.ci import checks, run_checks, total
from tools.ci.checks import CHECKS, Check
from tools.ci.run_checks import Outcome, Task, run_tasks
from tools.counts import MISSING, Counts
from tools.places import TOP, text_of


def check(text: str, name: str = "a-check", **more: object) -> Check:
    """A check that runs this text of Python."""
    command = shlex.join((sys.executable, "-c", text))
    return Check(name=name, about="", command=command, seconds=1, **more)  # type: ignore[arg-type]


PASSES = check("print('all is well')")


class CheckRun:
    """A run of checks in a folder: its counts, and what it printed."""

    def __init__(self, top: Path, capsys: pytest.CaptureFixture[str], *given: Check, is_long: bool = False) -> None:
        self.counts = run_checks.Tests(str(top), is_long).run(given, 2)
        self.said = capsys.readouterr().out


@pytest.mark.parametrize(("text", "counts"), [
    ("print('all is well')", Counts(1)),
    ("raise SystemExit(1)", Counts(0, 1)),
    ("print('7 passed, 0 failed, 2 skipped')", Counts(7, 0, 2)),
    ("print('7 passed, 2 failed'); raise SystemExit(1)", Counts(7, 2)),
    ("print('7 passed, 0 failed'); raise SystemExit(1)", Counts(7, 1)),
    ("print('== 2 failed, 5 passed, 1 skipped in 3.14s =='); raise SystemExit(1)", Counts(5, 2, 1)),
    ("print('5 passed, 1 warning in 0.01s')", Counts(5)),
    (f"print('there is no thing'); raise SystemExit({MISSING})", Counts(0, 0, 1)),
])
def test_counts(tmp_path: Path, capsys: pytest.CaptureFixture[str], text: str, counts: Counts) -> None:
    assert CheckRun(tmp_path, capsys, check(text)).counts == counts


def test_what_is_missing_is_named(tmp_path: Path, capsys: pytest.CaptureFixture[str]) -> None:
    tested = CheckRun(
        tmp_path, capsys, check("raise SystemExit(1)", needs=("no_such_compiler", "python:no_such_module")), PASSES
    )
    assert tested.counts == Counts(1, 0, 1)
    assert "skipped: a-check: there is no no_such_compiler and no python:no_such_module" in tested.said
    said = CheckRun(
        tmp_path, capsys, check("print('skipped  a part: there is no Dask\\n3 passed, 0 failed, 1 skipped')")
    ).said
    assert "skipped: a-check: skipped  a part: there is no Dask" in said


def test_each_skipped_test_is_named(tmp_path: Path) -> None:
    (tmp_path / "test_one.py").write_text(
        "import pytest\n\n@pytest.mark.parametrize('k', [1, 2])\ndef test_it(k):\n    pytest.skip(f'no {k}')\n",
        encoding="utf-8",
    )
    other = "import unittest\n\nraise unittest.SkipTest('no other')\n"
    (tmp_path / "test_other.py").write_text(other, encoding="utf-8")
    command = [sys.executable, "-m", "pytest", "-p", "conftest", str(tmp_path)]
    said = subprocess.run(command, cwd=TOP, stdout=subprocess.PIPE, text=True).stdout
    names = re.findall(r"^skipped \S*(test_\w+\.py\S*): (.*)$", said, re.MULTILINE)
    assert sorted(names) == [
        ("test_one.py::test_it[1]", "no 1"), ("test_one.py::test_it[2]", "no 2"), ("test_other.py", "no other")
    ]


def test_a_failed_check_shows_its_end_and_stops_no_other(tmp_path: Path, capsys: pytest.CaptureFixture[str]) -> None:
    tested = CheckRun(tmp_path, capsys, check("print('the reason'); raise SystemExit(1)"), check("pass", name="other"))
    assert tested.counts == Counts(1, 1)
    assert "FAILED a-check" in tested.said and "    the reason" in tested.said
    assert (tmp_path / "out" / "test" / "a-check.log").read_text(encoding="utf-8") == "the reason\n"


def test_a_check_that_does_not_end_is_stopped(
    tmp_path: Path, capsys: pytest.CaptureFixture[str], monkeypatch: pytest.MonkeyPatch,
) -> None:
    monkeypatch.setattr(run_checks, "CHECK_SECONDS", 10)
    endless = check("import subprocess, sys; subprocess.run([sys.executable, '-c', 'while True: pass'])")
    tested = CheckRun(tmp_path, capsys, endless, check("pass", name="other"))
    assert tested.counts == Counts(1, 1)
    assert "its time was over" in tested.said


def test_long_forms(tmp_path: Path, capsys: pytest.CaptureFixture[str]) -> None:
    counts = check("import sys; print(f'{len(sys.argv)} passed, 0 failed')", long="more")
    assert CheckRun(tmp_path, capsys, counts).counts == Counts(1)
    assert CheckRun(tmp_path, capsys, counts, is_long=True).counts == Counts(2)


MAKEFILE = ".PHONY: library\nbin/trirast:\n\tmkdir -p bin\n\techo built > $@\nlibrary:\n\t{}\n"


def test_what_a_check_runs_is_built_before(tmp_path: Path, capsys: pytest.CaptureFixture[str]) -> None:
    (tmp_path / "Makefile").write_text(MAKEFILE.format("false"), encoding="utf-8")
    reads = f"assert open({str(tmp_path / 'bin' / 'trirast')!r}).read() == 'built\\n'"
    assert CheckRun(tmp_path, capsys, check(reads, runs=("program",))).counts == Counts(1)


def test_a_build_that_fails_fails_its_checks_alone(tmp_path: Path, capsys: pytest.CaptureFixture[str]) -> None:
    (tmp_path / "Makefile").write_text(MAKEFILE.format("false"), encoding="utf-8")
    tested = CheckRun(
        tmp_path, capsys, check("pass", runs=("library",)), check("pass", name="other", runs=("program",)), PASSES
    )
    assert tested.counts == Counts(2, 2)
    assert "FAILED build of library" in tested.said


def test_builds_are_first_and_then_the_longest_checks() -> None:
    given = [Check("short", "", "", 5), Check("long", "", "", 9, long="more", long_seconds=2), PASSES]
    given.append(Check("needy", "", "", 1, runs=("program", "library")))
    tasks = run_checks.Tests("").tasks(given)
    assert [task.name for task in tasks] == [
        "build of program", "build of library", "long", "short", "a-check", "needy"
    ]
    assert [task.needs for task in tasks[1:3]] == [("build of program",), ()]
    assert tasks[-1].needs == ("build of program", "build of library")
    assert run_checks.Tests("", is_long=True).tasks(given)[2].name == "short"


def outcomes(tasks: list[Task], processors: int = 1) -> list[tuple[str, Outcome]]:
    said: list[tuple[str, Outcome]] = []
    run_tasks(tasks, processors, lambda name, outcome: said.append((name, outcome)))
    return said


def test_a_task_waits_for_those_that_it_needs() -> None:
    done = Outcome(Counts(1), "")
    tasks = [Task("high", lambda: done, ("low",)), Task("low", lambda: done), Task("other", lambda: done)]
    assert [name for name, _outcome in outcomes(tasks)] == ["low", "high", "other"]


def test_an_error_of_a_task_is_its_failure() -> None:
    def breaks() -> Outcome:
        raise OSError("no room")

    (_one, broken), (_other, passed) = outcomes([Task("one", breaks), Task("other", lambda: Outcome(Counts(1), ""))])
    assert (broken.counts, passed.counts) == (Counts(failed=1), Counts(1))
    assert "no room" in broken.remark


def test_tasks_run_side_by_side() -> None:
    meeting = threading.Barrier(2, timeout=60)

    def meets() -> Outcome:
        meeting.wait()
        return Outcome(Counts(1), "")

    ended = outcomes([Task("one", meets), Task("other", meets)], processors=2)
    assert all(outcome.counts == Counts(1) for _name, outcome in ended)


def test_the_list_names_what_is_there() -> None:
    names = [one.name for one in CHECKS]
    assert len(set(names)) == len(names)
    for one in CHECKS:
        assert one.seconds > 0 and set(one.runs) <= set(checks.BUILDS), one.name
        assert bool(one.long) == bool(one.long_seconds), one.name
        first, *words = shlex.split(one.command)
        if first == "pytest":
            paths = list(takewhile(lambda word: not word.startswith("-"), words))
            assert paths and all(os.path.exists(os.path.join(TOP, path)) for path in paths), one.name
        elif one.is_module():
            assert importlib.util.find_spec(first), one.name
        else:
            assert first in one.needs, one.name


def test_page_has_the_list() -> None:
    assert text_of(checks.PAGE) == checks.page()


@pytest.mark.parametrize(("text", "counts"), [
    ("echo 3 passed, 0 failed, 1 skipped", Counts(3, 0, 1)),
    ("echo 3 passed, 1 failed; exit 1", Counts(3, 1)),
    ("echo 3 passed, 0 failed; exit 1", Counts(3, 1)),
    ("echo killed", Counts(0, 1)),
    ("echo 3 passed, 0 failed; echo and more", Counts(0, 1)),
    ("echo 3 passed, 1 failed; echo 'make: *** [Makefile:2: goal] Error 1'; exit 2", Counts(3, 1)),
])
def test_a_command_is_counted_by_its_last_line(tmp_path: Path, text: str, counts: Counts) -> None:
    assert total.run(shlex.join(("sh", "-c", text)), str(tmp_path)) == counts


def test_the_sum_stands_alone_at_the_end(capsys: pytest.CaptureFixture[str], monkeypatch: pytest.MonkeyPatch) -> None:
    commands = ["echo 3 passed, 0 failed", "sh -c 'echo 1 passed, 1 failed, 2 skipped; exit 1'"]
    monkeypatch.setattr(sys, "argv", ["total", *commands])
    assert total.main() == 1
    assert capsys.readouterr().out.splitlines()[-1] == "4 passed, 1 failed, 2 skipped"
