"""Tests of how checks by name run as tests."""

from __future__ import annotations

import pytest

from tests.cases import CheckError, MissingError, case, must
from tests import cases


def refuses() -> None:
    must(False, "it is wrong")


def lacks() -> None:
    raise MissingError("a thing")


def passes(seen: list[str], name: str) -> None:
    seen.append(name)


def test_a_case_that_another_needs_runs_once_and_before() -> None:
    seen: list[str] = []
    low, high = case("low", passes, seen, "low"), case("high", passes, seen, "high", needs="low")
    cases.parameters((low, high))
    cases.run(high)
    cases.run(low)
    assert seen == ["low", "high"]


@pytest.mark.parametrize("check", [refuses, lacks])
def test_what_needs_a_case_that_did_not_pass_is_skipped(check: object) -> None:
    seen: list[str] = []
    low, high = case("low", lambda: check()), case("high", passes, seen, "high", needs="low")  # type: ignore[operator]
    cases.parameters((low, high))
    with pytest.raises(pytest.skip.Exception, match="this did not pass: low"):
        cases.run(high)
    assert not seen


def test_a_failure_fails_and_what_is_missing_is_skipped() -> None:
    with pytest.raises(CheckError, match="it is wrong"):
        cases.run(case("wrong", refuses))
    with pytest.raises(pytest.skip.Exception, match="there is no a thing"):
        cases.run(case("lacking", lacks))


def test_cases_of_one_name_are_refused() -> None:
    with pytest.raises(ValueError, match="cases of one name: .*low"):
        cases.parameters([case("low", lacks), case("low", refuses)])
