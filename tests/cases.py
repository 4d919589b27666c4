"""Checks by name, each of which pytest runs as a test of its own."""

from __future__ import annotations

import contextlib
from dataclasses import dataclass, field
from typing import Any, Callable, Iterable, Mapping

import pytest

MAX_SECONDS = 1200


class CheckError(Exception):
    """Why a check failed."""


class MissingError(Exception):
    """What a check needs and this machine does not have."""


def must(holds: bool, why: str) -> None:
    """Raises `CheckError` if something does not hold."""
    if not holds:
        raise CheckError(why)


@dataclass(frozen=True, eq=False)
class Case:
    name: str
    check: Callable[..., object]
    arguments: tuple[Any, ...] = ()
    named: Mapping[str, Any] = field(default_factory=dict)
    # The name of the case without which this one shows nothing.
    needs: str = ""
    # Whether it is left out of the shorter form.
    is_long: bool = False


def case(
    name: str, check: Callable[..., object], *arguments: Any, needs: str = "", is_long: bool = False, **named: Any
) -> Case:
    return Case(name, check, arguments, named, needs, is_long)


# The case without which another shows nothing, and of the cases that were run whether they passed.
NEEDED: dict[Case, Case] = {}
OUTCOMES: dict[Case, bool] = {}


def parameters(cases: Iterable[Case]) -> list[Any]:
    """The cases as pytest's parameters. Their names differ."""
    found = list(cases)
    named = {it.name: it for it in found}
    if len(named) < len(found):
        raise ValueError(f"cases of one name: {sorted({it.name for it in found if it is not named[it.name]})}")
    NEEDED.update({it: named[it.needs] for it in found if it.needs})
    return [pytest.param(it, id=it.name, marks=[pytest.mark.long] if it.is_long else []) for it in found]


def passes(it: Case) -> bool:
    """Whether a case passed, which is run if it was not yet."""
    if it not in OUTCOMES:
        with contextlib.suppress(Exception, pytest.skip.Exception):
            run(it)
    return OUTCOMES[it]


def run(it: Case) -> None:
    """Runs a case as a test. It is skipped if the machine lacks what it needs, or if the case did not pass without
    which it shows nothing."""
    if OUTCOMES.get(it):
        return
    OUTCOMES[it] = False
    if it in NEEDED and not passes(NEEDED[it]):
        pytest.skip(f"this did not pass: {it.needs}")
    try:
        it.check(*it.arguments, **it.named)
    except MissingError as missing:
        pytest.skip(f"there is no {missing}")
    OUTCOMES[it] = True
