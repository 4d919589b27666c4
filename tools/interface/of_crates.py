"""Lines of the crates that C calls, and of what they specify."""

from __future__ import annotations

from typing import Iterable

from tools.interface.numbers import Number

# Of what stands between parentheses in one line.
WORDS_WIDTH = 60


def braced(names: Iterable[str]) -> str:
    """Names that a line of specs/ uses."""
    return f"{{{', '.join(names)}}}"


def names_of(numbers: Iterable[Number]) -> str:
    return braced(number.name for number in numbers)


def nested(cases: list[str], end: str) -> str:
    """Cases of specs/, each in the else of the one before."""
    return "\n    else (".join(cases) + f"\n    else {end}{')' * (len(cases) - 1)}"


def spec_cases(every: tuple[list[Number], str]) -> str:
    """What a number n stands for, with 0 for what is the default."""
    numbers, default = every
    names = {number.value: number.name if number.value else default for number in numbers}
    return nested([f"if n == {value} then Some {name}" for value, name in names.items()], "None")


def spec_format_cases(numbers: list[Number]) -> str:
    """The format of a number n."""
    return nested([f"if n == {number.value} then {number.name}" for number in numbers[:-1]], numbers[-1].name)


def cause_words(number: Number) -> str:
    """The arm of a cause: the element that it names, and what it says of it."""
    element = number.element.split(" or ")[0]
    words = f'"{element}", "{number.text}"'
    if len(words) <= WORDS_WIDTH:
        return f"{number.value} => ({words}),"
    return f'{number.value} => (\n            "{element}",\n            "{number.text}",\n        ),'
