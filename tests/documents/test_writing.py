"""Tests that pages are written as STYLE.md says: lengths of pages, lines, cells of tables and sentences.

    python3 -m pytest tests/documents/test_writing.py
"""

from __future__ import annotations

import re

import pytest

from tools import writing
from tools.places import text_of
from tools.writing import Counts

WORD = "word "


def test_readme_is_short() -> None:
    assert text_of("README.md").count("\n") <= 120
    assert max(map(len, text_of("README.md").split("\n"))) <= writing.MOST_COLUMNS


def test_each_figure_of_readme_stands_on_a_page() -> None:
    readme = writing.prose_of(text_of("README.md"))
    pages = "".join(text_of(page) for page in set(re.findall(r"\]\((docs/[\w./-]+\.md)", readme)))
    figures = re.findall(r"(?<![\w.])\d+(?:[.,]\d+)+(?![\w.]*\d)", readme)
    assert len(figures) > 8
    assert [figure for figure in figures if not re.search(rf"(?<![\d.,]){figure}(?!\d)", pages)] == []


def test_contributing_is_short() -> None:
    assert text_of("CONTRIBUTING.md").count("\n") <= 150


def test_pages_have_few_words() -> None:
    # Code is not counted.
    assert sum(len(writing.prose_of(text_of(page)).split()) for page in writing.pages()) <= 45_000


@pytest.mark.parametrize("page", writing.pages())
def test_pages_are_short(page: str) -> None:
    assert text_of(page).count("\n") <= 250
    lengths = [writing.words(sentence) for sentence in writing.sentences(text_of(page))]
    assert sum(lengths) <= 17 * len(lengths)


@pytest.mark.parametrize("page", writing.pages())
def test_pages_name_no_commit(page: str) -> None:
    # DECISIONS names the one at which the trials can be read.
    commits = re.findall(r"(?<!\w)(?=[0-9a-f]*[a-f])(?=[a-f]*[0-9])[0-9a-f]{7,8}(?!\w)", text_of(page))
    assert set(commits) == ({"08a0cee5"} if page == "docs/DECISIONS.md" else set())


def test_pages_keep_the_limits() -> None:
    assert len(writing.pages()) > 30
    assert writing.counted() == {}, "python3 -m tools.writing prints what is too long"


@pytest.mark.parametrize(("page", "counts"), [
    (f"{WORD * 21}word.\n", Counts()),
    (f"{WORD * 21}{WORD * 2}.\n", Counts(lines=1)),
    (f"{'w' * 111}\n", Counts()),
    (f"```c\n{WORD * 50}\n```\n", Counts()),
    (f"| {WORD * 19}word | a |\n", Counts()),
    (f"| {WORD * 24}word | a |\n", Counts(lines=1)),
    (f"| a | {'a ' * 25}a |\n", Counts(cells=1)),
    (f"| [{'a ' * 24}a](docs/a.md) and `{'a ' * 9}` | a |\n", Counts(cells=1)),
    ((f"{WORD * 10}\n" * 4) + "\nA\n", Counts()),
    ((f"{WORD * 10}\n" * 4) + "word.\n", Counts(sentences=1)),
    ((f"{WORD * 10}\n" * 2) + "word. A\n" + (f"{WORD * 10}\n" * 2), Counts()),
    ((f"{WORD * 10}\n" * 2) + "word: a\n" + (f"{WORD * 10}\n" * 2), Counts(sentences=1)),
    ((f"- {WORD * 10}\n  {WORD * 10}\n" * 3), Counts()),
    (f"- {WORD * 10}\n" + (f"  {WORD * 10}\n" * 4), Counts(sentences=1)),
    ((f"{WORD * 10}\n" * 3) + "`code. Of many words that count as one` and `more of it`.\n", Counts()),
])
def test_what_is_too_long_is_counted(page: str, counts: Counts) -> None:
    assert writing.found_in(page).counts() == counts


def test_generated_pages_are_left_out() -> None:
    assert not any(re.match(r"docs/statement\.md|crates/README\.md", page) for page in writing.pages())
