#!/usr/bin/env python3
"""Tests that each message of the Python package says what is wrong and where, what is expected and what was given.

    python3 -m pytest tests/documents/test_messages.py

The table is read from the sources: each call of an exception, or of what makes one, with the text that it is given.
"""

from __future__ import annotations

import ast
import re
import unittest
from pathlib import Path
from typing import Iterator, NamedTuple

from tools.places import TOP

PACKAGE = Path(TOP, "python", "src", "trirast")
FORM = re.compile(
    r"(?:{}: )?(?P<what>[^:\[\]]+?)(?P<where>(?:\[.+?\]|\.[\w{}]+)*): "
    r"expected (?P<expected>.+?),? got (?P<given>.+)", re.DOTALL
)
# What makes an exception of a text, besides the exceptions.
MAKERS = ("of_line", "refused", "refusal")
# Messages that Python itself words so, those of errors that the package catches, and another error's behind a file.
OTHERS = {
    "{}: {}", "{}: {}{}",
    "{}; of matplotlib's colours of 0 to 1, pass cmap(values, bytes=True) or 255 times as much, rounded",
    "module {} has no attribute {}", "of numpy's, of which float would take the real part",
    "texts, which float would read, times, or complex numbers", "another filter", "no PNG file of a tile",
    "another number of bytes", "no rows are read, so none are kept",
}


class Message(NamedTuple):
    """A message in the sources, with {} for each value that no constant has."""

    place: str
    error: str
    text: str


def constants() -> dict[str, str]:
    """The texts of the package's modules by their names."""
    found: dict[str, str] = {}
    for path in sorted(PACKAGE.rglob("*.py")):
        for node in ast.parse(path.read_text()).body:
            if isinstance(node, ast.Assign) and isinstance(node.targets[0], ast.Name):
                text = text_of(node.value, found)
                if text.strip("{}"):
                    found[node.targets[0].id] = text
    return found


def text_of(node: ast.expr, names: dict[str, str]) -> str:
    """A text as the sources have it."""
    if isinstance(node, ast.Constant) and isinstance(node.value, str):
        return node.value
    if isinstance(node, ast.JoinedStr):
        return "".join(text_of(value, names) for value in node.values)
    if isinstance(node, ast.FormattedValue):
        return text_of(node.value, names) if isinstance(node.value, ast.Name) else "{}"
    if isinstance(node, ast.BinOp) and isinstance(node.op, ast.Add):
        return text_of(node.left, names) + text_of(node.right, names)
    return names.get(node.id, "{}") if isinstance(node, ast.Name) else "{}"


def messages() -> Iterator[Message]:
    """Each message that is not another error's."""
    names = constants()
    for path in sorted(PACKAGE.rglob("*.py")):
        for node in ast.walk(ast.parse(path.read_text())):
            if not isinstance(node, ast.Call) or not node.args:
                continue
            made = ast.unparse(node.func)
            if made.endswith("Error") or made.rpartition(".")[2] in MAKERS:
                texts = (text_of(argument, names) for argument in node.args)
                text = next((text for text in texts if " " in text), "")
                # argparse names the argument of its error.
                if text and made != "argparse.ArgumentTypeError":
                    yield Message(f"{path.relative_to(TOP)}:{node.lineno}", made, text)


class Messages(unittest.TestCase):
    def test_each_has_what_where_expected_and_given(self) -> None:
        found = [message for message in messages() if message.text not in OTHERS]
        wrong = [message for message in found if not FORM.fullmatch(message.text)]
        self.assertEqual(wrong, [])
        self.assertGreater(len(found), 100)

    def test_each_is_a_line_that_begins_small_and_has_no_full_stop(self) -> None:
        for message in messages():
            self.assertFalse("\n" in message.text or message.text.endswith("."), message)

    def test_each_other_one_is_there(self) -> None:
        self.assertEqual(OTHERS - {message.text for message in messages()}, set())


if __name__ == "__main__":
    unittest.main()
