"""Gives texts that are made up to both readers of draw lists, and compares what they return.

    python3 -m tests.list.fuzz_reader [--texts 1000000] [--seed N] [--program PATH]

It needs bin/list_bench (make bin/list_bench). A text is a list as it should be, or one with a few mistakes: another
token, a token that is left out, said twice or moved, bytes that are changed, put in or taken away, or an end too early.
Blanks and escapes stand at any place in some of them, and in some a space behind each comma. For each text
`read_in_one_pass` has to return the list that `read_by_value` returns or none, and `read` the same list or the same
error. A text for which they differ is written to out/fuzz_reader. Exit status 1 if there is one, or if too few texts
were read in one pass for that to say something.
"""

from __future__ import annotations

import argparse
import os
import random
import re
import subprocess
import sys
from typing import Sequence

from tools.counts import Counts
from tools.places import OUT, READER_PROGRAM, is_built

# Which byte stands between two texts, and how many texts one run of the program reads.
END, TOGETHER = b"\xff", 20_000
# Of this part of the texts at least, one pass has to read a list.
LEAST_PART = 0.15

NUMBERS = (
    "0", "1", "7", "9", "10", "42", "99", "128", "255", "256", "-1", "-9", "-0", "00", "01", "-01", "+1", "1.0", "1e0",
    "1E2", "0.5", "-", "65535", "65536", "65538", "99999", "123456", "8388607", "8388608", "-8388608", "-8388609",
    "12345678", "-1234567", "123456789", "4294967296", "99999999999999999", "100000000000000000", "123456789012345678",
    "999999999999999999", "9223372036854775807", "-9223372036854775808", "18446744073709551615", "18446744073709551616",
    "1" * 40, "0" * 9, "000000001", "1_0", "0x1", "1 2", "1-2",
)
WORDS = (
    "true", "false", "null", "True", "tru", '"back"', '"none"', '"less"', '"over"', '"depth"', '"color"', '"fog"', '""',
    "{}", "[]",
)
MARKS = (
    "[", "]", "{", "}", ",", ":", '"', "\\", "-", " ", "\n", "'", "/", "\x00", "\x0c", "\x0b", "\u00a0", "\ufeff",
    "\u2028", "é",
)
BLANKS = (
    " ", "  ", "\n", "\t", "\r\n", "\n    ", "\n" + " " * 15, " " * 16, " " * 17, "\n" + " " * 40, "\t\t", " \t \n",
    " " * 70,
)
STATE = (
    ("cull", ('"none"', '"front"', '"back"')), ("depth_test", ('"less"', '"less_equal"', '"always"', '"never"')),
    ("depth_write", ("true", "false")), ("blend", ('"none"', '"over"')), ("write", ("[true,false,true]",)),
    ("sample_mask", ("1", "5", "15")), ("scissor", ("[0,0,3,2]", "[1,1,4096,4096]")),
)
TOP = (
    ("samples", ("1", "4")), ("clear", ("[0,0,0]", "[255,128,7]")), ("clear_depth", ("0", "65535")),
    ("output", ('"color"', '"depth"')),
)
SQUARE = (
    '{"vertices":[[0,0,1,1,1,1,1],[9,0,1,1,1,1,1],[9,9,1,1,1,1,1],[0,9,1,1,1,1,1]],"quads":[[0,1,2,3],[3,2,1,0]]}'
)
TOKEN = re.compile(r'"(?:[^"\\]|\\.)*"|[\[\]{},:]|[^\s\[\]{},:"]+')


def vertex(pick: random.Random) -> str:
    x, y = (pick.choice((pick.randint(-8388608, 8388607), pick.randint(-999, 9999))) for _ in "xy")
    return f"[{x},{y},{pick.randint(0, 65535)},{','.join(str(pick.randint(0, 255)) for _ in range(4))}]"


def primitives(pick: random.Random, count: int) -> str:
    """Triangles or a strip of this number of vertices, or no triangles."""
    def row(length: int) -> str:
        return f"[{','.join(str(pick.randrange(count)) for _ in range(length))}]"

    if not count:
        return '"triangles":[]'
    if pick.random() < 0.3:
        return f'"strip":{row(pick.randint(0, 9))}'
    return f'"triangles":[{",".join(row(3) for _ in range(pick.randint(0, 6)))}]'


def members(pick: random.Random, choices: Sequence[tuple[str, Sequence[str]]], part: float) -> list[str]:
    return [f'"{key}":{pick.choice(values)}' for key, values in choices if pick.random() < part]


def draw(pick: random.Random) -> str:
    if pick.random() < 0.1:
        return SQUARE
    count = pick.choice((0, 1, 3, 4, 8))
    vertices = f'"vertices":[{",".join(vertex(pick) for _ in range(count))}]'
    before, behind = members(pick, STATE, 0.2), members(pick, STATE, 0.1)
    return "{" + ",".join([*before, vertices, primitives(pick, count), *behind]) + "}"


def tokens_of_list(pick: random.Random) -> list[str]:
    """The tokens of a list as it should be, with its keys in an order that one pass serves, or nearly always."""
    size = [f'"width":{pick.randint(1, 4096)}', f'"height":{pick.randint(1, 4096)}']
    draws = f'"draws":[{",".join(draw(pick) for _ in range(pick.choice((0, 1, 1, 2))))}]'
    order = [*size, *members(pick, TOP, 0.3), draws, *members(pick, TOP, 0.1)]
    if pick.random() < 0.05:
        pick.shuffle(order)
    return TOKEN.findall("{" + ",".join(order) + "}")


def change(pick: random.Random, tokens: list[str]) -> None:
    """Makes one mistake in a list of tokens, or what looks like one."""
    at = pick.randrange(len(tokens))
    way = pick.randrange(6)
    if way == 0:
        tokens[at] = pick.choice(NUMBERS)
    elif way == 1:
        tokens[at] = pick.choice((*WORDS, *MARKS))
    elif way == 2:
        tokens.insert(at, pick.choice((*NUMBERS, *MARKS, ",", "0")))
    elif way == 3 and len(tokens) > 1:
        del tokens[at]
    elif way == 4:
        tokens.insert(at, tokens[pick.randrange(len(tokens))])
    else:
        digits = [i for i, token in enumerate(tokens) if token.lstrip("-").isdigit()]
        if digits:
            tokens[pick.choice(digits)] = pick.choice(NUMBERS)


def escaped(pick: random.Random, token: str) -> str:
    """A string with one of its characters written as an escape."""
    at = pick.randrange(1, len(token) - 1)
    return f"{token[:at]}\\u{ord(token[at]):04{pick.choice('xX')}}{token[at + 1:]}"


def spoil(pick: random.Random, text: bytes) -> bytes:
    """Bytes with one changed, put in or taken away, or cut, or with something behind them."""
    at = pick.randrange(len(text) + 1)
    byte = bytes([pick.choice((pick.randrange(255), *b'0-9 ,]}["\\'))])
    return (
        text[:at] + byte + text[at + 1:], text[:at] + byte + text[at:], text[:at] + text[at + 1:], text[:at],
        text + pick.choice((b" ", b"\n", b"0", b"}", b"]", b",", b"{}", b"\x00", b" 1", b"\xc3")),
    )[pick.randrange(5)]


def made(pick: random.Random, lists: list[list[str]]) -> bytes:
    """One text."""
    tokens = list(pick.choice(lists))
    kind = pick.random()
    if kind > 0.35:
        for _ in range(pick.choice((1, 1, 1, 2, 3)) if kind > 0.6 else 0):
            change(pick, tokens)
    if pick.random() < 0.1:
        strings = [i for i, token in enumerate(tokens) if len(token) > 2 and token[0] == '"' == token[-1]]
        for at in pick.sample(strings, min(len(strings), pick.choice((1, 1, 3)))):
            tokens[at] = escaped(pick, tokens[at])
    style = pick.random()
    if style < 0.2:
        blank = pick.choice(BLANKS)
        text = "".join(token + blank if token in ",:[]{}" else token for token in tokens)
    elif style < 0.4:
        gaps = (" ",) * 99 + ("", "  ", "\n")
        text = "".join(token + pick.choice(gaps) if token == "," else token for token in tokens)
    elif style < 0.6:
        text = "".join(token + (pick.choice(BLANKS) if pick.random() < 0.2 else "") for token in tokens)
    else:
        text = "".join(tokens)
    found = text.encode("utf-8")
    return spoil(pick, found) if kind < 0.2 else found


def differing(program: str, texts: list[bytes]) -> tuple[list[int], int]:
    """The numbers of the texts for which the readers differ, and how many were read in one pass."""
    joined = END.join(texts)
    output = subprocess.run([program, "--compare"], input=joined, stdout=subprocess.PIPE, check=True).stdout.decode()
    last = re.search(r"^(\d+) texts, (\d+) read in one pass, (\d+) differ$", output, re.M)
    if last is None or int(last[1]) != len(texts):
        raise ValueError(f"not {len(texts)} texts in {output[-300:]!r}")
    return [int(number) for number in re.findall(r"^text (\d+) differs$", output, re.M)], int(last[2])


def main() -> int:
    parser = argparse.ArgumentParser(description="Gives made-up texts to both readers, and compares what they return.")
    parser.add_argument("--texts", type=int, default=1_000_000, help="how many (default: %(default)s)")
    parser.add_argument("--seed", type=int, default=2026, help="of the generator (default: %(default)s)")
    parser.add_argument("--program", default=READER_PROGRAM, help="the program that compares (default: bin/list_bench)")
    options = parser.parse_args()
    if not is_built(options.program, made_by="make bin/list_bench"):
        return 2
    pick = random.Random(options.seed)
    folder = os.path.join(OUT, "fuzz_reader")
    failed = taken = 0
    for first in range(0, options.texts, TOGETHER):
        lists = [tokens_of_list(pick) for _ in range(500)]
        texts = [made(pick, lists).replace(END, b"\xfe") for _ in range(min(TOGETHER, options.texts - first))]
        numbers, in_one_pass = differing(options.program, texts)
        taken += in_one_pass
        for number in numbers:
            os.makedirs(folder, exist_ok=True)
            with open(os.path.join(folder, f"{options.seed}_{first + number}.json"), "wb") as file:
                file.write(texts[number])
        failed += len(numbers)
    too_few = taken < options.texts * LEAST_PART
    print(f"{options.texts} texts, {taken} read in one pass, {failed} differ")
    print(Counts(passed=options.texts - failed, failed=failed + too_few), flush=True)
    return 1 if failed or too_few else 0


if __name__ == "__main__":
    sys.exit(main())
