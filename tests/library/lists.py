"""The lists on which the library is compared with the program, as files below out/check-library/lists."""

from __future__ import annotations

import json
import os
import random
import struct
from dataclasses import dataclass, field
from typing import Any, Sequence

from tools import places
from tests.reference import generated_lists
from tests.list.schema import REFUSED
from tools.draw_list import Draw, DrawList
from tests.library.commands import OUT, drawn_by_program

FOLDER = os.path.join(OUT, "lists")
SMALL_LIST = 20000

CULLS = ("none", "front", "back")
DEPTH_TESTS = ("always", "never", "less", "equal", "less_equal", "greater", "not_equal", "greater_equal")
ALL_SAMPLES = 15
TOPOLOGIES = ("triangles", "strip", "quads")


@dataclass
class Lists:
    """Lists, each with what the program writes for it: a picture's file, or the line of an error."""

    drawn: list[tuple[bytes, bytes]] = field(default_factory=list)
    refused: list[tuple[bytes, bytes]] = field(default_factory=list)


# ---- The texts


def some_texts(pick: random.Random) -> list[bytes]:
    """Generated lists, refused lists, broken texts, deep texts, and some lists with their keys in the other order."""
    texts = [b'{"width":1,"height":1,"draws":[]}']
    texts += [json.dumps(generated_lists.a_list(pick)).encode() for _ in range(24)]
    texts += [json.dumps(value).encode() for _, value, _ in REFUSED]
    texts += [generated_lists.a_broken_text(pick) for _ in range(40)] + [b"{", b"\xff"] + deep_texts()
    return texts + [with_keys_reversed(text) for text in texts[:8]]


def deep_texts() -> list[bytes]:
    """Texts that are nested as deeply as JSON is read, and deeper: they take the most stack."""
    pairs = [(b"[", b"]"), (b'{"a":', b"}"), (b'[{"a":', b"}]"), (b'{"a":[', b"]}")]
    inmost = [b"0", b"1." + 90 * b"123456789" + b"e-300", b'"\\ud83d\\ude00"', b"?"]
    depths = (63, 127, 128, 500)
    return [begin * depth + text + end * depth for begin, end in pairs for depth in depths for text in inmost]


def with_keys_reversed(text: bytes) -> bytes:
    """The same list with the keys of each object in the other order, which the library reads in a second way."""

    def reverse(pairs: list[tuple[str, Any]]) -> dict[str, Any]:
        return dict(reversed(pairs))

    return json.dumps(json.loads(text, object_pairs_hook=reverse)).encode()


# ---- The arrays of a list


def topology_of(draw: Draw) -> int:
    return next(number for number, key in enumerate(TOPOLOGIES) if key in draw)


def indices_of(draw: Draw) -> list[int]:
    faces = draw[TOPOLOGIES[topology_of(draw)]]
    return list(faces) if "strip" in draw else [index for face in faces for index in face]


def integers_of(draw: Draw, size: Sequence[int]) -> list[int]:
    """The numbers of a draw: the members of trirast_draw in their order, but whether it is blended over what is stored
    before those that it keeps, and the scissor, which is always looked at, without a word for that."""
    kept = sum(
        1 << channel for channel, is_written in enumerate(draw.get("write", (True, True, True))) if not is_written
    )
    return [
        len(draw["vertices"]), len(indices_of(draw)), topology_of(draw),
        CULLS.index(draw.get("cull", "none")), DEPTH_TESTS.index(draw.get("depth_test", "always")),
        int(draw.get("depth_write", False)), int(draw.get("blend") == "over"),
        kept, ALL_SAMPLES & ~draw.get("sample_mask", ALL_SAMPLES), *draw.get("scissor", (0, 0, *size)),
    ]


def arrays_of(scene: DrawList) -> bytes:
    """An accepted list as arrays: how many draws, vertices and indices, the head, and then these, as
    32-bit integers."""
    size = (scene["width"], scene["height"])
    head = [*size, scene.get("samples", 1), int(scene.get("output") == "depth")]
    head += [*scene.get("clear", (0, 0, 0)), scene.get("clear_depth", 65535)]
    draws = scene["draws"]
    vertices = [vertex for draw in draws for vertex in draw["vertices"]]
    indices = [index for draw in draws for index in indices_of(draw)]
    integers = [len(draws), len(vertices), len(indices), *head]
    for part in [*(integers_of(draw, size) for draw in draws), *vertices, indices]:
        integers += part
    return struct.pack(f"={len(integers)}i", *integers)


# ---- The files


def keep(name: str, data: bytes) -> None:
    with open(os.path.join(FOLDER, name), "wb") as file:
        file.write(data)


def keep_list(name: str, text: bytes) -> str:
    """Writes a list and what the program writes for it. Returns its line of a manifest."""
    answer = drawn_by_program(text)
    keep(f"{name}.json", text)
    if answer.status == 0:
        keep(f"{name}.file", answer.output)
        keep(f"{name}.scene", arrays_of(json.loads(text)))
        return f"drawn lists/{name}.json lists/{name}.file\n"
    keep(f"{name}.line", answer.line)
    return f"refused lists/{name}.json lists/{name}.line\n"


def write_lists(seed: int) -> None:
    """Writes the lists, and two manifests: all.txt of the examples and all lists that are not large, and
    few.txt of a few."""
    os.makedirs(FOLDER)
    texts = some_texts(random.Random(seed))
    lines = [keep_list(f"list-{number}", text) for number, text in enumerate(texts)]
    small = [line for line, text in zip(lines, texts) if len(text) < SMALL_LIST]
    examples = places.files("examples", "*.json")
    small += [keep_list(f"example-{number}", places.bytes_of(path)) for number, path in enumerate(examples)]
    keep("all.txt", "".join(small).encode())
    keep("few.txt", "".join(lines[:5] + lines[30:60:10] + lines[-2:]).encode())


def write_many(seed: int, count: int) -> None:
    """Writes further generated lists, and the manifest many.txt of these, of the examples and of the few lists."""
    pick = random.Random(f"many {seed}")
    lines = [keep_list(f"many-{number}", json.dumps(generated_lists.a_list(pick)).encode()) for number in range(count)]
    examples = [
        line for line in places.text_of(FOLDER, "all.txt").splitlines(keepends=True) if "lists/example-" in line
    ]
    keep("many.txt", (places.text_of(FOLDER, "few.txt") + "".join(examples + lines)).encode())


def read_lists(manifest: str) -> Lists:
    """Reads the lists of a manifest that `write_lists` has written."""
    lists = Lists()
    for line in places.text_of(FOLDER, manifest).splitlines():
        outcome, *paths = line.split()
        text, written = (places.bytes_of(OUT, path) for path in paths)
        (lists.drawn if outcome == "drawn" else lists.refused).append((text, written))
    return lists
