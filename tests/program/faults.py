"""Lists with one part that a test gives, and the fault that the program reports of them.

A fault is written as its name, with the draw in which it lies; `None` says that the list is drawn.
"""

from __future__ import annotations

from typing import Optional

from tests.program.program import call, check_refused

Fault = Optional[str]

NUMBERS = {
    "NotJson": 1,
    "UnknownKey": 2,
    "MissingKey": 3,
    "WrongKind": 4,
    "OutOfRange": 5,
    "BadIndex": 6,
    "TooMany": 7,
    "TwoLists": 9,
    "NotConvex": 10,
}

VERTEX = "[0,0,0,0,0,0,0]"


def check(text: bytes | str, fault: Fault) -> None:
    """Checks that the program reports this fault of the list, or draws it."""
    if fault is None:
        answer = call(text)
        assert (answer.status, answer.line) == (0, b"")
    else:
        check_refused(text, f"list fault {NUMBERS[fault.split()[0]]} {fault}")


def check_top(members: str, fault: Fault) -> None:
    """Checks the fault of a list of one pixel and no draws, with these further members."""
    check(f'{{"width":1,"height":1,"draws":[]{members}}}', fault)


def check_draw(members: str, fault: Fault) -> None:
    """Checks the fault of a list of one draw with these members."""
    check(f'{{"width":1,"height":1,"draws":[{{{members}}}]}}', fault)


def check_state(member: str, fault: Fault) -> None:
    """Checks the fault of a list of one draw without triangles, with this further member."""
    check_draw(f'{member},"vertices":[],"triangles":[]', fault)


def check_vertex(vertex: str, fault: Fault) -> None:
    """Checks the fault of a list of one draw with this one vertex."""
    check_draw(f'"vertices":[{vertex}],"triangles":[]', fault)


def check_over_three_vertices(primitives: str, fault: Fault) -> None:
    """Checks the fault of a list of one draw of three vertices."""
    check_draw(f'"vertices":[{VERTEX},{VERTEX},{VERTEX}],{primitives}', fault)


def check_quads(quads: str, fault: Fault) -> None:
    """Checks the fault of a list of one draw with these quads.

    They are over the corners of a square, a point inside of it, one on its upper side, one at its first corner, and one
    outside.
    """
    square = "[0,0,0,0,0,0,0],[512,0,0,0,0,0,0],[512,512,0,0,0,0,0],[0,512,0,0,0,0,0]"
    others = "[192,192,0,0,0,0,0],[256,0,0,0,0,0,0],[0,0,0,0,0,0,0],[1024,0,0,0,0,0,0]"
    check_draw(f'"vertices":[{square},{others}],"quads":[{quads}]', fault)
