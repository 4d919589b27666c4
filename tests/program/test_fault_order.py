"""Which of two faults of a list the program reports."""

from __future__ import annotations

import pytest

from tests.program.faults import check, check_draw, check_over_three_vertices, check_state, check_top, check_vertex


@pytest.mark.parametrize(
    ("text", "fault"),
    [
        ('{"width":0,"fog":1,"draws":[]}', "UnknownKey"),
        ('{"width":0,"draws":[]}', "MissingKey"),
        ('{"width":0,"height":"x","draws":[]}', "OutOfRange"),
        ('{"width":1,"height":"x","draws":7}', "WrongKind"),
        ('{"width":1,"height":1,"clear":[0,0],"draws":[]}', "WrongKind"),
        (
            '{"width":1,"height":1,"draws":[{"vertices":[],"triangles":[]},{"vertices":[],"triangles":[[0,0,0]]}]}',
            "BadIndex in draw 1",
        ),
        ('{"width":1,"height":1,"draws":[{"vertices":[[0,0,0,0,0,0]],"triangles":[]}]}', "WrongKind in draw 0"),
        ('{"width":1,"height":1,"draws":[{"vertices":[],"triangles":[],"cull":"Back"}]}', "OutOfRange in draw 0"),
        (
            '{"width":1,"height":1,"draws":[{"vertices":[[0,0,65536,0,0,0,0]],"triangles":[[0,0,1]]}]}',
            "OutOfRange in draw 0",
        ),
    ],
)
def test_reports_the_first_fault(text: str, fault: str) -> None:
    check(text, fault)


@pytest.mark.parametrize(
    ("text", "fault"),
    [
        ('{"width":"x","draws":[]}', "MissingKey"),
        ('{"width":"x","height":0,"draws":[]}', "WrongKind"),
        ('{"width":1,"height":0,"samples":"x","draws":[]}', "OutOfRange"),
        ('{"width":1,"height":1,"samples":2,"clear":7,"draws":[]}', "OutOfRange"),
        ('{"width":1,"height":1,"clear":[0,0],"clear_depth":-1,"draws":[]}', "WrongKind"),
        ('{"width":1,"height":1,"clear":[0,0,256],"clear_depth":null,"draws":[]}', "OutOfRange"),
        ('{"width":1,"height":1,"clear_depth":-1,"draws":{}}', "OutOfRange"),
        ('{"width":1,"height":1,"output":7,"clear_depth":-1,"draws":[]}', "OutOfRange"),
        ('{"width":1,"height":1,"output":"x","clear_depth":null,"draws":[]}', "WrongKind"),
        ('{"width":1,"height":1,"output":"x","draws":7}', "OutOfRange"),
        ('{"width":1,"height":1,"output":7,"draws":[7]}', "WrongKind"),
        ('{"width":1,"output":7,"draws":[]}', "MissingKey"),
        ('{"width":1,"height":1,"clear_depth":-1,"draws":[7]}', "OutOfRange"),
        ('{"width":1,"height":1,"draws":[{"vertices":[],"triangles":[[0,0,0]]},7]}', "BadIndex in draw 0"),
    ],
)
def test_reports_the_first_of_two_faults_of_the_top_object(text: str, fault: str) -> None:
    check(text, fault)


@pytest.mark.parametrize(
    ("members", "kind"),
    [
        ('"fog":1', "UnknownKey"),
        ('"cull":1,"vertices":[]', "MissingKey"),
        ('"cull":1,"depth_test":"x","vertices":[],"triangles":[]', "WrongKind"),
        ('"depth_test":"x","depth_write":1,"vertices":[],"triangles":[]', "OutOfRange"),
        ('"depth_write":1,"blend":"x","vertices":[],"triangles":[]', "WrongKind"),
        ('"blend":"x","write":1,"vertices":[],"triangles":[]', "OutOfRange"),
        ('"write":1,"sample_mask":16,"vertices":[],"triangles":[]', "WrongKind"),
        ('"write":[true,true,1],"sample_mask":16,"vertices":[],"triangles":[]', "WrongKind"),
        ('"sample_mask":16,"scissor":1,"vertices":[],"triangles":[]', "OutOfRange"),
        ('"scissor":[0,0,1,-1],"vertices":7,"triangles":[]', "OutOfRange"),
        ('"vertices":[[0,0,0,0,0,0,256]],"triangles":7', "OutOfRange"),
        ('"vertices":[[0,0,0,0,0,0,256]],"strip":7', "OutOfRange"),
        ('"fog":1,"triangles":[],"strip":[]', "UnknownKey"),
        ('"triangles":[],"strip":[]', "MissingKey"),
        ('"cull":1,"vertices":[],"triangles":[],"strip":[]', "TwoLists"),
        ('"vertices":7,"triangles":[],"strip":[]', "TwoLists"),
        ('"vertices":[],"triangles":7,"strip":8', "TwoLists"),
        ('"vertices":[],"strip":7,"quads":8', "TwoLists"),
        ('"vertices":[[0,0,0,0,0,0,256]],"quads":7', "OutOfRange"),
        ('"scissor":7,"vertices":[],"quads":[[0,0,0,0]]', "WrongKind"),
    ],
)
def test_reports_the_first_of_two_faults_of_a_draw(members: str, kind: str) -> None:
    check_draw(members, f"{kind} in draw 0")


def with_two_faults(length: int, sound: str, place: int, faults: tuple[str, str]) -> str:
    """An array of `length` elements, which are sound except two neighbours, the first of them at `place`."""
    elements = [sound] * length
    elements[place : place + 2] = faults[: length - place]
    return f"[{','.join(elements)}]"


@pytest.mark.parametrize(
    ("before", "after", "length", "sound", "first", "second"),
    [
        ('"clear":', ',"draws":[]', 3, "0", ("null", "WrongKind"), ("256", "OutOfRange")),
        (
            '"draws":[{"write":',
            ',"vertices":[],"triangles":[]}]',
            3,
            "true",
            ("null", "WrongKind in draw 0"),
            ("1", "WrongKind in draw 0"),
        ),
        (
            '"draws":[{"scissor":',
            ',"vertices":[],"triangles":[]}]',
            4,
            "0",
            ("1.0", "WrongKind in draw 0"),
            ("4097", "OutOfRange in draw 0"),
        ),
        (
            '"draws":[{"vertices":[',
            '],"triangles":[]}]',
            7,
            "0",
            ("true", "WrongKind in draw 0"),
            ("8388608", "OutOfRange in draw 0"),
        ),
        (
            '"draws":[{"vertices":',
            ',"triangles":[]}]',
            3,
            "[0,0,0,0,0,0,0]",
            ("7", "WrongKind in draw 0"),
            ("[0,0,0,0,0,0,256]", "OutOfRange in draw 0"),
        ),
        (
            '"draws":[{"vertices":[[0,0,0,0,0,0,0]],"triangles":[',
            "]}]",
            3,
            "0",
            ("null", "WrongKind in draw 0"),
            ("1", "BadIndex in draw 0"),
        ),
        (
            '"draws":[{"vertices":[[0,0,0,0,0,0,0]],"strip":',
            "}]",
            5,
            "0",
            ("[0]", "WrongKind in draw 0"),
            ("1", "BadIndex in draw 0"),
        ),
        (
            '"draws":[{"vertices":[[0,0,0,0,0,0,0]],"triangles":',
            "}]",
            3,
            "[0,0,0]",
            ("[0,0]", "WrongKind in draw 0"),
            ("[0,0,1]", "BadIndex in draw 0"),
        ),
    ],
)
def test_reports_the_first_of_two_neighbouring_elements(
    before: str, after: str, length: int, sound: str, first: tuple[str, str], second: tuple[str, str]
) -> None:
    """An array, as what stands before and after it in a list, its length, a sound element, and two faults of one."""
    for place in range(length):
        for (one, fault), (other, _) in ((first, second), (second, first)):
            array = with_two_faults(length, sound, place, (one, other))
            check(f'{{"width":1,"height":1,{before}{array}{after}}}', fault)


def test_checks_the_length_of_an_array_before_its_elements() -> None:
    check_top(',"clear":[256,0]', "WrongKind")
    check_state('"scissor":[0,0,0,4097,0]', "WrongKind in draw 0")
    check_vertex("[0,0,0,0,0,256]", "WrongKind in draw 0")
    check_over_three_vertices('"triangles":[[0,3,0,0]]', "WrongKind in draw 0")


BAD_INDEX = '{"vertices":[],"triangles":[[0,0,0]]}'


@pytest.mark.parametrize("place", range(3))
@pytest.mark.parametrize(
    ("faults", "kind"),
    [
        ((BAD_INDEX, "7"), "BadIndex"),
        (("7", BAD_INDEX), "WrongKind"),
        (('{"fog":1}', "{}"), "UnknownKey"),
        (("{}", '{"fog":1}'), "MissingKey"),
    ],
)
def test_reports_the_fault_of_the_first_of_two_draws(faults: tuple[str, str], kind: str, place: int) -> None:
    draws = with_two_faults(4, '{"vertices":[],"triangles":[]}', place, faults)
    check(f'{{"width":1,"height":1,"draws":{draws}}}', f"{kind} in draw {place}")
