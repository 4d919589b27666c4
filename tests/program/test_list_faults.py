"""The fault that the program reports of a list: of its text, of its top object, and of its draws.

A fault is written as its name, with the draw in which it lies; `None` says that the list is drawn.
"""

from __future__ import annotations

import pytest

from tests.program.faults import (
    Fault, check, check_draw, check_over_three_vertices, check_quads, check_state, check_top, check_vertex,
)


@pytest.mark.parametrize("text", ["", '{"width":1', "{} {}", "[1,]", "'1'", b'"\xff"'])
def test_refuses_what_is_no_json(text: bytes | str) -> None:
    check(text, "NotJson")


@pytest.mark.parametrize(
    ("text", "fault"),
    [
        ("[]", "WrongKind"),
        ("null", "WrongKind"),
        ('{"height":1,"draws":[]}', "MissingKey"),
        ('{"width":1,"draws":[]}', "MissingKey"),
        ('{"width":1,"height":1}', "MissingKey"),
        ('{"width":1,"height":1,"draws":[[]]}', "WrongKind in draw 0"),
        ('{"width":1,"height":1,"draws":[{"triangles":[]}]}', "MissingKey in draw 0"),
        ('{"width":1,"height":1,"draws":[{"vertices":[]}]}', "MissingKey in draw 0"),
    ],
)
def test_needs_an_object_with_its_keys(text: str, fault: Fault) -> None:
    check(text, fault)


@pytest.mark.parametrize(
    ("size", "fault"),
    [
        ("1", None),
        ("4096", None),
        ("0", "OutOfRange"),
        ("4097", "OutOfRange"),
        ("-1", "OutOfRange"),
        ("18446744073709551615", "OutOfRange"),
        ("1.0", "WrongKind"),
        ("1e0", "WrongKind"),
        ("null", "WrongKind"),
        ('"1"', "WrongKind"),
    ],
)
def test_checks_a_size(size: str, fault: Fault) -> None:
    check(f'{{"width":{size},"height":1,"draws":[]}}', fault)
    check(f'{{"width":1,"height":{size},"draws":[]}}', fault)


@pytest.mark.parametrize(
    ("members", "fault"),
    [
        ('', None),
        (',"samples":1', None),
        (',"samples":4', None),
        (',"samples":0', "OutOfRange"),
        (',"samples":2', "OutOfRange"),
        (',"samples":5', "OutOfRange"),
        (',"samples":null', "WrongKind"),
        (',"samples":4.0', "WrongKind"),
        (',"clear":[0,255,0]', None),
        (',"clear":[256,0,0]', "OutOfRange"),
        (',"clear":[0,-1,0]', "OutOfRange"),
        (',"clear":[0,0,256]', "OutOfRange"),
        (',"clear":[0,0,0,0]', "WrongKind"),
        (',"clear":[0,0,null]', "WrongKind"),
        (',"clear":0', "WrongKind"),
        (',"clear_depth":0', None),
        (',"clear_depth":65535', None),
        (',"clear_depth":65536', "OutOfRange"),
        (',"clear_depth":-1', "OutOfRange"),
        (',"clear_depth":null', "WrongKind"),
        (',"output":"color"', None),
        (',"output":"depth"', None),
        (',"output":""', "OutOfRange"),
        (',"output":"Color"', "OutOfRange"),
        (',"output":"colour"', "OutOfRange"),
        (',"output":null', "WrongKind"),
        (',"output":0', "WrongKind"),
        (',"output":["depth"]', "WrongKind"),
        (',"fog":1', "UnknownKey"),
        (',"Samples":1', "UnknownKey"),
    ],
)
def test_checks_the_top_object(members: str, fault: Fault) -> None:
    check_top(members, fault)


@pytest.mark.parametrize(
    ("member", "fault"),
    [
        ('"cull":"none"', None),
        ('"cull":"front"', None),
        ('"cull":"back"', None),
        ('"cull":""', "OutOfRange in draw 0"),
        ('"cull":"over"', "OutOfRange in draw 0"),
        ('"cull":null', "WrongKind in draw 0"),
        ('"depth_test":"never"', None),
        ('"depth_test":"not_equal"', None),
        ('"depth_test":"Less"', "OutOfRange in draw 0"),
        ('"depth_test":"lessequal"', "OutOfRange in draw 0"),
        ('"depth_test":true', "WrongKind in draw 0"),
        ('"blend":"none"', None),
        ('"blend":"over"', None),
        ('"blend":"add"', "OutOfRange in draw 0"),
        ('"blend":false', "WrongKind in draw 0"),
        ('"fog":1', "UnknownKey in draw 0"),
        ('"width":1', "UnknownKey in draw 0"),
    ],
)
def test_checks_words(member: str, fault: Fault) -> None:
    check_state(member, fault)


@pytest.mark.parametrize(
    ("member", "fault"),
    [
        ('"depth_write":false', None),
        ('"depth_write":0', "WrongKind in draw 0"),
        ('"depth_write":"true"', "WrongKind in draw 0"),
        ('"write":[true,false,true]', None),
        ('"write":[true,true]', "WrongKind in draw 0"),
        ('"write":[true,true,true,true]', "WrongKind in draw 0"),
        ('"write":[true,true,1]', "WrongKind in draw 0"),
        ('"sample_mask":0', None),
        ('"sample_mask":15', None),
        ('"sample_mask":16', "OutOfRange in draw 0"),
        ('"sample_mask":-1', "OutOfRange in draw 0"),
        ('"sample_mask":null', "WrongKind in draw 0"),
        ('"scissor":[0,0,4096,4096]', None),
        ('"scissor":[4096,4096,0,0]', None),
        ('"scissor":[4097,0,1,1]', "OutOfRange in draw 0"),
        ('"scissor":[0,-1,1,1]', "OutOfRange in draw 0"),
        ('"scissor":[0,0,4097,1]', "OutOfRange in draw 0"),
        ('"scissor":[0,0,1,-1]', "OutOfRange in draw 0"),
        ('"scissor":[0,0,1]', "WrongKind in draw 0"),
        ('"scissor":[0,0,1,1,1]', "WrongKind in draw 0"),
        ('"scissor":[0,0,1,"1"]', "WrongKind in draw 0"),
    ],
)
def test_checks_masks_and_scissors(member: str, fault: Fault) -> None:
    check_state(member, fault)


@pytest.mark.parametrize(
    ("vertex", "fault"),
    [
        ("[8388607,-8388608,65535,255,255,255,255]", None),
        ("[-8388608,8388607,0,0,0,0,0]", None),
        ("[8388608,0,0,0,0,0,0]", "OutOfRange in draw 0"),
        ("[-8388609,0,0,0,0,0,0]", "OutOfRange in draw 0"),
        ("[0,8388608,0,0,0,0,0]", "OutOfRange in draw 0"),
        ("[0,-8388609,0,0,0,0,0]", "OutOfRange in draw 0"),
        ("[4294967296,0,0,0,0,0,0]", "OutOfRange in draw 0"),
        ("[0,0,65536,0,0,0,0]", "OutOfRange in draw 0"),
        ("[0,0,-1,0,0,0,0]", "OutOfRange in draw 0"),
        ("[0,0,0,256,0,0,0]", "OutOfRange in draw 0"),
        ("[0,0,0,0,-1,0,0]", "OutOfRange in draw 0"),
        ("[0,0,0,0,0,256,0]", "OutOfRange in draw 0"),
        ("[0,0,0,0,0,0,256]", "OutOfRange in draw 0"),
        ("[0,0,0,0,0,0]", "WrongKind in draw 0"),
        ("[0,0,0,0,0,0,0,0]", "WrongKind in draw 0"),
        ("[0.5,0,0,0,0,0,0]", "WrongKind in draw 0"),
        ("[0,0,0,0,0,0,null]", "WrongKind in draw 0"),
        ('{"x":0}', "WrongKind in draw 0"),
    ],
)
def test_checks_vertices(vertex: str, fault: Fault) -> None:
    check_vertex(vertex, fault)


@pytest.mark.parametrize(
    ("triangle", "fault"),
    [
        ("[0,1,2]", None),
        ("[2,2,2]", None),
        ("[0,1,3]", "BadIndex in draw 0"),
        ("[0,3,1]", "BadIndex in draw 0"),
        ("[3,0,1]", "BadIndex in draw 0"),
        ("[-1,0,1]", "BadIndex in draw 0"),
        ("[0,18446744073709551615,1]", "BadIndex in draw 0"),
        ("[0,1,2.0]", "WrongKind in draw 0"),
        ("[0,1]", "WrongKind in draw 0"),
        ("[0,1,2,0]", "WrongKind in draw 0"),
        ("7", "WrongKind in draw 0"),
    ],
)
def test_checks_triangles(triangle: str, fault: Fault) -> None:
    check_over_three_vertices(f'"triangles":[{triangle}]', fault)


@pytest.mark.parametrize(
    ("strip", "fault"),
    [
        ("[]", None),
        ("[2]", None),
        ("[0,1]", None),
        ("[0,1,2]", None),
        ("[2,2,2,0,1,1]", None),
        ("[3]", "BadIndex in draw 0"),
        ("[0,1,3]", "BadIndex in draw 0"),
        ("[-1,0,1]", "BadIndex in draw 0"),
        ("[0,18446744073709551615,1]", "BadIndex in draw 0"),
        ("[0,1,2.0]", "WrongKind in draw 0"),
        ("[0,1,[2]]", "WrongKind in draw 0"),
        ("[[0,1,2]]", "WrongKind in draw 0"),
        ("[null]", "WrongKind in draw 0"),
        ("null", "WrongKind in draw 0"),
        ('{"0":0}', "WrongKind in draw 0"),
        ("7", "WrongKind in draw 0"),
    ],
)
def test_checks_strips(strip: str, fault: Fault) -> None:
    check_over_three_vertices(f'"strip":{strip}', fault)


@pytest.mark.parametrize(
    ("quad", "fault"),
    [
        ("[0,1,2,3]", None),
        ("[1,2,3,0]", None),
        ("[2,3,0,1]", None),
        ("[3,0,1,2]", None),
        ("[3,2,1,0]", None),
        ("[0,3,2,1]", None),
        # A dent.
        ("[0,1,4,3]", "NotConvex in draw 0"),
        ("[4,3,0,1]", "NotConvex in draw 0"),
        # Crossed.
        ("[0,2,1,3]", "NotConvex in draw 0"),
        ("[0,1,3,2]", "NotConvex in draw 0"),
        # Three corners on a line.
        ("[0,1,2,4]", "NotConvex in draw 0"),
        ("[0,5,1,2]", "NotConvex in draw 0"),
        ("[5,1,2,0]", "NotConvex in draw 0"),
        ("[1,2,0,5]", "NotConvex in draw 0"),
        ("[2,0,5,1]", "NotConvex in draw 0"),
        # Two equal corners, by their number and by their place.
        ("[0,0,1,2]", "NotConvex in draw 0"),
        ("[0,1,2,0]", "NotConvex in draw 0"),
        ("[0,1,0,2]", "NotConvex in draw 0"),
        ("[0,6,1,2]", "NotConvex in draw 0"),
        ("[4,4,4,4]", "NotConvex in draw 0"),
        ("[0,1,2,8]", "BadIndex in draw 0"),
        ("[8,1,2,3]", "BadIndex in draw 0"),
        ("[0,0,0,-1]", "BadIndex in draw 0"),
        ("[0,0,18446744073709551615,0]", "BadIndex in draw 0"),
        ("[0,0,0,3.0]", "WrongKind in draw 0"),
        ("[8,0,0,null]", "BadIndex in draw 0"),
        ("[0,1,2]", "WrongKind in draw 0"),
        ("[0,1,2,3,0]", "WrongKind in draw 0"),
        ("[]", "WrongKind in draw 0"),
        ("7", "WrongKind in draw 0"),
    ],
)
def test_checks_quads(quad: str, fault: Fault) -> None:
    check_quads(quad, fault)


@pytest.mark.parametrize(
    ("quads", "kind"),
    [
        ("[0,1,2,8],[0,2,1,3]", "BadIndex"),
        ("[0,2,1,3],[0,1,2,8]", "NotConvex"),
        ("[0,1,2,3],[0,2,1,3],[0,1,2]", "NotConvex"),
        ("[0,1,2,3],[0,1,2],[0,2,1,3]", "WrongKind"),
        ("[0,0,0,0],[7]", "NotConvex"),
    ],
)
def test_reports_the_first_of_two_quads(quads: str, kind: str) -> None:
    check_quads(quads, f"{kind} in draw 0")


@pytest.mark.parametrize(
    ("members", "fault"),
    [
        ('"vertices":[],"triangles":[]', None),
        ('"vertices":[],"strip":[]', None),
        ('"vertices":[]', "MissingKey in draw 0"),
        ('"strip":[]', "MissingKey in draw 0"),
        ('"triangles":[],"strip":[]', "MissingKey in draw 0"),
        ('"vertices":[],"triangles":[],"strip":[]', "TwoLists in draw 0"),
        ('"vertices":[],"triangles":null,"strip":null', "TwoLists in draw 0"),
        ('"vertices":[],"quads":[]', None),
        ('"quads":[]', "MissingKey in draw 0"),
        ('"triangles":[],"strip":[],"quads":[]', "MissingKey in draw 0"),
        ('"vertices":[],"triangles":[],"quads":[]', "TwoLists in draw 0"),
        ('"vertices":[],"strip":[],"quads":[]', "TwoLists in draw 0"),
        ('"vertices":[],"triangles":[],"strip":[],"quads":[]', "TwoLists in draw 0"),
    ],
)
def test_needs_one_list_of_primitives(members: str, fault: Fault) -> None:
    check_draw(members, fault)
