"""Maps whose data or style is a slip: each is an error that says where, and no empty map is drawn."""

import json
import os
from typing import Any, Dict, List

import pytest

from .test_poster_polygons import box, feature

from trirast import poster
from trirast.poster import _command, _geojson

SQUARE = box(0, 0, 3, 3)
STEPS = [[10, "#000000"]]
# A number of JSON that no float holds.
HUGE = 10**400


def polygon(*rings: Any) -> Dict[str, Any]:
    return {"type": "Polygon", "coordinates": list(rings)}


def collection(*features: Any) -> Dict[str, Any]:
    return {"type": "FeatureCollection", "features": list(features)}


def scene(folder: Any, value: Any, style: Any) -> poster.Scene:
    names = [os.path.join(str(folder), name) for name in ("map.geojson", "style.json")]
    for name, each in zip(names, (value, style)):
        with open(name, "w", encoding="ascii") as file:
            json.dump(each, file)
    return poster.scene_of(*names)


@pytest.mark.parametrize(
    "value, style, text",
    [
        # Nothing would be seen.
        (collection(), {}, "expected a feature with a polygon, got none"),
        (collection(feature(None), feature(polygon())), {}, "expected a feature with a polygon, got none"),
        (
            feature(polygon(SQUARE)), {"window": [3, 0, 9, 3]},
            r"expected a feature in the style.* longitudes are 0 to 3, .* are these degrees",
        ),
        (feature(polygon(box(0, 86, 3, 88))), {"projection": "web mercator"},
         "expected a feature in the style.* latitudes 86 to 88"),
        (
            feature(polygon(box(334000, 4865942, 668000, 5621521))), {},
            "feature 0 .* 334000 to 668000, .* 4865942 to 5621521: are these degrees.* \"plane\"$",
        ),
        (
            feature(polygon(box(49, 5, 52, 11))), {"window": [5, 48, 11, 53]},
            "expected a feature in the style.* 5 to 11: GeoJSON has the longitude first",
        ),
        (
            feature(polygon(SQUARE)), {"projection": "plane", "window": [3, 0, 9, 3]},
            r"its x is 0 to 3, and its y 0 to 3: the window has the units of the file",
        ),
        (
            feature(polygon([*SQUARE, [2e15, 0]])), {"projection": "plane"},
            r"x and y of -1e\+15 to 1e\+15, got \[2000000000000000.0, 0.0\]",
        ),
        (
            feature(polygon(SQUARE)), {"projection": "EPSG:3035"},
            "plate carree, web mercator, plane, got 'EPSG:3035'; .* is a plane",
        ),
        (feature(polygon(SQUARE)), {"window": "all"}, "in degrees, or 'data', got 'all'"),
        # No value has a colour.
        (
            feature(polygon(SQUARE), a=7), {"property": "a", "steps": STEPS},
            r"steps: expected 'a' of at least 10 in .*, got 7 \(number\)$",
        ),
        (feature(polygon(SQUARE), a=7), {"property": "a", "steps": []}, r"steps: expected one step or more"),
        (
            feature(polygon(SQUARE), a="12.5"), {"property": "a", "steps": STEPS},
            r"steps: expected a number as 'a' of .*, got '12.5' \(string\)$",
        ),
        (feature(polygon(SQUARE), a=None), {"property": "a", "steps": STEPS}, r"got None \(null\)$"),
        (
            feature(polygon(SQUARE), a="Wood"), {"property": "a", "colors": {"wood": "#000000"}},
            r"one of \['wood'\] as 'a' of .*, got 'Wood' \(string\)$",
        ),
        (feature(polygon(SQUARE), a=7), {"property": "a", "colors": {}},
         r"one of \[\] as 'a' of .*, got 7 \(number\)$"),
        (
            collection(*(feature(polygon(SQUARE), a=value) for value in (True, [1], {}, True, 2, 3))),
            {"property": "a", "colors": {"b": "#000000"}},
            r"got True \(boolean\), \[1\] \(array\), \{\} \(object\), 2 \(number\), \.\.$",
        ),
        # Rings.
        (
            collection(feature(None), feature(polygon(SQUARE, [[1, 1], [2, 2]]))), {},
            r"feature 1 \(counted from 0\), polygon 0, ring 1: expected 3 different positions",
        ),
        (
            feature(polygon([[1, 1], [2, 2], [1, 1], [2, 2], [1, 1]])), {},
            r"feature 0 \(counted from 0\), polygon 0, ring 0: expected 3 different",
        ),
        (
            feature({"type": "MultiPolygon", "coordinates": [[SQUARE], [[]]]}), {},
            r"feature 0 \(counted from 0\), polygon 1, ring 0: expected 3 different",
        ),
        (
            {"type": "GeometryCollection", "geometries": [polygon(SQUARE), polygon([[1, 1]])]}, {},
            r"feature 0 \(counted from 0\), geometry 1, polygon 0, ring 0: ",
        ),
        (
            {"type": "MultiPolygon", "coordinates": [SQUARE]}, {},
            r"got \[0, 0\]; a MultiPolygon has .*: one level of brackets is missing$",
        ),
        (
            {"type": "Polygon", "coordinates": SQUARE}, {},
            r"got \[0, 0\]; a Polygon has rings of positions: one level of brackets is missing$",
        ),
        (
            {"type": "Polygon", "coordinates": [[SQUARE]]}, {},
            r"a Polygon has rings of positions: there is one level of brackets too many$",
        ),
        ({"type": "Polygon", "coordinates": [7]}, {}, "a longitude and a latitude, got 7; .* is missing$"),
        ({"type": "Polygon", "coordinates": [[[]]]}, {}, r"a longitude and a latitude, got \[\]$"),
        (polygon([*SQUARE, [13.7], [1]]), {}, r"polygon 0, ring 0: expected positions of .*, got \[13.7\]$"),
        (polygon([*SQUARE, ["x", 5]]), {}, r"polygon 0, ring 0: expected positions of .*, got \['x', 5\]$"),
        ({**feature(polygon([*SQUARE, [1, 92]])), "id": 7}, {},
         r"feature 0 \(counted from 0, id 7\): expected a longitude"),
        ({**feature(polygon([[1, 1]])), "id": "DE"}, {}, r"feature 0 \(counted from 0, id 'DE'\), polygon 0"),
        (polygon([*SQUARE, [True, 2]]), {}, r"polygon 0, ring 0: expected positions of .*, got \[True, 2\]$"),
        (polygon([[False, False], [True, False], [True, True]]), {}, r"positions of .*, got \[False, False\]$"),
        (polygon([*SQUARE, {"x": 1}]), {}, r"positions of .*, got \{'x': 1\}$"),
        (polygon([*SQUARE, [HUGE, 2]]), {}, r"positions of .*, got \[10{70,}\.\.\.$"),
        # Places.
        (
            collection(feature(polygon(SQUARE)), feature(None), feature(polygon([*SQUARE, [5, 95]]))), {},
            r"feature 2 .* got \[5.0, 95.0\]; .*: GeoJSON has the longitude first",
        ),
        (collection(feature(None), feature(polygon([*SQUARE, [361, 5]]))), {}, r"feature 1 .* got \[361.0, 5.0\]"),
        (
            feature(polygon([*SQUARE, [float("nan"), 5]])), {},
            r"feature 0 .*: expected positions of finite numbers, got \[nan, 5.0\]$",
        ),
        (
            feature(polygon([*SQUARE, [5, float("inf")]])), {},
            r"feature 0 .*: expected positions of finite numbers, got \[5.0, inf\]$",
        ),
        # What is no GeoJSON, and styles.
        ([1, 2, 3], {}, r"a FeatureCollection, a Feature or a geometry, .* got \[1, 2, 3\]"),
        ({"type": "Topology", "arcs": [], "objects": {}}, {}, "expected GeoJSON, got TopoJSON; convert it"),
        (
            feature(polygon(SQUARE), a=7), {"property": "a", "colors": {"7": "#000000"}, "steps": STEPS},
            "expected colors or steps, got both",
        ),
        (
            feature(polygon(SQUARE), a=7), {"property": "a", "steps": [[5, "#000000"], [3, "#000000"]]},
            r"numbers that rise, got \[5, 3\]",
        ),
        (feature(polygon(SQUARE)), {"projection": []}, r"projection: expected plate carree, .*, got \[\]"),
        (feature(polygon(SQUARE)), {"projection": {}}, r"projection: expected plate carree, .*, got \{\}"),
        (feature(polygon(SQUARE)), {"color": "#11 22 33"}, "color: expected a colour as #rrggbb, .*, got '#11 22 33'$"),
        (feature(polygon(SQUARE)), {"background": "# 1 2 3 4"}, "background: expected a colour as #rrggbb, .*, got "),
        (feature(polygon(SQUARE)), {"color": "#1122330\n"}, "color: expected a colour as #rrggbb, .*, got "),
        (feature(polygon(SQUARE)), {"opacity": HUGE}, "opacity: expected 0 to 1, got 10{70,}"),
        (feature(polygon(SQUARE)), {"window": [0, 0, HUGE, 3]}, "window: expected west, south, east and north"),
        (
            feature(polygon(SQUARE), a=7), {"property": "a", "steps": [[HUGE, "#000000"]]},
            r"steps: expected pairs of a number and a colour, got \[10{70,}",
        ),
        (feature(polygon(SQUARE), a=HUGE), {"property": "a", "steps": STEPS},
         "steps: expected a number as 'a' of .*, got 10"),
    ],
)
def test_a_slip_is_an_error(tmp_path: Any, value: Any, style: Any, text: str) -> None:
    with pytest.raises(poster.MapError, match=text):
        scene(tmp_path, value, style)


def test_a_position_that_cannot_be_cut_is_an_error() -> None:
    """From Python 3.12 on an object of JSON has no key that is a slice, where it had a type error before."""

    class Object(Dict[Any, Any]):
        def __getitem__(self, key: Any) -> Any:
            raise KeyError(key)

    with pytest.raises(poster.MapError, match="positions of a longitude and a latitude, got {'x': 1}"):
        _geojson.ring_of([*SQUARE, Object(x=1)], "here", "")


def test_a_map_whose_name_ends_in_json_needs_a_style(tmp_path: Any) -> None:
    files = {"map.json": collection(feature(polygon(SQUARE))), "style.json": {}}
    for name, value in files.items():
        (tmp_path / name).write_text(json.dumps(value))
    assert poster.scene_of(tmp_path / "map.json", tmp_path / "style.json").polygons.count == 1
    with pytest.raises(poster.MapError, match="map.json: expected a draw list, got what looks like GeoJSON"):
        poster.scene_of(tmp_path / "map.json")
    with pytest.raises(poster.MapError, match="style: expected a map whose name ends in .*, got .*map.npz"):
        poster.scene_of(tmp_path / "map.npz", tmp_path / "style.json")


@pytest.mark.parametrize(
    "geometry, count",
    [
        (polygon(SQUARE[:-1]), 4), (polygon(SQUARE), 5), (polygon(SQUARE[:3]), 3),
        (polygon([*SQUARE[:-1], [359.5, 90.0000005], SQUARE[0]]), 6),
        ({"type": "GeometryCollection", "geometries": [polygon(), polygon(SQUARE)]}, 5),
        (polygon([[x, y, 7] for x, y in SQUARE]), 5),
    ],
)
def test_open_rings_and_empty_polygons_are_drawn(tmp_path: Any, geometry: Any, count: int) -> None:
    value = collection(
        feature(None), feature(polygon()), feature(geometry), feature({"type": "MultiPolygon", "coordinates": []})
    )
    found = scene(tmp_path, value, {}).polygons
    assert (found.polygon_ends.tolist()[:2], found.count, len(found.corners)) == ([0, 0], 4, count)


def test_a_feature_without_the_property_has_color(tmp_path: Any) -> None:
    given: List[Dict[str, Any]] = [{}, {"a": None}, {"a": 3}, {"a": 10}]
    value = collection(*(feature(polygon(SQUARE), **each) for each in given))

    def colors(style: Dict[str, Any]) -> List[int]:
        found: List[List[int]] = (
            scene(tmp_path, value, {"property": "a", "color": [1, 1, 1], **style}).polygons.colors.tolist()
        )
        return [color[0] for color in found]

    assert colors({"colors": {"null": [7, 7, 7], "3": [8, 8, 8]}}) == [1, 7, 8, 1]
    assert colors({"steps": [[10, [9, 9, 9]]]}) == [1, 1, 1, 9]


def test_the_closing_line_counts_features(tmp_path: Any, capsys: Any) -> None:
    far = feature(polygon(box(100, 0, 103, 3)), a=10)
    style = {"window": [0, 0, 6, 3], "width": 60, "property": "a", "steps": STEPS}
    scene(
        tmp_path, collection(feature(polygon(SQUARE), a=10), feature(polygon(SQUARE), a=1), far, feature(None)), style
    )
    names = [str(tmp_path / name) for name in ("map.geojson", "style.json", "a.png", "tiles")]
    assert _command.main([names[0], "--style", names[1], "-o", names[2], "--tiles", names[3]]) == 0
    plain = "1 in the style's color (0 without a number, 1 below the first step)"
    drawn = f"2 of 4 features drawn, 1 coloured by a, {plain}"
    assert capsys.readouterr() == ("", f"poster: {names[2]} and {names[3]}: 60 by 30 pixels; {drawn}\n")


def test_the_closing_line_without_steps(tmp_path: Any) -> None:
    value = collection(feature(polygon(SQUARE), a="b"), feature(polygon(SQUARE), a="c"))
    assert scene(tmp_path, value, {}).summary == "; 2 of 2 features drawn, 2 in the style's color"
    assert (
        scene(tmp_path, value, {"property": "a", "colors": {"b": "#000000"}}).summary
        == "; 2 of 2 features drawn, 1 coloured by a, 1 in the style's color"
    )


@pytest.mark.parametrize(
    "style, size, corner, window",
    [
        ({"window": "data"}, (90, 45), (90, 45), [10.0, 20.0, 40.0, 35.0]),
        ({"projection": "plane"}, (90, 45), (90, 45), [10.0, 20.0, 40.0, 35.0]),
        ({"projection": "plane", "window": "data"}, (90, 45), (90, 45), [10.0, 20.0, 40.0, 35.0]),
        ({"projection": "plane", "window": [0, 0, 60, 40]}, (90, 60), (60, 30), None),
        ({"projection": "web mercator", "window": "data"}, (90, 51), (90, 51), [10.0, 20.0, 40.0, 35.0]),
    ],
)
def test_windows_of_the_data_and_planes(tmp_path: Any, style: Any, size: Any, corner: Any, window: Any) -> None:
    found = scene(tmp_path, feature(polygon(box(10, 20, 40, 35))), {"width": 90, **style})
    assert (found.sheet.width, found.sheet.height) == size
    places = found.polygons.corners
    # The corner in the south-east.
    assert [round(each / 256) for each in places[1]] == list(corner)
    assert found.summary.partition("color")[2] == ("" if window is None else f"; window {window}")


def test_a_plane_has_any_units(tmp_path: Any) -> None:
    style = {"projection": "plane", "window": [4e6, 2e6, 5e6, 4e6], "width": 100, "color": [1, 2, 3]}
    # So far away that it is cut.
    parts = collection(feature(polygon(box(4e6, 2e6, 4.5e6, 3e6))), feature(polygon(box(-1e15, 3e6, 1e15, 1e15))))
    found = scene(tmp_path, parts, style)
    assert (found.sheet.width, found.sheet.height) == (100, 200)
    assert found.polygons.corners.tolist() == [
        *([x, y] for x, y in ((0, 51200), (12800, 51200), (12800, 25600), (0, 25600), (0, 51200))),
        *found.polygons.corners[5:].tolist(),
    ]
    assert (found.polygons.corners[5:].min(), found.polygons.corners[5:].max()) == (-256 * 64, 256 * 164)


def test_a_window_of_a_map_is_no_side(capsys: Any) -> None:
    with pytest.raises(SystemExit):
        _command.main(["a.geojson", "-o", "a.png", "--window", "4,40,24,55"])
    assert (
        "expected the pixels of a side, as 512, got '4,40,24,55'; a map's window is a key of its style"
        in capsys.readouterr().err
    )
