"""Styles of maps with layers: areas, lines, points, labels, a legend and a scale bar."""

import json
import pathlib
from typing import Any, Dict, List

import pytest

pytest.importorskip("shapely")
pytest.importorskip("PIL")

import numpy as np

from .test_poster_maps import collection, polygon
from .test_poster_polygons import box, feature

from trirast import poster
from trirast.poster import _layers, _lettering, _map_style, _marks

TOP = pathlib.Path(__file__).parents[2]

AREAS = collection(feature(polygon(box(0, 0, 3, 3)), kind="wood"), feature(polygon(box(3, 0, 6, 3)), kind="lake"))
ROAD = feature({"type": "LineString", "coordinates": [[0, 1.5], [6, 1.5]]})
TOWNS = collection(
    *(feature({"type": "Point", "coordinates": place}, name=name) for name, place in (("A", [1, 1]), ("B", [1.02, 1])))
)
SHEET: Dict[str, Any] = {"window": [0, 0, 6, 3], "width": 600}
LAYERS: List[Dict[str, Any]] = [
    {"file": "areas.geojson", "property": "kind", "colors": {"wood": "green", "lake": "#0000ff"}, "stroke": "white"},
    {"file": "road.geojson", "title": "roads", "fill": None, "stroke": "red", "stroke-width": 4},
    {"file": "towns.geojson", "color": "black", "radius": 5, "label": "name"},
]


def scene(folder: Any, monkeypatch: Any, layers: Any = LAYERS, **more: Any) -> poster.Scene:
    monkeypatch.chdir(folder)
    files = {"areas": AREAS, "road": ROAD, "towns": TOWNS}
    for name, value in files.items():
        (folder / f"{name}.geojson").write_text(json.dumps(value))
    (folder / "style.json").write_text(json.dumps({**SHEET, "layers": layers, **more}))
    return poster.scene_of("areas.geojson", "style.json")


def test_what_each_layer_draws(tmp_path: Any, monkeypatch: Any) -> None:
    found = scene(tmp_path, monkeypatch)
    assert [draw.polygons for draw in found.draws] == [2, 2, 1, 2]
    colors = found.polygons.colors.tolist()
    assert colors[:2] == [[0, 128, 0, 255], [0, 0, 255, 255]]
    assert colors[2:4] == [[255] * 4] * 2 and colors[4] == [255, 0, 0, 255] and colors[5:] == [[0, 0, 0, 255]] * 2
    left, top, right, bottom = found.polygons.boxes[4].tolist()
    assert (left, top, right, bottom) == (0, 148 * 256, 600 * 256, 152 * 256)
    assert found.polygons.boxes[5].tolist() == [95 * 256, 195 * 256, 105 * 256, 205 * 256]
    assert found.summary == "; features: 2 of areas.geojson, 1 of roads, 2 of towns.geojson"


def test_labels_that_overlap_are_left_out(tmp_path: Any, monkeypatch: Any) -> None:
    found = scene(tmp_path, monkeypatch).marks
    assert len(found) == 1 and found[0].left == 100 + 5 + 2
    assert found[0].image[..., 3].max() == 255


def test_a_legend_and_a_scale_bar(tmp_path: Any, monkeypatch: Any) -> None:
    more = {"legend": "lower right", "scale-bar": "upper left"}
    legend, bar, *labels = scene(tmp_path, monkeypatch, **more).marks
    height, width = legend.image.shape[:2]
    assert (legend.left + width, legend.top + height) == (600 - 16, 300 - 16)
    # In the middles of the boxes: of both kinds of areas, the roads and the towns.
    rows = [legend.image[8 + 24 * row + 8, 20].tolist()[:3] for row in range(4)]
    assert rows == [[0, 128, 0], [0, 0, 255], [255, 0, 0], [0, 0, 0]]
    assert (bar.left, bar.top) == (16, 16)
    # 100 km at a latitude of 1.5 degrees, where a pixel has 1.113 km.
    dark = (bar.image[-11, :, :3] == 0).all(1)
    assert abs(dark.sum() - 100 / 1.11278) < 2 and len(labels) == 1
    assert _lettering.length_text(5000, "m") == "5 km" and _lettering.length_text(5000, "ft") == "5,000 ft"
    assert [_lettering.round_length(each) for each in (0.3, 1, 4.9, 99)] == [0.2, 1, 2, 50]


def test_marks_lie_over_rows(tmp_path: Any) -> None:
    image = np.full((4, 6, 4), (255, 0, 0, 128), np.uint8)
    rows = [np.full((5, 10, 3), 255, np.uint8), np.full((5, 10, 3), 255, np.uint8)]
    whole = np.concatenate(list(_marks.marked(rows, [_marks.Mark(-2, 3, image), _marks.Mark(7, 8, image)], 0)))
    wanted = np.full((10, 10), 255)
    wanted[3:7, :4] = wanted[8:, 7:] = 127
    assert (whole[..., 1] == wanted).all() and (whole[..., 0] == 255).all()


def test_colors_of_features(tmp_path: Any, monkeypatch: Any) -> None:
    own = {"fill": "#123456", "fill-opacity": 0.5, "stroke": "gold", "stroke-width": 6}
    (tmp_path / "own.geojson").write_text(json.dumps(feature(polygon(box(1, 1, 2, 2)), **own)))
    found = scene(tmp_path, monkeypatch, [{"file": "own.geojson"}])
    assert found.polygons.colors.tolist() == [[18, 52, 86, 128], [255, 215, 0, 255]]
    assert found.polygons.boxes[1].tolist() == [97 * 256, 97 * 256, 203 * 256, 203 * 256]


def test_dashes(tmp_path: Any, monkeypatch: Any) -> None:
    road = {**LAYERS[1], "dash": [100, 50], "cap": "butt"}
    found = scene(tmp_path, monkeypatch, [road]).polygons
    ends = np.sort(found.corners[:, 0].reshape(-1)).tolist()
    assert sorted(set(ends)) == [256 * each for each in (0, 100, 150, 250, 300, 400, 450, 550)]


@pytest.mark.parametrize(
    "layers, more, text",
    [
        ([], {}, r"style.json: layers: expected an array of one layer or more, got \[\]"),
        ([{"colour": "red"}], {}, r"style.json: layers\[0\]: expected some of the keys file, .* got 'colour'"),
        ([{"cap": "flat"}], {}, "style.json: cap: expected one of butt, round, square, got 'flat'"),
        ([{"dash": [3]}], {}, r"style.json: dash: expected the lengths of dashes and gaps in pixels, got \[3\]"),
        ([{"stroke-width": -1, "stroke": "red"}], {}, "style.json: stroke-width: expected pixels, got -1"),
        ([{"stroke": "reddish"}], {}, "style.json: stroke: expected a colour as #rrggbb, .* got 'reddish'"),
        ([{}], {"legend": "left"}, "style.json: legend: expected one of upper left, .* got 'left'"),
        ([{"fill": None}], {}, "areas.geojson: layers: expected one that draws something, got none"),
    ],
)
def test_slips(tmp_path: Any, monkeypatch: Any, layers: Any, more: Any, text: str) -> None:
    with pytest.raises(poster.MapError, match=text):
        scene(tmp_path, monkeypatch, layers, **more)


def test_the_schema_has_each_key() -> None:
    jsonschema = pytest.importorskip("jsonschema")
    schema = json.loads((TOP / "docs/map-style.schema.json").read_text())
    assert set(schema["properties"]) == {*_map_style.KEYS, *_layers.SHEET}
    assert set(schema["$defs"]["layer"]["properties"]) == set(_layers.LAYER)
    check = jsonschema.Draft202012Validator(schema)
    for name in ("style", "layers"):
        check.validate(json.loads((TOP / f"examples/map/{name}.json").read_text()))
    check.validate({**SHEET, "layers": LAYERS})
    for wrong in ({"colour": "red"}, {"layers": [{"cap": "flat"}]}, {"width": 0}, {"steps": [[1]]}):
        assert not check.is_valid(wrong), wrong
