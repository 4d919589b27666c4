"""Files of maps: one feature a line, deflated texts, other systems of coordinates, and formats that fiona reads."""

import builtins
import gzip
import json
from typing import Any, Dict
from unittest import mock

import pytest

from .test_poster_maps import SQUARE, collection, polygon
from .test_poster_polygons import box, feature

from trirast import poster
from trirast.poster import _georeference

STYLE: Dict[str, Any] = {"window": [0, 0, 6, 3], "width": 60}
LINE = {"type": "LineString", "coordinates": [[0, 0], [1, 1]]}
POINT = {"type": "Point", "coordinates": [1, 1]}
# A square of 3 degrees in metres of Web Mercator.
SIDE = 333958.4723798207


def written(folder: Any, name: str, data: Any, style: Any = STYLE) -> poster.Scene:
    (folder / name).write_bytes(data if isinstance(data, bytes) else json.dumps(data).encode())
    (folder / "style.json").write_text(json.dumps(style))
    return poster.scene_of(folder / name, folder / "style.json")


def test_features_one_a_line(tmp_path: Any) -> None:
    lines = "".join(f"{json.dumps(feature(polygon(each)))}\n" for each in (SQUARE, box(1, 1, 2, 2)))
    wanted = written(tmp_path, "a.geojson", collection(feature(polygon(SQUARE)), feature(polygon(box(1, 1, 2, 2)))))
    texts = {"b.geojsonl": lines, "c.ndjson": f"\n{lines}\n", "d.geojson": lines, "e.geojsons": f"\x1e{lines}"}
    for name, text in texts.items():
        for end, data in (("", text.encode()), (".gz", gzip.compress(text.encode()))):
            found = written(tmp_path, name + end, data)
            assert found.polygons.corners.tolist() == wanted.polygons.corners.tolist(), name
            assert poster.scene_of(tmp_path / (name + end)).polygons.count == 2


def test_a_line_that_is_no_feature(tmp_path: Any) -> None:
    with pytest.raises(poster.MapError, match="b.ndjson: line 3: expected a feature as JSON, got"):
        written(tmp_path, "b.ndjson", f"{json.dumps(feature(polygon(SQUARE)))}\n\n{{oh}}\n".encode())
    with pytest.raises(poster.MapError, match="b.geojson.gz: expected text in UTF-8, got"):
        written(tmp_path, "b.geojson.gz", b"no gzip")


def test_geometries_without_an_area_are_counted(tmp_path: Any) -> None:
    mixed = {"type": "GeometryCollection", "geometries": [POINT, polygon(SQUARE)]}
    found = written(tmp_path, "a.geojson", collection(*map(feature, (LINE, POINT, mixed))))
    assert found.polygons.count == 3
    assert found.summary.endswith("; skipped, without an area: 1 LineString, 2 Point")
    with pytest.raises(poster.MapError, match="got none; skipped, without an area: 1 LineString$"):
        written(tmp_path, "a.geojson", feature(LINE))
    with pytest.raises(poster.MapError, match="expected a geometry, as Polygon or MultiPolygon, got 'Circle'"):
        written(tmp_path, "a.geojson", feature({"type": "Circle"}))


def test_latitudes_beyond_a_pole_are_cut(tmp_path: Any) -> None:
    style = {"width": 360, "window": [-180, -90, 180, 90]}
    found = written(tmp_path, "a.geojson", feature(polygon(box(0, 80, 9, 90.5))), style)
    assert found.polygons.corners[:, 1].min() == 0
    with pytest.raises(poster.MapError, match="a latitude of -90 to 90"):
        written(tmp_path, "a.geojson", feature(polygon(box(0, 80, 9, 92))), style)


@pytest.mark.parametrize("name", ["EPSG:3857", "urn:ogc:def:crs:EPSG::3857"])
def test_another_system_of_coordinates(tmp_path: Any, name: str) -> None:
    pytest.importorskip("pyproj")
    wanted = written(tmp_path, "a.geojson", feature(polygon(SQUARE))).polygons.corners.tolist()
    metres = polygon(box(0, 0, SIDE, 334111.1714019597))
    member = {"type": "name", "properties": {"name": name}}
    found = written(tmp_path, "a.geojson", {**collection(feature(metres)), "crs": member})
    assert found.polygons.corners.tolist() == wanted
    assert written(tmp_path, "a.geojson", feature(metres), {**STYLE, "crs": name}).polygons.corners.tolist() == wanted
    with pytest.raises(poster.MapError, match="crs: expected a name that pyproj knows, as EPSG:3857, got 'EPSG:0'"):
        written(tmp_path, "a.geojson", feature(metres), {**STYLE, "crs": "EPSG:0"})


def test_longitudes_and_latitudes_need_no_pyproj(tmp_path: Any) -> None:
    member = {"type": "name", "properties": {"name": "urn:ogc:def:crs:OGC:1.3:CRS84"}}
    with without("pyproj"):
        whole = {**collection(feature(polygon(SQUARE))), "crs": member}
        assert written(tmp_path, "a.geojson", whole).polygons.count == 1
        with pytest.raises(poster.EngineMissingError, match="crs: expected pyproj, .* install python3-pyproj"):
            written(tmp_path, "a.geojson", feature(polygon(SQUARE)), {**STYLE, "crs": "EPSG:3857"})


@pytest.mark.parametrize("end, driver", [("gpkg", "GPKG"), ("shp", "ESRI Shapefile")])
def test_formats_that_fiona_reads(tmp_path: Any, end: str, driver: str) -> None:
    fiona = pytest.importorskip("fiona")
    schema = {"geometry": "Polygon", "properties": {"a": "int"}}
    with fiona.open(tmp_path / f"a.{end}", "w", driver=driver, crs="EPSG:4326", schema=schema) as file:
        for number in (3, 10):
            rings = [[tuple(place) for place in SQUARE]]
            file.write({"geometry": {"type": "Polygon", "coordinates": rings}, "properties": {"a": number}})
    (tmp_path / "style.json").write_text(json.dumps({**STYLE, "property": "a", "colors": {"3": "navy", "10": "#fff"}}))
    found = poster.scene_of(tmp_path / f"a.{end}", tmp_path / "style.json")
    assert found.polygons.colors.tolist() == [[0, 0, 128, 255], [255, 255, 255, 255]]
    with pytest.raises(poster.MapError, match="its layers are a$"):
        (tmp_path / "style.json").write_text(json.dumps({**STYLE, "layer": "roads"}))
        poster.scene_of(tmp_path / f"a.{end}", tmp_path / "style.json")


def test_a_shapefile_without_fiona(tmp_path: Any) -> None:
    with without("fiona", "geopandas"):
        with pytest.raises(poster.EngineMissingError, match="expected fiona or geopandas, .* install python3-fiona"):
            written(tmp_path, "a.shp", b"")


def test_where_a_map_lies(tmp_path: Any) -> None:
    place = written(tmp_path, "a.geojson", feature(polygon(SQUARE))).place
    assert place == (0, 3, 0.1, 0.1, 4326)
    assert [float(line) for line in place.world_file.split()] == [0.1, 0, 0, -0.1, 0.05, 2.95]
    scale, tie, keys = place.tags
    assert (scale[3], tie[3][3:5], keys[3]) == (
        (0.1, 0.1, 0.0), (0.0, 3.0), (1, 1, 0, 3, 1024, 0, 1, 2, 1025, 0, 1, 1, 2048, 0, 1, 4326),
    )
    style = {**STYLE, "projection": "web mercator"}
    metres = written(tmp_path, "a.geojson", feature(polygon(SQUARE)), style).place
    assert metres.epsg == 3857 and abs(60 * metres.across - 2 * SIDE) < 1e-6
    plane = written(tmp_path, "a.geojson", feature(polygon(SQUARE)), {**STYLE, "projection": "plane"}).place
    assert (plane.epsg, plane.tags[2][3]) == (None, (1, 1, 0, 2, 1024, 0, 1, 32767, 1025, 0, 1, 1))
    _georeference.write_world_file(str(tmp_path / "a.png"), place)
    assert (tmp_path / "a.pgw").read_text() == place.world_file
    assert (tmp_path / "a.prj").read_text().startswith('GEOGCS["GCS_WGS_1984"')


def test_names_of_colors(tmp_path: Any) -> None:
    found = written(tmp_path, "a.geojson", feature(polygon(SQUARE)), {**STYLE, "color": "tomato", "background": "#abc"})
    assert (found.polygons.colors.tolist(), found.sheet.clear) == ([[255, 99, 71, 255]], (170, 187, 204))
    with pytest.raises(poster.MapError, match=r"color: expected .* got \[0.5, 0, 1\]; of matplotlib's colours"):
        written(tmp_path, "a.geojson", feature(polygon(SQUARE)), {**STYLE, "color": [0.5, 0, 1]})
    with pytest.raises(poster.MapError, match="color: expected .* a name .* got 'tomatoes'"):
        written(tmp_path, "a.geojson", feature(polygon(SQUARE)), {**STYLE, "color": "tomatoes"})


def without(*names: str) -> Any:
    """Imports of these packages fail meanwhile."""
    whole = builtins.__import__

    def missing(name: str, *given: Any, **more: Any) -> Any:
        if name.partition(".")[0] in names:
            raise ImportError(f"No module named {name!r}")
        return whole(name, *given, **more)

    return mock.patch.object(builtins, "__import__", missing)
