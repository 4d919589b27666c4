"""Pictures of geometries of shapely and frames of geopandas."""

from typing import Any

import pytest

pytest.importorskip("numpy")
pytest.importorskip("shapely")

import numpy as np
from shapely.geometry import GeometryCollection, LineString, MultiPolygon, Point, Polygon

import trirast
from trirast import maps

WEST, EAST = Polygon([(0, 0), (4, 0), (5, 8), (0, 8)]), Polygon([(4, 0), (9, 0), (9, 8), (5, 8)])
HOLED = Polygon([(0, 0), (4, 0), (4, 4), (0, 4)], [[(1, 1), (1, 2), (2, 2), (2, 1)]])


def pixels(*given: Any, **more: Any) -> Any:
    return np.asarray(maps.draw(*given, **more))


def test_geometries_become_arrays() -> None:
    given = [HOLED, None, LineString([(0, 0), (1, 1)]), MultiPolygon([WEST, EAST])]
    corners, ring_ends, polygon_ends = maps.arrays_of(given)
    assert ring_ends.tolist() == [5, 10, 15, 20]
    assert polygon_ends.tolist() == [2, 2, 2, 4]
    assert corners[5:10].tolist() == [[1, 1], [1, 2], [2, 2], [2, 1], [1, 1]]
    high = maps.arrays_of([Polygon([(0, 0, 7), (1, 0, 7), (1, 1, 7)])])[0]
    assert high.shape == (4, 2)
    assert [len(each) for each in maps.arrays_of([])] == [0, 0, 0]
    with pytest.raises(TypeError, match="geometries: expected of shapely, got int"):
        maps.arrays_of([3])


def test_parts_of_a_collection() -> None:
    mixed = GeometryCollection([Point(1, 1), HOLED, LineString([(0, 0), (1, 1)])])
    assert maps.arrays_of([mixed])[1].tolist() == [5, 10]


def test_a_picture_has_no_seams() -> None:
    shown = pixels([WEST, EAST], color=(0, 0, 255, 128), width=90)
    assert shown.shape == (80, 90, 3)
    assert (shown == (127, 127, 255)).all()


def test_strokes_are_above_all_areas() -> None:
    shown = pixels([WEST, EAST], color="navy", stroke="white", stroke_width=4, width=90)
    assert (shown[40, 43:47] == 255).all() and (shown[:2] == 255).all() and (shown[:, :2] == 255).all()
    assert (shown[40, 5:40] == (0, 0, 128)).all() and (shown[40, 55:85] == (0, 0, 128)).all()


def test_lines_and_points() -> None:
    given = [LineString([(0, 4), (9, 4)]), Point(2, 2), WEST]
    shown = pixels(given, color="red", window=(0, 0, 9, 8), width=90, stroke_width=2, cap="butt", radius=5)
    assert (shown[39:41] == (255, 0, 0)).all()
    disc = pixels([Point(2, 2)], color="red", window=(0, 0, 9, 8), width=90, radius=5)
    covered = (255 - disc[..., 1].astype(float)) / 255
    assert abs(covered.sum() - 78.5) < 2 and covered[55:65, 15:25].sum() == covered.sum()


def test_a_window_cuts() -> None:
    far = Polygon([(-1e7, -1e7), (1e7, -1e7), (1e7, 1e7), (-1e7, 1e7)])
    assert (pixels([far], color="navy", window=(0, 0, 9, 8), width=90) == (0, 0, 128)).all()


def test_the_ways_to_color() -> None:
    geopandas = pytest.importorskip("geopandas")
    pytest.importorskip("matplotlib")
    squares = [Polygon([(n, 0), (n + 1, 0), (n + 1, 1), (n, 1)]) for n in range(4)]
    frame = geopandas.GeoDataFrame({"a": [1.0, 2.0, np.nan, 9.0], "b": ["x", "y", None, "x"]}, geometry=squares)

    def middles(*given: Any, **more: Any) -> Any:
        return [tuple(each) for each in pixels(frame, *given, width=40, **more)[5, 5::10].tolist()]

    low, high, nothing = (68, 1, 84), (253, 231, 36), (221, 221, 221)
    found = middles("a")
    assert (found[0], found[2], found[3]) == (low, nothing, high) and found[1] not in (low, high)
    assert middles("a", vmin=2, vmax=3)[:2] == [low, low] and middles("a", vmin=-9, vmax=1)[3] == high
    assert middles("a", classes=[2, 5])[::3] == [low, high]
    assert len(set(middles("a", classes="quantiles", count=3))) == 4
    assert middles("a", classes="equal", count=2)[:2] == [low, low]
    names = middles("b", "tab10", missing="black")
    assert names == [(31, 119, 180), (255, 127, 14), (0, 0, 0), (31, 119, 180)]
    with pytest.raises(ValueError, match="column: expected one of a, b, geometry, got 'c'"):
        maps.draw(frame, "c")
    with pytest.raises(ValueError, match="cmap: expected the name of a colour map of matplotlib, .* got 'green'"):
        maps.draw(frame, "a", "green")
    with pytest.raises(ValueError, match="classes: expected one of equal, quantiles or numbers"):
        maps.draw(frame, "a", classes="jenks")


@pytest.mark.parametrize(
    "more, text",
    [
        ({"color": "reddish"}, "color: expected a name as 'navy', or #rrggbb, got 'reddish'"),
        ({"color": (0.5, 0.5, 1)}, "color.0.: expected an integer of 0 to 255, got 0.5; of matplotlib's colours"),
        ({"window": (0, 0, 0, 3)}, "window: expected x and y of the lower left corner"),
        ({"width": 5000}, "width: expected 1 to 4096, got 5000"),
        ({"cap": "flat"}, "cap: expected one of butt, round, square, got 'flat'"),
        ({"stroke_width": -1}, "stroke_width: expected at least 0, got -1"),
        ({"column": "a"}, "column: expected one of none, as a series has no columns, got 'a'"),
    ],
)
def test_slips(more: Any, text: str) -> None:
    with pytest.raises((ValueError, TypeError), match=text):
        maps.draw([WEST], **more)
    with pytest.raises(ValueError, match="geometries: expected at least one that is not empty"):
        maps.draw([None])


def test_a_canvas_draws_geometries() -> None:
    canvas = trirast.Canvas(90, 80, 16)
    canvas.clear("white")
    canvas.draw_geometries([WEST, EAST], ["navy", "#ff0000"], window=(0, 0, 9, 8))
    shown = canvas.rgb()
    assert (shown[40, 5].tolist(), shown[40, 85].tolist()) == ([0, 0, 128], [255, 0, 0])
    with pytest.raises(ValueError, match=r"colors\[1\]: expected a name as 'navy', or #rrggbb, got 'x'"):
        canvas.draw_geometries([WEST, EAST], ["navy", "x"])
