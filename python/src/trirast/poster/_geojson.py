"""Polygons of GeoJSON (RFC 7946) as a scene, in the style of a map.

A feature is one polygon of all its rings by the even-odd rule, so holes and the parts of multipolygons need
nothing else. Neighbours that share corners in the file share them on the sheet: each position is projected
and rounded by itself.
"""

from __future__ import annotations

import json
import re
from collections import Counter
from contextlib import contextmanager
from itertools import chain
from typing import Any, Iterator, Mapping, NamedTuple, Optional, Sequence

import numpy as np
from numpy.typing import NDArray

from .._polygons import Polygons, with_zero
from ._crs import in_degrees, named_crs
from ._errors import ArraysError, MapError
from ._georeference import georeference_of
from ._layers import is_layered, scene_of_layers
from ._map_style import FAR, PLANE, Places, Style, is_of_data, of_data, shown, style_of
from ._projecting import projected, within_band
from ._scene import NO_TRIANGLES, PosterDraw, Scene, Sheet, own_polygons, owned
from ._sources import read_map

# The greatest longitude and latitude of a position, with room for rounding. Some data has longitudes up to 360, and
# some latitudes a little beyond the poles, where they are cut.
FARTHEST = 360 + 1e-6, 91.0
# Geometries that have no area.
WITHOUT_AREA = ("Point", "MultiPoint", "LineString", "MultiLineString")
# How a line begins that says what is wrong with a style.
OF_STYLE = re.compile(r"^style[.:] ?")
# The fewest different positions of a ring: the fourth one of RFC 7946 (3.1.6) is the first again.
FEWEST = 3


# What a ring is in coordinates, and with how many levels of brackets.
LEVELS = {
    "Polygon": "a Polygon has rings of positions", "MultiPolygon": "a MultiPolygon has polygons of rings of positions"
}
OF_RING = 2
# The types of JSON's numbers.
NUMBERS = {int, float}


class Feature(NamedTuple):
    """The rings of a feature, its properties, and what messages say of its id."""

    rings: Sequence[Places]
    properties: Mapping[str, Any]
    key: str


def scene_of_geojson(path: str, style: Optional[str] = None) -> Scene:
    """The scene of a GeoJSON file, in the style of a JSON file, or without one in that of a style without keys.
    Feature k of the file, also one without a geometry, is polygon k of the scene's `polygons`. Raises MapError if
    one of the files is none, or if nothing of the map would be seen, or nothing in the colours of a property: such
    files are a slip."""
    with of_file(style):
        given = {} if style is None else read_style(style)
        if is_layered(given):
            return scene_of_layers(path, given)
        drawn = style_of(given)
    value, skipped = read_map(path, given.get("layer")), Skipped()
    features = list(features_of(value, path, skipped))
    with of_file(style):
        drawn.check_values([feature.properties for feature in features], path)
    rings = [ring for feature in features for ring in feature.rings]
    if not rings:
        raise MapError(f"{path}: expected a feature with a polygon, got none{skipped.said}")
    degrees = degrees_of(np.concatenate(rings), given, value, drawn, path)
    ring_ends = np.cumsum([len(ring) for ring in rings], dtype=np.uint32)
    polygon_ends = np.cumsum([len(feature.rings) for feature in features], dtype=np.uint32)
    check_places(degrees, with_zero(ring_ends)[polygon_ends], features, drawn, path)
    drawn = of_data(given, degrees) if is_of_data(given) else drawn
    places = projected(degrees, drawn)
    is_seen = seen(places, ring_ends, polygon_ends, drawn.sheet)
    if not is_seen.any():
        raise MapError(
            f"{path}: expected a feature in the style's window {list(drawn.window)}, got none; "
            f"{reach_of(degrees, drawn)}: {hint(degrees, drawn)}"
        )
    found = [drawn.color_of(feature.properties) for feature in features]
    colors = np.array([drawn.color if color is None else color for color in found], np.uint8).reshape(-1, 4)
    corners, ring_ends = within_band(places, ring_ends, drawn.sheet)
    polygons = own_polygons(Polygons(corners, ring_ends, polygon_ends, colors))
    blend = {"blend": "over"} if (colors[:, 3] < 255).any() else {}
    draws = [PosterDraw(polygons=len(features), state=blend)]
    plain = drawn.count_plain([feature.properties for feature, is_drawn in zip(features, is_seen) if is_drawn])
    window = f"; window {list(drawn.window)}" if is_of_data(given) else ""
    summary = f"; {is_seen.sum()} of {len(features)} features drawn, {plain}{window}{skipped.said}"
    place = georeference_of(drawn, given.get("crs"))
    return owned(
        Scene(drawn.sheet, *NO_TRIANGLES, draws, path, copy=False, polygons=polygons, summary=summary, place=place)
    )


@contextmanager
def of_file(style: Optional[str]) -> Iterator[None]:
    """Names the file of a style in what is said of the style, also of the sheet that it asks for."""
    try:
        yield
    except (MapError, ArraysError) as error:
        line = str(error)
        if style is None or line.startswith(style):
            raise
        raise MapError(f"{style}: {OF_STYLE.sub('', line)}") from error


def read_style(path: str) -> Any:
    with open(path, "rb") as file:
        try:
            return json.load(file)
        except (ValueError, RecursionError) as error:
            raise MapError(f"{path}: expected JSON, got {error}") from error


def degrees_of(places: Places, given: Any, value: Any, style: Style, path: str) -> Places:
    """Positions of a file in the units of a style: those of a plane stay, and others become longitudes and
    latitudes."""
    if style.projection == PLANE:
        return places
    member = given.get("crs", value.get("crs") if isinstance(value, dict) else None)
    return in_degrees(places, named_crs(member, path), path)


class Skipped:
    """Geometries that are not drawn, by their types."""

    def __init__(self) -> None:
        self._counts: Counter[str] = Counter()

    def add(self, kind: str) -> None:
        self._counts[kind] += 1

    @property
    def said(self) -> str:
        """What a line says of them, nothing if there are none."""
        each = ", ".join(f"{count} {kind}" for kind, count in sorted(self._counts.items()))
        return f"; skipped, without an area: {each}" if each else ""


# ---- GeoJSON


def features_of(value: Any, path: str, skipped: Skipped) -> Iterator[Feature]:
    """The features of a GeoJSON text. Raises MapError if it is none."""
    for number, feature in enumerate(listed_features(value, path)):
        key = f", id {shown(feature['id'])}" if isinstance(feature, dict) and "id" in feature else ""
        where = name_of_feature(path, number, key)
        if not isinstance(feature, dict):
            raise MapError(f"{where}: expected an object, got {shown(feature)}")
        properties = feature.get("properties")
        rings = list(rings_of(feature.get("geometry"), where, skipped))
        yield Feature(rings, properties if isinstance(properties, dict) else {}, key)


def name_of_feature(path: str, number: int, key: str) -> str:
    """What messages call a feature, with what they say of its id."""
    return f"{path}: feature {number} (counted from 0{key})"


def listed_features(value: Any, path: str) -> Sequence[Any]:
    """The features of a text as they stand there, of which a Feature or a geometry alone is one."""
    kind = value.get("type") if isinstance(value, dict) else None
    if kind == "Topology":
        raise MapError(f"{path}: expected GeoJSON, got TopoJSON; convert it first")
    if not isinstance(kind, str):
        raise MapError(
            f"{path}: expected a FeatureCollection, a Feature or a geometry, which has a type, got {shown(value)}"
        )
    features = (
        value.get("features") if kind == "FeatureCollection" else [value if kind == "Feature" else {"geometry": value}]
    )
    if not isinstance(features, list):
        raise MapError(f"{path}[features]: expected an array, got {shown(features)}")
    return features


def rings_of(geometry: Any, where: str, skipped: Skipped) -> Iterator[Places]:
    """The rings of a geometry. Raises MapError if it is none."""
    if geometry is None:
        return
    kind = geometry.get("type") if isinstance(geometry, dict) else None
    if kind == "GeometryCollection":
        for number, each in enumerate(array_of(geometry.get("geometries"), where)):
            yield from rings_of(each, f"{where}, geometry {number}", skipped)
        return
    if kind in WITHOUT_AREA:
        skipped.add(kind)
        return
    if kind not in ("Polygon", "MultiPolygon"):
        raise MapError(f"{where}: expected a geometry, as Polygon or MultiPolygon, got {shown(kind)}")
    coordinates = array_of(geometry.get("coordinates"), where)
    for polygon, rings in enumerate([coordinates] if kind == "Polygon" else coordinates):
        for ring, places in enumerate(array_of(rings, where)):
            yield ring_of(places, f"{where}, polygon {polygon}, ring {ring}", LEVELS[kind])


def array_of(value: Any, where: str) -> Sequence[Any]:
    if not isinstance(value, list):
        raise MapError(f"{where}: expected an array, got {shown(value)}")
    return value


def ring_of(ring: Any, where: str, levels: str) -> Places:
    """The positions of a ring, without their heights, which some may have and others not. The last one may be the first
    one again. `levels` says what the geometry has, for who has lost a bracket."""
    found = numbers_of(ring)
    if found is None:
        depth = depth_of(ring)
        level = "one level of brackets is missing" if depth < OF_RING else "there is one level of brackets too many"
        odd = odd_in(ring) if depth == OF_RING else ring
        raise MapError(
            f"{where}: expected positions of a longitude and a latitude, got {shown(odd)}"
            + f"; {levels}: {level}" * (depth != OF_RING)
        )
    if not has_different(ring, FEWEST):
        raise MapError(f"{where}: expected {FEWEST} different positions or more, got {shown(ring)}")
    return found.reshape(-1, 2)


def numbers_of(ring: Any) -> Optional[Places]:
    """The first two numbers of each position of a ring, or `None` if it has something else."""
    if type(ring) is not list or not set(map(type, ring)) <= {list}:
        return None
    places = [place[:2] for place in ring]
    # true and false are numbers to Python, and numpy would take a text for one.
    if not set(map(len, places)) <= {2} or not set(map(type, chain.from_iterable(places))) <= NUMBERS:
        return None
    try:
        return np.fromiter(chain.from_iterable(places), np.float64, 2 * len(places))
    except OverflowError:
        return None


def odd_in(ring: Sequence[Any]) -> Any:
    """The first of a ring that is no position, or the ring if all are."""
    return next((place for place in ring if numbers_of([place]) is None), ring)


def depth_of(value: Any) -> int:
    """How many brackets stand before the first number."""
    depth = 0
    while isinstance(value, list):
        depth, value = depth + 1, value[0] if value else None
    return depth


def has_different(ring: Sequence[Any], count: int) -> bool:
    """Whether a ring has as many different positions. Most rings show it by their first ones."""
    found: set[tuple[float, float]] = set()
    for longitude, latitude, *_ in ring:
        found.add((longitude, latitude))
        if len(found) == count:
            return True
    return False


# ---- Places


def check_places(places: Places, ends: NDArray[Any], features: Sequence[Feature], style: Style, path: str) -> None:
    """Raises MapError at NaN and infinities, and at a position that is no longitude and latitude, or too far away in a
    plane. `ends` has of each feature the index behind its last position."""
    is_plane = style.projection == PLANE
    odd, wrong = ~np.isfinite(places).all(1), ~(np.abs(places) <= (FAR if is_plane else FARTHEST)).all(1)
    if not wrong.any():
        return
    first = int((odd if odd.any() else wrong).argmax())
    number = int(np.searchsorted(ends, first, "right"))
    where, place = name_of_feature(path, number, features[number].key), places[first].tolist()
    if odd.any():
        raise MapError(f"{where}: expected positions of finite numbers, got {place}")
    wanted = f"x and y of {-FAR:g} to {FAR:g}" if is_plane else "a longitude of -360 to 360 and a latitude of -90 to 90"
    raise MapError(f"{where}: expected {wanted}, got {place}; {reach_of(places, style)}: {hint(places, style)}")


def hint(places: Places, style: Style) -> str:
    """What may be wrong with positions of which none is seen, or one is out of range."""
    if style.projection == PLANE:
        return "the window has the units of the file"
    turned = places[:, ::-1]
    west, south, east, north = style.window
    is_met = (turned.max(0) > (west, south)).all() and (turned.min(0) < (east, north)).all()
    if is_met and (np.abs(turned) <= FARTHEST).all():
        return "GeoJSON has the longitude first, and then the latitude"
    return f'are these degrees? For others, as metres of a national grid, the style has "projection": "{PLANE}"'


def reach_of(places: Places, style: Style) -> str:
    (west, south), (east, north) = places.min(0), places.max(0)
    across, down = ("x is", "y") if style.projection == PLANE else ("longitudes are", "latitudes")
    return f"its {across} {west:.10g} to {east:.10g}, and its {down} {south:.10g} to {north:.10g}"


def seen(places: Places, ring_ends: NDArray[Any], polygon_ends: NDArray[Any], sheet: Sheet) -> NDArray[np.bool_]:
    """Of each polygon whether the bounds of one of its rings meet the sheet. No ring is empty."""
    begins = with_zero(ring_ends)[:-1]
    low, high = np.minimum.reduceat(places, begins), np.maximum.reduceat(places, begins)
    meets = ((low < (sheet.width, sheet.height)) & (high > 0)).all(1)
    is_seen: NDArray[np.bool_] = np.diff(with_zero(np.cumsum(meets))[with_zero(polygon_ends)]) > 0
    return is_seen
