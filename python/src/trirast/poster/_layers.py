"""Maps of several layers: areas, lines and points of files, one above the other, with labels, a legend and a scale
bar."""

from __future__ import annotations

import os
from typing import Any, Iterator, List, Mapping, NamedTuple, Optional, Sequence

import numpy as np

from .._polygons import Polygons
from .._snap import snap
from ._crs import in_degrees, named_crs
from ._errors import EngineMissingError, MapError
from ._georeference import georeference_of
from ._lettering import Label, Legend, marks_of
from ._map_style import FAR, PLANE, Places, Style, color_of, is_number, is_of_data, of_data, shown, style_of
from ._projecting import projected, within_band
from ._scene import NO_TRIANGLES, PosterDraw, Scene, own_polygons, owned
from ._sources import read_map

# The keys of a layer that say how its areas are filled, which are those of a style without layers.
FILL = ("color", "property", "colors", "steps", "opacity")
LAYER = (
    "file", "layer", "crs", "title", "fill", *FILL, "rule", "stroke", "stroke-width", "stroke-opacity", "cap", "join",
    "dash", "radius", "label", "label-size", "label-color",
)
SHEET = (
    "projection", "crs", "window", "width", "samples", "background", "layers", "legend", "scale-bar", "unit",
)
RULES = ("even-odd", "nonzero")
# Sizes of a marker of simplestyle, as radii in pixels.
MARKERS = {"small": 4.0, "medium": 7.0, "large": 10.0}


class Shape(NamedTuple):
    """A feature: a geometry of shapely in pixels of the sheet, and its properties."""

    geometry: Any
    properties: Mapping[str, Any]


class Layer(NamedTuple):
    """A layer as its style has it, how it is filled, and its features."""

    given: Mapping[str, Any]
    style: Style
    shapes: Sequence[Shape]


class Part(NamedTuple):
    """Polygons that are drawn by one rule, in their colours."""

    polygons: Polygons
    rule: str = RULES[0]


def is_layered(given: Any) -> bool:
    return isinstance(given, dict) and "layers" in given


def scene_of_layers(path: str, given: Mapping[str, Any]) -> Scene:
    """The scene of a style with layers. `path` is the file of layers that name none. Raises MapError if a key or a
    file is wrong, and EngineMissingError if shapely or Pillow is needed and missing."""
    check_keys("style", given, SHEET)
    layers = given["layers"]
    if not isinstance(layers, list) or not layers:
        raise MapError(f"style.layers: expected an array of one layer or more, got {shown(layers)}")
    for number, layer in enumerate(layers):
        check_keys(f"style.layers[{number}]", layer, LAYER)
    read = [geometries_of(path, given, layer) for layer in layers]
    sheet_style = sheet_style_of(given, [shape.geometry for shapes in read for shape in shapes])
    whole = [
        Layer(layer, fill_style(given, layer, sheet_style), [placed(shape, sheet_style) for shape in shapes])
        for layer, shapes in zip(layers, read)
    ]
    parts = [part for layer in whole for part in parts_of(layer) if part.polygons.count]
    if not parts:
        raise MapError(f"{path}: layers: expected one that draws something, got none")
    polygons = parts[0].polygons.followed_by(*(part.polygons for part in parts[1:]))
    draws = [PosterDraw(polygons=part.polygons.count, state={"blend": "over", "rule": part.rule}) for part in parts]
    marks = marks_of(sheet_style, labels_of(whole), legend_of(given, whole), given.get("scale-bar"), given.get("unit"))
    drawn = ", ".join(f"{len(layer.shapes)} of {title_of(layer.given)}" for layer in whole)
    return owned(
        Scene(
            sheet_style.sheet, *NO_TRIANGLES, draws, path, copy=False, polygons=own_polygons(polygons),
            summary=f"; features: {drawn}", place=georeference_of(sheet_style, given.get("crs")), marks=marks,
        )
    )


def check_keys(where: str, given: Any, keys: Sequence[str]) -> None:
    if not isinstance(given, dict):
        raise MapError(f"{where}: expected an object, got {shown(given)}")
    for key in given:
        if key not in keys:
            raise MapError(f"{where}: expected some of the keys {', '.join(keys)}, got {shown(key)}")


def sheet_style_of(given: Mapping[str, Any], geometries: Sequence[Any]) -> Style:
    """The style of the whole sheet, whose window may be that of the data."""
    own = {key: given[key] for key in ("projection", "window", "width", "samples", "background") if key in given}
    style = style_of(own)
    if not is_of_data(own):
        return style
    bounds = np.array([each.bounds for each in geometries if each is not None and not each.is_empty]).reshape(-1, 4)
    return of_data(own, np.concatenate((bounds[:, :2], bounds[:, 2:])))


def fill_style(given: Mapping[str, Any], layer: Mapping[str, Any], sheet: Style) -> Style:
    """The style by which a layer is filled."""
    own = {key: layer[key] for key in FILL if key in layer}
    if "fill" in layer and layer["fill"] is not None:
        own["color"] = layer["fill"]
    sizes = {"projection": sheet.projection, "window": list(sheet.window), "width": sheet.sheet.width}
    return style_of({**sizes, **own})


def title_of(layer: Mapping[str, Any]) -> str:
    return str(layer.get("title", layer.get("layer", os.path.basename(str(layer.get("file", "the map"))))))


# ---- Features


def geometries_of(path: str, given: Mapping[str, Any], layer: Mapping[str, Any]) -> List[Shape]:
    """The features of a layer in the units of the sheet."""
    try:
        from shapely.geometry import shape
        from shapely.ops import transform
    except ImportError as error:
        raise EngineMissingError(f"layers: expected shapely, got {error}; install python3-shapely") from error
    file = layer.get("file", path)
    value = read_map(file, layer.get("layer"))
    crs = named_crs(layer.get("crs", given.get("crs", value.get("crs"))), file)
    is_plane = given.get("projection") == PLANE

    def moved(x: Any, y: Any, _z: Any = None) -> Any:
        places = in_degrees(np.stack((np.asarray(x, float), np.asarray(y, float)), 1), crs, file)
        return places[:, 0], places[:, 1]

    found = []
    for number, feature in enumerate(listed(value)):
        try:
            geometry = None if feature.get("geometry") is None else shape(feature["geometry"])
            is_kept = geometry is None or is_plane
            found.append(Shape(geometry if is_kept else transform(moved, geometry), feature.get("properties") or {}))
        except (ValueError, TypeError, KeyError, AttributeError) as error:
            raise MapError(f"{file}: feature {number} (counted from 0): expected a geometry, got {error}") from error
    return found


def listed(value: Any) -> Sequence[Any]:
    if value.get("type") == "FeatureCollection":
        return list(value.get("features", ()))
    return [value if value.get("type") == "Feature" else {"geometry": value}]


def placed(shape: Shape, style: Style) -> Shape:
    """A feature in pixels of the sheet."""
    from shapely.ops import transform

    def moved(x: Any, y: Any, _z: Any = None) -> Any:
        found = projected(np.clip(np.stack((np.asarray(x, float), np.asarray(y, float)), 1), -FAR, FAR), style)
        return found[:, 0], found[:, 1]

    empty = shape.geometry is None or shape.geometry.is_empty
    return shape._replace(geometry=None if empty else transform(moved, shape.geometry))


# ---- What is drawn


def parts_of(layer: Layer) -> Iterator[Part]:
    """The areas of a layer, then its lines and borders, then its points."""
    from ..maps._strokes import AREAS, LINES, POINTS

    given = layer.given
    if given.get("fill", "") is not None:
        yield Part(polygons_of(layer, AREAS, lambda part, _own: part, fill_of(layer)), given.get("rule", RULES[0]))
    strokes = stroke_of(layer)
    if "stroke" in given or any("stroke" in shape.properties for shape in layer.shapes):
        yield Part(polygons_of(layer, AREAS, pen_of(layer), strokes))
    yield Part(polygons_of(layer, LINES, pen_of(layer), strokes))
    yield Part(polygons_of(layer, POINTS, dot_of(layer), fill_of(layer, "marker-color")))


def polygons_of(layer: Layer, kinds: Any, area_of: Any, colors: Any) -> Polygons:
    """The areas of some parts of features, a polygon for each feature that has one, in their colours."""
    from ..maps._arrays import arrays_of
    from ..maps._strokes import parts_of as pieces_of
    from ..maps._strokes import united

    found, rows = [], []
    for shape in layer.shapes:
        areas = [area_of(piece, shape.properties) for piece in pieces_of(shape.geometry, kinds)]
        row = colors(shape.properties) if areas else None
        if row is not None and row[3]:
            found.append(areas[0] if len(areas) == 1 else united(areas))
            rows.append(row)
    places, ring_ends, polygon_ends = arrays_of(found)
    corners, ring_ends = within_band(places, ring_ends, layer.style.sheet) if len(places) else (snap(places), ring_ends)
    return Polygons(corners, ring_ends, polygon_ends, np.array(rows, np.uint8).reshape(-1, 4))


def with_opacity(color: Any, opacity: Any) -> Sequence[int]:
    red, green, blue, *alpha = color
    return red, green, blue, (alpha[0] if alpha else round(255 * opacity))


def fill_of(layer: Layer, marker: str = "fill") -> Any:
    """The colour of a feature's areas or points: its own, or that of the layer."""

    def color(own: Mapping[str, Any]) -> Sequence[int]:
        if isinstance(own.get(marker), str):
            return with_opacity(color_of(marker, own[marker]), opacity_in(own, "fill-opacity", 1.0))
        return layer.style.color_of(own) or layer.style.color

    return color


def stroke_of(layer: Layer) -> Any:
    """The colour of a feature's lines and borders."""
    given = layer.given

    def color(own: Mapping[str, Any]) -> Optional[Sequence[int]]:
        opacity = opacity_in(own, "stroke-opacity", opacity_in(given, "stroke-opacity", 1.0))
        named = own.get("stroke", given.get("stroke"))
        return layer.style.color_of(own) or layer.style.color if named is None else with_opacity(
            color_of("stroke", named), opacity
        )

    return color


def opacity_in(given: Mapping[str, Any], key: str, otherwise: float) -> float:
    value = given.get(key, otherwise)
    if not is_number(value) or not 0 <= value <= 1:
        raise MapError(f"style.{key}: expected 0 to 1, got {shown(value)}")
    return float(value)


def pen_of(layer: Layer) -> Any:
    """What makes the area of a line."""
    from ..maps._strokes import CAPS, JOINS, dashed, stroke_of as area_of

    given = layer.given
    cap, join, dash = given.get("cap", "butt"), given.get("join", "round"), given.get("dash")
    for key, name, known in (("cap", cap, CAPS), ("join", join, JOINS)):
        if name not in known:
            raise MapError(f"style.{key}: expected one of {', '.join(known)}, got {shown(name)}")
    is_dash = isinstance(dash, list) and len(dash) > 1 and all(is_number(each) and each > 0 for each in dash)
    if dash is not None and not is_dash:
        raise MapError(f"style.dash: expected the lengths of dashes and gaps in pixels, got {shown(dash)}")

    def area(piece: Any, own: Mapping[str, Any]) -> Any:
        width = own.get("stroke-width", given.get("stroke-width", 1))
        if not is_number(width) or width < 0:
            raise MapError(f"style.stroke-width: expected pixels, got {shown(width)}")
        return area_of(piece if dash is None else dashed(piece, dash), width, cap, join)

    return area


def dot_of(layer: Layer) -> Any:
    """What makes the disc of a point."""
    from ..maps._strokes import stroke_of as area_of

    def area(piece: Any, own: Mapping[str, Any]) -> Any:
        radius = MARKERS.get(own.get("marker-size", ""), layer.given.get("radius", 3))
        if not is_number(radius) or radius < 0:
            raise MapError(f"style.radius: expected pixels, got {shown(radius)}")
        return area_of(piece, 2 * radius, "round", "round")

    return area


# ---- What is written


def labels_of(layers: Sequence[Layer]) -> Iterator[Label]:
    """The labels of all layers, those of the uppermost one first."""
    for layer in reversed(layers):
        name, size = layer.given.get("label"), layer.given.get("label-size", 14)
        if name is None:
            continue
        color = tuple(color_of("label-color", layer.given.get("label-color", "black"))[:3])
        for shape in layer.shapes:
            text = shape.properties.get(name)
            if text is not None and shape.geometry is not None:
                place = shape.geometry.representative_point()
                radius = layer.given.get("radius", 3) if shape.geometry.geom_type == "Point" else None
                yield Label(str(text), place.x, place.y, size, color, radius)


def legend_of(given: Mapping[str, Any], layers: Sequence[Layer]) -> Optional[Legend]:
    """The rows of a legend, if the style has one: a colour and a text for each class of each layer."""
    corner = given.get("legend")
    if corner is None:
        return None
    rows = []
    for layer in layers:
        style = layer.style
        if style.steps is not None:
            rows += [(color, f"{title_of(layer.given)} from {least:,}") for least, color in style.steps]
        elif style.colors:
            rows += [(color, name) for name, color in style.colors.items()]
        else:
            color = layer.given.get("stroke") if layer.given.get("fill", "") is None else None
            rows.append((style.color if color is None else color_of("stroke", color), title_of(layer.given)))
    return Legend(corner, rows)
