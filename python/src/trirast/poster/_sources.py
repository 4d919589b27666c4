"""The file of a map as GeoJSON: a text, features one a line, either of them deflated, or what fiona or geopandas
reads."""

from __future__ import annotations

import gzip
import json
import os
import zlib
from typing import Any, Optional

from ._errors import EngineMissingError, MapError
from ._map_style import shown

# How names end, in small or capital letters: of texts that are read here, with GZIP behind them or without it; and of
# files with one feature a line.
GEOJSON, JSON, GZIP = ".geojson", ".json", ".gz"
LINES = (".geojsonl", ".geojsons", ".ndjson", ".jsonl")
TEXTS = (GEOJSON, JSON, *LINES)
# Files of other formats that are known by their names.
BY_FIONA = (".gpkg", ".shp", ".fgb", ".gml", ".kml", ".gdb")
# What may stand before each text of a sequence (RFC 8142).
RECORD = "\x1e"


def is_map(path: str) -> bool:
    """Whether a name ends as that of a map, but for .json, which may be a draw list's."""
    name = without_gzip(path)
    return name.endswith((GEOJSON, *LINES, *BY_FIONA)) or name != path.lower() and name.endswith(JSON)


def without_gzip(path: str) -> str:
    """A name in small letters, without its last end if that is of a deflated file."""
    name = path.lower()
    return name[: -len(GZIP)] if name.endswith(GZIP) else name


def read_map(path: str, layer: Optional[str] = None) -> Any:
    """The GeoJSON of a file, or of a layer of it, with the member `crs` if its positions may be no longitudes and
    latitudes. Raises MapError if it cannot be read, and EngineMissingError without a library that it needs."""
    if not without_gzip(path).endswith(TEXTS):
        return read_by_library(path, layer)
    if layer is not None:
        raise MapError(f"{path}: layer: expected none, as a text has no layers, got {shown(layer)}")
    text = text_of(path)
    return features_by_line(text, path) if without_gzip(path).endswith(LINES) else value_of(text, path)


def text_of(path: str) -> str:
    try:
        with open(path, "rb") as file:
            data = file.read()
        return (gzip.decompress(data) if path.lower().endswith(GZIP) else data).decode("utf-8-sig")
    except (EOFError, zlib.error, gzip.BadGzipFile, UnicodeDecodeError) as error:
        raise MapError(f"{path}: expected text in UTF-8, got {error}") from error


def value_of(text: str, path: str) -> Any:
    """The value of a text: its one, or the features that it has line by line."""
    try:
        return json.loads(text, object_hook=interruptible)
    except (ValueError, RecursionError) as error:
        if str(error).startswith("Extra data"):
            return features_by_line(text, path)
        raise MapError(f"{path}: expected JSON, got {error}") from error


def features_by_line(text: str, path: str) -> Any:
    """The features of a text that has one in each line."""
    features = []
    for number, line in enumerate(text.split("\n"), 1):
        line = line.strip().lstrip(RECORD)
        if not line:
            continue
        try:
            features.append(json.loads(line, object_hook=interruptible))
        except (ValueError, RecursionError) as error:
            raise MapError(f"{path}: line {number}: expected a feature as JSON, got {error}") from error
    return {"type": "FeatureCollection", "features": features}


def interruptible(found: Any) -> Any:
    """An object of JSON as it is. While Python calls this, it notices an interrupt."""
    return found


# ---- Libraries


def read_by_library(path: str, layer: Optional[str]) -> Any:
    """The features of a file that fiona reads, or geopandas."""
    if not os.path.exists(path):
        raise FileNotFoundError(2, os.strerror(2), path)
    try:
        import fiona
    except ImportError:
        return read_by_geopandas(path, layer)
    try:
        with fiona.open(path, layer=layer) as file:
            features = [feature_of(each.__geo_interface__) for each in file]
            crs = file.crs_wkt
    # A layer that is not there is a ValueError.
    except (fiona.errors.FionaError, ValueError) as error:
        raise MapError(f"{path}: {error}{layers_of(fiona, path)}") from error
    return {"type": "FeatureCollection", "features": features, **({"crs": crs} if crs else {})}


def layers_of(fiona: Any, path: str) -> str:
    """What a message says of the layers of a file."""
    try:
        return f"; its layers are {', '.join(fiona.listlayers(path))}"
    except fiona.errors.FionaError:
        return ""


def read_by_geopandas(path: str, layer: Optional[str]) -> Any:
    try:
        import geopandas
    except ImportError as error:
        raise EngineMissingError(
            f"{path}: format: expected fiona or geopandas, got {error}; install python3-fiona, or convert the file: "
            f"ogr2ogr -f GeoJSON map.geojson {os.path.basename(path)}"
        ) from error
    return of_frame(geopandas.read_file(path, **({} if layer is None else {"layer": layer})))


def of_frame(frame: Any) -> Any:
    """The features of a GeoSeries or a GeoDataFrame, whose missing values are null."""
    features = [feature_of(each) for each in frame.__geo_interface__["features"]]
    crs = getattr(frame, "crs", None)
    return {"type": "FeatureCollection", "features": features, **({} if crs is None else {"crs": crs})}


def feature_of(feature: Any) -> Any:
    """A feature whose positions are lists, as in a text."""
    geometry = feature.get("geometry")
    return {**feature, "geometry": None if geometry is None else geometry_of(geometry)}


def geometry_of(geometry: Any) -> Any:
    if geometry["type"] == "GeometryCollection":
        return {"type": geometry["type"], "geometries": [geometry_of(each) for each in geometry["geometries"]]}
    return {"type": geometry["type"], "coordinates": lists_of(geometry["coordinates"])}


def lists_of(values: Any) -> Any:
    return [lists_of(each) for each in values] if isinstance(values, (tuple, list)) else values
