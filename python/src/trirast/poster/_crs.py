"""Positions of a coordinate reference system as longitudes and latitudes, by pyproj."""

from __future__ import annotations

from typing import Any, Optional

import numpy as np

from ._errors import EngineMissingError, MapError
from ._map_style import Places, shown

# Names that need no pyproj: they have longitudes and latitudes.
DEGREES = ("OGC:CRS84", "EPSG:4326")
LONGITUDES = DEGREES[0]


def named_crs(member: Any, path: str) -> Any:
    """The system of a member `crs` of GeoJSON, in the form that it had before RFC 7946, or as a text; or an object of
    pyproj. None for longitudes and latitudes."""
    if isinstance(member, dict):
        properties = member.get("properties")
        member = properties.get("name") if isinstance(properties, dict) else member
        if not isinstance(member, str):
            raise MapError(f"{path}: crs: expected an object with the properties' name, got {shown(member)}")
    if isinstance(member, str):
        # urn:ogc:def:crs:EPSG::3857 is EPSG:3857.
        words = member.split(":")
        is_urn = member.lower().startswith("urn:ogc:def:crs:") and len(words) > 6
        short = f"{words[-3]}:{words[-1]}" if is_urn else member
        return None if short.upper() in DEGREES else short
    return member


def in_degrees(places: Places, crs: Any, path: str) -> Places:
    """Positions of a system as longitudes and latitudes. What has none becomes infinite."""
    if crs is None:
        return places
    try:
        from pyproj import CRS, Transformer
        from pyproj.exceptions import CRSError
    except ImportError as error:
        raise EngineMissingError(
            f"{path}: crs: expected pyproj, or \"projection\": \"plane\", got {error}; install python3-pyproj"
        ) from error
    try:
        systems = CRS.from_user_input(crs), CRS.from_user_input(LONGITUDES)
        transformer: Any = Transformer.from_crs(*systems, always_xy=True)
    except CRSError as error:
        wanted = "a name that pyproj knows, as EPSG:3857"
        raise MapError(f"{path}: crs: expected {wanted}, got {shown(crs)}: {error}") from error
    return np.stack(transformer.transform(places[:, 0], places[:, 1]), 1)
