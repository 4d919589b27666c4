"""Where a map lies: tags of GeoTIFF, and world files with their .prj."""

from __future__ import annotations

import math
import os
from typing import Any, NamedTuple, Optional

from ._errors import EngineMissingError
from ._map_style import PLANE, Style

# The radius of the globe of Web Mercator, in metres.
RADIUS = 6378137.0
DEGREES, METRES = 4326, 3857
# Tags of GeoTIFF 1.1, and their keys.
PIXEL_SCALE, TIE_POINT, KEYS = 33550, 33922, 34735
MODEL, RASTER, GEOGRAPHIC_TYPE, PROJECTED_TYPE = 1024, 1025, 2048, 3072
PROJECTED, GEOGRAPHIC, USER_DEFINED, PIXEL_IS_AREA = 1, 2, 32767, 1
# The end of a world file, by that of its picture.
WORLD_ENDS = {".png": ".pgw", ".tif": ".tfw", ".tiff": ".tfw"}
WKT = {
    DEGREES: 'GEOGCS["GCS_WGS_1984",DATUM["D_WGS_1984",SPHEROID["WGS_1984",6378137.0,298.257223563]],'
    'PRIMEM["Greenwich",0.0],UNIT["Degree",0.0174532925199433]]',
}


class Georeference(NamedTuple):
    """The upper left corner of a picture, the sides of its pixels, and the number of EPSG of their system, if it is
    known."""

    left: float
    top: float
    across: float
    down: float
    epsg: Optional[int]

    @property
    def world_file(self) -> str:
        """The six lines of a world file, which has the centre of the first pixel."""
        lines = self.across, 0.0, 0.0, -self.down, self.left + self.across / 2, self.top - self.down / 2
        return "".join(f"{line!r}\n" for line in lines)

    @property
    def tags(self) -> list[Any]:
        """The tags of GeoTIFF, as tifffile takes them."""
        of_type = {DEGREES: (GEOGRAPHIC_TYPE, GEOGRAPHIC), None: (None, USER_DEFINED)}
        key, model = of_type.get(self.epsg, (PROJECTED_TYPE, PROJECTED))
        keys = [(MODEL, model), (RASTER, PIXEL_IS_AREA)] + ([] if key is None else [(key, self.epsg)])
        numbers = [1, 1, 0, len(keys), *(number for name, value in keys for number in (name, 0, 1, value))]
        return [
            (PIXEL_SCALE, "d", 3, (self.across, self.down, 0.0), True),
            (TIE_POINT, "d", 6, (0.0, 0.0, 0.0, self.left, self.top, 0.0), True),
            (KEYS, "H", len(numbers), tuple(numbers), True),
        ]


def georeference_of(style: Style, crs: Optional[str]) -> Georeference:
    """Where a map of this style lies. `crs` is the system of a plane, if it has one."""
    west, south, east, north = style.window
    epsg: Optional[int] = DEGREES
    if style.projection == PLANE:
        epsg = int(crs[5:]) if crs is not None and crs.upper().startswith("EPSG:") and crs[5:].isdigit() else None
    elif style.projection == "web mercator":
        west, east = (RADIUS * math.radians(each) for each in (west, east))
        south, north = (RADIUS * math.atanh(math.sin(math.radians(each))) for each in (south, north))
        epsg = METRES
    sheet = style.sheet
    return Georeference(west, north, (east - west) / sheet.width, (north - south) / sheet.height, epsg)


def write_world_file(path: str, place: Georeference) -> None:
    """Writes a world file beside a picture, and a .prj if its system is known. Raises EngineMissingError if the text of
    the system needs pyproj, and it is missing."""
    stem, end = os.path.splitext(path)
    with open(stem + WORLD_ENDS.get(end.lower(), ".wld"), "w", encoding="ascii") as file:
        file.write(place.world_file)
    if place.epsg is not None:
        with open(f"{stem}.prj", "w", encoding="utf-8") as file:
            file.write(wkt_of(place.epsg))


def wkt_of(epsg: int) -> str:
    """The text of a system in the form of ESRI, as a .prj has it."""
    if epsg in WKT:
        return WKT[epsg]
    try:
        from pyproj import CRS
    except ImportError as error:
        wanted = "pyproj for a .prj of it"
        raise EngineMissingError(f"EPSG {epsg}: expected {wanted}, got {error}; install python3-pyproj") from error
    return str(CRS.from_epsg(epsg).to_wkt("WKT1_ESRI"))
