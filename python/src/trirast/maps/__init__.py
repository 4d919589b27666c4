"""Maps from geometries of shapely and frames of geopandas, drawn by a canvas without seams.

    from trirast import maps
    maps.draw(frame, column="people", cmap="viridis", stroke="white").save("map.png")

`draw` makes a picture of areas, lines and points, in the units of the frame. `arrays_of` makes the arrays of polygons
that canvases and posters draw. It needs numpy, shapely for strokes, and matplotlib for colour maps.
"""

from ._arrays import arrays_of, placed
from ._draw import draw

__all__ = ["arrays_of", "draw", "placed"]
