"""Posters: pictures of up to 32,768 pixels a side, drawn by windows on one machine or on a cluster.

    python3 -m trirast.poster LIST -o OUT
    python3 -m trirast.poster map.geojson -o map.png --style style.json

    from trirast import poster
    scene = poster.scene_of_arrays(
        vertices, triangles, {"width": 30000, "height": 20000, "draws": [{"triangles": len(triangles)}]}
    )
    poster.draw_poster(scene, "wall.png")

docs/posters.md is the reference, and docs/maps.md that of maps. It needs numpy, for clusters Dask, and for a
bar of progress tqdm.
"""

import importlib
from typing import TYPE_CHECKING, Any, List

if TYPE_CHECKING:
    from ._public import *
else:
    # At the first use of a name, so that the command is there before numpy is, and Ctrl-C ends it well.
    def __getattr__(name: str) -> Any:
        if name == "__all__" or not name.startswith("_"):
            public = importlib.import_module(f"{__name__}._public")
            if hasattr(public, name):
                return getattr(public, name)
        raise AttributeError(f"module {__name__!r} has no attribute {name!r}")

    def __dir__() -> List[str]:
        return sorted({*globals(), *importlib.import_module(f"{__name__}._public").__all__})
