"""What this backend relies on of matplotlib's inside, and nothing else does in this package. Tried with
matplotlib 3.6.3 and 3.10.1.

Names that matplotlib does not document:

- `RendererAgg._renderer`, Agg's own renderer, by which all of Agg's calls go and whose memory is the picture;
  `RendererAgg._update_methods`, which puts Agg's calls into the instance, where they hide those of a subclass.
- `GraphicsContextBase._forced_alpha`: whether the context's alpha takes the place of a face's own.
- `Path._vertices` and `Path._codes`, the members behind the properties, which cost more than what is done with them.
- `Path.cleaned` and its parameters: a path as Agg fills it, with y downwards if the transform has it so.
- `QuadMesh._convert_mesh_to_triangles`, by which a Gouraud mesh makes its triangles, and the name `renderer` of what is
  given to the function that calls it.
- `FigureCanvasBase._switch_canvas_and_return_print_method`, within which a file of another backend is written, and the
  name `RendererAgg` in `matplotlib.backends.backend_mixed`, by which PDF and SVG rasterize.

What Agg does without saying so, and is done here in the same way:

- A face of one path is snapped to whole pixels if it has at most MAX_SNAPPED vertices and no curve, and each line is
  level or upright to within STRAIGHT pixels; the line that closes a ring is not looked at. It is snapped to the centres
  of pixels if its edge is an odd number of pixels wide.
- Transforms are multiplied in the order of `_transforms`, so that positions at half pixels are the same numbers.
- A path with a face is neither clipped nor simplified, so that its dashes begin at its first corner: an edge alone is
  drawn with the face HIDDEN.
- A collection of one item comes as a marker at the origin, half a pixel lower and further right if it is not snapped.
- An antialiased mesh without edges gets edges one point wide in the colours of its faces.
- A clip rectangle is rounded to whole pixels, and colours to bytes by 255 v + 0.5.
"""

from __future__ import annotations

import inspect
from contextlib import contextmanager
from itertools import repeat
from operator import attrgetter, is_
from typing import Any, Callable, Iterator, List, Optional, Sequence, Tuple

import matplotlib.backends.backend_mixed as backend_mixed
import numpy as np
from matplotlib.collections import QuadMesh

MAX_SNAPPED = 1024
STRAIGHT = 1e-4
# A mitre reaches at most this number of half widths of its edge.
MITRE_LIMIT = 4
# A face of this colour is not seen, and Agg treats the edge as that of a path with a face.
HIDDEN = (0.0, 0.0, 0.0, 1e-9)
FLOAT, CODE = np.dtype(np.float64), np.dtype(np.uint8)


def all_vertices(paths: Sequence[Any]) -> List[Any]:
    """The vertices of each path."""
    return list(map(attrgetter("_vertices"), paths))


def all_codes(paths: Sequence[Any]) -> List[Any]:
    """The codes of each path, or None."""
    return list(map(attrgetter("_codes"), paths))


def are_one(values: Sequence[Any]) -> bool:
    """Whether all are the same object, as the codes of paths that were made at once."""
    return all(map(is_, values, repeat(values[0])))


def stacked(vertices: Sequence[Any]) -> Any:
    """The vertices of paths behind each other, in an array that may be only read."""
    joined = joined_bytes(vertices, FLOAT)
    return np.concatenate(vertices) if joined is None else np.frombuffer(joined).reshape(-1, 2)


def stacked_codes(codes: Sequence[Any]) -> Any:
    """The codes of paths behind each other, in an array that may be only read; None if a path has none."""
    joined = joined_bytes(codes, CODE)
    if joined is not None:
        return np.frombuffer(joined, CODE)
    return None if any(each is None for each in codes) else np.concatenate(codes).astype(CODE, copy=False)


def joined_bytes(arrays: Sequence[Any], kind: Any) -> Optional[bytes]:
    """The bytes of arrays behind each other; None if one is of another type, or has gaps. There are often many short
    ones: joined so they take less than half of the time that numpy takes."""
    try:
        if list(map(attrgetter("dtype"), arrays)).count(kind) == len(arrays):
            return b"".join(arrays)
    except (AttributeError, TypeError):
        pass  # One is no array, or has gaps.
    return None


def face_alpha(gc: Any, color: Any) -> float:
    """The alpha of a face: the context's if that is forced, or if the colour has none."""
    alpha: float = gc.get_alpha() if gc._forced_alpha or len(color) == 3 else color[3]
    return alpha


@contextmanager
def faces_have_their_alpha(gc: Any) -> Iterator[None]:
    """A context whose alpha is not forced on faces meanwhile, so that a hidden one stays hidden."""
    forced, gc._forced_alpha = gc._forced_alpha, False
    try:
        yield
    finally:
        gc._forced_alpha = forced


def take_grids(renderer_class: Any, mesh_of: Callable[[Any, Any], Any]) -> None:
    """Has Gouraud meshes that such a renderer draws give what is made of their grid and its colours in
    place of triangles."""
    triangles_of: Any = getattr(QuadMesh, "_convert_mesh_to_triangles", None)

    def converted(mesh: Any, coordinates: Any) -> Any:
        frame: Any = inspect.currentframe()
        is_ours = isinstance(frame.f_back.f_locals.get("renderer"), renderer_class)
        # What is masked later versions leave out.
        if not is_ours or min(coordinates.shape[:2]) < 2 or any(map(np.ma.is_masked, (coordinates, mesh.get_array()))):
            return triangles_of(mesh, coordinates)
        return mesh_of(np.asarray(coordinates), mesh.get_facecolor().reshape(*coordinates.shape[:2], 4)), None

    if triangles_of is not None:
        QuadMesh._convert_mesh_to_triangles = converted


def cleaned(path: Any, matrix: Any, snap: Optional[bool], stroke: float, sketch: Any = None) -> Tuple[Any, Any]:
    """The vertices and codes of a path as Agg fills it: without numbers that are none, snapped,
    flattened and sketched."""
    found = path.cleaned(
        transform=matrix, remove_nans=True, clip=None, simplify=False, curves=False, stroke_width=stroke, snap=snap,
        sketch=sketch,
    )
    # The last code is STOP.
    return found.vertices[:-1], found.codes[:-1]


@contextmanager
def rasterized_by(renderer_class: Any) -> Iterator[None]:
    """PDF and SVG draw what they rasterize by this class meanwhile."""
    kept = backend_mixed.RendererAgg
    backend_mixed.RendererAgg = renderer_class
    try:
        yield
    finally:
        backend_mixed.RendererAgg = kept
