"""The renderer: Agg's, with faces and Gouraud triangles of its own."""

from __future__ import annotations

from typing import Any, List, Optional

import numpy as np
from matplotlib.backends.backend_agg import RendererAgg

from .._arguments import flag, integer, thread_count
from .._box import Box
from .._patterns import COUNTS, PATTERNS
from .._polygons import Polygons
from ._cells import Cells
from ._clips import Clips, clip_box
from ._collection import Collection, Shares, rounds_in_order
from ._colors import OPAQUE, Edges, byte_of, color_bytes, edge_alpha, edges_of, face_bytes, is_own_edge
from ._drawing import Pixels, draw_triangles
from ._inside import HIDDEN, face_alpha, faces_have_their_alpha, take_grids
from ._items import Faces, Items, faces_of, quad_faces
from ._mesh import Gouraud, Mesh, mesh_of
from ._overlaps import is_order_hidden
from ._paths import has_curve, is_odd, is_snapped, is_snapped_rectangle, path_polygon
from ._report import (
    AGG, BOTH, DOTS, EDGES, MOVED_MESH, NO_SIDES, NOT_SMOOTH, NOTHING_ELSE, OVERLAPPING, SKETCHED, TOO_LARGE, TRIRAST,
    WHOLE_PIXELS, Log, Reason,
)
from ._rounds import have_common_sides, reach_of, rounds_of
from ._samples import Samples
from ._transforms import cycled, placed, unmasked
from ._triangles import Points, Triangles

# Its functions have no types.
ma: Any = np.ma


class RendererTrirast(RendererAgg):
    """Agg's renderer, which draws faces and Gouraud triangles by samples. Settings are attributes of the class, which
    hold for all figures, from their next draw on:

    samples -- of a pixel: 16, the default, or another of trirast.Canvas.SAMPLE_COUNTS. Fewer take less time and memory,
    and edges have fewer steps. smooth -- True, the default: faces of collections and meshes are drawn so too if their
    antialiasing is off, as it is in
        `contourf`, `pcolormesh`, `pcolor` and `tripcolor` by default. False: these are Agg's, byte for byte.
    threads -- 1, the default, or more: they share the drawing, and change no pixel.

    When a face is drawn, another value raises ValueError, and one of another type TypeError."""

    samples = 16
    threads = 1
    smooth = True

    _samples: Optional[Samples] = None

    # ---- Agg, and when what waits is drawn

    def __init__(self, width: float, height: float, dpi: float) -> None:
        self._kept: List[Optional[Samples]] = []
        self.log = Log()
        super().__init__(width, height, dpi)
        self._clips = Clips(int(height))

    @property
    def _renderer(self) -> Any:
        """Agg's own renderer, whose picture has all that was drawn so far."""
        if self._samples is not None:
            self._samples.flush()
        return self._agg

    @_renderer.setter
    def _renderer(self, agg: Any) -> None:
        self._agg, self._samples = agg, None

    def _update_methods(self) -> None:
        """Agg puts its calls into the instance here. Those of this class go by the property."""

    def open_group(self, s: str, gid: Optional[str] = None) -> None:
        self.log.open(s)

    def close_group(self, s: str) -> None:
        self.log.close()
        self._flush_at_end()
        if not self.log.depth:
            self.log.warn()

    def _flush_at_end(self) -> None:
        """What waits is drawn at the end of the outermost artist: who has the picture's memory sees it then."""
        if not self.log.depth and self._samples is not None:
            self._samples.flush()

    def clear(self) -> None:
        self.log.clear()
        if self._samples is not None:
            self._samples.forget()
        super().clear()

    def start_filter(self) -> None:
        kept = self._samples
        super().start_filter()
        self._kept.append(kept)

    def stop_filter(self, post_processing: Any) -> None:
        super().stop_filter(post_processing)
        self._samples = self._kept.pop()

    def restore_region(self, region: Any, bbox: Any = None, xy: Any = None) -> None:
        super().restore_region(region, bbox, xy)
        if self._samples is not None:
            self._samples.doubt_opacity()

    def copy_from_bbox(self, bbox: Any) -> Any:
        return self._renderer.copy_from_bbox(bbox)

    def draw_image(self, *given: Any, **named: Any) -> None:
        self._renderer.draw_image(*given, **named)

    # ---- One path

    def draw_path(self, gc: Any, path: Any, transform: Any, rgbFace: Any = None) -> None:
        alpha = byte_of(face_alpha(gc, rgbFace)) if rgbFace is not None else 0
        reason = self._why_agg_draws(gc, path, transform, alpha) if alpha else NOTHING_ELSE
        if reason is not None:
            if alpha:
                self.log.add(AGG, reason)
            super().draw_path(gc, path, transform, rgbFace)
            return
        self.log.add(TRIRAST)
        has_edge = edge_alpha(gc) != 0
        stroke = self.points_to_pixels(gc.get_linewidth()) if has_edge else 0.0
        matrix, snap = transform.get_matrix(), gc.get_snap()
        self._draw(
            gc, path_polygon(path, matrix, int(self.height), snap, stroke, gc.get_sketch_params()),
            [face_bytes(gc, rgbFace)],
        )
        if (has_edge and stroke) or gc.get_hatch() is not None:
            with faces_have_their_alpha(gc):
                super().draw_path(gc, path, transform, HIDDEN)

    def _why_agg_draws(self, gc: Any, path: Any, transform: Any, alpha: int) -> Optional[Reason]:
        """Why a path with a face of this alpha is Agg's, or None if its face is not."""
        if not gc.get_antialiased():
            return NOT_SMOOTH
        if self._is_whole(gc, path, transform, alpha):
            return WHOLE_PIXELS
        return None if self._all_samples().can_draw else TOO_LARGE

    def _is_whole(self, gc: Any, path: Any, transform: Any, alpha: int) -> bool:
        """Whether a path with a face of this alpha is a rectangle of which Agg makes what is made here: of whole
        pixels, or with an opaque edge that hides those it shares."""
        if not is_snapped_rectangle(path, transform.get_matrix(), gc.get_snap(), gc.get_sketch_params()):
            return False
        of_edge = edge_alpha(gc)
        stroke = self.points_to_pixels(gc.get_linewidth()) if of_edge else 0.0
        if is_odd(stroke) and (stroke < 1 or of_edge < 1):
            return False
        return self._leaves_samples(gc, alpha == OPAQUE)

    def draw_markers(
        self, gc: Any, marker_path: Any, marker_trans: Any, path: Any, trans: Any, rgbFace: Any = None
    ) -> None:
        """Draws the face of a marker at the figure's origin: a collection of one item without an offset comes so. Other
        markers stay Agg's: it puts them on whole pixels, so they have no side in common."""
        smooth = (
            rgbFace is not None and len(marker_path.vertices) > 2 and is_origin(path, trans)
            and self._is_smooth(gc.get_antialiased())
        )
        color = face_bytes(gc, rgbFace) if smooth else (0, 0, 0, 0)
        if color[3] and self._all_samples().can_draw:
            matrix = np.array(marker_trans.get_matrix())
            snapped = is_snapped(marker_path, matrix, gc.get_snap())
            if not snapped:
                # Agg puts the origin of such a path at the centre of a pixel.
                matrix[:2, 2] += (0.5, -0.5)
            stroke = 0.0 if is_own_edge(gc, color) else self.points_to_pixels(gc.get_linewidth())
            self._draw(gc, path_polygon(marker_path, matrix, int(self.height), snapped, stroke), [color])
            self.log.add(TRIRAST)
            if not stroke:
                return
            rgbFace = None
        self._renderer.draw_markers(gc, marker_path, marker_trans, path, trans, rgbFace)

    # ---- Collections

    def draw_path_collection(
        self, gc: Any, master_transform: Any, paths: Any, all_transforms: Any, offsets: Any, offset_trans: Any,
        facecolors: Any, edgecolors: Any, linewidths: Any, linestyles: Any, antialiaseds: Any, urls: Any,
        offset_position: Any, **more: Any,
    ) -> None:
        whole = Collection(
            master_transform, paths, all_transforms, offsets, offset_trans, facecolors, edgecolors, linewidths,
            linestyles, antialiaseds, urls, offset_position, more,
        )
        if not self._draw_collection(gc, whole):
            whole.by_agg(self._renderer, gc)

    def _draw_collection(self, gc: Any, whole: Collection) -> bool:
        """Draws a collection, or returns False if all of it is Agg's."""
        if not (len(whole.paths) and len(whole.faces) and len(whole.antialiased)):
            return False
        colors = cycled(color_bytes(whole.faces), whole.item_count)
        if not colors[:, 3].any():
            return False
        edges = edges_of(whole.edges, whole.widths, whole.item_count)
        reason = self._why_agg_draws_all(gc, whole, colors, edges)
        if reason is not None:
            self.log.add(AGG, reason)
            return False
        own = edges.are_own(colors)
        if own.any() and gc.get_hatch() is None and (not whole.is_moved or self._have_common_sides(gc, whole, edges)):
            whole = whole.without_edges(own)
            edges = edges_of(whole.edges, whole.widths, whole.item_count)
        return self._draw_items(gc, whole, colors, edges)

    def _why_agg_draws_all(self, gc: Any, whole: Collection, colors: Any, edges: Edges) -> Optional[Reason]:
        """Why all of a collection with faces is Agg's, or None if it may be drawn here."""
        if gc.get_sketch_params() is not None:
            return SKETCHED
        if not (self._are_smooth(whole) & (colors[:, 3] > 0)).any():
            return NOT_SMOOTH
        if edges.seen.any() and gc.get_hatch() is None and all(map(has_curve, whole.paths)):
            return DOTS
        return None if self._all_samples().can_draw else TOO_LARGE

    def _are_smooth(self, whole: Collection) -> Any:
        return cycled(self._is_smooth(np.asarray(whole.antialiased, bool)), whole.item_count)

    def _have_common_sides(self, gc: Any, whole: Collection, edges: Edges) -> bool:
        widths = self.points_to_pixels(edges.widths)
        return have_common_sides(self._faces(gc, whole, widths, True, bool(edges.seen.any())).polygons)

    def _draw_items(self, gc: Any, whole: Collection, colors: Any, edges: Edges) -> bool:
        """Draws the items of a collection, or returns False if all of it is Agg's."""
        ours = self._are_smooth(whole) & (colors[:, 3] > 0)
        by_agg = edges.seen | (gc.get_hatch() is not None) | (~ours & (colors[:, 3] > 0))
        has_edges = bool(edges.seen.any())
        faces = self._faces(gc, whole, self.points_to_pixels(edges.widths), not by_agg.any(), has_edges)
        if not has_edges and faces.whole.all() and self._leaves_samples(gc, bool((colors[ours, 3] == OPAQUE).all())):
            self.log.add(AGG, WHOLE_PIXELS)
            return False
        if not by_agg.any():
            self.log.add(TRIRAST)
            self._draw(gc, faces.polygons, colors)
            return True
        polygons = faces.polygons.colored(np.asarray(colors, np.uint8))
        if gc.get_hatch() is None and not have_common_sides(polygons):
            self.log.add(AGG, NO_SIDES)
            return False
        return self._draw_with_edges(gc, whole, polygons, edges, Shares(ours, by_agg))

    def _faces(self, gc: Any, whole: Collection, widths: Any, alone: bool, has_edges: bool) -> Faces:
        count, height = whole.item_count, int(self.height)
        transforms = placed(
            whole.master_transform, whole.transforms, whole.offsets, whole.offset_transform, count, height
        )
        paths = np.arange(count)
        items = Items(whole.paths, paths if count == len(whole.paths) else paths % len(whole.paths), transforms, widths)
        # What lies outside of the picture may have an edge that is seen.
        margin = float(reach_of(widths).max()) if has_edges else 1.0
        return faces_of(items, gc.get_snap(), alone, (int(self.width), height), margin)

    def _draw_with_edges(self, gc: Any, whole: Collection, polygons: Polygons, edges: Edges, shares: Shares) -> bool:
        """Draws faces and what Agg draws over them: all faces before all edges where this cannot be seen, else in
        rounds. With too many of these opaque faces are drawn below Agg's, where they show between them. Hatched faces
        may have their neighbours in other collections, as contour levels do."""
        ours, by_agg = shares
        if is_order_hidden(polygons, edges, self._clip_box(gc)):
            self._add_some(gc, polygons, ours)
            whole.without_faces(ours).by_agg(self._renderer, gc)
            self.log.add(TRIRAST, EDGES)
            return True
        widths = self.points_to_pixels(edges.widths)
        rounds = rounds_of(polygons, ours, by_agg, widths, int(self.width), int(self.height))
        if rounds is None:
            is_opaque = bool((polygons.colors[ours, 3] == OPAQUE).all())
            if is_opaque:
                self._add_some(gc, polygons, ours)
            self.log.add(BOTH if is_opaque else AGG, OVERLAPPING)
            return False
        for part in rounds_in_order(whole, polygons, ours, by_agg, rounds):
            self._add(gc, part.polygons)
            if part.by_agg is not None:
                part.by_agg.by_agg(self._renderer, gc)
        self.log.add(TRIRAST, EDGES)
        return True

    def _add_some(self, gc: Any, polygons: Polygons, which: Any) -> None:
        """Draws those polygons that are set."""
        self._add(gc, polygons if which.all() else polygons.take(np.flatnonzero(which)))

    # ---- Meshes

    def draw_quad_mesh(
        self, gc: Any, master_transform: Any, meshWidth: int, meshHeight: int, coordinates: Any, offsets: Any,
        offsetTrans: Any, facecolors: Any, antialiased: Any, edgecolors: Any,
    ) -> None:
        whole = Cells(
            master_transform, meshWidth, meshHeight, coordinates, offsets, offsetTrans, facecolors, antialiased,
            edgecolors,
        )
        if not self._draw_cells(gc, whole):
            whole.by_agg(self._renderer, gc)

    def _draw_cells(self, gc: Any, whole: Cells) -> bool:
        """Draws the cells of a mesh, or returns False if all of it is Agg's."""
        reason = self._why_agg_draws_cells(gc, whole)
        if reason is not None:
            self.log.add(AGG, reason)
            return False
        colors = cycled(color_bytes(whole.faces), whole.cell_count)
        edges = edges_of(whole.edges, [gc.get_linewidth()], whole.cell_count)
        if edges.are_own(colors).all():
            edges = edges_of((), (), whole.cell_count)
        stroke = self.points_to_pixels(float(edges.widths.max(initial=0)))
        transform = placed(whole.master_transform, (), whole.offsets, whole.offset_transform, 1, int(self.height))[0]
        faces = quad_faces(unmasked(whole.coordinates), transform, gc.get_snap(), stroke)
        if edges.seen.any():
            return self._draw_edged_cells(gc, whole, faces.polygons.colored(colors), edges)
        if faces.whole.all() and self._leaves_samples(gc, bool((colors[:, 3] == OPAQUE).all())):
            # To hide seams Agg draws edges of an antialiased mesh in the colours of its faces. Whole pixels need none.
            whole._replace(antialiased=False, edges=whole.edges[:0]).by_agg(self._renderer, gc)
            self.log.add(AGG, WHOLE_PIXELS)
            return True
        self._draw(gc, faces.polygons, colors)
        self.log.add(TRIRAST)
        return True

    def _why_agg_draws_cells(self, gc: Any, whole: Cells) -> Optional[Reason]:
        """Why all of a mesh is Agg's, or None if it may be drawn here."""
        if not self._is_smooth(bool(whole.antialiased)) or not len(whole.faces):
            return NOT_SMOOTH
        if len(whole.offsets) > 1 or gc.get_hatch() is not None:
            return MOVED_MESH
        return None if self._all_samples().can_draw else TOO_LARGE

    def _draw_edged_cells(self, gc: Any, whole: Cells, polygons: Polygons, edges: Edges) -> bool:
        """Draws cells below their edges; or below Agg's mesh if they are opaque, where they show between its faces; or
        returns False."""
        is_hidden = is_order_hidden(polygons, edges, self._clip_box(gc))
        is_opaque = bool((polygons.colors[:, 3] == OPAQUE).all())
        if is_hidden or is_opaque:
            self._add(gc, polygons)
        if not is_hidden:
            self.log.add(BOTH if is_opaque else AGG, OVERLAPPING)
            return False
        whole._replace(faces=np.array([HIDDEN])).by_agg(self._renderer, gc)
        self.log.add(TRIRAST, EDGES)
        return True

    # ---- Gouraud triangles

    def draw_gouraud_triangle(self, gc: Any, points: Any, colors: Any, transform: Any) -> None:
        """Draws one triangle: a call of matplotlib before 3.9."""
        self.draw_gouraud_triangles(gc, np.reshape(points, (1, 3, 2)), np.reshape(colors, (1, 3, 4)), transform)

    def draw_gouraud_triangles(self, gc: Any, triangles_array: Any, colors_array: Any, transform: Any) -> None:
        """Draws triangles in their order, over what the figure shows. One with a position or a colour that is no
        number is left out."""
        box = self._clip_box(gc)
        if box.is_empty or not len(triangles_array):
            return
        triangles = given_triangles(triangles_array, colors_array)
        triangles = triangles._replace(points=in_pixels(triangles.points, transform, int(self.height)))
        samples = self._all_samples()
        if samples.can_draw and samples.is_opaque(lambda: box):
            samples.draw_triangles(triangles, box, self._clips.of(gc))
            return
        figure: Pixels = np.asarray(self.buffer_rgba())
        draw_triangles(figure, triangles, box, self._clip_mask(gc), self.threads, self.samples)

    def _clip_mask(self, gc: Any) -> Optional[Pixels]:
        """The share of each pixel inside of the clip path, as Agg fills that path."""
        path, transform = gc.get_clip_path()
        if path is None:
            return None
        other = RendererAgg(self.width, self.height, self.dpi)
        filled = self.new_gc()
        filled.set_linewidth(0)
        filled.set_snap(gc.get_snap())
        other.draw_path(filled, path, transform, (0.0, 0.0, 0.0, 1.0))
        mask: Pixels = np.asarray(other.buffer_rgba())[..., 3]
        return mask

    # ---- Samples

    def _is_smooth(self, antialiased: Any) -> Any:
        """Whether faces of collections and meshes are drawn smoothly."""
        return antialiased | True if flag("RendererTrirast.smooth", self.smooth) else antialiased

    def _draw(self, gc: Any, polygons: Polygons, colors: Any) -> None:
        self._add(gc, polygons.colored(np.asarray(colors, np.uint8)))

    def _add(self, gc: Any, polygons: Polygons) -> None:
        """Draws polygons in their colours."""
        box = self._clip_box(gc)
        if not box.is_empty and polygons.count:
            self._all_samples().add(polygons, box, self._clips.of(gc))
            self._flush_at_end()

    def _all_samples(self) -> Samples:
        """The samples of the picture. Where a setting has changed they begin anew, as what the picture shows."""
        settings = sample_count(self.samples), thread_count(self.threads, "RendererTrirast.threads")
        if self._samples is None or self._samples.settings != settings:
            if self._samples is not None:
                self._samples.flush()
            self._samples = Samples(np.asarray(self._agg), *settings)
        return self._samples

    def _clip_box(self, gc: Any) -> Box:
        return clip_box(gc, int(self.width), int(self.height))

    def _leaves_samples(self, gc: Any, opaque: bool) -> bool:
        """Whether nothing is lost if Agg draws whole pixels here, with all of their samples."""
        if gc.get_clip_path()[0] is not None:
            return False
        return opaque or self._samples is None or not self._samples.has_samples(self._clip_box(gc))


def sample_count(value: Any) -> int:
    """The number of samples that a setting asks for. Raises TypeError at what is no integer, and ValueError at any that
    a canvas has not."""
    given = integer("RendererTrirast.samples", value)
    if given not in PATTERNS:
        raise ValueError(f"RendererTrirast.samples: expected {COUNTS}, got {given}")
    return given


def is_origin(path: Any, transform: Any) -> bool:
    """Whether a path is one point, which is put to the figure's origin."""
    return len(path.vertices) == 1 and not path.vertices.any() and not np.any(transform.get_matrix()[:2, 2])


take_grids(RendererTrirast, mesh_of)


def given_triangles(triangles: Any, colors: Any) -> Gouraud:
    """Triangles as matplotlib gives them, or a mesh. What is masked is no number."""
    if isinstance(triangles, Mesh):
        return triangles
    points = ma.filled(ma.asarray(triangles, np.float64), np.nan)
    return Triangles(points, np.broadcast_to(ma.filled(colors, np.nan), (len(points), 3, 4)))


def in_pixels(given: Points, transform: Any, height: int) -> Points:
    """Positions in pixels of a figure of this height, y downwards."""
    points: Points = np.asarray(transform.transform(given.reshape(-1, 2)), np.float64)
    # A transform that does nothing may return what it was given.
    points = points.copy() if np.may_share_memory(points, given) else points
    np.subtract(height, points[:, 1], out=points[:, 1])
    return points.reshape(given.shape)
