"""Canvases: samples that stay, over which batch after batch is drawn."""

import ctypes
import struct
import sys
from array import array
from typing import Any, Callable, Dict, List, Literal, Optional, Sequence, SupportsFloat, SupportsIndex, Tuple, Union

from ._arguments import (
    between, chosen, color_of, each_of, flag, integer, named, number, of_length, shown, signed, thread_count
)
from ._batch import batch_of, draws_of
from ._blend import Blend, Preset
from ._boxes import add_boxes
from ._buffers import Buffer, Form, check_writable, raw, readable
from ._calls import Calls
from ._declarations import CBatch, CCanvas, CClear, CCorners, CError
from ._draw import EVERY_SAMPLE, Draw, state_in_c
from ._errors import BatchError, CanvasError, PositionError, SampleError, TileError, adding
from ._ffi import library
from ._fragments import Fragments, Rate, fragments_of
from ._numbers import (
    FORMATS, HIGHEST_ORIGIN, LOWEST_ORIGIN, MAX_ID, MAX_SIDE, PATTERNS, TILE_SIZE, Cull, DepthTest,
)
from ._numpy import np
from ._patterns import COUNTS
from ._picture import Path, Picture, save_png
from ._png import png_chunks
from ._records import HIGH, LOW, POSITION, UNIT, table_of
from ._rings import RULES, Rule, kept_scratch, polygons_of, rings_of, rows_crossed
from ._threads import share
from ._values import OF_DRAWS, BatchValues, PolygonValues, point_values
from ._version import INTERFACE
from ._vertices import PLACE

ALIGNMENT = 64
CODES = {"uint8": "B", "uint16": "H", "uint32": "I", "int64": "q"}
# The channels of a sample without alpha, and with it.
CHANNELS = (3, 4)
# A call is made tile row by tile row if edges of polygons cross more rows of samples, or triangles meet more samples:
# some tenths of a second, and about a second.
LONG, LONG_SAMPLES = 1 << 24, 1 << 31
Format = Literal["rgb", "rgba", "bgra", "rgba_straight", "bgra_straight"]


class Canvas:
    """The samples of `width` by `height` pixels, 1 to 4096 each, with as many `samples` a pixel as Canvas.SAMPLE_COUNTS
    has, in the standard patterns of Direct3D 11.

    `origin` is the pixel of the screen at which the upper left pixel of the canvas lies; positions and scissors are
    those of the screen. `memory` is a buffer of at least Canvas.size(..) bytes that can be written, in which the
    samples lie; what they begin with is not specified, so call `clear` first. Without it the canvas has memory of
    its own, and begins as `clear()` makes it. With `alpha` a sample has a fourth channel: one that is cleared to
    alpha 0 and drawn on by "over" or "premultiplied" holds what was drawn without a background, its colours
    multiplied by their alpha.

    Calls of several threads on one canvas wait for each other. `threads` is the number of threads among which a call
    shares its tile rows. An interrupt, as by Ctrl-C, is raised when the call is done. If that takes long it is raised
    after the tile rows that have begun, 64 rows of pixels each, and the others stay as they were. A copy, by copy or
    pickle, has memory of its own.

    Each call raises TypeError or ValueError, which names the parameter, at what it does not take.
    """

    # The numbers of samples that a pixel may have.
    SAMPLE_COUNTS = tuple(PATTERNS)

    def __init__(
        self,
        width: SupportsIndex,
        height: SupportsIndex,
        samples: SupportsIndex = 1,
        *,
        alpha: bool = False,
        origin: Sequence[SupportsIndex] = (0, 0),
        memory: Optional[Any] = None,
    ) -> None:
        channels = channels_of(alpha)
        x, y = each_of("origin", origin, 2, signed)
        size = Canvas.size(width, height, samples)
        kind = integer("width", width), integer("height", height), integer("samples", samples), channels
        self._set(kind, (x, y), aligned(size) if memory is None else given(memory, size), size)
        if memory is None:
            self.clear()

    def _set(self, kind: Tuple[int, ...], origin: Tuple[int, int], memory: Tuple[Any, int], size: int) -> None:
        self._memory, first = memory
        self._bytes, self._first = size, ctypes.addressof(self._memory) + first
        self._whole = CCanvas(0, *kind, *origin)
        library().trirast_canvas_init(self._whole, self._first, size)
        self._calls = Calls()

    @property
    def _lock(self) -> Any:
        return self._calls.lock

    @property
    def width(self) -> int:
        """The width in pixels."""
        return int(self._whole.width)

    @property
    def height(self) -> int:
        """The height in pixels."""
        return int(self._whole.height)

    @property
    def samples(self) -> int:
        """The samples of a pixel."""
        return int(self._whole.samples)

    @property
    def alpha(self) -> bool:
        """Whether alpha is stored."""
        return bool(self._whole.channels == CHANNELS[1])

    @property
    def origin(self) -> Tuple[int, int]:
        """The pixel of the screen at which the upper left pixel lies."""
        return self._whole.origin_x, self._whole.origin_y

    @staticmethod
    def size(width: SupportsIndex, height: SupportsIndex, samples: SupportsIndex = 1) -> int:
        """The bytes of the samples of such a canvas, with alpha or without it, 6.2 a sample in whole tiles of 64 by 64
        pixels. Raises CanvasError if there is none."""
        numbers = (number("width", width, 0), number("height", height, 0), number("samples", samples))
        # 0 is the default of C.
        size: int = library().trirast_canvas_size(CCanvas(0, *numbers)) if numbers[2] else 0
        if not size:
            wanted = f"1 to {MAX_SIDE} pixels a side and {COUNTS} samples a pixel"
            sides = " by ".join(shown(integer(name, side)) for name, side in (("width", width), ("height", height)))
            found = f"{sides} and {shown(integer('samples', samples))}"
            raise CanvasError.of_line(f"canvas: expected {wanted}, got {found}; trirast.poster draws larger ones")
        return size

    def clear(
        self, color: Union[str, Sequence[SupportsIndex]] = (0, 0, 0, 0), depth: SupportsIndex = 65535, *,
        threads: SupportsIndex = 1
    ) -> None:
        """Makes each sample one of this colour, and of this depth, 0 to 65535. The colour is red, green, blue and alpha
        of 0 to 255, or a text as "navy" or "#000080". Without alpha in the colour it is 255; a canvas without alpha
        does not look at it. Raises ValueError at any other."""
        red, green, blue, *alpha = color_of("color", color, 3, 4)
        clear = CClear(red, green, blue, *(alpha or [255]), between("depth", depth, 0, 65535))
        self._each(threads, lambda piece, _top: library().trirast_canvas_clear(piece, clear))

    def load(self, image: Any, *, format: Optional[Format] = None, threads: SupportsIndex = 1) -> None:
        """Makes an image the colour of all samples of its pixels; depths stay. The image is a buffer of bytes of the
        shape (height, width, 3) or (height, width, 4), or of as many bytes without a shape. `format` is "rgb", "rgba"
        or "bgra"; without it the image is "rgb" or "rgba" by its length. "rgba_straight" and "bgra_straight" are images
        as files have them, whose colours are multiplied by their alpha and rounded: red 200 with alpha 10 is stored as
        8, and `rgba(straight=True)` returns 204. The others are stored as they are. The alpha of "rgb" is 255. An image
        that cannot be written or is not contiguous is copied."""
        self._stored(library().trirast_canvas_load, image, format, threads)

    def store(
        self, image: Any, sample: SupportsIndex = 0, *, format: Optional[Format] = None, threads: SupportsIndex = 1
    ) -> None:
        """Makes an image the colour of one sample of its pixels; depths and other samples stay. The image
        is as for `load`."""
        self._stored(of_sample(library().trirast_canvas_store, self._sample(sample)), image, format, threads)

    def _stored(self, call: Any, image: Any, format: Optional[Format], threads: SupportsIndex) -> None:
        kinds = [FORMATS["rgb"], FORMATS["rgba"]] if format is None else [chosen("format", FORMATS, format)]
        forms = [self._form(("uint8",), channels) for _code, channels in kinds]
        found, pixels = readable("image", image, *forms)
        with pixels:
            self._rows("image", pixels, call, kinds[forms.index(found)][0], 1, threads)

    def draw(
        self,
        vertices: Any,
        triangles: Optional[Any] = None,
        *,
        strip: Optional[Any] = None,
        quads: Optional[Any] = None,
        colors: Optional[Any] = None,
        depth: Optional[Any] = None,
        blend: Union[Preset, Blend] = "none",
        cull: Cull = "none",
        depth_test: DepthTest = "always",
        depth_write: bool = False,
        keep: str = "",
        sample_mask: SupportsIndex = EVERY_SAMPLE,
        scissor: Optional[Sequence[SupportsIndex]] = None,
        first_id: Optional[SupportsIndex] = None,
        threads: SupportsIndex = 1,
    ) -> None:
        """Draws triangles over what is stored, one after another.

        `vertices` are rows of x and y in 1/256 pixel of the screen, x to the right and y downwards: `trirast.snap`
        makes them of floats in pixels. They may be whole rows too, of x, y, depth, red, green, blue and alpha, or
        records of VERTEX. `colors` is one colour of 3 or 4 channels, red, green, blue and alpha of 0 to 255, or a row
        of them for each vertex; white, if there are none. `depth` is one depth, 0 to 65535, or one for each vertex; 0,
        if there are none.

        One of `triangles`, `strip` and `quads` has rows of 3, 1 and 4 indices of vertices; without any, each three
        vertices are a triangle. Rows are sequences, or buffers of integers of any type and layout, as arrays of numpy.
        They are copied, and nothing of them is rounded or wrapped. An array of VERTEX, or of records that have its
        members in their order among others, is copied as it is. bytes and a bytearray have records of 16 bytes, and
        indices of 32 bits. Without rows nothing is drawn.

        `blend` is one of BLENDS, by its name, or a Blend. `cull` drops front-facing triangles, which run clockwise on
        the screen, or back-facing ones. A sample is drawn if its new depth passes `depth_test` against the stored one;
        with `depth_write` the new one is stored. `keep` has the letters of the channels that are not written, of
        "rgba". Bit s of `sample_mask`, 0 to 65535, says whether sample s of each pixel is drawn. `scissor` is left,
        top, right and bottom, in pixels of the screen, of which right and bottom are outside. With `first_id` each
        triangle is drawn in the colour of its id, whatever `blend` is and which of "rgb" `keep` has: `first_id` and
        its place, at most 16,777,215, as `ids` reads them. The alpha of a canvas that has one becomes 255 there, unless
        `keep` has "a".

        Raises BatchError, and then nothing was drawn, if an index names no vertex, a vertex that an index names lies
        outside of -8388608 to 8388607 on the screen or as seen from the canvas, or a quad is not strictly convex;
        TypeError or ValueError, which name the parameter, row and column, at what is no such value.
        """
        self._check_vertices_apart(vertices)
        draw = Draw(
            vertices, triangles, strip=strip, quads=quads, colors=colors, depth=depth, blend=blend, cull=cull,
            depth_test=depth_test, depth_write=depth_write, keep=keep, sample_mask=sample_mask, scissor=scissor,
        )
        self.draw_batch([draw], first_id=first_id, threads=threads)

    def draw_batch(
        self, draws: Sequence[Draw], *, first_id: Optional[SupportsIndex] = None, threads: SupportsIndex = 1
    ) -> None:
        """Draws several draws, in their colours, or by ids that are counted from `first_id` over all of them."""
        given = draws_of(draws)
        batch = batch_of(given)
        ids = () if first_id is None else (between("first_id", first_id, 0, MAX_ID + 1),)
        call = library().trirast_canvas_draw_ids if ids else library().trirast_canvas_draw
        with adding(BatchError, BatchValues(batch, self.origin, *(ids or (None,))).of):
            self._each(
                threads, lambda piece, _top: call(piece, batch, *ids, CError()), is_long=self._are_long(given, batch)
            )

    def _are_long(self, draws: Sequence[Draw], batch: CBatch) -> bool:
        """Whether draws meet so many samples that an interrupt must not wait for all of them."""
        of_canvas = self.width * self.height * self.samples
        if (batch.index_count or batch.vertex_count) * of_canvas <= LONG_SAMPLES:
            return False
        left, top = (UNIT * each for each in self.origin)
        box = left, top, left + UNIT * self.width, top + UNIT * self.height
        return self.samples * sum(each._pixels_met(*box) for each in draws) > LONG_SAMPLES

    def draw_polygons(
        self,
        corners: Any,
        ring_ends: Optional[Any] = None,
        polygon_ends: Optional[Any] = None,
        colors: Optional[Any] = None,
        *,
        rule: Rule = "even-odd",
        depth: Optional[Any] = None,
        boxes: Optional[Any] = None,
        blend: Union[Preset, Blend] = "none",
        depth_test: DepthTest = "always",
        depth_write: bool = False,
        keep: str = "",
        sample_mask: SupportsIndex = EVERY_SAMPLE,
        scissor: Optional[Sequence[SupportsIndex]] = None,
        first_id: Optional[SupportsIndex] = None,
        threads: SupportsIndex = 1,
    ) -> None:
        """Draws polygons over what is stored, one after another, each in one colour and at one depth.

        A polygon is any number of rings, and a ring any number of corners: rings may be holes, touch and cross each
        other and themselves. `corners` are rows of x and y in 1/256 pixel of the screen, of all rings one after
        another; `trirast.snap` makes them of floats in pixels. `ring_ends` has the end index of each ring, past its
        last corner, and `polygon_ends` that of each polygon, past its last ring: for polygons the offsets of
        `shapely.to_ragged_array` (shapely 2) without their leading 0. `colors` is one colour of 3 or 4 channels, red,
        green, blue and alpha of 0 to 255, or a row of them for each polygon; white, if there are none. `depth` is one
        depth, 0 to 65535, or one for each; 0, if there are none. A `Polygons` replaces all three arrays, and has
        colours if none are given.

        By the rule "even-odd" a sample is inside if a ray from it to the left crosses an odd number of edges, by
        "nonzero" if it crosses more that run downwards than upwards, or fewer. This is exact: polygons that share
        their edges leave no gap and no overlap, and a triangle covers what `draw` draws of it.

        `boxes` are those of these polygons, as `trirast.polygon_boxes` finds them: rows of left, top, right and bottom
        in 1/256 pixel of the screen, one for each polygon. By them the library looks only at the corners of polygons
        whose box meets the canvas, so a map that is drawn again and again, or by parts on several canvases, takes less
        time. They are believed: with boxes that do not hold their polygons' corners, some polygons may be left out,
        each as a whole, and no error says so. Without any the call finds them itself, once for all threads.

        All else is as for `draw`. With `first_id` each polygon is drawn in the colour of its id, whatever `colors` are.
        Arrays are copied, except those that `Polygons.owned` returns.

        Raises BatchError, and then nothing was drawn, if the ends fall or leave the arrays; if there are boxes, but
        fewer than polygons; or if there are none, and a corner lies outside of -8388608 to 8388607. Its element is the
        ring, the polygon or the corner. With boxes a polygon that has such a corner is left out. Raises PositionError
        if the canvas's origin is not -32768 to 28672.
        """
        state = state_in_c("none", depth_test, depth_write, keep, sample_mask, scissor, blend)
        given = rings_of(corners, ring_ends, polygon_ends)
        polygons = polygons_of(given, colors, depth, boxes, named("rule", RULES, rule), state)
        ids = () if first_id is None else (between("first_id", first_id, 0, MAX_ID + 1),)
        call = library().trirast_canvas_draw_polygon_ids if ids else library().trirast_canvas_draw_polygons
        size = library().trirast_polygons_scratch(self._whole, polygons.fill_rule)
        for each in self.origin:
            between("origin", each, LOWEST_ORIGIN, HIGHEST_ORIGIN, PositionError.of_line, " pixels")
        top = UNIT * self.origin[1]
        is_long = self.samples * rows_crossed(polygons, top, top + UNIT * self.height) > LONG
        if is_long or self._piece_count(threads) > 1:
            add_boxes(polygons)
        with adding(BatchError, PolygonValues(polygons, *(ids or (None,))).of, without=OF_DRAWS):
            self._each(
                threads, lambda piece, _top: call(piece, polygons, *ids, kept_scratch(size), size, CError()),
                is_long=is_long,
            )

    def draw_geometries(
        self, geometries: Any, colors: Optional[Any] = None, *, window: Optional[Sequence[SupportsFloat]] = None,
        **state: Any
    ) -> None:
        """Draws geometries of shapely, or a series of geopandas, as polygons in these colours, one for all or one for
        each. The canvas shows a `window` in their units, x and y of its lower left corner and then of its upper right
        one, or their bounds. The state is that of `draw_polygons`. Geometries without an area draw nothing. Needs
        numpy. Raises ValueError if the window encloses nothing, and TypeError at what is no geometry."""
        from .maps._arrays import bounds_of, placed

        shown_window = bounds_of(geometries) if window is None else window
        polygons = placed(geometries, shown_window, (self.width, self.height))
        self.draw_polygons(polygons, colors=colors, **state)

    def rgb(self, out: Optional[Any] = None, *, threads: SupportsIndex = 1) -> Any:
        """The colours, of the shape (height, width, 3): a numpy array, or without numpy a memoryview;
        or what `out` is."""
        return self._resolved("rgb", out, threads)

    def rgba(self, out: Optional[Any] = None, *, straight: bool = False, threads: SupportsIndex = 1) -> Any:
        """The colours with alpha, of the shape (height, width, 4): an array as that of `rgb`, or what `out` is. Alpha
        is 255 on a canvas without it. If it is `straight`, colours are divided by alpha, as image files have them."""
        return self._resolved("rgba_straight" if flag("straight", straight) else "rgba", out, threads)

    def bgra(self, out: Optional[Any] = None, *, straight: bool = False, threads: SupportsIndex = 1) -> Any:
        """The colours in the order blue, green, red, alpha, of the shape (height, width, 4); all else
        is as for `rgba`."""
        return self._resolved("bgra_straight" if flag("straight", straight) else "bgra", out, threads)

    def save(self, path: Path, *, dpi: Optional[SupportsFloat] = None, threads: SupportsIndex = 1) -> None:
        """Writes the colours to a PNG file, or to a PPM file, by the end of the path. A canvas with alpha is a PNG file
        with alpha, whose colours are divided by it. `dpi` is the number of pixels per inch, which a PNG file alone has.
        Raises ValueError at any other end, and at `dpi` for another file."""
        if self.alpha:
            save_png(path, self._straight(threads), dpi)
        else:
            self._picture(threads).save(path, dpi=dpi)

    def _repr_png_(self) -> bytes:
        """The colours as a PNG file, by which notebooks show the canvas."""
        return b"".join(png_chunks(self._straight(1))) if self.alpha else self._picture(1)._repr_png_()

    def _straight(self, threads: SupportsIndex) -> memoryview:
        return memoryview(self.rgba(straight=True, threads=threads))

    def _picture(self, threads: SupportsIndex) -> Picture:
        return Picture(self.width, self.height, False, memoryview(self.rgb(threads=threads)).cast("B"))

    def depth(self, sample: SupportsIndex = 0, out: Optional[Any] = None, *, threads: SupportsIndex = 1) -> Any:
        """The depth of one sample of each pixel: 16 bits, of the shape (height, width)."""
        return self._written(
            library().trirast_canvas_depths, self._sample(sample), self._form(("uint16",)), out, threads
        )

    def ids(self, sample: SupportsIndex = 0, out: Optional[Any] = None, *, threads: SupportsIndex = 1) -> Any:
        """The id of one sample of each pixel: 32 bits, of the shape (height, width)."""
        return self._written(
            library().trirast_canvas_ids, self._sample(sample), self._form(("uint32", "int32")), out, threads
        )

    def colors(
        self, sample: SupportsIndex = 0, out: Optional[Any] = None, *, format: Format = "rgb",
        threads: SupportsIndex = 1,
    ) -> Any:
        """The colour of one sample of each pixel, which is not resolved: bytes of the shape (height, width,
        3), or 4 with alpha."""
        code, channels = chosen("format", FORMATS, format)
        call = of_sample(library().trirast_canvas_colors, self._sample(sample))
        return self._written(call, code, self._form(("uint8",), channels), out, threads)

    # ---- Shading

    def fragments(
        self, vertices: Any, triangles: Any, w: Any, *, rate: Rate = "pixel",
        tile: Optional[Tuple[SupportsIndex, SupportsIndex]] = None, threads: SupportsIndex = 1
    ) -> Fragments:
        """What the ids of this canvas show, for shading by numpy: it was cleared to white and drawn with these vertices
        and triangles from the id 0. `w` is that of clip space, one for each vertex; `trirast.clip` has all three.

        `rate` is "pixel", each triangle that a pixel shows once, in the middle of the samples that show it; "centre",
        the same in the pixel's centre, which may lie beside the triangle; or "sample", each sample. `tile` is a tile
        alone, by its column and row of 64 by 64 pixels: its fragments take little memory, and other threads may shade
        other tiles. Needs numpy, and vertices with the fields x and y.

        Raises TileError if the canvas has no such tile."""
        if tile is None:
            ids = np.stack([self.ids(sample, threads=threads) for sample in range(self.samples)])
            return fragments_of(ids, self.origin, vertices, triangles, w, rate)
        column, row = (
            between(f"tile.{name}", each, 0, (side - 1) // TILE_SIZE, TileError.of_line)
            for name, each, side in zip(("column", "row"), of_length("tile", tile, 2), (self.width, self.height))
        )
        origin = self.origin[0] + column * TILE_SIZE, self.origin[1] + row * TILE_SIZE
        return (
            fragments_of(self._tile_ids(column, row), origin, vertices, triangles, w, rate)._replace(tile=(column, row))
        )

    def shade(
        self, fragments: Fragments, colors: Any, background: Any = (0, 0, 0), *, threads: SupportsIndex = 1
    ) -> None:
        """Puts the colours of fragments in place of the ids, a row of 0 to 255 for each, and elsewhere the background:
        in the tile of the fragments, or in the whole canvas. Depths stay, and so does alpha: 255 where ids were drawn,
        and elsewhere the one that `clear` stored."""
        if not isinstance(fragments, Fragments):
            raise TypeError(f"fragments: expected a trirast.Fragments, got {shown(fragments)}")
        wanted = (self.samples, *self._sides(fragments.tile))
        if fragments.index.shape != wanted:
            what = "the samples, height and width of this canvas"
            raise ValueError(f"fragments: expected {what}, {wanted}, got {fragments.index.shape}")
        pictures = fragments.picture(colors, background)
        if fragments.tile is not None:
            self._store_tile(fragments.tile, pictures)
            return
        for sample, image in enumerate(pictures):
            if self.alpha:
                image[..., 3] = self.colors(sample, format="rgba", threads=threads)[..., 3]
            self.store(image, sample, threads=threads)

    def _sides(self, tile: Optional[Tuple[int, int]]) -> Tuple[int, int]:
        """The height and width of the canvas, or of what it has of a tile."""
        if tile is None:
            return self.height, self.width
        return min(self.height - TILE_SIZE * tile[1], TILE_SIZE), min(self.width - TILE_SIZE * tile[0], TILE_SIZE)

    def _tile_ids(self, column: int, row: int) -> Any:
        """The ids of all samples of a tile, as far as it lies in the canvas: of the shape (samples, height, width)."""
        entries, uniform = np.empty(self.samples * TILE_SIZE**2, np.uint32), ctypes.c_uint32()
        with self._lock:
            library().trirast_canvas_tile_ids(self._whole, column, row, entries.ctypes.data, len(entries), uniform)
        if uniform.value:
            entries[:] = entries[0]
        ids = entries.reshape(8, 8, -1, 8, 8).transpose(2, 0, 3, 1, 4).reshape(-1, TILE_SIZE, TILE_SIZE)
        height, width = self._sides((column, row))
        return ids[:, :height, :width]

    def _store_tile(self, tile: Tuple[int, int], pictures: Any) -> None:
        """Stores the colours of all samples of a tile: bytes of the shape (samples, height, width, 4)."""
        colors = np.zeros((self.samples, TILE_SIZE, TILE_SIZE), "<u4")
        height, width = self._sides(tile)
        colors[:, :height, :width] = pictures.view("<u4")[..., 0]
        entries = colors.reshape(-1, 8, 8, 8, 8).transpose(1, 3, 0, 2, 4).reshape(-1).astype(np.uint32)
        with self._lock:
            library().trirast_canvas_tile_store(self._whole, *tile, entries.ctypes.data, len(entries))

    # ---- Copies

    def __getstate__(self) -> Dict[str, Any]:
        with self._lock:
            samples = ctypes.string_at(self._first, self._bytes)
        state = {name: value for name, value in self.__dict__.items() if name not in OWN}
        kind = self.width, self.height, self.samples, self._whole.channels
        return {**state, "_canvas": (INTERFACE, kind, self.origin, samples)}

    def __setstate__(self, state: Dict[str, Any]) -> None:
        interface, kind, origin, samples = state.pop("_canvas")
        if interface != INTERFACE or len(samples) != library().trirast_canvas_size(CCanvas(0, *kind)):
            raise ValueError(
                f"canvas: expected one of interface {INTERFACE}, got {interface}, whose samples may lie in another way"
            )
        memory, first = aligned(len(samples))
        ctypes.memmove(ctypes.addressof(memory) + first, samples, len(samples))
        self._set(kind, origin, (memory, first), len(samples))
        self.__dict__.update(state)

    # ---- Pieces

    def _pieces(self, count: int, start: int = 0, stop: Optional[int] = None) -> List[Tuple[CCanvas, int]]:
        """Returns tile rows in this many pieces, each with its first row of pixels: from `start` to before `stop`, or
        to the last one."""
        rows = (self._whole.end if stop is None else stop) - start
        ends = [start + k * rows // count for k in range(count + 1)]
        found = []
        for first, end in zip(ends, ends[1:]):
            piece = CCanvas()
            library().trirast_canvas_split(self._whole, first, end, piece)
            piece.kept = (self._memory,)
            found.append((piece, first * TILE_SIZE))
        return found

    def _piece_count(self, threads: SupportsIndex) -> int:
        """The number of pieces on which a call by this number of threads is made."""
        count: int = min(thread_count(threads), self._whole.end)
        return count

    def _each(
        self, threads: SupportsIndex, call: Callable[[CCanvas, int], Any], *used: Buffer, is_long: bool = False
    ) -> None:
        """Makes the call on pieces of the canvas: one for each thread, or if it is long for each tile row, so that an
        interrupt comes soon. ctypes lets Python's lock go meanwhile."""
        count = self._piece_count(threads)
        with self._lock:
            share(call, lambda pieces: self._pieces(self._whole.end if is_long else pieces), count, used)

    def _sample(self, sample: SupportsIndex) -> int:
        """The index of a sample of a pixel. Raises SampleError at any other."""
        return between("sample", sample, 0, self.samples - 1, SampleError.of_line)

    # ---- Pictures in memory

    def _form(self, kinds: Tuple[str, ...], *channels: int) -> Form:
        return Form(kinds, (self.height, self.width, *channels))

    def _check_apart(self, name: str, buffer: Buffer) -> None:
        """Raises ValueError at a buffer in the memory of the samples."""
        end = self._first + self._bytes
        if buffer.address < end and self._first < buffer.address + buffer.size:
            raise ValueError(f"{name}: {APART}")

    def _check_vertices_apart(self, vertices: Any) -> None:
        """Raises ValueError at an array of numpy in the memory of the samples."""
        numpy = sys.modules.get("numpy")
        if numpy is not None and isinstance(vertices, numpy.ndarray):
            if numpy.may_share_memory(vertices, numpy.frombuffer(self._memory, numpy.uint8, self._bytes)):
                raise ValueError(f"vertices: {APART}")

    def _rows(self, name: str, buffer: Buffer, call: Any, chosen: int, unit: int, threads: SupportsIndex) -> None:
        """Makes a call on the rows of pixels of a buffer: `chosen` is their format, or a sample, and `unit` the bytes
        that are counted."""
        self._check_apart(name, buffer)
        start, size = buffer.address, buffer.size
        stride = size // self.height
        self._each(
            threads,
            lambda piece, top: call(piece, chosen, start + top * stride, (size - top * stride) // unit, stride), buffer,
        )

    def _resolved(self, kind: str, out: Optional[Any], threads: SupportsIndex) -> Any:
        code, channels = FORMATS[kind]
        return self._written(library().trirast_canvas_resolve, code, self._form(("uint8",), channels), out, threads)

    def _written(self, call: Any, chosen: int, form: Form, out: Optional[Any], threads: SupportsIndex) -> Any:
        made = new_array(form) if out is None else out
        with Buffer(check_writable("out", made, form)) as buffer:
            self._rows("out", buffer, call, chosen, struct.calcsize(CODES[form.kinds[0]]), threads)
        return made


def of_sample(call: Any, sample: int) -> Any:
    """A call on the colours of one sample index, as one on those of pixels: with a format before the buffer."""
    return lambda piece, format, *buffer: call(piece, sample, format, *buffer)


APART = "expected memory apart from that of the canvas, got memory of its samples"
# What `_set` makes, which a copy makes anew.
OWN = frozenset(("_memory", "_bytes", "_first", "_whole", "_calls"))


def edges_at(
    a: Sequence[SupportsIndex], b: Sequence[SupportsIndex], c: Sequence[SupportsIndex], points: Any
) -> Any:
    """The edge functions of the triangle abc at points, exactly: rows of the edge across from a, from b and from c, in
    1/65536 square pixel; the doubled area; and 1 if the triangle covers the point by the top-left rule, else 0. Corners
    are x and y in 1/256 pixel; `points` rows of these, as `Canvas.draw` takes them. Returns 64-bit integers of the
    shape (n, 5): a numpy array, or without numpy a memoryview.

    For a point inside the edge functions have the sign of the doubled area, and each over that area is the weight of
    its corner. Raises PositionError outside of -8388608 to 8388607."""
    corners = [
        each for name, position in (("a", a), ("b", b), ("c", c)) for each in each_of(name, position, 2, coordinate)
    ]
    table = table_of("points", points, PLACE)
    places = table.fill(bytearray(8 * table.count), 8)
    found = new_array(Form(("int64",), (table.count, 5)))
    if not table.count:
        return found
    with Buffer(memoryview(places)) as given_points, Buffer(
        check_writable("points", found, Form(("int64",), (table.count, 5)))
    ) as written:
        with adding(PositionError, lambda _error: point_values(places)):
            library().trirast_edges_at(CCorners(*corners), given_points.address, 0, table.count, written.address)
    return found


def coordinate(name: str, value: SupportsIndex) -> int:
    """A coordinate of a corner. Raises PositionError at one outside of the guard band."""
    return between(name, value, LOW, HIGH, PositionError.of_line, POSITION)


# ---- Memory


def channels_of(alpha: bool) -> int:
    """The channels of a sample in C, by whether it has alpha."""
    return CHANNELS[flag("alpha", alpha)]


def aligned(size: int) -> Tuple[Any, int]:
    """New memory, and the place in it from which as many bytes are aligned."""
    memory = (ctypes.c_uint8 * (size + ALIGNMENT))()
    return memory, -ctypes.addressof(memory) % ALIGNMENT


def given(memory: Any, size: int) -> Tuple[Any, int]:
    """The caller's own memory."""
    own = raw("memory", memory, size)
    if own.address % 2:
        raise ValueError("memory: expected an even address, got an odd one; allocate it for itself")
    return own.memory, 0


def new_array(form: Form) -> Any:
    """A numpy array, or without numpy a memoryview, which is flat if it has no items."""
    try:
        import numpy
    except ImportError:
        code = CODES[form.kinds[0]]
        if not form.items:
            return memoryview(array(code))
        return memoryview(bytearray(form.items * struct.calcsize(code))).cast(code, shape=list(form.shape))
    return numpy.empty(form.shape, dtype=form.kinds[0])
