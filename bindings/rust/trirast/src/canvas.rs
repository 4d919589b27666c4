//! Canvases: samples that stay, over which batch after batch is drawn.

use std::marker::PhantomData;
use std::mem::size_of;

use trirast_sys as sys;

use crate::batch::Batch;
use crate::error::{checked, done};
use crate::memory::Memory;
use crate::parts::{by_threads, pixel_row, Rows};
use crate::values::Values;
use crate::{Draw, Error, Format, Indices, State, Vertices};

/// The pixel of the screen at which the upper left one of a canvas lies.
#[derive(Clone, Copy, Debug, Default, PartialEq, Eq, Hash)]
pub struct Origin {
    /// To the right, in pixels.
    pub x: i32,
    /// Downwards, in pixels.
    pub y: i32,
}

/// What each sample is cleared to. The default is black with alpha 0, as deep as can be.
#[derive(Clone, Copy, Debug, PartialEq, Eq, Hash)]
pub struct Clear {
    /// Red, green, blue and alpha, of which a canvas without alpha does not look at the last.
    pub color: [u8; 4],
    /// 65535 is farthest.
    pub depth: u16,
}

impl Default for Clear {
    fn default() -> Clear {
        Clear { color: [0; 4], depth: u16::MAX }
    }
}

impl From<[u8; 3]> for Clear {
    /// A colour with alpha 255.
    fn from([red, green, blue]: [u8; 3]) -> Clear {
        Clear { color: [red, green, blue, 255], ..Clear::default() }
    }
}

impl From<[u8; 4]> for Clear {
    /// Red, green, blue and alpha.
    fn from(color: [u8; 4]) -> Clear {
        Clear { color, ..Clear::default() }
    }
}

/// What is stored of one sample.
#[derive(Clone, Copy, Debug, PartialEq, Eq, Hash)]
#[non_exhaustive]
pub struct Sample {
    /// Red, green, blue.
    pub color: [u8; 3],
    /// 65535 is farthest.
    pub depth: u16,
}

/// Makes a canvas: see [`Canvas::builder`](TileRows::builder).
#[derive(Clone, Copy, Debug)]
#[must_use = "build() makes the canvas"]
pub struct CanvasBuilder {
    width: u32,
    height: u32,
    samples: u32,
    alpha: bool,
    origin: Origin,
    threads: u32,
}

impl CanvasBuilder {
    /// The samples of a pixel, in one of the standard patterns of Direct3D 11. Without this there is one.
    pub fn samples(self, samples: u32) -> CanvasBuilder {
        CanvasBuilder { samples, ..self }
    }

    /// Whether alpha is stored. Without this it is not.
    pub fn alpha(self, alpha: bool) -> CanvasBuilder {
        CanvasBuilder { alpha, ..self }
    }

    /// Makes the canvas a window on the screen: pixel (i, j) of it is pixel (i + x, j + y) of the screen. Positions and
    /// scissors are those of the screen.
    pub fn origin(self, x: i32, y: i32) -> CanvasBuilder {
        CanvasBuilder { origin: Origin { x, y }, ..self }
    }

    /// Among how many threads each call shares the tile rows: see [`set_threads`](TileRows::set_threads).
    pub fn threads(self, threads: u32) -> CanvasBuilder {
        CanvasBuilder { threads, ..self }
    }

    /// Makes the canvas. Its samples are black with alpha 0, and as deep as can be.
    ///
    /// # Errors
    ///
    /// `BadCanvas` if a side is not 1 to 4096 pixels or no pixel has as many samples, or `OutOfMemory`.
    pub fn build(self) -> Result<Canvas, Error> {
        let mut raw = sys::trirast_canvas {
            struct_size: size_of::<sys::trirast_canvas>() as u32,
            width: self.width,
            height: self.height,
            // The library takes 0 for one sample.
            samples: if self.samples == 0 { u32::MAX } else { self.samples },
            channels: if self.alpha { 4 } else { 3 },
            origin_x: self.origin.x,
            origin_y: self.origin.y,
            ..sys::trirast_canvas::default()
        };
        // SAFETY: the struct is valid.
        let size = unsafe { sys::trirast_canvas_size(&raw) };
        if size == 0 {
            let given = Values::Canvas([self.width, self.height, self.samples]);
            return Err(Error::of_status(sys::TRIRAST_STATUS_BAD_CANVAS).with(given));
        }
        let own = Memory::new(size).ok_or_else(Error::out_of_memory)?;
        // SAFETY: the memory has as many bytes, and stays as long as the canvas.
        done(unsafe { sys::trirast_canvas_init(&mut raw, own.start().cast(), size) })?;
        let mut canvas = TileRows { raw, threads: self.threads.max(1), _own: Some(own), lent: PhantomData };
        canvas.clear(Clear::default())?;
        Ok(canvas)
    }
}

/// All tile rows of a canvas, with memory of its own.
///
/// ```
/// use trirast::{Canvas, Format, State, Vertex};
///
/// let white = |x, y| Vertex::new(x, y, [255; 4]);
/// let mut canvas = Canvas::builder(3, 3).build()?;
/// canvas.draw(&[white(128, 128), white(640, 128), white(128, 640)], &[0u16, 1, 2], State::new())?;
/// let pixels = canvas.pixels(Format::Rgb8)?;
/// assert_eq!(pixels[..9], [255, 255, 255, 255, 255, 255, 0, 0, 0]);
/// # Ok::<(), trirast::Error>(())
/// ```
///
/// After an error all samples and buffers are unchanged.
pub type Canvas = TileRows<'static>;

/// The tile rows of a canvas, or some of them, with the memory of their samples. A tile row has 64 rows of pixels.
///
/// Tile rows may go to another thread, and one thread at a time may use them. [`split`](TileRows::split) makes parts
/// for several threads:
///
/// ```
/// # use trirast::{Canvas, State, Vertex};
/// # let (vertices, indices) = ([Vertex::default(); 3], [0u32, 1, 2]);
/// let mut canvas = Canvas::builder(640, 480).samples(4).build()?;
/// std::thread::scope(|scope| {
///     for mut part in canvas.split(4) {
///         scope.spawn(move || part.draw(&vertices, &indices, State::new()));
///     }
/// });
/// # Ok::<(), trirast::Error>(())
/// ```
///
/// [`set_threads`](TileRows::set_threads) lets each call do so by itself.
#[derive(Debug)]
pub struct TileRows<'m> {
    pub(crate) raw: sys::trirast_canvas,
    pub(crate) threads: u32,
    /// The memory, of all tile rows of a canvas. It is freed with them.
    pub(crate) _own: Option<Memory>,
    /// Else that of the tile rows of which these are a part.
    pub(crate) lent: PhantomData<&'m mut [u8]>,
}

// SAFETY: the samples are reached through this value alone as long as it is there. The library keeps no state.
unsafe impl Send for TileRows<'_> {}

impl TileRows<'static> {
    /// Begins a canvas of a width and a height of 1 to 4096 pixels each, with one sample a pixel, without alpha,
    /// at the upper left of the screen, whose calls run on one thread. It takes 6.2 bytes a sample, in whole
    /// tiles of 64 by 64 pixels.
    pub fn builder(width: u32, height: u32) -> CanvasBuilder {
        CanvasBuilder { width, height, samples: 1, alpha: false, origin: Origin::default(), threads: 1 }
    }
}

impl TileRows<'_> {
    /// Returns the width in pixels.
    pub fn width(&self) -> u32 {
        self.raw.width
    }

    /// Returns the rows of pixels of these tile rows.
    pub fn height(&self) -> u32 {
        pixel_row(&self.raw, self.raw.end) - self.top()
    }

    /// Returns the first row of pixels, counted from the top of the canvas.
    pub fn top(&self) -> u32 {
        pixel_row(&self.raw, self.raw.first)
    }

    /// Returns the first tile row.
    pub fn first(&self) -> u32 {
        self.raw.first
    }

    /// Returns the tile row behind the last one.
    pub fn end(&self) -> u32 {
        self.raw.end
    }

    /// Returns the samples of a pixel.
    pub fn samples(&self) -> u32 {
        self.raw.samples.max(1)
    }

    /// Returns whether alpha is stored.
    pub fn has_alpha(&self) -> bool {
        self.raw.channels == 4
    }

    /// Returns the pixel of the screen at which the upper left one of the canvas lies.
    pub fn origin(&self) -> Origin {
        Origin { x: self.raw.origin_x, y: self.raw.origin_y }
    }

    /// Says among how many threads each call shares these tile rows: at least one, and at most one a tile row.
    /// The calling thread is one of them, and waits for the others. If one cannot be started, the calling
    /// thread does its part.
    pub fn set_threads(&mut self, threads: u32) {
        self.threads = threads.max(1);
    }

    /// Returns those from `first` to before `end`. Their calls run on one thread.
    ///
    /// # Errors
    ///
    /// `BadTileRows` if `first` is greater than `end`, or these tile rows lack one of them.
    pub fn rows(&mut self, first: u32, end: u32) -> Result<TileRows<'_>, Error> {
        self.piece(first, end)
    }

    /// Returns these tile rows in at most this many parts, one for each thread.
    pub fn split(&mut self, parts: u32) -> Vec<TileRows<'_>> {
        self.pieces(parts.min(self.raw.end - self.raw.first))
    }

    /// Makes each sample one of this colour and depth: `[24, 24, 32]`, a colour with alpha, or a [`Clear`].
    ///
    /// # Errors
    ///
    /// None, unless the library is another than the one that this crate was built for. So it is for the other calls in
    /// addition to the errors that they name.
    pub fn clear(&mut self, to: impl Into<Clear>) -> Result<(), Error> {
        let Clear { color: [red, green, blue, alpha], depth } = to.into();
        let raw = sys::trirast_clear { red, green, blue, alpha, depth, unused: 0 };
        // SAFETY: the struct has the memory of its tile rows, and the library keeps neither pointer.
        by_threads(self.shared(), |mut part| done(unsafe { sys::trirast_canvas_clear(&mut part.raw, &raw) }))
    }

    /// Makes a picture the colour of all samples of its pixels. Depths are unchanged. `pixels` begins with the first
    /// pixel of these tile rows, and rows begin `stride` bytes behind each other, or one at the end of another if it is
    /// 0. The last row needs no padding. Alpha is 255 if the format has none.
    ///
    /// # Errors
    ///
    /// `BufferTooSmall` if the stride is less than a row of pixels, or the last row of pixels ends behind the slice.
    pub fn load(&mut self, format: Format, pixels: &[u8], stride: usize) -> Result<(), Error> {
        let rows = Rows::of_pixels(self, 0, format, stride);
        by_threads(self.with_parts_of(pixels, rows), |(mut part, own)| {
            // SAFETY: the struct has the memory of its tile rows, the slice its length, and the library keeps neither.
            done(unsafe {
                sys::trirast_canvas_load(&mut part.raw, format as u32, own.as_ptr().cast(), own.len(), stride)
            })
        })
        .map_err(|error| rows.explain(error, self, pixels.len()))
    }

    /// Makes a picture the colour of one sample of its pixels. Depths and other samples are unchanged. `pixels` and
    /// `stride` are as for [`load`](TileRows::load).
    ///
    /// # Errors
    ///
    /// `BadSample` if a pixel has no sample of this index, and those of [`load`](TileRows::load).
    pub fn store(&mut self, sample: u32, format: Format, pixels: &[u8], stride: usize) -> Result<(), Error> {
        let rows = Rows::of_pixels(self, sample, format, stride);
        by_threads(self.with_parts_of(pixels, rows), |(mut part, own)| {
            let (start, size) = (own.as_ptr().cast(), own.len());
            // SAFETY: as for load.
            done(unsafe { sys::trirast_canvas_store(&mut part.raw, sample, format as u32, start, size, stride) })
        })
        .map_err(|error| rows.explain(error, self, pixels.len()))
    }

    /// Draws over what is stored, by the indices of vertices: slices or arrays of `u16` or `u32`, or
    /// [`Indices::InOrder`]. A picture does not depend on the calls among which its triangles are split. Vertices and
    /// indices are not copied.
    ///
    /// # Errors
    ///
    /// `OutOfMemory`, or `BadBatch` with the first error of the first draw that has one: `NotWhole` if the indices make
    /// no whole triangles or quads; `BadIndex` if an index is not less than the number of its draw's vertices;
    /// `BadPosition` if a vertex that an index names is too far away, also as seen from the origin; or `NotConvex`.
    pub fn draw<'a>(
        &mut self,
        vertices: impl Into<Vertices<'a>>,
        indices: impl Into<Indices<'a>>,
        state: State,
    ) -> Result<(), Error> {
        self.draw_batch(&[Draw::new(vertices, indices).state(state)])
    }

    /// Draws several draws, one after another. The arrays of more than one are copied.
    ///
    /// # Errors
    ///
    /// Those of [`draw`](TileRows::draw).
    pub fn draw_batch(&mut self, draws: &[Draw<'_>]) -> Result<(), Error> {
        let batch = Batch::of_draws(draws)?;
        by_threads(self.shared(), |mut part| {
            let batch = batch.raw();
            // SAFETY: the struct has the memory of its tile rows, each array its count, and the library
            // keeps none of them.
            checked(|error| unsafe { sys::trirast_canvas_draw(&mut part.raw, &batch, error) })
        })
        .map_err(|error| batch.explain(error, self.origin()))
    }

    /// Draws over what is stored, with the id of each triangle in place of a colour: `first_id` and its index, counted
    /// over all draws. Channels that are kept and blending are not used, but alpha becomes 255 unless it is kept. A
    /// sample that no triangle passed has the number of the colour to which it was cleared: white is 16,777,215.
    ///
    /// # Errors
    ///
    /// Those of [`draw`](TileRows::draw), and `BadBatch` with `TooManyIds` if the id of a triangle would be
    /// greater than 16,777,215.
    pub fn draw_ids(&mut self, draws: &[Draw<'_>], first_id: u32) -> Result<(), Error> {
        let batch = Batch::of_draws(draws)?;
        by_threads(self.shared(), |mut part| {
            let batch = batch.raw();
            // SAFETY: as for draw_batch.
            checked(|error| unsafe { sys::trirast_canvas_draw_ids(&mut part.raw, &batch, first_id, error) })
        })
        .map_err(|error| batch.explain(error, self.origin()))
    }
}
