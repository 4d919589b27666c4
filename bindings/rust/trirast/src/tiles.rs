//! The samples of one tile at a time, to be shaded.

use trirast_sys as sys;

use crate::error::done;
use crate::parts::ROW_PIXELS;
use crate::values::Values;
use crate::{Error, ErrorKind, State, TileRows};

/// The width and height of a tile of a canvas, in pixels.
pub const CANVAS_TILE_SIZE: u32 = ROW_PIXELS;

/// Blocks have 8 by 8 pixels, and a tile 8 by 8 blocks.
const BLOCK_SIDE: u32 = 8;

impl TileRows<'_> {
    /// Returns how many tiles a tile row has: the width over [`CANVAS_TILE_SIZE`], rounded up.
    pub fn tile_columns(&self) -> u32 {
        (self.raw.width + ROW_PIXELS - 1) / ROW_PIXELS
    }

    /// Returns the entries of a tile, one for each sample of its pixels.
    pub fn tile_entries(&self) -> usize {
        (ROW_PIXELS * ROW_PIXELS * self.samples()) as usize
    }

    /// Returns the entry of a sample of the pixel in a column and a row of a tile. Entries lie block after block of 8
    /// by 8 pixels, row by row; in a block sample index by sample index; and of each the pixels, row by row. Returns
    /// `None` if a tile has no such pixel, or the pixel no such sample.
    pub fn tile_entry(&self, column: u32, row: u32, sample: u32) -> Option<usize> {
        if column >= ROW_PIXELS || row >= ROW_PIXELS || sample >= self.samples() {
            return None;
        }
        let block = row / BLOCK_SIDE * BLOCK_SIDE + column / BLOCK_SIDE;
        let pixel = row % BLOCK_SIDE * BLOCK_SIDE + column % BLOCK_SIDE;
        Some(((block * self.samples() + sample) * BLOCK_SIDE * BLOCK_SIDE + pixel) as usize)
    }

    /// Reads the ids of all samples of one tile, red + 256 * green + 65536 * blue each, those of pixels beside the
    /// picture too. `entries` has [`tile_entries`](TileRows::tile_entries). Returns those that were written: all, or
    /// one if all blocks of the tile are stored as cleared and have one id, as after `clear`. `column` counts tiles,
    /// and `row` is one of these tile rows.
    ///
    /// A renderer draws ids, and puts colours of its own in their place, tile by tile:
    ///
    /// ```
    /// use trirast::{Canvas, Draw, Format, Indices, Vertex};
    ///
    /// let corners = [[0, 0], [25600, 0], [0, 25600]].map(|[x, y]| Vertex::new(x, y, [0; 4]));
    /// let mut canvas = Canvas::builder(100, 100).samples(4).build()?;
    /// canvas.clear([255; 3])?;
    /// canvas.draw_ids(&[Draw::new(&corners, Indices::InOrder)], 0)?;
    /// let mut entries = vec![0; canvas.tile_entries()];
    /// for (row, column) in [(0, 0), (0, 1), (1, 0), (1, 1)] {
    ///     let written = canvas.tile_ids(column, row, &mut entries)?.len();
    ///     entries[..written].iter_mut().for_each(|id| *id = if *id == 0 { 0x00ff00 } else { 0 });
    ///     canvas.tile_store(column, row, &entries[..written])?;
    /// }
    /// assert_eq!(canvas.pixels(Format::Rgb8)?[..3], [0, 255, 0]);
    /// # Ok::<(), trirast::Error>(())
    /// ```
    ///
    /// # Errors
    ///
    /// `BadTile` if these tile rows have no such tile, or `BufferTooSmall`.
    pub fn tile_ids<'e>(&self, column: u32, row: u32, entries: &'e mut [u32]) -> Result<&'e [u32], Error> {
        let mut uniform = 0;
        let (start, count) = (entries.as_mut_ptr(), entries.len());
        // SAFETY: the struct has the memory of its tile rows, the slice its length, and the library keeps neither.
        done(unsafe { sys::trirast_canvas_tile_ids(&self.raw, column, row, start, count, &mut uniform) })
            .map_err(|error| self.explain(error, [column, row], count, false))?;
        let written = if uniform == 1 { 1 } else { self.tile_entries() };
        Ok(entries.get(..written).unwrap_or_default())
    }

    /// Stores the colours of all samples of one tile, red + 256 * green + 65536 * blue each, of which the upper byte is
    /// not read. Depths, alpha and other tiles are unchanged. One colour is that of all samples of the tile. Storing
    /// what [`tile_ids`](TileRows::tile_ids) has returned changes nothing.
    ///
    /// # Errors
    ///
    /// `BadTile` if these tile rows have no such tile, or `BufferTooSmall` unless there are as many colours as a tile
    /// has entries, or one.
    pub fn tile_store(&mut self, column: u32, row: u32, colors: &[u32]) -> Result<(), Error> {
        // SAFETY: as for tile_ids.
        done(unsafe { sys::trirast_canvas_tile_store(&mut self.raw, column, row, colors.as_ptr(), colors.len()) })
            .map_err(|error| self.explain(error, [column, row], colors.len(), true))
    }

    /// Blends a fragment with each sample of one tile that the masks keep, as drawing does with a sample that a
    /// triangle covers: by `depth_test`, `depth_write`, `keep` and `blend` of the state. Other samples are unchanged.
    ///
    /// Colours are red + 256 * green + 65536 * blue + 16777216 * alpha each. Colours and depths are ordered as
    /// [`tile_ids`](TileRows::tile_ids) writes ids; bit k of mask n is of entry 64 * n + k. One colour, depth or mask
    /// stands for all.
    ///
    /// # Errors
    ///
    /// `BadTile` if these tile rows have no such tile, or `BufferTooSmall` unless there are as many colours and depths
    /// as a tile has entries, and a mask for 64 of them, or one.
    pub fn tile_blend(
        &mut self,
        column: u32,
        row: u32,
        state: State,
        colors: &[u32],
        depths: &[u16],
        kept: &[u64],
    ) -> Result<(), Error> {
        let draw = state.raw(0, 0);
        let entries = self.tile_entries();
        let wrong = [colors.len(), depths.len()].into_iter().find(|&count| count != 1 && count != entries);
        // SAFETY: as for tile_ids.
        done(unsafe {
            sys::trirast_canvas_tile_blend(
                &mut self.raw,
                column,
                row,
                &draw,
                colors.as_ptr(),
                colors.len(),
                depths.as_ptr(),
                depths.len(),
                kept.as_ptr(),
                kept.len(),
            )
        })
        .map_err(|error| self.explain(error, [column, row], wrong.unwrap_or(64 * kept.len()), true))
    }

    /// An error of a call on a tile and as many entries, with its values.
    fn explain(&self, error: Error, tile: [u32; 2], given: usize, or_one: bool) -> Error {
        let rows = [self.raw.first, self.raw.end];
        match error.kind() {
            ErrorKind::BadTile => error.with(Values::Tile { given: tile, columns: self.tile_columns(), rows }),
            ErrorKind::BufferTooSmall => error.with(Values::Entries { given, wanted: self.tile_entries(), or_one }),
            _ => error,
        }
    }
}
