//! What is read out of a canvas.

use trirast_sys as sys;

use crate::parts::{Rows, ROW_PIXELS};
use crate::picture::zeros;
use crate::{Error, Format, Sample, TileRows};

impl TileRows<'_> {
    /// Writes the colour of each pixel, the mean of its samples. `pixels` begins with the first pixel of these tile
    /// rows, and rows begin `stride` bytes behind each other, or one at the end of another if it is 0. Bytes between
    /// the rows are unchanged.
    ///
    /// # Errors
    ///
    /// `BufferTooSmall` if the stride is less than a row of pixels, or the last row of pixels ends behind the slice.
    pub fn resolve(&self, format: Format, pixels: &mut [u8], stride: usize) -> Result<(), Error> {
        self.write(pixels, Rows::of_pixels(self, 0, format, stride), |part, own| {
            // SAFETY: the struct has the memory of its tile rows, the slice its length, and the library keeps neither.
            unsafe { sys::trirast_canvas_resolve(&part.raw, format as u32, own.as_mut_ptr().cast(), own.len(), stride) }
        })
    }

    /// Returns the colour of each pixel, row after row without padding.
    ///
    /// # Errors
    ///
    /// `OutOfMemory`.
    pub fn pixels(&self, format: Format) -> Result<Vec<u8>, Error> {
        let mut found = zeros(self.raw.width as usize * format.pixel_bytes() * self.height() as usize)?;
        self.resolve(format, &mut found, 0)?;
        Ok(found)
    }

    /// Writes the colour of one sample of each pixel, unresolved, to rows as of [`resolve`](TileRows::resolve).
    ///
    /// # Errors
    ///
    /// `BadSample` if a pixel has no sample of this index, and those of `resolve`.
    pub fn colors_into(&self, sample: u32, format: Format, pixels: &mut [u8], stride: usize) -> Result<(), Error> {
        self.write(pixels, Rows::of_pixels(self, sample, format, stride), |part, own| {
            let (start, size) = (own.as_mut_ptr().cast(), own.len());
            // SAFETY: as for resolve.
            unsafe { sys::trirast_canvas_colors(&part.raw, sample, format as u32, start, size, stride) }
        })
    }

    /// Returns the colour of one sample of each pixel, row after row without padding.
    ///
    /// # Errors
    ///
    /// `BadSample` or `OutOfMemory`.
    pub fn colors(&self, sample: u32, format: Format) -> Result<Vec<u8>, Error> {
        let mut found = zeros(self.raw.width as usize * format.pixel_bytes() * self.height() as usize)?;
        self.colors_into(sample, format, &mut found, 0)?;
        Ok(found)
    }

    /// Writes the depth of one sample of each pixel. `stride` is in bytes, as everywhere. Entries between the rows of
    /// pixels are unchanged.
    ///
    /// # Errors
    ///
    /// `BadSample` if a pixel has no sample of this index, `BadStride` if the stride is not of whole entries, or
    /// `BufferTooSmall` if it is less than a row of entries, or the last row ends behind the slice.
    pub fn depths_into(&self, sample: u32, depths: &mut [u16], stride: usize) -> Result<(), Error> {
        self.write(depths, Rows::of_entries::<u16>(self, sample, stride), |part, own| {
            // SAFETY: as for resolve.
            unsafe { sys::trirast_canvas_depths(&part.raw, sample, own.as_mut_ptr(), own.len(), stride) }
        })
    }

    /// Returns the depth of one sample of each pixel.
    ///
    /// # Errors
    ///
    /// `BadSample` or `OutOfMemory`.
    pub fn depths(&self, sample: u32) -> Result<Vec<u16>, Error> {
        let mut found = zeros(self.raw.width as usize * self.height() as usize)?;
        self.depths_into(sample, &mut found, 0)?;
        Ok(found)
    }

    /// Writes the id of one sample of each pixel: its red + 256 * green + 65536 * blue. `stride` is in bytes. Entries
    /// between the rows of pixels are unchanged.
    ///
    /// # Errors
    ///
    /// Those of [`depths_into`](TileRows::depths_into).
    pub fn ids_into(&self, sample: u32, ids: &mut [u32], stride: usize) -> Result<(), Error> {
        self.write(ids, Rows::of_entries::<u32>(self, sample, stride), |part, own| {
            // SAFETY: as for resolve.
            unsafe { sys::trirast_canvas_ids(&part.raw, sample, own.as_mut_ptr(), own.len(), stride) }
        })
    }

    /// Returns the id of one sample of each pixel.
    ///
    /// # Errors
    ///
    /// `BadSample` or `OutOfMemory`.
    pub fn ids(&self, sample: u32) -> Result<Vec<u32>, Error> {
        let mut found = zeros(self.raw.width as usize * self.height() as usize)?;
        self.ids_into(sample, &mut found, 0)?;
        Ok(found)
    }

    /// Returns one sample of the pixel in a column and a row of the canvas. It reads the whole tile row: to look at
    /// many samples call `ids` and `depths`.
    ///
    /// # Errors
    ///
    /// `BadSample` if these tile rows have no such pixel, or it has no such sample; or `OutOfMemory`.
    pub fn sample(&self, column: u32, row: u32, sample: u32) -> Result<Sample, Error> {
        let is_inside = column < self.raw.width && self.top() <= row && row - self.top() < self.height();
        if !is_inside {
            return Err(Error::of_status(sys::TRIRAST_STATUS_BAD_SAMPLE));
        }
        let tile_row = row / ROW_PIXELS;
        let piece = self.piece(tile_row, tile_row + 1)?;
        let place = (row - piece.top()) as usize * self.raw.width as usize + column as usize;
        let [red, green, blue, _] = piece.ids(sample)?[place].to_le_bytes();
        Ok(Sample { color: [red, green, blue], depth: piece.depths(sample)?[place] })
    }
}
