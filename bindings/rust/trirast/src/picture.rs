//! Pictures, their sizes, and the tiles in which they are drawn.

use crate::Error;

/// The width and height of a tile in pixels. It changes no byte of a picture.
#[derive(Clone, Copy, Debug, Default, PartialEq, Eq)]
pub enum TileSize {
    /// 8 by 8 pixels.
    Eight = 8,
    /// 16 by 16 pixels.
    Sixteen = 16,
    /// 32 by 32 pixels.
    #[default]
    ThirtyTwo = 32,
    /// 64 by 64 pixels.
    SixtyFour = 64,
}

impl TileSize {
    /// Returns the tile size in pixels.
    pub fn pixels(self) -> u32 {
        self as u32
    }
}

/// The size of a picture and of its file.
#[derive(Clone, Copy, Debug, PartialEq, Eq)]
pub struct ImageInfo {
    /// In pixels.
    pub width: u32,
    /// In pixels.
    pub height: u32,
    /// Bytes of a pixel: 3 for colours (P6), 2 for depths (P5).
    pub pixel_bytes: usize,
    /// Bytes of the file before its first pixel.
    pub header_bytes: usize,
}

impl ImageInfo {
    /// Returns the bytes of a row of pixels.
    pub fn row_bytes(&self) -> usize {
        self.width as usize * self.pixel_bytes
    }

    /// Returns the bytes of the whole file.
    pub fn file_bytes(&self) -> usize {
        self.header_bytes + self.row_bytes() * self.height as usize
    }

    /// Returns how many tile rows the picture has.
    pub fn tile_rows(&self, tile_size: TileSize) -> u32 {
        (self.height + tile_size.pixels() - 1) / tile_size.pixels()
    }

    /// Returns the header of the file, which says the size and the greatest value.
    pub(crate) fn header(&self) -> String {
        let (form, greatest) = if self.pixel_bytes == 3 { (6, 255) } else { (5, 65535) };
        format!("P{form}\n{} {}\n{greatest}\n", self.width, self.height)
    }
}

/// A picture: a binary PPM file of colours, or a binary PGM file of depths.
#[derive(Clone, Debug, PartialEq, Eq)]
pub struct Picture {
    info: ImageInfo,
    file: Vec<u8>,
}

impl Picture {
    pub(crate) fn new(info: ImageInfo, file: Vec<u8>) -> Picture {
        Picture { info, file }
    }

    /// Returns the size of the picture.
    pub fn info(&self) -> ImageInfo {
        self.info
    }

    /// Returns the bytes of the whole file.
    pub fn file(&self) -> &[u8] {
        &self.file
    }

    /// Returns the pixels, row after row from the top: three bytes each of a picture of colours, two of one of
    /// depths, the high one first.
    pub fn pixels(&self) -> &[u8] {
        &self.file[self.info.header_bytes..]
    }

    /// Returns the bytes of a pixel. Returns `None` if the picture has no such column or row.
    pub fn pixel(&self, column: u32, row: u32) -> Option<&[u8]> {
        let is_inside = column < self.info.width && row < self.info.height;
        let first = row as usize * self.info.row_bytes() + column as usize * self.info.pixel_bytes;
        is_inside.then(|| &self.pixels()[first..first + self.info.pixel_bytes])
    }

    /// Returns the bytes of the whole file, without a copy.
    pub fn into_file(self) -> Vec<u8> {
        self.file
    }
}

/// Returns zeros to draw into. If they cannot be allocated, returns the error of that.
pub(crate) fn zeros<T: Clone + Default>(count: usize) -> Result<Vec<T>, Error> {
    let mut buffer = Vec::new();
    buffer.try_reserve_exact(count).map_err(|_| Error::out_of_memory())?;
    buffer.resize(count, T::default());
    Ok(buffer)
}
