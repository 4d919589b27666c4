//! Drawing draw lists, which are JSON texts.

use std::ops::Range;
use std::os::raw::c_char;

use trirast_sys as sys;

use crate::error::checked;
use crate::parts::by_threads;
use crate::picture::zeros;
use crate::{Error, ImageInfo, Picture, TileSize};

/// Reads a draw list, and returns the size of its picture. Nothing is drawn.
///
/// # Errors
///
/// `InputTooLong`, `BadList` or `OutOfMemory`.
pub fn image_info(list: impl AsRef<[u8]>) -> Result<ImageInfo, Error> {
    let list = list.as_ref();
    let mut info = sys::trirast_image_info::default();
    // SAFETY: the pointers are valid for the call, and the library keeps none of them.
    checked(|error| unsafe { sys::trirast_list_info(text(list), list.len(), &mut info, error) })?;
    Ok(ImageInfo {
        width: info.width,
        height: info.height,
        pixel_bytes: info.pixel_bytes as usize,
        header_bytes: info.header_bytes as usize,
    })
}

/// Draws the picture of a draw list on the calling thread.
///
/// # Errors
///
/// `InputTooLong`, `BadList` or `OutOfMemory`.
pub fn draw(list: impl AsRef<[u8]>, tile_size: TileSize) -> Result<Picture, Error> {
    let list = list.as_ref();
    let info = image_info(list)?;
    let mut file = zeros(info.file_bytes())?;
    draw_into(list, tile_size, &mut file)?;
    Ok(Picture::new(info, file))
}

/// Draws the file of a draw list's picture at the beginning of a buffer. Bytes behind the file are unchanged. After an
/// error the whole buffer is unchanged.
///
/// # Errors
///
/// `InputTooLong`, `BadList`, `BufferTooSmall` if the file has more bytes than the buffer, or `OutOfMemory`.
pub fn draw_into(list: impl AsRef<[u8]>, tile_size: TileSize, buffer: &mut [u8]) -> Result<(), Error> {
    let list = list.as_ref();
    // SAFETY: list and buffer are valid for their lengths, do not overlap, and the library keeps neither.
    checked(|error| unsafe {
        sys::trirast_list_draw(text(list), list.len(), tile_size.pixels(), buffer.as_mut_ptr(), buffer.len(), error)
    })
}

/// Draws some tile rows of a draw list's picture, without a header, at the beginning of a buffer. A picture has
/// [`ImageInfo::tile_rows`] of them. After an error the whole buffer is unchanged.
///
/// # Errors
///
/// `InputTooLong`, `BadList`, `BadTileRows` if the range is empty or ends behind the last tile row, `BufferTooSmall` if
/// the rows of pixels have more bytes than the buffer, or `OutOfMemory`.
pub fn draw_rows_into(
    list: impl AsRef<[u8]>,
    tile_size: TileSize,
    rows: Range<u32>,
    buffer: &mut [u8],
) -> Result<(), Error> {
    let list = list.as_ref();
    let (bytes, size) = (buffer.as_mut_ptr(), buffer.len());
    // SAFETY: list and buffer are valid for their lengths, do not overlap, and the library keeps neither.
    checked(|error| unsafe {
        sys::trirast_list_draw_rows(
            text(list),
            list.len(),
            tile_size.pixels(),
            rows.start,
            rows.end,
            bytes,
            size,
            error,
        )
    })
}

/// Draws the picture of a draw list on several threads, which share its tile rows: at least one, and at most
/// one a tile row. The calling thread is one of them, and waits for the others. The picture is the same for
/// every number of threads.
///
/// # Errors
///
/// `InputTooLong`, `BadList` or `OutOfMemory`.
pub fn draw_by_threads(list: impl AsRef<[u8]>, tile_size: TileSize, threads: u32) -> Result<Picture, Error> {
    let list = list.as_ref();
    let info = image_info(list)?;
    let mut file = zeros(info.file_bytes())?;
    file[..info.header_bytes].copy_from_slice(info.header().as_bytes());
    let rows = info.tile_rows(tile_size);
    let each = rows / threads.clamp(1, rows) + u32::from(rows % threads.clamp(1, rows) != 0);
    let part_bytes = (each * tile_size.pixels()) as usize * info.row_bytes();
    let parts = file[info.header_bytes..].chunks_mut(part_bytes).zip(0..).collect();
    by_threads(parts, |(part, number): (&mut [u8], u32)| {
        draw_rows_into(list, tile_size, number * each..rows.min((number + 1) * each), part)
    })?;
    Ok(Picture::new(info, file))
}

pub(crate) fn text(list: &[u8]) -> *const c_char {
    list.as_ptr().cast()
}
