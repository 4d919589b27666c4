//! The parts of a canvas among which calls share it, and those of their buffers.

use std::marker::PhantomData;
use std::mem::size_of;
use std::sync::Mutex;
use std::{panic, thread};

use trirast_sys as sys;

use crate::error::done;
use crate::values::Values;
use crate::{Error, ErrorKind, Format, TileRows};

/// The rows of pixels of a tile row.
pub(crate) const ROW_PIXELS: u32 = sys::TRIRAST_TILE_SIZE;

/// The first row of pixels of a tile row, or the height of a canvas.
pub(crate) fn pixel_row(canvas: &sys::trirast_canvas, tile_row: u32) -> u32 {
    canvas.height.min(tile_row.saturating_mul(ROW_PIXELS))
}

/// Rows in a buffer for the samples of an index: the bytes of an element, the elements that a row has, the stride that
/// was passed, in bytes, and in elements, if these are whole.
#[derive(Clone, Copy)]
pub(crate) struct Rows {
    sample: u32,
    element: usize,
    row: usize,
    given: usize,
    stride: Option<usize>,
}

impl Rows {
    pub(crate) fn of_pixels(canvas: &TileRows<'_>, sample: u32, format: Format, given: usize) -> Rows {
        let row = canvas.raw.width as usize * format.pixel_bytes();
        Rows { sample, element: 1, row, given, stride: Some(if given == 0 { row } else { given }) }
    }

    pub(crate) fn of_entries<T>(canvas: &TileRows<'_>, sample: u32, given: usize) -> Rows {
        let (row, element) = (canvas.raw.width as usize, size_of::<T>());
        let whole = (given % element == 0).then_some(given / element);
        Rows { sample, element, row, given, stride: if given == 0 { Some(row) } else { whole } }
    }

    /// An error of a call on these rows of a buffer of this length, with its values.
    pub(crate) fn explain(self, error: Error, canvas: &TileRows<'_>, length: usize) -> Error {
        let Rows { sample, element, row, given, .. } = self;
        match error.kind() {
            ErrorKind::BadSample => error.with(Values::Index { given: sample, count: canvas.samples() }),
            ErrorKind::BadStride => error.with(Values::Stride { given, element }),
            ErrorKind::BufferTooSmall => {
                let (row, rows) = (row * element, canvas.height() as usize);
                error.with(Values::Buffer { given: length.saturating_mul(element), row, rows, stride: given })
            }
            _ => error,
        }
    }

    /// The stride, if a buffer of this length has as many rows.
    fn stride_in(self, length: usize, rows: u32) -> Option<usize> {
        let stride = self.stride.filter(|&stride| stride >= self.row)?;
        let above = (rows as usize).saturating_sub(1).checked_mul(stride)?;
        (above.checked_add(self.row)? <= length).then_some(stride)
    }
}

/// A buffer that can be cut in two.
pub(crate) trait Cut: Sized {
    fn length(&self) -> usize;
    fn cut(self, at: usize) -> (Self, Self);
}

impl<T> Cut for &[T] {
    fn length(&self) -> usize {
        self.len()
    }
    fn cut(self, at: usize) -> (Self, Self) {
        self.split_at(at)
    }
}

impl<T> Cut for &mut [T] {
    fn length(&self) -> usize {
        self.len()
    }
    fn cut(self, at: usize) -> (Self, Self) {
        self.split_at_mut(at)
    }
}

impl TileRows<'_> {
    /// Those from `first` to before `end`, which only calls that read may use beside these.
    pub(crate) fn piece(&self, first: u32, end: u32) -> Result<TileRows<'_>, Error> {
        let mut raw = self.raw;
        // SAFETY: both structs are valid, and this one has the memory of its tile rows.
        let split = done(unsafe { sys::trirast_canvas_split(&self.raw, first, end, &mut raw) });
        split.map_err(|error| match error.kind() {
            ErrorKind::BadTileRows => {
                error.with(Values::TileRows { given: [first, end], own: [self.raw.first, self.raw.end] })
            }
            _ => error,
        })?;
        Ok(TileRows { raw, threads: 1, _own: None, lent: PhantomData })
    }

    /// These tile rows in this many parts.
    pub(crate) fn pieces(&self, parts: u32) -> Vec<TileRows<'_>> {
        let (first, count) = (self.raw.first, self.raw.end - self.raw.first);
        let begin_of = |part: u32| first + (u64::from(count) * u64::from(part) / u64::from(parts)) as u32;
        // A part has tile rows of the whole, so none is refused.
        (0..parts).filter_map(|part| self.piece(begin_of(part), begin_of(part + 1)).ok()).collect()
    }

    /// The parts among which a call shares these tile rows.
    pub(crate) fn shared(&self) -> Vec<TileRows<'_>> {
        self.pieces(self.threads.min(self.raw.end - self.raw.first).max(1))
    }

    /// The parts among which a call shares these tile rows, each with its part of a buffer. If that is too small, there
    /// is one part, so that none is done before the library reports it.
    pub(crate) fn with_parts_of<B: Cut>(&self, buffer: B, rows: Rows) -> Vec<(TileRows<'_>, B)> {
        let stride = rows.stride_in(buffer.length(), self.height());
        let parts = if stride.is_some() { self.shared() } else { self.pieces(1) };
        let (count, mut shares, mut rest) = (parts.len(), Vec::with_capacity(parts.len()), buffer);
        for (number, part) in parts.into_iter().enumerate() {
            let length = if number + 1 == count { rest.length() } else { part.height() as usize * stride.unwrap_or(0) };
            let (share, behind) = rest.cut(length);
            shares.push((part, share));
            rest = behind;
        }
        shares
    }

    /// Makes a call that writes rows of pixels, on each part with that part of a buffer.
    pub(crate) fn write<T: Send>(
        &self,
        buffer: &mut [T],
        rows: Rows,
        call: impl Fn(&TileRows<'_>, &mut [T]) -> u32 + Sync,
    ) -> Result<(), Error> {
        let length = buffer.len();
        by_threads(self.with_parts_of(buffer, rows), |(part, share)| done(call(&part, share)))
            .map_err(|error| rows.explain(error, self, length))
    }
}

/// Makes a call on each part: of the last on the calling thread, and of each other on a thread of its own, or on the
/// calling one if that does not begin before it. Returns an error if one call does.
pub(crate) fn by_threads<P: Send>(parts: Vec<P>, call: impl Fn(P) -> Result<(), Error> + Sync) -> Result<(), Error> {
    let call = &call;
    // Whoever comes first takes a part.
    let parts: Vec<_> = parts.into_iter().map(|part| Mutex::new(Some(part))).collect();
    let take = |part: &Mutex<Option<P>>| part.lock().ok().and_then(|mut held| held.take()).map_or(Ok(()), call);
    let take = &take;
    let others = parts.split_last().map_or(&parts[..], |(_, others)| others);
    thread::scope(|scope| {
        let start = |part| thread::Builder::new().spawn_scoped(scope, move || take(part)).ok();
        let started: Vec<_> = others.iter().filter_map(start).collect();
        let own = parts.iter().rev().map(take).fold(Ok(()), Result::and);
        started.into_iter().fold(own, |result, one| match one.join() {
            Ok(done) => result.and(done),
            Err(thrown) => panic::resume_unwind(thrown),
        })
    })
}
