//! What kind of error it is, and why a list or a batch is refused.
//!
//! Written by `python3 -m tools.interface` from `interface/numbers.toml`.

use std::fmt;

use trirast_sys as sys;

use crate::Error;

/// What kind of error it is.
#[derive(Clone, Copy, Debug, PartialEq, Eq, Hash)]
#[non_exhaustive]
pub enum ErrorKind {
    /// The text is no draw list: `cause` and `draw` of the error say why and where.
    BadList(ListCause),
    /// The draw list has more than 67,108,864 bytes.
    InputTooLong,
    /// `malloc` or `realloc` returned NULL.
    OutOfMemory,
    /// The buffer has fewer bytes than the call would write, or its rows are too short.
    BufferTooSmall,
    /// The tile size is none of 8, 16, 32 and 64.
    BadTileSize,
    /// The picture or the canvas has no such tile rows: the call says which it takes.
    BadTileRows,
    /// A size member is neither 0 nor the library's own.
    BadStructSize,
    /// No such canvas: the members of `trirast_canvas` say which sides, samples and channels it has.
    BadCanvas,
    /// The memory of the samples is not of the size that the tile rows need, NULL or misaligned, or the canvas was
    /// never initialized.
    BadMemory,
    /// The number is not that of a format.
    BadFormat,
    /// A pixel has no sample of this index: 0 to its samples less 1.
    BadSample,
    /// A position is outside of -8388608 to 8388607 in 1/256 pixel, or an origin outside of -32768 to 28672 pixels.
    BadPosition,
    /// The picture has no such pixel.
    BadPixel,
    /// The list has no such draw, or the draw no such triangle.
    BadTriangle,
    /// The batch cannot be drawn: `cause`, `draw` and `element` of the error say why and where.
    BadBatch(BatchCause),
    /// A stride is too short, too long or no multiple of 4 bytes or of an entry, as the call says; 0 is always right.
    BadStride,
    /// The tile rows have no such tile.
    BadTile,
    /// An index has none of these sizes: 2 or 4 bytes.
    BadIndexSize,
    /// A status that this crate does not know: the library is a later one.
    Other(u32),
}

impl ErrorKind {
    pub(crate) fn of(raw: &sys::trirast_error) -> ErrorKind {
        match raw.status {
            sys::TRIRAST_STATUS_BAD_LIST => ErrorKind::BadList(ListCause::of_number(raw.cause)),
            sys::TRIRAST_STATUS_INPUT_TOO_LONG => ErrorKind::InputTooLong,
            sys::TRIRAST_STATUS_OUT_OF_MEMORY => ErrorKind::OutOfMemory,
            sys::TRIRAST_STATUS_BUFFER_TOO_SMALL => ErrorKind::BufferTooSmall,
            sys::TRIRAST_STATUS_BAD_TILE_SIZE => ErrorKind::BadTileSize,
            sys::TRIRAST_STATUS_BAD_TILE_ROWS => ErrorKind::BadTileRows,
            sys::TRIRAST_STATUS_BAD_STRUCT_SIZE => ErrorKind::BadStructSize,
            sys::TRIRAST_STATUS_BAD_CANVAS => ErrorKind::BadCanvas,
            sys::TRIRAST_STATUS_BAD_MEMORY => ErrorKind::BadMemory,
            sys::TRIRAST_STATUS_BAD_FORMAT => ErrorKind::BadFormat,
            sys::TRIRAST_STATUS_BAD_SAMPLE => ErrorKind::BadSample,
            sys::TRIRAST_STATUS_BAD_POSITION => ErrorKind::BadPosition,
            sys::TRIRAST_STATUS_BAD_PIXEL => ErrorKind::BadPixel,
            sys::TRIRAST_STATUS_BAD_TRIANGLE => ErrorKind::BadTriangle,
            sys::TRIRAST_STATUS_BAD_BATCH => ErrorKind::BadBatch(BatchCause::of_number(raw.cause)),
            sys::TRIRAST_STATUS_BAD_STRIDE => ErrorKind::BadStride,
            sys::TRIRAST_STATUS_BAD_TILE => ErrorKind::BadTile,
            sys::TRIRAST_STATUS_BAD_INDEX_SIZE => ErrorKind::BadIndexSize,
            other => ErrorKind::Other(other),
        }
    }
}

/// Why a text is no draw list: the numbers and names of `docs/draw-list.md`. Its text is the library's.
#[derive(Clone, Copy, Debug, PartialEq, Eq, Hash)]
#[non_exhaustive]
pub enum ListCause {
    /// The bytes are no JSON text.
    NotJson,
    /// A key that a list does not have.
    UnknownKey,
    /// A key that a list must have is not there.
    MissingKey,
    /// A value of another kind, as a string instead of an integer.
    WrongKind,
    /// A number outside of its range.
    OutOfRange,
    /// An index that names no vertex of its draw.
    BadIndex,
    /// More elements than a list may have.
    TooMany,
    /// A draw with two of triangles, strip and quads.
    TwoLists,
    /// A quad that is not strictly convex.
    NotConvex,
    /// A number that this crate does not know: the library is a later one.
    Other(u32),
}

impl ListCause {
    pub(crate) fn of_number(number: u32) -> ListCause {
        match number {
            sys::TRIRAST_LIST_NOT_JSON => ListCause::NotJson,
            sys::TRIRAST_LIST_UNKNOWN_KEY => ListCause::UnknownKey,
            sys::TRIRAST_LIST_MISSING_KEY => ListCause::MissingKey,
            sys::TRIRAST_LIST_WRONG_KIND => ListCause::WrongKind,
            sys::TRIRAST_LIST_OUT_OF_RANGE => ListCause::OutOfRange,
            sys::TRIRAST_LIST_BAD_INDEX => ListCause::BadIndex,
            sys::TRIRAST_LIST_TOO_MANY => ListCause::TooMany,
            sys::TRIRAST_LIST_TWO_LISTS => ListCause::TwoLists,
            sys::TRIRAST_LIST_NOT_CONVEX => ListCause::NotConvex,
            other => ListCause::Other(other),
        }
    }

    fn number(self) -> u32 {
        match self {
            ListCause::NotJson => sys::TRIRAST_LIST_NOT_JSON,
            ListCause::UnknownKey => sys::TRIRAST_LIST_UNKNOWN_KEY,
            ListCause::MissingKey => sys::TRIRAST_LIST_MISSING_KEY,
            ListCause::WrongKind => sys::TRIRAST_LIST_WRONG_KIND,
            ListCause::OutOfRange => sys::TRIRAST_LIST_OUT_OF_RANGE,
            ListCause::BadIndex => sys::TRIRAST_LIST_BAD_INDEX,
            ListCause::TooMany => sys::TRIRAST_LIST_TOO_MANY,
            ListCause::TwoLists => sys::TRIRAST_LIST_TWO_LISTS,
            ListCause::NotConvex => sys::TRIRAST_LIST_NOT_CONVEX,
            ListCause::Other(other) => other,
        }
    }
}

impl fmt::Display for ListCause {
    fn fmt(&self, formatter: &mut fmt::Formatter<'_>) -> fmt::Result {
        Error::of_cause(sys::TRIRAST_STATUS_BAD_LIST, self.number()).fmt(formatter)
    }
}

/// Why a batch of triangles, or polygons, cannot be drawn. [`Error::element`] is what each names. Its text is the
/// library's.
#[derive(Clone, Copy, Debug, PartialEq, Eq, Hash)]
#[non_exhaustive]
pub enum BatchCause {
    /// Fewer vertices are left than the draw has. No function of the bindings passes such a batch.
    TooFewVertices,
    /// Fewer indices are left than the draw has. No function of the bindings passes such a batch.
    TooFewIndices,
    /// Not reported: 15 to 23 say which number is outside of its range.
    BadState,
    /// The indices of the draw, or without any its vertices, make no whole triangles or quads.
    NotWhole,
    /// The id of a triangle or a polygon would be greater than 16,777,215.
    TooManyIds,
    /// An index, which is the error's value, is not less than the draw's `vertex_count`. The element is the index.
    BadIndex,
    /// A vertex that an index names, or a corner, is outside of -8388608 to 8388607 in 1/256 pixel, on the screen or as
    /// seen from the canvas's origin. The element is the vertex or corner.
    BadPosition,
    /// A quad is not strictly convex. The element is the quad.
    NotConvex,
    /// A vertex or an index is in no draw, or a corner or a ring is in no polygon.
    LeftOver,
    /// Polygons have 2^32 corners or more.
    TooManyCorners,
    /// A ring ends before it begins, or behind the last corner. The element is the ring.
    BadRing,
    /// A polygon ends before it begins, or behind the last ring. The element is the polygon.
    BadPolygon,
    /// There are fewer colours than polygons.
    TooFewColors,
    /// There are depths, but fewer than polygons.
    TooFewDepths,
    /// `topology` is not the number of a topology. No function of the bindings passes such a state.
    BadTopology,
    /// `cull` is not the number of a culling. No function of the bindings passes such a state.
    BadCull,
    /// `depth_test` is not the number of a depth test. No function of the bindings passes such a state.
    BadDepthTest,
    /// `depth_write` is neither 0 nor 1. No function of the bindings passes such a state.
    BadDepthWrite,
    /// A bit of `keep` is not that of a channel. No function of the bindings passes such a state.
    BadKeep,
    /// `scissor_enable` is neither 0 nor 1. No function of the bindings passes such a state.
    BadScissorEnable,
    /// A factor of `blend` is not the number of a factor. No function of the bindings passes such a state.
    BadFactor,
    /// An operation of `blend` is not the number of an operation. No function of the bindings passes such a state.
    BadOperation,
    /// `fill_rule` is not the number of a fill rule. No function of the bindings passes such a state.
    BadFillRule,
    /// There are boxes, but fewer than polygons.
    TooFewBoxes,
    /// A number that this crate does not know: the library is a later one.
    Other(u32),
}

impl BatchCause {
    pub(crate) fn of_number(number: u32) -> BatchCause {
        match number {
            sys::TRIRAST_BATCH_TOO_FEW_VERTICES => BatchCause::TooFewVertices,
            sys::TRIRAST_BATCH_TOO_FEW_INDICES => BatchCause::TooFewIndices,
            sys::TRIRAST_BATCH_BAD_STATE => BatchCause::BadState,
            sys::TRIRAST_BATCH_NOT_WHOLE => BatchCause::NotWhole,
            sys::TRIRAST_BATCH_TOO_MANY_IDS => BatchCause::TooManyIds,
            sys::TRIRAST_BATCH_BAD_INDEX => BatchCause::BadIndex,
            sys::TRIRAST_BATCH_BAD_POSITION => BatchCause::BadPosition,
            sys::TRIRAST_BATCH_NOT_CONVEX => BatchCause::NotConvex,
            sys::TRIRAST_BATCH_LEFT_OVER => BatchCause::LeftOver,
            sys::TRIRAST_BATCH_TOO_MANY_CORNERS => BatchCause::TooManyCorners,
            sys::TRIRAST_BATCH_BAD_RING => BatchCause::BadRing,
            sys::TRIRAST_BATCH_BAD_POLYGON => BatchCause::BadPolygon,
            sys::TRIRAST_BATCH_TOO_FEW_COLORS => BatchCause::TooFewColors,
            sys::TRIRAST_BATCH_TOO_FEW_DEPTHS => BatchCause::TooFewDepths,
            sys::TRIRAST_BATCH_BAD_TOPOLOGY => BatchCause::BadTopology,
            sys::TRIRAST_BATCH_BAD_CULL => BatchCause::BadCull,
            sys::TRIRAST_BATCH_BAD_DEPTH_TEST => BatchCause::BadDepthTest,
            sys::TRIRAST_BATCH_BAD_DEPTH_WRITE => BatchCause::BadDepthWrite,
            sys::TRIRAST_BATCH_BAD_KEEP => BatchCause::BadKeep,
            sys::TRIRAST_BATCH_BAD_SCISSOR_ENABLE => BatchCause::BadScissorEnable,
            sys::TRIRAST_BATCH_BAD_FACTOR => BatchCause::BadFactor,
            sys::TRIRAST_BATCH_BAD_OPERATION => BatchCause::BadOperation,
            sys::TRIRAST_BATCH_BAD_FILL_RULE => BatchCause::BadFillRule,
            sys::TRIRAST_BATCH_TOO_FEW_BOXES => BatchCause::TooFewBoxes,
            other => BatchCause::Other(other),
        }
    }

    fn number(self) -> u32 {
        match self {
            BatchCause::TooFewVertices => sys::TRIRAST_BATCH_TOO_FEW_VERTICES,
            BatchCause::TooFewIndices => sys::TRIRAST_BATCH_TOO_FEW_INDICES,
            BatchCause::BadState => sys::TRIRAST_BATCH_BAD_STATE,
            BatchCause::NotWhole => sys::TRIRAST_BATCH_NOT_WHOLE,
            BatchCause::TooManyIds => sys::TRIRAST_BATCH_TOO_MANY_IDS,
            BatchCause::BadIndex => sys::TRIRAST_BATCH_BAD_INDEX,
            BatchCause::BadPosition => sys::TRIRAST_BATCH_BAD_POSITION,
            BatchCause::NotConvex => sys::TRIRAST_BATCH_NOT_CONVEX,
            BatchCause::LeftOver => sys::TRIRAST_BATCH_LEFT_OVER,
            BatchCause::TooManyCorners => sys::TRIRAST_BATCH_TOO_MANY_CORNERS,
            BatchCause::BadRing => sys::TRIRAST_BATCH_BAD_RING,
            BatchCause::BadPolygon => sys::TRIRAST_BATCH_BAD_POLYGON,
            BatchCause::TooFewColors => sys::TRIRAST_BATCH_TOO_FEW_COLORS,
            BatchCause::TooFewDepths => sys::TRIRAST_BATCH_TOO_FEW_DEPTHS,
            BatchCause::BadTopology => sys::TRIRAST_BATCH_BAD_TOPOLOGY,
            BatchCause::BadCull => sys::TRIRAST_BATCH_BAD_CULL,
            BatchCause::BadDepthTest => sys::TRIRAST_BATCH_BAD_DEPTH_TEST,
            BatchCause::BadDepthWrite => sys::TRIRAST_BATCH_BAD_DEPTH_WRITE,
            BatchCause::BadKeep => sys::TRIRAST_BATCH_BAD_KEEP,
            BatchCause::BadScissorEnable => sys::TRIRAST_BATCH_BAD_SCISSOR_ENABLE,
            BatchCause::BadFactor => sys::TRIRAST_BATCH_BAD_FACTOR,
            BatchCause::BadOperation => sys::TRIRAST_BATCH_BAD_OPERATION,
            BatchCause::BadFillRule => sys::TRIRAST_BATCH_BAD_FILL_RULE,
            BatchCause::TooFewBoxes => sys::TRIRAST_BATCH_TOO_FEW_BOXES,
            BatchCause::Other(other) => other,
        }
    }

    /// Of polygons how many there are of what the cause counts, and how many there have to be.
    pub(crate) fn counts(self, polygons: &sys::trirast_polygons) -> Option<(usize, usize)> {
        match self {
            BatchCause::TooFewColors => Some((polygons.color_count, polygons.polygon_count)),
            BatchCause::TooFewDepths => Some((polygons.depth_count, polygons.polygon_count)),
            BatchCause::TooFewBoxes => Some((polygons.box_count, polygons.polygon_count)),
            _ => None,
        }
    }
}

impl fmt::Display for BatchCause {
    fn fmt(&self, formatter: &mut fmt::Formatter<'_>) -> fmt::Result {
        Error::of_cause(sys::TRIRAST_STATUS_BAD_BATCH, self.number()).fmt(formatter)
    }
}

#[cfg(test)]
mod tests {
    use super::{BatchCause, ListCause};

    /// Each number for which the library has a text of its own has a name here, and no other one has.
    #[test]
    fn each_cause_has_a_name() {
        let (no_list, no_batch) = (ListCause::Other(999).to_string(), BatchCause::Other(999).to_string());
        assert_eq!((no_list.as_str(), no_batch.as_str()), ("not a draw list", "wrong batch"));
        let mut batches = 0;
        for number in 0..1000 {
            let (list, batch) = (ListCause::of_number(number), BatchCause::of_number(number));
            // The library has a text for 8 too, running out of memory, which is a status here.
            assert!(number == 8 || (list.to_string() == no_list) == (list == ListCause::Other(number)), "{list:?}");
            assert_eq!(batch.to_string() == no_batch, batch == BatchCause::Other(number), "{batch:?}");
            assert_eq!((list.number(), batch.number()), (number, number));
            batches += usize::from(batch != BatchCause::Other(number));
        }
        assert!(batches >= 24);
        assert_eq!(BatchCause::BadRing.to_string(), "one ring ends before it begins, or behind the last corner");
        assert_eq!(ListCause::BadIndex.to_string(), "list fault 6 BadIndex");
    }
}
