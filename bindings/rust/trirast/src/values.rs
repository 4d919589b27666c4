//! What the text of an error has behind the library's line: the values that were passed, and what they may be.

use std::fmt;

use crate::numbers::{HIGH, LOW, MAX_SIDE, ORIGINS, SAMPLE_COUNTS};
use crate::{Origin, Position};

/// What was passed, and what may be.
#[derive(Clone, Copy, Debug, PartialEq, Eq)]
pub(crate) enum Values {
    /// Nothing is known beside the line.
    None,
    /// A width, a height and a number of samples.
    Canvas([u32; 3]),
    /// An index that has to be less than a number.
    Index { given: u32, count: u32 },
    /// Tile rows from one to before another that have to be among others.
    TileRows { given: [u32; 2], own: [u32; 2] },
    /// The column and the row of a tile, of which the columns have this number.
    Tile { given: [u32; 2], columns: u32, rows: [u32; 2] },
    /// Another number of entries than a tile has. Also whether one is enough.
    Entries { given: usize, wanted: usize, or_one: bool },
    /// A stride of parts of an element.
    Stride { given: usize, element: usize },
    /// A buffer without as many rows of bytes at a stride.
    Buffer { given: usize, row: usize, rows: usize, stride: usize },
    /// The number of a draw's vertices.
    Vertices(usize),
    /// A position that is too far away, on the screen or from an origin, and where it stands if it is not said before.
    Position { of: Option<(&'static str, usize)>, at: Position, origin: Origin },
    /// An origin of a canvas on which polygons are drawn.
    Origin(Origin),
    /// Where a ring or a polygon begins and ends, among as many corners or rings.
    Ends { begin: u32, end: u32, count: usize, of: &'static str },
    /// The number of polygons, and that of their colours, depths or boxes.
    Counts { given: usize, wanted: usize },
}

impl fmt::Display for Values {
    fn fmt(&self, formatter: &mut fmt::Formatter<'_>) -> fmt::Result {
        match *self {
            Values::None => Ok(()),
            Values::Canvas([width, height, samples]) => {
                write!(formatter, ": expected 1 to {MAX_SIDE} pixels a side and {SAMPLE_COUNTS} samples a pixel, ")?;
                write!(formatter, "got {width} by {height} and {samples}")
            }
            Values::Index { given, count } => {
                write!(formatter, ": expected 0 to {}, got {given}", count.saturating_sub(1))
            }
            Values::TileRows { given: [first, end], own: [own_first, own_end] } => {
                write!(formatter, ": expected {own_first} to {own_end}, got {first} to {end}")
            }
            Values::Tile { given: [column, row], columns, rows: [first, end] } => {
                let (columns, end) = (columns.saturating_sub(1), end.saturating_sub(1));
                write!(formatter, ": expected column 0 to {columns} and row {first} to {end}, got {column} and {row}")
            }
            Values::Entries { given, wanted, or_one } => {
                write!(formatter, ": expected {}{wanted} entries, got {given}", if or_one { "1 or " } else { "" })
            }
            Values::Stride { given, element } => {
                write!(formatter, ": expected a multiple of {element} bytes, got {given}")
            }
            Values::Buffer { given, row, rows, stride } => write_buffer(formatter, given, row, rows, stride),
            Values::Vertices(count) => write!(formatter, ": {count}"),
            Values::Position { of, at, origin } => {
                if let Some((name, number)) = of {
                    write!(formatter, ": expected {name}[{number}] of {LOW} to {HIGH}")?;
                }
                write_position(formatter, at, origin)
            }
            Values::Origin(Origin { x, y }) => {
                let [least, greatest] = ORIGINS;
                write!(formatter, ": expected an origin of {least} to {greatest} pixels, got {x} and {y}")
            }
            Values::Ends { begin, end, count, of } => {
                write!(formatter, ", got {end} after {begin}, of {count} {of}")
            }
            Values::Counts { given, wanted } => write!(formatter, ", got {given} for {wanted} polygons"),
        }
    }
}

/// Writes what a buffer of rows lacks. All is in bytes.
fn write_buffer(
    formatter: &mut fmt::Formatter<'_>,
    given: usize,
    row: usize,
    rows: usize,
    stride: usize,
) -> fmt::Result {
    let stride = if stride == 0 { row } else { stride };
    if stride < row {
        return write!(formatter, ": expected a stride of at least {row} bytes, or 0, got {stride}");
    }
    let wanted = rows.checked_sub(1).map_or(0, |above| above.saturating_mul(stride).saturating_add(row));
    write!(formatter, ": expected {wanted} bytes for {rows} rows at a stride of {stride}, got {given}")
}

/// Writes a position, and the range of each coordinate that is outside of it.
fn write_position(formatter: &mut fmt::Formatter<'_>, [x, y]: Position, origin: Origin) -> fmt::Result {
    let (in_x, in_y) = (pixels(x.into()), pixels(y.into()));
    write!(formatter, ", got x {x} and y {y} in 1/256 pixel ({in_x} and {in_y} pixels)")?;
    for (name, value, begin) in [("x", x, origin.x), ("y", y, origin.y)] {
        let (least, greatest) = range(begin);
        if (least..=greatest).contains(&value.into()) {
            continue;
        }
        write!(formatter, "; {name}")?;
        if begin != 0 {
            write!(formatter, " with the origin {begin}")?;
        }
        match least <= greatest {
            true => write!(formatter, ": {least} to {greatest} ({} to {} pixels)", pixels(least), pixels(greatest))?,
            false => formatter.write_str(": none")?,
        }
    }
    Ok(())
}

/// The range of a coordinate on the screen and as seen from an origin.
fn range(origin: i32) -> (i64, i64) {
    let moved = 256 * i64::from(origin);
    (LOW + moved.max(0), HIGH + moved.min(0))
}

/// A number of 1/256 pixel in pixels, which is exact.
fn pixels(units: i64) -> f64 {
    units as f64 / 256.0
}

/// Whether a position is too far away.
pub(crate) fn is_far(at: Position) -> bool {
    at.iter().any(|&each| !(LOW..=HIGH).contains(&each.into()))
}
