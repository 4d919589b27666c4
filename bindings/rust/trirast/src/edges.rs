//! The edge functions of a triangle at points.

use std::mem::size_of;

use trirast_sys as sys;

use crate::error::done;
use crate::values::{is_far, Values};
use crate::{Error, ErrorKind, Origin};

/// A position: x to the right and y downwards, in 1/256 pixel, -8388608 to 8388607 each.
pub type Position = [i32; 2];

/// The edge functions of a triangle at a point, in 1/65536 square pixel. For a point inside they have the sign of the
/// doubled area, and `a / doubled_area` is the weight of the corner a there.
#[derive(Clone, Copy, Debug, PartialEq, Eq, Hash)]
#[non_exhaustive]
pub struct Edges {
    /// Of the edge across from the corner a.
    pub a: i64,
    /// Of the edge across from the corner b.
    pub b: i64,
    /// Of the edge across from the corner c.
    pub c: i64,
    /// Positive if the triangle runs clockwise on the screen; a + b + c.
    pub doubled_area: i64,
    /// Whether the triangle covers the point by the top-left rule.
    pub covered: bool,
}

/// Returns the edge functions of a triangle of three corners at a point. They are exact.
///
/// # Errors
///
/// `BadPosition` if a coordinate is out of range.
pub fn edges(corners: [Position; 3], point: Position) -> Result<Edges, Error> {
    let mut found = sys::trirast_edges::default();
    write_edges(corners, std::slice::from_ref(&point), std::slice::from_mut(&mut found))?;
    Ok(Edges::of(found))
}

/// Returns the edge functions of a triangle at many points.
///
/// # Errors
///
/// `BadPosition` if a coordinate is out of range, or `OutOfMemory`.
pub fn edges_at(corners: [Position; 3], points: &[Position]) -> Result<Vec<Edges>, Error> {
    let mut found = crate::picture::zeros::<sys::trirast_edges>(points.len())?;
    write_edges(corners, points, &mut found)?;
    let mut all = Vec::new();
    all.try_reserve_exact(found.len()).map_err(|_| Error::out_of_memory())?;
    all.extend(found.into_iter().map(Edges::of));
    Ok(all)
}

impl Edges {
    fn of(raw: sys::trirast_edges) -> Edges {
        let sys::trirast_edges { a, b, c, doubled_area, covered } = raw;
        Edges { a, b, c, doubled_area, covered: covered == 1 }
    }
}

/// Writes those of as many points as there are entries.
fn write_edges(corners: [Position; 3], points: &[Position], found: &mut [sys::trirast_edges]) -> Result<(), Error> {
    let [[ax, ay], [bx, by], [cx, cy]] = corners;
    let raw = sys::trirast_corners { ax, ay, bx, by, cx, cy };
    let (stride, count) = (size_of::<Position>(), points.len().min(found.len()));
    // SAFETY: both arrays have as many elements, all pointers are valid for the call, and the library
    // keeps none of them.
    done(unsafe { sys::trirast_edges_at(&raw, points.as_ptr().cast(), stride, count, found.as_mut_ptr()) })
        .map_err(|error| explain(error, &corners, points))
}

/// An error with the first corner or point that is out of range.
fn explain(error: Error, corners: &[Position], points: &[Position]) -> Error {
    let all = [("corner", corners), ("point", points)];
    let far =
        all.into_iter().find_map(|(name, each)| each.iter().position(|&at| is_far(at)).map(|k| ((name, k), each[k])));
    match (error.kind(), far) {
        (ErrorKind::BadPosition, Some((of, at))) => {
            error.with(Values::Position { of: Some(of), at, origin: Origin::default() })
        }
        _ => error,
    }
}
