//! Polygons: rings of corners, each polygon in one colour and at one depth.

use std::mem::{size_of, size_of_val};

use trirast_sys as sys;

use crate::error::checked;
use crate::parts::by_threads;
use crate::picture::zeros;
use crate::values::Values;
use crate::{BatchCause, Error, ErrorKind, FillRule, Origin, Position, State, TileRows};

const _: () = assert!(size_of::<Position>() == size_of::<sys::trirast_corner>());

/// The box of a polygon's corners, as C has it: the least and the greatest x and y of them, in 1/256 pixel of the
/// screen. The box of no corners has `i32::MAX` on its left and at its top, and `i32::MIN` on its right and at its
/// bottom.
#[repr(C)]
#[derive(Clone, Copy, Debug, Default, PartialEq, Eq, Hash)]
pub struct PolygonBox {
    /// The least x.
    pub left: i32,
    /// The least y.
    pub top: i32,
    /// The greatest x, which is in the box.
    pub right: i32,
    /// The greatest y, which is in the box.
    pub bottom: i32,
}

const _: () = assert!(size_of::<PolygonBox>() == size_of::<sys::trirast_box>());

/// Polygons in flat arrays: those of `shapely.to_ragged_array` and of GeoArrow, without the 0 with
/// which their ends begin.
///
/// A polygon is any number of rings, and a ring any number of corners. Rings may be holes, touch and cross each other
/// and themselves. A ring is closed from its last corner to its first, and one of fewer than three corners covers
/// nothing. Which samples a polygon covers is exact: `docs/polygons.md`.
///
/// ```
/// use trirast::{Canvas, Format, Polygons, State};
///
/// // A square of 4 by 4 pixels with a hole of one pixel, and a triangle in the hole. Positions are in 1/256 pixel.
/// let square = [[0, 0], [1024, 0], [1024, 1024], [0, 1024]];
/// let hole = [[256, 256], [512, 256], [512, 512], [256, 512]];
/// let triangle = [[256, 256], [512, 512], [256, 512]];
/// let corners = [&square[..], &hole, &triangle].concat();
/// let polygons = Polygons::new(&corners, &[4, 8, 11], &[2, 3]).colors(&[[255, 0, 0, 255], [0, 0, 255, 255]]);
/// let mut canvas = Canvas::builder(4, 4).samples(16).build()?;
/// canvas.draw_polygons(&polygons, State::new())?;
/// let pixels = canvas.pixels(Format::Rgb8)?;
/// assert_eq!(pixels[..3], [255, 0, 0]);
/// // The triangle covers 7 of the 16 samples of its pixel.
/// assert_eq!(pixels[3 * 5..3 * 6], [0, 0, 112]);
/// # Ok::<(), trirast::Error>(())
/// ```
#[derive(Clone, Copy, Debug, Default, PartialEq, Eq, Hash)]
#[non_exhaustive]
pub struct Polygons<'a> {
    /// Those of all rings, one ring's after another's.
    pub corners: &'a [Position],
    /// Of each ring the index behind its last corner, where the next ring begins.
    pub ring_ends: &'a [u32],
    /// Of each polygon the index behind its last ring, where the next polygon begins.
    pub polygon_ends: &'a [u32],
    /// Of each polygon red, green, blue and alpha. Not looked at if ids are drawn.
    pub colors: &'a [[u8; 4]],
    /// Of each polygon its depth. Without any all are 0.
    pub depths: &'a [u16],
    /// Of each polygon its box, as [`measure`](Polygons::measure) finds it. Without any a call that draws finds them.
    pub boxes: &'a [PolygonBox],
    /// Which samples are inside.
    pub fill_rule: FillRule,
}

impl<'a> Polygons<'a> {
    /// Returns polygons by the even-odd rule, at depth 0, and without colours and boxes.
    pub const fn new(corners: &'a [Position], ring_ends: &'a [u32], polygon_ends: &'a [u32]) -> Polygons<'a> {
        let fill_rule = FillRule::EvenOdd;
        Polygons { corners, ring_ends, polygon_ends, colors: &[], depths: &[], boxes: &[], fill_rule }
    }

    /// Returns these polygons in other colours: red, green, blue and alpha of each.
    #[must_use]
    pub const fn colors(self, colors: &'a [[u8; 4]]) -> Polygons<'a> {
        Polygons { colors, ..self }
    }

    /// Returns these polygons at other depths, one of each.
    #[must_use]
    pub const fn depths(self, depths: &'a [u16]) -> Polygons<'a> {
        Polygons { depths, ..self }
    }

    /// Returns these polygons with their boxes, one of each, as [`measure`](Polygons::measure) finds them. By them a
    /// call that draws looks only at the corners of polygons whose box meets its canvas.
    ///
    /// Boxes are believed. With boxes that do not hold their polygons' corners, some polygons may be left out, each as
    /// a whole, and no error says so. A polygon that has a corner outside of -8388608 to 8388607 is then left out too.
    #[must_use]
    pub const fn boxes(self, boxes: &'a [PolygonBox]) -> Polygons<'a> {
        Polygons { boxes, ..self }
    }

    /// Returns these polygons by another rule.
    #[must_use]
    pub const fn fill_rule(self, fill_rule: FillRule) -> Polygons<'a> {
        Polygons { fill_rule, ..self }
    }

    /// Checks corners and ends, and returns the box of each polygon's corners. Colours, depths and boxes are not looked
    /// at. Polygons with these [`boxes`](Polygons::boxes) may be drawn as often as one likes, on any canvas. So a map
    /// that is drawn again and again, or by parts, takes less time.
    ///
    /// ```
    /// use trirast::{Canvas, Polygons, State};
    ///
    /// let corners = [[0, 0], [512, 0], [0, 256], [9000, 0], [9512, 0], [9000, 256]];
    /// let map = Polygons::new(&corners, &[3, 6], &[1, 2]).colors(&[[255, 0, 0, 255]; 2]);
    /// let boxes = map.measure()?;
    /// assert_eq!((boxes[1].left, boxes[1].top, boxes[1].right, boxes[1].bottom), (9000, 0, 9512, 256));
    /// for left in [0, 32] {
    ///     let mut part = Canvas::builder(32, 32).origin(left, 0).build()?;
    ///     part.draw_polygons(&map.boxes(&boxes), State::new())?;
    /// }
    /// # Ok::<(), trirast::Error>(())
    /// ```
    ///
    /// # Errors
    ///
    /// `OutOfMemory`; or `BadBatch` with `TooManyCorners`, `BadRing`, `LeftOver`, `BadPolygon` or `BadPosition`, as
    /// [`draw_polygons`](TileRows::draw_polygons) without boxes has it.
    pub fn measure(&self) -> Result<Vec<PolygonBox>, Error> {
        let mut boxes = zeros::<PolygonBox>(self.polygon_ends.len())?;
        let (raw, start, count) = (self.raw(State::new()), boxes.as_mut_ptr().cast(), boxes.len());
        // SAFETY: each array has its count, and the library keeps none of them.
        checked(|error| unsafe { sys::trirast_polygons_measure(&raw, start, count, error) })
            .map_err(|error| self.explain(error, Origin::default()))?;
        Ok(boxes)
    }

    /// The boxes that this number of parts of a canvas share, so that not each looks at all corners: none if there is
    /// one part, or if these polygons have boxes. If something is wrong with the polygons there are none either, and
    /// the call that draws says what.
    fn shared_boxes(&self, parts: usize) -> Vec<PolygonBox> {
        if parts < 2 || !self.boxes.is_empty() {
            return Vec::new();
        }
        self.measure().unwrap_or_default()
    }

    /// These polygons with those boxes, if there are any.
    fn with_shared<'b>(&'b self, boxes: &'b [PolygonBox]) -> Polygons<'b> {
        if boxes.is_empty() {
            *self
        } else {
            self.boxes(boxes)
        }
    }

    /// An error of these polygons on a canvas of this origin, with its values.
    fn explain(&self, error: Error, origin: Origin) -> Error {
        let element = error.element().unwrap_or_default();
        let ends = |ends: &[u32], count, of| {
            let begin = element.checked_sub(1).and_then(|before| ends.get(before)).copied().unwrap_or_default();
            ends.get(element).map(|&end| Values::Ends { begin, end, count, of })
        };
        let at = self.corners.get(element).map(|&at| Values::Position { of: None, at, origin: Origin::default() });
        let values = match error.kind() {
            ErrorKind::BadPosition => Some(Values::Origin(origin)),
            ErrorKind::BadBatch(BatchCause::BadPosition) => at,
            ErrorKind::BadBatch(BatchCause::BadRing) => ends(self.ring_ends, self.corners.len(), "corners"),
            ErrorKind::BadBatch(BatchCause::BadPolygon) => ends(self.polygon_ends, self.ring_ends.len(), "rings"),
            ErrorKind::BadBatch(cause) => {
                cause.counts(&self.raw(State::new())).map(|(given, wanted)| Values::Counts { given, wanted })
            }
            _ => None,
        };
        values.map_or(error, |values| error.with(values))
    }

    /// The polygons as C takes them, which must not outlive the arrays.
    fn raw(&self, state: State) -> sys::trirast_polygons {
        sys::trirast_polygons {
            struct_size: size_of::<sys::trirast_polygons>() as u32,
            fill_rule: self.fill_rule as u32,
            corners: self.corners.as_ptr().cast(),
            corner_count: self.corners.len(),
            ring_ends: self.ring_ends.as_ptr(),
            ring_count: self.ring_ends.len(),
            polygon_ends: self.polygon_ends.as_ptr(),
            polygon_count: self.polygon_ends.len(),
            colors: self.colors.as_ptr(),
            color_count: self.colors.len(),
            depths: self.depths.as_ptr(),
            depth_count: self.depths.len(),
            boxes: self.boxes.as_ptr().cast(),
            box_count: self.boxes.len(),
            state: state.raw(0, 0),
        }
    }
}

impl TileRows<'_> {
    /// Draws polygons over what is stored, one after another. Each makes of a sample that it covers what a triangle of
    /// one colour and one depth does in this state, of which the topology and what is culled are not used. Scratch
    /// memory is allocated for each thread: 32 bytes for each pixel of the width, and 1,056 by the nonzero rule. If
    /// there are several threads and the polygons have no boxes, these are found once, for all threads.
    ///
    /// # Errors
    ///
    /// `OutOfMemory`; `BadPosition` if the canvas's origin is not -32,768 to 28,672; or `BadBatch` with the first error
    /// of the polygons: `TooManyCorners`, `BadRing`, `BadPolygon` or, if there are no boxes, `BadPosition`, which name
    /// the ring, the polygon or the corner; `LeftOver` if the last ring ends before the last corner, or the last
    /// polygon before the last ring; or the cause of fewer boxes, colours or depths than polygons.
    pub fn draw_polygons(&mut self, polygons: &Polygons<'_>, state: State) -> Result<(), Error> {
        let parts = self.with_scratch(polygons.fill_rule)?;
        let boxes = polygons.shared_boxes(parts.len());
        let polygons = polygons.with_shared(&boxes);
        by_threads(parts, |(mut part, mut scratch)| {
            let (raw, size) = (polygons.raw(state), size_of_val(&scratch[..]));
            let start = scratch.as_mut_ptr().cast();
            // SAFETY: the struct has the memory of its tile rows, each array its count, and the library
            // keeps none of them.
            checked(|error| unsafe { sys::trirast_canvas_draw_polygons(&mut part.raw, &raw, start, size, error) })
        })
        .map_err(|error| polygons.explain(error, self.origin()))
    }

    /// Draws polygons over what is stored, with the id of each in place of a colour: `first_id` and its index. Channels
    /// that are kept and blending are not used, but alpha becomes 255 unless it is kept.
    ///
    /// # Errors
    ///
    /// Those of [`draw_polygons`](TileRows::draw_polygons) but `TooFewColors`, and `BadBatch` with `TooManyIds` if the
    /// id of a polygon would be greater than 16,777,215.
    pub fn draw_polygon_ids(&mut self, polygons: &Polygons<'_>, first_id: u32, state: State) -> Result<(), Error> {
        let parts = self.with_scratch(polygons.fill_rule)?;
        let boxes = polygons.shared_boxes(parts.len());
        let polygons = polygons.with_shared(&boxes);
        by_threads(parts, |(mut part, mut scratch)| {
            let (raw, size) = (polygons.raw(state), size_of_val(&scratch[..]));
            let start = scratch.as_mut_ptr().cast();
            // SAFETY: as for draw_polygons.
            checked(|error| unsafe {
                sys::trirast_canvas_draw_polygon_ids(&mut part.raw, &raw, first_id, start, size, error)
            })
        })
        .map_err(|error| polygons.explain(error, self.origin()))
    }

    /// The parts among which a call shares these tile rows, each with scratch memory of its own. All of it is there
    /// before one part is drawn, so that nothing is changed if it is not.
    fn with_scratch(&self, fill_rule: FillRule) -> Result<Vec<(TileRows<'_>, Vec<u64>)>, Error> {
        // SAFETY: the struct is valid.
        let size = unsafe { sys::trirast_polygons_scratch(&self.raw, fill_rule as u32) };
        self.shared().into_iter().map(|part| Ok((part, zeros(size / size_of::<u64>())?))).collect()
    }
}
