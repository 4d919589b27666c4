//! Triangles in clip space, cut and projected for a canvas: `docs/clipping.md` of the repository.

use std::fmt;

use crate::cut_triangle::{within, Corner, Ears, Place, Plane};
use crate::Vertex;

/// A position in clip space: x, y, z and w. It is in front of the eye if w is positive. x / w goes to the right and y /
/// w upwards, each from -1 to 1 over the viewport.
pub type ClipPosition = [f32; 4];

/// What z / w is at the near plane. At the far plane it is 1.
#[derive(Clone, Copy, Debug, Default, PartialEq, Eq, Hash)]
#[non_exhaustive]
pub enum NearPlane {
    /// 0, as in Direct3D and Vulkan.
    #[default]
    AtZero,
    /// -1, as in OpenGL.
    AtMinusOne,
}

/// Which planes cut a triangle beside near and far.
#[derive(Clone, Copy, Debug, Default, PartialEq, Eq, Hash)]
#[non_exhaustive]
pub enum Sides {
    /// Those of the guard band, far outside of the viewport, so that few triangles are cut. What lies outside of the
    /// viewport may be drawn or not; a scissor leaves it out. A canvas takes the vertices if its origin is 0 or in the
    /// viewport, corners included.
    #[default]
    GuardBand,
    /// Those of the viewport, but for the rounding to 1/256 pixel.
    Viewport,
}

/// Why triangles in clip space are refused.
#[derive(Clone, Copy, Debug, PartialEq, Eq, Hash)]
#[non_exhaustive]
pub enum ClipError {
    /// The first pixel of the viewport is not -16,384 to 16,384, or a side is not 1 to 16,384 pixels.
    BadViewport,
    /// The index at this place names no position.
    BadIndex(usize),
    /// There are more triangles than 4,294,967,295, or positions and cuts together.
    TooMany,
    /// An allocation failed.
    OutOfMemory,
}

impl fmt::Display for ClipError {
    fn fmt(&self, formatter: &mut fmt::Formatter<'_>) -> fmt::Result {
        match self {
            ClipError::BadViewport => formatter.write_str("no such viewport"),
            ClipError::BadIndex(place) => write!(formatter, "index {place} names no position"),
            ClipError::TooMany => formatter.write_str("too many positions or triangles"),
            ClipError::OutOfMemory => formatter.write_str("out of memory"),
        }
    }
}

impl std::error::Error for ClipError {}

/// How to project triangles in clip space.
///
/// ```
/// use trirast::{Canvas, Clip, State};
///
/// // A floor from 5 units behind the eye to 40 before it. The near plane is at w = 0.1, where z is 0.
/// let positions =
///     [[-20.0, -2.0, -5.1, -5.0], [20.0, -2.0, -5.1, -5.0], [20.0, -2.0, 39.9, 40.0], [-20.0, -2.0, 39.9, 40.0]];
/// let mut seen = Clip::new(320, 180).triangles(&positions, &[0, 1, 2, 0, 2, 3])?;
/// let green = seen.attributes(&[0.0, 80.0, 240.0, 160.0]).unwrap();
/// for (vertex, green) in seen.vertices.iter_mut().zip(green) {
///     (vertex.red, vertex.green, vertex.alpha) = (255, green.round() as u8, 255);
/// }
/// let mut canvas = Canvas::builder(320, 180).samples(4).build()?;
/// canvas.draw(&seen.vertices, &seen.indices, State::new())?;
/// # assert_eq!(canvas.ids(0)?[320 * 179] & 255, 255);
/// # Ok::<(), Box<dyn std::error::Error>>(())
/// ```
///
/// Two triangles that share an edge, by two equal positions, get equal vertices on it, so the top-left rule leaves no
/// crack. The vertices are those of `trirast_clip.h`, to the last bit.
#[derive(Clone, Copy, Debug, PartialEq, Eq, Hash)]
#[non_exhaustive]
pub struct Clip {
    /// The first pixel of the viewport on the screen, to the right: -16,384 to 16,384.
    pub left: i32,
    /// The first pixel of the viewport on the screen, downwards: -16,384 to 16,384.
    pub top: i32,
    /// The pixels over which x / w goes from -1 to 1: 1 to 16,384.
    pub width: u32,
    /// The pixels over which y / w goes from -1 to 1: 1 to 16,384.
    pub height: u32,
    /// What z / w is at the near plane.
    pub near_plane: NearPlane,
    /// Which planes cut beside near and far.
    pub sides: Sides,
    /// The depths at the near plane and at the far plane.
    pub depths: [u16; 2],
}

impl Clip {
    /// Returns a viewport of this size at the upper left of the screen, with depths from 0 to 65535.
    pub const fn new(width: u32, height: u32) -> Clip {
        let (near_plane, sides) = (NearPlane::AtZero, Sides::GuardBand);
        Clip { left: 0, top: 0, width, height, near_plane, sides, depths: [0, u16::MAX] }
    }

    /// Returns this viewport from another pixel of the screen.
    #[must_use]
    pub const fn at(self, left: i32, top: i32) -> Clip {
        Clip { left, top, ..self }
    }

    /// Returns this viewport with another near plane.
    #[must_use]
    pub const fn near_plane(self, near_plane: NearPlane) -> Clip {
        Clip { near_plane, ..self }
    }

    /// Returns this viewport with other sides.
    #[must_use]
    pub const fn sides(self, sides: Sides) -> Clip {
        Clip { sides, ..self }
    }

    /// Returns this viewport with other depths at the near plane and at the far plane.
    #[must_use]
    pub const fn depths(self, depths: [u16; 2]) -> Clip {
        Clip { depths, ..self }
    }

    /// Makes the triangles on the screen of triangles in clip space: three indices of positions each, of which one or
    /// two that are over are not read. A triangle that no plane cuts keeps its indices. Triangles that cover no sample
    /// of the viewport may be left out, and those with a coordinate that is infinite or not a number are.
    ///
    /// # Errors
    ///
    /// Each [`ClipError`].
    pub fn triangles(&self, positions: &[ClipPosition], indices: &[u32]) -> Result<Clipped, ClipError> {
        let view = View::new(self).ok_or(ClipError::BadViewport)?;
        let first_cut = u32::try_from(positions.len()).map_err(|_| ClipError::TooMany)?;
        u32::try_from(indices.len() / 3).map_err(|_| ClipError::TooMany)?;
        let mut seen = Clipped { first_cut, ..Clipped::default() };
        let marks = seen.project(&view, positions)?;
        reserve(&mut seen.indices, indices.len())?;
        reserve(&mut seen.sources, indices.len() / 3)?;
        for (corners, source) in indices.chunks_exact(3).zip(0..) {
            let corners = [corners[0], corners[1], corners[2]];
            let mark = |index: u32| marks.get(index as usize).copied();
            let (a, b, c) = match corners.map(mark) {
                [Some(a), Some(b), Some(c)] => (a, b, c),
                found => {
                    let wrong = found.iter().position(Option::is_none).unwrap_or(0);
                    return Err(ClipError::BadIndex(3 * source as usize + wrong));
                }
            };
            if a & b & c != 0 || (a | b | c) & NOT_FINITE != 0 {
                continue;
            }
            let planes = (a | b | c) & ALL_PLANES;
            if planes == 0 {
                seen.add(corners, source)?;
            } else {
                seen.add_cut(&view, positions, corners, planes, source)?;
            }
        }
        Ok(seen)
    }
}

/// A vertex that a cut made: a point of a triangle of the source.
#[derive(Clone, Copy, Debug, PartialEq)]
#[non_exhaustive]
pub struct Cut {
    /// The triangle of the source, counted from 0.
    pub triangle: u32,
    /// The indices of that triangle's corners.
    pub corners: [u32; 3],
    /// Their weights, in clip space: 0 to 1, and 1 together but for rounding. An attribute is the weighted
    /// sum of the corners'.
    pub weights: [f64; 3],
}

/// Triangles on the screen. The first vertices are the projected positions, at the indices that they have in the
/// source; those that a plane does not keep are unspecified. Behind them lie those that cuts made. Colours are 0.
#[derive(Clone, Debug, Default, PartialEq)]
#[non_exhaustive]
pub struct Clipped {
    /// What a canvas draws.
    pub vertices: Vec<Vertex>,
    /// Of each vertex, positive, for weights that are right in perspective.
    pub w: Vec<f32>,
    /// Three of each triangle, in the order of the source.
    pub indices: Vec<u32>,
    /// Of each triangle, that of the source of which it is a part.
    pub sources: Vec<u32>,
    /// Of each vertex that a cut made, from `first_cut` on.
    pub cuts: Vec<Cut>,
    /// The number of positions.
    pub first_cut: u32,
    /// Polygons that the rounding to 1/256 pixel has folded. They are thinner than that, and a sample in
    /// one may be drawn twice.
    pub folded: usize,
}

impl Clipped {
    /// Returns an attribute of each vertex: those of the positions, and weighted sums for those that cuts made. Returns
    /// `None` unless there is a value for each position.
    pub fn attributes(&self, values: &[f64]) -> Option<Vec<f64>> {
        let sum = |cut: &Cut| {
            let [a, b, c] = cut.corners.map(|corner| values.get(corner as usize).copied().unwrap_or_default());
            a * cut.weights[0] + b * cut.weights[1] + c * cut.weights[2]
        };
        let is_whole = values.len() == self.first_cut as usize;
        is_whole.then(|| values.iter().copied().chain(self.cuts.iter().map(sum)).collect())
    }

    /// Writes the vertices of the positions. Returns the marks of these.
    fn project(&mut self, view: &View, positions: &[ClipPosition]) -> Result<Vec<u16>, ClipError> {
        let mut marks = Vec::new();
        reserve(&mut marks, positions.len())?;
        reserve(&mut self.vertices, positions.len())?;
        reserve(&mut self.w, positions.len())?;
        for position in positions {
            let place = position.map(f64::from);
            let found = view.marks(&place);
            let is_kept = found & (ALL_PLANES | NOT_FINITE) == 0;
            marks.push(found);
            self.vertices.push(if is_kept { view.snapped(&place) } else { Vertex::default() });
            self.w.push(position[3]);
        }
        Ok(marks)
    }

    fn add(&mut self, corners: [u32; 3], source: u32) -> Result<(), ClipError> {
        reserve(&mut self.indices, 3)?;
        reserve(&mut self.sources, 1)?;
        self.indices.extend(corners);
        self.sources.push(source);
        Ok(())
    }

    /// Cuts a triangle by the planes of which `planes` has the bits, those that a corner is behind, and adds
    /// what is left. Others do not cut it: rounding errors would cut parts off a triangle that lies in a plane,
    /// as a sky whose z is w.
    fn add_cut(
        &mut self,
        view: &View,
        positions: &[ClipPosition],
        corners: [u32; 3],
        planes: u16,
        source: u32,
    ) -> Result<(), ClipError> {
        let place_of =
            |vertex: u32| positions.get(vertex as usize).map_or([0.0; 4], |position| position.map(f64::from));
        let corner = |k: usize| {
            let weights = [0, 1, 2].map(|other| if other == k { 1.0 } else { 0.0 });
            Corner { place: place_of(corners[k]), weights, vertex: Some(corners[k]) }
        };
        let (mut polygon, mut kept) = (Vec::new(), Vec::new());
        reserve(&mut polygon, MAX_CORNERS)?;
        reserve(&mut kept, MAX_CORNERS)?;
        polygon.extend([0, 1, 2].map(corner));
        for (bit, plane) in view.planes.iter().enumerate() {
            if planes >> bit & 1 == 1 {
                plane.keep(&polygon, &mut kept);
                std::mem::swap(&mut polygon, &mut kept);
                if polygon.len() < 3 {
                    return Ok(());
                }
            }
        }
        self.add_polygon(view, &polygon, corners, source)
    }

    /// Adds a polygon that all planes keep.
    fn add_polygon(&mut self, view: &View, polygon: &[Corner], of: [u32; 3], source: u32) -> Result<(), ClipError> {
        reserve(&mut self.cuts, polygon.len())?;
        reserve(&mut self.vertices, polygon.len())?;
        reserve(&mut self.w, polygon.len())?;
        let (mut corners, mut names) = (Vec::new(), Vec::new());
        reserve(&mut corners, polygon.len())?;
        reserve(&mut names, polygon.len())?;
        for corner in polygon {
            let name = match corner.vertex {
                Some(vertex) => vertex,
                None => {
                    let made = u32::try_from(self.vertices.len()).map_err(|_| ClipError::TooMany)?;
                    self.vertices.push(view.snapped(&corner.place));
                    self.w.push(corner.place[3] as f32);
                    self.cuts.push(Cut { triangle: source, corners: of, weights: corner.weights });
                    made
                }
            };
            names.push(name);
            corners.push(self.vertices[name as usize]);
        }
        let mut ears = Ears::new(&corners);
        for ear in ears.by_ref() {
            self.add(ear.map(|k| names[k]), source)?;
        }
        self.folded += usize::from(ears.is_folded);
        Ok(())
    }
}

fn reserve<T>(vector: &mut Vec<T>, count: usize) -> Result<(), ClipError> {
    vector.try_reserve(count).map_err(|_| ClipError::OutOfMemory)
}

// ---- What does not change from triangle to triangle

const PLANES: usize = 7;
/// Marks of a position: a bit for each plane that does not keep it, then one for each side of the viewport that it lies
/// beyond, then one if a coordinate is infinite or not a number.
const ALL_PLANES: u16 = (1 << PLANES) - 1;
const NOT_FINITE: u16 = 1 << (PLANES + 4);
/// A plane adds at most half as many corners as there are, so seven of them make 42 of 3.
const MAX_CORNERS: usize = 42;
/// The least w that is kept, so that nothing is divided by zero.
const LEAST_W: f64 = 1.0 / 1_073_741_824.0;
/// The sides of the viewport: left, right, bottom and top.
const BEYOND: [Plane; 4] =
    [Plane::new(1.0, 1.0, 0), Plane::new(1.0, -1.0, 0), Plane::new(1.0, 1.0, 1), Plane::new(1.0, -1.0, 1)];

struct View {
    /// In the order in which they cut: near, in front, far, left, right, bottom, top.
    planes: [Plane; PLANES],
    /// Of the viewport, to the right and downwards, in 1/256 pixel.
    half: [f64; 2],
    centre: [f64; 2],
    near_factor: f64,
    near_depth: f64,
    depth_scale: f64,
    least_depth: f64,
    greatest_depth: f64,
}

impl View {
    /// Returns `None` if there is no such viewport.
    fn new(clip: &Clip) -> Option<View> {
        const LARGEST: i32 = 16_384;
        let (starts, sizes) = ([clip.left, clip.top], [clip.width, clip.height]);
        let has_starts = starts.iter().all(|start| (-LARGEST..=LARGEST).contains(start));
        if !has_starts || !sizes.iter().all(|size| (1..=LARGEST as u32).contains(size)) {
            return None;
        }
        let half = sizes.map(|size| 128.0 * f64::from(size));
        let centre = [0, 1].map(|axis| 256.0 * f64::from(starts[axis]) + half[axis]);
        let factor = |axis: usize| if clip.sides == Sides::GuardBand { guard(half[axis], centre[axis]) } else { 1.0 };
        let (across, down) = (factor(0), factor(1));
        let near_factor = if clip.near_plane == NearPlane::AtZero { 0.0 } else { 1.0 };
        let [near_depth, far_depth] = clip.depths.map(f64::from);
        Some(View {
            planes: [
                Plane::new(near_factor, 1.0, 2),
                Plane { constant: LEAST_W, ..Plane::new(0.0, 1.0, 3) },
                Plane::new(1.0, -1.0, 2),
                Plane::new(across, 1.0, 0),
                Plane::new(across, -1.0, 0),
                Plane::new(down, 1.0, 1),
                Plane::new(down, -1.0, 1),
            ],
            half,
            centre,
            near_factor,
            near_depth,
            depth_scale: (far_depth - near_depth) / (1.0 + near_factor),
            least_depth: near_depth.min(far_depth),
            greatest_depth: near_depth.max(far_depth),
        })
    }

    fn marks(&self, place: &Place) -> u16 {
        let is_behind = |plane: &Plane| u16::from(plane.distance(place) < 0.0);
        let sides = self.planes.iter().chain(&BEYOND).zip(0..);
        let found = sides.fold(0, |found, (plane, bit)| found | is_behind(plane) << bit);
        if place.iter().all(|coordinate| coordinate.is_finite()) {
            found
        } else {
            found | NOT_FINITE
        }
    }

    /// The vertex of a position that all planes keep. Each number is a rounded quotient times a factor,
    /// plus an integer.
    fn snapped(&self, place: &Place) -> Vertex {
        let [x, y, z, w] = *place;
        let (right, down) = (rounded(x / w * self.half[0]), rounded(-y / w * self.half[1]));
        let depth = rounded((z + self.near_factor * w) / w * self.depth_scale);
        let position = |value: f64| within(value, -8_388_608.0, 8_388_607.0) as i32;
        Vertex {
            x: position(right + self.centre[0]),
            y: position(down + self.centre[1]),
            depth: within(self.near_depth + depth, self.least_depth, self.greatest_depth) as u16,
            ..Vertex::default()
        }
    }
}

/// The largest power of two of half viewports from the middle that fit the positions of a canvas, with
/// a pixel to spare: on the screen, and relative to an origin in the viewport, which is at most half a
/// viewport from the middle.
fn guard(half: f64, centre: f64) -> f64 {
    let reach = centre.abs().max(half);
    let mut found = 1.0;
    while 2.0 * found * half + reach <= 8_388_607.0 - 256.0 {
        found *= 2.0;
    }
    found
}

/// The nearest integer, and of two the even one.
fn rounded(value: f64) -> f64 {
    // From here on every number is an integer, so a sum with it is rounded to one.
    const ALL_INTEGERS: f64 = 4_503_599_627_370_496.0;
    if value.abs() < ALL_INTEGERS {
        let shift = ALL_INTEGERS.copysign(value);
        value + shift - shift
    } else {
        value
    }
}

#[cfg(test)]
mod tests {
    use super::{rounded, Clip, ClipError, NearPlane};

    #[test]
    fn rounds_halves_to_even() {
        for (value, wanted) in
            [(0.5, 0.0), (1.5, 2.0), (2.5, 2.0), (-0.5, 0.0), (-1.5, -2.0), (-2.5, -2.0), (8_388_607.5, 8_388_608.0)]
        {
            assert_eq!(rounded(value), wanted);
        }
        assert_eq!((rounded(0.499_999_999_999_999_94), rounded(1e300), rounded(-7.3)), (0.0, 1e300, -7.0));
    }

    /// The values of the test in Python.
    #[test]
    fn the_near_plane_cuts_at_three_quarters() {
        let positions = [[0.0, 0.0, 3.0, 4.0], [8.0, 0.0, -1.0, 0.0], [0.0, 8.0, -1.0, 0.0]];
        let seen = Clip::new(256, 256).triangles(&positions, &[0, 1, 2]).unwrap();
        assert_eq!(
            (&seen.indices[..], &seen.sources[..], seen.first_cut, seen.folded),
            (&[0, 3, 4][..], &[0][..], 3, 0)
        );
        let places: Vec<_> = [0, 3, 4]
            .iter()
            .map(|&k: &usize| (seen.vertices[k].x, seen.vertices[k].y, seen.vertices[k].depth))
            .collect();
        assert_eq!(places, [(32_768, 32_768, 49_151), (229_376, 32_768, 0), (32_768, -163_840, 0)]);
        assert_eq!(seen.w[3..], [1.0, 1.0]);
        assert_eq!((seen.cuts[0].weights, seen.cuts[1].weights), ([0.25, 0.75, 0.0], [0.25, 0.0, 0.75]));
        assert_eq!((seen.cuts[0].triangle, seen.cuts[0].corners), (0, [0, 1, 2]));
        assert_eq!(seen.attributes(&[0.0, 4.0, 8.0]).unwrap(), [0.0, 4.0, 8.0, 3.0, 6.0]);
        assert_eq!(seen.attributes(&[1.0, 2.0]), None);
    }

    #[test]
    fn leaves_out_what_is_not_finite() {
        for odd in [f32::NAN, f32::INFINITY, f32::NEG_INFINITY] {
            for axis in 0..4 {
                let mut positions = [[0.0, 0.0, 0.0, 1.0], [1.0, 0.0, 0.0, 1.0], [0.0, 1.0, 0.0, 1.0]];
                positions[1][axis] = odd;
                assert_eq!(Clip::new(64, 64).triangles(&positions, &[0, 1, 2]).unwrap().indices, []);
            }
        }
    }

    #[test]
    fn refuses_viewports_and_indices_that_there_are_not() {
        let whole = Clip::new(16_384, 1).at(-16_384, 16_384).near_plane(NearPlane::AtMinusOne);
        assert_eq!(whole.triangles(&[], &[0, 0]).unwrap().indices, []);
        for wrong in
            [Clip::new(0, 1), Clip::new(1, 16_385), Clip::new(1, 1).at(16_385, 0), Clip::new(1, 1).at(0, i32::MIN)]
        {
            assert_eq!(wrong.triangles(&[], &[]), Err(ClipError::BadViewport));
        }
        let error = whole.triangles(&[[0.0; 4]; 2], &[0, 1, 1, 1, 2, 0]).unwrap_err();
        assert_eq!((error, error.to_string().as_str()), (ClipError::BadIndex(4), "index 4 names no position"));
    }
}
