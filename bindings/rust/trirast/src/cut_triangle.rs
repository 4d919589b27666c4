//! One triangle of clip space, cut by planes and into triangles on the screen, by the rules of
//! `include/trirast_clip.h`, to the last bit. That header says why no crack comes about.

use crate::Vertex;

/// x, y, z and w.
pub(crate) type Place = [f64; 4];

/// A plane keeps a position if factor * w + sign * (its coordinate on the axis) is at least `constant`. The factor is 0
/// or a power of two and the sign 1 or -1, so that products are exact.
#[derive(Clone, Copy)]
pub(crate) struct Plane {
    pub(crate) factor: f64,
    pub(crate) sign: f64,
    pub(crate) axis: usize,
    pub(crate) constant: f64,
}

impl Plane {
    pub(crate) const fn new(factor: f64, sign: f64, axis: usize) -> Plane {
        Plane { factor, sign, axis, constant: 0.0 }
    }

    /// Not negative if the plane keeps the position. Its sign is exact.
    pub(crate) fn distance(&self, place: &Place) -> f64 {
        self.factor * place[3] + self.sign * place[self.axis] - self.constant
    }

    /// The point in which the plane cuts the edge between two corners on either side of it, taken in the order
    /// of their coordinates.
    fn cut(&self, one: &Corner, other: &Corner) -> Corner {
        let (from, to) = if is_before(&other.place, &one.place) { (other, one) } else { (one, other) };
        let behind = self.distance(&from.place);
        let share = behind / (behind - self.distance(&to.place));
        let mut found = Corner { place: [0.0; 4], weights: [0.0; 3], vertex: None };
        for (value, ends) in found.place.iter_mut().zip(from.place.iter().zip(&to.place)) {
            *value = between(share, *ends.0, *ends.1);
        }
        for (value, ends) in found.weights.iter_mut().zip(from.weights.iter().zip(&to.weights)) {
            *value = between(share, *ends.0, *ends.1);
        }
        // What the plane says of a coordinate holds to the last bit.
        found.place[self.axis] = self.sign * (self.constant - self.factor * found.place[3]);
        found
    }

    /// Writes what the plane keeps of a polygon.
    pub(crate) fn keep(&self, polygon: &[Corner], kept: &mut Vec<Corner>) {
        kept.clear();
        let next = polygon.iter().cycle().skip(1);
        for (here, next) in polygon.iter().zip(next) {
            let (at, ahead) = (self.distance(&here.place), self.distance(&next.place));
            if at >= 0.0 {
                kept.push(*here);
            }
            // An end that lies on the plane is the cut itself.
            if (at > 0.0 && ahead < 0.0) || (at < 0.0 && ahead > 0.0) {
                kept.push(self.cut(here, next));
            }
        }
    }
}

/// A corner of a polygon.
#[derive(Clone, Copy)]
pub(crate) struct Corner {
    pub(crate) place: Place,
    /// Of the corners of the triangle of the source.
    pub(crate) weights: [f64; 3],
    /// Its index in the source, unless a cut made it.
    pub(crate) vertex: Option<u32>,
}

/// Whether a position stands before another in the order of their coordinates.
fn is_before(one: &Place, other: &Place) -> bool {
    let axis = (0..3).find(|&axis| one[axis] != other[axis]).unwrap_or(3);
    one[axis] < other[axis]
}

/// The number that lies between two by a share, and not beyond them whatever is rounded: so w stays positive.
fn between(share: f64, first: f64, last: f64) -> f64 {
    let (least, greatest) = if first < last { (first, last) } else { (last, first) };
    within(first + share * (last - first), least, greatest)
}

pub(crate) fn within(value: f64, least: f64, greatest: f64) -> f64 {
    if value < least {
        least
    } else if value > greatest {
        greatest
    } else {
        value
    }
}

/// The corners on the screen that are left of a polygon. Rounding may bend a side inwards, so a fan from the first
/// corner could have triangles that lie upon each other.
pub(crate) struct Ears<'a> {
    corners: &'a [Vertex],
    left: Vec<usize>,
    /// The sign of the polygon's area.
    sense: i64,
    pub(crate) is_folded: bool,
}

impl<'a> Ears<'a> {
    pub(crate) fn new(corners: &'a [Vertex]) -> Ears<'a> {
        let mut ears = Ears { corners, left: (0..corners.len()).collect(), sense: 1, is_folded: false };
        let area: i64 = (1..corners.len().saturating_sub(1)).map(|k| ears.area(0, k, k + 1)).sum();
        ears.sense = if area < 0 { -1 } else { 1 };
        ears
    }

    /// The doubled area of three of the corners that are left, positive in the polygon's sense.
    fn area(&self, a: usize, b: usize, c: usize) -> i64 {
        let [a, b, c] = [a, b, c].map(|k| {
            let corner = &self.corners[self.left[k % self.left.len()]];
            [i64::from(corner.x), i64::from(corner.y)]
        });
        self.sense * ((b[0] - a[0]) * (c[1] - a[1]) - (b[1] - a[1]) * (c[0] - a[0]))
    }

    /// Whether the corner behind `a` can be cut off: it does not bend inwards, no other corner lies in what is cut off,
    /// and a triangle that is left is not turned over.
    fn is_ear(&self, a: usize) -> bool {
        let (b, c, count) = (a + 1, a + 2, self.left.len());
        let has = |k| self.area(a, b, k) > 0 && self.area(b, c, k) > 0 && self.area(c, a, k) > 0;
        self.area(a, b, c) >= 0 && !(a + 3..a + count).any(has) && (count != 4 || self.area(a, c, a + 3) >= 0)
    }
}

impl Iterator for Ears<'_> {
    type Item = [usize; 3];

    /// A triangle that is cut off, of the polygon's sense unless it is folded.
    fn next(&mut self) -> Option<[usize; 3]> {
        let count = self.left.len();
        if count < 3 {
            return None;
        }
        let best = (0..count).find(|&k| self.is_ear(k));
        self.is_folded |= best.is_none();
        let first = best.unwrap_or(0);
        let ear = [0, 1, 2].map(|k| self.left[(first + k) % count]);
        self.left.remove((first + 1) % count);
        Some(ear)
    }
}
