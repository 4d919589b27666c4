//! Histories: why a sample of a draw list's picture is what it is, and how many samples a triangle has.

use trirast_sys as sys;

use crate::error::checked;
use crate::list::text;
use crate::picture::zeros;
use crate::{Error, Sample};

/// What a triangle did to a sample.
#[derive(Clone, Copy, Debug, PartialEq, Eq, Hash)]
#[non_exhaustive]
pub enum Outcome {
    /// Nothing, for a reason other than [`Reason::DepthFailed`] alone.
    Missed,
    /// Nothing, since its depth failed the test.
    DepthFailed,
    /// It was drawn.
    Drawn,
}

/// Why a triangle is not drawn at a sample.
#[derive(Clone, Copy, Debug, PartialEq, Eq, Hash)]
#[non_exhaustive]
pub enum Reason {
    /// It is culled.
    Culled = sys::TRIRAST_REASON_CULLED as isize,
    /// Its area is zero.
    ZeroArea = sys::TRIRAST_REASON_ZERO_AREA as isize,
    /// It does not cover the sample by the top-left rule.
    NotCovered = sys::TRIRAST_REASON_NOT_COVERED as isize,
    /// The pixel is outside of the scissor.
    OutsideScissor = sys::TRIRAST_REASON_OUTSIDE_SCISSOR as isize,
    /// The sample's bit in the sample mask is 0.
    Masked = sys::TRIRAST_REASON_MASKED as isize,
    /// It covers the sample, and its depth fails the test.
    DepthFailed = sys::TRIRAST_REASON_DEPTH_FAILED as isize,
}

const REASONS: [Reason; 6] =
    [Reason::Culled, Reason::ZeroArea, Reason::NotCovered, Reason::OutsideScissor, Reason::Masked, Reason::DepthFailed];

/// What a triangle has at a sample that it covers, each value rounded down.
#[derive(Clone, Copy, Debug, PartialEq, Eq, Hash)]
#[non_exhaustive]
pub struct Fragment {
    /// Red, green, blue and alpha.
    pub color: [u8; 4],
    /// 65535 is farthest.
    pub depth: u16,
}

/// What a triangle of a draw list did to a sample, and why.
#[derive(Clone, Copy, Debug, PartialEq, Eq, Hash)]
#[non_exhaustive]
pub struct Event {
    /// The index of its draw.
    pub draw: usize,
    /// Its number in the draw. A strip and quads count the triangles as which they are drawn.
    pub triangle: usize,
    /// What it did.
    pub outcome: Outcome,
    /// In 1/65536 square pixel: positive if the triangle runs clockwise on the screen.
    pub doubled_area: i64,
    /// The edge functions at the sample, of the edges from a to b, from b to c and from c to a.
    pub edges: [i64; 3],
    /// `None` if the triangle does not cover the sample.
    pub fragment: Option<Fragment>,
    /// The sample before the triangle.
    pub before: Sample,
    /// The sample after the triangle.
    pub after: Sample,
    reasons: u32,
}

impl Event {
    /// Returns every reason against drawing it that holds.
    pub fn reasons(&self) -> impl Iterator<Item = Reason> {
        let bits = self.reasons;
        REASONS.into_iter().filter(move |&reason| bits & reason as u32 != 0)
    }

    fn of(raw: &sys::trirast_event) -> Event {
        let sys::trirast_fragment { red, green, blue, alpha, depth } = raw.fragment;
        let fragment = Fragment { color: [red, green, blue, alpha].map(|channel| channel as u8), depth: depth as u16 };
        Event {
            draw: raw.draw,
            triangle: raw.triangle,
            outcome: match raw.result {
                sys::TRIRAST_RESULT_DRAWN => Outcome::Drawn,
                sys::TRIRAST_RESULT_DEPTH_FAILED => Outcome::DepthFailed,
                _ => Outcome::Missed,
            },
            doubled_area: raw.doubled_area,
            edges: [raw.edge_ab, raw.edge_bc, raw.edge_ca],
            fragment: (raw.covered == 1).then_some(fragment),
            before: sample_of(raw.before),
            after: sample_of(raw.after),
            reasons: raw.reasons,
        }
    }
}

/// The history of a sample.
#[derive(Clone, Debug, PartialEq, Eq)]
#[non_exhaustive]
pub struct History {
    /// Where the sample lies, in 1/256 pixel.
    pub position: [i32; 2],
    /// The clear colour and depth.
    pub begin: Sample,
    /// An event for each triangle, in draw order.
    pub events: Vec<Event>,
    /// What the picture is made of.
    pub end: Sample,
}

/// Which triangles have an event in a history.
#[derive(Clone, Copy, Debug, Default, PartialEq, Eq, Hash)]
#[non_exhaustive]
pub enum Listed {
    /// Those that cover the sample.
    #[default]
    Covering,
    /// All.
    All,
}

/// Returns the history of a sample of the pixel in a column and a row of a draw list's picture. Nothing is drawn.
///
/// ```
/// # let list = r#"{"width": 3, "height": 3, "draws": [{
/// #     "vertices": [[128, 128, 0, 255, 255, 255, 255], [640, 128, 0, 255, 255, 255, 255],
/// #                  [128, 640, 0, 255, 255, 255, 255]],
/// #     "triangles": [[0, 1, 2]]}]}"#;
/// use trirast::{why, Listed, Reason};
///
/// let history = why(list, 1, 1, 0, Listed::All)?;
/// assert!(history.events[0].reasons().eq([Reason::NotCovered]));
/// # Ok::<(), trirast::Error>(())
/// ```
///
/// # Errors
///
/// `InputTooLong`, `BadList`, `BadPixel` if the picture has no such pixel, `BadSample` if the pixel has no such
/// sample, or `OutOfMemory`.
pub fn why(list: impl AsRef<[u8]>, column: u32, row: u32, sample: u32, listed: Listed) -> Result<History, Error> {
    let list = list.as_ref();
    let all = u32::from(listed == Listed::All);
    let request = sys::trirast_history_request { x: column, y: row, sample, all, ..Default::default() };
    let mut info = sys::trirast_sample_info::default();
    let mut ask = |events: &mut [sys::trirast_event]| {
        let (start, capacity) = (events.as_mut_ptr(), events.len());
        // SAFETY: the pointers are valid for the call, the array has its capacity, and the library keeps none of them.
        checked(|error| unsafe {
            sys::trirast_list_history(text(list), list.len(), &request, start, capacity, &mut info, error)
        })?;
        Ok::<_, Error>(info)
    };
    let mut events = zeros(ask(&mut [])?.event_count)?;
    let info = ask(&mut events)?;
    let mut found = Vec::new();
    found.try_reserve_exact(events.len()).map_err(|_| Error::out_of_memory())?;
    found.extend(events.iter().map(Event::of));
    Ok(History { position: [info.x, info.y], begin: sample_of(info.begin), events: found, end: sample_of(info.end) })
}

/// How many samples of the picture a triangle has.
#[derive(Clone, Copy, Debug, PartialEq, Eq, Hash)]
#[non_exhaustive]
pub struct SampleCounts {
    /// Those that it covers by the top-left rule, be it drawn there or not.
    pub covered: u32,
    /// Those that it changes.
    pub changed: u32,
    /// Those that still show it: it is the last triangle that changes them.
    pub shown: u32,
}

/// Returns how many samples of a draw list's picture a triangle of a draw covers, changes and is shown by.
///
/// # Errors
///
/// `InputTooLong`, `BadList`, `BadTriangle` if the list has no such triangle, or `OutOfMemory`.
pub fn triangle_samples(list: impl AsRef<[u8]>, draw: usize, triangle: usize) -> Result<SampleCounts, Error> {
    let list = list.as_ref();
    let mut raw = sys::trirast_sample_counts::default();
    // SAFETY: the pointers are valid for the call, and the library keeps none of them.
    checked(|error| unsafe {
        sys::trirast_list_triangle_samples(text(list), list.len(), draw, triangle, &mut raw, error)
    })?;
    Ok(SampleCounts { covered: raw.covered, changed: raw.changed, shown: raw.shown })
}

fn sample_of(raw: sys::trirast_stored) -> Sample {
    Sample { color: [raw.red, raw.green, raw.blue].map(|channel| channel as u8), depth: raw.depth as u16 }
}
