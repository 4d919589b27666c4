//! Draws: vertices, indices of these, and how their triangles take effect.

use std::borrow::Cow;
use std::hash::{Hash, Hasher};
use std::marker::PhantomData;
use std::mem::size_of;
use std::ptr::null;

use trirast_sys as sys;

use crate::values::Values;
use crate::{BatchCause, Error, ErrorKind, Origin, State};

/// A vertex of 16 bytes, as C has it.
#[repr(C)]
#[derive(Clone, Copy, Debug, Default, PartialEq, Eq, Hash)]
pub struct Vertex {
    /// To the right, in 1/256 pixel of the screen: -8388608 to 8388607.
    pub x: i32,
    /// Downwards, in 1/256 pixel of the screen: -8388608 to 8388607.
    pub y: i32,
    /// 0 is nearest.
    pub depth: u16,
    /// 0 to 255.
    pub red: u8,
    /// 0 to 255.
    pub green: u8,
    /// 0 to 255.
    pub blue: u8,
    /// 255 is opaque.
    pub alpha: u8,
    /// Not read.
    pub unused: u16,
}

const _: () = assert!(size_of::<Vertex>() == size_of::<sys::trirast_vertex>());

impl Vertex {
    /// Returns a vertex of depth 0 at a position in 1/256 pixel. The colour is red, green, blue and alpha.
    pub const fn new(x: i32, y: i32, [red, green, blue, alpha]: [u8; 4]) -> Vertex {
        Vertex { x, y, depth: 0, red, green, blue, alpha, unused: 0 }
    }

    /// Returns this vertex at another depth.
    #[must_use]
    pub const fn at_depth(self, depth: u16) -> Vertex {
        Vertex { depth, ..self }
    }
}

/// The vertices of a draw, from slices or arrays of [`Vertex`], or of structs of which it is a member. Those of a
/// single draw are read where they lie.
#[derive(Clone, Copy, Debug)]
pub struct Vertices<'a> {
    first: *const Vertex,
    count: usize,
    stride: usize,
    /// What they are parts of.
    lent: PhantomData<&'a [Vertex]>,
}

// SAFETY: they are only read, as through a shared slice.
unsafe impl Send for Vertices<'_> {}
// SAFETY: as for Send.
unsafe impl Sync for Vertices<'_> {}

impl<'a> Vertices<'a> {
    /// Returns the vertices that are a member of other structs, as
    /// `Vertices::of_members(&points, |point| &point.vertex)`. Returns `None` if `member` does not return the same
    /// member of each, or each is longer than 2,048 bytes.
    pub fn of_members<T>(all: &'a [T], member: impl Fn(&'a T) -> &'a Vertex) -> Option<Vertices<'a>> {
        let stride = size_of::<T>();
        let place = |one: &'a T| (member(one) as *const Vertex as usize).checked_sub(one as *const T as usize);
        let begin = all.first().map_or(Some(0), place)?;
        let is_inside = begin + size_of::<Vertex>() <= stride && stride <= sys::TRIRAST_MAX_STRIDE;
        if !is_inside || all.iter().any(|one| place(one) != Some(begin)) {
            return None;
        }
        Some(Vertices {
            first: all.as_ptr().cast::<u8>().wrapping_add(begin).cast(),
            count: all.len(),
            stride,
            lent: PhantomData,
        })
    }

    /// Returns how many there are.
    pub fn len(&self) -> usize {
        self.count
    }

    /// Returns whether there are none.
    pub fn is_empty(&self) -> bool {
        self.count == 0
    }

    /// Returns them one after another.
    pub fn iter(&self) -> impl Iterator<Item = &'a Vertex> {
        let Vertices { first, count, stride, .. } = *self;
        // SAFETY: each lies this many bytes behind the one before it, and is lent as long as these are.
        (0..count).map(move |k| unsafe { &*first.cast::<u8>().add(k * stride).cast::<Vertex>() })
    }
}

impl PartialEq for Vertices<'_> {
    fn eq(&self, other: &Self) -> bool {
        self.iter().eq(other.iter())
    }
}

impl Eq for Vertices<'_> {}

impl Hash for Vertices<'_> {
    fn hash<H: Hasher>(&self, state: &mut H) {
        self.iter().for_each(|vertex| vertex.hash(state));
    }
}

impl<'a> From<&'a [Vertex]> for Vertices<'a> {
    fn from(slice: &'a [Vertex]) -> Vertices<'a> {
        Vertices { first: slice.as_ptr(), count: slice.len(), stride: size_of::<Vertex>(), lent: PhantomData }
    }
}

impl<'a, const N: usize> From<&'a [Vertex; N]> for Vertices<'a> {
    fn from(array: &'a [Vertex; N]) -> Vertices<'a> {
        Vertices::from(&array[..])
    }
}

impl<'a> From<&'a Vec<Vertex>> for Vertices<'a> {
    fn from(vector: &'a Vec<Vertex>) -> Vertices<'a> {
        Vertices::from(&vector[..])
    }
}

/// The indices of a draw, from slices or arrays of `u16` or `u32`. 0 is the first vertex of the draw. Those of a single
/// draw are not copied.
#[derive(Clone, Copy, Debug, PartialEq, Eq, Hash)]
#[non_exhaustive]
pub enum Indices<'a> {
    /// None: the vertices in their order.
    InOrder,
    /// Of 16 bits each.
    U16(&'a [u16]),
    /// Of 32 bits each.
    U32(&'a [u32]),
}

macro_rules! indices_from {
    ($($of:ty: $name:ident),*) => {$(
        impl<'a> From<&'a [$of]> for Indices<'a> {
            fn from(slice: &'a [$of]) -> Indices<'a> {
                Indices::$name(slice)
            }
        }
        impl<'a, const N: usize> From<&'a [$of; N]> for Indices<'a> {
            fn from(array: &'a [$of; N]) -> Indices<'a> {
                Indices::$name(array)
            }
        }
        impl<'a> From<&'a Vec<$of>> for Indices<'a> {
            fn from(vector: &'a Vec<$of>) -> Indices<'a> {
                Indices::$name(vector)
            }
        }
    )*};
}
indices_from!(u16: U16, u32: U32);

/// One draw: its vertices, indices of these, and its state.
#[derive(Clone, Copy, Debug, PartialEq, Eq, Hash)]
#[non_exhaustive]
pub struct Draw<'a> {
    /// Its own, of which index 0 is the first.
    pub vertices: Vertices<'a>,
    /// Of these vertices.
    pub indices: Indices<'a>,
    /// How its triangles take effect.
    pub state: State,
}

impl<'a> Draw<'a> {
    /// Returns a draw of triangles in the default state.
    pub fn new(vertices: impl Into<Vertices<'a>>, indices: impl Into<Indices<'a>>) -> Draw<'a> {
        Draw { vertices: vertices.into(), indices: indices.into(), state: State::default() }
    }

    /// Returns this draw in another state.
    #[must_use]
    pub fn state(self, state: State) -> Draw<'a> {
        Draw { state, ..self }
    }

    fn index_count(&self) -> usize {
        match self.indices {
            Indices::InOrder => self.vertices.len(),
            Indices::U16(slice) => slice.len(),
            Indices::U32(slice) => slice.len(),
        }
    }
}

/// The indices of all draws, one draw's after another's.
enum Joined<'a> {
    InOrder,
    U16(&'a [u16]),
    U32(Cow<'a, [u32]>),
}

/// The vertices of all draws: those of one draw where they lie, or those of several in memory of the batch's own.
enum JoinedVertices<'a> {
    Lent(Vertices<'a>),
    Own(Vec<Vertex>),
}

/// Draws with the vertices and the indices of all of them, one draw's after another's.
pub(crate) struct Batch<'a> {
    draws: Vec<sys::trirast_draw>,
    vertices: JoinedVertices<'a>,
    indices: Joined<'a>,
}

impl<'a> Batch<'a> {
    /// The arrays of a single draw are not copied. If memory cannot be allocated, returns the error of that.
    pub(crate) fn of_draws(draws: &[Draw<'a>]) -> Result<Batch<'a>, Error> {
        let is_in_order = draws.iter().all(|draw| draw.indices == Indices::InOrder);
        let indices = match draws {
            _ if is_in_order => Joined::InOrder,
            [Draw { indices: Indices::U16(slice), .. }] => Joined::U16(slice),
            [Draw { indices: Indices::U32(slice), .. }] => Joined::U32(Cow::Borrowed(slice)),
            _ => Joined::U32(Cow::Owned(joined_indices(draws)?)),
        };
        let vertices = match draws {
            [draw] => JoinedVertices::Lent(draw.vertices),
            _ => JoinedVertices::Own(joined_vertices(draws)?),
        };
        let raw =
            |draw: &Draw<'_>| draw.state.raw(draw.vertices.len(), if is_in_order { 0 } else { draw.index_count() });
        let mut found = Vec::new();
        found.try_reserve_exact(draws.len()).map_err(|_| Error::out_of_memory())?;
        found.extend(draws.iter().map(raw));
        Ok(Batch { draws: found, vertices, indices })
    }

    /// Those of all draws.
    fn vertices(&self) -> Vertices<'_> {
        match &self.vertices {
            JoinedVertices::Lent(vertices) => *vertices,
            JoinedVertices::Own(vertices) => Vertices::from(vertices),
        }
    }

    /// An error of this batch on a canvas of this origin, with its values.
    pub(crate) fn explain(&self, error: Error, origin: Origin) -> Error {
        let draw = error.draw().and_then(|draw| self.draws.get(draw));
        let values = match (error.kind(), draw, error.element()) {
            (ErrorKind::BadBatch(BatchCause::BadIndex), Some(draw), _) => Some(Values::Vertices(draw.vertex_count)),
            (ErrorKind::BadBatch(BatchCause::BadPosition), Some(_), Some(element)) => {
                let before = self.draws.iter().take(error.draw().unwrap_or_default()).map(|draw| draw.vertex_count);
                let vertex = self.vertices().iter().nth(before.sum::<usize>() + element);
                vertex.map(|vertex| Values::Position { of: None, at: [vertex.x, vertex.y], origin })
            }
            _ => None,
        };
        values.map_or(error, |values| error.with(values))
    }

    /// The batch as C takes it, which must not outlive this one.
    pub(crate) fn raw(&self) -> sys::trirast_batch {
        // A slice is never at NULL, so C draws nothing of an empty one.
        let (indices, index_count, index_size) = match &self.indices {
            Joined::InOrder => (null(), 0, size_of::<u32>()),
            Joined::U16(slice) => (slice.as_ptr().cast(), slice.len(), size_of::<u16>()),
            Joined::U32(slice) => (slice.as_ptr().cast(), slice.len(), size_of::<u32>()),
        };
        let vertices = self.vertices();
        sys::trirast_batch {
            struct_size: size_of::<sys::trirast_batch>() as u32,
            vertex_stride: vertices.stride as u32,
            index_size: index_size as u32,
            draws: self.draws.as_ptr(),
            draw_count: self.draws.len(),
            vertices: vertices.first.cast(),
            vertex_count: vertices.count,
            indices,
            index_count,
        }
    }
}

/// The vertices of all draws. If the memory cannot be allocated, returns the error of that.
fn joined_vertices(draws: &[Draw<'_>]) -> Result<Vec<Vertex>, Error> {
    let mut all = Vec::new();
    for draw in draws {
        all.try_reserve(draw.vertices.len()).map_err(|_| Error::out_of_memory())?;
        all.extend(draw.vertices.iter());
    }
    Ok(all)
}

/// The indices of all draws, which may be of both sizes. If the memory cannot be allocated, returns the error of that.
fn joined_indices(draws: &[Draw<'_>]) -> Result<Vec<u32>, Error> {
    let mut all: Vec<u32> = Vec::new();
    for draw in draws {
        all.try_reserve(draw.index_count()).map_err(|_| Error::out_of_memory())?;
        match draw.indices {
            // More vertices than an index can name are one that is out of range, as the library sees it.
            Indices::InOrder => all.extend((0..draw.vertices.len()).map(|k| u32::try_from(k).unwrap_or(u32::MAX))),
            Indices::U16(slice) => all.extend(slice.iter().map(|&index| u32::from(index))),
            Indices::U32(slice) => all.extend_from_slice(slice),
        }
    }
    Ok(all)
}
