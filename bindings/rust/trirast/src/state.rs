//! How the triangles of a draw take effect.

use std::ops::{BitOr, BitOrAssign};

use trirast_sys as sys;

use crate::{Blend, Cull, DepthTest, Topology};

/// Some of the channels of a colour: `Channels::RED | Channels::ALPHA`.
#[derive(Clone, Copy, Debug, Default, PartialEq, Eq, Hash)]
pub struct Channels(u8);

impl Channels {
    /// No channel.
    pub const NONE: Channels = Channels(0);
    /// Red alone.
    pub const RED: Channels = Channels(sys::TRIRAST_KEEP_RED as u8);
    /// Green alone.
    pub const GREEN: Channels = Channels(sys::TRIRAST_KEEP_GREEN as u8);
    /// Blue alone.
    pub const BLUE: Channels = Channels(sys::TRIRAST_KEEP_BLUE as u8);
    /// Alpha alone.
    pub const ALPHA: Channels = Channels(sys::TRIRAST_KEEP_ALPHA as u8);
    /// Red, green, blue and alpha.
    pub const ALL: Channels = Channels(Channels::RED.0 | Channels::GREEN.0 | Channels::BLUE.0 | Channels::ALPHA.0);

    /// Returns whether all of these are among them.
    pub const fn contains(self, these: Channels) -> bool {
        self.0 & these.0 == these.0
    }
}

impl BitOr for Channels {
    type Output = Channels;
    fn bitor(self, other: Channels) -> Channels {
        Channels(self.0 | other.0)
    }
}

impl BitOrAssign for Channels {
    fn bitor_assign(&mut self, other: Channels) {
        self.0 |= other.0;
    }
}

/// How the triangles of a draw take effect. The default draws triangles everywhere, without a depth test.
///
/// ```
/// use trirast::{Blend, Cull, DepthTest, State};
/// let solid = State::new().depth_test(DepthTest::Less).depth_write(true).cull(Cull::Back);
/// let glass = State::new().depth_test(DepthTest::Less).blend(Blend::OVER);
/// assert!(solid.depth_write && !glass.depth_write);
/// ```
#[derive(Clone, Copy, Debug, Default, PartialEq, Eq, Hash)]
#[non_exhaustive]
pub struct State {
    /// What the indices are.
    pub topology: Topology,
    /// Which triangles are dropped.
    pub cull: Cull,
    /// When the new depth passes.
    pub depth_test: DepthTest,
    /// Whether the new depth is stored if it passes the test.
    pub depth_write: bool,
    /// What the new colour makes of the stored one.
    pub blend: Blend,
    /// The channels that are not written.
    pub keep: Channels,
    /// Bit s is 1 if sample s is not drawn. Bits past a pixel's samples are not looked at.
    pub skip_samples: u16,
    /// The pixels of the screen that are drawn: left, top, right, bottom, the last two outside. `None` is all of them.
    pub scissor: Option<[i32; 4]>,
}

impl State {
    /// Returns the default.
    pub fn new() -> State {
        State::default()
    }

    /// Returns this state with indices of another kind.
    #[must_use]
    pub fn topology(self, topology: Topology) -> State {
        State { topology, ..self }
    }

    /// Returns this state with other triangles dropped.
    #[must_use]
    pub fn cull(self, cull: Cull) -> State {
        State { cull, ..self }
    }

    /// Returns this state with another depth test.
    #[must_use]
    pub fn depth_test(self, depth_test: DepthTest) -> State {
        State { depth_test, ..self }
    }

    /// Returns this state with the new depth stored, or not.
    #[must_use]
    pub fn depth_write(self, depth_write: bool) -> State {
        State { depth_write, ..self }
    }

    /// Returns this state with another blending.
    #[must_use]
    pub fn blend(self, blend: Blend) -> State {
        State { blend, ..self }
    }

    /// Returns this state with other channels that are not written.
    #[must_use]
    pub fn keep(self, keep: Channels) -> State {
        State { keep, ..self }
    }

    /// Returns this state with other samples that are not drawn.
    #[must_use]
    pub fn skip_samples(self, skip_samples: u16) -> State {
        State { skip_samples, ..self }
    }

    /// Returns this state with another scissor: left, top, right, bottom in pixels, the last two outside.
    #[must_use]
    pub fn scissor(self, scissor: [i32; 4]) -> State {
        State { scissor: Some(scissor), ..self }
    }

    /// The draw as C takes it.
    pub(crate) fn raw(&self, vertex_count: usize, index_count: usize) -> sys::trirast_draw {
        let [scissor_left, scissor_top, scissor_right, scissor_bottom] = self.scissor.unwrap_or_default();
        sys::trirast_draw {
            vertex_count,
            index_count,
            topology: self.topology as u8,
            cull: self.cull as u8,
            depth_test: self.depth_test as u8,
            depth_write: u8::from(self.depth_write),
            keep: self.keep.0,
            scissor_enable: u8::from(self.scissor.is_some()),
            skip_samples: self.skip_samples,
            scissor_left,
            scissor_top,
            scissor_right,
            scissor_bottom,
            blend: self.blend.raw(),
        }
    }
}
