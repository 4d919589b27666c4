//! States of draws, formats and fill rules by the numbers of `trirast.h`.
//!
//! Written by `python3 -m tools.interface` from `interface/numbers.toml`.

use trirast_sys as sys;

/// The numbers of samples that a pixel may have, in messages.
pub(crate) const SAMPLE_COUNTS: &str = "1, 2, 4, 8 or 16";
/// The least and the greatest coordinate, in 1/256 pixel.
pub(crate) const LOW: i64 = -8_388_608;
pub(crate) const HIGH: i64 = 8_388_607;
/// The least and the greatest coordinate of the origin of a canvas on which polygons are drawn, in pixels.
pub(crate) const ORIGINS: [i32; 2] = [-32768, 28672];
/// The greatest width and height of a canvas, in pixels.
pub(crate) const MAX_SIDE: u32 = 4096;

/// What the indices of a draw are, or without any its vertices in their order.
#[derive(Clone, Copy, Debug, Default, PartialEq, Eq, Hash)]
#[non_exhaustive]
pub enum Topology {
    /// Three indices each.
    #[default]
    Triangles = sys::TRIRAST_TOPOLOGY_TRIANGLES as isize,
    /// A triangle strip: docs/rules.md, Order; fewer than three indices are none.
    Strip = sys::TRIRAST_TOPOLOGY_STRIP as isize,
    /// Strictly convex quads, four indices each.
    Quads = sys::TRIRAST_TOPOLOGY_QUADS as isize,
}

/// Which triangles are dropped.
#[derive(Clone, Copy, Debug, Default, PartialEq, Eq, Hash)]
#[non_exhaustive]
pub enum Cull {
    /// None.
    #[default]
    None = sys::TRIRAST_CULL_NONE as isize,
    /// Front-facing ones.
    Front = sys::TRIRAST_CULL_FRONT as isize,
    /// Those that run anticlockwise.
    Back = sys::TRIRAST_CULL_BACK as isize,
}

/// When the new depth passes its test against the stored one: the numbers of D3D11_COMPARISON_FUNC, but 0 in place of
/// 8.
#[derive(Clone, Copy, Debug, Default, PartialEq, Eq, Hash)]
#[non_exhaustive]
pub enum DepthTest {
    /// Always.
    #[default]
    Always = sys::TRIRAST_DEPTH_ALWAYS as isize,
    /// Never.
    Never = sys::TRIRAST_DEPTH_NEVER as isize,
    /// The new depth is less.
    Less = sys::TRIRAST_DEPTH_LESS as isize,
    /// Both are equal.
    Equal = sys::TRIRAST_DEPTH_EQUAL as isize,
    /// The new depth is less or equal.
    LessEqual = sys::TRIRAST_DEPTH_LESS_EQUAL as isize,
    /// The new depth is greater.
    Greater = sys::TRIRAST_DEPTH_GREATER as isize,
    /// Both differ.
    NotEqual = sys::TRIRAST_DEPTH_NOT_EQUAL as isize,
    /// The new depth is greater or equal.
    GreaterEqual = sys::TRIRAST_DEPTH_GREATER_EQUAL as isize,
}

/// What a blend equation multiplies a term by: the numbers of D3D11_BLEND.
#[derive(Clone, Copy, Debug, PartialEq, Eq, Hash)]
#[non_exhaustive]
pub enum Factor {
    /// 0.
    Zero = sys::TRIRAST_FACTOR_ZERO as isize,
    /// 1.
    One = sys::TRIRAST_FACTOR_ONE as isize,
    /// The new channel.
    SourceColor = sys::TRIRAST_FACTOR_SOURCE_COLOR as isize,
    /// 1 less the new channel.
    InverseSourceColor = sys::TRIRAST_FACTOR_INVERSE_SOURCE_COLOR as isize,
    /// The new alpha.
    SourceAlpha = sys::TRIRAST_FACTOR_SOURCE_ALPHA as isize,
    /// 1 less the new alpha.
    InverseSourceAlpha = sys::TRIRAST_FACTOR_INVERSE_SOURCE_ALPHA as isize,
    /// The stored alpha.
    StoredAlpha = sys::TRIRAST_FACTOR_STORED_ALPHA as isize,
    /// 1 less the stored alpha.
    InverseStoredAlpha = sys::TRIRAST_FACTOR_INVERSE_STORED_ALPHA as isize,
    /// The stored channel.
    StoredColor = sys::TRIRAST_FACTOR_STORED_COLOR as isize,
    /// 1 less the stored channel.
    InverseStoredColor = sys::TRIRAST_FACTOR_INVERSE_STORED_COLOR as isize,
    /// The lesser of the new alpha and what the stored one lacks; for alpha 1.
    SourceAlphaSaturated = sys::TRIRAST_FACTOR_SOURCE_ALPHA_SATURATED as isize,
    /// The channel of the blend's constant.
    Constant = sys::TRIRAST_FACTOR_CONSTANT as isize,
    /// 1 less the channel of the blend's constant.
    InverseConstant = sys::TRIRAST_FACTOR_INVERSE_CONSTANT as isize,
}

/// How a blend equation combines its terms, f = s by its factor and g = d by its factor: the numbers of D3D11_BLEND_OP,
/// and 0 for ADD.
#[derive(Clone, Copy, Debug, PartialEq, Eq, Hash)]
#[non_exhaustive]
pub enum Operation {
    /// The sum of both terms.
    Add = sys::TRIRAST_OPERATION_ADD as isize,
    /// The new term less the stored one.
    Subtract = sys::TRIRAST_OPERATION_SUBTRACT as isize,
    /// The stored term less the new one.
    ReverseSubtract = sys::TRIRAST_OPERATION_REVERSE_SUBTRACT as isize,
    /// The lesser of both channels, without factors.
    Min = sys::TRIRAST_OPERATION_MIN as isize,
    /// The greater of both channels, without factors.
    Max = sys::TRIRAST_OPERATION_MAX as isize,
}

/// Which points are inside of a polygon, by the edges of its rings that a ray to the left crosses.
#[derive(Clone, Copy, Debug, Default, PartialEq, Eq, Hash)]
#[non_exhaustive]
pub enum FillRule {
    /// An odd number of edges is crossed.
    #[default]
    EvenOdd = sys::TRIRAST_FILL_EVEN_ODD as isize,
    /// More edges are crossed downwards than upwards, or fewer.
    Nonzero = sys::TRIRAST_FILL_NONZERO as isize,
}

/// How the colour of a pixel lies in bytes, in the order of the name.
#[derive(Clone, Copy, Debug, PartialEq, Eq, Hash)]
#[non_exhaustive]
pub enum Format {
    /// Red, green and blue.
    Rgb8 = sys::TRIRAST_FORMAT_RGB8 as isize,
    /// Red, green, blue and alpha, as they are stored.
    Rgba8 = sys::TRIRAST_FORMAT_RGBA8 as isize,
    /// Blue, green, red and alpha, as they are stored.
    Bgra8 = sys::TRIRAST_FORMAT_BGRA8 as isize,
    /// Red, green, blue and alpha as image files have them.
    Rgba8Straight = sys::TRIRAST_FORMAT_RGBA8_STRAIGHT as isize,
    /// Blue, green, red and alpha as image files have them.
    Bgra8Straight = sys::TRIRAST_FORMAT_BGRA8_STRAIGHT as isize,
}

impl Format {
    /// Returns the bytes of a pixel.
    pub fn pixel_bytes(self) -> usize {
        match self {
            Format::Rgb8 => 3,
            Format::Rgba8 => 4,
            Format::Bgra8 => 4,
            Format::Rgba8Straight => 4,
            Format::Bgra8Straight => 4,
        }
    }
}
