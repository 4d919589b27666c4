//! Blend equations: what a new colour makes of the stored one.

use trirast_sys as sys;

use crate::{Factor, Operation};

/// One equation: the new value times `source`, and the stored one times `stored`.
#[derive(Clone, Copy, Debug, PartialEq, Eq, Hash)]
pub struct Equation {
    /// What the new value is multiplied by.
    pub source: Factor,
    /// What the stored value is multiplied by.
    pub stored: Factor,
    /// What is done with both products.
    pub operation: Operation,
}

impl Equation {
    /// The sum of the new value times one factor and of the stored one times another.
    pub const fn add(source: Factor, stored: Factor) -> Equation {
        Equation { source, stored, operation: Operation::Add }
    }
}

/// What a new colour makes of the stored one: an equation for colours and one for alpha. A canvas
/// without alpha stores 255.
#[derive(Clone, Copy, Debug, PartialEq, Eq, Hash)]
#[non_exhaustive]
pub struct Blend {
    /// Of red, green and blue.
    pub color: Equation,
    /// Of alpha.
    pub alpha: Equation,
    /// Red, green, blue and alpha of [`Factor::Constant`].
    pub constant: [u8; 4],
}

impl Blend {
    /// The new colour replaces the stored one.
    pub const NONE: Blend = Blend::both(Equation::add(Factor::One, Factor::Zero));
    /// The new colour is blended over the stored one by its alpha, as `over` of draw lists.
    pub const OVER: Blend = Blend::new(
        Equation::add(Factor::SourceAlpha, Factor::InverseSourceAlpha),
        Equation::add(Factor::One, Factor::InverseSourceAlpha),
    );
    /// The new colour, which was multiplied by its alpha, over the stored one.
    pub const PREMULTIPLIED: Blend = Blend::both(Equation::add(Factor::One, Factor::InverseSourceAlpha));
    /// The new colour times its alpha is added.
    pub const ADD: Blend =
        Blend::new(Equation::add(Factor::SourceAlpha, Factor::One), Equation::add(Factor::One, Factor::One));
    /// Both are multiplied.
    pub const MULTIPLY: Blend = Blend::both(Equation::add(Factor::StoredColor, Factor::Zero));
    /// The stored colour stays.
    pub const KEEP: Blend = Blend::both(Equation::add(Factor::Zero, Factor::One));

    /// Returns two equations, with a constant of zeros.
    pub const fn new(color: Equation, alpha: Equation) -> Blend {
        Blend { color, alpha, constant: [0; 4] }
    }

    const fn both(equation: Equation) -> Blend {
        Blend::new(equation, equation)
    }

    /// Returns these equations with another constant: red, green, blue and alpha.
    #[must_use]
    pub const fn with_constant(self, constant: [u8; 4]) -> Blend {
        Blend { constant, ..self }
    }

    pub(crate) fn raw(self) -> sys::trirast_blend {
        sys::trirast_blend {
            color_source: self.color.source as u8,
            color_stored: self.color.stored as u8,
            color_operation: self.color.operation as u8,
            alpha_source: self.alpha.source as u8,
            alpha_stored: self.alpha.stored as u8,
            alpha_operation: self.alpha.operation as u8,
            constant: self.constant,
        }
    }
}

impl Default for Blend {
    fn default() -> Blend {
        Blend::NONE
    }
}
