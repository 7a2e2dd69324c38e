//! Why a call is refused: the number in docs/FORMAT.md, where the source has a text.

#[derive(Clone, Copy, Debug, PartialEq, Eq)]
pub struct Refusal(pub u8);

impl Refusal {
    /// A function would be entered past the nesting limit.
    pub const NESTING: Self = Self(19);
    /// A new cell is needed and none is left.
    pub const CELLS: Self = Self(20);
    /// The work allowed is used up: the run is given up, not answered.
    pub const SLOW: Self = Self(254);
    /// Stands where the source has an error that can't happen. No answer may
    /// show it.
    pub const NEVER: Self = Self(255);
}
