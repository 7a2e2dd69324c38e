//! Which requests of document 02 are switched on.

/// The requests up to this number are on, of those that change the walk or the
/// run.
#[derive(Clone, Copy, Debug, PartialEq, Eq)]
pub struct Level(u8);

impl Level {
    /// The requests that are told apart here; 0 is document 01 alone.
    pub const ALL: [u8; 8] = [0, 1, 2, 3, 4, 5, 9, 11];

    pub fn new(number: u8) -> Option<Self> {
        Self::ALL.contains(&number).then_some(Self(number))
    }

    /// The level that a text names.
    pub fn parse(text: &str) -> Option<Self> {
        text.parse().ok().and_then(Self::new)
    }

    /// Request 1: kinds 11 to 14.
    pub fn pairs(self) -> bool {
        self.0 >= 1
    }

    /// Request 2: cell numbers are fixed.
    pub fn cell_numbers(self) -> bool {
        self.0 >= 2
    }

    /// Request 3: code 6.
    pub fn many_types(self) -> bool {
        self.0 >= 3
    }

    /// Request 5: endpoints are worked out.
    pub fn long_endpoints(self) -> bool {
        self.0 >= 5
    }

    /// Request 9: code 7.
    pub fn heads(self) -> bool {
        self.0 >= 9
    }

    /// Request 11: the call that added a row.
    pub fn made(self) -> bool {
        self.0 >= 11
    }
}
