//! A small generator of numbers: the same seed gives the same runs for ever.

/// Which terms the runs are made of.
#[derive(Clone, Copy, Debug, Default, PartialEq, Eq)]
pub enum Terms {
    #[default]
    Plain,
    /// Pair types too: sigma, pair, fst, snd.
    Pairs,
    /// These, and calls with many types.
    Many,
    /// These, and intervals that work out to an end, written long.
    Ends,
    /// These, and calls that reduce at the head.
    Heads,
}

pub struct Random {
    state: u64,
    terms: Terms,
}

const STEP: u64 = 0x9E37_79B9_7F4A_7C15;

impl Random {
    /// The numbers of one run, by the seed and the run's place, so that any run
    /// can be made again alone.
    pub fn new(seed: u64, place: u64) -> Self {
        let mut numbers = Self { state: seed, terms: Terms::Plain };
        numbers.state = numbers.word() ^ place.wrapping_mul(STEP);
        numbers
    }

    pub fn of(self, terms: Terms) -> Self {
        Self { terms, ..self }
    }

    /// Whether pairs may be made.
    pub fn pairs(&self) -> bool {
        self.terms != Terms::Plain
    }

    /// Whether calls with many types may be made.
    pub fn many(&self) -> bool {
        matches!(self.terms, Terms::Many | Terms::Ends | Terms::Heads)
    }

    /// Whether ends are written long.
    pub fn ends(&self) -> bool {
        matches!(self.terms, Terms::Ends | Terms::Heads)
    }

    /// Whether calls reduce at the head.
    pub fn heads(&self) -> bool {
        self.terms == Terms::Heads
    }

    /// A number below `plain`, or below `plain + more` where pairs may be made.
    pub fn below_with_pairs(&mut self, plain: usize, more: usize) -> usize {
        self.below(if self.pairs() { plain + more } else { plain })
    }

    pub fn word(&mut self) -> u64 {
        self.state = self.state.wrapping_add(STEP);
        let mut x = self.state;
        x = (x ^ (x >> 30)).wrapping_mul(0xBF58_476D_1CE4_E5B9);
        x = (x ^ (x >> 27)).wrapping_mul(0x94D0_49BB_1331_11EB);
        x ^ (x >> 31)
    }

    /// A number below n, which is not 0.
    pub fn below(&mut self, n: usize) -> usize {
        (self.word() % n as u64) as usize
    }

    /// A number from low to high, both among them.
    pub fn between(&mut self, low: usize, high: usize) -> usize {
        low + self.below(high - low + 1)
    }

    /// True in `some` of `all` cases.
    pub fn chance(&mut self, some: usize, all: usize) -> bool {
        self.below(all) < some
    }

    pub fn pick<T: Clone>(&mut self, from: &[T]) -> T {
        from[self.below(from.len())].clone()
    }
}
