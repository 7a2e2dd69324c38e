//! The cells that docs/FORMAT.md counts: one for each different term, interval,
//! context and remembered inference, parts before the whole, left part first, a
//! context's rest before its last type. A cell is known by its kind and the
//! numbers of its parts, so that a tree is counted in one pass over its nodes.
use crate::cubical::ast::{Interval, Term};
use crate::language::INFERENCE;
use crate::refusal::Refusal;
use crate::sexp::Result;
use std::collections::HashMap;
use std::hash::{BuildHasherDefault, Hasher};

/// Kind and three parts. The kinds of terms and intervals are a run's codes.
pub type Node = [u32; 4];

// written by tools/written.py: other cells
const NIL: u32 = 32;
const CONS: u32 = 33;
// end of other cells

#[derive(Default)]
pub struct Cells {
    known: HashMap<Node, u32, BuildHasherDefault<Mix>>,
    /// How many the slice holds.
    room: u32,
    /// Nodes that may still be gone over; with none left the run is given up,
    /// since trees that double at each step would fill the memory.
    work_left: u64,
}

impl Cells {
    pub fn new(room: u32, work: u64) -> Self {
        Self { room, work_left: work, ..Self::default() }
    }

    pub fn used(&self) -> u32 {
        self.known.len() as u32
    }

    /// The node of each cell, by the order in which they were first counted.
    pub fn nodes(&self) -> Vec<Node> {
        let mut nodes = vec![[0; 4]; self.known.len()];
        for (node, cell) in &self.known {
            nodes[*cell as usize] = *node;
        }
        nodes
    }

    /// The walk is over: what is looked up from here on is no work of its.
    pub fn unbounded(&mut self) {
        self.work_left = u64::MAX;
    }

    fn one(&mut self, node: Node) -> Result<u32> {
        if self.work_left == 0 {
            return Err(Refusal::SLOW);
        }
        self.work_left -= 1;
        if let Some(&cell) = self.known.get(&node) {
            return Ok(cell);
        }
        let cell = self.used();
        if cell >= self.room {
            return Err(Refusal::CELLS);
        }
        self.known.insert(node, cell);
        Ok(cell)
    }

    pub fn interval(&mut self, r: &Interval) -> Result<u32> {
        let node = match r {
            // written by tools/written.py: cells of intervals
            Interval::Zero => [16, 0, 0, 0],
            Interval::One => [17, 0, 0, 0],
            Interval::Var(n) => [18, *n as u32, 0, 0],
            Interval::Neg(a) => [19, self.interval(a)?, 0, 0],
            Interval::Meet(a, b) => [20, self.interval(a)?, self.interval(b)?, 0],
            Interval::Join(a, b) => [21, self.interval(a)?, self.interval(b)?, 0],
            // end of cells of intervals
        };
        self.one(node)
    }

    pub fn term(&mut self, t: &Term) -> Result<u32> {
        let node = match t {
            // written by tools/written.py: cells of terms
            Term::Universe(n) => [1, *n as u32, 0, 0],
            Term::Var(n) => [2, *n as u32, 0, 0],
            Term::Nat => [3, 0, 0, 0],
            Term::Zero => [4, 0, 0, 0],
            Term::Pi(a, b) => [5, self.term(a)?, self.term(b)?, 0],
            Term::Lam(a, b) => [6, self.term(a)?, self.term(b)?, 0],
            Term::App(a, b) => [7, self.term(a)?, self.term(b)?, 0],
            Term::Path(a, b, c) => [8, self.term(a)?, self.term(b)?, self.term(c)?],
            Term::PathLam(a, b) => [9, self.term(a)?, self.term(b)?, 0],
            Term::PathApp(a, b) => [10, self.term(a)?, self.interval(b)?, 0],
            Term::Sigma(a, b) => [11, self.term(a)?, self.term(b)?, 0],
            Term::Pair(a, b, c) => [12, self.term(a)?, self.term(b)?, self.term(c)?],
            Term::Fst(a) => [13, self.term(a)?, 0, 0],
            Term::Snd(a) => [14, self.term(a)?, 0, 0],
            // end of cells of terms
        };
        self.one(node)
    }

    /// The types of a context stand outermost first.
    pub fn context(&mut self, g: &[Term]) -> Result<u32> {
        let mut rest = self.one([NIL, 0, 0, 0])?;
        for a in g {
            let last = self.term(a)?;
            rest = self.one([CONS, last, rest, 0])?;
        }
        Ok(rest)
    }

    /// Of an inference only the key makes it different; its parts are counted
    /// already, as arguments of `infer`.
    pub fn inference(&mut self, d: usize, g: &[Term], t: &Term) -> Result<u32> {
        let g = self.context(g)?;
        let t = self.term(t)?;
        self.one([INFERENCE, d as u32, g, t])
    }
}

/// A quick hash of four words: the map's own, which resists attack, is slower
/// than the rest of the count.
#[derive(Default)]
struct Mix(u64);

impl Hasher for Mix {
    fn finish(&self) -> u64 {
        self.0 ^ (self.0 >> 29)
    }
    fn write(&mut self, bytes: &[u8]) {
        for part in bytes.chunks(8) {
            let mut word = [0; 8];
            word[..part.len()].copy_from_slice(part);
            self.write_u64(u64::from_le_bytes(word));
        }
    }
    fn write_u64(&mut self, word: u64) {
        self.0 = (self.0.rotate_left(23) ^ word).wrapping_mul(0x9E37_79B9_7F4A_7C15);
    }
}
