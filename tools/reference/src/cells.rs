//! Cells, numbered in the order in which they are first counted: parts before
//! the whole, left part first, a context's rest before its last type.
use crate::quote::Arg;
use crate::state::{Refusal, Result};
use crate::syntax::{Interval, Term, T};
use std::collections::BTreeMap;

/// Kind and three parts: numbers, or the cells of the parts.
type Node = [u32; 4];

const NIL: u32 = 32;
const CONS: u32 = 33;
const INFERENCE: u32 = 40;

pub struct Cells {
    known: BTreeMap<Node, u32>,
    /// Of each quote the first cell; its parts are known by theirs.
    first: BTreeMap<Node, u32>,
    /// Of each cell the lowest that has its quote.
    lowest: Vec<u32>,
    room: u32,
    /// Nodes that may still be gone over: trees that double at each step would
    /// take for ever.
    work_left: u64,
}

impl Cells {
    pub fn new(room: u32, work: u64) -> Self {
        let (known, first) = (BTreeMap::new(), BTreeMap::new());
        Self { known, first, lowest: Vec::new(), room, work_left: work }
    }

    pub fn used(&self) -> u32 {
        self.lowest.len() as u32
    }

    /// `erased` is the node as its quote has it.
    fn one(&mut self, node: Node, erased: Node) -> Result<u32> {
        if self.work_left == 0 {
            return Err(Refusal::SLOW);
        }
        self.work_left -= 1;
        if let Some(&cell) = self.known.get(&node) {
            return Ok(cell);
        }
        let cell = self.used();
        if cell >= self.room {
            return Err(Refusal(20));
        }
        self.known.insert(node, cell);
        let lowest = *self.first.entry(erased).or_insert(cell);
        self.lowest.push(lowest);
        Ok(cell)
    }

    /// A node whose parts are numbers.
    fn leaf(&mut self, kind: u32, n: u32) -> Result<u32> {
        self.one([kind, n, 0, 0], [kind, n, 0, 0])
    }

    /// A node whose parts are cells. Those from `shown` on are quoted.
    fn node(&mut self, kind: u32, parts: &[u32], shown: usize) -> Result<u32> {
        let (mut node, mut erased) = ([kind, 0, 0, 0], [kind, 0, 0, 0]);
        for (i, &part) in parts.iter().enumerate() {
            node[i + 1] = part;
            if i >= shown {
                erased[i + 1] = self.lowest[part as usize];
            }
        }
        self.one(node, erased)
    }

    fn interval(&mut self, r: &Interval) -> Result<u32> {
        let (kind, parts) = match r {
            Interval::Zero => return self.leaf(16, 0),
            Interval::One => return self.leaf(17, 0),
            Interval::Dim(n) => return self.leaf(18, *n),
            Interval::Neg(a) => (19, vec![self.interval(a)?]),
            Interval::Meet(a, b) => (20, vec![self.interval(a)?, self.interval(b)?]),
            Interval::Join(a, b) => (21, vec![self.interval(a)?, self.interval(b)?]),
        };
        self.node(kind, &parts, 0)
    }

    fn term(&mut self, t: &Term) -> Result<u32> {
        let (kind, parts, shown) = match t {
            Term::U(n) => return self.leaf(1, *n),
            Term::V(n) => return self.leaf(2, *n),
            Term::Nat => return self.leaf(3, 0),
            Term::Zero => return self.leaf(4, 0),
            Term::Pi(a, b) => (5, vec![self.term(a)?, self.term(b)?], 0),
            Term::Lam(a, b) => (6, vec![self.term(a)?, self.term(b)?], 1),
            Term::App(a, b) => (7, vec![self.term(a)?, self.term(b)?], 0),
            Term::Path(a, b, c) => (8, vec![self.term(a)?, self.term(b)?, self.term(c)?], 0),
            Term::Plam(a, b) => (9, vec![self.term(a)?, self.term(b)?], 1),
            Term::Papp(p, r) => (10, vec![self.term(p)?, self.interval(r)?], 0),
            Term::Sigma(a, b) => (11, vec![self.term(a)?, self.term(b)?], 0),
            Term::Pair(a, b, c) => (12, vec![self.term(a)?, self.term(b)?, self.term(c)?], 1),
            Term::Fst(p) => (13, vec![self.term(p)?], 0),
            Term::Snd(p) => (14, vec![self.term(p)?], 0),
        };
        self.node(kind, &parts, shown)
    }

    fn context(&mut self, g: &[T]) -> Result<u32> {
        let Some((last, rest)) = g.split_last() else {
            return self.leaf(NIL, 0);
        };
        let rest = self.context(rest)?;
        let last = self.term(last)?;
        self.node(CONS, &[rest, last], 0)
    }

    /// Counts what an argument or a result has; a number takes no cell.
    pub fn count(&mut self, arg: &Arg) -> Result<()> {
        match arg {
            Arg::Number(_) => return Ok(()),
            Arg::Interval(r) => self.interval(r)?,
            Arg::Term(t) => self.term(t)?,
            Arg::Context(g) => self.context(g)?,
        };
        Ok(())
    }

    /// The cell of a remembered inference, known by its key.
    pub fn inference(&mut self, d: u32, g: &[T], t: &T) -> Result<()> {
        let (g, t) = (self.context(g)?, self.term(t)?);
        let node = [INFERENCE, d, g, t];
        self.one(node, node)?;
        Ok(())
    }

    /// The word of a judgment's argument, or of a result: a number as itself,
    /// else the lowest cell with its quote. All that is named is counted
    /// already, so none is made here.
    pub fn word(&mut self, arg: &Arg) -> Result<u32> {
        let used = self.used();
        let cell = match arg {
            Arg::Number(n) => return Ok(*n),
            Arg::Interval(r) => self.interval(r),
            Arg::Term(t) => self.term(t),
            Arg::Context(g) => self.context(g),
        };
        assert_ne!(cell, Err(Refusal(20)), "an argument of a row that was not counted");
        assert_eq!(used, self.used(), "an argument of a row that was not counted");
        Ok(self.lowest[cell? as usize])
    }
}
