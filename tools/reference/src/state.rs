//! What the walk keeps: rows, cells, memory, nesting.
use crate::cells::Cells;
use crate::level::Level;
use crate::quote::{judgment, Arg};
use crate::syntax::T;
use std::collections::BTreeMap;

/// Why a call is refused: the documents' number.
#[derive(Clone, Copy, Debug, PartialEq, Eq)]
pub struct Refusal(pub u8);

impl Refusal {
    /// The work allowed is used up: the run is given up, not answered.
    pub const SLOW: Self = Self(254);
}

pub type Result<T> = std::result::Result<T, Refusal>;

pub struct Row {
    pub rule: String,
    pub refs: Vec<usize>,
    pub judgment: String,
    /// The argument words.
    pub args: Vec<u32>,
    /// The quote of its last argument: an equality's type.
    pub last: String,
    /// The call that added it.
    pub made: usize,
}

pub struct State {
    pub level: Level,
    pub rows: Vec<Row>,
    pub cells: Cells,
    /// The row of each judgment, by its text.
    known: BTreeMap<String, usize>,
    /// What `infer` remembers: dimensions, context and term, annotations
    /// included; type and row.
    memory: BTreeMap<(u32, Vec<T>, T), (T, usize)>,
    row_room: usize,
    nesting: u32,
    limit: u32,
    conversions: u32,
    /// Of the call that is walked.
    pub deepest: u32,
    pub call: usize,
    work_left: u64,
}

impl State {
    pub fn new(level: Level, limit: u32, row_room: usize, cell_room: u32, work: u64) -> Self {
        Self {
            level,
            rows: Vec::new(),
            cells: Cells::new(cell_room, work),
            known: BTreeMap::new(),
            memory: BTreeMap::new(),
            row_room,
            nesting: 0,
            limit,
            conversions: 0,
            deepest: 0,
            call: 0,
            work_left: work,
        }
    }

    /// A function that counts in deepest: 19 past the limit; then its arguments
    /// take cells, left to right; then its body.
    pub fn enter<R>(
        &mut self,
        args: &[Arg],
        body: impl FnOnce(&mut Self) -> Result<R>,
    ) -> Result<R> {
        if self.nesting >= self.limit {
            return Err(Refusal(19));
        }
        if self.work_left == 0 {
            return Err(Refusal::SLOW);
        }
        self.work_left -= 1;
        self.nesting += 1;
        self.deepest = self.deepest.max(self.nesting);
        let counted = args.iter().try_for_each(|arg| self.cells.count(arg));
        let out = counted.and_then(|()| body(self));
        self.nesting -= 1;
        out
    }

    /// A result takes cells: just before its row, or on return.
    pub fn count(&mut self, result: impl Into<Arg>) -> Result<()> {
        self.cells.count(&result.into())
    }

    pub fn row_of(&self, judgment: &str) -> Option<usize> {
        self.known.get(judgment).copied()
    }

    /// The row of a judgment, new where it is not known.
    pub fn fact(
        &mut self,
        rule: &str,
        refs: Vec<usize>,
        name: &str,
        args: &[Arg],
    ) -> Result<usize> {
        let text = judgment(name, args);
        if let Some(row) = self.row_of(&text) {
            return Ok(row);
        }
        if self.rows.len() >= self.row_room {
            return Err(Refusal(18));
        }
        let row = self.rows.len();
        let last = args.last().map(Arg::to_string).unwrap_or_default();
        let args = args.iter().map(|arg| self.cells.word(arg)).collect::<Result<_>>()?;
        self.known.insert(text.clone(), row);
        let (rule, made) = (rule.to_owned(), self.call);
        self.rows.push(Row { rule, refs, judgment: text, args, last, made });
        Ok(row)
    }

    /// A conversion, one more nested: 16 where it would be the 33rd.
    pub fn converting<R>(&mut self, body: impl FnOnce(&mut Self) -> Result<R>) -> Result<R> {
        if self.conversions >= 32 {
            return Err(Refusal(16));
        }
        self.conversions += 1;
        let out = body(self);
        self.conversions -= 1;
        out
    }

    pub fn remembered(&self, d: u32, g: &[T], t: &T) -> Option<(T, usize)> {
        self.memory.get(&(d, g.to_vec(), t.clone())).cloned()
    }

    pub fn remember(&mut self, d: u32, g: &[T], t: &T, ty: &T, row: usize) -> Result<()> {
        self.cells.inference(d, g, t)?;
        self.memory.insert((d, g.to_vec(), t.clone()), (ty.clone(), row));
        Ok(())
    }
}
