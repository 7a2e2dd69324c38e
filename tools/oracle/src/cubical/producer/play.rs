//! The calls of a run, over one producer: what the source's own requests were.
use super::{syntax, Producer, Term};
use crate::cells::{Cells, Node};
use crate::language::MANY;
use crate::reader::Call;
use crate::refusal::Refusal;
use crate::run::{Answer, Options, Row, Value};
use crate::sexp::Result;
use crate::watch::Watch;

/// The specification's limit for dimensions and context; the source's own is 32.
const SCOPE: usize = 33;

pub struct Player(Producer);

impl Player {
    pub fn new(limit: u32, row_room: usize, cell_room: u32, options: &Options) -> Self {
        Self(Producer {
            watch: Watch {
                limit,
                row_room,
                counting: options.counting,
                work_left: options.work,
                cells: Cells::new(cell_room, options.work),
                ..Watch::default()
            },
            ..Producer::default()
        })
    }

    /// A call's answer, or none where the work allowed is used up.
    pub fn answer(&mut self, call: &Call) -> Option<Answer> {
        self.0.watch.deepest = 0;
        let out = limits(call).and_then(|()| self.walk(call));
        let deepest = self.0.watch.deepest;
        let code = call.code;
        match out {
            Ok((row, value)) => Some(Answer { code, number: 0, row: Some(row), value, deepest }),
            Err(Refusal::SLOW) => None,
            Err(Refusal(number)) => {
                Some(Answer { code, number, row: None, value: Value::None, deepest })
            }
        }
    }

    fn walk(&mut self, call: &Call) -> Result<(usize, Value)> {
        let p = &mut self.0;
        let (d, g, t) = (call.dimensions, call.context.as_slice(), call.terms.as_slice());
        let shown = |(term, row): (Term, usize)| (row, Value::Quote(term.quote()));
        let bare = |row: usize| (row, Value::None);
        match call.code {
            0 => p.ctx(d, g).map(bare),
            1 => p.universe(d, g, &t[0]).map(|(level, row)| (row, Value::Level(level))),
            2 => p.infer(d, g, &t[0]).map(shown),
            3 => p.check(d, g, &t[0], &t[1]).map(bare),
            4 => p.normalize(d, g, &t[0], &t[1]).map(shown),
            7 => p.head_normalize(d, g, &t[0], &t[1]).map(shown),
            _ => p.equal(d, g, &t[0], &t[1], &t[2]).map(bare),
        }
    }

    /// Whether an endpoint was worked out, up to here.
    pub fn worked_out(&self) -> bool {
        self.0.watch.worked_out
    }

    pub fn cells(&self) -> u32 {
        self.0.watch.cells.used()
    }

    pub fn nodes(&self) -> Vec<Node> {
        self.0.watch.cells.nodes()
    }

    /// What `infer` remembers at the end: cell, type's cell and row of each
    /// inference. All of their parts have cells, so none is added here.
    pub fn remembered(&mut self) -> Vec<[u32; 3]> {
        let Producer { inferred, watch, .. } = &mut self.0;
        watch.cells.unbounded();
        let mut one = |((d, g, t), (ty, row)): (&(usize, Vec<Term>, Term), &(Term, usize))| {
            let cell = watch.cells.inference(*d, g, t)?;
            Ok([cell, watch.cells.term(ty)?, *row as u32])
        };
        let out: Result<Vec<[u32; 3]>> = inferred.iter().map(&mut one).collect();
        out.expect("an inference without a cell")
    }

    pub fn row_count(&self) -> usize {
        self.0.steps.len()
    }

    pub fn rows(self, made: impl Fn(usize) -> usize) -> Vec<Row> {
        self.0
            .steps
            .into_iter()
            .enumerate()
            .map(|(i, (rule, refs, judgment))| Row { rule, refs, judgment, made: made(i) })
            .collect()
    }
}

/// Refusals 23, 5, 6 and 7, before anything is walked. A call with many types that
/// is not written out has a wrong count.
fn limits(call: &Call) -> Result<()> {
    if call.code == MANY {
        return Err(Refusal(23));
    }
    if call.dimensions > SCOPE || call.context.len() > SCOPE {
        return Err(Refusal(5));
    }
    let mut nodes = 0;
    call.context.iter().chain(&call.terms).try_for_each(|t| syntax::term(t, 0, &mut nodes))
}
