//! A whole run: refusals 1 to 4, then each call in turn.
use crate::level::Level;
use crate::limits::limits;
use crate::quote::Arg;
use crate::reader::{read, Bad, Call};
use crate::state::{Refusal, Result, Row, State};
use crate::syntax::T;

/// The lent slices, in words.
#[derive(Clone, Copy, Debug, PartialEq, Eq)]
pub struct Slices {
    pub rows: u32,
    pub cells: u32,
    pub answers: u32,
}

impl Default for Slices {
    /// The listing's: 682 rows, 2,048 cells, 4,096 answers.
    fn default() -> Self {
        Self { rows: 682 * 24, cells: 2048 * 8, answers: 4096 * 4 }
    }
}

pub struct Answer {
    pub code: u8,
    pub number: u8,
    pub row: Option<usize>,
    /// The level or the quote that the listing prints.
    pub shown: Option<String>,
    /// The result word.
    pub result: u32,
    pub deepest: u32,
}

/// What a run leaves. Where its own number is not 0, the rest is empty.
#[derive(Default)]
pub struct Ran {
    pub number: u8,
    pub place: usize,
    pub cells: u32,
    pub answers: Vec<Answer>,
    pub rows: Vec<Row>,
}

const MAX_BYTES: usize = 65_536;
const MAX_ROWS: usize = 50_000;

/// Plays a run; none where it entered more functions, or counted more nodes,
/// than `work`.
pub fn play(level: Level, bytes: &[u8], slices: Slices, work: u64) -> Option<Ran> {
    let refused = |number, place| Some(Ran { number, place, ..Ran::default() });
    if slices.rows < 24 || slices.cells < 8 {
        return refused(1, 0);
    }
    if bytes.len() > MAX_BYTES {
        return refused(2, 0);
    }
    let (limit, calls) = match read(level, bytes) {
        Ok(run) => run,
        Err(Bad(place)) => return refused(3, place),
    };
    if (slices.answers as usize) < 4 * calls.len() {
        return refused(4, 0);
    }
    let row_room = MAX_ROWS.min(slices.rows as usize / 24);
    let mut state = State::new(level, limit, row_room, slices.cells / 8, work);
    let mut answers = Vec::new();
    for (i, call) in calls.iter().enumerate() {
        state.call = i;
        answers.push(answer(&mut state, call)?);
    }
    Some(Ran { number: 0, place: 0, cells: state.cells.used(), answers, rows: state.rows })
}

/// A call's answer, or none where the work allowed is used up.
fn answer(state: &mut State, call: &Call) -> Option<Answer> {
    state.deepest = 0;
    let walked = limits(call).and_then(|()| walk(state, call));
    let (code, deepest) = (call.code, state.deepest);
    match walked {
        Ok((row, result)) => {
            let word = result.as_ref().map_or(Ok(0), |result| state.cells.word(result)).ok()?;
            let shown = result.map(|result| result.to_string());
            Some(Answer { code, number: 0, row: Some(row), shown, result: word, deepest })
        }
        Err(Refusal::SLOW) => None,
        Err(Refusal(number)) => {
            Some(Answer { code, number, row: None, shown: None, result: 0, deepest })
        }
    }
}

/// The row of an accepted call, and its result.
fn walk(s: &mut State, call: &Call) -> Result<(usize, Option<Arg>)> {
    let (d, g, t) = (call.dimensions, call.context.as_slice(), call.terms.as_slice());
    let term = |(out, row): (T, usize)| (row, Some(Arg::Term(out)));
    match call.code {
        0 => s.ctx(d, g).map(|row| (row, None)),
        1 => s.universe(d, g, &t[0]).map(|(level, row)| (row, Some(Arg::Number(level)))),
        2 => s.infer(d, g, &t[0]).map(term),
        3 => s.check(d, g, &t[0], &t[1]).map(|row| (row, None)),
        4 => s.normalize(d, g, &t[0], &t[1]).map(term),
        5 => s.equal(d, g, &t[0], &t[1], &t[2]).map(|row| (row, None)),
        _ => s.normalize_head(d, g, &t[0], &t[1]).map(term),
    }
}

/// Runs `f` on a stack where 4,096 nested functions, and terms as deep as a run
/// is long, have room.
pub fn on_large_stack<R: Send>(f: impl FnOnce() -> R + Send) -> R {
    std::thread::scope(|scope| {
        let builder = std::thread::Builder::new().stack_size(512 << 20);
        let thread = builder.spawn_scoped(scope, f).expect("no thread could be started");
        thread.join().expect("the reference panicked")
    })
}
