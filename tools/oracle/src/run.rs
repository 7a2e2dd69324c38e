//! A whole run: refusals 1 to 4, then each call in turn.
use crate::cells::Node;
use crate::cubical::producer::play::Player;
use crate::reader::{read, Bad};
use crate::sexp::Sexp;

/// The lent slices, in words.
#[derive(Clone, Copy, Debug, PartialEq, Eq)]
pub struct Slices {
    pub rows: u32,
    pub cells: u32,
    pub answers: u32,
}

impl Default for Slices {
    /// The listing's: 682 rows, 2,048 cells, 4,096 answers.
    fn default() -> Self {
        Self { rows: 682 * 24, cells: 2048 * 8, answers: 4096 * 4 }
    }
}

pub struct Options {
    /// Whether cells are counted. Without, no call meets 20, and cells is 0.
    pub counting: bool,
    /// How many entries, and how many counted nodes, a run may take.
    pub work: u64,
    /// Whether what stands ahead of the program (tools/language.py) is played.
    pub ahead: bool,
}

impl Default for Options {
    fn default() -> Self {
        Self { counting: true, work: u64::MAX, ahead: false }
    }
}

/// What a call's answer shows beside its row.
#[derive(Clone, Debug, PartialEq, Eq)]
pub enum Value {
    None,
    Level(usize),
    Quote(Sexp),
}

#[derive(Clone, Debug, PartialEq, Eq)]
pub struct Answer {
    pub code: u8,
    pub number: u8,
    pub row: Option<usize>,
    pub value: Value,
    pub deepest: u32,
}

#[derive(Clone, Debug, PartialEq, Eq)]
pub struct Row {
    pub rule: String,
    pub refs: Vec<usize>,
    pub judgment: Sexp,
    /// The call that added it: as many calls left a table without it.
    pub made: usize,
}

/// What a run leaves. Where its own number is not 0, the rest is empty.
#[derive(Clone, Debug, Default, PartialEq, Eq)]
pub struct Ran {
    pub number: u8,
    pub place: usize,
    pub cells: u32,
    pub answers: Vec<Answer>,
    pub rows: Vec<Row>,
    /// How many calls the source answers too, as far as ends that are worked out go:
    /// those before the first that enters `endpoint`.
    pub by_source: usize,
    /// Each cell's kind and parts, and what is remembered: cell, type's cell, row.
    pub nodes: Vec<Node>,
    pub remembered: Vec<[u32; 3]>,
}

const MAX_BYTES: usize = 65_536;
const MAX_ROWS: usize = 50_000;

/// Plays a run; none where it took more work than allowed.
pub fn play(bytes: &[u8], slices: Slices, options: &Options) -> Option<Ran> {
    let refused = |number, place| Some(Ran { number, place, ..Ran::default() });
    if slices.rows < 24 || slices.cells < 8 {
        return refused(1, 0);
    }
    if bytes.len() > MAX_BYTES {
        return refused(2, 0);
    }
    let (limit, calls) = match read(bytes, options.ahead) {
        Ok(run) => run,
        Err(Bad(place)) => return refused(3, place),
    };
    if (slices.answers as usize) < 4 * calls.len() {
        return refused(4, 0);
    }
    let row_room = MAX_ROWS.min(slices.rows as usize / 24);
    let mut player = Player::new(limit, row_room, slices.cells / 8, options);
    let (mut answers, mut counts, mut by_source) = (Vec::new(), Vec::new(), 0);
    for call in &calls {
        answers.push(player.answer(call)?);
        counts.push(player.row_count());
        by_source += usize::from(!player.worked_out());
    }
    let (cells, mut nodes, mut remembered) = (player.cells(), Vec::new(), Vec::new());
    if options.counting {
        remembered = player.remembered();
        nodes = player.nodes();
    }
    let rows = player.rows(|row| counts.partition_point(|count| *count <= row));
    Some(Ran { number: 0, place: 0, cells, answers, rows, by_source, nodes, remembered })
}

/// Runs `f` on a stack as large as the source's own, where 4,096 nested
/// functions, and terms as deep as a run is long, have room.
pub fn on_large_stack<T: Send>(f: impl FnOnce() -> T + Send) -> T {
    std::thread::scope(|scope| {
        let builder = std::thread::Builder::new().stack_size(256 << 20);
        let thread = builder.spawn_scoped(scope, f).expect("no thread could be started");
        thread.join().expect("the oracle panicked")
    })
}
