//! Many runs on several threads, until the first difference.
use crate::cuts::{ends, Stood};
use crate::program::{Left, Lent};
use crate::same::{compare, Difference};
use crate::shown::{oracle_text, program_text};
use crate::shrink::shrunk;
use crate::tally::Tally;
use generator::{Case, Terms};
use oracle::{play, Options, Ran, Slices};
use std::fmt::Write;
use std::sync::atomic::{AtomicBool, AtomicU64, Ordering};
use std::sync::Mutex;

/// Where runs come from: a place has one or more.
pub enum Source {
    Seeded(u64),
    Swept(u64),
    Listed(Vec<Case>),
}

pub struct Asked {
    pub source: Source,
    pub terms: Terms,
    pub first: u64,
    pub count: u64,
    /// Every run in a table of 50,000 rows, with the highest nesting limit.
    pub full: bool,
    pub work: u64,
    pub threads: usize,
    /// After how many of its first calls each run is cut too.
    pub cuts: usize,
}

/// A difference, the run that shows it and its place.
pub struct Found {
    pub place: u64,
    pub case: Case,
    pub difference: Difference,
}

/// 50,000 rows, 16,384 cells, 16,384 answers.
const FULL: [u32; 3] = [50_000 * 24, 16_384 * 8, 16_384 * 4];
/// As large as the oracle's: 4,096 nested functions and deep terms have room.
const STACK: usize = 512 << 20;
/// How many places a thread takes at a time.
const STEP: u64 = 16;

impl Asked {
    /// Both sides. With pairs the oracle plays what stands ahead of the program.
    pub fn sides(&self) -> Sides {
        let mut sides = Sides::new(self.work, self.cuts);
        sides.options.ahead = self.terms != Terms::Plain;
        sides
    }

    fn cases(&self, place: u64) -> Vec<Case> {
        let mut cases = match &self.source {
            Source::Seeded(seed) => vec![generator::case(self.terms, *seed, place)],
            Source::Swept(seed) => generator::sweep(self.terms, *seed, place).collect(),
            Source::Listed(cases) => vec![cases[place as usize].clone()],
        };
        if self.full {
            cases.iter_mut().for_each(enlarge);
        }
        cases
    }

    pub fn compare(&self) -> (Tally, Option<Found>) {
        let next = AtomicU64::new(self.first);
        let stop = AtomicBool::new(false);
        let total = Mutex::new(Tally::default());
        let found = Mutex::new(Vec::new());
        std::thread::scope(|scope| {
            for _ in 0..self.threads {
                let thread = std::thread::Builder::new().stack_size(STACK);
                let work = || {
                    let mut side = self.sides();
                    let some = self.work_off(&mut side, &next, &stop);
                    total.lock().unwrap().join(&side.tally);
                    found.lock().unwrap().extend(some);
                };
                thread.spawn_scoped(scope, work).expect("no thread could be started");
            }
        });
        let mut found = found.into_inner().unwrap();
        found.sort_by_key(|found: &Found| found.place);
        (total.into_inner().unwrap(), found.into_iter().next())
    }

    fn work_off(&self, side: &mut Sides, next: &AtomicU64, stop: &AtomicBool) -> Option<Found> {
        let last = self.first + self.count;
        while !stop.load(Ordering::Relaxed) {
            let from = next.fetch_add(STEP, Ordering::Relaxed);
            if from >= last {
                return None;
            }
            for place in from..last.min(from + STEP) {
                let slow = side.tally.slow;
                for case in self.cases(place) {
                    if let Err(difference) = side.compare(&case) {
                        stop.store(true, Ordering::Relaxed);
                        return Some(Found { place, case, difference });
                    }
                }
                if side.tally.slow > slow {
                    side.tally.slow_places.push(place);
                }
            }
        }
        None
    }
}

fn enlarge(case: &mut Case) {
    case.slices = [0, 1, 2].map(|i| case.slices[i].max(FULL[i]));
    if case.bytes.len() >= 2 {
        case.bytes[..2].copy_from_slice(&4096_u16.to_le_bytes());
    }
}

/// Both sides, with what they met.
pub struct Sides {
    lent: Lent,
    options: Options,
    cuts: usize,
    pub tally: Tally,
}

impl Sides {
    pub fn new(work: u64, cuts: usize) -> Self {
        let options = Options { work, ..Options::default() };
        Self { lent: Lent::default(), options, cuts, tally: Tally::default() }
    }

    pub fn oracle(&self, case: &Case) -> Option<Ran> {
        self.oracle_of(&case.bytes, case.slices)
    }

    fn oracle_of(&self, bytes: &[u8], [rows, cells, answers]: [u32; 3]) -> Option<Ran> {
        play(bytes, Slices { rows, cells, answers }, &self.options)
    }

    /// The run, and before it each of its cuts: the same slices, fewer calls.
    pub fn compare(&mut self, case: &Case) -> Result<(), Difference> {
        let mut stood = Stood::default();
        let ends = ends(&case.bytes, self.cuts);
        for &end in &ends {
            let bytes = &case.bytes[..end];
            let Some(ran) = self.oracle_of(bytes, case.slices) else {
                self.tally.slow += 1;
                return Ok(());
            };
            let met = self.lent.play(bytes, case.slices, |left| {
                compare(left, &ran).and_then(|()| stood.kept(left))
            });
            if end < case.bytes.len() {
                stood = met.map_err(|difference| format!("cut at byte {end}: {difference}"))?;
                self.tally.add_cut(&ran);
            } else {
                met?;
                self.tally.add(case.slices, &ran);
                self.tally.uncut += ran.answers.len().saturating_sub(ends.len()) as u64;
            }
        }
        Ok(())
    }

    /// The smallest run found that shows a difference, with both sides' texts.
    pub fn explain(&mut self, found: Found) -> String {
        let case = shrunk(found.case.clone(), &mut |case| self.compare(case).is_err());
        let difference = self.compare(&case).expect_err("the shrunk run shows no difference");
        // None where a cut differs and the whole is too slow for the oracle.
        let texts = self.oracle(&case).map(|ran| {
            let play = |left: &Left| [program_text(left, &ran), oracle_text(&ran)];
            self.lent.play(&case.bytes, case.slices, play)
        });
        let mut out = String::new();
        writeln!(out, "DIFFERENCE at place {}: {}", found.place, found.difference).unwrap();
        writeln!(out, "smallest run: {difference}").unwrap();
        writeln!(out, "slices {:?}", case.slices).unwrap();
        let hex: String = case.bytes.iter().map(|byte| format!("{byte:02x}")).collect();
        let bytes: Vec<String> = case.bytes.iter().map(u8::to_string).collect();
        writeln!(out, "hex {hex}\nbytes {}", bytes.join(" ")).unwrap();
        for (name, text) in ["the program:", "the oracle:"].iter().zip(texts.into_iter().flatten())
        {
            writeln!(out, "{name}\n{text}").unwrap();
        }
        out
    }
}
