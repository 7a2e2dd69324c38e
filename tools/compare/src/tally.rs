//! What a comparison met, counted.
use oracle::language::{counted, rule_number, LAST_REFUSAL, RULES};
use oracle::Ran;
use std::fmt::{self, Write};

pub const NUMBERS: usize = LAST_REFUSAL + 1;

/// The rows that the Rust's table always has.
const ROWS: u32 = 50_000;

#[derive(Clone)]
pub struct Tally {
    pub runs: u64,
    /// Given up by the oracle for its work; the program doesn't play these.
    pub slow: u64,
    pub slow_places: Vec<u64>,
    /// Runs that were read, by the specification's line between those that the Rust
    /// answers too and those that it can't.
    pub inside: u64,
    pub never_full: u64,
    pub outside: u64,
    /// Runs that work an endpoint out, and their calls from the first that does on:
    /// the Rust has no answers to these.
    pub worked_out: [u64; 2],
    pub calls: u64,
    pub rows: u64,
    pub cells: u64,
    /// Of the runs cut after a call: how many, and the sums of rows and cells.
    pub cuts: [u64; 3],
    /// Calls that others follow and no cut was made after.
    pub uncut: u64,
    /// The deepest of all calls.
    pub deepest: u32,
    /// By number: 0 accepted, 1 to 4 runs, the rest calls.
    pub numbers: [u64; NUMBERS],
    pub rules: [u64; RULES.len()],
}

impl Default for Tally {
    fn default() -> Self {
        Self {
            runs: 0,
            slow: 0,
            slow_places: Vec::new(),
            inside: 0,
            never_full: 0,
            outside: 0,
            worked_out: [0; 2],
            calls: 0,
            rows: 0,
            cells: 0,
            cuts: [0; 3],
            uncut: 0,
            deepest: 0,
            numbers: [0; NUMBERS],
            rules: [0; RULES.len()],
        }
    }
}

impl Tally {
    pub fn add(&mut self, slices: [u32; 3], ran: &Ran) {
        self.runs += 1;
        self.calls += ran.answers.len() as u64;
        self.rows += ran.rows.len() as u64;
        self.cells += u64::from(ran.cells);
        for answer in &ran.answers {
            self.numbers[usize::from(answer.number)] += 1;
            self.deepest = self.deepest.max(answer.deepest);
        }
        for row in &ran.rows {
            self.rules[rule_number(&row.rule)] += 1;
        }
        if ran.number != 0 {
            self.numbers[usize::from(ran.number)] += 1;
            return;
        }
        if ran.by_source < ran.answers.len() {
            add(&mut self.worked_out, &[1, (ran.answers.len() - ran.by_source) as u64]);
        }
        let met = |number| ran.answers.iter().any(|answer| answer.number == number);
        let full_table = slices[0] / 24 >= ROWS;
        *if met(19) || met(20) || (met(18) && !full_table) {
            &mut self.outside
        } else if full_table {
            &mut self.inside
        } else {
            &mut self.never_full
        } += 1;
    }

    /// A run cut after one of its calls. What it meets, the whole run meets too.
    pub fn add_cut(&mut self, ran: &Ran) {
        if ran.number != 0 {
            return;
        }
        add(&mut self.cuts, &[1, ran.rows.len() as u64, ran.cells.into()]);
    }

    pub fn join(&mut self, other: &Self) {
        self.runs += other.runs;
        self.slow += other.slow;
        self.slow_places.extend(&other.slow_places);
        self.inside += other.inside;
        self.never_full += other.never_full;
        self.outside += other.outside;
        self.calls += other.calls;
        self.rows += other.rows;
        self.cells += other.cells;
        self.uncut += other.uncut;
        self.deepest = self.deepest.max(other.deepest);
        add(&mut self.worked_out, &other.worked_out);
        add(&mut self.cuts, &other.cuts);
        add(&mut self.numbers, &other.numbers);
        add(&mut self.rules, &other.rules);
    }

    /// The refusals and the rules that were not met.
    pub fn missing(&self) -> (Vec<usize>, Vec<usize>) {
        let none = |counts: &[u64], from: usize| {
            (from..counts.len()).filter(|i| counts[*i] == 0).collect()
        };
        let (numbers, rules) = counted(&self.numbers, &self.rules);
        (none(numbers, 1), none(rules, 0))
    }

    fn refused(&self) -> u64 {
        self.numbers[1..=4].iter().sum()
    }

    /// The line of a part in the table of docs/COMPARISON.md.
    pub fn write_line(&self, out: &mut String, part: &str) -> fmt::Result {
        let sorts = [self.inside, self.never_full, self.outside, self.refused()];
        let counts = [self.calls, self.numbers[0], self.cuts[0]];
        write!(out, "| {part} | {} |", with_commas(self.runs))?;
        for count in sorts.into_iter().chain(counts) {
            write!(out, " {} |", with_commas(count))?;
        }
        writeln!(out)
    }

    pub fn write(&self, out: &mut String) -> fmt::Result {
        writeln!(out, "runs compared {}", self.runs)?;
        writeln!(out, "  table of 50,000 rows, no 19 or 20: {}", self.inside)?;
        writeln!(out, "  shorter table, never full, no 19 or 20: {}", self.never_full)?;
        writeln!(out, "  outside the Rust's: 19, 20, or 18 in a shorter table: {}", self.outside)?;
        writeln!(out, "  refused as a whole: {}", self.refused())?;
        let [worked, alone] = self.worked_out;
        writeln!(out, "endpoints worked out in runs {worked}; calls from there on {alone}")?;
        let places = &self.slow_places;
        writeln!(out, "runs left out, too slow for the oracle {} at {places:?}", self.slow)?;
        writeln!(out, "calls {} accepted {}", self.calls, self.numbers[0])?;
        writeln!(out, "rows {} cells {} deepest {}", self.rows, self.cells, self.deepest)?;
        let [cuts, rows, cells] = self.cuts;
        writeln!(out, "cut after a call {cuts} rows {rows} cells {cells}")?;
        writeln!(out, "calls not cut after, though others follow {}", self.uncut)?;
        let (numbers, rules) = counted(&self.numbers, &self.rules);
        line(out, "refusals", numbers, 1)?;
        line(out, "rules", rules, 0)?;
        let (numbers, rules) = self.missing();
        writeln!(out, "refusals not met {numbers:?} rules not met {rules:?}")
    }
}

fn add(sums: &mut [u64], counts: &[u64]) {
    for (sum, count) in sums.iter_mut().zip(counts) {
        *sum += count;
    }
}

/// A count as documents have it: 1,234,567.
fn with_commas(count: u64) -> String {
    let digits = count.to_string();
    let places = digits.len();
    let mut out = String::new();
    for (i, digit) in digits.chars().enumerate() {
        if i > 0 && (places - i).is_multiple_of(3) {
            out.push(',');
        }
        out.push(digit);
    }
    out
}

/// `number:count`, ten to a line.
fn line(out: &mut String, name: &str, counts: &[u64], from: usize) -> fmt::Result {
    write!(out, "{name}")?;
    for (i, count) in counts.iter().enumerate().skip(from) {
        let start = if i > from && (i - from).is_multiple_of(10) { "\n   " } else { "" };
        write!(out, "{start} {i}:{count}")?;
    }
    writeln!(out)
}
