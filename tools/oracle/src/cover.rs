//! Which refusals and rules a set of runs meets, and how often.
use crate::language::{counted, rule_number, RULES};
use crate::run::Ran;
use std::fmt::{self, Write};

pub struct Cover {
    runs: u64,
    slow: u64,
    calls: u64,
    rows: u64,
    /// By number: 0 accepted, 1 to 4 runs, the rest calls.
    numbers: [u64; 256],
    rules: [u64; RULES.len()],
}

impl Default for Cover {
    fn default() -> Self {
        Self { runs: 0, slow: 0, calls: 0, rows: 0, numbers: [0; 256], rules: [0; RULES.len()] }
    }
}

impl Cover {
    pub fn add(&mut self, ran: Option<&Ran>) {
        self.runs += 1;
        let Some(ran) = ran else {
            self.slow += 1;
            return;
        };
        if ran.number != 0 {
            self.numbers[usize::from(ran.number)] += 1;
        }
        self.calls += ran.answers.len() as u64;
        self.rows += ran.rows.len() as u64;
        for answer in &ran.answers {
            self.numbers[usize::from(answer.number)] += 1;
        }
        for row in &ran.rows {
            self.rules[rule_number(&row.rule)] += 1;
        }
    }

    pub fn write(&self, out: &mut String) -> fmt::Result {
        writeln!(
            out,
            "runs {} slow {} calls {} rows {}",
            self.runs, self.slow, self.calls, self.rows
        )?;
        let (numbers, rules) = counted(&self.numbers, &self.rules);
        for (number, count) in self.numbers.iter().enumerate() {
            if *count > 0 || number < numbers.len() {
                writeln!(out, "number {number} {count}")?;
            }
        }
        for (number, count) in rules.iter().enumerate() {
            writeln!(out, "rule {number} {} {count}", RULES[number].0)?;
        }
        let missing = |counts: &[u64]| counts.iter().filter(|count| **count == 0).count();
        writeln!(out, "missing {} {}", missing(numbers), missing(rules))
    }
}
