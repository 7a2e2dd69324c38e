//! Many runs in one process. A run comes as four words, low byte first (row
//! words, cell words, answer words, bytes), then its bytes. For each, lines of
//! text go out, the last of them `end`, as `tools/oracle` writes them:
//!
//! - `run number place calls rows cells`, or `slow` where it was given up;
//! - for each call `call number row result deepest`, where a result that is a
//!   quote has blanks of its own;
//! - for each row `row rule refs judgment`, the rule by its number;
//!
//! and from the level on that fixes them:
//!
//! - `results words..`, the result word of each call;
//! - for each row `args words..`, its argument words;
//! - `made calls..`, of each row the call that added it.
use crate::level::Level;
use crate::listing;
use crate::rules;
use crate::run::{Ran, Slices};
use std::fmt::{self, Display, Write};
use std::io::{self, Read};

/// The next run, or none at the end of the input.
pub fn next(input: &mut impl Read) -> io::Result<Option<(Slices, Vec<u8>)>> {
    let mut first = [0];
    if input.read(&mut first)? == 0 {
        return Ok(None);
    }
    let mut head = [first[0]; 16];
    input.read_exact(&mut head[1..])?;
    let word = |i: usize| u32::from_le_bytes([head[i], head[i + 1], head[i + 2], head[i + 3]]);
    let slices = Slices { rows: word(0), cells: word(4), answers: word(8) };
    let mut bytes = vec![0; word(12) as usize];
    input.read_exact(&mut bytes)?;
    Ok(Some((slices, bytes)))
}

pub fn write(out: &mut String, level: Level, ran: Option<&Ran>) -> fmt::Result {
    let Some(ran) = ran else {
        return out.write_str("slow\nend\n");
    };
    let (calls, rows) = (ran.answers.len(), ran.rows.len());
    writeln!(out, "run {} {} {calls} {rows} {}", ran.number, ran.place, ran.cells)?;
    for answer in &ran.answers {
        out.write_str("call ")?;
        listing::call(out, answer)?;
    }
    for row in &ran.rows {
        let number = rules::number(&row.rule);
        writeln!(out, "row {number} {} {}", listing::cited(&row.refs), row.judgment)?;
    }
    if level.cell_numbers() {
        line(out, "results", ran.answers.iter().map(|a| a.result))?;
        for row in &ran.rows {
            line(out, "args", row.args.iter())?;
        }
    }
    if level.made() {
        line(out, "made", ran.rows.iter().map(|row| row.made))?;
    }
    out.write_str("end\n")
}

fn line<W: Display>(out: &mut String, name: &str, words: impl Iterator<Item = W>) -> fmt::Result {
    out.write_str(name)?;
    for word in words {
        write!(out, " {word}")?;
    }
    writeln!(out)
}
