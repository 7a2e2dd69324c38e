//! Many runs in one process. A run comes as four words, low byte first (row
//! words, cell words, answer words, bytes), then its bytes. For each, lines of
//! text go out, the last of them `end`:
//!
//! - `run number place calls rows cells`, or `slow` where it was given up;
//! - for each call `call number row result deepest`, where a result that is a
//!   quote has blanks of its own;
//! - for each row `row rule refs judgment`, the rule by its number.
use crate::language::rule_number;
use crate::listing;
use crate::run::{Ran, Slices};
use std::fmt::{self, Write};
use std::io::{self, Read};

/// The next run, or none at the end of the input.
pub fn next(input: &mut impl Read) -> io::Result<Option<(Slices, Vec<u8>)>> {
    let mut head = [0; 16];
    let mut got = 0;
    while got < head.len() {
        match input.read(&mut head[got..])? {
            0 if got == 0 => return Ok(None),
            0 => return Err(io::ErrorKind::UnexpectedEof.into()),
            n => got += n,
        }
    }
    let word = |i: usize| u32::from_le_bytes([head[i], head[i + 1], head[i + 2], head[i + 3]]);
    let slices = Slices { rows: word(0), cells: word(4), answers: word(8) };
    let mut bytes = vec![0; word(12) as usize];
    input.read_exact(&mut bytes)?;
    Ok(Some((slices, bytes)))
}

/// A run as a batch has it.
pub fn packed(slices: Slices, bytes: &[u8]) -> Vec<u8> {
    let words = [slices.rows, slices.cells, slices.answers, bytes.len() as u32];
    let mut out: Vec<u8> = words.iter().flat_map(|w| w.to_le_bytes()).collect();
    out.extend_from_slice(bytes);
    out
}

pub fn write(out: &mut String, ran: Option<&Ran>) -> fmt::Result {
    let Some(ran) = ran else {
        return out.write_str("slow\nend\n");
    };
    let (calls, rows) = (ran.answers.len(), ran.rows.len());
    writeln!(out, "run {} {} {calls} {rows} {}", ran.number, ran.place, ran.cells)?;
    for answer in &ran.answers {
        out.write_str("call ")?;
        listing::call(out, answer)?;
    }
    for row in &ran.rows {
        let number = rule_number(&row.rule);
        writeln!(out, "row {number} {} {}", listing::cited(&row.refs), row.judgment)?;
    }
    out.write_str("end\n")
}
