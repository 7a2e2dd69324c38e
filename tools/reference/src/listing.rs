//! The listing, to document 01's letter.
use crate::run::{Answer, Ran};
use std::collections::BTreeSet;
use std::fmt::{self, Write};

pub fn write(out: &mut String, ran: &Ran) -> fmt::Result {
    if ran.number != 0 {
        return writeln!(out, "number place\n{} {}", ran.number, ran.place);
    }
    writeln!(out, "call code row result deepest")?;
    for (i, answer) in ran.answers.iter().enumerate() {
        write!(out, "{i} ")?;
        call(out, answer)?;
    }
    writeln!(out, "row rule refs judgment")?;
    for (i, row) in ran.rows.iter().enumerate() {
        writeln!(out, "{i} {} {} {}", row.rule, cited(&row.refs), row.judgment)?;
    }
    writeln!(out, "rows cells repeats\n{} {} {}", ran.rows.len(), ran.cells, repeats(ran))
}

/// A call's line after its place: number, row, result, deepest.
pub fn call(out: &mut String, answer: &Answer) -> fmt::Result {
    let row = answer.row.map_or("-".to_owned(), |row| row.to_string());
    let shown = answer.shown.as_deref().unwrap_or("-");
    writeln!(out, "{} {row} {shown} {}", answer.number, answer.deepest)
}

/// Cited rows with commas, or - for none.
pub fn cited(refs: &[usize]) -> String {
    if refs.is_empty() {
        return "-".to_owned();
    }
    refs.iter().map(usize::to_string).collect::<Vec<_>>().join(",")
}

/// How many accepted calls have the code and the row of an earlier one.
fn repeats(ran: &Ran) -> usize {
    let mut seen = BTreeSet::new();
    let calls = ran.answers.iter().filter_map(|a| a.row.map(|row| (a.code, row)));
    calls.filter(|call| !seen.insert(*call)).count()
}
