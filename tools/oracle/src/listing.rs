//! The listing, to the letter of docs/FORMAT.md.
use crate::run::{Answer, Ran, Row, Value};
use std::collections::HashSet;
use std::fmt::{self, Write};

pub fn write(out: &mut String, ran: &Ran) -> fmt::Result {
    if ran.number != 0 {
        return writeln!(out, "number place\n{} {}", ran.number, ran.place);
    }
    writeln!(out, "call code row result deepest")?;
    for (i, answer) in ran.answers.iter().enumerate() {
        write!(out, "{i} ")?;
        call(out, answer)?;
    }
    writeln!(out, "row rule refs judgment")?;
    for (i, Row { rule, refs, judgment, .. }) in ran.rows.iter().enumerate() {
        writeln!(out, "{i} {rule} {} {judgment}", cited(refs))?;
    }
    writeln!(out, "rows cells repeats\n{} {} {}", ran.rows.len(), ran.cells, repeats(ran))
}

/// A call's line after its place: number, row, result, deepest.
pub fn call(out: &mut String, answer: &Answer) -> fmt::Result {
    write!(out, "{} ", answer.number)?;
    match answer.row {
        Some(row) => write!(out, "{row} ")?,
        None => out.write_str("- ")?,
    }
    match &answer.value {
        Value::None => out.write_str("-")?,
        Value::Level(level) => write!(out, "{level}")?,
        Value::Quote(quote) => write!(out, "{quote}")?,
    }
    writeln!(out, " {}", answer.deepest)
}

/// Cited rows with commas, or - for none.
pub fn cited(refs: &[usize]) -> String {
    if refs.is_empty() {
        return "-".to_owned();
    }
    refs.iter().map(usize::to_string).collect::<Vec<_>>().join(",")
}

/// How many accepted calls have the code and the row of an earlier one.
fn repeats(ran: &Ran) -> usize {
    let mut seen = HashSet::new();
    let rows = ran.answers.iter().filter_map(|a| a.row.map(|row| (a.code, row)));
    rows.filter(|call| !seen.insert(*call)).count()
}
