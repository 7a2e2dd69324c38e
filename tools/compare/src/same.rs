//! Whether what the program left is what the oracle says: every answer word,
//! every row, every cell, the counts, and that no other word changed.
//!
//! Cells have the numbers that the oracle counts by itself, and a row's argument
//! and a result are the lowest cell with their quote, looked up among its cells.
use crate::program::{all, Left, FILLS};
use crate::quote::{self, Quotes};
use oracle::language::rule_number;
use oracle::sexp::Sexp;
use oracle::{Node, Ran, Value};
use std::collections::HashMap;
use std::ops::Range;

pub const NO_ROW: u32 = u32::MAX;
/// Words of an entry of each slice.
pub const ROW: usize = 24;
pub const CELL: usize = 8;
pub const ANSWER: usize = 4;

/// What differs, in words.
pub type Difference = String;

pub fn want(holds: bool, say: impl FnOnce() -> String) -> Result<(), Difference> {
    if holds {
        Ok(())
    } else {
        Err(say())
    }
}

pub fn compare(left: &Left, ran: &Ran) -> Result<(), Difference> {
    counts(left, ran)?;
    tree(left.rows, ran.rows.len(), ROW, 20..24)?;
    tree(left.cells, ran.cells as usize, CELL, 6..8)?;
    let quotes = Quotes::of(&ran.nodes);
    cells(left, ran, &quotes)?;
    for i in 0..ran.answers.len() {
        answer(left, ran, &quotes, i)?;
    }
    for i in 0..ran.rows.len() {
        row(left, ran, &quotes, i)?;
    }
    Ok(())
}

fn counts(left: &Left, ran: &Ran) -> Result<(), Difference> {
    let sizes = [ran.answers.len() as u32, ran.rows.len() as u32, ran.cells];
    let wanted = [u32::from(ran.number), ran.place as u32, sizes[0], sizes[1], sizes[2]];
    for (i, name) in ["number", "place", "calls", "rows", "cells"].iter().enumerate() {
        let (got, wanted) = (left.result[i], wanted[i]);
        want(got == wanted, || format!("the run's {name}: {got}, wanted {wanted}"))?;
    }
    let past = |words: &[u32], used: usize| words.len().min(used)..words.len();
    for (name, words, used, fill) in [
        ("row table", left.rows, ran.rows.len() * ROW, FILLS[0]),
        ("cell store", left.cells, ran.cells as usize * CELL, FILLS[1]),
        ("answers", left.answers, ran.answers.len() * ANSWER, FILLS[2]),
        ("result", &left.result[..], 5, FILLS[3]),
    ] {
        let rest = &words[past(words, used)];
        want(all(rest, fill), || {
            let at = used + rest.iter().position(|word| *word != fill).unwrap();
            format!("{name}: word {at} is past the {used} used ones and changed")
        })?;
    }
    Ok(())
}

/// The program's cells as nodes.
pub fn nodes_of(cells: &[u32], count: u32) -> Vec<Node> {
    let words = cells.chunks_exact(CELL).take(count as usize);
    words.map(|w| [w[0], w[1], w[2], w[3]]).collect()
}

/// The index's words are a tree: each entry but the first is a child of one lower
/// entry, and a word that names none is 0.
fn tree(
    words: &[u32],
    count: usize,
    size: usize,
    children: Range<usize>,
) -> Result<(), Difference> {
    let mut parents = vec![0; count];
    for i in 0..count {
        for at in children.clone() {
            let child = words[i * size + at] as usize;
            let fits = child == 0 || (i < child && child < parents.len());
            want(fits, || format!("entry {i} of {size} words: child {child}"))?;
            if child > 0 {
                parents[child] += 1;
            }
        }
    }
    let one = parents.iter().skip(1).all(|n| *n == 1);
    want(one, || format!("entries of {size} words: not one parent each"))
}

/// The cells are the oracle's, number by number: kind and parts, unused ones 0; the
/// word for the quote is the lowest cell with it; an inference remembers the same
/// type and row; a node's spare word is 0.
fn cells(left: &Left, ran: &Ran, quotes: &Quotes) -> Result<(), Difference> {
    let known: HashMap<u32, [u32; 2]> =
        ran.remembered.iter().map(|[cell, ty, row]| (*cell, [*ty, *row])).collect();
    for (i, wanted) in ran.nodes.iter().enumerate() {
        let words = &left.cells[i * CELL..(i + 1) * CELL];
        want(words[..4] == *wanted, || {
            format!("cell {i} is {:?}, wanted {wanted:?}", &words[..4])
        })?;
        if wanted[0] == quote::INFERENCE {
            let (got, wanted) = (&words[4..6], known.get(&(i as u32)));
            want(wanted.is_some_and(|wanted| got == wanted), || {
                format!("cell {i}: it remembers {got:?}, wanted {wanted:?} (type's cell, row)")
            })?;
            continue;
        }
        let (got, lowest) = (words[4], quotes.lowest(i));
        want(got == lowest, || {
            format!("cell {i}: the lowest with its quote is {got}, wanted {lowest}")
        })?;
        want(words[5] == 0, || format!("cell {i}: spare word {}", words[5]))?;
    }
    let count = ran.nodes.iter().filter(|node| node[0] == quote::INFERENCE).count();
    want(count == known.len(), || format!("{count} inferences, wanted {}", known.len()))
}

fn answer(left: &Left, ran: &Ran, quotes: &Quotes, i: usize) -> Result<(), Difference> {
    let wanted = &ran.answers[i];
    let words = &left.answers[i * ANSWER..(i + 1) * ANSWER];
    let row = wanted.row.map_or(NO_ROW, |row| row as u32);
    for (place, name, wanted) in
        [(0, "number", u32::from(wanted.number)), (1, "row", row), (3, "deepest", wanted.deepest)]
    {
        let got = words[place];
        want(got == wanted, || format!("call {i}'s {name}: {got}, wanted {wanted}"))?;
    }
    let got = words[2];
    match &wanted.value {
        Value::None => want(got == 0, || format!("call {i}'s result: {got}, wanted 0")),
        Value::Level(level) => {
            want(got as usize == *level, || format!("call {i}'s level: {got}, wanted {level}"))
        }
        Value::Quote(quote) => {
            let cell = quotes.cell(quote);
            want(cell == Some(got), || {
                format!("call {i}'s result: {got}, wanted {cell:?} ({quote})")
            })
        }
    }
}

fn row(left: &Left, ran: &Ran, quotes: &Quotes, i: usize) -> Result<(), Difference> {
    let wanted = &ran.rows[i];
    let words = &left.rows[i * ROW..(i + 1) * ROW];
    let number = rule_number(&wanted.rule) as u32;
    want(words[0] == number, || {
        format!("row {i}'s rule: {}, wanted {number} ({})", words[0], wanted.rule)
    })?;
    let mut cited = [0; 11];
    cited[0] = wanted.refs.len() as u32;
    for (place, row) in cited[1..].iter_mut().zip(&wanted.refs) {
        *place = *row as u32;
    }
    want(words[1..12] == cited, || {
        format!("row {i} cites {:?}, wanted {cited:?} (how many, then which)", &words[1..12])
    })?;
    let made = wanted.made as u32;
    want(words[18] == made, || {
        format!("row {i} was added by call {}, wanted {made}", words[18])
    })?;
    let Sexp::List(judgment) = &wanted.judgment else {
        return Err(format!("row {i}: the oracle's judgment is an atom"));
    };
    let arguments = &judgment[1..];
    want(words[12] as usize == arguments.len(), || {
        format!("row {i} has {} arguments, wanted {}", words[12], arguments.len())
    })?;
    for place in 0..5 {
        let got = words[13 + place];
        let argument = match arguments.get(place) {
            None => Some(0),
            Some(argument) => match argument.number() {
                Some(n) => u32::try_from(n).ok(),
                None => quotes.cell(argument),
            },
        };
        want(argument == Some(got), || {
            let judgment = &wanted.judgment;
            format!("row {i}'s argument {place}: {got}, wanted {argument:?} ({judgment})")
        })?;
    }
    Ok(())
}
