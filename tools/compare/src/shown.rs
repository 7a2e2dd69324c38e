//! What the program left, printed as the oracle's batch prints a run. The words
//! may be wrong ones, so nothing is taken on trust.
use crate::program::Left;
use crate::quote;
use crate::same::{nodes_of, NO_ROW};
use oracle::language::{Sort, JUDGMENTS, RULES};
use oracle::{batch, Ran};
use std::fmt::Write;

pub fn oracle_text(ran: &Ran) -> String {
    let mut out = String::new();
    batch::write(&mut out, Some(ran)).unwrap();
    out
}

/// The codes of the calls say whether a result is a level or a cell; the
/// oracle's answers have them.
pub fn program_text(left: &Left, ran: &Ran) -> String {
    let [number, place, calls, rows, cells, _] = left.result;
    let nodes = nodes_of(left.cells, cells);
    let mut out = format!("run {number} {place} {calls} {rows} {cells}\n");
    for (i, words) in left.answers.chunks_exact(4).take(calls as usize).enumerate() {
        let row = if words[1] == NO_ROW { "-".to_owned() } else { words[1].to_string() };
        let result = match ran.answers.get(i).map(|answer| answer.code) {
            Some(1) if words[0] == 0 => words[2].to_string(),
            Some(2 | 4 | 7) if words[0] == 0 => quote::text(&nodes, words[2]),
            _ if words[2] == 0 => "-".to_owned(),
            _ => words[2].to_string(),
        };
        writeln!(out, "call {} {row} {result} {}", words[0], words[3]).unwrap();
    }
    for words in left.rows.chunks_exact(24).take(rows as usize) {
        let cited: Vec<String> =
            words[2..12].iter().take(words[1] as usize).map(u32::to_string).collect();
        let cited = if cited.is_empty() { "-".to_owned() } else { cited.join(",") };
        let judgment = judgment(words, &nodes);
        writeln!(out, "row {} {cited} {judgment}", words[0]).unwrap();
    }
    out.push_str("end\n");
    out
}

fn judgment(words: &[u32], nodes: &[oracle::Node]) -> String {
    let Some((_, concluded)) = RULES.get(words[0] as usize) else {
        return format!("{:?}", &words[12..18]);
    };
    let (name, sorts) = JUDGMENTS[*concluded];
    let mut out = format!("({name}");
    for (word, sort) in words[13..18].iter().zip(sorts) {
        if *sort == Sort::Number {
            write!(out, " {word}").unwrap();
        } else {
            write!(out, " {}", quote::text(nodes, *word)).unwrap();
        }
    }
    out + ")"
}
