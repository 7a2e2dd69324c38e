//! Stored runs for the program `replay`: a sample with what the oracle answers.
//!
//! A stored run is a head of 52 bytes, the run and a text. The head: a name of
//! 28 bytes, filled up with blanks, and six words, low byte first: words of the
//! row table, of the cell store and of the answers, bytes of the run, how many
//! of them are stored (the others are 0), bytes of the text. The text is the
//! listing that the oracle gives.
use crate::tally::Tally;
use crate::work::Sides;
use generator::{Case, Terms};
use oracle::{listing, Ran};
use std::collections::BTreeSet;
use std::io::{Error, Result};
use std::path::Path;
use std::{fs, iter};

/// What a stored run lends at most: words of rows, cells and answers; and how many
/// calls it has at most, for which `replay` has room.
const ROOM: [u32; 3] = [49_152, 32_768, 16_384];
const CODES: usize = 4_096;
/// How long a text may be: of a run by hand, of one that chance made, of one that
/// is taken for what it meets, and of one that is the only one to meet it.
const BY_HAND: usize = 9_000;
const BY_CHANCE: usize = 1_600;
const FOR_COVER: usize = 4_000;
const LONGEST: usize = 120_000;
/// How many places of the seed are looked at, how often each refusal and each
/// rule is to be met if it can, and how many runs are taken beyond.
const PLACES: u64 = 20_000;
const OFTEN: u64 = 4;
const SAMPLE: usize = 150;
/// The work that the oracle may take over one of these: what takes more is too long
/// to be stored, but for a few.
const BRIEF: u64 = 1_000_000;

struct Vector {
    name: String,
    case: Case,
    ran: Ran,
    text: String,
}

/// Writes the two files, and says what the runs meet.
pub fn write(seed: u64, folder: &Path) -> Result<String> {
    let mut sides = Sides::new(10_000_000, 0);
    let mut chosen = Vec::new();
    for terms in [Terms::Plain, Terms::Pairs, Terms::Many, Terms::Ends, Terms::Heads] {
        chosen.append(&mut by_hand(&mut sides, terms));
        by_chance(&mut Sides::new(BRIEF, 0), terms, seed, &mut chosen);
    }
    let mut tally = Tally::default();
    let mut file = Vec::new();
    let mut said = String::new();
    for vector in &chosen {
        sides.compare(&vector.case).map_err(|e| Error::other(format!("{}: {e}", vector.name)))?;
        tally.add(vector.case.slices, &vector.ran);
        pack(vector, &mut file);
        said.push_str(&format!("{:28}as stored\n", vector.name));
    }
    said.push_str(&format!("{} runs, {} calls: all as stored\n", tally.runs, tally.calls));
    fs::write(folder.join("stdin"), &file)?;
    fs::write(folder.join("stdout"), said)?;
    let mut out = String::new();
    tally.write(&mut out).unwrap();
    let (numbers, rules) = tally.missing();
    if numbers.len() + rules.len() > 0 {
        return Err(Error::other(format!("not all is met:\n{out}")));
    }
    Ok(out + &format!("{} bytes\n", file.len()))
}

fn pack(vector: &Vector, out: &mut Vec<u8>) {
    let Case { slices: [rows, cells, answers], bytes } = &vector.case;
    let stored = bytes.iter().rposition(|byte| *byte != 0).map_or(0, |last| last + 1);
    let sizes = [bytes.len() as u32, stored as u32, vector.text.len() as u32];
    out.extend(format!("{:28}", vector.name).as_bytes());
    let words = [*rows, *cells, *answers].into_iter().chain(sizes);
    words.for_each(|word| out.extend(word.to_le_bytes()));
    out.extend(&bytes[..stored]);
    out.extend(vector.text.as_bytes());
}

/// The run with the oracle's answer, in slices that `replay` has. A slice that is
/// large enough for all is cut to a little more than what is used.
fn vector(sides: &mut Sides, name: String, mut case: Case) -> Option<Vector> {
    let ran = sides.oracle(&case)?;
    let used = [ran.rows.len() * 24 + 53, ran.cells as usize * 8 + 19, ran.answers.len() * 4 + 7];
    let met = |number| ran.answers.iter().any(|answer| answer.number == number);
    let tight = [met(18), met(20), ran.number != 0];
    for i in 0..3 {
        if !tight[i] && ran.number == 0 {
            case.slices[i] = case.slices[i].min(used[i] as u32);
        }
        // Of a refused run no word may change: some are enough to see it.
        if ran.number != 0 {
            case.slices[i] = case.slices[i].min(100);
        }
    }
    let again = sides.oracle(&case)?;
    let fits = (0..3).all(|i| case.slices[i] <= ROOM[i]) && ran.answers.len() <= CODES;
    if again != ran || !fits {
        return None;
    }
    let mut text = String::new();
    listing::write(&mut text, &ran).unwrap();
    Some(Vector { name, case, ran, text })
}

/// The name of a stored run: with pairs, many types, long endpoints or code 7, it says so.
fn named(terms: Terms, name: String) -> String {
    match terms {
        Terms::Plain => name,
        Terms::Pairs => format!("pairs {name}"),
        Terms::Many => format!("many {name}"),
        Terms::Ends => format!("ends {name}"),
        Terms::Heads => format!("heads {name}"),
    }
}

/// Those of the generator that are written by hand; of plain terms also the
/// oracle's known runs, and the longest run beside one that is too long.
fn by_hand(sides: &mut Sides, terms: Terms) -> Vec<Vector> {
    let plain = terms == Terms::Plain;
    let known = known().into_iter().filter(|_| plain);
    let seeds = generator::seeds(terms).into_iter().enumerate();
    let seeds = seeds.map(|(i, case)| (named(terms, format!("by hand {i}")), case));
    let long = [65_536, 65_537].map(|n| (format!("{n} bytes"), long(n))).into_iter();
    let all = known.chain(seeds).chain(long.filter(|_| plain));
    let all = all.filter_map(|(name, case)| vector(sides, name, case));
    let mut seen = BTreeSet::new();
    all.filter(|v| {
        v.text.len() <= BY_HAND && v.case.bytes.len() < 2_000 || v.name.ends_with("bytes")
    })
    .filter(|v| seen.insert(v.case.bytes.clone().into_iter().chain(words(v)).collect::<Vec<_>>()))
    .collect()
}

fn words(vector: &Vector) -> impl Iterator<Item = u8> + use<'_> {
    vector.case.slices.iter().flat_map(|word| word.to_le_bytes())
}

/// So many bytes: the limit 100, then zeros.
fn long(length: usize) -> Case {
    let bytes = [100].into_iter().chain(iter::repeat(0)).take(length).collect();
    Case { slices: [100; 3], bytes }
}

fn known() -> Vec<(String, Case)> {
    let text = include_str!("../../oracle/tests/known.txt");
    let numbers = |line: &str| -> Vec<u32> {
        line.split_whitespace().skip(1).map(|n| n.parse().unwrap()).collect()
    };
    let one = |case: &str| {
        let lines: Vec<&str> = case.lines().collect();
        let slices = numbers(lines[1]).try_into().unwrap();
        let bytes = numbers(lines[2]).into_iter().map(|n| n as u8).collect();
        (lines[0].to_owned(), Case { slices, bytes })
    };
    text.split_inclusive("\nend\n").map(one).collect()
}

/// Runs under the seed: for each refusal and rule that is met too seldom the
/// ones with the shortest text, then a sample.
fn by_chance(sides: &mut Sides, terms: Terms, seed: u64, chosen: &mut Vec<Vector>) {
    let mut some: Vec<Vector> = (0..PLACES)
        .map(|place| (named(terms, format!("{seed}/{place}")), generator::case(terms, seed, place)))
        .filter_map(|(name, case)| vector(sides, name, case))
        .filter(|v| v.text.len() <= LONGEST && v.case.bytes.len() < 2_000)
        .collect();
    let mut order: Vec<usize> = (0..some.len()).collect();
    order.sort_by_key(|i| some[*i].text.len());
    let mut met = Tally::default();
    chosen.iter().for_each(|v| met.add(v.case.slices, &v.ran));
    let mut take = BTreeSet::new();
    for i in &order {
        let v = &some[*i];
        let mut with = met.clone();
        with.add(v.case.slices, &v.ran);
        let often = if v.text.len() <= FOR_COVER { OFTEN } else { 1 };
        let seldom = |before: &[u64], after: &[u64]| {
            before.iter().zip(after).any(|(before, after)| *before < often && after > before)
        };
        if seldom(&met.numbers, &with.numbers) || seldom(&met.rules, &with.rules) {
            met = with;
            take.insert(*i);
        }
    }
    let short =
        (0..some.len()).filter(|i| some[*i].text.len() <= BY_CHANCE && some[*i].text.len() > 300);
    let short: Vec<usize> = short.collect();
    take.extend(short.iter().step_by(short.len().div_ceil(SAMPLE)));
    let mut at = 0;
    some.retain(|_| {
        at += 1;
        take.contains(&(at - 1))
    });
    chosen.append(&mut some);
}
