//! Writes runs as a batch: those at COUNT places from FIRST on under SEED (with
//! sweep, each in many slices), those written by hand, or all short ones; with
//! --pairs such that have pairs, with --many calls with many types too, with --ends
//! long endpoints besides, with --head calls that reduce at the head.
use generator::Terms;
use std::io::{self, BufWriter, Write};
use std::process::ExitCode;

type Cases = Box<dyn Iterator<Item = generator::Case>>;

const USAGE: &str = "\
generator [--pairs | --many | --ends | --head] [sweep] SEED COUNT [FIRST]
generator [--pairs | --many | --ends | --head] seeds
generator [--pairs | --many | --ends | --head] short LENGTH
";

fn main() -> ExitCode {
    let words: Vec<String> = std::env::args().skip(1).collect();
    let Some(cases) = cases(&words) else {
        eprint!("{USAGE}");
        return ExitCode::from(2);
    };
    let mut out = BufWriter::new(io::stdout());
    for case in cases {
        if out.write_all(&case.packed()).is_err() {
            return ExitCode::FAILURE;
        }
    }
    match out.flush() {
        Ok(()) => ExitCode::SUCCESS,
        Err(_) => ExitCode::FAILURE,
    }
}

fn cases(words: &[String]) -> Option<Cases> {
    let terms = match words.first().map(String::as_str) {
        Some("--pairs") => Terms::Pairs,
        Some("--many") => Terms::Many,
        Some("--ends") => Terms::Ends,
        Some("--head") => Terms::Heads,
        _ => Terms::Plain,
    };
    let words = &words[usize::from(terms != Terms::Plain)..];
    if words == ["seeds"] {
        return Some(Box::new(generator::seeds(terms).into_iter()));
    }
    if let [word, length] = words {
        if word == "short" {
            return Some(Box::new(generator::short(terms, length.parse().ok()?)));
        }
    }
    let sweep = words.first().is_some_and(|word| word == "sweep");
    let words = &words[usize::from(sweep)..];
    let numbers: Option<Vec<u64>> = words.iter().map(|w| w.parse().ok()).collect();
    let (seed, count, first) = match *numbers? {
        [seed, count] => (seed, count, 0),
        [seed, count, first] => (seed, count, first),
        _ => return None,
    };
    let places = first..first + count;
    Some(if sweep {
        Box::new(places.flat_map(move |place| generator::sweep(terms, seed, place)))
    } else {
        Box::new(places.map(move |place| generator::case(terms, seed, place)))
    })
}
