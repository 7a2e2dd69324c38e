//! Compares the program with the oracle, run by run.
mod bench;
mod cuts;
mod program;
mod quote;
mod same;
mod shown;
mod shrink;
mod tally;
mod vectors;
mod work;

#[cfg(test)]
mod tests;

use generator::{Case, Terms};
use std::io::{self, Write};
use std::path::Path;
use std::process::ExitCode;
use tally::Tally;
use work::{Asked, Source};

const USAGE: &str = "\
compare SEED COUNT [FIRST]        runs FIRST, FIRST + 1, .. of the generator
compare sweep SEED COUNT [FIRST]  each in many slices and limits
compare seeds                     those written by hand
compare short LENGTH              every run of so many codes and kinds after the header
compare batch                     those of standard input, as the generator writes them
compare million                   the parts of docs/COMPARISON.md, one after the other
compare vectors SEED FOLDER       writes stored runs, and what replay says of them
compare bench [KIND..] [--times N]  times of both sides, N processes each (5)
compare growth KIND [--times N]   times of the program on the first 1/64, 1/32, .. of a large run
compare play SIDE KIND TIMES      one process of these: program, source or counted
    --full        every run in 50,000 rows, at the highest nesting limit
    --pairs       runs with pair types
    --many        runs with pair types, and calls with many types
    --ends        these, and long endpoints
    --head        these, and calls that reduce at the head
    --work STEPS  gives a run up where the oracle takes more (10,000,000)
    --threads N   (2)
    --cuts N      each run cut after each of its first N calls too (0)
";

/// The comparison at scale (docs/COMPARISON.md).
const PARTS: [&str; 7] = [
    "seeds --work 2000000000",
    "2026 600000",
    "2027 400000 --full",
    "sweep 2028 2000",
    "short 4",
    "2029 100000 --cuts 100",
    "sweep 2030 200 --cuts 100",
];

fn main() -> ExitCode {
    let words: Vec<String> = std::env::args().skip(1).collect();
    let parts: Vec<&str> = words.iter().map(String::as_str).collect();
    match parts[..] {
        ["vectors", seed, folder] => return write_vectors(seed, folder),
        ["bench", ref kinds @ ..] => return timed(kinds, bench::table),
        ["growth", ref kind @ ..] => {
            return timed(kind, |kinds, times| {
                kinds.iter().try_for_each(|k| bench::growth(k, times))
            })
        }
        ["play", side, kind, times] => return one_side(side, kind, times),
        ["million", ref options @ ..] => return at_scale(options),
        _ => {}
    }
    match asked(&parts).map(|asked| compared(&asked)) {
        None => usage(),
        Some(Ok(Some(_))) => ExitCode::SUCCESS,
        Some(_) => ExitCode::FAILURE,
    }
}

fn usage() -> ExitCode {
    eprint!("{USAGE}");
    ExitCode::from(2)
}

/// Compares as asked and prints what was met: that is given back where there is
/// no difference.
fn compared(asked: &Asked) -> io::Result<Option<Tally>> {
    let (tally, found) = asked.compare();
    let mut out = String::new();
    tally.write(&mut out).unwrap();
    let same = found.is_none();
    match found {
        None => out.push_str("no difference\n"),
        Some(found) => {
            let explain = || asked.sides().explain(found);
            out.push_str(&oracle::on_large_stack(explain));
        }
    }
    io::stdout().write_all(out.as_bytes())?;
    Ok(same.then_some(tally))
}

/// Every part, up to the first difference; then the table of the document.
fn at_scale(options: &[&str]) -> ExitCode {
    let mut together = Tally::default();
    let mut table = String::new();
    for part in PARTS {
        println!("== compare {part}");
        let words: Vec<&str> = part.split(' ').chain(options.iter().copied()).collect();
        let Some(asked) = asked(&words) else {
            return usage();
        };
        let Ok(Some(tally)) = compared(&asked) else {
            return ExitCode::FAILURE;
        };
        tally.write_line(&mut table, &format!("`{part}`")).unwrap();
        together.join(&tally);
    }
    together.write_line(&mut table, "together").unwrap();
    let mut out = String::from("== together\n");
    together.write(&mut out).unwrap();
    print!("{out}{table}");
    ExitCode::SUCCESS
}

fn write_vectors(seed: &str, folder: &str) -> ExitCode {
    let Ok(seed) = seed.parse() else {
        return usage();
    };
    match oracle::on_large_stack(|| vectors::write(seed, Path::new(folder))) {
        Ok(said) => {
            print!("{said}");
            ExitCode::SUCCESS
        }
        Err(e) => {
            eprintln!("compare: {e}");
            ExitCode::FAILURE
        }
    }
}

fn timed(words: &[&str], measure: impl Fn(&[&str], usize) -> io::Result<()>) -> ExitCode {
    let (kinds, repeats) = match words {
        [kinds @ .., "--times", n] => (kinds, n.parse().unwrap_or(5)),
        kinds => (kinds, 5),
    };
    match measure(kinds, repeats) {
        Ok(()) => ExitCode::SUCCESS,
        Err(e) => {
            eprintln!("compare: {e}");
            ExitCode::FAILURE
        }
    }
}

fn one_side(side: &str, kind: &str, times: &str) -> ExitCode {
    match times.parse().ok().and_then(|times| bench::side(side, kind, times)) {
        Some(said) => {
            print!("{said}");
            ExitCode::SUCCESS
        }
        None => usage(),
    }
}

fn asked(words: &[&str]) -> Option<Asked> {
    let mut asked = Asked {
        source: Source::Listed(Vec::new()),
        terms: Terms::Plain,
        first: 0,
        count: 0,
        full: false,
        work: 10_000_000,
        threads: 2,
        cuts: 0,
    };
    let mut plain: Vec<&str> = Vec::new();
    let mut words = words.iter().copied();
    while let Some(word) = words.next() {
        match word {
            "--full" => asked.full = true,
            "--pairs" => asked.terms = Terms::Pairs,
            "--many" => asked.terms = Terms::Many,
            "--ends" => asked.terms = Terms::Ends,
            "--head" => asked.terms = Terms::Heads,
            "--work" => asked.work = words.next()?.parse().ok()?,
            "--threads" => asked.threads = words.next()?.parse().ok()?,
            "--cuts" => asked.cuts = words.next()?.parse().ok()?,
            word if word.starts_with('-') => return None,
            word => plain.push(word),
        }
    }
    let listed = match plain[..] {
        ["seeds"] => Some(generator::seeds(asked.terms)),
        ["short", length] => Some(generator::short(asked.terms, length.parse().ok()?).collect()),
        ["batch"] => Some(batch()?),
        _ => None,
    };
    if let Some(cases) = listed {
        asked.count = cases.len() as u64;
        asked.source = Source::Listed(cases);
        return Some(asked);
    }
    let swept = plain.first() == Some(&"sweep");
    let numbers: Option<Vec<u64>> =
        plain[usize::from(swept)..].iter().map(|word| word.parse().ok()).collect();
    let seed;
    (seed, asked.count, asked.first) = match numbers?[..] {
        [seed, count] => (seed, count, 0),
        [seed, count, first] => (seed, count, first),
        _ => return None,
    };
    asked.source = if swept { Source::Swept(seed) } else { Source::Seeded(seed) };
    Some(asked)
}

fn batch() -> Option<Vec<Case>> {
    let mut input = io::BufReader::new(io::stdin());
    let mut cases = Vec::new();
    while let Some((slices, bytes)) = oracle::batch::next(&mut input).ok()? {
        cases.push(Case { slices: [slices.rows, slices.cells, slices.answers], bytes });
    }
    Some(cases)
}
