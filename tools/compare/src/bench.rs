//! Times of the program and of the source on the same runs, each side in a
//! process of its own that plays its runs again and again. What is measured is
//! the processor time of the thread that plays, so that other work on the machine
//! counts as little as it can.
use crate::program;
use crate::work::Sides;
use generator::Case;
use oracle::{play, Options, Slices};
use std::io::{Error, Result};
use std::process::Command;
use std::time::Duration;

/// The kinds of runs, and how often each is played in one measurement.
pub const KINDS: &[(&str, &str, u64)] = &[
    ("small", "65,532 bytes of small calls", 2),
    ("rows", "a run that fills 50,000 rows", 1),
    ("deep", "deep nesting", 20),
    ("intervals", "long intervals", 20),
    ("doubling", "doubling substitutions", 20),
    ("converted", "converted arguments", 20),
    ("pis", "a table filled by pi types", 1),
    ("long", "a table filled by long intervals", 1),
    ("deeps", "65,536 bytes of deep calls", 1),
    ("functions", "a table filled by towers of functions", 1),
    ("dimensions", "65,536 bytes of towers of paths", 1),
    ("annotations", "10,013 lams that differ in their annotation alone", 1),
    ("meeting", "paths whose hashes meet", 1),
    ("parted", "as many paths whose hashes do not", 1),
];

extern "C" {
    fn clock_gettime(clock: i32, time: *mut [i64; 2]) -> i32;
}

/// The processor time of this thread so far (CLOCK_THREAD_CPUTIME_ID on Linux).
fn now() -> Duration {
    let mut time = [0; 2];
    // SAFETY: the pointer is to a timespec of a 64-bit Linux: two words.
    assert_eq!(unsafe { clock_gettime(3, &mut time) }, 0);
    Duration::new(time[0] as u64, time[1] as u32)
}

/// One side's time of one measurement, in nanoseconds.
fn once(side: &str, case: &Case, times: u64) -> u128 {
    let [rows, cells, answers] = case.slices;
    if side == "program" {
        let mut words = case.slices.map(|n| vec![0; n as usize]);
        let [rows, cells, answers] = &mut words;
        let start = now();
        for _ in 0..times {
            program::play(&case.bytes, rows, cells, answers, &mut [0; 5]);
        }
        return (now() - start).as_nanos();
    }
    // The source as it is: no cell is counted.
    let options = Options { counting: side == "counted", ..Options::default() };
    let start = now();
    for _ in 0..times {
        assert!(play(&case.bytes, Slices { rows, cells, answers }, &options).is_some());
    }
    (now() - start).as_nanos()
}

/// What a process of its own does: it prints the nanoseconds of one play.
pub fn side(side: &str, kind: &str, times: u64) -> Option<String> {
    let case = generator::bench(kind)?;
    Some(format!("{}\n", oracle::on_large_stack(|| once(side, &case, times)) / u128::from(times)))
}

fn measured(side: &str, kind: &str, times: u64) -> Result<f64> {
    let me = std::env::current_exe()?;
    let out = Command::new(me).args(["play", side, kind, &times.to_string()]).output()?;
    let text = String::from_utf8_lossy(&out.stdout);
    text.trim().parse().map_err(|_| Error::other(format!("{side} {kind}: {text}")))
}

/// Least, middle and most of some measurements, in milliseconds.
fn spread(mut all: Vec<f64>) -> [f64; 3] {
    all.sort_by(f64::total_cmp);
    [all[0], all[all.len() / 2], all[all.len() - 1]].map(|ns| ns / 1e6)
}

/// How large a run is. Both sides must agree on it before they are timed.
fn sizes(kind: &str) -> Result<String> {
    let case = generator::bench(kind).ok_or_else(|| Error::other(kind.to_owned()))?;
    oracle::on_large_stack(|| {
        let mut sides = Sides::new(u64::MAX, 0);
        sides.compare(&case).map_err(Error::other)?;
        let met = sides.tally;
        Ok(format!("{}, {}, {}, {}", met.calls, met.rows, met.cells, met.deepest))
    })
}

/// How time grows with the table: the program on ever larger parts of a run's
/// calls, each the least of some plays, in milliseconds.
pub fn growth(kind: &str, repeats: usize) -> Result<()> {
    println!("{kind}: rows, cells, milliseconds, microseconds a row");
    for share in [64, 32, 16, 8, 4, 2, 1] {
        let case = generator::bench(&format!("{kind}/{share}"));
        let case = case.ok_or_else(|| Error::other(kind.to_owned()))?;
        let (result, times) = oracle::on_large_stack(|| {
            let (mut result, mut times) = ([0; 5], Vec::new());
            for _ in 0..repeats {
                let mut words = case.slices.map(|n| vec![0; n as usize]);
                let [rows, cells, answers] = &mut words;
                let start = now();
                program::play(&case.bytes, rows, cells, answers, &mut result);
                times.push((now() - start).as_nanos() as f64);
            }
            (result, times)
        });
        let [least, ..] = spread(times);
        let [_, _, _, rows, cells] = result;
        println!("{rows} | {cells} | {least:.2} | {:.2}", least * 1e3 / f64::from(rows));
    }
    Ok(())
}

pub fn table(kinds: &[&str], repeats: usize) -> Result<()> {
    println!(
        "milliseconds of processor time a run: least, middle, most of {repeats} processes each"
    );
    println!("kind | calls, rows, cells, deepest | program | Rust | ratio of the middle ones");
    for (kind, said, times) in KINDS {
        if !kinds.is_empty() && !kinds.contains(kind) {
            continue;
        }
        let size = sizes(kind)?;
        // At a nesting limit of 1 nothing is walked, and the source has no work.
        let walked = generator::bench(kind).is_some_and(|case| case.bytes[..2] != [1, 0]);
        let mut sides = [Vec::new(), Vec::new()];
        // In turn, so that both sides meet the machine's other work alike.
        for _ in 0..repeats {
            sides[0].push(measured("program", kind, *times)?);
            if walked {
                sides[1].push(measured("source", kind, *times)?);
            }
        }
        let show = |[a, b, c]: [f64; 3]| format!("{a:.3} {b:.3} {c:.3}");
        let [ours, theirs] = sides;
        let ours = spread(ours);
        if walked {
            let theirs = spread(theirs);
            let ratio = ours[1] / theirs[1];
            println!("{said} | {size} | {} | {} | {ratio:.3}", show(ours), show(theirs));
        } else {
            println!("{said} | {size} | {} | - | -", show(ours));
        }
    }
    Ok(())
}
