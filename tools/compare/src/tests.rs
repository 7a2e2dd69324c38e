//! That the slices go over as they should, and that no word can be wrong unseen.
use crate::cuts::{ends, Stood};
use crate::program::{play, Left, Lent, FILLS};
use crate::same::compare;
use crate::shrink::shrunk;
use crate::tally::Tally;
use crate::work::Sides;
use generator::{case, Case, Terms};
use oracle::{on_large_stack, Options, Ran, Slices};

/// docs/FORMAT.md's worked example: check zero at nat.
const EXAMPLE: [u8; 7] = [100, 0, 3, 0, 0, 4, 3];

#[test]
fn the_worked_example_word_by_word() {
    let (mut rows, mut cells) = ([7; 24 * 3 + 1], [7; 8 * 5]);
    let (mut answers, mut result) = ([7; 9], [7; 6]);
    play(&EXAMPLE, &mut rows, &mut cells, &mut answers, &mut result);
    assert_eq!(result, [0, 0, 1, 2, 4, 7]);
    assert_eq!(answers, [0, 1, 0, 3, 7, 7, 7, 7, 7]);
    let row = |rule, cited, count, arguments: [u32; 5]| {
        let mut row = [0; 19];
        (row[0], row[1], row[12]) = (rule, cited, count);
        row[13..18].copy_from_slice(&arguments);
        row
    };
    assert_eq!(rows[..19], row(0, 0, 2, [0; 5]));
    assert_eq!(rows[24..43], row(79, 1, 4, [0, 0, 1, 2, 0]));
    assert_eq!(rows[48..], [7; 25]);
    let known = [
        [32, 0, 0, 0, 0, 0, 3, 1],
        [4, 0, 0, 0, 1, 0, 2, 0],
        [3, 0, 0, 0, 2, 0, 0, 0],
        [40, 0, 0, 1, 2, 1, 0, 0],
        [7; 8],
    ];
    assert_eq!(cells[..], known.concat());
}

#[test]
fn a_short_result_is_left_alone() {
    let (mut rows, mut cells) = ([7; 48], [7; 32]);
    let (mut answers, mut result) = ([7; 4], [7; 4]);
    play(&EXAMPLE, &mut rows, &mut cells, &mut answers, &mut result);
    assert_eq!((rows, cells, answers, result), ([7; 48], [7; 32], [7; 4], [7; 4]));
}

/// A copy of what a run left.
#[derive(Clone)]
struct Words {
    result: [u32; 6],
    slices: [Vec<u32>; 3],
}

impl Words {
    fn of(case: &Case) -> Self {
        Lent::default().play(&case.bytes, case.slices, |left| Self {
            result: left.result,
            slices: [left.rows.to_vec(), left.cells.to_vec(), left.answers.to_vec()],
        })
    }

    fn left(&self) -> Left<'_> {
        let [rows, cells, answers] = &self.slices;
        Left { result: self.result, rows, cells, answers }
    }

    fn same(&self, ran: &Ran) -> bool {
        compare(&self.left(), ran).is_ok()
    }
}

fn ran(case: &Case) -> Ran {
    let [rows, cells, answers] = case.slices;
    oracle::play(&case.bytes, Slices { rows, cells, answers }, &Options::default()).unwrap()
}

/// A word made wrong shows, unless it is word 19 of a row, which is any word.
fn each_word_shows(case: &Case) -> usize {
    let (words, ran) = (Words::of(case), ran(case));
    assert!(words.same(&ran));
    let mut count = 0;
    for i in 0..6 {
        let mut wrong = words.clone();
        wrong.result[i] = wrong.result[i].wrapping_add(1);
        assert!(!wrong.same(&ran), "result word {i}");
    }
    let used = [ran.rows.len() * 24, ran.cells as usize * 8, ran.answers.len() * 4];
    for (slice, used) in used.into_iter().enumerate() {
        // All that were used, and the one after them.
        for i in 0..words.slices[slice].len().min(used + 1) {
            if slice == 0 && i < used && i % 24 == 19 {
                continue;
            }
            for by in [1, 1_000_000] {
                let mut wrong = words.clone();
                let word = &mut wrong.slices[slice][i];
                *word = word.wrapping_add(by);
                assert!(!wrong.same(&ran), "slice {slice} word {i} by {by} of {case:?}");
            }
            count += 1;
        }
    }
    count
}

#[test]
fn every_wrong_word_shows() {
    let slices = [60 * 24, 200 * 8, 40];
    let some: [&[u8]; 4] = [
        &EXAMPLE,
        // universe, infer and normalise, with a refused call between.
        &[100, 0, 1, 0, 0, 3, 2, 0, 0, 2, 0, 4, 0, 0, 7, 6, 3, 2, 0, 4, 3],
        // A refused run.
        &[100, 0, 6],
        // A path's end, and an equation.
        &[100, 0, 4, 0, 1, 8, 3, 4, 4, 10, 2, 0, 16, 3, 5, 0, 0, 4, 4, 3],
    ];
    let total: usize = on_large_stack(|| {
        some.iter().map(|bytes| each_word_shows(&Case { slices, bytes: bytes.to_vec() })).sum()
    });
    assert!(total > 900, "{total} words");
}

/// Other numbers for the same cells are a difference, however well they agree.
#[test]
fn numbers_of_cells_are_fixed() {
    let case = Case { slices: [96, 64, 8], bytes: EXAMPLE.to_vec() };
    let (mut words, ran) = (Words::of(&case), ran(&case));
    assert!(words.same(&ran));
    // zero and nat change places: 1 and 2.
    let cells = &mut words.slices[1];
    for (i, node) in
        [[3, 0, 0, 0, 1, 0], [4, 0, 0, 0, 2, 0], [40, 0, 0, 2, 1, 1]].iter().enumerate()
    {
        cells[8 + i * 8..14 + i * 8].copy_from_slice(node);
    }
    words.slices[0][24 + 15..24 + 17].copy_from_slice(&[2, 1]);
    assert!(!words.same(&ran));
}

/// normalise lam(nat, zero), and then lam(u 0, zero), which has the same quote: both
/// results are the lowest cell with it, and the second one's own cell is wrong.
#[test]
fn a_result_is_the_lowest_cell_with_its_quote() {
    let bytes = vec![100, 0, 4, 0, 0, 6, 3, 4, 5, 3, 3, 4, 0, 0, 6, 1, 0, 4, 5, 1, 0, 3];
    let case = Case { slices: [60 * 24, 200 * 8, 40], bytes };
    let (mut words, ran) = on_large_stack(|| (Words::of(&case), ran(&case)));
    assert!(words.same(&ran));
    assert_eq!([words.slices[2][2], words.slices[2][6]], [3, 3]);
    assert_eq!(words.slices[1][11 * 8..11 * 8 + 4], [6, 5, 2, 0]);
    words.slices[2][6] = 11;
    assert!(!words.same(&ran));
}

/// infer lam(nat, zero), and then a call that is refused: check lam(u 0, zero) at
/// nat. Both terms have one quote.
const ALIKE: [u8; 16] = [100, 0, 2, 0, 0, 6, 3, 4, 3, 0, 0, 6, 1, 0, 4, 3];

/// The run cut after its first call, and whole.
fn alike() -> [Case; 2] {
    let slices = [60 * 24, 200 * 8, 40];
    [&ALIKE[..8], &ALIKE].map(|bytes| Case { slices, bytes: bytes.to_vec() })
}

#[test]
fn a_run_is_cut_after_each_call() {
    assert_eq!(ends(&ALIKE, 0), [16]);
    assert_eq!(ends(&ALIKE, 1), [8, 16]);
    assert_eq!(ends(&ALIKE, 9), [8, 16]);
    assert_eq!(ends(&ALIKE[..15], 9), [15], "the last call ends early");
    assert_eq!(ends(&[[100, 0].as_slice(), &[0; 9]].concat(), 9), [5, 8, 11]);
    assert_eq!(ends(&ALIKE[..2], 9), [2]);
    let many = [100, 0, 6, 0, 0, 4, 2, 3, 3, 6, 0, 0, 4, 0, 0, 0, 0];
    assert_eq!(ends(&many, 9), [9, 14, 17], "a call with many types is not cut inside");
}

/// A word of an older entry that a later call made another shows, but for a row's
/// working words and what a cell remembers.
#[test]
fn every_older_word_stands() {
    let [before, after] = alike().map(|case| Words::of(&case));
    let stood = Stood::of(&before.left());
    assert!(stood.kept(&after.left()).is_ok());
    let [_, _, calls, rows, cells, _] = before.result.map(|n| n as usize);
    assert!(after.result[3] as usize > rows && after.result[4] as usize > cells);
    for (slice, count, size, fixed) in [(0, rows, 24, 19), (1, cells, 8, 4), (2, calls, 4, 4)] {
        // All that stood, and the first word of what came after.
        for i in 0..=count * size {
            let mut wrong = after.clone();
            wrong.slices[slice][i] ^= 1;
            let open = i == count * size || i % size >= fixed;
            assert_eq!(stood.kept(&wrong.left()).is_ok(), open, "slice {slice} word {i}");
        }
        let mut fewer = after.clone();
        fewer.result[[3, 4, 2][slice]] = count as u32 - 1;
        assert!(stood.kept(&fewer.left()).is_err(), "slice {slice} has one less");
    }
}

/// Another cell with the same quote, put into an older row, shows at the run's end
/// and in the cut.
#[test]
fn an_older_row_keeps_its_cells() {
    let [cut, whole] = alike();
    let stood = Stood::of(&Words::of(&cut).left());
    let (mut words, ran) = on_large_stack(|| (Words::of(&whole), ran(&whole)));
    let lams: Vec<u32> = (0..ran.cells).filter(|i| words.slices[1][*i as usize * 8] == 6).collect();
    let [nat, universe] = lams[..] else { panic!("two lams: {lams:?}") };
    let rows = &words.slices[0];
    let at = (0..words.result[3] as usize).find(|i| rows[i * 24] == 82 && rows[i * 24 + 15] == nat);
    words.slices[0][at.unwrap() * 24 + 15] = universe;
    assert!(!words.same(&ran));
    assert!(stood.kept(&words.left()).is_err());
}

#[test]
fn a_shrunk_run_is_the_smallest() {
    let bytes = [&EXAMPLE[..], &[2, 0, 1, 3, 7, 6, 3, 2, 0, 5, 3, 4, 3, 0, 0, 4, 3]].concat();
    let case = Case { slices: [1 << 20, 1 << 20, 1 << 20], bytes };
    let small = shrunk(case, &mut |case| case.bytes.contains(&5));
    assert_eq!(small.bytes, [100, 0, 2, 0, 0, 5, 3, 3]);
    assert_eq!(small.slices, [60 * 24, 200 * 8, 16]);
}

#[test]
fn some_runs_compare() {
    on_large_stack(|| {
        let mut sides = Sides::new(1_000_000, 0);
        for place in 0..300 {
            sides.compare(&case(Terms::Plain, 5, place)).unwrap();
        }
        assert_eq!(sides.tally.runs + sides.tally.slow, 300);
        assert!(sides.tally.numbers[0] > 300);
    });
    assert!(FILLS.iter().all(|fill| *fill > 65_535));
}

#[test]
fn the_parts_at_scale_can_be_asked_for() {
    for part in crate::PARTS {
        assert!(crate::asked(&part.split(' ').collect::<Vec<_>>()).is_some(), "{part}");
    }
    let tally = Tally { runs: 1_503_582, inside: 100, calls: 1_000, ..Tally::default() };
    let mut line = String::new();
    tally.write_line(&mut line, "together").unwrap();
    assert_eq!(line, "| together | 1,503,582 | 100 | 0 | 0 | 0 | 1,000 | 0 | 0 |\n");
}

/// Cuts change nothing that is counted of the whole runs, and are all made.
#[test]
fn some_runs_compare_when_cut() {
    on_large_stack(|| {
        let [mut whole, mut cut] = [0, 9_999].map(|cuts| Sides::new(1_000_000, cuts));
        for case in (0..300).map(|place| case(Terms::Plain, 6, place)) {
            whole.compare(&case).unwrap();
            cut.compare(&case).unwrap();
        }
        let (whole, cut) = (whole.tally, cut.tally);
        assert_eq!((whole.runs, whole.calls, whole.rows), (cut.runs, cut.calls, cut.rows));
        assert_eq!((whole.cuts[0], cut.uncut), (0, 0));
        assert!(whole.uncut > 300 && cut.cuts[0] >= whole.uncut);
    });
}
