//! Runs whose answers were computed elsewhere (tests/known.txt), and listings as
//! docs/FORMAT.md has them: the oracle must give the same.
use oracle::{batch, listing, on_large_stack, play, Options, Slices};

fn numbers(line: &str) -> Vec<u32> {
    line.split_whitespace().skip(1).map(|n| n.parse().unwrap()).collect()
}

fn bytes(line: &str) -> Vec<u8> {
    numbers(line).into_iter().map(|n| n as u8).collect()
}

/// What a batch prints of a run, rows left out.
fn answers(run: &[u8], slices: Slices) -> String {
    on_large_stack(|| {
        let mut out = String::new();
        batch::write(&mut out, play(run, slices, &Options::default()).as_ref()).unwrap();
        out.lines()
            .filter(|line| !line.starts_with("row "))
            .map(|line| format!("{line}\n"))
            .collect()
    })
}

fn listed(run: &[u8]) -> String {
    on_large_stack(|| {
        let mut out = String::new();
        let ran = play(run, Slices::default(), &Options::default()).unwrap();
        listing::write(&mut out, &ran).unwrap();
        out
    })
}

#[test]
fn computed_runs() {
    let text = include_str!("known.txt");
    let mut count = 0;
    for case in text.split_inclusive("\nend\n") {
        let lines: Vec<&str> = case.lines().collect();
        let words = numbers(lines[1]);
        let slices = Slices { rows: words[0], cells: words[1], answers: words[2] };
        let want = lines[3..].join("\n") + "\n";
        assert_eq!(answers(&bytes(lines[2]), slices), want, "{}", lines[0]);
        count += 1;
    }
    assert!(count > 40, "the list is cut short");
}

#[test]
fn the_listing_to_the_letter() {
    assert_eq!(
        listed(&[100, 0, 3, 0, 0, 4, 3]),
        "call code row result deepest\n\
         0 0 1 - 3\n\
         row rule refs judgment\n\
         0 ctx.nil - (ctx 0 nil)\n\
         1 type.zero 0 (has 0 nil zero nat)\n\
         rows cells repeats\n\
         2 4 0\n"
    );
}

#[test]
fn a_repeated_call() {
    let listing = listed(&[100, 0, 3, 0, 0, 4, 3, 3, 0, 0, 4, 3]);
    assert!(listing.ends_with("rows cells repeats\n2 4 1\n"));
}

#[test]
fn a_refused_run() {
    assert_eq!(listed(&[100, 0, 8]), "number place\n3 2\n");
}
