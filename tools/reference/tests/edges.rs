//! The runs of edges.txt, and what is wanted of them.
use reference::{listing, on_large_stack, play, Level, Ran, Slices};

const TEXT: &str = include_str!("edges.txt");

/// Codes and kinds by name. The nesting limit is put before the calls.
const NAMES: [(&str, u8); 28] = [
    ("ctx", 0),
    ("universe", 1),
    ("infer", 2),
    ("check", 3),
    ("normalise", 4),
    ("equal", 5),
    ("many", 6),
    ("head", 7),
    ("u", 1),
    ("v", 2),
    ("nat", 3),
    ("zero", 4),
    ("pi", 5),
    ("lam", 6),
    ("app", 7),
    ("path", 8),
    ("plam", 9),
    ("papp", 10),
    ("sigma", 11),
    ("pair", 12),
    ("fst", 13),
    ("snd", 14),
    ("i0", 16),
    ("i1", 17),
    ("dim", 18),
    ("neg", 19),
    ("meet", 20),
    ("join", 21),
];

fn byte(word: &str) -> u8 {
    let named = NAMES.iter().find(|(name, _)| *name == word).map(|(_, byte)| *byte);
    named.unwrap_or_else(|| word.parse().unwrap_or_else(|_| panic!("{word} is no byte")))
}

fn numbers(text: &str) -> Vec<u64> {
    text.split_whitespace().map(|word| word.parse().expect("a number")).collect()
}

struct Edge {
    level: Level,
    name: &'static str,
    slices: Slices,
    run: Vec<u8>,
    wanted: Vec<&'static str>,
}

/// The runs of the text, parted by empty lines.
fn edges() -> Vec<Edge> {
    TEXT.split("\n\n").filter(|part| !part.starts_with('#')).map(edge).collect()
}

fn edge(part: &'static str) -> Edge {
    let mut lines = part.lines();
    let (level, name) = lines.next().and_then(|line| line.split_once(' ')).expect("a name");
    let mut slices = Slices { rows: 1_200_000, cells: 480_000, answers: 16_384 };
    let (mut run, mut wanted) = (vec![0, 16], vec![]);
    for line in lines {
        if let Some(what) = line.strip_prefix("= ") {
            wanted.push(what);
        } else if let Some(words) = line.strip_prefix("slices ") {
            let words: Vec<u32> = words.split(' ').map(|w| w.parse().expect("words")).collect();
            slices = Slices { rows: words[0], cells: words[1], answers: words[2] };
        } else {
            run.extend(line.split(' ').map(byte));
        }
    }
    Edge { level: Level::parse(level).expect("a level"), name, slices, run, wanted }
}

/// What is wanted, said of a run that was played, in the words of the wish: the
/// rules that it names, the row of args, and so on.
fn said(ran: &Ran, wish: &str, call: &mut usize) -> String {
    let (name, rest) = wish.split_once(' ').expect("a wish of two words or more");
    let join = |words: Vec<String>| format!("{name} {}", words.join(" "));
    let has = |name: &&str| match name.strip_suffix('*') {
        Some(start) => ran.rows.iter().any(|row| row.rule.starts_with(start)),
        None => ran.rows.iter().any(|row| row.rule == *name),
    };
    match name {
        "run" => format!("run {} {}", ran.number, ran.place),
        "with" => join(rest.split(' ').filter(has).map(str::to_owned).collect()),
        "without" => join(rest.split(' ').filter(|r| !has(r)).map(str::to_owned).collect()),
        "results" => join(ran.answers.iter().map(|a| a.result.to_string()).collect()),
        "args" => {
            let row = numbers(rest)[0] as usize;
            let words = std::iter::once(row as u32).chain(ran.rows[row].args.iter().copied());
            join(words.map(|w| w.to_string()).collect())
        }
        "deepest" => {
            let call = numbers(rest)[0];
            format!("deepest {call} {}", ran.answers[call as usize].deepest)
        }
        "made" => join(ran.rows.iter().map(|row| row.made.to_string()).collect()),
        "repeats" => {
            let mut text = String::new();
            listing::write(&mut text, ran).expect("a text can be written");
            join(vec![text.trim_end().rsplit(' ').next().expect("a word").to_owned()])
        }
        _ => {
            let answer = ran
                .answers
                .get(*call)
                .map(|a| format!("{} {}", a.number, a.shown.as_deref().unwrap_or("-")));
            *call += 1;
            answer.unwrap_or("no call".to_owned())
        }
    }
}

#[test]
fn edges_are_as_worked_out_by_hand() {
    on_large_stack(|| {
        let mut differ = vec![];
        for edge in edges() {
            let ran = play(edge.level, &edge.run, edge.slices, u64::MAX).expect("a run is played");
            let mut call = 0;
            for wish in &edge.wanted {
                let said = said(&ran, wish, &mut call);
                if said != *wish {
                    differ.push(format!("{}: wanted {wish}, is {said}", edge.name));
                }
            }
            if call != ran.answers.len() {
                differ.push(format!("{}: {} calls, wanted {call}", edge.name, ran.answers.len()));
            }
        }
        assert!(differ.is_empty(), "{}", differ.join("\n"));
    });
}
