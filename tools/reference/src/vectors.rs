//! Files of runs with answers: a JSON object a line. The file's name, rN.jsonl,
//! says up to which request they go.
use crate::json::{parse, Json};
use crate::level::Level;
use crate::listing;
use crate::run::{play, Ran, Slices};

/// The level of a file, by its name.
pub fn level(path: &str) -> Option<Level> {
    let name = path.rsplit('/').next()?;
    Level::parse(name.strip_prefix('r')?.strip_suffix(".jsonl")?)
}

/// What is wrong with a line: the fields that differ, with both values.
pub fn differences(level: Level, line: &str, work: u64) -> Result<Vec<String>, String> {
    let vector = parse(line).ok_or("this is no JSON that is read here")?;
    let (slices, bytes) = run(&vector).ok_or("a field is missing or wrong")?;
    let ran = play(level, &bytes, slices, work).ok_or("it takes too long")?;
    let mut out = Vec::new();
    for (name, got) in answers(level, &ran) {
        let wanted = vector.field(name).ok_or_else(|| format!("{name} is missing"))?;
        if *wanted != got {
            out.push(format!("{name}\n{}", shown(wanted, &got)));
        }
    }
    Ok(out)
}

/// The slices and the bytes of a vector's run.
fn run(vector: &Json) -> Option<(Slices, Vec<u8>)> {
    let words = |name| vector.number(name).and_then(|n| n.try_into().ok());
    let slices = Slices {
        rows: words("table_words")?,
        cells: words("cell_words")?,
        answers: words("answer_words")?,
    };
    let hex = vector.text("run")?;
    let bytes = (0..hex.len()).step_by(2).map(|i| u8::from_str_radix(hex.get(i..i + 2)?, 16).ok());
    Some((slices, bytes.collect::<Option<_>>()?))
}

/// The fields that a level fixes.
fn answers(level: Level, ran: &Ran) -> Vec<(&'static str, Json)> {
    let mut text = String::new();
    listing::write(&mut text, ran).expect("a text can be written");
    let mut fields = vec![("listing", Json::Text(text))];
    if level.cell_numbers() {
        fields.push(("results", Json::numbers(ran.answers.iter().map(|a| a.result))));
        let args = ran.rows.iter().map(|row| Json::numbers(row.args.iter().copied()));
        fields.push(("args", Json::List(args.collect())));
    }
    if level.made() {
        fields.push(("made", Json::numbers(ran.rows.iter().map(|row| row.made as u64))));
    }
    fields
}

/// Of two values that differ the first lines, or items, that do.
fn shown(wanted: &Json, got: &Json) -> String {
    let (wanted, got) = (lines(wanted), lines(got));
    let place = wanted.iter().zip(&got).take_while(|(w, g)| w == g).count();
    let at = |list: &[String]| list.get(place).cloned().unwrap_or("(the end)".to_owned());
    format!("  at {place}\n  stored {}\n  here   {}", at(&wanted), at(&got))
}

fn lines(value: &Json) -> Vec<String> {
    match value {
        Json::Text(text) => text.lines().map(str::to_owned).collect(),
        Json::List(items) => items
            .iter()
            .map(|item| {
                let mut out = String::new();
                item.write(&mut out);
                out
            })
            .collect(),
        _ => vec![],
    }
}

/// A run with its answers, as a line; none where it takes too long.
pub fn line(level: Level, name: &str, bytes: &[u8], slices: Slices, work: u64) -> Option<String> {
    let ran = play(level, bytes, slices, work)?;
    let hex = bytes.iter().map(|b| format!("{b:02x}")).collect();
    let mut fields = vec![
        ("name", Json::Text(name.to_owned())),
        ("table_words", Json::Number(slices.rows.into())),
        ("cell_words", Json::Number(slices.cells.into())),
        ("answer_words", Json::Number(slices.answers.into())),
        ("run", Json::Text(hex)),
    ];
    fields.extend(answers(level, &ran));
    let fields = fields.into_iter().map(|(name, value)| (name.to_owned(), value)).collect();
    let mut out = String::new();
    Json::Object(fields).write(&mut out);
    out.push('\n');
    Some(out)
}
