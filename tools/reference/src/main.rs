//! The command. With a level alone it reads one run and prints its listing.
use reference::{batch, listing, on_large_stack, play, vectors, Level, Slices};
use std::io::{self, BufReader, BufWriter, Read, Write};
use std::process::ExitCode;

const USAGE: &str = "\
reference LEVEL [--rows WORDS] [--cells WORDS] [--answers WORDS] [--work STEPS]
    reads one run, prints its listing (or slow)
reference batch LEVEL [--work STEPS]
    reads runs, each with its slices, prints what each leaves
reference vectors FILE.. [--work STEPS]
    plays the runs of files named rN.jsonl, says which answers differ
reference lines LEVEL NAME [--work STEPS]
    reads runs as batch does, prints each with its answers, as a line of such a
    file
LEVEL is 0, 1, 2, 3, 4, 5, 9 or 11: the requests up to it are on.
";

struct Asked {
    words: Vec<String>,
    slices: Slices,
    work: u64,
}

fn main() -> ExitCode {
    let Some(asked) = asked() else {
        return usage();
    };
    let words: Vec<&str> = asked.words.iter().map(String::as_str).collect();
    let done = on_large_stack(|| match words.as_slice() {
        ["vectors", files @ ..] if !files.is_empty() => Some(vectors_mode(files, asked.work)),
        ["batch", level] => Level::parse(level).map(|level| batch_mode(level, asked.work)),
        ["lines", level, name] => {
            Level::parse(level).map(|level| lines_mode(level, name, asked.work))
        }
        [level] => Level::parse(level).map(|level| list_mode(level, &asked)),
        _ => None,
    });
    match done {
        None => usage(),
        Some(Ok(true)) => ExitCode::SUCCESS,
        Some(Ok(false)) => ExitCode::FAILURE,
        Some(Err(e)) => {
            eprintln!("reference: {e}");
            ExitCode::FAILURE
        }
    }
}

fn usage() -> ExitCode {
    eprint!("{USAGE}");
    ExitCode::from(2)
}

fn asked() -> Option<Asked> {
    let mut asked = Asked { words: vec![], slices: Slices::default(), work: u64::MAX };
    let mut words = std::env::args().skip(1);
    while let Some(word) = words.next() {
        if !word.starts_with("--") {
            asked.words.push(word);
            continue;
        }
        let number: u64 = words.next()?.parse().ok()?;
        match word.as_str() {
            "--rows" => asked.slices.rows = number.try_into().ok()?,
            "--cells" => asked.slices.cells = number.try_into().ok()?,
            "--answers" => asked.slices.answers = number.try_into().ok()?,
            "--work" => asked.work = number,
            _ => return None,
        }
    }
    Some(asked)
}

fn list_mode(level: Level, asked: &Asked) -> io::Result<bool> {
    let mut bytes = Vec::new();
    io::stdin().read_to_end(&mut bytes)?;
    let mut out = String::new();
    match play(level, &bytes, asked.slices, asked.work) {
        Some(ran) => listing::write(&mut out, &ran).expect("a text can be written"),
        None => out.push_str("slow\n"),
    }
    io::stdout().write_all(out.as_bytes())?;
    Ok(true)
}

fn batch_mode(level: Level, work: u64) -> io::Result<bool> {
    let mut input = BufReader::new(io::stdin());
    let mut output = BufWriter::new(io::stdout());
    while let Some((slices, bytes)) = batch::next(&mut input)? {
        let mut out = String::new();
        let ran = play(level, &bytes, slices, work);
        batch::write(&mut out, level, ran.as_ref()).expect("a text can be written");
        output.write_all(out.as_bytes())?;
    }
    output.flush()?;
    Ok(true)
}

fn lines_mode(level: Level, name: &str, work: u64) -> io::Result<bool> {
    let mut input = BufReader::new(io::stdin());
    let mut place = 0;
    while let Some((slices, bytes)) = batch::next(&mut input)? {
        let line = vectors::line(level, &format!("{name} {place}"), &bytes, slices, work);
        io::stdout().write_all(line.unwrap_or_default().as_bytes())?;
        place += 1;
    }
    Ok(true)
}

/// Whether all agree.
fn vectors_mode(files: &[&str], work: u64) -> io::Result<bool> {
    let mut agree = true;
    for file in files {
        let Some(level) = vectors::level(file) else {
            return Err(io::Error::other(format!("{file} is not named rN.jsonl")));
        };
        let text = std::fs::read_to_string(file)?;
        let (mut count, mut differ) = (0, 0);
        for (i, line) in text.lines().enumerate() {
            count += 1;
            let found = vectors::differences(level, line, work);
            let said = found.unwrap_or_else(|e| vec![e]);
            differ += u32::from(!said.is_empty());
            for what in said {
                println!("{file}, line {}: {what}", i + 1);
            }
        }
        println!("{file}: {count} runs, {differ} differ");
        agree &= differ == 0;
    }
    Ok(agree)
}
