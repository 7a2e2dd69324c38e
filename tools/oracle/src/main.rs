//! The command. Without a word it reads one run and prints its listing.
use oracle::{batch, cover, listing, on_large_stack, play, Options, Slices};
use std::io::{self, BufReader, BufWriter, Read, Write};
use std::process::ExitCode;
use std::time::Instant;

const USAGE: &str = "\
oracle [list] [--rows WORDS] [--cells WORDS] [--answers WORDS] [--work STEPS]
    reads one run, prints its listing (or slow)
oracle batch [--work STEPS]
    reads runs, each with its slices, prints what each leaves
oracle cover [--work STEPS]
    reads runs, counts the refusals and the rules that they meet
oracle time [--work STEPS] [--times N] [--plain]
    reads runs, plays each N times, prints how many there are and how long they
    took; --plain counts no cells, so that the time is the source's own
--ahead, of each: with the kinds that stand ahead of the program (tools/language.py)
";

struct Asked {
    mode: String,
    slices: Slices,
    options: Options,
    times: u64,
}

fn main() -> ExitCode {
    let Some(asked) = asked() else {
        eprint!("{USAGE}");
        return ExitCode::from(2);
    };
    let done = on_large_stack(|| match asked.mode.as_str() {
        "batch" => batch_mode(&asked.options),
        "cover" => cover_mode(&asked.options),
        "time" => time_mode(&asked),
        _ => list_mode(&asked),
    });
    match done {
        Ok(()) => ExitCode::SUCCESS,
        Err(e) => {
            eprintln!("oracle: {e}");
            ExitCode::FAILURE
        }
    }
}

fn asked() -> Option<Asked> {
    let mut asked = Asked {
        mode: "list".into(),
        slices: Slices::default(),
        options: Options::default(),
        times: 1,
    };
    let mut words = std::env::args().skip(1);
    while let Some(word) = words.next() {
        if ["list", "batch", "cover", "time"].contains(&word.as_str()) {
            asked.mode = word;
            continue;
        }
        if word == "--plain" {
            asked.options.counting = false;
            continue;
        }
        if word == "--ahead" {
            asked.options.ahead = true;
            continue;
        }
        let number: u64 = words.next()?.parse().ok()?;
        match word.as_str() {
            "--rows" => asked.slices.rows = number.try_into().ok()?,
            "--cells" => asked.slices.cells = number.try_into().ok()?,
            "--answers" => asked.slices.answers = number.try_into().ok()?,
            "--work" => asked.options.work = number,
            "--times" => asked.times = number,
            _ => return None,
        }
    }
    Some(asked)
}

fn list_mode(asked: &Asked) -> io::Result<()> {
    let mut bytes = Vec::new();
    io::stdin().read_to_end(&mut bytes)?;
    let mut out = String::new();
    match play(&bytes, asked.slices, &asked.options) {
        Some(ran) => listing::write(&mut out, &ran).unwrap(),
        None => out.push_str("slow\n"),
    }
    io::stdout().write_all(out.as_bytes())
}

fn batch_mode(options: &Options) -> io::Result<()> {
    let mut input = BufReader::new(io::stdin());
    let mut output = BufWriter::new(io::stdout());
    let mut out = String::new();
    while let Some((slices, bytes)) = batch::next(&mut input)? {
        out.clear();
        batch::write(&mut out, play(&bytes, slices, options).as_ref()).unwrap();
        output.write_all(out.as_bytes())?;
    }
    output.flush()
}

fn cover_mode(options: &Options) -> io::Result<()> {
    let mut input = BufReader::new(io::stdin());
    let mut met = cover::Cover::default();
    while let Some((slices, bytes)) = batch::next(&mut input)? {
        met.add(play(&bytes, slices, options).as_ref());
    }
    let mut out = String::new();
    met.write(&mut out).unwrap();
    io::stdout().write_all(out.as_bytes())
}

fn time_mode(asked: &Asked) -> io::Result<()> {
    let mut input = BufReader::new(io::stdin());
    let mut runs = Vec::new();
    while let Some(run) = batch::next(&mut input)? {
        runs.push(run);
    }
    let (mut slow, start) = (0, Instant::now());
    for (slices, bytes) in &runs {
        for _ in 0..asked.times {
            slow += u64::from(play(bytes, *slices, &asked.options).is_none());
        }
    }
    let spent = start.elapsed().as_nanos();
    writeln!(
        io::stdout(),
        "runs times slow nanoseconds\n{} {} {slow} {spent}",
        runs.len(),
        asked.times
    )
}
