//! The kinds of edit, and how each is made. Every edit but `Each` must fit at
//! exactly one place; one that fits nowhere, or twice, stops the build.

/// What is done at the place that an edit finds.
pub enum Edit {
    /// Take out the whole item, arm, variant, field or line whose first line
    /// starts so, with the comments and attributes right above it.
    Cut(&'static str),
    /// Put the second text in the place of the first.
    Put(&'static str, &'static str),
    /// Put the second text in the place of the first wherever that stands.
    Each(&'static str, &'static str),
    /// Take out the method call that starts so, with its arguments.
    CutCall(&'static str),
    /// Take out the branch `else if ..` that starts so, up to the next one.
    CutElse(&'static str),
    /// Put a refusal's number in the place of the error `Err(..)` whose text
    /// has these words.
    Refuse(&'static str, u8),
}

/// An edit, and the item (by how its first line starts) that it stays within;
/// the whole file where this is empty.
pub struct Step(pub &'static str, pub Edit);

/// The text with every edit made, in order.
pub fn all(text: &str, steps: &[Step]) -> Result<String, String> {
    let mut text = text.to_owned();
    for Step(within, edit) in steps {
        let (from, to) =
            if within.is_empty() { (0, text.len()) } else { item(&text, 0, text.len(), within)? };
        let (a, b, new) = place(&text, from, to, edit)?;
        text.replace_range(a..b, &new);
    }
    Ok(text)
}

fn place(
    text: &str,
    from: usize,
    to: usize,
    edit: &Edit,
) -> Result<(usize, usize, String), String> {
    Ok(match edit {
        Edit::Cut(start) => {
            let (a, b) = item(text, from, to, start)?;
            (above(text, a), b, String::new())
        }
        Edit::Put(old, new) => {
            let a = only(text, from, to, old)?;
            (a, a + old.len(), (*new).to_owned())
        }
        Edit::Each(old, _) if !text[from..to].contains(old) => {
            return Err(format!("{old:?} is not there"));
        }
        Edit::Each(old, new) => (from, to, text[from..to].replace(old, new)),
        Edit::CutCall(start) => {
            let a = only(text, from, to, start)?;
            (a, close(text, a, start)?, String::new())
        }
        Edit::CutElse(start) => {
            let a = only(text, from, to, start)?;
            let body = text[a..to].find("{\n").ok_or(format!("no body after {start:?}"))? + a;
            (a, close(text, body, start)? + 1, String::new())
        }
        Edit::Refuse(words, number) => {
            let at = only(text, from, to, words)?;
            let a = text[from..at].rfind("Err(").ok_or(format!("no Err( before {words:?}"))? + from;
            let b = close(text, a, words)?;
            if b < at {
                return Err(format!("{words:?} is not inside an Err(..)"));
            }
            (a, b, format!("Err(Refusal({number}))"))
        }
    })
}

/// The one place of some words.
fn only(text: &str, from: usize, to: usize, words: &str) -> Result<usize, String> {
    let mut places = text[from..to].match_indices(words);
    match (places.next(), places.next()) {
        (Some((at, _)), None) => Ok(from + at),
        (None, _) => Err(format!("{words:?} is not there")),
        _ => Err(format!("{words:?} is there more than once")),
    }
}

/// From the start of the one line that starts so (blanks aside) to the end of
/// the line on which its brackets are closed.
fn item(text: &str, from: usize, to: usize, start: &str) -> Result<(usize, usize), String> {
    let mut found = None;
    let mut at = from;
    for line in text[from..to].split_inclusive('\n') {
        if line.trim_start().starts_with(start) {
            if found.is_some() {
                return Err(format!("two lines start with {start:?}"));
            }
            found = Some(at);
        }
        at += line.len();
    }
    let a = found.ok_or(format!("no line starts with {start:?}"))?;
    let mut open = 0i32;
    let mut b = a;
    for line in text[a..].split_inclusive('\n') {
        b += line.len();
        open += depth(line);
        if open <= 0 {
            return Ok((a, b));
        }
    }
    Err(format!("the brackets after {start:?} are never closed"))
}

fn depth(line: &str) -> i32 {
    line.chars()
        .map(|c| match c {
            '(' | '[' | '{' => 1,
            ')' | ']' | '}' => -1,
            _ => 0,
        })
        .sum()
}

/// The place after the bracket that closes the first one from `at` on.
fn close(text: &str, at: usize, what: &str) -> Result<usize, String> {
    let mut open = 0;
    for (i, c) in text[at..].char_indices() {
        match c {
            '(' | '[' | '{' => open += 1,
            ')' | ']' | '}' => {
                open -= 1;
                if open == 0 {
                    return Ok(at + i + 1);
                }
            }
            _ => {}
        }
    }
    Err(format!("the bracket at {what:?} is never closed"))
}

/// The start of the comments and attributes right above the line at `a`.
fn above(text: &str, a: usize) -> usize {
    let mut top = a;
    while top > 0 {
        let line = text[..top - 1].rfind('\n').map_or(0, |i| i + 1);
        let words = text[line..top].trim_start();
        if !(words.starts_with("//") || words.starts_with("#[")) {
            break;
        }
        top = line;
    }
    top
}
