//! Cells as quotes: the lowest with a quote, and how one prints.
pub use oracle::language::INFERENCE;
use oracle::language::{kind_of, KINDS};
use oracle::sexp::Sexp;
use oracle::Node;
use std::collections::HashMap;

/// The lowest cell with each quote. A quote is known by its kind, its number and
/// the lowest cells with the quotes of its parts.
pub struct Quotes {
    known: HashMap<Node, u32>,
    lowest: Vec<u32>,
}

/// A cell that has no quote.
const NONE: u32 = u32::MAX;

impl Quotes {
    /// Of cells by their numbers, parts before the whole.
    pub fn of(nodes: &[Node]) -> Self {
        let mut quotes = Self {
            known: HashMap::with_capacity(nodes.len()),
            lowest: Vec::with_capacity(nodes.len()),
        };
        for (i, node) in nodes.iter().enumerate() {
            let lowest = kind_of(node[0]).map_or(NONE, |kind| {
                let mut look = [node[0], 0, 0, 0];
                if kind.is_numbered() {
                    look[1] = node[1];
                }
                for part in kind.shown {
                    look[*part] = quotes.lowest[node[*part] as usize];
                }
                *quotes.known.entry(look).or_insert(i as u32)
            });
            quotes.lowest.push(lowest);
        }
        quotes
    }

    /// The lowest cell with the quote of this one.
    pub fn lowest(&self, cell: usize) -> u32 {
        self.lowest[cell]
    }

    /// The lowest cell with this quote.
    pub fn cell(&self, quote: &Sexp) -> Option<u32> {
        let (name, parts) = match quote {
            Sexp::Atom(name) => (name, &[][..]),
            Sexp::List(list) => match list.as_slice() {
                [Sexp::Atom(name), parts @ ..] => (name, parts),
                _ => return None,
            },
        };
        let kind = KINDS.iter().find(|kind| kind.name == name.text())?;
        let mut look = [u32::from(kind.byte), 0, 0, 0];
        if kind.is_numbered() {
            look[1] = u32::try_from(parts.first()?.number()?).ok()?;
        } else {
            for (place, part) in kind.shown.iter().zip(parts) {
                look[*place] = self.cell(part)?;
            }
        }
        self.known.get(&look).copied()
    }
}

/// The quote's text; `?` where the cell has none, and an end where it is long.
pub fn text(nodes: &[Node], cell: u32) -> String {
    let mut out = String::new();
    write(&mut out, nodes, cell, u32::MAX);
    out
}

const LONGEST: usize = 2_000;

fn write(out: &mut String, nodes: &[Node], cell: u32, above: u32) {
    let node = nodes.get(cell as usize).filter(|_| cell < above);
    let Some((node, kind)) = node.and_then(|n| Some((n, kind_of(n[0])?))) else {
        return out.push('?');
    };
    if out.len() > LONGEST {
        return out.push_str("..");
    }
    let name = kind.name;
    if kind.is_numbered() {
        return out.push_str(&format!("({name} {})", node[1]));
    }
    if kind.parts.is_empty() {
        return out.push_str(name);
    }
    out.push('(');
    out.push_str(name);
    for part in kind.shown {
        out.push(' ');
        write(out, nodes, node[*part], cell);
    }
    out.push(')');
}
