//! What the source uses of its `crate::sexp`, which can't be had: atoms and
//! lists with an order, and the result type. Names are kept in place rather
//! than on the heap, so that timings are not slowed by this stand-in.
use crate::refusal::Refusal;
use std::fmt;

pub type Result<T> = std::result::Result<T, Refusal>;

/// The longest name, `dshiftctx`, has nine bytes.
const LONGEST: usize = 12;

#[derive(Clone, Copy, Debug, PartialEq, Eq, PartialOrd, Ord)]
pub struct Name([u8; LONGEST]);

impl Name {
    fn new(name: &str) -> Self {
        let mut bytes = [0; LONGEST];
        bytes[..name.len()].copy_from_slice(name.as_bytes());
        Self(bytes)
    }

    pub fn text(&self) -> &str {
        let end = self.0.iter().position(|&b| b == 0).unwrap_or(LONGEST);
        std::str::from_utf8(&self.0[..end]).unwrap()
    }
}

#[derive(Clone, Debug, PartialEq, Eq, PartialOrd, Ord)]
pub enum Sexp {
    Atom(Name),
    List(Vec<Sexp>),
}

pub fn atom(name: &str) -> Sexp {
    Sexp::Atom(Name::new(name))
}

pub fn call(head: &str, args: impl IntoIterator<Item = Sexp>) -> Sexp {
    let args = args.into_iter();
    let mut list = Vec::with_capacity(1 + args.size_hint().0);
    list.push(atom(head));
    list.extend(args);
    Sexp::List(list)
}

impl Sexp {
    pub fn list(&self) -> Result<&[Sexp]> {
        match self {
            Self::List(list) => Ok(list),
            Self::Atom(_) => Err(Refusal::NEVER),
        }
    }

    /// The number that this is, where it is one: z, or s of a number.
    pub fn number(&self) -> Option<usize> {
        let mut at = self;
        let mut n = 0;
        loop {
            match at {
                Self::Atom(name) => return (name.text() == "z").then_some(n),
                Self::List(list) => match list.as_slice() {
                    [Self::Atom(name), rest] if name.text() == "s" => {
                        n += 1;
                        at = rest;
                    }
                    _ => return None,
                },
            }
        }
    }
}

/// As the listing prints it: numbers in decimal.
impl fmt::Display for Sexp {
    fn fmt(&self, out: &mut fmt::Formatter<'_>) -> fmt::Result {
        if let Some(n) = self.number() {
            return write!(out, "{n}");
        }
        match self {
            Self::Atom(name) => out.write_str(name.text()),
            Self::List(list) => {
                out.write_str("(")?;
                for (i, part) in list.iter().enumerate() {
                    if i > 0 {
                        out.write_str(" ")?;
                    }
                    part.fmt(out)?;
                }
                out.write_str(")")
            }
        }
    }
}
