//! Quotes, as the listing prints them: annotations are left out.
use crate::syntax::{Interval, Term, I, T};
use std::fmt::{self, Display, Formatter};

impl Display for Interval {
    fn fmt(&self, f: &mut Formatter) -> fmt::Result {
        match self {
            Self::Zero => f.write_str("i0"),
            Self::One => f.write_str("i1"),
            Self::Dim(n) => write!(f, "(dim {n})"),
            Self::Neg(r) => write!(f, "(neg {r})"),
            Self::Meet(r, s) => write!(f, "(meet {r} {s})"),
            Self::Join(r, s) => write!(f, "(join {r} {s})"),
        }
    }
}

impl Display for Term {
    fn fmt(&self, f: &mut Formatter) -> fmt::Result {
        match self {
            Self::U(n) => write!(f, "(u {n})"),
            Self::V(n) => write!(f, "(v {n})"),
            Self::Nat => f.write_str("nat"),
            Self::Zero => f.write_str("zero"),
            Self::Pi(a, b) => write!(f, "(pi {a} {b})"),
            Self::Lam(_, b) => write!(f, "(lam {b})"),
            Self::App(a, b) => write!(f, "(app {a} {b})"),
            Self::Path(a, b, c) => write!(f, "(path {a} {b} {c})"),
            Self::Plam(_, b) => write!(f, "(plam {b})"),
            Self::Papp(p, r) => write!(f, "(papp {p} {r})"),
            Self::Sigma(a, b) => write!(f, "(sigma {a} {b})"),
            Self::Pair(_, a, b) => write!(f, "(pair {a} {b})"),
            Self::Fst(p) => write!(f, "(fst {p})"),
            Self::Snd(p) => write!(f, "(snd {p})"),
        }
    }
}

pub fn same(a: &T, b: &T) -> bool {
    a == b || a.to_string() == b.to_string()
}

/// An argument of a judgment or of a reference function.
pub enum Arg {
    Number(u32),
    Interval(I),
    Term(T),
    Context(Vec<T>),
}

impl Display for Arg {
    fn fmt(&self, f: &mut Formatter) -> fmt::Result {
        match self {
            Self::Number(n) => write!(f, "{n}"),
            Self::Interval(r) => write!(f, "{r}"),
            Self::Term(t) => write!(f, "{t}"),
            Self::Context(g) => context(f, g),
        }
    }
}

fn context(f: &mut Formatter, g: &[T]) -> fmt::Result {
    match g.split_last() {
        None => f.write_str("nil"),
        Some((last, rest)) => {
            write!(f, "(cons {last} ")?;
            context(f, rest)?;
            f.write_str(")")
        }
    }
}

impl From<u32> for Arg {
    fn from(n: u32) -> Self {
        Self::Number(n)
    }
}

impl From<&I> for Arg {
    fn from(r: &I) -> Self {
        Self::Interval(r.clone())
    }
}

impl From<&T> for Arg {
    fn from(t: &T) -> Self {
        Self::Term(t.clone())
    }
}

impl From<&[T]> for Arg {
    fn from(g: &[T]) -> Self {
        Self::Context(g.to_vec())
    }
}

/// A judgment as the listing prints it.
pub fn judgment(name: &str, args: &[Arg]) -> String {
    let mut out = format!("({name}");
    for arg in args {
        out.push_str(&format!(" {arg}"));
    }
    out.push(')');
    out
}
