//! The kinds of terms and intervals, with what follows from their parts alone.
//! Written by tools/written.py from tools/language.py; `python3 tools/written.py` makes it again.
use crate::term::Part;
use Interval::*;
use Term::*;

/// Every byte with a meaning: codes and kinds.
pub const LETTERS: &[u8] =
    &[0, 1, 2, 3, 4, 5, 6, 7, 8, 9, 10, 11, 12, 13, 14, 16, 17, 18, 19, 20, 21];

#[derive(Clone, Debug, PartialEq, Eq)]
pub enum Interval {
    I0,
    I1,
    Dim(usize),
    Neg(Box<Interval>),
    Meet(Box<Interval>, Box<Interval>),
    Join(Box<Interval>, Box<Interval>),
}

#[derive(Clone, Debug, PartialEq, Eq)]
pub enum Term {
    U(usize),
    V(usize),
    Nat,
    Zero,
    Pi(Box<Term>, Box<Term>),
    Lam(Box<Term>, Box<Term>),
    App(Box<Term>, Box<Term>),
    Path(Box<Term>, Box<Term>, Box<Term>),
    Plam(Box<Term>, Box<Term>),
    Papp(Box<Term>, Interval),
    Sigma(Box<Term>, Box<Term>),
    Pair(Box<Term>, Box<Term>, Box<Term>),
    Fst(Box<Term>),
    Snd(Box<Term>),
}

pub fn pi(a: Term, b: Term) -> Term {
    Pi(Box::new(a), Box::new(b))
}
pub fn lam(a: Term, b: Term) -> Term {
    Lam(Box::new(a), Box::new(b))
}
pub fn app(a: Term, b: Term) -> Term {
    App(Box::new(a), Box::new(b))
}
pub fn path(a: Term, b: Term, c: Term) -> Term {
    Path(Box::new(a), Box::new(b), Box::new(c))
}
pub fn plam(a: Term, b: Term) -> Term {
    Plam(Box::new(a), Box::new(b))
}
pub fn papp(a: Term, b: Interval) -> Term {
    Papp(Box::new(a), b)
}
pub fn sigma(a: Term, b: Term) -> Term {
    Sigma(Box::new(a), Box::new(b))
}
pub fn pair(a: Term, b: Term, c: Term) -> Term {
    Pair(Box::new(a), Box::new(b), Box::new(c))
}
pub fn fst(a: Term) -> Term {
    Fst(Box::new(a))
}
pub fn snd(a: Term) -> Term {
    Snd(Box::new(a))
}
pub fn neg(a: Interval) -> Interval {
    Neg(Box::new(a))
}
pub fn meet(a: Interval, b: Interval) -> Interval {
    Meet(Box::new(a), Box::new(b))
}
pub fn join(a: Interval, b: Interval) -> Interval {
    Join(Box::new(a), Box::new(b))
}

impl Interval {
    /// The byte of its kind, and its parts in order.
    pub fn parts(&self) -> (u8, Vec<Part<'_>>) {
        match self {
            I0 => (16, vec![]),
            I1 => (17, vec![]),
            Dim(n) => (18, vec![Part::Number(*n)]),
            Neg(a) => (19, vec![Part::Interval(a)]),
            Meet(a, b) => (20, vec![Part::Interval(a), Part::Interval(b)]),
            Join(a, b) => (21, vec![Part::Interval(a), Part::Interval(b)]),
        }
    }

    /// With each part put through `r`.
    pub fn with(&self, r: &dyn Fn(&Interval) -> Interval) -> Interval {
        match self {
            I0 => I0,
            I1 => I1,
            Dim(n) => Dim(*n),
            Neg(a) => neg(r(a)),
            Meet(a, b) => meet(r(a), r(b)),
            Join(a, b) => join(r(a), r(b)),
        }
    }
}

impl Term {
    /// The byte of its kind, and its parts in order.
    pub fn parts(&self) -> (u8, Vec<Part<'_>>) {
        match self {
            U(n) => (1, vec![Part::Number(*n)]),
            V(n) => (2, vec![Part::Number(*n)]),
            Nat => (3, vec![]),
            Zero => (4, vec![]),
            Pi(a, b) => (5, vec![Part::Term(a), Part::Term(b)]),
            Lam(a, b) => (6, vec![Part::Hidden(a), Part::Term(b)]),
            App(a, b) => (7, vec![Part::Term(a), Part::Term(b)]),
            Path(a, b, c) => (8, vec![Part::Term(a), Part::Term(b), Part::Term(c)]),
            Plam(a, b) => (9, vec![Part::Hidden(a), Part::Term(b)]),
            Papp(a, b) => (10, vec![Part::Term(a), Part::Interval(b)]),
            Sigma(a, b) => (11, vec![Part::Term(a), Part::Term(b)]),
            Pair(a, b, c) => (12, vec![Part::Hidden(a), Part::Term(b), Part::Term(c)]),
            Fst(a) => (13, vec![Part::Term(a)]),
            Snd(a) => (14, vec![Part::Term(a)]),
        }
    }

    /// With each part put through `t`, which is told how many variables and how many
    /// dimensions it stands under, or through `r`.
    pub fn with(
        &self,
        t: &dyn Fn(&Term, usize, usize) -> Term,
        r: &dyn Fn(&Interval) -> Interval,
    ) -> Term {
        match self {
            U(n) => U(*n),
            V(n) => V(*n),
            Nat => Nat,
            Zero => Zero,
            Pi(a, b) => pi(t(a, 0, 0), t(b, 1, 0)),
            Lam(a, b) => lam(t(a, 0, 0), t(b, 1, 0)),
            App(a, b) => app(t(a, 0, 0), t(b, 0, 0)),
            Path(a, b, c) => path(t(a, 0, 1), t(b, 0, 0), t(c, 0, 0)),
            Plam(a, b) => plam(t(a, 0, 1), t(b, 0, 1)),
            Papp(a, b) => papp(t(a, 0, 0), r(b)),
            Sigma(a, b) => sigma(t(a, 0, 0), t(b, 1, 0)),
            Pair(a, b, c) => pair(t(a, 0, 0), t(b, 0, 0), t(c, 0, 0)),
            Fst(a) => fst(t(a, 0, 0)),
            Snd(a) => snd(t(a, 0, 0)),
        }
    }

    /// Its parts that are terms.
    pub fn terms(&mut self) -> Vec<&mut Term> {
        match self {
            U(_) => vec![],
            V(_) => vec![],
            Nat => vec![],
            Zero => vec![],
            Pi(a, b) => vec![a, b],
            Lam(a, b) => vec![a, b],
            App(a, b) => vec![a, b],
            Path(a, b, c) => vec![a, b, c],
            Plam(a, b) => vec![a, b],
            Papp(a, _) => vec![a],
            Sigma(a, b) => vec![a, b],
            Pair(a, b, c) => vec![a, b, c],
            Fst(a) => vec![a],
            Snd(a) => vec![a],
        }
    }
}
