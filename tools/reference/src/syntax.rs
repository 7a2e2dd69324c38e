//! Terms and intervals, annotations included, as trees.
use std::rc::Rc;

pub type I = Rc<Interval>;
pub type T = Rc<Term>;

#[derive(Debug, PartialEq, Eq, PartialOrd, Ord)]
pub enum Interval {
    Zero,
    One,
    Dim(u32),
    Neg(I),
    Meet(I, I),
    Join(I, I),
}

/// Lam, Plam and Pair have their annotation first.
#[derive(Debug, PartialEq, Eq, PartialOrd, Ord)]
pub enum Term {
    U(u32),
    V(u32),
    Nat,
    Zero,
    Pi(T, T),
    Lam(T, T),
    App(T, T),
    Path(T, T, T),
    Plam(T, T),
    Papp(T, I),
    Sigma(T, T),
    Pair(T, T, T),
    Fst(T),
    Snd(T),
}

/// A context's types, outermost first, with one more at its end.
pub fn extend(g: &[T], a: &T) -> Vec<T> {
    let mut out = g.to_vec();
    out.push(a.clone());
    out
}
