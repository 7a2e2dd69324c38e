//! Terms of a chosen form: chains of reductions, towers, doublings, nested
//! conversions. They reach the limits that random terms don't.
use crate::calls::Call;
use crate::random::Random;
use crate::term::{app, lam, papp, path, pi, plam, Interval, Term};
use Interval::{Dim, I0, I1};
use Term::*;

pub fn times(n: usize, start: Term, step: impl Fn(Term) -> Term) -> Term {
    (0..n).fold(start, |t, _| step(t))
}

/// A term of nat that comes to `end` by 1 + 2 n root reductions, while its depth
/// is n + 3: a function with two reductions of its own, put for the variable.
pub fn chain(n: usize, end: Term) -> Term {
    let twice = lam(Nat, app(lam(Nat, V(0)), V(0)));
    app(lam(pi(Nat, Nat), times(n, end.shift(), |t| app(V(0), t))), twice)
}

/// A number whose reduction has a type that is not quoted nat: 14, but 15 where
/// it is the 33rd.
pub fn elsewhere() -> Term {
    app(lam(hidden(1, Nat), V(0)), Zero)
}

/// Calls that are refused inside a conversion, then one that needs some.
pub fn refused_conversions(times: usize, then: Call) -> Vec<Call> {
    let mut calls = vec![Call::new(3, 0, &[], &[Zero, U(0)]); times];
    calls.push(then);
    calls
}

/// One more root reduction.
pub fn once_more(t: Term) -> Term {
    app(lam(Nat, V(0)), t)
}

/// nat, by n root reductions, as a type. Each is checked again at every level.
pub fn hidden(n: usize, base: Term) -> Term {
    times(n, base, |t| app(lam(Nat, t.shift()), Zero))
}

/// A type that each of n reductions makes twice as wide.
pub fn doubling(n: usize) -> Term {
    times(n, Nat, |t| app(lam(U(0), pi(V(0), V(1))), t))
}

/// A term that each of n substitutions makes twice as wide; v 0 is a function
/// of two numbers.
pub fn doubled_term(n: usize) -> Term {
    times(n, Zero, |t| app(lam(Nat, app(app(V(1), V(0)), V(0))), t))
}

/// Towers of one kind, n high.
pub fn tower(random: &mut Random, n: usize) -> Term {
    match random.below(10) {
        0 => times(n, Nat, |t| pi(Nat, t)),
        1 => times(n, Nat, |t| pi(t, Nat)),
        2 => times(n, Zero, |t| lam(Nat, t)),
        3 => times(n, Zero, |t| app(lam(Nat, V(0)), t)),
        4 => times(n, Nat, |t| path(U(0), t.clone(), t)),
        5 => times(n, Nat, |t| path(t, Zero, Zero)),
        6 => times(n.min(6), Zero, |t| plam(Nat, t)),
        7 => times(n.min(6), Zero, |t| papp(plam(Nat, t), Dim(0))),
        8 => {
            (0..n)
                .fold((Zero, Nat), |(t, ty), _| {
                    (plam(ty.dshift(), t.dshift()), path(ty.dshift(), t.clone(), t))
                })
                .0
        }
        _ => times(n, Nat, |t| app(lam(t, Nat), Zero)),
    }
}

/// A call whose conversions are nested: each type of the context hides behind
/// the variable before it, which has to be converted in turn. 31 hidden types
/// pass; with 32 a 33rd conversion would be nested.
pub fn conversions(hidden_types: usize) -> Call {
    let hidden = app(lam(Nat, Nat), V(0));
    let mut context = vec![Nat];
    context.extend(vec![hidden.clone(); hidden_types]);
    Call::new(2, 0, &context, &[lam(hidden, app(lam(Nat, Zero), V(0)))])
}

/// Types whose annotations are hidden in turn, so that each annotation has to be
/// converted inside the conversion of the next.
pub fn wrapped(heights: &[usize]) -> Call {
    let over = app(lam(Nat, Nat), V(0));
    let wrap = |n: usize, base: Term| times(n, base, |t| app(lam(t, Nat), Zero));
    let bases = std::iter::once(Nat).chain(std::iter::repeat(over));
    let context: Vec<Term> = heights.iter().zip(bases).map(|(n, base)| wrap(*n, base)).collect();
    Call::new(0, 0, &context, &[])
}

/// A context whose last type is known to be one only by `types` conversions,
/// each met at the end of a spine of `height`: the deepest nesting for its size.
pub fn deep(height: usize, types: usize) -> Call {
    let hidden = app(lam(Nat, Nat), times(height, V(0), once_more));
    let mut context = vec![Nat];
    context.extend(vec![hidden; types]);
    Call::new(0, 0, &context, &[])
}

/// One shape, as a call or a few.
pub fn calls(random: &mut Random) -> Vec<Call> {
    let end = random.pick(&[I0, I1]);
    let n = random.between(1, 6);
    match random.below(15) {
        0 => {
            let uses = random.pick(&[1, 2, 7, 14, 15, 16, 17]);
            let end = random.pick(&[Zero, Zero, elsewhere()]);
            let t = times(random.below(3), chain(uses, end), once_more);
            vec![Call::new(4, random.below(2), &[], &[t, Nat])]
        }
        1 => {
            let height = random.pick(&[1, 3, 30, 31, 32]);
            vec![Call::new(4, 0, &[], &[times(height, Zero, once_more), Nat])]
        }
        2 => vec![Call::new(3, 0, &[], &[Zero, hidden(n, Nat)])],
        3 => vec![Call::new(5, 0, &[], &[hidden(n, Nat), hidden(random.between(1, 6), Nat), U(0)])],
        4 => vec![Call::new(1, 0, &[], &[doubling(n)]), Call::new(4, 0, &[], &[doubling(n), U(0)])],
        5 => {
            let f = pi(Nat, pi(Nat, Nat));
            vec![Call::new(random.pick(&[2, 2, 4]), 0, &[f], &[doubled_term(n), Nat])]
                .into_iter()
                .map(|mut call| {
                    call.terms.truncate(if call.code == 2 { 1 } else { 2 });
                    call
                })
                .collect()
        }
        6 => vec![conversions(random.between(1, 8))],
        // A reduction at a type that is not quoted as the one wanted: 14.
        7 => vec![Call::new(4, 0, &[], &[once_more(Zero), hidden(1, Nat)])],
        8 => {
            let height = random.between(1, 4);
            vec![Call::new(2, 1, &[], &[papp(tower(random, height), end)])]
        }
        9 => {
            let (i, j) = (random.below(33), random.below(33));
            vec![Call::new(2, 0, &[], &[pi(U(i), U(j))]), Call::new(1, 0, &[], &[pi(U(j), U(i))])]
        }
        10 => {
            let length = random.between(1, 33);
            let index = random.below(length + 1);
            vec![Call::new(2, 0, &vec![Nat; length], &[V(index)])]
        }
        11 => {
            let low = if random.chance(1, 2) { 12 } else { 1 };
            let heights = [low, low, 1, 1].map(|least| random.between(least, 15));
            vec![wrapped(&heights[..random.between(1, 4)])]
        }
        13 => {
            let then = Call::new(3, 0, &[], &[Zero, hidden(random.between(1, 3), Nat)]);
            refused_conversions(random.pick(&[1, 29, 30, 31, 32, 33]), then)
        }
        12 => vec![deep(random.between(1, 12), random.between(1, 5))],
        _ => {
            let height = random.between(1, 5);
            let t = tower(random, height);
            vec![Call::new(random.pick(&[1, 2]), random.below(3), &[], &[t])]
        }
    }
}
