//! Large runs to take times of: each fills the table, or the bytes, with one kind
//! of work.
use crate::calls::{Call, Case, FULL, LONGEST};
use crate::random::Random;
use crate::shapes::deep;
use crate::term::{app, join, lam, meet, papp, path, pi, plam, Interval, Term};
use Interval::Dim;
use Term::{Nat, Zero, U, V};

/// A run of its kind, whole; with `KIND/N` the first of N parts of its calls.
pub fn case(kind: &str) -> Option<Case> {
    let (kind, share) = kind.split_once('/').unwrap_or((kind, "1"));
    let calls = match kind {
        "pis" => as_many(pis),
        "long" => as_many(long),
        "deeps" => as_many(deeps),
        "functions" => as_many(functions),
        "dimensions" => as_many(dimensions),
        _ => return None,
    };
    let some = calls.len().div_ceil(share.parse().ok()?);
    Some(Case::new(FULL, 4096, &calls[..some]))
}

/// As many calls as a run holds.
fn as_many(call: fn(&mut Random, usize) -> Call) -> Vec<Call> {
    let random = &mut Random::new(1, 0);
    let mut length = 2;
    let whole = (0..).map(|i| call(random, i)).take_while(|call| {
        let mut bytes = Vec::new();
        call.write(&mut bytes);
        length += bytes.len();
        length <= LONGEST
    });
    whole.collect()
}

/// The universe of a type that has 64 leaves, its parts mostly different.
fn pis(random: &mut Random, _: usize) -> Call {
    fn tree(random: &mut Random, depth: usize) -> Term {
        match depth {
            0 => U(random.below(33)),
            _ => pi(tree(random, depth - 1), tree(random, depth - 1)),
        }
    }
    Call::new(1, random.below(34), &[], &[tree(random, 6)])
}

/// An interval of 2 ^ depth leaves, its parts mostly different.
fn interval(random: &mut Random, depth: usize, dimensions: usize) -> Interval {
    if depth == 0 {
        return Dim(random.below(dimensions));
    }
    let mut part = || interval(random, depth - 1, dimensions);
    let (r, s) = (part(), part());
    if random.chance(1, 2) {
        meet(r, s)
    } else {
        join(r, s)
    }
}

/// An interval put for a dimension that stands in a long interval: the depth of
/// each, and how many dimensions it has.
pub fn put_in(random: &mut Random, inner: (usize, usize), outer: (usize, usize)) -> Term {
    let body = papp(plam(Nat, Zero), interval(random, inner.0, inner.1));
    papp(plam(Nat, body), interval(random, outer.0, outer.1))
}

fn long(random: &mut Random, _: usize) -> Call {
    Call::new(4, 32, &[], &[put_in(random, (10, 33), (3, 32)), Nat])
}

/// Much nesting, in each number of dimensions.
fn deeps(random: &mut Random, i: usize) -> Call {
    let call = deep(random.between(1, 14), random.between(1, 5));
    Call { dimensions: i % 34, ..call }
}

/// A tower of functions: the variable of one binder below 28 of them.
fn functions(random: &mut Random, i: usize) -> Call {
    let ty = pi(U(random.below(30)), app(lam(Nat, Nat), Zero));
    let tower = (0..28).fold(V(i % 28), |t, _| lam(ty.clone(), t));
    Call::new(2, random.below(34), &[], &[tower])
}

/// A tower of paths: a cube of a number that stands at an interval.
fn dimensions(random: &mut Random, i: usize) -> Call {
    let dimensions = 2 + i % 31;
    let number = papp(plam(Nat, Zero), interval(random, 3, dimensions));
    let (tower, _) = (0..3).fold((number, Nat), |(t, ty), _| {
        (plam(ty.dshift(), t.dshift()), path(ty.dshift(), t.clone(), t))
    });
    Call::new(2, dimensions, &[], &[tower])
}
