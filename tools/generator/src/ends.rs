//! Calls with long endpoints, each for a point of its own: where an end is worked
//! out, what it makes equal, what the check of the end refuses.
use crate::calls::{Call, Case, FULL, LISTING};
use crate::random::Random;
use crate::term::{app, join, lam, meet, neg, papp, path, pi, plam, Interval, Term};
use crate::typed::Maker;
use Interval::{Dim, I0, I1};
use Term::{Nat, Zero, U, V};

/// How an end may be written: as it is, by neg, by a part that is enough on either
/// side, by both parts; and what is none.
fn spelled() -> Vec<Interval> {
    let d = || Dim(0);
    vec![
        I0,
        I1,
        d(),
        neg(I1),
        neg(I0),
        neg(neg(I0)),
        neg(d()),
        meet(I0, I1),
        meet(I1, I0),
        meet(I1, I1),
        meet(I0, d()),
        meet(d(), I0),
        meet(I1, d()),
        meet(d(), I1),
        join(I0, I1),
        join(I1, I0),
        join(I0, I0),
        join(I1, d()),
        join(d(), I1),
        join(I0, d()),
        join(d(), I0),
        meet(join(d(), I1), neg(meet(d(), I0))),
        join(meet(I1, d()), meet(neg(d()), I1)),
        neg(join(neg(d()), neg(meet(I0, d())))),
    ]
}

/// A number of negs on an interval.
fn negs(n: usize, r: Interval) -> Interval {
    (0..n).fold(r, |r, _| neg(r))
}

/// A tree of meets and joins by turns, all of whose leaves are r.
fn tree(depth: usize, r: Interval) -> Interval {
    if depth == 0 {
        return r;
    }
    let (a, b) = (tree(depth - 1, r.clone()), tree(depth - 1, r));
    if depth % 2 == 0 {
        meet(a, b)
    } else {
        join(a, b)
    }
}

/// A path between numbers, applied: context, term, type.
fn number(r: Interval) -> (Vec<Term>, Term, Term) {
    (vec![Nat, path(Nat, Zero, V(0))], papp(V(0), r), Nat)
}

/// A path between types, applied: a type that is exposed.
fn line(r: Interval) -> (Vec<Term>, Term, Term) {
    (vec![path(U(0), Nat, pi(Nat, Nat))], papp(V(0), r), U(0))
}

/// A path whose type is a papp or an application, and so is exposed itself.
fn behind(r: Interval, q: Interval) -> (Vec<Term>, Term, Term) {
    let hidden = path(U(0), path(Nat, Zero, Zero), path(Nat, Zero, Zero));
    (vec![hidden, papp(V(0), r)], papp(V(0), q), Nat)
}

/// A family that depends on its dimension: the end has another type by quote, and
/// the check of it converts, or does not.
fn dependent(r: Interval, under: bool) -> (Vec<Term>, Term, Term) {
    let at = |n, r| {
        let line = papp(V(n), r);
        if under {
            pi(line, Nat)
        } else {
            line
        }
    };
    let types = vec![path(U(0), Nat, Nat), at(0, I0), at(1, I1), path(at(2, Dim(0)), V(1), V(0))];
    (types, papp(V(0), r.clone()), at(3, r))
}

pub fn calls(random: &mut Random) -> Vec<Call> {
    let dimensions = random.pick(&[0, 1, 1, 1, 2]);
    let maker = &mut Maker(random);
    let some = |maker: &mut Maker| {
        if maker.0.chance(1, 3) {
            return maker.0.pick(&spelled());
        }
        let (one, fuel) = (maker.0.chance(1, 2), maker.0.between(1, 4));
        if maker.0.chance(2, 3) {
            maker.long(one, dimensions, fuel)
        } else {
            maker.interval(dimensions, fuel)
        }
    };
    let r = some(maker);
    let (types, t, ty) = match maker.0.below(6) {
        0 | 1 => number(r),
        2 => line(r),
        3 => behind(r, some(maker)),
        4 => dependent(r, false),
        _ => dependent(r, true),
    };
    let other = match &t {
        Term::Papp(p, _) => papp(p.as_ref().clone(), some(maker)),
        _ => Zero,
    };
    let new = |code, terms: &[Term]| Call::new(code, dimensions, &types, terms);
    match maker.0.below(8) {
        0 => vec![new(2, &[t.clone()]), new(4, &[t, ty])],
        1 => vec![new(1, &[t])],
        2 => vec![new(5, &[t, other, ty])],
        3 => vec![new(5, &[t, Zero, ty])],
        4 => vec![new(3, &[Zero, t])],
        5 => vec![new(4, &[app(lam(ty.clone(), V(0)), t), ty])],
        _ => vec![new(4, &[t, ty])],
    }
}

/// Runs by hand: each spelling once, under every function that reduces, and deep ones.
pub fn cases() -> Vec<Case> {
    let mut out = Vec::new();
    let mut alone = |dimensions, (types, t, ty): (Vec<Term>, Term, Term)| {
        let calls = [Call::new(4, dimensions, &types, &[t, ty])];
        out.push(Case::new(LISTING, 100, &calls));
    };
    for r in spelled() {
        alone(1, number(r.clone()));
        alone(1, line(r.clone()));
        alone(1, dependent(r.clone(), true));
        alone(1, behind(r, neg(I1)));
    }
    // A plam is not worked out; a dimension that is not there is refused before.
    alone(0, (vec![], papp(plam(Nat, Zero), neg(I1)), Nat));
    alone(0, number(meet(I0, Dim(0))));
    // The longest: 31 below the papp; and the most parts that are all needed.
    for r in [negs(31, I0), negs(30, Dim(0))] {
        alone(1, number(r));
    }
    for limit in 12..=16 {
        let (types, t, ty) = number(negs(10, I1));
        let calls = [Call::new(2, 0, &types, &[t.clone()]), Call::new(4, 0, &types, &[t, ty])];
        out.push(Case::new(LISTING, limit, &calls));
    }
    for r in [tree(11, I1), tree(11, Dim(0))] {
        let (types, t, ty) = number(r);
        out.push(Case::new(FULL, 4096, &[Call::new(4, 1, &types, &[t, ty])]));
    }
    out
}
