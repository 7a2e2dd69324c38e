//! Calls with pairs, each for a point of its own: projections that reduce, that
//! convert, that are refused; pairs under binders; annotations that differ.
use crate::calls::{Call, Case, FULL, LISTING};
use crate::random::Random;
use crate::shapes::{hidden, times};
use crate::term::{app, fst, lam, pair, papp, path, pi, plam, sigma, snd, Interval, Term};
use Interval::{Dim, I0, I1};
use Term::{Nat, Zero, U, V};

/// The bytes of sigma, pair, fst and snd: no run without pairs is made of them.
pub const KINDS: [u8; 4] = [11, 12, 13, 14];

/// A pair's two types, the second under a variable, and its parts.
#[derive(Clone)]
struct Parts {
    types: (Term, Term),
    first: Term,
    second: Term,
}

impl Parts {
    fn new(a: Term, b: Term, first: Term, second: Term) -> Self {
        Self { types: (a, b), first, second }
    }

    fn sigma(&self) -> Term {
        sigma(self.types.0.clone(), self.types.1.clone())
    }

    fn pair(&self) -> Term {
        pair(self.sigma(), self.first.clone(), self.second.clone())
    }
}

fn numbers() -> Term {
    sigma(Nat, Nat)
}

fn two() -> Term {
    pair(numbers(), Zero, Zero)
}

/// Types and parts that fit, with no free variable.
fn fitting() -> Vec<Parts> {
    let line = papp(plam(U(0), Nat), Dim(0));
    let at_first = path(Nat, fst(V(0)), fst(V(0)));
    vec![
        Parts::new(Nat, Nat, Zero, Zero),
        Parts::new(U(0), V(0), Nat, Zero),
        Parts::new(U(0), V(0), path(Nat, Zero, Zero), plam(Nat, Zero)),
        Parts::new(U(0), V(0), numbers(), two()),
        Parts::new(U(0), U(0), Nat, hidden(1, Nat)),
        Parts::new(Nat, path(Nat, V(0), V(0)), Zero, plam(Nat, Zero)),
        Parts::new(Nat, numbers(), Zero, two()),
        Parts::new(numbers(), at_first, two(), plam(Nat, fst(two()))),
        Parts::new(pi(Nat, Nat), Nat, lam(Nat, V(0)), Zero),
        Parts::new(hidden(1, Nat), Nat, Zero, snd(two())),
        Parts::new(U(0), path(U(0), V(0), V(0)), numbers(), plam(U(0), numbers())),
        Parts::new(Nat, path(line, V(0), Zero), Zero, plam(Nat, Zero)),
    ]
}

/// One more root reduction of a number.
fn once_more(left: bool, t: Term) -> Term {
    if left {
        fst(pair(numbers(), t, Zero))
    } else {
        snd(pair(numbers(), Zero, t))
    }
}

/// Comes to `end`, a number with no free variable, by 1 + 3 n root reductions.
fn chain(n: usize, end: Term) -> Term {
    let twice = lam(Nat, once_more(true, once_more(false, V(0))));
    app(lam(pi(Nat, Nat), times(n, end, |t| app(V(0), t))), twice)
}

/// The same type, behind a reduction of some kind.
fn behind(random: &mut Random, ty: Term) -> Term {
    match random.below(4) {
        0 => app(lam(Nat, ty.shift()), Zero),
        1 => papp(plam(U(0), ty.dshift()), random.pick(&[I0, I1])),
        2 => fst(pair(sigma(U(0), Nat), ty, Zero)),
        _ => snd(pair(sigma(Nat, U(0)), Zero, ty)),
    }
}

/// n types, each a sigma only by a conversion, inside which a projection of the
/// variable before it is converted in turn. 32 pass; with 33 a 33rd conversion
/// would be nested.
fn conversions(n: usize) -> Call {
    let hidden = app(lam(Nat, numbers()), fst(V(0)));
    let mut context = vec![numbers()];
    context.extend(vec![hidden.clone(); n - 1]);
    Call::new(2, 0, &context, &[lam(hidden, fst(V(0)))])
}

/// The second part of a pair, asked for at the type of its second part as it is
/// written (14 where a reduction is at another) and as the projection has it.
fn seconds(parts: &Parts) -> Vec<Call> {
    let (p, t) = (parts.pair(), parts.second.clone());
    let (a, b) = &parts.types;
    let types = [b.subst(&parts.first), b.subst(&fst(p.clone())), a.clone()];
    let mut calls = vec![Call::new(2, 0, &[], &[snd(p.clone())])];
    for ty in types {
        calls.push(Call::new(4, 0, &[], &[snd(p.clone()), ty.clone()]));
        calls.push(Call::new(3, 0, &[], &[snd(p.clone()), ty.clone()]));
        calls.push(Call::new(5, 0, &[], &[snd(p.clone()), t.clone(), ty]));
    }
    calls
}

fn firsts(parts: &Parts) -> Vec<Call> {
    let (p, a) = (parts.pair(), parts.types.0.clone());
    let sides = [fst(p.clone()), parts.first.clone(), a.clone()];
    vec![
        Call::new(2, 0, &[], &[fst(p.clone())]),
        Call::new(4, 0, &[], &[fst(p.clone()), a]),
        Call::new(5, 0, &[], &sides),
        Call::new(4, 0, &[], &[p, parts.sigma()]),
    ]
}

/// The pair below binders, and put for variables; with its dimension, where it
/// has one.
fn under(parts: &Parts, r: Interval) -> Vec<Call> {
    let (p, ty) = (parts.pair(), parts.sigma());
    let up = |t: &Term| t.dshift();
    let line = plam(up(&ty), up(&p));
    let constant = path(up(&ty), p.clone(), p.clone());
    let of_variable = |t: fn(Term) -> Term| app(lam(ty.clone(), t(V(0))), p.clone());
    let terms = [
        lam(Nat, p.clone()),
        lam(ty.clone(), snd(V(0))),
        of_variable(fst),
        of_variable(snd),
        app(lam(Nat, p.shift()), Zero),
        papp(line.clone(), r.clone()),
        fst(papp(line, r.clone())),
    ];
    let infer = |t: Term| Call::new(2, 1, &[], &[t]);
    let mut calls: Vec<Call> = terms.into_iter().map(infer).collect();
    let context = [constant, ty.shift()];
    for t in [fst(V(0)), snd(V(0)), snd(papp(V(1), r)), plam(up(&ty), papp(V(1), Dim(0)))] {
        calls.push(Call::new(2, 1, &context, &[t]));
    }
    calls
}

/// 21: subjects without a sigma type.
fn no_subject(random: &mut Random) -> Vec<Call> {
    let base = random.pick(&[Nat, pi(Nat, Nat), U(0), path(Nat, Zero, Zero), numbers()]);
    let ty = if random.chance(1, 2) { behind(random, base) } else { base };
    let subject = random.pick(&[Zero, Nat, lam(Nat, V(0)), plam(Nat, Zero), V(0), V(0)]);
    let projection = if random.chance(1, 2) { fst(subject) } else { snd(subject) };
    let t = random.pick(&[projection.clone(), lam(Nat, projection.shift()), fst(projection)]);
    vec![Call::new(2, 0, &[ty], &[t])]
}

/// 22: annotations that are no sigma as they are written, though they may come to
/// one.
fn no_annotation(random: &mut Random) -> Vec<Call> {
    let behind = behind(random, numbers());
    let ty = random.pick(&[Nat, V(0), V(7), pi(Nat, Nat), behind, numbers()]);
    let p = pair(ty, Zero, random.pick(&[Zero, V(3)]));
    let t = random.pick(&[p.clone(), fst(p.clone()), snd(p.clone()), lam(Nat, p)]);
    vec![Call::new(2, 0, &[U(0)], std::slice::from_ref(&t)), Call::new(4, 0, &[U(0)], &[t, Nat])]
}

/// A variable whose type is a sigma by conversion alone.
fn converted(random: &mut Random, parts: &Parts) -> Vec<Call> {
    let ty = behind(random, parts.sigma());
    let a = parts.types.0.shift();
    let context = [ty];
    let first = fst(V(0));
    vec![
        Call::new(2, 0, &context, &[first.clone()]),
        Call::new(2, 0, &context, &[snd(V(0))]),
        Call::new(4, 0, &context, &[first.clone(), a.clone()]),
        Call::new(5, 0, &context, &[first.clone(), first, a]),
    ]
}

/// Pairs that are quoted alike: their annotations differ in what is shown of a
/// type, or in annotations inside them.
fn alike(random: &mut Random) -> Vec<Call> {
    let any = [Nat, hidden(1, Nat), hidden(2, Nat), once_more(true, Zero)];
    let inner = |a: Term| path(pi(Nat, Nat), lam(a, Zero), lam(Nat, Zero));
    let mut annotation = || {
        let a = random.pick(&any);
        let b = if random.chance(1, 2) { inner(a) } else { inner(Nat) };
        sigma(random.pick(&any), b.shift())
    };
    let make = |ty: &Term| pair(ty.clone(), Zero, plam(pi(Nat, Nat), lam(Nat, Zero)));
    let (s, t) = (annotation(), annotation());
    let mut calls: Vec<Call> =
        [&s, &t].into_iter().map(|ty| Call::new(2, 0, &[], &[make(ty)])).collect();
    calls.push(Call::new(5, 0, &[], &[make(&s), make(&t), s.clone()]));
    calls.push(Call::new(4, 0, &[], &[fst(make(&t)), Nat]));
    calls
}

/// Some calls for one point.
pub fn calls(random: &mut Random) -> Vec<Call> {
    let mut parts = random.pick(&fitting());
    match random.below(8) {
        // A wrong part, or one of another pair's.
        0 => parts.second = random.pick(&fitting()).second,
        1 => parts.first = random.pick(&fitting()).first,
        2 => parts.types.1 = behind(random, parts.types.1.clone()),
        _ => {}
    }
    let some = match random.below(10) {
        0 => no_subject(random),
        1 => no_annotation(random),
        2 => converted(random, &parts),
        3 => alike(random),
        4 => {
            let n = random.between(1, 11);
            let t = times(random.below(3), chain(n, Zero), |t| once_more(true, t));
            vec![Call::new(4, 0, &[], &[t, Nat])]
        }
        5 => vec![conversions(random.between(1, 6))],
        6 => firsts(&parts),
        7 | 8 => seconds(&parts),
        _ => under(&parts, random.pick(&[I0, I1, Dim(0)])),
    };
    // A few of them, so that runs stay short.
    let kept = random.between(1, 3);
    let mut out: Vec<Call> = (0..kept).map(|_| random.pick(&some)).collect();
    out.truncate(some.len());
    out
}

/// Runs by hand: every point once, and the limits from both sides.
pub fn cases() -> Vec<Case> {
    let mut out = Vec::new();
    for parts in fitting() {
        let mut calls = firsts(&parts);
        calls.extend(seconds(&parts));
        out.push(Case::new(FULL, 4096, &calls));
        out.push(Case::new(FULL, 4096, &under(&parts, Dim(0))));
        out.push(Case::new(LISTING, 100, &under(&parts, I0)));
    }
    for n in [1, 31, 32, 33] {
        out.push(Case::new(FULL, 4096, &[conversions(n)]));
    }
    for (n, more) in [(10, 0), (10, 1), (10, 2), (11, 0)] {
        let t = times(more, chain(n, Zero), |t| once_more(false, t));
        out.push(Case::new(FULL, 4096, &[Call::new(4, 0, &[], &[t, Nat])]));
    }
    // 21 and 22 at once, and with a limit that is met first.
    for limit in [1, 2, 3, 100] {
        let no_sigma = Call::new(2, 0, &[], &[pair(V(9), V(9), V(9))]);
        let no_pair = Call::new(2, 0, &[], &[fst(Zero)]);
        let both = Call::new(2, 0, &[], &[fst(pair(Nat, Zero, Zero))]);
        out.push(Case::new(LISTING, limit, &[no_sigma, no_pair, both]));
    }
    out
}
