//! Calls that reduce at the head, each for a point of its own: heads that go, however
//! deep, under an app or a papp; a head whose type is exposed; what stays put.
use crate::calls::{Call, Case, FULL, LISTING};
use crate::random::Random;
use crate::runs::{converted, scope};
use crate::shapes::{hidden, times};
use crate::term::{app, fst, lam, neg, pair, papp, path, pi, plam, sigma, snd, Interval, Term};
use crate::typed::{Maker, Scope};
use Interval::{Dim, I0, I1};
use Term::{Nat, Zero, U, V};

/// The code of a call that reduces at the head.
pub const HEAD: u8 = 7;

/// A head that goes to f, of the type ty: by a lam, by a path's end, by a projection.
fn goes(maker: &mut Maker, s: &Scope, f: &Term, ty: &Term) -> Term {
    match maker.0.below(7) {
        0 | 1 => app(lam(ty.clone(), V(0)), f.clone()),
        2 => papp(plam(ty.dshift(), f.dshift()), maker.interval(s.dimensions, 1)),
        3 => fst(pair(sigma(ty.clone(), Nat), f.clone(), Zero)),
        4 => snd(pair(sigma(Nat, ty.shift()), Zero, f.clone())),
        _ => app(lam(Nat, f.shift()), Zero),
    }
}

/// t put behind an application or a path that is applied, whose head goes some steps.
fn behind(maker: &mut Maker, s: &Scope, t: &Term, ty: &Term) -> Term {
    let a = maker.typ(s, 0, 1);
    let found = maker.at(s, &a, 1);
    let (mut head, mut head_ty, argument) = match found {
        Some(x) if maker.0.chance(2, 3) => (lam(a.clone(), t.shift()), pi(a, ty.shift()), Some(x)),
        _ => (plam(ty.dshift(), t.dshift()), path(ty.dshift(), t.clone(), t.clone()), None),
    };
    for _ in 0..maker.0.pick(&[1, 1, 2, 3]) {
        head = goes(maker, s, &head, &head_ty);
        if maker.0.chance(1, 8) {
            head_ty = converted(maker, s, &head_ty);
        }
    }
    match argument {
        Some(x) => app(head, x),
        None => papp(head, maker.interval(s.dimensions, 2)),
    }
}

/// n abstractions over numbers, applied to as many: all but one are in the head.
fn curried(n: usize, body: Term) -> Term {
    times(n, times(n, body, |t| lam(Nat, t)), |f| app(f, Zero))
}

/// The identity on numbers behind `heads` identities, of a number that goes `more` steps.
fn turns(heads: usize, more: usize) -> Term {
    let identity = lam(Nat, V(0));
    let head = times(heads, identity.clone(), |f| app(lam(pi(Nat, Nat), V(0)), f));
    app(head, times(more, Zero, |t| app(identity.clone(), t)))
}

/// A function whose type is exposed, which the head goes to at that type: 14.
fn exposed(steps: usize, argument: Term) -> (Vec<Term>, Term) {
    let hide = |n| hidden(n, pi(Nat, Nat));
    (vec![hide(steps)], app(app(lam(Nat, V(1)), Zero), argument))
}

pub fn calls(random: &mut Random) -> Vec<Call> {
    if random.chance(1, 6) {
        return pointed(random);
    }
    let maker = &mut Maker(random);
    let s = scope(maker);
    let fuel = maker.0.between(1, 3);
    let level = maker.level();
    let ty = maker.typ(&s, level, fuel);
    let Some(mut t) = maker.at(&s, &ty, fuel) else {
        return pointed(maker.0);
    };
    for _ in 0..maker.0.pick(&[1, 1, 1, 2]) {
        t = behind(maker, &s, &t, &ty);
    }
    let wanted = match maker.0.below(8) {
        0 => converted(maker, &s, &ty),
        1 => maker.reannotated(&s, &ty, false),
        _ => ty.clone(),
    };
    let new = |code, terms: &[Term]| Call::new(code, s.dimensions, &s.types, terms);
    let mut out = vec![new(HEAD, &[t.clone(), wanted.clone()])];
    match maker.0.below(8) {
        0 | 1 => out.insert(0, new(4, &[t, wanted])),
        2 => out.insert(0, new(2, &[t])),
        3 => out.push(new(4, &[t, wanted])),
        4 => out.push(new(5, &[t, maker.at(&s, &ty, 1).unwrap_or(Zero), wanted])),
        5 => {
            let again = maker.reannotated(&s, &t, false);
            out.push(new(HEAD, &[again, wanted]));
        }
        _ => {}
    }
    out
}

/// One of a point of its own.
fn pointed(random: &mut Random) -> Vec<Call> {
    let new = |types: &[Term], t: Term, ty: Term| Call::new(HEAD, 1, types, &[t, ty]);
    let n = random.below(5);
    let call = match random.below(7) {
        0 => new(&[], curried(n + 1, V(random.below(n + 1))), Nat),
        1 => {
            let heads = random.pick(&[0, 1, 2, 3, 8]);
            new(&[], turns(heads, random.pick(&[31, 32, 30, 28]) - heads), Nat)
        }
        2 => {
            let (types, t) = exposed(n, random.pick(&[Zero, curried(2, Zero), turns(0, 3)]));
            new(&types, t, Nat)
        }
        3 => new(&[pi(Nat, Nat)], app(V(0), curried(n + 1, Zero)), Nat),
        4 => new(&[], fst(curried(n + 1, pair(sigma(Nat, Nat), Zero, Zero))), Nat),
        5 => {
            let line = path(Nat, Zero, Zero);
            let head = app(curried(n + 1, V(n + 1)), Zero);
            let r = random.pick(&[Dim(0), neg(Dim(0)), I0, neg(I1), Dim(1)]);
            new(&[pi(Nat, line)], papp(head, r), Nat)
        }
        _ => {
            let family = path(pi(Nat, Nat), lam(Nat, V(0)), lam(Nat, Zero));
            let r = random.pick(&[I0, I1, Dim(0), neg(I1)]);
            new(&[family], app(papp(V(0), r), curried(n + 1, Zero)), Nat)
        }
    };
    let mut out = vec![call];
    for code in [2, 4] {
        if random.chance(1, 4) {
            let terms = if code == 2 { &out[0].terms[..1] } else { &out[0].terms[..] };
            let before = Call::new(code, 1, &out[out.len() - 1].context, terms);
            out.insert(0, before);
            break;
        }
    }
    out
}

/// Runs by hand: each point once, limits from both sides.
pub fn cases() -> Vec<Case> {
    let mut out = Vec::new();
    let mut alone = |types: &[Term], t: Term, ty: Term| {
        for codes in [[HEAD, HEAD], [4, HEAD]] {
            let calls: Vec<Call> =
                codes.iter().map(|&c| Call::new(c, 1, types, &[t.clone(), ty.clone()])).collect();
            out.push(Case::new(LISTING, 100, &calls));
        }
    };
    for n in 1..=5 {
        alone(&[], curried(n, Zero), Nat);
        alone(&[], papp(curried(n, plam(Nat, Zero)), Dim(0)), Nat);
    }
    for n in 0..=3 {
        let (types, t) = exposed(n, curried(2, Zero));
        alone(&types, t, Nat);
    }
    alone(&[pi(Nat, Nat)], app(V(0), curried(2, Zero)), Nat);
    alone(&[U(0)], V(0), U(0));
    for (heads, more) in [(0, 31), (0, 32), (3, 28), (3, 29), (8, 23), (8, 24)] {
        let t = turns(heads, more);
        out.push(Case::new(FULL, 4096, &[Call::new(HEAD, 0, &[], &[t, Nat])]));
    }
    for limit in 8..=20 {
        let t = curried(4, Zero);
        let calls =
            [Call::new(2, 0, &[], &[t.clone()]), Call::new(HEAD, 0, &[], &[t, Nat])];
        out.push(Case::new(LISTING, limit, &calls));
    }
    out
}
