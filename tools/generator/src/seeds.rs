//! Runs written by hand, each for a refusal or a rule that chance seldom finds.
use crate::calls::{Call, Case, FULL, LISTING};
use crate::edges;
use crate::shapes::{
    chain, conversions, deep, elsewhere, hidden, once_more, refused_conversions, wrapped,
};
use crate::term::{app, lam, neg, papp, path, pi, plam, Interval, Term};
use Interval::{Dim, I0, I1};
use Term::*;

pub fn cases() -> Vec<Case> {
    let mut out = Vec::new();
    let mut one = |slices, limit, calls: &[Call]| out.push(Case::new(slices, limit, calls));
    let check = Call::new(3, 0, &[], &[Zero, Nat]);
    // 1, 4, 18, 19 and 20, each with the slice that is just enough.
    for slices in
        [[23, 8, 4], [24, 7, 4], [24, 8, 4], [47, 31, 3], [47, 32, 4], [48, 31, 4], [48, 32, 4]]
    {
        one(slices, 100, std::slice::from_ref(&check));
    }
    for limit in 0..5 {
        one(LISTING, limit, std::slice::from_ref(&check));
    }
    // 5, 6 and 7.
    for n in [32, 33, 34] {
        one(LISTING, 4096, &[Call::new(0, n, &[], &[])]);
        one(LISTING, 4096, &[Call::new(2, 0, &vec![Nat; n], &[V(n - 1)])]);
        one(LISTING, 4096, &[Call::new(2, 0, &[], &[U(n)]), Call::new(2, 0, &[], &[V(n)])]);
        let deep = (0..n).fold(Nat, |t, _| pi(t, Nat));
        one(FULL, 4096, &[Call::new(1, 0, &[], &[deep])]);
    }
    // A node's own 6 goes before its 7, and a 7 that is met first wins.
    for (depth, last) in [(32, U(33)), (33, U(33)), (33, V(255)), (32, papp(Zero, Dim(33)))] {
        let spine = |leaf: Term| (0..depth).fold(leaf, |t, _| pi(t, Nat));
        one(LISTING, 100, &[Call::new(1, 0, &[], &[spine(last.clone())])]);
        one(LISTING, 100, &[Call::new(1, 0, &[U(33)], &[spine(last)])]);
    }
    for total in [9_999, 10_000, 10_001] {
        one(LISTING, 4096, &[edges::nodes(total, 0), edges::nodes(total, 4_000)]);
    }
    // 9, 10, 11, 12, 13, 14, 17.
    one(LISTING, 100, &[Call::new(2, 0, &[], &[app(Zero, Zero)])]);
    one(LISTING, 100, &[Call::new(2, 0, &[], &[papp(Zero, I0)])]);
    one(LISTING, 100, &[Call::new(1, 0, &[], &[Zero])]);
    one(LISTING, 100, &[Call::new(3, 0, &[], &[Zero, U(0)])]);
    one(LISTING, 100, &[Call::new(3, 0, &[], &[Zero, path(Nat, Zero, Zero)])]);
    one(LISTING, 100, &[Call::new(4, 0, &[], &[once_more(Zero), hidden(1, Nat)])]);
    one(LISTING, 100, &[Call::new(2, 0, &[], &[papp(plam(Nat, Zero), Dim(0))])]);
    // 15: 32 reductions pass, 33 don't.
    one(FULL, 4096, &[Call::new(4, 0, &[], &[once_more(chain(15, Zero)), Nat])]);
    one(FULL, 4096, &[Call::new(4, 0, &[], &[chain(16, Zero), Nat])]);
    // 14 at the 32nd, 15 at the 33rd, though 14 would hold too.
    one(FULL, 4096, &[Call::new(4, 0, &[], &[chain(15, elsewhere()), Nat])]);
    one(FULL, 4096, &[Call::new(4, 0, &[], &[once_more(chain(15, elsewhere())), Nat])]);
    // 16: a 33rd conversion would be nested; with a type fewer it passes.
    one(FULL, 4096, &[conversions(31)]);
    one(FULL, 4096, &[conversions(32)]);
    one(FULL, 4096, &[wrapped(&[15, 14, 2])]);
    one(FULL, 4096, &[wrapped(&[15, 14, 3])]);
    // Conversions that were refused are not counted on.
    one(FULL, 4096, &refused_conversions(40, wrapped(&[15, 14, 2])));
    // Much nesting.
    one(FULL, 4096, &[deep(27, 4)]);
    one(FULL, 4096, &[deep(5, 16)]);
    // An end of a path that is no plam, by its literal, and one that isn't.
    let p = path(Nat, Zero, Zero);
    for r in [I0, I1, neg(I1), neg(I0)] {
        one(LISTING, 100, &[Call::new(4, 0, std::slice::from_ref(&p), &[papp(V(0), r), Nat])]);
    }
    // A family with a dimension of its own: a shift and a substitution pass
    // under its binder.
    let family = papp(plam(U(0), Nat), Dim(0));
    let line = path(family.clone(), Zero, Zero);
    one(LISTING, 100, &[Call::new(2, 0, std::slice::from_ref(&line), &[plam(Nat, Zero)])]);
    one(FULL, 100, &[Call::new(2, 0, &[], &[plam(line, plam(family, Zero))])]);
    // The longest run, and one that is too long: 65,534 bytes of calls.
    let mut calls = vec![Call::new(1, 0, &[], &[Nat]); 2];
    calls.extend(vec![Call::new(0, 0, &[], &[]); 21_842]);
    let answers = 4 * calls.len() as u32;
    one([LISTING[0], LISTING[1], answers], 100, &calls);
    one([LISTING[0], LISTING[1], answers - 1], 100, &calls);
    calls.push(Call::new(0, 0, &[], &[]));
    one([LISTING[0], LISTING[1], answers + 4], 100, &calls);
    out.push(filled());
    out
}

/// A run that fills all 50,000 rows, then asks again for what it knows and for
/// something new.
pub fn filled() -> Case {
    let known = Call::new(3, 0, &[], &[Zero, Nat]);
    let mut calls = vec![known.clone()];
    for d in 0..34 {
        for level in 0..14 {
            let tall = (0..30).fold(Zero, |t, _| lam(Nat, t));
            calls.push(Call::new(2, d, &[], &[lam(U(level), tall)]));
        }
    }
    calls.push(known);
    calls.push(Call::new(2, 0, &[], &[U(30)]));
    // Room for two rows more, which must not be used.
    Case::new([50_002 * 24, FULL[1], FULL[2]], 4096, &calls)
}
