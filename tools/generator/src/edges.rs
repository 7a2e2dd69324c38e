//! Calls on each side of a limit: scope, depth, nodes, indices.
use crate::calls::Call;
use crate::random::Random;
use crate::term::{app, fst, lam, neg, pair, papp, path, pi, plam, sigma, snd, Interval, Term};
use Interval::{Dim, I0};
use Term::*;

/// A term whose deepest node is at this depth, by a spine of mixed kinds with
/// `leaf` at its end.
fn spine(random: &mut Random, depth: usize, leaf: Term) -> Term {
    (0..depth).fold(leaf, |t, _| match random.below_with_pairs(7, 7) {
        0 => pi(Nat, t),
        1 => lam(t, Zero),
        2 => app(t, Zero),
        3 => path(Nat, t, Zero),
        4 => path(Nat, Zero, t),
        5 => plam(t, Zero),
        7 => sigma(Nat, t),
        8 => sigma(t, Nat),
        9 => pair(t, Zero, Zero),
        10 => pair(sigma(Nat, Nat), t, Zero),
        11 => pair(sigma(Nat, Nat), Zero, t),
        12 => fst(t),
        13 => snd(t),
        _ => papp(t, I0),
    })
}

/// A term of exactly so many nodes (1, or 3 and more), not deep.
pub fn wide(nodes: usize) -> Term {
    if nodes <= 1 {
        return Zero;
    }
    if nodes.is_multiple_of(2) {
        return papp(wide(nodes - 3), neg(I0));
    }
    let left = ((nodes - 1) / 2) | 1;
    app(wide(left), wide(nodes - 1 - left))
}

/// A call of exactly so many nodes, `before` of them in the context. Its
/// variable has no type, so that it is soon refused where its size isn't.
pub fn nodes(total: usize, before: usize) -> Call {
    let context = if before == 0 { vec![] } else { vec![wide(before)] };
    Call::new(2, 0, &context, &[app(V(9), wide(total - before - 2))])
}

fn index(random: &mut Random) -> Term {
    let n = random.pick(&[0, 1, 30, 31, 32, 32, 33, 33, 34, 64, 255]);
    match random.below(5) {
        0 => U(n),
        1 => V(n),
        2 => papp(plam(Nat, Zero), Dim(n)),
        3 => papp(plam(Nat, Zero), neg(Dim(n))),
        _ => lam(U(n), V(0)),
    }
}

pub fn calls(random: &mut Random) -> Vec<Call> {
    let dimensions = random.pick(&[0, 0, 1, 31, 32, 33, 34, 35, 255]);
    match random.below(6) {
        0 => vec![Call::new(0, dimensions, &[], &[])],
        1 => {
            let length = random.pick(&[0, 1, 31, 32, 33, 34, 35, 255]);
            let context = vec![random.pick(&[Nat, U(0), Zero]); length];
            let code = random.pick(&[0, 2]);
            let terms = [V(random.pick(&[0, 1, 31, 32]))];
            vec![Call::new(code, dimensions, &context, &terms[..usize::from(code == 2)])]
        }
        2 => {
            let depth = random.pick(&[31, 32, 32, 33, 33, 33, 34]);
            let leaf = random.pick(&[Zero, U(32), U(33), V(40), papp(Zero, Dim(33))]);
            let term = spine(random, depth, leaf);
            vec![Call::new(random.pick(&[1, 2]), random.below(2), &[], &[term])]
        }
        3 => {
            let total = random.pick(&[9_998, 9_999, 10_000, 10_000, 10_001, 10_002, 12_000]);
            let before = random.pick(&[0, 1, 5_000, 5_001]);
            vec![nodes(total, before)]
        }
        4 => {
            let term = index(random);
            vec![Call::new(random.pick(&[1, 2]), dimensions.min(33), &[], &[term])]
        }
        _ => {
            let (a, b) = (index(random), index(random));
            vec![Call::new(3, random.below(34), &[Nat], &[a, b])]
        }
    }
}
