//! Copies with something wrong in them: in the terms of a call, or in bytes.
use crate::calls::Call;
use crate::random::Random;
use crate::term::{app, fst, lam, pair, papp, path, pi, plam, sigma, snd, Interval, Term, LETTERS};
use Interval::{Dim, I0};
use Term::*;

fn leaf(random: &mut Random) -> Term {
    match random.below_with_pairs(9, 3) {
        0 => Nat,
        1 => Zero,
        2 | 3 => V(random.below(4)),
        4 => U(random.below(3)),
        5 => lam(Nat, V(0)),
        6 => pi(Nat, Nat),
        7 => path(Nat, Zero, Zero),
        9 => sigma(Nat, Nat),
        10 => pair(sigma(Nat, Nat), Zero, Zero),
        11 => fst(V(random.below(3))),
        _ => plam(Nat, Zero),
    }
}

fn inside(random: &mut Random, t: &mut Term) {
    let down = random.chance(3, 4);
    let mut parts = t.terms();
    if down && !parts.is_empty() {
        let i = random.below(parts.len());
        inside(random, parts.swap_remove(i));
        return;
    }
    let old = t.clone();
    *t = match (random.below_with_pairs(6, 4), old) {
        (0, Lam(a, b)) => Pi(a, b),
        (0, Pi(a, b)) => Lam(a, b),
        (0, App(a, b)) => App(b, a),
        (0, Plam(a, b)) => Lam(a, b),
        (0, Papp(p, _)) => Papp(p, Dim(random.below(4))),
        (0, V(n)) => V(n + 1),
        (0, U(n)) => U(n + 1),
        (0, Sigma(a, b)) => Pi(a, b),
        (0, Pair(ty, a, b)) => Pair(ty, b, a),
        (0, Fst(p)) => Snd(p),
        (0, Snd(p)) => Fst(p),
        (1, old) => app(old, Zero),
        (2, old) => papp(old, I0),
        (3, old) => app(lam(Nat, old.shift()), Zero),
        (6, old) => fst(old),
        (7, old) => snd(old),
        (8, Pi(a, b)) => Sigma(a, b),
        (8, Pair(_, a, b)) => Pair(Box::new(leaf(random)), a, b),
        (9, old) => fst(pair(sigma(Nat, Nat), old, Zero)),
        (_, _) => leaf(random),
    };
}

/// Something else in one of a call's terms, or in its head.
pub fn call(random: &mut Random, call: &mut Call) {
    let types = call.context.len();
    match random.below(10) {
        0 => call.dimensions = random.below(4),
        1 if types > 0 => {
            call.context.remove(random.below(types));
        }
        2 if types > 1 => call.context.swap(0, types - 1),
        3 if call.terms.len() > 1 => call.terms.swap(0, 1),
        4 if types > 0 => {
            let i = random.below(types);
            inside(random, &mut call.context[i]);
        }
        _ if !call.terms.is_empty() => {
            let i = random.below(call.terms.len());
            inside(random, &mut call.terms[i]);
        }
        _ => call.dimensions += 1,
    }
}

/// Past the highest byte with a meaning.
const END: usize = LETTERS[LETTERS.len() - 1] as usize + 1;

/// A few bytes changed, put in, taken out or cut off.
pub fn bytes(random: &mut Random, bytes: &mut Vec<u8>) {
    for _ in 0..random.between(1, 3) {
        if bytes.is_empty() {
            return;
        }
        let at = random.below(bytes.len());
        let new = if random.chance(1, 2) { random.below(END) } else { random.below(256) } as u8;
        match random.below(6) {
            0 => bytes[at] = new,
            1 => bytes.insert(at, new),
            2 => {
                bytes.remove(at);
            }
            3 => bytes.truncate(at),
            4 => bytes[at] = bytes[at].wrapping_add(1),
            _ => {
                let to = (at + random.between(1, 12)).min(bytes.len());
                let copy = bytes[at..to].to_vec();
                let place = random.below(bytes.len());
                bytes.splice(place..place, copy);
            }
        }
    }
}
