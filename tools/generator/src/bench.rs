//! Runs to take times of: one for each kind of work.
use crate::calls::{Call, Case, FULL, LONGEST};
use crate::large::{self, put_in};
use crate::meeting;
use crate::random::Random;
use crate::seeds::filled;
use crate::shapes::{conversions, deep, hidden};
use crate::term::{app, lam, papp, pi, plam, Interval, Term};
use Interval::I0;
use Term::{Nat, Zero, V};

pub fn case(kind: &str) -> Option<Case> {
    let calls = match kind {
        "small" => return Some(small()),
        "rows" => return Some(filled()),
        "deep" => vec![deep(27, 4), deep(5, 16)],
        "intervals" => intervals(),
        "doubling" => doublings(),
        "converted" => converted(),
        _ => return large::case(kind).or_else(|| meeting::case(kind)),
    };
    Some(Case::new(FULL, 4096, &calls))
}

/// Small calls of every code, in some scopes, as many as a run holds.
fn small() -> Case {
    let once = app(lam(Nat, V(0)), Zero);
    let mut calls = Vec::new();
    let mut length = 2;
    for i in 0.. {
        let d = (i / 6) % 16;
        let call = match i % 6 {
            0 => Call::new(0, d, &[Nat], &[]),
            1 => Call::new(1, d, &[], &[pi(Nat, Nat)]),
            2 => Call::new(2, d, &[Nat], &[lam(Nat, V(1))]),
            3 => Call::new(3, d, &[], &[papp(plam(Nat, Zero), I0), Nat]),
            4 => Call::new(4, d, &[], &[once.clone(), Nat]),
            _ => Call::new(5, d, &[], &[once.clone(), Zero, Nat]),
        };
        let mut bytes = Vec::new();
        call.write(&mut bytes);
        length += bytes.len();
        if length > LONGEST {
            break;
        }
        calls.push(call);
    }
    Case::new(FULL, 4096, &calls)
}

/// A long interval put for a dimension that stands in a long interval.
fn intervals() -> Vec<Call> {
    vec![Call::new(4, 2, &[], &[put_in(&mut Random::new(1, 0), (10, 3), (10, 3)), Nat])]
}

/// A number that each of `left` root reductions makes twice as wide, below so
/// many binders; outside of them v 0 is a function of two numbers.
fn doubled(left: usize, binders: usize) -> Term {
    if left == 0 {
        return V(0);
    }
    let twice = app(app(V(binders), V(0)), V(0));
    app(lam(Nat, doubled(left - 1, binders + 1)), twice)
}

fn doublings() -> Vec<Call> {
    let f = pi(Nat, pi(Nat, Nat));
    let t = app(lam(Nat, doubled(DOUBLINGS, 1)), Zero);
    vec![Call::new(4, 0, &[f], &[t, Nat])]
}

const DOUBLINGS: usize = 9;

/// Arguments whose types are known only by conversion.
fn converted() -> Vec<Call> {
    let mut calls = vec![conversions(8)];
    for n in 1..7 {
        calls.push(Call::new(2, 0, &[], &[app(lam(hidden(n, Nat), V(0)), Zero)]));
    }
    calls
}
