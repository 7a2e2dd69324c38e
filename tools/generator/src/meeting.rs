//! Runs that make the program's index as slow as their bytes allow. At a nesting
//! limit of 1 nothing is walked: each call takes cells for its term and is refused
//! with 19, so that the cells' numbers, and with them their hashes, can be foretold.
use crate::calls::{Call, Case, FULL, LONGEST};
use crate::random::Random;
use crate::term::{app, lam, path, Term};
use std::collections::HashMap;
use Term::{Nat, Zero, U, V};

pub fn case(kind: &str) -> Option<Case> {
    let calls = match kind {
        "annotations" => annotations(),
        "meeting" => paths(true),
        "parted" => paths(false),
        _ => return None,
    };
    Some(Case::new(FULL, 1, &calls))
}

fn infer(t: Term) -> Call {
    Call::new(2, 0, &[], &[t])
}

/// 10,013 lams that differ in their annotation alone, so that all have one quote:
/// 31 a call, each the annotation of the next.
fn annotations() -> Vec<Call> {
    let tower = |i: usize| (0..31).fold(app(U(i / 33), V(i % 33)), |t, _| lam(t, Zero));
    (0..323).map(|i| infer(tower(i))).collect()
}

/// How many cells there are to make paths of, and how many low bits of their hash
/// the paths have in common.
const POOL: u32 = 3_000;
const BITS: u32 = 23;

/// The program's hash (`crates/ast/src/index.rt`).
fn mix(h: u32, x: u32) -> u32 {
    let p = u64::from(h.wrapping_add(x)) * 2_654_435_769;
    (p as u32).wrapping_add((p >> 32) as u32)
}

/// Applications of two atoms, so many that they and their parts are the first
/// `POOL` cells; then paths over these, whose hashes meet or were left to chance.
fn paths(meeting: bool) -> Vec<Call> {
    let atoms: Vec<Term> = (0..33).flat_map(|n| [U(n), V(n)]).chain([Nat, Zero]).collect();
    let mut cells: HashMap<Vec<u8>, u32> = HashMap::new();
    let mut pool = Vec::new();
    let mut calls = Vec::new();
    // The context takes the first cell, and no term is a part of it.
    let mut next = 1;
    for (i, j) in (0..).map(|i| (i / atoms.len(), i % atoms.len())) {
        let t = app(atoms[i].clone(), atoms[j].clone());
        calls.push(infer(t.clone()));
        for part in [&atoms[i], &atoms[j], &t] {
            let mut bytes = Vec::new();
            part.write(&mut bytes);
            cells.entry(bytes).or_insert_with(|| {
                pool.push((next, part.clone()));
                next += 1;
                next - 1
            });
        }
        if next > POOL {
            break;
        }
    }
    let mut length = 2;
    let mut fits = |call: &Call| {
        let mut bytes = Vec::new();
        call.write(&mut bytes);
        length += bytes.len();
        length <= LONGEST
    };
    assert!(calls.iter().all(&mut fits));
    let part = |n: u32| pool[n as usize - 1].1.clone();
    for [a, b, c] in if meeting { alike() } else { by_chance() } {
        let call = infer(path(part(a), part(b), part(c)));
        if !fits(&call) {
            break;
        }
        calls.push(call);
    }
    calls
}

fn by_chance() -> Vec<[u32; 3]> {
    let random = &mut Random::new(1, 0);
    (0..10_000).map(|_| [0; 3].map(|_| 1 + random.below(POOL as usize) as u32)).collect()
}

/// Parts whose path has a hash that ends in `BITS` zeros.
fn alike() -> Vec<[u32; 3]> {
    let ends: Vec<u32> = (0..=u32::MAX).filter(|x| mix(0, *x) % (1 << BITS) == 0).collect();
    let mut out = Vec::new();
    for a in 1..=POOL {
        let h = mix(mix(0, 8), a);
        for b in 1..=POOL {
            let h = mix(h, b);
            let from = ends.partition_point(|x| *x <= h);
            for x in ends[from..].iter().take_while(|x| **x - h <= POOL) {
                out.push([a, b, x - h]);
            }
        }
    }
    // Short ones first, so that more fit.
    out.sort_by_key(|parts| parts.iter().max().copied());
    out
}
