//! Calls with many types: a term against several drafts of its type.
use crate::calls::{Call, Case, FULL, LISTING, LONGEST, MANY};
use crate::random::Random;
use crate::runs::{converted, scope};
use crate::term::{app, lam, pi, Term};
use crate::typed::{Maker, Scope};
use Term::{Nat, Zero, U, V};

fn many(s: &Scope, t: &Term, types: &[Term]) -> Call {
    let mut terms = vec![t.clone()];
    terms.extend_from_slice(types);
    Call::new(MANY, s.dimensions, &s.types, &terms)
}

fn closed() -> Scope {
    Scope { dimensions: 0, types: Vec::new() }
}

/// Drafts of a type, right and wrong, some of them twice; beside them perhaps the
/// check of one.
pub fn calls(random: &mut Random) -> Vec<Call> {
    if random.chance(1, 6) {
        return vec![at_limits(random)];
    }
    let maker = &mut Maker(random);
    let s = scope(maker);
    let fuel = maker.0.between(1, 3);
    let level = maker.level();
    let ty = maker.typ(&s, level, fuel);
    let t = maker.at(&s, &ty, fuel).unwrap_or(Zero);
    let count = maker.0.pick(&[1, 1, 2, 2, 3, 3, 4, 5, 8, 15, 16, 17]);
    let mut types: Vec<Term> = Vec::new();
    for _ in 0..count {
        let draft = match maker.0.below(9) {
            0..=2 => converted(maker, &s, &ty),
            3 => maker.typ(&s, level, fuel),
            4 if !types.is_empty() => maker.0.pick(&types),
            5 => maker.0.pick(&[Nat, U(0), U(1), Zero, V(0), V(7), pi(Nat, Nat)]),
            6 => maker.reannotated(&s, &ty, true),
            _ => ty.clone(),
        };
        types.push(draft);
    }
    let mut out = vec![many(&s, &t, &types)];
    if maker.0.chance(1, 3) {
        let check = Call::new(3, s.dimensions, &s.types, &[t, maker.0.pick(&types)]);
        let place = maker.0.below(2);
        out.insert(place, check);
    }
    out
}

/// A tree of 2^(n + 1) - 1 nodes.
fn tree(n: usize) -> Term {
    (0..n).fold(Nat, |t, _| pi(t.clone(), t))
}

/// A term that nests n deep.
fn tower(n: usize) -> Term {
    (0..n).fold(Nat, |t, _| pi(t, Nat))
}

/// At and past a limit: of the count, of the scope, of a type or of what all share.
fn at_limits(random: &mut Random) -> Call {
    let mut s = closed();
    let mut t = Zero;
    let mut types = vec![Nat, U(0), Nat];
    let odd = random.pick(&[V(32), V(33), U(33), tower(32), tower(33), tree(11), tree(12)]);
    match random.below(8) {
        0 | 1 => types = vec![Nat; random.pick(&[0, 16, 17, 18, 200, 255])],
        2 => s.dimensions = random.pick(&[33, 34, 255]),
        3 => s.types = vec![Nat; random.pick(&[33, 34, 35])],
        4 => s.types = vec![odd, Nat],
        5 => t = odd,
        6 => types[random.below(3)] = odd,
        _ => {
            t = tree(random.pick(&[10, 11, 12]));
            types = vec![tree(10), tree(random.pick(&[9, 10, 11])), tree(9)];
        }
    }
    if random.chance(1, 6) {
        types.clear();
    }
    many(&s, &t, &types)
}

/// Runs by hand: each point once, and the limits from both sides.
pub fn cases() -> Vec<Case> {
    let s = closed();
    let mut out = Vec::new();
    let alone = |call: &Call| Case::new(LISTING, 100, std::slice::from_ref(call));
    for count in [0, 1, 16, 17, 255] {
        out.push(alone(&many(&s, &Zero, &vec![Nat; count])));
    }
    // Accepted and refused mixed, and the same type twice; a call after them.
    let mixed = [Nat, U(0), app(lam(U(1), V(0)), Nat), Nat, V(0), pi(Nat, Nat), Nat];
    let check = Call::new(3, 0, &[], &[Zero, Nat]);
    let mixed = [many(&s, &Zero, &mixed), check];
    out.push(Case::new(LISTING, 100, &mixed));
    out.push(Case::new(LISTING, 3, &mixed));
    // Answers exactly enough, and one word short.
    for words in [32, 31] {
        out.push(Case::new([LISTING[0], LISTING[1], words], 100, &mixed));
    }
    // An early end in each place, and a byte that is no kind among the types.
    let whole = alone(&many(&s, &Zero, &[Nat, U(0), Nat]));
    for length in 2..whole.bytes.len() {
        out.push(Case { bytes: whole.bytes[..length].to_vec(), ..whole.clone() });
    }
    for at in 2..whole.bytes.len() {
        let mut case = whole.clone();
        case.bytes[at] = 16;
        out.push(case);
    }
    // 23 before 5; 5 for every type; 6 and 7 of what all share, and of one type alone.
    for (dimensions, length) in [(34, 0), (0, 34)] {
        let s = Scope { dimensions, types: vec![Nat; length] };
        out.push(alone(&many(&s, &Zero, &[])));
        out.push(alone(&many(&s, &Zero, &[Nat, Nat])));
    }
    for odd in [V(33), tower(33)] {
        let s = Scope { dimensions: 0, types: vec![odd.clone()] };
        out.push(alone(&many(&s, &Zero, &[Nat, Nat])));
        out.push(alone(&many(&closed(), &odd, &[Nat, V(33)])));
        out.push(alone(&many(&closed(), &Zero, &[Nat, odd, Nat])));
    }
    // Nodes of the types don't add up: 4,095 and 4,095, and 2,047 more.
    let types = [tree(11), tree(11), tree(10), tree(12), tree(11)];
    out.push(Case::new(FULL, 4096, &[many(&s, &tree(11), &types)]));
    out.push(Case::new(LISTING, 4096, &[many(&s, &tree(12), &types)]));
    out.push(longest());
    // The same types where the walk of those that pass ends at once.
    out.push(Case::new(LISTING, 1, &[many(&s, &tree(11), &types)]));
    out
}

/// The run with the most calls: types of one byte, 16 of them after five bytes.
fn longest() -> Case {
    let mut bytes = vec![100, 0];
    while bytes.len() < LONGEST {
        let types = (LONGEST - bytes.len() - 5).min(16);
        bytes.extend([MANY, 0, 0, 4, types as u8]);
        bytes.resize(bytes.len() + types, 3);
    }
    Case { slices: [FULL[0], FULL[1], 49_929 * 4], bytes }
}
