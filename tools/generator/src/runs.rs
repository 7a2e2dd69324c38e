//! Whole runs, one for each place under a seed.
use crate::calls::{Call, Case, FULL, LISTING};
use crate::random::{Random, Terms};
use crate::term::{
    app, fst, lam, neg, pair, papp, path, pi, plam, sigma, snd, Interval, Term, LETTERS,
};
use crate::typed::{Maker, Scope};
use crate::{damage, edges, ends as long_ends, heads, many, pairs, shapes};
use Interval::{I0, I1};
use Term::{Nat, Zero, U, V};

/// The run at this place under this seed.
pub fn case(terms: Terms, seed: u64, place: u64) -> Case {
    let random = &mut Random::new(seed, place).of(terms);
    if random.chance(1, 25) {
        return noise(random);
    }
    let mut calls = Vec::new();
    for _ in 0..random.pick(&[1, 1, 1, 2, 2, 3, 4]) {
        calls.extend(some_calls(random));
    }
    repeat(random, &mut calls);
    let limit = limit(random);
    let slices = slices(random, calls.iter().map(Call::blocks).sum());
    let mut case = Case::new(slices, limit, &calls);
    if random.chance(1, 10) {
        damage::bytes(random, &mut case.bytes);
    }
    case
}

/// Bytes without a form, or with hardly any.
fn noise(random: &mut Random) -> Case {
    let length = random.pick(&[0, 1, 2, 3, 5, 8, 13, 40, 200]);
    let small = random.chance(2, 3);
    let mut bytes: Vec<u8> = (0..length)
        .map(|_| if small { random.below_with_pairs(12, 4) } else { random.below(256) } as u8)
        .collect();
    if bytes.len() > 2 && random.chance(3, 4) {
        bytes[..2].copy_from_slice(&[100, 0]);
    }
    if random.chance(1, 40) {
        bytes.resize(random.pick(&[65_535, 65_536, 65_537, 70_000]), 0);
    }
    Case { slices: slices(random, 1), bytes }
}

fn some_calls(random: &mut Random) -> Vec<Call> {
    if random.heads() && random.chance(1, 2) {
        return heads::calls(random);
    }
    if random.ends() && random.chance(1, 2) {
        return if random.chance(1, 2) { ends(random) } else { long_ends::calls(random) };
    }
    if random.many() && random.chance(1, 2) {
        return many::calls(random);
    }
    match random.below_with_pairs(20, 6) {
        20.. => pairs::calls(random),
        0..=11 => typed(random),
        12..=14 => {
            let mut calls = typed(random);
            let i = random.below(calls.len());
            damage::call(random, &mut calls[i]);
            calls
        }
        15 => edges::calls(random),
        16 => shapes::calls(random),
        17 => ends(random),
        _ => annotations(random),
    }
}

pub fn scope(maker: &mut Maker) -> Scope {
    let dimensions = maker.0.pick(&[0, 0, 0, 1, 1, 2, 3]);
    let length = maker.0.pick(&[0, 0, 0, 1, 1, 2, 3, 4]);
    let fuel = maker.0.below(3);
    maker.scope(dimensions, length, fuel)
}

/// Calls over one context that are likely to be accepted.
fn typed(random: &mut Random) -> Vec<Call> {
    let maker = &mut Maker(random);
    let s = scope(maker);
    let fuel = maker.0.between(1, 4);
    let level = maker.level();
    let ty = maker.typ(&s, level, fuel);
    let code = maker.0.pick(&[0, 1, 2, 2, 3, 3, 4, 4, 5, 5]);
    let new = |code, terms: &[Term]| vec![Call::new(code, s.dimensions, &s.types, terms)];
    let Some(t) = maker.at(&s, &ty, fuel) else {
        return new(1, &[ty]);
    };
    match code {
        0 => new(0, &[]),
        1 => new(1, &[ty]),
        2 => new(2, &[t]),
        3 => {
            let wanted = converted(maker, &s, &ty);
            new(3, &[t, wanted])
        }
        4 => {
            let wanted = match maker.0.below(6) {
                0 => converted(maker, &s, &ty),
                1 => maker.reannotated(&s, &ty, false),
                _ => ty,
            };
            let heads = maker.0.heads() && maker.0.chance(1, 2);
            new(if heads { heads::HEAD } else { 4 }, &[t, wanted])
        }
        _ => {
            let other = match maker.0.below_with_pairs(4, 2) {
                0 => maker.at(&s, &ty, fuel).unwrap_or(Zero),
                1 => maker.reannotated(&s, &t, false),
                2 => app(lam(Nat, t.shift()), Zero),
                4 => fst(pair(sigma(ty.clone(), Nat), t.clone(), Zero)),
                5 => snd(pair(sigma(Nat, ty.shift()), Zero, t.clone())),
                _ => app(lam(ty.clone(), V(0)), t.clone()),
            };
            let sides = if maker.0.chance(1, 2) { [t, other, ty] } else { [other, t, ty] };
            new(5, &sides)
        }
    }
}

/// A path of the context at its ends, and beside them.
fn ends(random: &mut Random) -> Vec<Call> {
    let maker = &mut Maker(random);
    let s = scope(maker);
    let fuel = maker.0.below(3);
    let level = maker.level();
    let family = maker.typ(&s.deeper(), level, fuel);
    let left = maker.at(&s, &family.dsubst(&I0), fuel);
    let right = maker.at(&s, &family.dsubst(&I1), fuel);
    let (Some(b), Some(c)) = (left, right) else {
        return typed(random);
    };
    let s = s.with(&path(family.clone(), b.clone(), c.clone()));
    let other = maker.interval(s.dimensions, 2);
    let (r, end) = maker.0.pick(&[(I0, b.clone()), (I1, c), (neg(I1), b.clone()), (other, b)]);
    let (t, ty) = (papp(V(0), r.clone()), family.dsubst(&r).shift());
    let new = |code, terms: &[Term]| vec![Call::new(code, s.dimensions, &s.types, terms)];
    match maker.0.below(4) {
        0 => new(2, &[t]),
        1 => new(5, &[t, end.shift(), ty]),
        _ => new(4, &[t, ty]),
    }
}

/// The same type, perhaps written otherwise.
pub fn converted(maker: &mut Maker, s: &Scope, ty: &Term) -> Term {
    match maker.0.below(4) {
        0 => maker.disguised(s, ty).unwrap_or(Nat),
        1 => maker.reannotated(s, ty, false),
        _ => ty.clone(),
    }
}

/// The same call with annotations that differ, before, after and beside it.
fn annotations(random: &mut Random) -> Vec<Call> {
    if random.chance(1, 3) {
        return alike(random);
    }
    let mut calls = typed(random);
    let call = calls[0].clone();
    let s = Scope { dimensions: call.dimensions, types: call.context.clone() };
    let maker = &mut Maker(random);
    for _ in 0..maker.0.between(1, 2) {
        let mut copy = call.clone();
        let wild = maker.0.chance(1, 4);
        for t in &mut copy.terms {
            if maker.0.chance(2, 3) {
                *t = maker.reannotated(&s, t, wild);
            }
        }
        calls.push(copy);
    }
    calls
}

/// Annotations inside annotations that are quoted alike.
fn alike(random: &mut Random) -> Vec<Call> {
    let hide = |a: Term| app(lam(a, Nat), Zero);
    let one = hide(Nat);
    let two = hide(one.clone());
    let any = [Nat, U(0), one.clone(), two.clone(), hide(two)];
    let (a, b, c) = (random.pick(&any), random.pick(&any), random.pick(&any));
    let infer = |a: &Term| Call::new(2, 0, &[], &[lam(a.clone(), Zero)]);
    // The sides as they are, or to be reduced first.
    let mut side = |a: &Term| {
        let (side, ty) = (lam(a.clone(), Zero), pi(a.clone(), Nat));
        if random.chance(1, 2) {
            side
        } else {
            app(lam(ty, V(0)), side)
        }
    };
    let equal = Call::new(5, 0, &[], &[side(&a), side(&b), pi(c.clone(), Nat)]);
    // A reduction whose type is quoted as the one wanted, or differs.
    let at = |a: &Term| path(pi(a.clone(), Nat), lam(a.clone(), Zero), lam(a.clone(), Zero));
    let constant = plam(pi(a.clone(), Nat), lam(a.clone(), Zero));
    let reduced = Call::new(4, 0, &[], &[app(lam(at(&a), V(0)), constant), at(&b)]);
    let inside = Call::new(2, 0, std::slice::from_ref(&c), &[app(lam(a.clone(), Zero), Zero)]);
    match random.below(4) {
        0 => vec![infer(&a), infer(&b), infer(&c)],
        1 => vec![equal],
        2 => vec![reduced],
        _ => vec![infer(&a), inside, equal],
    }
}

/// Some calls again, in any order.
fn repeat(random: &mut Random, calls: &mut Vec<Call>) {
    for _ in 0..random.pick(&[0, 0, 0, 1, 2]) {
        let mut again = random.pick(calls);
        if random.chance(1, 4) {
            damage::call(random, &mut again);
        }
        let place = random.below(calls.len() + 1);
        calls.insert(place, again);
    }
}

fn limit(random: &mut Random) -> u16 {
    match random.below(20) {
        0..=11 => 4096,
        12..=14 => 100,
        15 => random.between(1, 8) as u16,
        16 | 17 => random.between(3, 30) as u16,
        18 => random.between(1, 4096) as u16,
        _ => random.pick(&[0, 1, 4095, 4096, 4097, 65535]),
    }
}

fn slices(random: &mut Random, calls: usize) -> [u32; 3] {
    let mut slices = match random.below(10) {
        0..=6 => LISTING,
        _ => [682 * 24 * 4, 2048 * 8 * 4, 4096 * 4],
    };
    if random.chance(1, 60) {
        slices = FULL;
    }
    // Any short length, and the shortest most often.
    let short = |random: &mut Random, words: usize| {
        let most = random.pick(&[2, 10, 60, 200]) * words;
        random.below(most) as u32
    };
    if random.chance(1, 10) {
        slices[0] = short(random, 24);
    }
    if random.chance(1, 8) {
        slices[1] = short(random, 8);
    }
    if random.chance(1, 20) {
        slices[2] = (4 * calls + random.below(6)).saturating_sub(3) as u32;
    }
    slices
}

/// One run, played with every short table, every short store and every small
/// limit: where each ends shows the order in which rows, cells and functions are
/// counted. Later calls ask for the parts, so that it shows which cells there are.
pub fn sweep(terms: Terms, seed: u64, place: u64) -> impl Iterator<Item = Case> {
    let random = &mut Random::new(seed, place).of(terms);
    let mut calls = typed(random);
    for mut t in calls[0].terms.clone().into_iter().chain(calls[0].context.clone()) {
        let parts: Vec<Term> = t.terms().into_iter().rev().map(|part| part.clone()).collect();
        for part in parts {
            calls.push(Call::new(2, calls[0].dimensions, &[], &[part]));
        }
    }
    let last = calls[0].clone();
    calls.push(last);
    let [rows, cells, answers] = LISTING;
    let by_cells = (1..=120).map(move |n| ([rows, 8 * n, answers], 4096));
    let by_rows = (1..=60).map(move |n| ([24 * n, cells, answers], 4096));
    let by_limit = (1..=30).map(move |n| (LISTING, n));
    by_cells
        .chain(by_rows)
        .chain(by_limit)
        .map(move |(slices, limit)| Case::new(slices, limit, &calls))
}

/// Every run of so many bytes after the header (limit 100) that is made of the
/// bytes with a meaning: codes, kinds, small numbers.
pub fn short(terms: Terms, length: u32) -> impl Iterator<Item = Case> {
    let all = LETTERS.iter().copied();
    let letters: Vec<u8> =
        all.filter(|byte| terms != Terms::Plain || !pairs::KINDS.contains(byte)).collect();
    let base = letters.len();
    (0..base.pow(length)).map(move |mut n| {
        let mut bytes = vec![100, 0];
        for _ in 0..length {
            bytes.push(letters[n % base]);
            n /= base;
        }
        Case { slices: LISTING, bytes }
    })
}
