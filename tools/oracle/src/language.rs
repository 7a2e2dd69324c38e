//! The table of the language (tools/language.py), for the oracle and for what is
//! held against it.

/// What a node is, or a part of one, or an argument of a judgment.
#[derive(Clone, Copy, Debug, PartialEq, Eq)]
pub enum Sort {
    Number,
    Term,
    Interval,
    Context,
}
use Sort::*;

pub struct Kind {
    /// In a run, and the first word of a cell.
    pub byte: u8,
    pub name: &'static str,
    /// What a node of this kind is.
    pub sort: Sort,
    pub parts: &'static [Sort],
    /// The places of the parts that are cells: those that a quote shows, and all.
    pub shown: &'static [usize],
    pub cells: &'static [usize],
}

impl Kind {
    /// Whether its one part is a number.
    pub fn is_numbered(&self) -> bool {
        self.parts == [Number]
    }
}

const fn kind(
    byte: u8,
    name: &'static str,
    sort: Sort,
    parts: &'static [Sort],
    shown: &'static [usize],
    cells: &'static [usize],
) -> Kind {
    Kind { byte, name, sort, parts, shown, cells }
}

// written by tools/written.py: kinds
pub const KINDS: &[Kind] = &[
    kind(1, "u", Term, &[Number], &[], &[]),
    kind(2, "v", Term, &[Number], &[], &[]),
    kind(3, "nat", Term, &[], &[], &[]),
    kind(4, "zero", Term, &[], &[], &[]),
    kind(5, "pi", Term, &[Term, Term], &[1, 2], &[1, 2]),
    kind(6, "lam", Term, &[Term, Term], &[2], &[1, 2]),
    kind(7, "app", Term, &[Term, Term], &[1, 2], &[1, 2]),
    kind(8, "path", Term, &[Term, Term, Term], &[1, 2, 3], &[1, 2, 3]),
    kind(9, "plam", Term, &[Term, Term], &[2], &[1, 2]),
    kind(10, "papp", Term, &[Term, Interval], &[1, 2], &[1, 2]),
    kind(11, "sigma", Term, &[Term, Term], &[1, 2], &[1, 2]),
    kind(12, "pair", Term, &[Term, Term, Term], &[2, 3], &[1, 2, 3]),
    kind(13, "fst", Term, &[Term], &[1], &[1]),
    kind(14, "snd", Term, &[Term], &[1], &[1]),
    kind(16, "i0", Interval, &[], &[], &[]),
    kind(17, "i1", Interval, &[], &[], &[]),
    kind(18, "dim", Interval, &[Number], &[], &[]),
    kind(19, "neg", Interval, &[Interval], &[1], &[1]),
    kind(20, "meet", Interval, &[Interval, Interval], &[1, 2], &[1, 2]),
    kind(21, "join", Interval, &[Interval, Interval], &[1, 2], &[1, 2]),
    kind(32, "nil", Context, &[], &[], &[]),
    kind(33, "cons", Context, &[Term, Context], &[1, 2], &[1, 2]),
];

pub const INFERENCE: u32 = 40;
// end of kinds

/// The place of each kind in the table, by its byte.
const PLACES: [u8; 256] = {
    let mut places = [u8::MAX; 256];
    let mut at = 0;
    while at < KINDS.len() {
        places[KINDS[at].byte as usize] = at as u8;
        at += 1;
    }
    places
};

/// The kind that a cell's first word, or a byte of a run, names.
pub fn kind_of(number: u32) -> Option<&'static Kind> {
    KINDS.get(*PLACES.get(number as usize)? as usize)
}

/// The judgments by number: the name, and what the arguments are.
// written by tools/written.py: judgments
pub const JUDGMENTS: &[(&str, &[Sort])] = &[
    ("ctx", &[Number, Context]),
    ("dshiftctx", &[Context, Number, Context]),
    ("lookup", &[Context, Number, Term]),
    ("lt", &[Number, Number]),
    ("le", &[Number, Number]),
    ("max", &[Number, Number, Number]),
    ("interval", &[Number, Interval]),
    ("ishift", &[Interval, Number, Interval]),
    ("isubst", &[Interval, Number, Interval, Interval]),
    ("shift", &[Term, Number, Term]),
    ("subst", &[Term, Number, Term, Term]),
    ("dshift", &[Term, Number, Term]),
    ("dsubst", &[Term, Number, Interval, Term]),
    ("has", &[Number, Context, Term, Term]),
    ("eq", &[Number, Context, Term, Term, Term]),
    ("iend", &[Interval, Interval]),
];
// end of judgments

/// The rules by number: the name, and the number of the judgment concluded.
// written by tools/written.py: rules
pub const RULES: [(&str, usize); 126] = [
    ("ctx.nil", 0),
    ("ctx.cons", 0),
    ("dshiftctx.nil", 1),
    ("dshiftctx.cons", 1),
    ("lookup.z", 2),
    ("lookup.s", 2),
    ("lt.z", 3),
    ("lt.s", 3),
    ("le.z", 4),
    ("le.s", 4),
    ("max.z", 5),
    ("max.sz", 5),
    ("max.ss", 5),
    ("interval.0", 6),
    ("interval.1", 6),
    ("interval.dim", 6),
    ("interval.neg", 6),
    ("interval.meet", 6),
    ("interval.join", 6),
    ("ishift.0", 7),
    ("ishift.1", 7),
    ("ishift.dim.lt", 7),
    ("ishift.dim.ge", 7),
    ("ishift.neg", 7),
    ("ishift.meet", 7),
    ("ishift.join", 7),
    ("isubst.0", 8),
    ("isubst.1", 8),
    ("isubst.dim.hit", 8),
    ("isubst.dim.lt", 8),
    ("isubst.dim.gt", 8),
    ("isubst.neg", 8),
    ("isubst.meet", 8),
    ("isubst.join", 8),
    ("shift.u", 9),
    ("shift.nat", 9),
    ("shift.zero", 9),
    ("shift.v.lt", 9),
    ("shift.v.ge", 9),
    ("shift.pi", 9),
    ("shift.lam", 9),
    ("shift.app", 9),
    ("shift.path", 9),
    ("shift.plam", 9),
    ("shift.papp", 9),
    ("subst.u", 10),
    ("subst.nat", 10),
    ("subst.zero", 10),
    ("subst.v.hit", 10),
    ("subst.v.lt", 10),
    ("subst.v.gt", 10),
    ("subst.pi", 10),
    ("subst.lam", 10),
    ("subst.app", 10),
    ("subst.path", 10),
    ("subst.plam", 10),
    ("subst.papp", 10),
    ("dshift.u", 11),
    ("dshift.nat", 11),
    ("dshift.zero", 11),
    ("dshift.v", 11),
    ("dshift.pi", 11),
    ("dshift.lam", 11),
    ("dshift.app", 11),
    ("dshift.path", 11),
    ("dshift.plam", 11),
    ("dshift.papp", 11),
    ("dsubst.u", 12),
    ("dsubst.nat", 12),
    ("dsubst.zero", 12),
    ("dsubst.v", 12),
    ("dsubst.pi", 12),
    ("dsubst.lam", 12),
    ("dsubst.app", 12),
    ("dsubst.path", 12),
    ("dsubst.plam", 12),
    ("dsubst.papp", 12),
    ("type.u", 13),
    ("type.nat", 13),
    ("type.zero", 13),
    ("type.v", 13),
    ("type.pi", 13),
    ("type.lam", 13),
    ("type.app", 13),
    ("type.path", 13),
    ("type.plam", 13),
    ("type.papp", 13),
    ("type.conv", 13),
    ("eq.refl", 14),
    ("eq.sym", 14),
    ("eq.trans", 14),
    ("eq.beta", 14),
    ("eq.pbeta", 14),
    ("eq.p0", 14),
    ("eq.p1", 14),
    ("type.sigma", 13),
    ("type.pair", 13),
    ("type.fst", 13),
    ("type.snd", 13),
    ("eq.fst-beta", 14),
    ("eq.snd-beta", 14),
    ("shift.sigma", 9),
    ("shift.pair", 9),
    ("shift.fst", 9),
    ("shift.snd", 9),
    ("subst.sigma", 10),
    ("subst.pair", 10),
    ("subst.fst", 10),
    ("subst.snd", 10),
    ("dshift.sigma", 11),
    ("dshift.pair", 11),
    ("dshift.fst", 11),
    ("dshift.snd", 11),
    ("dsubst.sigma", 12),
    ("dsubst.pair", 12),
    ("dsubst.fst", 12),
    ("dsubst.snd", 12),
    ("iend.0", 15),
    ("iend.1", 15),
    ("iend.neg", 15),
    ("iend.meet", 15),
    ("iend.join", 15),
    ("eq.p0-val", 14),
    ("eq.p1-val", 14),
    ("eq.app-cong", 14),
    ("eq.papp-cong", 14),
];
// end of rules

/// A rule's number. Every rule that the source names in this profile has one.
pub fn rule_number(name: &str) -> usize {
    let place = RULES.iter().position(|(rule, _)| *rule == name);
    place.unwrap_or_else(|| panic!("no rule is named {name}"))
}

/// How many terms a call of each code has; the code that has a count and that many
/// types after them; the highest number of a refusal.
// written by tools/written.py: calls and refusals
pub const CALLS: [usize; 8] = [0, 1, 1, 2, 2, 3, 1, 2];
pub const MANY: u8 = 6;
pub const LAST_REFUSAL: usize = 23;
// end of calls and refusals

/// Of these, what stands ahead of the program and is off unless it is asked for:
/// its kinds, and where the rules and refusals before it end.
// written by tools/written.py: ahead of the program
pub const AHEAD_KINDS: [u8; 0] = [];
pub const LANDED_RULES: usize = 126;
pub const LANDED_REFUSAL: usize = 23;
// end of ahead of the program

/// Counts by the number of a refusal and of a rule. Of those ahead of the program
/// none is shown, or missed, where none was met.
pub fn counted<'a>(numbers: &'a [u64], rules: &'a [u64]) -> (&'a [u64], &'a [u64]) {
    let mut ahead = numbers[LANDED_REFUSAL + 1..=LAST_REFUSAL].iter().chain(&rules[LANDED_RULES..]);
    if ahead.any(|count| *count > 0) {
        (&numbers[..=LAST_REFUSAL], rules)
    } else {
        (&numbers[..=LANDED_REFUSAL], &rules[..LANDED_RULES])
    }
}
