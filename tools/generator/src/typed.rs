//! Terms made along their types, so that most calls are accepted. A term may
//! still be refused, where a type is met only up to conversion: that is wanted.
use crate::random::Random;
use crate::term::{
    app, fst, join, lam, meet, neg, pair, papp, path, pi, plam, sigma, snd, Interval, Term,
};
use Interval::{Dim, I0, I1};
use Term::*;

/// Dimensions, and the types of the context, outermost first, each at its
/// binding site.
#[derive(Clone, Debug, Default)]
pub struct Scope {
    pub dimensions: usize,
    pub types: Vec<Term>,
}

impl Scope {
    pub fn with(&self, a: &Term) -> Scope {
        let mut inner = self.clone();
        inner.types.push(a.clone());
        inner
    }

    pub fn deeper(&self) -> Scope {
        Scope {
            dimensions: self.dimensions + 1,
            types: self.types.iter().map(Term::dshift).collect(),
        }
    }

    fn type_of(&self, n: usize) -> Term {
        self.types[self.types.len() - 1 - n].lifted(n + 1, 0)
    }

    /// The level of a type, as far as it is plain to see.
    fn level(&self, ty: &Term) -> usize {
        match ty {
            U(l) => l + 1,
            Pi(a, b) | Sigma(a, b) => self.level(a).max(self.with(a).level(b)),
            Path(a, _, _) => self.deeper().level(a),
            V(n) if *n < self.types.len() => match self.type_of(*n) {
                U(l) => l,
                _ => 0,
            },
            _ => 0,
        }
    }
}

/// A root reduction, where there is one.
fn reduced(t: &Term) -> Option<Term> {
    match t {
        App(f, x) => match &**f {
            Lam(_, body) => Some(body.subst(x)),
            _ => None,
        },
        Papp(p, r) => match &**p {
            Plam(_, body) => Some(body.dsubst(r)),
            _ => None,
        },
        Fst(p) => match &**p {
            Pair(_, first, _) => Some((**first).clone()),
            _ => None,
        },
        Snd(p) => match &**p {
            Pair(_, _, second) => Some((**second).clone()),
            _ => None,
        },
        _ => None,
    }
}

/// A type after a few root reductions.
fn exposed(ty: Term) -> Term {
    (0..4).try_fold(ty, |ty, _| reduced(&ty).ok_or(ty)).unwrap_or_else(|ty| ty)
}

/// Makes terms; `fuel` bounds their size.
pub struct Maker<'a>(pub &'a mut Random);

impl Maker<'_> {
    pub fn scope(&mut self, dimensions: usize, length: usize, fuel: usize) -> Scope {
        let mut scope = Scope { dimensions, types: vec![] };
        for _ in 0..length {
            let level = self.level();
            let a = self.typ(&scope, level, fuel);
            scope.types.push(a);
        }
        scope
    }

    pub fn level(&mut self) -> usize {
        self.0.pick(&[0, 0, 0, 0, 0, 0, 1, 1, 2])
    }

    pub fn interval(&mut self, d: usize, fuel: usize) -> Interval {
        if fuel > 0 && self.0.ends() && self.0.chance(1, 2) {
            let one = self.0.chance(1, 2);
            return self.long(one, d, fuel + 1);
        }
        let kinds = if fuel == 0 { 3 } else { 6 };
        match self.0.below(kinds) {
            0 => I0,
            1 => I1,
            2 if d == 0 => self.0.pick(&[I0, I1]),
            2 => Dim(self.0.below(d)),
            3 => neg(self.interval(d, fuel - 1)),
            4 => meet(self.interval(d, fuel - 1), self.interval(d, fuel - 1)),
            _ => join(self.interval(d, fuel - 1), self.interval(d, fuel - 1)),
        }
    }

    /// One that works out to an end: by its left part, by its right one, by both.
    pub fn long(&mut self, one: bool, d: usize, fuel: usize) -> Interval {
        if fuel == 0 {
            return if one { I1 } else { I0 };
        }
        let less = fuel - 1;
        let decided = if one { join } else { meet };
        match self.0.below(5) {
            0 | 1 => neg(self.long(!one, d, less)),
            2 => decided(self.long(one, d, less), self.interval(d, less)),
            3 => decided(self.interval(d, less), self.long(one, d, less)),
            _ => {
                let both = if one { meet } else { join };
                both(self.long(one, d, less), self.long(one, d, less))
            }
        }
    }

    /// A type at this level.
    pub fn typ(&mut self, s: &Scope, level: usize, fuel: usize) -> Term {
        if fuel > 0 && self.0.chance(1, 6) {
            if let Some(t) = self.wrapped(s, &U(level), fuel) {
                return t;
            }
        }
        let plain = |maker: &mut Self| match level {
            0 => maker.variable(s, &U(0)).filter(|_| maker.0.chance(1, 2)).unwrap_or(Nat),
            l => U(l - 1),
        };
        if fuel == 0 {
            return plain(self);
        }
        match self.0.below_with_pairs(6, 4) {
            n @ (0 | 1 | 6..=8) => {
                let low = self.0.below(level + 1);
                let (i, j) = if self.0.chance(1, 2) { (low, level) } else { (level, low) };
                let a = self.typ(s, i, fuel - 1);
                let b = self.typ(&s.with(&a), j, fuel - 1);
                if n < 2 {
                    pi(a, b)
                } else {
                    sigma(a, b)
                }
            }
            2 | 3 => {
                let family = self.typ(&s.deeper(), level, fuel - 1);
                let left = self.at(s, &family.dsubst(&I0), fuel - 1);
                let right = self.at(s, &family.dsubst(&I1), fuel - 1);
                match (left, right) {
                    (Some(b), Some(c)) => path(family, b, c),
                    _ => plain(self),
                }
            }
            4 | 9 => {
                let ty = plain(self);
                self.disguised(s, &ty).unwrap_or(ty)
            }
            _ => plain(self),
        }
    }

    /// A term of this type, or none where none is found.
    pub fn at(&mut self, s: &Scope, ty: &Term, fuel: usize) -> Option<Term> {
        if fuel > 0 && self.0.chance(1, 4) {
            if let Some(t) = self.wrapped(s, ty, fuel) {
                return Some(t);
            }
        }
        if self.0.chance(1, 2) {
            if let Some(t) = self.variable(s, ty) {
                return Some(t);
            }
        }
        match ty {
            Nat => Some(Zero),
            U(l) => Some(self.typ(s, *l, fuel.saturating_sub(1))),
            Pi(a, b) => {
                let body = self.at(&s.with(a), b, fuel.saturating_sub(1))?;
                Some(lam((**a).clone(), body))
            }
            Path(a, b, c) => self.path_at(a, b, c),
            Sigma(a, b) => self.pair_at(s, a, b, fuel.saturating_sub(1)),
            _ => reduced(ty).and_then(|ty| self.at(s, &ty, fuel)),
        }
        .or_else(|| self.variable(s, ty))
    }

    /// A path by plam: a point at both ends, or a path written long.
    fn path_at(&mut self, a: &Term, b: &Term, c: &Term) -> Option<Term> {
        if b.alike(c) && *a == a.dsubst(&I0).dshift() {
            return Some(plam(a.clone(), b.dshift()));
        }
        match (b, c) {
            (Papp(p, I0), Papp(q, I1)) if p == q => Some(plam(a.clone(), papp(p.dshift(), Dim(0)))),
            _ => None,
        }
    }

    fn pair_at(&mut self, s: &Scope, a: &Term, b: &Term, fuel: usize) -> Option<Term> {
        let first = self.at(s, a, fuel)?;
        let second = self.at(s, &b.subst(&first), fuel)?;
        Some(pair(sigma(a.clone(), b.clone()), first, second))
    }

    fn variable(&mut self, s: &Scope, ty: &Term) -> Option<Term> {
        let fit: Vec<usize> = (0..s.types.len()).filter(|n| s.type_of(*n).alike(ty)).collect();
        (!fit.is_empty()).then(|| V(self.0.pick(&fit)))
    }

    /// A projection of this type: of what has the sigma type, or of a pair whose
    /// second type is its first part.
    fn projection(&mut self, s: &Scope, ty: &Term, fuel: usize) -> Option<Term> {
        let (level, less) = (self.level(), fuel / 2);
        match self.0.below(5) {
            0 | 1 => {
                let b = self.typ(&s.with(ty), level, less);
                Some(fst(self.at(s, &sigma(ty.clone(), b), fuel - 1)?))
            }
            2 | 3 => {
                let a = self.typ(s, level, less);
                Some(snd(self.at(s, &sigma(a, ty.shift()), fuel - 1)?))
            }
            _ => {
                let t = self.at(s, ty, fuel - 1)?;
                Some(snd(pair(sigma(U(s.level(ty)), V(0)), ty.clone(), t)))
            }
        }
    }

    /// A term of this type that is an application or a projection.
    fn wrapped(&mut self, s: &Scope, ty: &Term, fuel: usize) -> Option<Term> {
        let less = fuel / 2;
        match self.0.below_with_pairs(7, 5) {
            7.. => self.projection(s, ty, fuel),
            0 | 1 => {
                let level = self.level();
                let a = self.typ(s, level, less);
                let x = self.at(s, &a, less)?;
                let body = self.at(&s.with(&a), &ty.shift(), fuel - 1)?;
                Some(app(lam(a, body), x))
            }
            2 => {
                let a = self.typ(s, 0, less);
                let x = self.at(s, &a, less)?;
                let f = self.at(s, &pi(a, ty.shift()), fuel - 1)?;
                Some(app(f, x))
            }
            3 => {
                let body = self.at(&s.deeper(), &ty.dshift(), fuel - 1)?;
                let r = self.interval(s.dimensions, 2);
                Some(papp(plam(ty.dshift(), body), r))
            }
            4 | 5 => self.used(s, ty, less),
            _ => {
                let b = self.at(s, ty, less)?;
                let c = if self.0.chance(1, 2) { b.clone() } else { self.at(s, ty, less)? };
                let p = self.at(s, &path(ty.dshift(), b, c), fuel - 1)?;
                let r = self.interval(s.dimensions, 2);
                Some(papp(p, r))
            }
        }
    }

    /// A function or a path of the context, applied; a part of one of its pairs.
    fn used(&mut self, s: &Scope, ty: &Term, fuel: usize) -> Option<Term> {
        let mut fit = Vec::new();
        for n in 0..s.types.len() {
            let given = s.type_of(n);
            match if self.0.pairs() { exposed(given) } else { given } {
                Sigma(a, b) => {
                    let parts = [(fst(V(n)), *a), (snd(V(n)), b.subst(&fst(V(n))))];
                    fit.extend(parts.into_iter().filter(|(_, a)| a.alike(ty)).map(|(t, _)| t));
                }
                Pi(a, b) => {
                    if let Some(x) = self.at(s, &a, fuel).filter(|x| b.subst(x).alike(ty)) {
                        fit.push(app(V(n), x));
                    }
                }
                Path(a, _, _) => {
                    let r = match self.0.below(3) {
                        0 => I0,
                        1 => I1,
                        _ => self.interval(s.dimensions, 2),
                    };
                    if a.dsubst(&r).alike(ty) {
                        fit.push(papp(V(n), r));
                    }
                }
                _ => {}
            }
        }
        (!fit.is_empty()).then(|| self.0.pick(&fit))
    }

    /// The same type, not yet reduced: an application or a projection that reduces
    /// to it.
    pub fn disguised(&mut self, s: &Scope, ty: &Term) -> Option<Term> {
        if self.0.pairs() && self.0.chance(1, 3) {
            let u = U(s.level(ty));
            return Some(match self.0.below(2) {
                0 => fst(pair(sigma(u, Nat), ty.clone(), Zero)),
                _ => snd(pair(sigma(Nat, u), Zero, ty.clone())),
            });
        }
        let a = self.typ(s, 0, 0);
        let x = self.at(s, &a, 0)?;
        Some(app(lam(a, ty.shift()), x))
    }

    /// The same term with annotations that are written otherwise but convert,
    /// or (`wild`) with any at all.
    pub fn reannotated(&mut self, s: &Scope, t: &Term, wild: bool) -> Term {
        let mut out = t.clone();
        self.reannotate(s, &mut out, wild);
        out
    }

    fn reannotate(&mut self, s: &Scope, t: &mut Term, wild: bool) {
        match t {
            Lam(a, b) => {
                self.reannotate(&s.with(a), b, wild);
                **a = self.annotation(s, a, wild);
            }
            Plam(a, b) => {
                self.reannotate(&s.deeper(), b, wild);
                **a = self.annotation(&s.deeper(), a, wild);
            }
            Pair(ty, a, b) => {
                self.reannotate(s, a, wild);
                self.reannotate(s, b, wild);
                **ty = self.pair_annotation(s, ty, wild);
            }
            Pi(a, b) | Sigma(a, b) => {
                self.reannotate(&s.with(a), b, wild);
                self.reannotate(s, a, wild);
            }
            Path(a, b, c) => {
                self.reannotate(&s.deeper(), a, wild);
                self.reannotate(s, b, wild);
                self.reannotate(s, c, wild);
            }
            App(a, b) => {
                self.reannotate(s, a, wild);
                self.reannotate(s, b, wild);
            }
            Papp(p, _) | Fst(p) | Snd(p) => self.reannotate(s, p, wild),
            U(_) | V(_) | Nat | Zero => {}
        }
    }

    /// A sigma again, unless any type will do.
    fn pair_annotation(&mut self, s: &Scope, ty: &Term, wild: bool) -> Term {
        match ty {
            Sigma(a, b) if !(wild && self.0.chance(1, 3)) => {
                let b = self.annotation(&s.with(a), b, wild);
                sigma(self.annotation(s, a, wild), b)
            }
            _ => self.annotation(s, ty, wild),
        }
    }

    fn annotation(&mut self, s: &Scope, a: &Term, wild: bool) -> Term {
        match self.0.below(4) {
            0 => a.clone(),
            1 if wild => self.typ(s, 0, 1),
            2 => self.reannotated(s, a, wild),
            _ => self.disguised(s, a).unwrap_or(Nat),
        }
    }
}
