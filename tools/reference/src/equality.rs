//! Equality: `reduce`, `normalize`, `equal`.
use crate::quote::same;
use crate::state::{Refusal, Result, State};
use crate::syntax::{extend, Interval, Term, I, T};
use crate::transforms::Op;
use Term::*;

/// How many reductions one normalising may take.
const REDUCTIONS: usize = 32;

/// What a term reduces to, and the equality's row.
pub type Reduced = (T, usize);

/// One reduction of a term in a scope, if there is one.
type Step = fn(&mut State, u32, &[T], &T) -> Result<Option<Reduced>>;

impl State {
    /// A row for left = right at a type.
    pub fn equality(
        &mut self,
        rule: &str,
        refs: Vec<usize>,
        d: u32,
        g: &[T],
        (left, right, ty): (&T, &T, &T),
    ) -> Result<usize> {
        self.fact(rule, refs, "eq", &[d.into(), g.into(), left.into(), right.into(), ty.into()])
    }

    /// Whether the row of an equality has this type, by quote.
    pub fn stands_at(&self, row: usize, ty: &T) -> bool {
        self.rows[row].last == ty.to_string()
    }

    /// One reduction at the root, if there is one.
    pub fn reduce(&mut self, d: u32, g: &[T], t: &T) -> Result<Option<Reduced>> {
        self.enter(&[d.into(), g.into(), t.into()], |s| {
            let out = match t.as_ref() {
                App(f, r) => match f.as_ref() {
                    Lam(a, body) => s.reduce_beta(d, g, t, (a, body), r)?,
                    _ => None,
                },
                Papp(p, r) => match p.as_ref() {
                    Plam(_, body) => s.reduce_plam(d, g, t, (p, body), r)?,
                    _ => s.reduce_end(d, g, t, p, r)?,
                },
                Fst(p) => s.reduce_fst(d, g, t, p)?,
                Snd(p) => s.reduce_snd(d, g, t, p)?,
                _ => None,
            };
            if let Some((out, _)) = &out {
                s.count(out)?;
            }
            Ok(out)
        })
    }

    fn reduce_beta(
        &mut self,
        d: u32,
        g: &[T],
        t: &T,
        (a, body): (&T, &T),
        r: &T,
    ) -> Result<Option<Reduced>> {
        let (_, x) = self.universe(d, g, a)?;
        let inner = extend(g, a);
        let (b, y) = self.infer(d, &inner, body)?;
        let (_, z) = self.universe(d, &inner, &b)?;
        let arg = self.check(d, g, r, a)?;
        let (out, sub) = self.transform(body, &Op::Subst(0, r.clone()))?;
        let (ty, sub_ty) = self.transform(&b, &Op::Subst(0, r.clone()))?;
        let refs = vec![x, y, z, arg, sub, sub_ty];
        let row = self.equality("eq.beta", refs, d, g, (t, &out, &ty))?;
        Ok(Some((out, row)))
    }

    fn reduce_plam(
        &mut self,
        d: u32,
        g: &[T],
        t: &T,
        (p, body): (&T, &T),
        r: &I,
    ) -> Result<Option<Reduced>> {
        let (a, _, _, path) = self.path(d, g, p)?;
        let (ty, sub_ty) = self.transform(&a, &Op::DSubst(0, r.clone()))?;
        let dim = self.interval(d, r)?;
        let (out, sub) = self.transform(body, &Op::DSubst(0, r.clone()))?;
        let typed = self.check(d, g, &out, &ty)?;
        let refs = vec![path, dim, sub_ty, sub, typed];
        let row = self.equality("eq.pbeta", refs, d, g, (t, &out, &ty))?;
        Ok(Some((out, row)))
    }

    /// A papp of a path that is not written as plam.
    fn reduce_end(&mut self, d: u32, g: &[T], t: &T, p: &T, r: &I) -> Result<Option<Reduced>> {
        let literal = match r.as_ref() {
            Interval::Zero => Some(false),
            Interval::One => Some(true),
            _ => None,
        };
        if literal.is_none() && self.level.long_endpoints() {
            if let Some(end) = self.endpoint(r)? {
                return self.reduce_long_end(d, g, t, p, r, end).map(Some);
            }
        }
        let (a, b, c, path) = self.path(d, g, p)?;
        let (ty, sub_ty) = self.transform(&a, &Op::DSubst(0, r.clone()))?;
        let (out, rule) = match literal {
            None => return Ok(None),
            Some(false) => (b, "eq.p0"),
            Some(true) => (c, "eq.p1"),
        };
        let typed = self.check(d, g, &out, &ty)?;
        let row = self.equality(rule, vec![path, sub_ty, typed], d, g, (t, &out, &ty))?;
        Ok(Some((out, row)))
    }

    /// Request 5: the interval works out to an endpoint, by the row `worked`.
    fn reduce_long_end(
        &mut self,
        d: u32,
        g: &[T],
        t: &T,
        p: &T,
        r: &I,
        (end, worked): (bool, usize),
    ) -> Result<Reduced> {
        let (a, b, c, path) = self.path(d, g, p)?;
        let dim = self.interval(d, r)?;
        let (ty, sub_ty) = self.transform(&a, &Op::DSubst(0, r.clone()))?;
        let (out, rule) = if end { (c, "eq.p1-val") } else { (b, "eq.p0-val") };
        let typed = self.check(d, g, &out, &ty)?;
        let refs = vec![worked, path, dim, sub_ty, typed];
        let row = self.equality(rule, refs, d, g, (t, &out, &ty))?;
        Ok((out, row))
    }

    pub fn normalize(&mut self, d: u32, g: &[T], t: &T, ty: &T) -> Result<Reduced> {
        self.enter(&[d.into(), g.into(), t.into(), ty.into()], |s| {
            s.reduce_until_none(d, g, t, ty, Self::reduce)
        })
    }

    /// The loop of `normalize`, over its step.
    pub fn reduce_until_none(
        &mut self,
        d: u32,
        g: &[T],
        t: &T,
        ty: &T,
        step: Step,
    ) -> Result<Reduced> {
        let typed = self.check(d, g, t, ty)?;
        let mut row = self.equality("eq.refl", vec![typed], d, g, (t, t, ty))?;
        let mut current = t.clone();
        for reductions in 0.. {
            let Some((out, one)) = step(self, d, g, &current)? else {
                break;
            };
            if reductions == REDUCTIONS {
                return Err(Refusal(15));
            }
            if !self.stands_at(one, ty) {
                return Err(Refusal(14));
            }
            self.check(d, g, &out, ty)?;
            row = self.equality("eq.trans", vec![row, one], d, g, (t, &out, ty))?;
            current = out;
        }
        self.count(&current)?;
        Ok((current, row))
    }

    pub fn equal(&mut self, d: u32, g: &[T], a: &T, b: &T, ty: &T) -> Result<usize> {
        self.enter(&[d.into(), g.into(), a.into(), b.into(), ty.into()], |s| {
            let typed = s.check(d, g, a, ty)?;
            s.check(d, g, b, ty)?;
            if same(a, b) {
                return s.equality("eq.refl", vec![typed], d, g, (a, b, ty));
            }
            let (left, l) = s.normalize(d, g, a, ty)?;
            let (right, r) = s.normalize(d, g, b, ty)?;
            if !same(&left, &right) {
                return Err(Refusal(13));
            }
            let back = s.equality("eq.sym", vec![r], d, g, (&right, b, ty))?;
            s.equality("eq.trans", vec![l, back], d, g, (a, b, ty))
        })
    }
}
