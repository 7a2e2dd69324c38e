//! Typing: `infer`, `universe`, `check`, `expose`.
use crate::quote::same;
use crate::state::{Refusal, Result, State};
use crate::syntax::{extend, Interval, Term, I, T};
use crate::transforms::Op;
use std::rc::Rc;
use Term::*;

/// The type that `infer` finds, the cited rows and the rule.
pub type Found = (T, Vec<usize>, &'static str);

impl State {
    fn has(
        &mut self,
        rule: &str,
        refs: Vec<usize>,
        d: u32,
        g: &[T],
        t: &T,
        ty: &T,
    ) -> Result<usize> {
        self.fact(rule, refs, "has", &[d.into(), g.into(), t.into(), ty.into()])
    }

    /// The type's normal form, and the row that t has it.
    pub fn expose(&mut self, d: u32, g: &[T], t: &T, ty: &T, typed: usize) -> Result<(T, usize)> {
        self.enter(&[d.into(), g.into(), t.into(), ty.into()], |s| {
            let (level, _) = s.universe(d, g, ty)?;
            let kind = Rc::new(U(level));
            let (normal, equality) = s.normalize(d, g, ty, &kind)?;
            let mut row = typed;
            if !same(&normal, ty) {
                let well = s.check(d, g, &normal, &kind)?;
                row = s.has("type.conv", vec![typed, equality, well], d, g, t, &normal)?;
            }
            s.count(&normal)?;
            Ok((normal, row))
        })
    }

    pub fn universe(&mut self, d: u32, g: &[T], t: &T) -> Result<(u32, usize)> {
        self.enter(&[d.into(), g.into(), t.into()], |s| {
            let (ty, row) = s.infer(d, g, t)?;
            if let U(level) = *ty {
                return Ok((level, row));
            }
            s.converting(|s| {
                let (ty, row) = s.expose(d, g, t, &ty, row)?;
                match *ty {
                    U(level) => Ok((level, row)),
                    _ => Err(Refusal(11)),
                }
            })
        })
    }

    pub fn check(&mut self, d: u32, g: &[T], t: &T, ty: &T) -> Result<usize> {
        self.enter(&[d.into(), g.into(), t.into(), ty.into()], |s| {
            let (found, row) = s.infer(d, g, t)?;
            if same(&found, ty) {
                return Ok(row);
            }
            s.converting(|s| {
                let (i, _) = s.universe(d, g, &found)?;
                let (j, well) = s.universe(d, g, ty)?;
                if i != j {
                    return Err(Refusal(12));
                }
                let equality = s.equal(d, g, &found, ty, &Rc::new(U(i)))?;
                s.has("type.conv", vec![row, equality, well], d, g, t, ty)
            })
        })
    }

    pub fn infer(&mut self, d: u32, g: &[T], t: &T) -> Result<(T, usize)> {
        self.enter(&[d.into(), g.into(), t.into()], |s| {
            if let Some(known) = s.remembered(d, g, t) {
                return Ok(known);
            }
            let (ty, refs, rule) = s.infer_kind(d, g, t)?;
            s.count(&ty)?;
            let row = s.has(rule, refs, d, g, t, &ty)?;
            s.remember(d, g, t, &ty, row)?;
            Ok((ty, row))
        })
    }

    fn infer_kind(&mut self, d: u32, g: &[T], t: &T) -> Result<Found> {
        Ok(match t.as_ref() {
            U(level) => (Rc::new(U(level + 1)), vec![self.ctx(d, g)?], "type.u"),
            Nat => (Rc::new(U(0)), vec![self.ctx(d, g)?], "type.nat"),
            Zero => (Rc::new(Nat), vec![self.ctx(d, g)?], "type.zero"),
            V(n) => {
                let x = self.ctx(d, g)?;
                let (ty, y) = self.lookup(g, *n)?;
                (ty, vec![x, y], "type.v")
            }
            Pi(a, b) => self.infer_pair_of_types(d, g, a, b, "type.pi")?,
            Lam(a, body) => {
                let (_, x) = self.universe(d, g, a)?;
                let inner = extend(g, a);
                let (b, y) = self.infer(d, &inner, body)?;
                let (_, z) = self.universe(d, &inner, &b)?;
                (Rc::new(Pi(a.clone(), b)), vec![x, y, z], "type.lam")
            }
            App(f, a) => {
                let (domain, codomain, x) = self.function(d, g, f)?;
                let y = self.check(d, g, a, &domain)?;
                let (ty, z) = self.transform(&codomain, &Op::Subst(0, a.clone()))?;
                (ty, vec![x, y, z], "type.app")
            }
            Path(a, b, c) => self.infer_path(d, g, a, b, c)?,
            Plam(a, body) => self.infer_plam(d, g, a, body)?,
            Papp(p, r) => {
                let (a, _, _, x) = self.path(d, g, p)?;
                let y = self.interval(d, r)?;
                let (ty, z) = self.transform(&a, &Op::DSubst(0, r.clone()))?;
                let (_, u) = self.universe(d, g, &ty)?;
                (ty, vec![x, y, z, u], "type.papp")
            }
            Sigma(a, b) => self.infer_pair_of_types(d, g, a, b, "type.sigma")?,
            Pair(ty, first, second) => self.infer_pair(d, g, ty, first, second)?,
            Fst(p) => self.infer_fst(d, g, p)?,
            Snd(p) => self.infer_snd(d, g, p)?,
        })
    }

    /// pi A B, and sigma A B alike.
    fn infer_pair_of_types(
        &mut self,
        d: u32,
        g: &[T],
        a: &T,
        b: &T,
        rule: &'static str,
    ) -> Result<Found> {
        let (i, x) = self.universe(d, g, a)?;
        let (j, y) = self.universe(d, &extend(g, a), b)?;
        let z = self.max(i, j)?;
        Ok((Rc::new(U(i.max(j))), vec![x, y, z], rule))
    }

    fn infer_path(&mut self, d: u32, g: &[T], a: &T, b: &T, c: &T) -> Result<Found> {
        let context = self.ctx(d, g)?;
        let (inner, shifted) = self.dshiftctx(g)?;
        let (level, family) = self.universe(d + 1, &inner, a)?;
        let (a0, x) = self.transform(a, &at(Interval::Zero))?;
        let (a1, y) = self.transform(a, &at(Interval::One))?;
        let left = self.check(d, g, b, &a0)?;
        let right = self.check(d, g, c, &a1)?;
        let refs = vec![context, shifted, family, x, y, left, right];
        Ok((Rc::new(U(level)), refs, "type.path"))
    }

    fn infer_plam(&mut self, d: u32, g: &[T], a: &T, body: &T) -> Result<Found> {
        let context = self.ctx(d, g)?;
        let (inner, shifted) = self.dshiftctx(g)?;
        let (_, family) = self.universe(d + 1, &inner, a)?;
        let typed = self.check(d + 1, &inner, body, a)?;
        let (a0, x) = self.transform(a, &at(Interval::Zero))?;
        let (a1, y) = self.transform(a, &at(Interval::One))?;
        let (b0, z) = self.transform(body, &at(Interval::Zero))?;
        let (b1, w) = self.transform(body, &at(Interval::One))?;
        let left = self.check(d, g, &b0, &a0)?;
        let right = self.check(d, g, &b1, &a1)?;
        let refs = vec![context, shifted, family, typed, x, y, z, w, left, right];
        Ok((Rc::new(Path(a.clone(), b0, b1)), refs, "type.plam"))
    }

    /// A function's domain and codomain, and the row of its pi type.
    pub fn function(&mut self, d: u32, g: &[T], f: &T) -> Result<(T, T, usize)> {
        let (mut ty, mut row) = self.infer(d, g, f)?;
        if !matches!(*ty, Pi(..)) {
            (ty, row) = self.converting(|s| s.expose(d, g, f, &ty, row))?;
        }
        match ty.as_ref() {
            Pi(a, b) => Ok((a.clone(), b.clone(), row)),
            _ => Err(Refusal(9)),
        }
    }

    /// A path's family and ends, and the row of its path type.
    pub fn path(&mut self, d: u32, g: &[T], p: &T) -> Result<(T, T, T, usize)> {
        let (mut ty, mut row) = self.infer(d, g, p)?;
        if !matches!(*ty, Path(..)) {
            (ty, row) = self.converting(|s| s.expose(d, g, p, &ty, row))?;
        }
        match ty.as_ref() {
            Path(a, b, c) => Ok((a.clone(), b.clone(), c.clone(), row)),
            _ => Err(Refusal(10)),
        }
    }
}

fn at(end: Interval) -> Op {
    let end: I = Rc::new(end);
    Op::DSubst(0, end)
}
