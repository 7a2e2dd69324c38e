//! Request 1: the walks of sigma.rs without faces, inside `infer` and `reduce`.
use crate::equality::Reduced;
use crate::state::{Refusal, Result, State};
use crate::syntax::{extend, Term, T};
use crate::transforms::Op;
use crate::typing::Found;
use std::rc::Rc;
use Term::*;

impl State {
    /// The parts of a projection's sigma type, and the row that p has it.
    fn subject(&mut self, d: u32, g: &[T], p: &T) -> Result<(T, T, usize)> {
        let (mut ty, mut row) = self.infer(d, g, p)?;
        if !matches!(*ty, Sigma(..)) {
            (ty, row) = self.converting(|s| s.expose(d, g, p, &ty, row))?;
        }
        match ty.as_ref() {
            Sigma(a, b) => Ok((a.clone(), b.clone(), row)),
            _ => Err(Refusal(21)),
        }
    }

    pub fn infer_pair(&mut self, d: u32, g: &[T], ty: &T, first: &T, second: &T) -> Result<Found> {
        let Sigma(a, b) = ty.as_ref() else {
            return Err(Refusal(22));
        };
        let (_, x) = self.universe(d, g, a)?;
        let (j, y) = self.universe(d, &extend(g, a), b)?;
        let left = self.check(d, g, first, a)?;
        let (at_first, sub) = self.transform(b, &Op::Subst(0, first.clone()))?;
        let kind = self.check(d, g, &at_first, &Rc::new(U(j)))?;
        let right = self.check(d, g, second, &at_first)?;
        Ok((ty.clone(), vec![x, y, left, sub, kind, right], "type.pair"))
    }

    pub fn infer_fst(&mut self, d: u32, g: &[T], p: &T) -> Result<Found> {
        let (a, _, row) = self.subject(d, g, p)?;
        let (_, kind) = self.universe(d, g, &a)?;
        Ok((a, vec![row, kind], "type.fst"))
    }

    pub fn infer_snd(&mut self, d: u32, g: &[T], p: &T) -> Result<Found> {
        let (_, b, row) = self.subject(d, g, p)?;
        let (at_fst, sub) = self.transform(&b, &Op::Subst(0, Rc::new(Fst(p.clone()))))?;
        let (_, kind) = self.universe(d, g, &at_fst)?;
        Ok((at_fst, vec![row, sub, kind], "type.snd"))
    }

    /// t is fst p; a pair alone is walked.
    pub fn reduce_fst(&mut self, d: u32, g: &[T], t: &T, p: &T) -> Result<Option<Reduced>> {
        let Pair(_, first, _) = p.as_ref() else {
            return Ok(None);
        };
        let (a, _, typed) = self.subject(d, g, p)?;
        let left = self.check(d, g, first, &a)?;
        let row = self.equality("eq.fst-beta", vec![typed, left], d, g, (t, first, &a))?;
        Ok(Some((first.clone(), row)))
    }

    /// t is snd p.
    pub fn reduce_snd(&mut self, d: u32, g: &[T], t: &T, p: &T) -> Result<Option<Reduced>> {
        let Pair(_, _, second) = p.as_ref() else {
            return Ok(None);
        };
        let (_, b, typed) = self.subject(d, g, p)?;
        let (ty, sub) = self.transform(&b, &Op::Subst(0, Rc::new(Fst(p.clone()))))?;
        let right = self.check(d, g, second, &ty)?;
        let row = self.equality("eq.snd-beta", vec![typed, sub, right], d, g, (t, second, &ty))?;
        Ok(Some((second.clone(), row)))
    }
}
