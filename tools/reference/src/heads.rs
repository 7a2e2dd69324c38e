//! Request 9: normalising with a step that also reduces the head of an app or
//! of a papp, as congruence.rs does for those two, without faces.
use crate::equality::Reduced;
use crate::state::{Refusal, Result, State};
use crate::syntax::{Term, T};
use crate::transforms::Op;
use std::rc::Rc;
use Term::*;

impl State {
    /// Code 7: the walk of `normalize`, with the step below.
    pub fn normalize_head(&mut self, d: u32, g: &[T], t: &T, ty: &T) -> Result<Reduced> {
        self.enter(&[d.into(), g.into(), t.into(), ty.into()], |s| {
            s.reduce_until_none(d, g, t, ty, Self::step)
        })
    }

    /// One reduction, at the root or in the head.
    fn step(&mut self, d: u32, g: &[T], t: &T) -> Result<Option<Reduced>> {
        self.enter(&[d.into(), g.into(), t.into()], |s| {
            if let Some(out) = s.reduce(d, g, t)? {
                return Ok(Some(out));
            }
            match t.as_ref() {
                App(f, a) => s.step_app(d, g, t, f, a),
                Papp(p, _) => s.step_papp(d, g, t, p),
                _ => Ok(None),
            }
        })
    }

    fn step_app(&mut self, d: u32, g: &[T], t: &T, f: &T, arg: &T) -> Result<Option<Reduced>> {
        let (a, b, _) = self.function(d, g, f)?;
        let Some((f2, head)) = self.step(d, g, f)? else {
            return Ok(None);
        };
        if !self.stands_at(head, &Rc::new(Pi(a.clone(), b.clone()))) {
            return Err(Refusal(14));
        }
        let checked = self.check(d, g, arg, &a)?;
        let (ty, sub) = self.transform(&b, &Op::Subst(0, arg.clone()))?;
        let out = Rc::new(App(f2, arg.clone()));
        let left = self.check(d, g, t, &ty)?;
        let right = self.check(d, g, &out, &ty)?;
        let refs = vec![head, checked, sub, left, right];
        self.count(&out)?;
        let row = self.equality("eq.app-cong", refs, d, g, (t, &out, &ty))?;
        Ok(Some((out, row)))
    }

    fn step_papp(&mut self, d: u32, g: &[T], t: &T, p: &T) -> Result<Option<Reduced>> {
        let Papp(_, r) = t.as_ref() else { unreachable!("a papp is stepped") };
        let (a, b, c, _) = self.path(d, g, p)?;
        let Some((p2, head)) = self.step(d, g, p)? else {
            return Ok(None);
        };
        if !self.stands_at(head, &Rc::new(Path(a.clone(), b, c))) {
            return Err(Refusal(14));
        }
        let dim = self.interval(d, r)?;
        let (ty, sub) = self.transform(&a, &Op::DSubst(0, r.clone()))?;
        let out = Rc::new(Papp(p2, r.clone()));
        let left = self.check(d, g, t, &ty)?;
        let right = self.check(d, g, &out, &ty)?;
        let refs = vec![head, dim, sub, left, right];
        self.count(&out)?;
        let row = self.equality("eq.papp-cong", refs, d, g, (t, &out, &ty))?;
        Ok(Some((out, row)))
    }
}
