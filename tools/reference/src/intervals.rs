//! Intervals: whether they stand in the dimensions, what shifting and
//! substituting make of them, and, by request 5, which endpoint they work out to.
use crate::quote::Arg;
use crate::state::{Result, State};
use crate::syntax::{Interval, I};
use std::rc::Rc;
use Interval::*;

impl State {
    pub fn interval(&mut self, d: u32, r: &I) -> Result<usize> {
        self.enter(&[d.into(), r.into()], |s| {
            let (rule, refs) = match r.as_ref() {
                Zero => ("interval.0", vec![]),
                One => ("interval.1", vec![]),
                Dim(n) => ("interval.dim", vec![s.comparison(*n, d, true)?]),
                Neg(a) => ("interval.neg", vec![s.interval(d, a)?]),
                Meet(a, b) => ("interval.meet", vec![s.interval(d, a)?, s.interval(d, b)?]),
                Join(a, b) => ("interval.join", vec![s.interval(d, a)?, s.interval(d, b)?]),
            };
            s.fact(rule, refs, "interval", &[d.into(), r.into()])
        })
    }

    /// `with` is what is substituted at k; without, r is shifted at k.
    pub fn itransform(&mut self, r: &I, k: u32, with: Option<&I>) -> Result<(I, usize)> {
        let mut args: Vec<Arg> = vec![r.into(), k.into()];
        args.extend(with.map(Arg::from));
        self.enter(&args, |s| {
            let name = if with.is_some() { "isubst" } else { "ishift" };
            let (out, suffix, refs) = s.itransform_parts(r, k, with)?;
            s.count(&out)?;
            let mut args: Vec<Arg> = vec![r.into(), k.into()];
            args.extend(with.map(Arg::from));
            args.push((&out).into());
            let row = s.fact(&format!("{name}.{suffix}"), refs, name, &args)?;
            Ok((out, row))
        })
    }

    fn itransform_parts(
        &mut self,
        r: &I,
        k: u32,
        with: Option<&I>,
    ) -> Result<(I, &'static str, Vec<usize>)> {
        Ok(match (r.as_ref(), with) {
            (Zero, _) => (r.clone(), "0", vec![]),
            (One, _) => (r.clone(), "1", vec![]),
            (Dim(n), Some(with)) if *n == k => (with.clone(), "dim.hit", vec![]),
            (Dim(n), _) if *n < k => (r.clone(), "dim.lt", vec![self.comparison(*n, k, true)?]),
            (Dim(n), None) => {
                let row = self.comparison(k, *n, false)?;
                (Rc::new(Dim(n + 1)), "dim.ge", vec![row])
            }
            (Dim(n), Some(_)) => {
                let row = self.comparison(k, *n, true)?;
                (Rc::new(Dim(n - 1)), "dim.gt", vec![row])
            }
            (Neg(a), _) => {
                let (a, x) = self.itransform(a, k, with)?;
                (Rc::new(Neg(a)), "neg", vec![x])
            }
            (Meet(a, b), _) => {
                let (a, x) = self.itransform(a, k, with)?;
                let (b, y) = self.itransform(b, k, with)?;
                (Rc::new(Meet(a, b)), "meet", vec![x, y])
            }
            (Join(a, b), _) => {
                let (a, x) = self.itransform(a, k, with)?;
                let (b, y) = self.itransform(b, k, with)?;
                (Rc::new(Join(a, b)), "join", vec![x, y])
            }
        })
    }

    /// The endpoint that r works out to, if it does: false for i0, true for i1,
    /// with the row that says so.
    pub fn endpoint(&mut self, r: &I) -> Result<Option<(bool, usize)>> {
        self.enter(&[r.into()], |s| {
            let Some((end, rule, refs)) = s.endpoint_parts(r)? else {
                return Ok(None);
            };
            let e = Rc::new(if end { One } else { Zero });
            s.count(&e)?;
            let row = s.fact(rule, refs, "iend", &[r.into(), (&e).into()])?;
            Ok(Some((end, row)))
        })
    }

    fn endpoint_parts(&mut self, r: &I) -> Result<Option<(bool, &'static str, Vec<usize>)>> {
        Ok(match r.as_ref() {
            Zero => Some((false, "iend.0", vec![])),
            One => Some((true, "iend.1", vec![])),
            Dim(_) => None,
            Neg(a) => self.endpoint(a)?.map(|(end, x)| (!end, "iend.neg", vec![x])),
            Meet(a, b) => self.two_ends(a, b, false)?.map(|(end, refs)| (end, "iend.meet", refs)),
            Join(a, b) => self.two_ends(a, b, true)?.map(|(end, refs)| (end, "iend.join", refs)),
        })
    }

    /// `enough` is the endpoint that decides with one part alone: i0 in a meet,
    /// i1 in a join. The right part is worked out where the left is not enough.
    fn two_ends(&mut self, a: &I, b: &I, enough: bool) -> Result<Option<(bool, Vec<usize>)>> {
        let left = self.endpoint(a)?;
        if let Some((end, x)) = left {
            if end == enough {
                return Ok(Some((enough, vec![x])));
            }
        }
        let right = self.endpoint(b)?;
        Ok(match (left, right) {
            (_, Some((end, y))) if end == enough => Some((enough, vec![y])),
            (Some((_, x)), Some((_, y))) => Some((!enough, vec![x, y])),
            _ => None,
        })
    }
}
