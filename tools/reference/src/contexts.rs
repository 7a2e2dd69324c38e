//! Contexts: that they are ones, what a variable has there, a new dimension.
use crate::quote::{judgment, Arg};
use crate::state::{Refusal, Result, State};
use crate::syntax::{extend, T};
use crate::transforms::Op;

impl State {
    pub fn ctx(&mut self, d: u32, g: &[T]) -> Result<usize> {
        let args: [Arg; 2] = [d.into(), g.into()];
        self.enter(&args, |s| {
            if let Some(row) = s.row_of(&judgment("ctx", &args)) {
                return Ok(row);
            }
            let (rule, refs) = match g.split_last() {
                None => ("ctx.nil", vec![]),
                Some((a, rest)) => {
                    let x = s.ctx(d, rest)?;
                    let (_, y) = s.universe(d, rest, a)?;
                    ("ctx.cons", vec![x, y])
                }
            };
            s.fact(rule, refs, "ctx", &args)
        })
    }

    pub fn lookup(&mut self, g: &[T], n: u32) -> Result<(T, usize)> {
        self.enter(&[g.into(), n.into()], |s| {
            let (a, rest) = g.split_last().ok_or(Refusal(8))?;
            let (ty, rule, refs) = if n == 0 {
                let (ty, x) = s.transform(a, &Op::Shift(0))?;
                (ty, "lookup.z", vec![x])
            } else {
                let (ty, x) = s.lookup(rest, n - 1)?;
                let (ty, y) = s.transform(&ty, &Op::Shift(0))?;
                (ty, "lookup.s", vec![x, y])
            };
            s.count(&ty)?;
            let row = s.fact(rule, refs, "lookup", &[g.into(), n.into(), (&ty).into()])?;
            Ok((ty, row))
        })
    }

    pub fn dshiftctx(&mut self, g: &[T]) -> Result<(Vec<T>, usize)> {
        self.enter(&[g.into()], |s| {
            let (out, rule, refs) = match g.split_last() {
                None => (vec![], "dshiftctx.nil", vec![]),
                Some((a, rest)) => {
                    let (rest, x) = s.dshiftctx(rest)?;
                    let (a, y) = s.transform(a, &Op::DShift(0))?;
                    (extend(&rest, &a), "dshiftctx.cons", vec![x, y])
                }
            };
            s.count(out.as_slice())?;
            let args = [g.into(), 0.into(), out.as_slice().into()];
            let row = s.fact(rule, refs, "dshiftctx", &args)?;
            Ok((out, row))
        })
    }
}
