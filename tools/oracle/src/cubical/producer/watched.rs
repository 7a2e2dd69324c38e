//! The sixteen reference functions, `endpoint`, `head_normalize` and `head_step`, under
//! their own names: each notes that it is entered, counts its arguments from left to
//! right, and calls the body that the source gives it. Results that no row names are counted on return.
use super::endpoints::End;
use super::{Interval, Op, Producer, Result, Term};
use crate::cells::Cells;

impl Producer {
    fn watched<T>(
        &mut self,
        arguments: impl FnOnce(&mut Cells) -> Result<()>,
        body: impl FnOnce(&mut Self) -> Result<T>,
        result: impl FnOnce(&mut Cells, &T) -> Result<()>,
    ) -> Result<T> {
        self.watch.enter()?;
        let out = self.inside(arguments, body, result);
        self.watch.leave();
        out
    }

    fn inside<T>(
        &mut self,
        arguments: impl FnOnce(&mut Cells) -> Result<()>,
        body: impl FnOnce(&mut Self) -> Result<T>,
        result: impl FnOnce(&mut Cells, &T) -> Result<()>,
    ) -> Result<T> {
        if self.watch.counting {
            arguments(&mut self.watch.cells)?;
        }
        let out = body(self)?;
        if self.watch.counting {
            result(&mut self.watch.cells, &out)?;
        }
        Ok(out)
    }

    pub(super) fn ctx(&mut self, d: usize, g: &[Term]) -> Result<usize> {
        self.watched(|c| context(c, g), |p| p.ctx_source(d, g), none)
    }

    pub(super) fn infer(&mut self, d: usize, g: &[Term], t: &Term) -> Result<(Term, usize)> {
        self.watched(|c| scope(c, g, &[t]), |p| p.infer_source(d, g, t), none)
    }

    pub(super) fn universe(&mut self, d: usize, g: &[Term], t: &Term) -> Result<(usize, usize)> {
        self.watched(|c| scope(c, g, &[t]), |p| p.universe_source(d, g, t), none)
    }

    pub(super) fn check(&mut self, d: usize, g: &[Term], t: &Term, ty: &Term) -> Result<usize> {
        self.watched(|c| scope(c, g, &[t, ty]), |p| p.check_source(d, g, t, ty), none)
    }

    pub(super) fn expose(
        &mut self,
        d: usize,
        g: &[Term],
        t: &Term,
        ty: &Term,
        typed: usize,
    ) -> Result<(Term, usize)> {
        self.watched(
            |c| scope(c, g, &[t, ty]),
            |p| p.expose_source(d, g, t, ty, typed),
            |c, (out, _)| term(c, out),
        )
    }

    pub(super) fn normalize(
        &mut self,
        d: usize,
        g: &[Term],
        t: &Term,
        ty: &Term,
    ) -> Result<(Term, usize)> {
        self.watched(
            |c| scope(c, g, &[t, ty]),
            |p| p.normalize_source(d, g, t, ty, false),
            |c, (out, _)| term(c, out),
        )
    }

    pub(super) fn head_normalize(
        &mut self,
        d: usize,
        g: &[Term],
        t: &Term,
        ty: &Term,
    ) -> Result<(Term, usize)> {
        self.watched(
            |c| scope(c, g, &[t, ty]),
            |p| p.normalize_source(d, g, t, ty, true),
            |c, (out, _)| term(c, out),
        )
    }

    pub(super) fn head_step(
        &mut self,
        d: usize,
        g: &[Term],
        t: &Term,
    ) -> Result<Option<(Term, usize)>> {
        self.watched(
            |c| scope(c, g, &[t]),
            |p| p.head_step_source(d, g, t),
            |c, out| out.as_ref().map_or(Ok(()), |(out, _)| term(c, out)),
        )
    }

    pub(super) fn equal(
        &mut self,
        d: usize,
        g: &[Term],
        a: &Term,
        b: &Term,
        ty: &Term,
    ) -> Result<usize> {
        self.watched(|c| scope(c, g, &[a, b, ty]), |p| p.equal_source(d, g, a, b, ty), none)
    }

    pub(super) fn reduce(
        &mut self,
        d: usize,
        g: &[Term],
        t: &Term,
    ) -> Result<Option<(Term, usize)>> {
        self.watched(
            |c| scope(c, g, &[t]),
            |p| p.reduce_source(d, g, t),
            |c, out| out.as_ref().map_or(Ok(()), |(out, _)| term(c, out)),
        )
    }

    pub(super) fn lookup(&mut self, g: &[Term], n: usize) -> Result<(Term, usize)> {
        self.watched(|c| context(c, g), |p| p.lookup_source(g, n), none)
    }

    pub(super) fn dshiftctx(&mut self, g: &[Term]) -> Result<(Vec<Term>, usize)> {
        self.watched(|c| context(c, g), |p| p.dshiftctx_source(g), none)
    }

    pub(super) fn transform(&mut self, t: &Term, op: &Op) -> Result<(Term, usize)> {
        self.watched(
            |c| term(c, t).and_then(|()| operation(c, op)),
            |p| p.transform_source(t, op),
            none,
        )
    }

    pub(super) fn itransform(
        &mut self,
        r: &Interval,
        k: usize,
        replacement: Option<&Interval>,
        shift: bool,
    ) -> Result<(Interval, usize)> {
        self.watched(
            |c| interval(c, r).and_then(|()| replacement.map_or(Ok(()), |q| interval(c, q))),
            |p| p.itransform_source(r, k, replacement, shift),
            none,
        )
    }

    pub(super) fn under(&mut self, op: &Op, dimension: bool, refs: &mut Vec<usize>) -> Result<Op> {
        self.watched(|c| operation(c, op), |p| p.under_source(op, dimension, refs), operation)
    }

    pub(super) fn interval(&mut self, d: usize, r: &Interval) -> Result<usize> {
        self.watched(|c| interval(c, r), |p| p.interval_source(d, r), none)
    }

    pub(super) fn endpoint(&mut self, r: &Interval) -> Result<End> {
        self.watch.worked_out = true;
        self.watched(|c| interval(c, r), |p| p.endpoint_source(r), none)
    }

    pub(super) fn comparison(&mut self, m: usize, n: usize, strict: bool) -> Result<usize> {
        self.watched(|_| Ok(()), |p| p.comparison_source(m, n, strict), none)
    }

    pub(super) fn max(&mut self, m: usize, n: usize) -> Result<usize> {
        self.watched(|_| Ok(()), |p| p.max_source(m, n), none)
    }

    // What the edits put before a row, and before an inference is stored.

    pub(super) fn count_term(&mut self, t: &Term) -> Result<()> {
        if self.watch.counting {
            term(&mut self.watch.cells, t)?;
        }
        Ok(())
    }

    pub(super) fn count_interval(&mut self, r: &Interval) -> Result<()> {
        if self.watch.counting {
            interval(&mut self.watch.cells, r)?;
        }
        Ok(())
    }

    pub(super) fn count_context(&mut self, g: &[Term]) -> Result<()> {
        if self.watch.counting {
            context(&mut self.watch.cells, g)?;
        }
        Ok(())
    }

    pub(super) fn count_inference(&mut self, d: usize, g: &[Term], t: &Term) -> Result<()> {
        if self.watch.counting {
            self.watch.cells.inference(d, g, t)?;
        }
        Ok(())
    }
}

fn none<T>(_: &mut Cells, _: &T) -> Result<()> {
    Ok(())
}

fn term(c: &mut Cells, t: &Term) -> Result<()> {
    c.term(t).map(drop)
}

fn interval(c: &mut Cells, r: &Interval) -> Result<()> {
    c.interval(r).map(drop)
}

fn context(c: &mut Cells, g: &[Term]) -> Result<()> {
    c.context(g).map(drop)
}

fn scope(c: &mut Cells, g: &[Term], terms: &[&Term]) -> Result<()> {
    c.context(g)?;
    terms.iter().try_for_each(|t| term(c, t))
}

fn operation(c: &mut Cells, op: &Op) -> Result<()> {
    match op {
        Op::Shift(_) | Op::DShift(_) => Ok(()),
        Op::Subst(_, r) => term(c, r),
        Op::DSubst(_, r) => interval(c, r),
    }
}
