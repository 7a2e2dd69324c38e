//! Request 5, which the source has not: the end that an interval works out to,
//! and a papp that goes to it. The edits named LONG ENDS in edits/list.rs enter it.
use super::{Interval, Op, Producer, Result, Term};

/// An end, i1 or not, and the row that says so.
pub type End = Option<(bool, usize)>;

impl Producer {
    /// What the interval of a papp works out to, where that is asked for: of a
    /// plam it is not, nor where an end is written.
    pub(super) fn long_end(&mut self, p: &Term, r: &Interval) -> Result<End> {
        if matches!(p, Term::PathLam(..)) || matches!(r, Interval::Zero | Interval::One) {
            return Ok(None);
        }
        self.endpoint(r)
    }

    pub(super) fn endpoint_source(&mut self, r: &Interval) -> Result<End> {
        let (rule, one, refs) = match r {
            Interval::Zero => ("iend.0", false, vec![]),
            Interval::One => ("iend.1", true, vec![]),
            Interval::Var(_) => return Ok(None),
            Interval::Neg(a) => match self.endpoint(a)? {
                None => return Ok(None),
                Some((one, row)) => ("iend.neg", !one, vec![row]),
            },
            Interval::Meet(a, b) => match self.of_two(a, b, false)? {
                None => return Ok(None),
                Some((one, refs)) => ("iend.meet", one, refs),
            },
            Interval::Join(a, b) => match self.of_two(a, b, true)? {
                None => return Ok(None),
                Some((one, refs)) => ("iend.join", one, refs),
            },
        };
        let end = if one { Interval::One } else { Interval::Zero };
        self.count_interval(&end)?;
        let row = self.fact(rule, refs, "iend", vec![r.quote(), end.quote()])?;
        Ok(Some((one, row)))
    }

    /// A meet (whose end `enough` is i0) or a join (i1), with the rows to cite.
    fn of_two(
        &mut self,
        a: &Interval,
        b: &Interval,
        enough: bool,
    ) -> Result<Option<(bool, Vec<usize>)>> {
        let left = self.endpoint(a)?;
        if let Some((one, x)) = left.filter(|(one, _)| *one == enough) {
            return Ok(Some((one, vec![x])));
        }
        let right = self.endpoint(b)?;
        if let Some((one, y)) = right.filter(|(one, _)| *one == enough) {
            return Ok(Some((one, vec![y])));
        }
        Ok(left.zip(right).map(|((one, x), (_, y))| (one, vec![x, y])))
    }

    /// The papp t, whose path has this type by the row `path`, at an interval that
    /// works out to an end.
    pub(super) fn at_end(
        &mut self,
        (d, g): (usize, &[Term]),
        t: &Term,
        r: &Interval,
        [a, b, c]: [&Term; 3],
        path: usize,
        (one, worked): (bool, usize),
    ) -> Result<Option<(Term, usize)>> {
        let dim = self.interval(d, r)?;
        let (ty, sub) = self.transform(a, &Op::DSubst(0, r.clone()))?;
        let out = if one { c } else { b };
        let typed = self.check(d, g, out, &ty)?;
        let rule = if one { "eq.p1-val" } else { "eq.p0-val" };
        let refs = vec![worked, path, dim, sub, typed];
        let id = self.equality_step(rule, refs, (d, g), t, out, &ty)?;
        Ok(Some((out.clone(), id)))
    }
}
