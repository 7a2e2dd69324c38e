//! Request 9: the step at the root or at the head, over congruence.rs. The edits named
//! HEADS in edits/list.rs have `normalize` walk with it.
use super::{Producer, Refusal, Result, Term};

impl Producer {
    /// The step that a walk of `normalize` takes.
    pub(super) fn step(
        &mut self,
        head: bool,
        d: usize,
        g: &[Term],
        t: &Term,
    ) -> Result<Option<(Term, usize)>> {
        if head {
            self.head_step(d, g, t)
        } else {
            self.reduce(d, g, t)
        }
    }

    /// As the source's `restricted_reduce`: at the root, else by congruence.
    pub(super) fn head_step_source(
        &mut self,
        d: usize,
        g: &[Term],
        t: &Term,
    ) -> Result<Option<(Term, usize)>> {
        match self.reduce(d, g, t)? {
            None => self.reduce_congruence((d, g), t),
            found => Ok(found),
        }
    }

    /// The equation of a head, which has to stand at the head's type.
    pub(super) fn at_type(
        &self,
        _scope: (usize, &[Term]),
        _terms: (&Term, &Term),
        ty: &Term,
        eq: usize,
    ) -> Result<usize> {
        if self.steps[eq].2.list()?.last() == Some(&ty.quote()) {
            Ok(eq)
        } else {
            Err(Refusal(14))
        }
    }
}
