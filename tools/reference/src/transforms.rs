//! Shifting and substituting in terms.
use crate::quote::Arg;
use crate::state::{Result, State};
use crate::syntax::{Term, I, T};
use std::rc::Rc;
use Term::*;

/// Each has the place that it works at, and what it puts in there.
#[derive(Clone)]
pub enum Op {
    Shift(u32),
    Subst(u32, T),
    DShift(u32),
    DSubst(u32, I),
}

impl Op {
    fn name(&self) -> &'static str {
        match self {
            Self::Shift(_) => "shift",
            Self::Subst(..) => "subst",
            Self::DShift(_) => "dshift",
            Self::DSubst(..) => "dsubst",
        }
    }

    fn place(&self) -> u32 {
        match self {
            Self::Shift(k) | Self::Subst(k, _) | Self::DShift(k) | Self::DSubst(k, _) => *k,
        }
    }

    fn put_in(&self) -> Option<Arg> {
        match self {
            Self::Subst(_, a) => Some(a.into()),
            Self::DSubst(_, r) => Some(r.into()),
            _ => None,
        }
    }
}

/// What a transform makes of a term: the term, the rule's suffix, cited rows.
type Parts = (T, &'static str, Vec<usize>);

impl State {
    /// The operation under a binder, of a dimension or of a variable. Rows that
    /// it needs are added to those cited.
    fn under(&mut self, op: &Op, dimension: bool, refs: &mut Vec<usize>) -> Result<Op> {
        let args: Vec<Arg> = op.put_in().into_iter().collect();
        self.enter(&args, |s| {
            let out = match (op, dimension) {
                (Op::Shift(k), false) => Op::Shift(k + 1),
                (Op::Subst(k, a), false) => {
                    let (a, x) = s.transform(a, &Op::Shift(0))?;
                    refs.push(x);
                    Op::Subst(k + 1, a)
                }
                (Op::Subst(k, a), true) => {
                    let (a, x) = s.transform(a, &Op::DShift(0))?;
                    refs.push(x);
                    Op::Subst(*k, a)
                }
                (Op::DShift(k), true) => Op::DShift(k + 1),
                (Op::DSubst(k, r), true) => {
                    let (r, x) = s.itransform(r, 0, None)?;
                    refs.push(x);
                    Op::DSubst(k + 1, r)
                }
                _ => op.clone(),
            };
            out.put_in().map_or(Ok(()), |arg| s.count(arg))?;
            Ok(out)
        })
    }

    pub fn transform(&mut self, t: &T, op: &Op) -> Result<(T, usize)> {
        let mut args: Vec<Arg> = vec![t.into()];
        args.extend(op.put_in());
        self.enter(&args, |s| {
            let (out, suffix, refs) = s.transform_parts(t, op)?;
            s.count(&out)?;
            let mut args: Vec<Arg> = vec![t.into(), op.place().into()];
            args.extend(op.put_in());
            args.push((&out).into());
            let row = s.fact(&format!("{}.{suffix}", op.name()), refs, op.name(), &args)?;
            Ok((out, row))
        })
    }

    fn transform_parts(&mut self, t: &T, op: &Op) -> Result<Parts> {
        Ok(match t.as_ref() {
            U(_) => (t.clone(), "u", vec![]),
            Nat => (t.clone(), "nat", vec![]),
            Zero => (t.clone(), "zero", vec![]),
            V(n) => self.transform_variable(t, *n, op)?,
            Pi(a, b) => {
                let (a, b, refs) = self.transform_binder(a, b, op)?;
                (Rc::new(Pi(a, b)), "pi", refs)
            }
            Sigma(a, b) => {
                let (a, b, refs) = self.transform_binder(a, b, op)?;
                (Rc::new(Sigma(a, b)), "sigma", refs)
            }
            Lam(a, b) => {
                // The annotation's row is the first, and is not cited.
                let (a, b, refs) = self.transform_binder(a, b, op)?;
                (Rc::new(Lam(a, b)), "lam", refs[1..].to_vec())
            }
            App(f, a) => {
                let (f, x) = self.transform(f, op)?;
                let (a, y) = self.transform(a, op)?;
                (Rc::new(App(f, a)), "app", vec![x, y])
            }
            Path(a, b, c) => {
                let mut refs = vec![];
                let inner = self.under(op, true, &mut refs)?;
                let (a, x) = self.transform(a, &inner)?;
                let (b, y) = self.transform(b, op)?;
                let (c, z) = self.transform(c, op)?;
                refs.extend([x, y, z]);
                (Rc::new(Path(a, b, c)), "path", refs)
            }
            Plam(a, b) => {
                let mut refs = vec![];
                let inner = self.under(op, true, &mut refs)?;
                let (a, _) = self.transform(a, &inner)?;
                let (b, x) = self.transform(b, &inner)?;
                refs.push(x);
                (Rc::new(Plam(a, b)), "plam", refs)
            }
            Papp(p, r) => {
                let (p, x) = self.transform(p, op)?;
                let mut refs = vec![x];
                let r = match op {
                    Op::Shift(_) | Op::Subst(..) => r.clone(),
                    Op::DShift(k) => self.cited(r, *k, None, &mut refs)?,
                    Op::DSubst(k, with) => self.cited(r, *k, Some(with), &mut refs)?,
                };
                (Rc::new(Papp(p, r)), "papp", refs)
            }
            Pair(a, b, c) => {
                let (a, _) = self.transform(a, op)?;
                let (b, x) = self.transform(b, op)?;
                let (c, y) = self.transform(c, op)?;
                (Rc::new(Pair(a, b, c)), "pair", vec![x, y])
            }
            Fst(p) => {
                let (p, x) = self.transform(p, op)?;
                (Rc::new(Fst(p)), "fst", vec![x])
            }
            Snd(p) => {
                let (p, x) = self.transform(p, op)?;
                (Rc::new(Snd(p)), "snd", vec![x])
            }
        })
    }

    fn transform_variable(&mut self, t: &T, n: u32, op: &Op) -> Result<Parts> {
        let k = op.place();
        Ok(match op {
            Op::DShift(_) | Op::DSubst(..) => (t.clone(), "v", vec![]),
            Op::Subst(_, a) if n == k => (a.clone(), "v.hit", vec![]),
            _ if n < k => (t.clone(), "v.lt", vec![self.comparison(n, k, true)?]),
            Op::Shift(_) => {
                let row = self.comparison(k, n, false)?;
                (Rc::new(V(n + 1)), "v.ge", vec![row])
            }
            Op::Subst(..) => {
                let row = self.comparison(k, n, true)?;
                (Rc::new(V(n - 1)), "v.gt", vec![row])
            }
        })
    }

    /// a, and b under a variable: a's row, those of the operation, b's.
    fn transform_binder(&mut self, a: &T, b: &T, op: &Op) -> Result<(T, T, Vec<usize>)> {
        let (a, x) = self.transform(a, op)?;
        let mut refs = vec![x];
        let inner = self.under(op, false, &mut refs)?;
        let (b, y) = self.transform(b, &inner)?;
        refs.push(y);
        Ok((a, b, refs))
    }

    fn cited(&mut self, r: &I, k: u32, with: Option<&I>, refs: &mut Vec<usize>) -> Result<I> {
        let (r, row) = self.itransform(r, k, with)?;
        refs.push(row);
        Ok(r)
    }
}
