//! Comparisons and maxima of numbers.
use crate::state::{Refusal, Result, State};

impl State {
    /// m < n where `strict`, else m <= n.
    pub fn comparison(&mut self, m: u32, n: u32, strict: bool) -> Result<usize> {
        self.enter(&[], |s| {
            if m > n || (strict && m == n) {
                return Err(Refusal(17));
            }
            let name = if strict { "lt" } else { "le" };
            let (rule, refs) = if m == 0 {
                (format!("{name}.z"), vec![])
            } else {
                (format!("{name}.s"), vec![s.comparison(m - 1, n - 1, strict)?])
            };
            s.fact(&rule, refs, name, &[m.into(), n.into()])
        })
    }

    pub fn max(&mut self, m: u32, n: u32) -> Result<usize> {
        self.enter(&[], |s| {
            let (rule, refs) = if m == 0 {
                ("max.z", vec![])
            } else if n == 0 {
                ("max.sz", vec![])
            } else {
                ("max.ss", vec![s.max(m - 1, n - 1)?])
            };
            s.fact(rule, refs, "max", &[m.into(), n.into(), m.max(n).into()])
        })
    }
}
