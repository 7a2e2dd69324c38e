//! A run's bytes: the nesting limit and the calls, or refusal 3 with its place.
use crate::cubical::ast::{Interval, Term};
use crate::language::{AHEAD_KINDS, CALLS, MANY};

#[derive(Clone)]
pub struct Call {
    pub code: u8,
    pub dimensions: usize,
    pub context: Vec<Term>,
    pub terms: Vec<Term>,
}

/// The place of what is wrong.
pub struct Bad(pub usize);

struct Reader<'a> {
    bytes: &'a [u8],
    at: usize,
    /// Whether kinds that stand ahead of the program are read.
    ahead: bool,
}

pub fn read(bytes: &[u8], ahead: bool) -> Result<(u32, Vec<Call>), Bad> {
    let mut reader = Reader { bytes, at: 0, ahead };
    let low = reader.byte()?;
    let limit = u32::from(low) + 256 * u32::from(reader.byte()?);
    if !(1..=4096).contains(&limit) {
        return Err(Bad(0));
    }
    let mut calls = Vec::new();
    while reader.at < bytes.len() {
        calls.append(&mut reader.calls()?);
    }
    Ok((limit, calls))
}

impl Reader<'_> {
    fn byte(&mut self) -> Result<u8, Bad> {
        let byte = *self.bytes.get(self.at).ok_or(Bad(self.at))?;
        self.at += 1;
        Ok(byte)
    }

    fn number(&mut self) -> Result<usize, Bad> {
        self.byte().map(usize::from)
    }

    /// A call; or one with many types written out, a check for each. With no type, or
    /// more than 16, it is left, and refused.
    fn calls(&mut self) -> Result<Vec<Call>, Bad> {
        let call = self.call()?;
        if call.code != MANY {
            return Ok(vec![call]);
        }
        let count = self.number()?;
        let types = self.terms(count)?;
        if !(1..=16).contains(&count) {
            return Ok(vec![call]);
        }
        let check = |ty| {
            let mut check = Call { code: 3, ..call.clone() };
            check.terms.push(ty);
            check
        };
        Ok(types.into_iter().map(check).collect())
    }

    fn call(&mut self) -> Result<Call, Bad> {
        let at = self.at;
        let code = self.byte()?;
        let count = *CALLS.get(usize::from(code)).ok_or(Bad(at))?;
        let dimensions = self.number()?;
        let length = self.number()?;
        Ok(Call { code, dimensions, context: self.terms(length)?, terms: self.terms(count)? })
    }

    fn terms(&mut self, count: usize) -> Result<Vec<Term>, Bad> {
        (0..count).map(|_| self.term()).collect()
    }

    fn boxed(&mut self) -> Result<Box<Term>, Bad> {
        self.term().map(Box::new)
    }

    fn term(&mut self) -> Result<Term, Bad> {
        let at = self.at;
        let kind = self.byte()?;
        if AHEAD_KINDS.contains(&kind) && !self.ahead {
            return Err(Bad(at));
        }
        Ok(match kind {
            // written by tools/written.py: terms by their bytes
            1 => Term::Universe(self.number()?),
            2 => Term::Var(self.number()?),
            3 => Term::Nat,
            4 => Term::Zero,
            5 => Term::Pi(self.boxed()?, self.boxed()?),
            6 => Term::Lam(self.boxed()?, self.boxed()?),
            7 => Term::App(self.boxed()?, self.boxed()?),
            8 => Term::Path(self.boxed()?, self.boxed()?, self.boxed()?),
            9 => Term::PathLam(self.boxed()?, self.boxed()?),
            10 => Term::PathApp(self.boxed()?, self.interval()?),
            11 => Term::Sigma(self.boxed()?, self.boxed()?),
            12 => Term::Pair(self.boxed()?, self.boxed()?, self.boxed()?),
            13 => Term::Fst(self.boxed()?),
            14 => Term::Snd(self.boxed()?),
            // end of terms by their bytes
            _ => return Err(Bad(at)),
        })
    }

    fn side(&mut self) -> Result<Box<Interval>, Bad> {
        self.interval().map(Box::new)
    }

    fn interval(&mut self) -> Result<Interval, Bad> {
        let at = self.at;
        Ok(match self.byte()? {
            // written by tools/written.py: intervals by their bytes
            16 => Interval::Zero,
            17 => Interval::One,
            18 => Interval::Var(self.number()?),
            19 => Interval::Neg(self.side()?),
            20 => Interval::Meet(self.side()?, self.side()?),
            21 => Interval::Join(self.side()?, self.side()?),
            // end of intervals by their bytes
            _ => return Err(Bad(at)),
        })
    }
}
