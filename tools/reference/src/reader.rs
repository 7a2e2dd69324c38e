//! A run's bytes: the nesting limit and the calls, or refusal 3 with its place.
use crate::level::Level;
use crate::syntax::{Interval, Term, I, T};
use std::rc::Rc;

/// A call as it is answered: one block of answer words each.
pub struct Call {
    /// For repeats; a block of code 6 has code 3.
    pub code: u8,
    pub dimensions: u32,
    pub context: Vec<T>,
    pub terms: Vec<T>,
    /// A code 6 with a count of 0 or above 16.
    pub miscounted: bool,
}

/// The place of what is wrong.
pub struct Bad(pub usize);

type Read<R> = std::result::Result<R, Bad>;

struct Reader<'a> {
    level: Level,
    bytes: &'a [u8],
    at: usize,
}

pub fn read(level: Level, bytes: &[u8]) -> Read<(u32, Vec<Call>)> {
    let mut reader = Reader { level, bytes, at: 0 };
    let low = reader.number()?;
    let limit = low + 256 * reader.number()?;
    if !(1..=4096).contains(&limit) {
        return Err(Bad(0));
    }
    let mut calls = Vec::new();
    while reader.at < bytes.len() {
        reader.call(&mut calls)?;
    }
    Ok((limit, calls))
}

impl Reader<'_> {
    fn byte(&mut self) -> Read<u8> {
        let byte = *self.bytes.get(self.at).ok_or(Bad(self.at))?;
        self.at += 1;
        Ok(byte)
    }

    fn number(&mut self) -> Read<u32> {
        self.byte().map(u32::from)
    }

    fn call(&mut self, calls: &mut Vec<Call>) -> Read<()> {
        let at = self.at;
        let code = self.byte()?;
        let count = match code {
            0 => 0,
            1 | 2 => 1,
            3 | 4 => 2,
            5 => 3,
            6 if self.level.many_types() => 1,
            7 if self.level.heads() => 2,
            _ => return Err(Bad(at)),
        };
        let dimensions = self.number()?;
        let length = self.number()?;
        let context = self.terms(length)?;
        let terms = self.terms(count)?;
        if code == 6 {
            return self.blocks(dimensions, context, &terms[0], calls);
        }
        calls.push(Call { code, dimensions, context, terms, miscounted: false });
        Ok(())
    }

    /// What follows the term of a code 6: a check for each type, or one block
    /// for all where their count is wrong.
    fn blocks(
        &mut self,
        dimensions: u32,
        context: Vec<T>,
        t: &T,
        calls: &mut Vec<Call>,
    ) -> Read<()> {
        let count = self.number()?;
        let types = self.terms(count)?;
        if !(1..=16).contains(&count) {
            calls.push(Call { code: 3, dimensions, context, terms: vec![], miscounted: true });
            return Ok(());
        }
        calls.extend(types.into_iter().map(|ty| Call {
            code: 3,
            dimensions,
            context: context.clone(),
            terms: vec![t.clone(), ty],
            miscounted: false,
        }));
        Ok(())
    }

    fn terms(&mut self, count: u32) -> Read<Vec<T>> {
        (0..count).map(|_| self.term()).collect()
    }

    fn term(&mut self) -> Read<T> {
        let at = self.at;
        let kind = self.byte()?;
        if kind > 10 && !self.level.pairs() {
            return Err(Bad(at));
        }
        Ok(Rc::new(match kind {
            1 => Term::U(self.number()?),
            2 => Term::V(self.number()?),
            3 => Term::Nat,
            4 => Term::Zero,
            5 => Term::Pi(self.term()?, self.term()?),
            6 => Term::Lam(self.term()?, self.term()?),
            7 => Term::App(self.term()?, self.term()?),
            8 => Term::Path(self.term()?, self.term()?, self.term()?),
            9 => Term::Plam(self.term()?, self.term()?),
            10 => Term::Papp(self.term()?, self.interval()?),
            11 => Term::Sigma(self.term()?, self.term()?),
            12 => Term::Pair(self.term()?, self.term()?, self.term()?),
            13 => Term::Fst(self.term()?),
            14 => Term::Snd(self.term()?),
            _ => return Err(Bad(at)),
        }))
    }

    fn interval(&mut self) -> Read<I> {
        let at = self.at;
        Ok(Rc::new(match self.byte()? {
            16 => Interval::Zero,
            17 => Interval::One,
            18 => Interval::Dim(self.number()?),
            19 => Interval::Neg(self.interval()?),
            20 => Interval::Meet(self.interval()?, self.interval()?),
            21 => Interval::Join(self.interval()?, self.interval()?),
            _ => return Err(Bad(at)),
        }))
    }
}
