//! A call and a run, as they are put together before they become bytes.
use crate::term::Term;

/// The code of a call with many types, which are its terms but the first.
pub const MANY: u8 = 6;

#[derive(Clone, Debug)]
pub struct Call {
    pub code: u8,
    pub dimensions: usize,
    pub context: Vec<Term>,
    pub terms: Vec<Term>,
}

impl Call {
    pub fn new(code: u8, dimensions: usize, context: &[Term], terms: &[Term]) -> Self {
        Self { code, dimensions, context: context.to_vec(), terms: terms.to_vec() }
    }

    pub fn write(&self, out: &mut Vec<u8>) {
        let byte = |n: usize| n.min(255) as u8;
        out.extend([self.code, byte(self.dimensions), byte(self.context.len())]);
        self.context.iter().take(255).for_each(|t| t.write(out));
        for (i, t) in self.terms.iter().take(256).enumerate() {
            t.write(out);
            if i == 0 && self.code == MANY {
                out.push(byte(self.terms.len() - 1));
            }
        }
    }

    /// How many answers it has.
    pub fn blocks(&self) -> usize {
        let types = self.terms.len().saturating_sub(1);
        if self.code == MANY && types <= 16 {
            types.max(1)
        } else {
            1
        }
    }
}

/// A run with the slices to play it in, in words: rows, cells, answers.
#[derive(Clone, Debug, PartialEq, Eq)]
pub struct Case {
    pub slices: [u32; 3],
    pub bytes: Vec<u8>,
}

/// The listing's slices: 682 rows, 2,048 cells, 4,096 answers.
pub const LISTING: [u32; 3] = [682 * 24, 2048 * 8, 4096 * 4];
/// As many rows as there may be, and cells enough.
pub const FULL: [u32; 3] = [50_000 * 24, 200_000 * 8, 16_384 * 4];

/// How many bytes a run may have.
pub const LONGEST: usize = 65_536;

impl Case {
    pub fn new(slices: [u32; 3], limit: u16, calls: &[Call]) -> Self {
        let mut bytes = limit.to_le_bytes().to_vec();
        calls.iter().for_each(|call| call.write(&mut bytes));
        Self { slices, bytes }
    }

    /// Four words, low byte first, then the bytes: what a batch is made of.
    pub fn packed(&self) -> Vec<u8> {
        let [rows, cells, answers] = self.slices;
        let head = [rows, cells, answers, self.bytes.len() as u32];
        let mut out: Vec<u8> = head.iter().flat_map(|w| w.to_le_bytes()).collect();
        out.extend_from_slice(&self.bytes);
        out
    }
}
