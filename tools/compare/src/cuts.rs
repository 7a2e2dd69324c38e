//! A run cut after each of its calls: the table after each call. What stands
//! there, the calls that follow leave as it is, but for the working words.
use crate::program::Left;
use crate::same::{want, Difference, ANSWER, CELL, ROW};
use crate::shrink;

/// Where the run is cut: after each of its first calls, `most` of them at the
/// most. The last is its own end. A run that can't be read has that one alone.
pub fn ends(bytes: &[u8], most: usize) -> Vec<usize> {
    let calls = shrink::ends(bytes).unwrap_or_default();
    let shorter = calls.into_iter().filter(|end| *end < bytes.len());
    shorter.take(most).chain([bytes.len()]).collect()
}

/// An entry of each slice: its name, how many words it has, and how many of
/// them, from the first on, later calls leave as they are. A row's last five are
/// working words, a cell's last four what is remembered and the index's.
const ENTRIES: [(&str, usize, usize); 3] =
    [("row", ROW, 19), ("cell", CELL, 4), ("answer", ANSWER, ANSWER)];

/// The used words of the slices: rows, cells, answers.
#[derive(Default)]
pub struct Stood([Vec<u32>; 3]);

/// The counts are those of the oracle, which the caller has seen to.
fn used<'a>(left: &Left<'a>) -> [&'a [u32]; 3] {
    let [_, _, calls, rows, cells, _] = left.result.map(|count| count as usize);
    [&left.rows[..rows * ROW], &left.cells[..cells * CELL], &left.answers[..calls * ANSWER]]
}

impl Stood {
    pub fn of(left: &Left) -> Self {
        Self(used(left).map(<[u32]>::to_vec))
    }

    /// What stands after more calls, where all that stood before still does.
    pub fn kept(&self, left: &Left) -> Result<Self, Difference> {
        // More calls may have the run refused as a whole: nothing is in use then.
        if left.result[0] != 0 {
            return Ok(Self::of(left));
        }
        for ((name, size, fixed), (old, new)) in ENTRIES.iter().zip(self.0.iter().zip(used(left))) {
            let counts = [old.len() / size, new.len() / size];
            want(counts[0] <= counts[1], || format!("{name}s: {counts:?}, before and after"))?;
            let pairs = old.chunks(*size).zip(new.chunks(*size));
            for (i, (old, new)) in pairs.enumerate() {
                want(old[..*fixed] == new[..*fixed], || {
                    let (old, new) = (&old[..*fixed], &new[..*fixed]);
                    format!("{name} {i} was {old:?}, and a later call made it {new:?}")
                })?;
            }
        }
        Ok(Self::of(left))
    }
}
