//! The program, through its library's one function: a slice goes over as a
//! pointer and a length. The slices are lent full of words that no run leaves by
//! itself, so that each word that a run changes shows.

extern "C" {
    #[allow(clippy::too_many_arguments)]
    fn run_derivations(
        run: *const u8,
        run_length: usize,
        rows: *mut u32,
        rows_length: usize,
        cells: *mut u32,
        cells_length: usize,
        answers: *mut u32,
        answers_length: usize,
        result: *mut u32,
        result_length: usize,
    );
}

/// Five words are written to the result; the sixth must stay.
const RESULT: usize = 6;

/// What each slice is filled with before a run: rows, cells, answers, result.
pub const FILLS: [u32; 4] = [0xA5C3_96E1, 0xB6D2_87F3, 0xC7E1_78A5, 0xD8F0_69B7];

/// The slices of one thread. Between runs every word is its slice's filling.
#[derive(Default)]
pub struct Lent {
    words: [Vec<u32>; 3],
}

/// What a run left in the slices.
pub struct Left<'a> {
    pub result: [u32; RESULT],
    pub rows: &'a [u32],
    pub cells: &'a [u32],
    pub answers: &'a [u32],
}

impl Lent {
    /// Plays a run in slices of so many words, and fills again what it changed.
    pub fn play<T>(&mut self, bytes: &[u8], slices: [u32; 3], then: impl FnOnce(&Left) -> T) -> T {
        let lengths = slices.map(|n| n as usize);
        for i in 0..3 {
            if self.words[i].len() < lengths[i] {
                self.words[i].resize(lengths[i], FILLS[i]);
            }
        }
        let [rows, cells, answers] = &mut self.words;
        let (rows, cells) = (&mut rows[..lengths[0]], &mut cells[..lengths[1]]);
        let answers = &mut answers[..lengths[2]];
        let mut result = [FILLS[3]; RESULT];
        play(bytes, rows, cells, answers, &mut result);
        let out = then(&Left { result, rows, cells, answers });
        refill(rows, FILLS[0]);
        refill(cells, FILLS[1]);
        refill(answers, FILLS[2]);
        out
    }
}

/// One run in slices as they are.
pub fn play(
    bytes: &[u8],
    rows: &mut [u32],
    cells: &mut [u32],
    answers: &mut [u32],
    result: &mut [u32],
) {
    // SAFETY: the function is proved to touch the lent slices alone, for any
    // bytes and lengths; each pointer goes with the length of its slice.
    unsafe {
        run_derivations(
            bytes.as_ptr(),
            bytes.len(),
            rows.as_mut_ptr(),
            rows.len(),
            cells.as_mut_ptr(),
            cells.len(),
            answers.as_mut_ptr(),
            answers.len(),
            result.as_mut_ptr(),
            result.len(),
        );
    }
}

/// Writes only the parts that changed: most of a large table doesn't.
fn refill(words: &mut [u32], fill: u32) {
    for part in words.chunks_mut(PART) {
        if !all(part, fill) {
            part.fill(fill);
        }
    }
}

const PART: usize = 256;

/// Whether every word is this one, without a branch for each.
pub fn all(words: &[u32], fill: u32) -> bool {
    words.chunks(PART).all(|part| part.iter().fold(0, |seen, word| seen | (word ^ fill)) == 0)
}
