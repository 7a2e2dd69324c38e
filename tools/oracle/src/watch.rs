//! What docs/FORMAT.md counts beside the source's own state: nesting, rows, cells.
use crate::cells::Cells;
use crate::refusal::Refusal;
use crate::sexp::Result;

#[derive(Default)]
pub struct Watch {
    /// Functions entered and not yet left, and the most that were.
    pub depth: u32,
    pub deepest: u32,
    pub limit: u32,
    /// Rows that the table holds, 50,000 at most.
    pub row_room: usize,
    pub cells: Cells,
    /// Off for timings of the plain source: no cell is counted then.
    pub counting: bool,
    /// Whether `endpoint` was entered: from that call on the source has no answers.
    pub worked_out: bool,
    /// Entries still allowed; with none left the run is given up.
    pub work_left: u64,
}

impl Watch {
    /// A reference function is entered: 19 past the limit, else deepest is
    /// noted.
    pub fn enter(&mut self) -> Result<()> {
        if self.depth >= self.limit {
            return Err(Refusal::NESTING);
        }
        if self.work_left == 0 {
            return Err(Refusal::SLOW);
        }
        self.work_left -= 1;
        self.depth += 1;
        self.deepest = self.deepest.max(self.depth);
        Ok(())
    }

    pub fn leave(&mut self) {
        self.depth -= 1;
    }
}
