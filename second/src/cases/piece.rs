//! How what is moved lies in source and destination, by numbers alone: what each dimension adds, and how many elements
//! and rows of a move or of a stretch of one follow one another.

use super::number::{ADVANCE, MOVE_PLANE, PLAIN_ADVANCE, PLAIN_MOVE, STEP};
use crate::job::Job;
use crate::moves::{plan, total, Config, Plan};
use crate::tensor::{above_lowest, Tensor};
use crate::transfers::Table;
use crate::wire::begin;

/// A dimension of the destination: what it adds in source and destination, in elements, from one coordinate to the
/// next, and how many coordinates are kept and padded. One that counts down takes as much away in the source.
#[derive(Clone, Copy, Default)]
pub struct Side {
    pub source: u64,
    pub counts_down: bool,
    pub destination: u64,
    pub kept: u64,
    pub pre: u64,
    pub post: u64,
}

impl Side {
    pub fn extent(&self) -> u64 {
        self.pre + self.kept + self.post
    }

    pub fn is_padded(&self) -> bool {
        self.pre + self.post > 0
    }

    /// Whether the coordinates that are kept, several of them, lie in the opposite order in the source.
    pub fn is_mirrored(&self) -> bool {
        self.counts_down && self.kept > 1
    }

    /// What it adds in source and destination.
    pub fn adds(&self) -> (u64, u64) {
        (self.source, self.destination)
    }
}

/// An accepted move, or a stretch of one, of at least one element.
pub struct Piece {
    pub tensor: Tensor,
    pub config: Config,
    pub plan: Plan,
    /// How many bytes are lent as source.
    pub source: u64,
    /// The elements that are moved, by their numbers: from the first on, and up to the end, which is not moved.
    pub first: u64,
    pub end: u64,
    /// Within a memory, whether the source lies before the destination.
    pub source_first: bool,
}

impl Piece {
    /// All elements of a move between two slices.
    pub fn of_move(tensor: &Tensor, config: &Config, source: u64) -> Option<Piece> {
        Piece::of(tensor, config, source, 0, u64::MAX)
    }

    /// Elements of a job, from a number on as many as the budget has.
    pub fn of_job(job: &Job, from: u64, budget: u64) -> Option<Piece> {
        let piece = Piece::of(&job.tensor, &job.config, job.source.length, from, budget)?;
        Some(Piece { source_first: job.source.start < job.destination.start, ..piece })
    }

    /// What an accepted call moves: a whole plane, or from an element number on as many as its budget has.
    pub fn of_call(number: u8, arguments: &[u8]) -> Option<Piece> {
        match number {
            MOVE_PLANE | PLAIN_MOVE => {
                let (tensor, config, source): (Tensor, Config, u32) = begin(arguments);
                Piece::of_move(&tensor, &config, source as u64)
            }
            ADVANCE | PLAIN_ADVANCE => {
                let (job, from, budget): (Job, u64, u64) = begin(arguments);
                Piece::of_job(&job, from, budget)
            }
            STEP => {
                let (table, handle, budget): (Table, u32, u64) = begin(arguments);
                let slot = table.slot.get(handle as usize)?;
                Piece::of_job(&slot.job, slot.moved, budget)
            }
            _ => None,
        }
    }

    fn of(tensor: &Tensor, config: &Config, source: u64, from: u64, budget: u64) -> Option<Piece> {
        let plan = plan(tensor, config, None).ok()?;
        let end = from.saturating_add(budget).min(total(&plan));
        let piece = Piece { tensor: *tensor, config: *config, plan, source, first: from, end, source_first: true };
        (from < end).then_some(piece)
    }

    /// The dimension that is so many before the last. Where there is none, one coordinate that adds nothing.
    pub fn side(&self, before: usize) -> Side {
        let Some(i) = self.plan.rank.checked_sub(1 + before) else {
            return Side { kept: 1, ..Side::default() };
        };
        let s = self.config.perm[i] as usize;
        Side {
            source: self.plan.source_stride[s].unsigned_abs() * self.config.step[s] as u64,
            counts_down: self.plan.source_stride[s] < 0,
            destination: self.plan.stride[i],
            kept: self.plan.count[s],
            pre: self.config.pre[s] as u64,
            post: self.config.post[s] as u64,
        }
    }

    /// The elements of a row.
    pub fn row(&self) -> Side {
        self.side(0)
    }

    /// The rows of a layer.
    pub fn rows(&self) -> Side {
        self.side(1)
    }

    /// All dimensions of the destination of which several coordinates are kept.
    pub fn sides(&self) -> Vec<Side> {
        (0..self.plan.rank).map(|before| self.side(before)).filter(|side| side.kept > 1).collect()
    }

    /// The layers of a slab.
    pub fn layers(&self) -> Side {
        self.side(2)
    }

    /// How many elements have the same coordinates but for so many of the last: those of a row, a layer, a slab.
    pub fn count(&self, dimensions: usize) -> u64 {
        (0..dimensions).map(|before| self.side(before).extent()).product()
    }

    /// How many of the last dimensions are one run: each goes on where the one farther in has ended, in source and
    /// destination.
    pub fn joined(&self) -> usize {
        let goes_on = |before: &usize| {
            let (inner, outer) = (self.side(before - 1), self.side(*before));
            !inner.is_padded() && outer.adds() == (inner.source * inner.kept, inner.destination * inner.kept)
        };
        if self.row().adds() != (1, 1) {
            return 0;
        }
        1 + (1..self.plan.rank).take_while(goes_on).count()
    }

    /// The most elements of one row, layer or slab that are moved, where each has so many.
    pub fn most_of(&self, count: u64) -> u64 {
        most_in_one(self.first, self.end, count)
    }

    /// The most whole rows of one layer that are moved.
    pub fn band(&self) -> u64 {
        let row = self.row().extent();
        most_in_one(self.first.div_ceil(row), self.end / row, self.rows().extent())
    }

    /// Whether elements of more than one row, layer or slab are moved, where each has so many.
    pub fn passes(&self, count: u64) -> bool {
        self.first / count != (self.end - 1) / count
    }

    /// The first byte behind the last element of the source that the whole move reads.
    pub fn read_to(&self) -> u64 {
        let highest = |s: usize| {
            let first = self.config.offset[s] as u64;
            let last = first + (self.plan.count[s] - 1) * self.config.step[s] as u64;
            let at = |x: u64| above_lowest(self.plan.shape[s], self.plan.source_stride[s], x);
            at(first).max(at(last))
        };
        let place: u64 = (0..self.plan.rank).map(highest).sum();
        (place + 1) * self.plan.element_size as u64
    }
}

/// The most numbers from first to end - 1 between two neighbouring multiples of `count`.
fn most_in_one(first: u64, end: u64, count: u64) -> u64 {
    let all = end.saturating_sub(first);
    let to_border = count - first % count;
    if all <= to_border {
        return all;
    }
    to_border.max((all - to_border).min(count))
}
