//! What an accepted call moves, element by element.

use super::number::{ADVANCE, MOVE_PLANE, PLAIN_ADVANCE, PLAIN_MOVE, STEP};
use crate::job::Job;
use crate::moves::{coordinates, plan, source_place, Config, Plan};
use crate::tensor::Tensor;
use crate::transfers::Table;
use crate::wire::{whole, Counted, Memory};

/// An element that was moved.
pub struct Element {
    pub coordinate: [u64; 4],
    pub is_kept: bool,
}

/// An accepted move of at least one element.
pub struct Moved {
    pub config: Config,
    pub plan: Plan,
    pub elements: Vec<Element>,
    /// Whether the budget is above what was left.
    pub spare: bool,
}

/// What an accepted call moves: a whole plane, or from an element number on as many as its budget has.
pub fn moved(number: u8, arguments: &[u8]) -> Option<Moved> {
    match number {
        MOVE_PLANE | PLAIN_MOVE => {
            let (tensor, config, _, _): (Tensor, Config, Counted, Memory) = whole(arguments)?;
            elements_moved(&tensor, &config, 0, u64::MAX)
        }
        ADVANCE | PLAIN_ADVANCE => {
            let (job, from, budget, _): (Job, u64, u64, Memory) = whole(arguments)?;
            elements_moved(&job.tensor, &job.config, from, budget)
        }
        STEP => {
            let (table, handle, budget, _): (Table, u32, u64, Memory) = whole(arguments)?;
            let slot = table.slot.get(handle as usize)?;
            elements_moved(&slot.job.tensor, &slot.job.config, slot.moved, budget)
        }
        _ => None,
    }
}

fn elements_moved(tensor: &Tensor, config: &Config, from: u64, budget: u64) -> Option<Moved> {
    let plan = plan(tensor, config, None).ok()?;
    let mut elements = Vec::new();
    let all = coordinates(&plan);
    let left = all.len().saturating_sub(from as usize) as u64;
    for coordinate in all.into_iter().skip(from as usize).take(budget as usize) {
        elements.push(Element { coordinate, is_kept: source_place(&plan, config, &coordinate).is_some() });
    }
    let moved = Moved { config: *config, plan, elements, spare: budget > left };
    (!moved.elements.is_empty()).then_some(moved)
}

impl Moved {
    /// The dimension of a row, which is the last of the destination.
    pub fn last(&self) -> usize {
        self.plan.rank - 1
    }

    /// Whether an element stands in a row that is padding in another dimension.
    pub fn in_row_of_padding(&self, element: &Element) -> bool {
        let mut first_kept = element.coordinate;
        first_kept[self.last()] = self.config.pre[self.config.perm[self.last()] as usize] as u64;
        source_place(&self.plan, &self.config, &first_kept).is_none()
    }
}
