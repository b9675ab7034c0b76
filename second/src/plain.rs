//! The plain engine: it "goes down one dimension at a time, calling itself with one dimension fewer until an element
//! is reached". This is a reading of its own of what a move does, beside the one in `moves.rs`. What is refused, the
//! counts, extents and resolved strides, and the answer have one rule for both.

use crate::job::{plan_job, Advanced, Job};
use crate::moves::{plan, Answer, Config, Plan};
use crate::tensor::Tensor;
use crate::wire::Memory;

/// An accepted move on its way down, and how far it has come.
struct Descent<'a> {
    plan: &'a Plan,
    config: &'a Config,
    source: &'a [u8],
    destination: &'a mut [u8],
    /// How many elements are still to be passed over before the first one is moved.
    before: u64,
    budget: u64,
    moved: u64,
}

/// What the coordinates that are chosen so far come to.
#[derive(Clone, Copy)]
struct Spot {
    /// Whether every k so far is from 0 to count-1.
    is_kept: bool,
    /// The place in the source, in elements, as far as it is kept. A dimension without a choice yet stands at its
    /// coordinate 0.
    from: i64,
    /// The place in the destination, in elements.
    to: u64,
}

impl Descent<'_> {
    /// One dimension down: its coordinates 0 to extent - 1, in order, each with one dimension fewer left. The first
    /// dimension is the outermost, so the last coordinate is fastest. With no dimension left the spot is an element.
    fn go_down(&mut self, left: usize, spot: Spot) {
        if left == 0 {
            self.reach(spot);
            return;
        }
        let i = self.plan.rank - left;
        for c in 0..self.plan.extent[i] {
            // "A step stops at once when its budget is spent, in mid-row too."
            if self.moved == self.budget {
                return;
            }
            self.go_down(left - 1, self.choose(spot, i, c));
        }
    }

    /// The spot with coordinate c of destination dimension i besides those that it has.
    fn choose(&self, spot: Spot, i: usize, c: u64) -> Spot {
        let (plan, config) = (self.plan, self.config);
        // "Its place is the sum of (destination offset + c) x stride, in elements."
        let to = spot.to + (config.dst_offset[i] as u64 + c) * plan.stride[i];
        // "source dimension s = perm[i] has k = c[i] - pre[s]"
        let s = config.perm[i] as usize;
        match c.checked_sub(config.pre[s] as u64) {
            // "the element is the source's at offset + k x step in each dimension", if every other k is kept too
            Some(k) if k < plan.count[s] => {
                let coordinate = (config.offset[s] as u64 + k * config.step[s] as u64) as i64;
                Spot { is_kept: spot.is_kept, from: spot.from + coordinate * plan.source_stride[s], to }
            }
            // All that lies farther in is padding, and no place of the source is worked out for it.
            _ => Spot { is_kept: false, from: spot.from, to },
        }
    }

    /// An element: it is passed over, or all its bytes are written.
    fn reach(&mut self, spot: Spot) {
        if self.before > 0 {
            self.before -= 1;
            return;
        }
        let size = self.plan.element_size;
        for byte in 0..size {
            self.destination[spot.to as usize * size + byte] = if spot.is_kept {
                self.source[spot.from as usize * size + byte]
            } else {
                // "else all its bytes are 0", and "demands 2 and 3 read fill for zero": "lowest byte first"
                (self.config.fill >> (8 * byte)) as u8
            };
        }
        self.moved += 1;
    }
}

/// Where the element at coordinate 0 in every dimension lies, "the lowest element that the tensor touches" being at
/// byte 0: a dimension that counts down has all its others below this one.
fn first_place(plan: &Plan) -> i64 {
    let below = |s: usize| (plan.shape[s] as i64 - 1) * plan.source_stride[s].min(0);
    -(0..plan.rank).map(below).sum::<i64>()
}

/// Moves the elements from number `from` on, `budget` of them or what is left, and tells how many. No coordinate is
/// chosen at the start: nothing is padding yet.
fn go_through(plan: &Plan, config: &Config, source: &[u8], destination: &mut [u8], from: u64, budget: u64) -> u64 {
    let mut descent = Descent { plan, config, source, destination, before: from, budget, moved: 0 };
    descent.go_down(plan.rank, Spot { is_kept: true, from: first_place(plan), to: 0 });
    descent.moved
}

/// The call `plain::move_plane`: all elements of a move, or none if it is refused.
pub fn move_plane(tensor: &Tensor, config: &Config, source: &[u8], destination: &mut [u8]) -> Answer {
    match plan(tensor, config, Some((source.len() as u64, destination.len() as u64))) {
        Ok(plan) => {
            go_through(&plan, config, source, destination, 0, u64::MAX);
            Answer::accepted(&plan)
        }
        Err(fault) => Answer::refused(fault),
    }
}

/// The call `plain::advance`: a stretch of a job, or nothing if it is refused.
pub fn advance(job: &Job, from: u64, budget: u64, mut memory: Vec<u8>) -> Advanced {
    let mut advanced = Advanced::default();
    match plan_job(memory.len() as u64, job) {
        Ok(plan) => {
            // The parts don't meet, so nothing that is written is read.
            let source = memory[job.source.range()].to_vec();
            let destination = &mut memory[job.destination.range()];
            advanced.count = go_through(&plan, &job.config, &source, destination, from, budget);
        }
        Err(fault) => (advanced.status, advanced.dimension) = (fault.status, fault.dimension),
    }
    Advanced { memory: Memory(memory), ..advanced }
}
