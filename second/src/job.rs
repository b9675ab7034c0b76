//! A job: a move from one part of a memory to another.

use crate::moves::{move_elements, plan, total, Config, Plan};
use crate::tensor::{refuse, Fault, Tensor};
use crate::wire::{wire_struct, Memory};

wire_struct! {
    /// "a source part and a destination part (start, length) of that memory"
    #[derive(Copy)]
    Part { start: u64, length: u64 }
}

wire_struct! {
    #[derive(Copy)]
    Job { source: Part, destination: Part, tensor: Tensor, config: Config }
}

wire_struct! {
    /// What a job comes to over a memory of some length.
    #[derive(Copy)]
    Judged { status: u8, dimension: u8, total: u64 }
}

wire_struct! {
    Advanced { status: u8, dimension: u8, count: u64, memory: Memory }
}

impl Part {
    /// 20: "a part leaves the memory": start at most its length, and length at most what is left after start.
    fn leaves(&self, length: u64) -> bool {
        self.start > length || self.length > length - self.start
    }

    /// 34: "a source or destination part whose start isn't a multiple of the element size; 3-byte elements may start
    /// anywhere". Only asked with a size that has passed 2.
    pub fn is_off_boundary(&self, element_size: u8) -> bool {
        element_size != 3 && self.start % element_size as u64 != 0
    }

    /// The bytes of a part that has passed 20.
    pub fn range(&self) -> std::ops::Range<usize> {
        self.start as usize..(self.start + self.length) as usize
    }

    /// The first byte after the part, which may lie beyond 64 bits.
    fn end(&self) -> u128 {
        self.start as u128 + self.length as u128
    }
}

/// "Two parts meet if they share a byte."
pub fn meets(a: &Part, b: &Part) -> bool {
    let first_shared = a.start.max(b.start) as u128;
    first_shared < a.end() && first_shared < b.end()
}

/// "no destination part meets another slot's source or destination"
pub fn break_rule(a: &Job, b: &Job) -> bool {
    meets(&a.destination, &b.destination) || meets(&a.destination, &b.source) || meets(&a.source, &b.destination)
}

/// 20, 1 to 13, 34, 21: a job by itself over a memory of that length.
pub fn plan_job(length: u64, job: &Job) -> Result<Plan, Fault> {
    if job.source.leaves(length) || job.destination.leaves(length) {
        return refuse(20, 0);
    }
    let plan = plan(&job.tensor, &job.config, Some((job.source.length, job.destination.length)))?;
    // "34 after 13 and before 21"
    if [job.source, job.destination].iter().any(|part| part.is_off_boundary(job.tensor.element_size)) {
        return refuse(34, 0);
    }
    // 21: "own parts meet"
    if meets(&job.source, &job.destination) {
        return refuse(21, 0);
    }
    Ok(plan)
}

/// The call `judge_job`.
pub fn judge_job(length: u64, job: &Job) -> Judged {
    match plan_job(length, job) {
        Ok(plan) => Judged { status: 0, dimension: 0, total: total(&plan) },
        Err(fault) => Judged { status: fault.status, dimension: fault.dimension, total: 0 },
    }
}

/// "A step with a budget moves min(budget, left) further elements." For a job that has passed `plan_job`.
pub fn move_some(job: &Job, plan: &Plan, memory: &mut [u8], from: u64, budget: u64) -> u64 {
    // The parts don't meet, so the source can be read apart from the memory.
    let source = memory[job.source.range()].to_vec();
    move_elements(plan, &job.config, &source, &mut memory[job.destination.range()], from, budget)
}

/// The call `advance`: from element number `from` on, `budget` elements or what is left, and none from the total on.
/// A refused one leaves the memory.
pub fn advance(job: &Job, from: u64, budget: u64, mut memory: Vec<u8>) -> Advanced {
    let (fault, count) = match plan_job(memory.len() as u64, job) {
        Ok(plan) => (Fault::default(), move_some(job, &plan, &mut memory, from, budget)),
        Err(fault) => (fault, 0),
    };
    Advanced { status: fault.status, dimension: fault.dimension, count, memory: Memory(memory) }
}
