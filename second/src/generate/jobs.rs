//! Jobs: moves from one part of a memory to another, by themselves.

use super::moving::{draw_above_extent_limit, draw_at_extent_limit};
use super::numbers::{draw_numbers, start_beside};
use super::planes::{good, Drawn, Scale};
use super::spoil::{vary, Lent};
use super::starts::{boundary_from, mostly_on_boundary, off_boundary};
use super::values::any_u64;
use super::work::{Work, ADVANCE};
use crate::job::{judge_job as judge, Job, Part};
use crate::random::Random;
use crate::transfers::fresh;
use crate::wire::{Memory, Rest, MEMORY_LIMIT};

/// A job for this move, its two parts side by side, each on a boundary of its elements, and the length of the memory
/// around them.
pub fn lay_out(random: &mut Random, drawn: &Drawn) -> (Job, u64) {
    let size = drawn.tensor.element_size;
    let [before, between, behind] = [0; 3].map(|_| random.pick(&[0, 0, 1, 2, 3]));
    let source_first = random.chance(50);
    let (one, two) = if source_first { (drawn.source, drawn.destination) } else { (drawn.destination, drawn.source) };
    let first = Part { start: boundary_from(before, size), length: one };
    let start = first.start.saturating_add(one).saturating_add(between);
    let second = Part { start: boundary_from(start, size), length: two };
    let length = second.start.saturating_add(two).saturating_add(behind);
    let (source, destination) = if source_first { (first, second) } else { (second, first) };
    (Job { source, destination, tensor: drawn.tensor, config: drawn.config }, length)
}

/// Moves a part so that it leaves the memory, meets the other one, is empty, or starts off a boundary or anywhere.
pub fn misplace(random: &mut Random, job: &mut Job, length: u64) {
    let size = job.tensor.element_size;
    let (part, other) =
        if random.chance(50) { (&mut job.source, job.destination) } else { (&mut job.destination, job.source) };
    match random.below(20) {
        0 => part.start = length.saturating_sub(part.length).saturating_add(1),
        1 => part.length = length.saturating_sub(part.start).saturating_add(1),
        2 => *part = Part { start: length, length: 0 },
        3 | 18..=19 => *part = Part { start: length.saturating_add(1), length: 0 },
        4 => part.start = any_u64(random),
        5 => part.length = any_u64(random),
        // start + length wraps to a small number
        6 => part.start = 0u64.wrapping_sub(part.length).wrapping_add(random.below(3)),
        7..=8 => part.start = off_boundary(random, part.start, size),
        _ => {
            let start = start_beside(random, &other, part.length);
            part.start = mostly_on_boundary(random, start, size);
        }
    }
}

pub fn judge_job(work: &mut Work) {
    let random = &mut work.random;
    let drawn = draw_numbers(random);
    let (mut job, mut length) = lay_out(random, &drawn);
    match random.below(10) {
        0..=2 => misplace(random, &mut job, length),
        3 => length = any_u64(random),
        4 => length = length.saturating_sub(1),
        _ => {}
    }
    work.call(0x21, &(length, job));
}

/// A job of a few elements, spoiled or not, and the length of its memory.
fn draw_small(random: &mut Random) -> (Job, u64) {
    let mut drawn = good(random, Scale::Small);
    vary(random, &mut drawn, Lent::Bytes);
    let (mut job, length) = lay_out(random, &drawn);
    let mut length = length.min(MEMORY_LIMIT as u64);
    match random.below(10) {
        0..=1 => misplace(random, &mut job, length),
        2 => length = length.saturating_sub(1),
        _ => {}
    }
    (job, length)
}

pub fn advance(work: &mut Work) {
    let (job, length) = draw_small(&mut work.random);
    advance_job(work, job, length);
}

/// The first job of a table.
pub fn prepare(work: &mut Work) {
    let (job, length) = draw_small(&mut work.random);
    prepare_job(work, job, length);
}

/// The longest source that a memory can hold beside a destination, which is too short: 10 or 13.
pub fn advance_at_extent_limit(work: &mut Work) {
    let drawn = draw_at_extent_limit(work);
    let (job, length) = fill_memory(&drawn);
    advance_job(work, job, length);
}

/// Gives 10, which only a long source can.
pub fn above_extent_limit(work: &mut Work) {
    let drawn = draw_above_extent_limit(work);
    let (job, length) = fill_memory(&drawn);
    advance_job(work, job, length);
    prepare_job(work, job, length);
}

/// The source first, and what is left of the longest memory as destination.
fn fill_memory(drawn: &Drawn) -> (Job, u64) {
    let length = MEMORY_LIMIT as u64;
    let source = Part { start: 0, length: drawn.source };
    let destination = Part { start: drawn.source, length: length.saturating_sub(drawn.source) };
    (Job { source, destination, tensor: drawn.tensor, config: drawn.config }, length)
}

pub fn prepare_job(work: &mut Work, job: Job, length: u64) {
    let memory = work.random.bytes(length as usize);
    work.call(0x41, &(fresh(length).table, job, Rest(memory)));
}

pub fn advance_job(work: &mut Work, job: Job, length: u64) {
    let random = &mut work.random;
    let total = judge(length, &job).total;
    let from = match random.below(8) {
        0..=2 => 0,
        3..=5 => random.below(total),
        6 => random.pick(&[total, total.saturating_sub(1), total.saturating_add(1)]),
        _ => any_u64(random),
    };
    let budget = draw_budget(random, total.saturating_sub(from));
    let memory = random.bytes(length as usize);
    work.by_both(ADVANCE, &(job, from, budget, Memory(memory)));
}

/// A budget for a transfer that has so much left.
pub fn draw_budget(random: &mut Random, left: u64) -> u64 {
    match random.below(12) {
        0 => 0,
        1..=3 => 1,
        4..=5 => random.between(2, 4),
        6 => left,
        7 => left.saturating_sub(1),
        8 => left.saturating_add(1),
        9 => random.below(left.max(1)),
        10 => u64::MAX,
        _ => any_u64(random),
    }
}
