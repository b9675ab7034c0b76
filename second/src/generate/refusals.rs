//! Once a run: 8 by a sum that would wrap, and two numbers for one call, in sub-tensors, jobs and tables.

use super::broken::{call_one, TABLE_CALLS};
use super::jobs::{advance_job, lay_out, prepare_job};
use super::planes::Drawn;
use super::sizes::ask_all;
use super::spoil::{spoil, Lent};
use super::work::Work;
use crate::helpers::SubConfig;
use crate::job::{Job, Part};
use crate::ready_made::copy;
use crate::tensor::Tensor;
use crate::transfers::{fresh, Slot, PREPARED};
use crate::wire::Rest;

/// A plane of twelve bytes.
const PLANE: Tensor = Tensor { rank: 2, element_size: 1, shape: [3, 4, 0, 0], stride: [0; 4] };
const BYTES: u64 = 12;

/// A size that is so large that its sum with the offset would be below the offset in 32 bits.
pub fn every_wrap(work: &mut Work) {
    for d in 0..2 {
        let offset = work.random.between(1, PLANE.shape[d] as u64 - 1) as u32;
        let size = (work.random.below(offset as u64) as u32).wrapping_sub(offset);
        let mut drawn = Drawn::of(PLANE, copy(2).config);
        (drawn.config.offset[d], drawn.config.size[d]) = (offset, size);
        ask_all(work, &drawn);
        let mut config = SubConfig { offset: [0; 4], size: PLANE.shape, rank: 2 };
        (config.offset[d], config.size[d]) = (offset, size);
        ask_sub_tensor(work, config, BYTES);
    }
}

/// 5 with 7, 7 with 8 of a lower dimension, 8 with 14, and 14 with 15.
pub fn every_sub_tensor_pair(work: &mut Work) {
    let config = SubConfig { offset: [0; 4], size: PLANE.shape, rank: 2 };
    ask_sub_tensor(work, SubConfig { offset: [3, 0, 0, 0], ..config }, BYTES - 1);
    ask_sub_tensor(work, SubConfig { offset: [0, 4, 0, 0], size: [0, 1, 0, 0], ..config }, BYTES);
    ask_sub_tensor(work, SubConfig { size: [0, 1, 0, 0], rank: 0, ..config }, BYTES);
    ask_sub_tensor(work, SubConfig { rank: 0, ..config }, BYTES);
}

fn ask_sub_tensor(work: &mut Work, config: SubConfig, source: u64) {
    let bytes = Rest(work.random.bytes(source as usize));
    work.call(0x06, &(PLANE, config, source));
    work.call(0x24, &(PLANE, config, bytes.clone()));
    work.call(0x25, &(PLANE, config, bytes));
}

/// Moves that are refused, from or to a part that leaves the memory, and with parts that meet.
pub fn every_job_pair(work: &mut Work) {
    for number in [1, 5, 9, 13] {
        let mut drawn = Drawn::of(PLANE, copy(2).config);
        spoil(&mut work.random, &mut drawn, number, 0, Lent::Bytes);
        let (job, length) = lay_out(&mut work.random, &drawn);
        let mut leaving = job;
        let part = if work.random.chance(50) { &mut leaving.source } else { &mut leaving.destination };
        part.start = length + 1;
        ask_job(work, leaving, length);
        let mut meeting = job;
        meeting.destination.start = job.source.start;
        ask_job(work, meeting, length);
    }
}

fn ask_job(work: &mut Work, job: Job, length: u64) {
    work.call(0x21, &(length, job));
    advance_job(work, job, length);
    prepare_job(work, job, length);
}

/// A table that is full, unsound, or both, or that has a slot whose parts a job takes for its own.
pub fn every_table_pair(work: &mut Work) {
    let into = |k: u64| {
        let (source, destination) = (Part { start: 0, length: BYTES }, Part { start: k * BYTES, length: BYTES });
        Job { source, destination, tensor: PLANE, config: copy(2).config }
    };
    let memory = work.random.bytes(5 * BYTES as usize);
    let mut full = fresh(5 * BYTES).table;
    for k in 0..4 {
        full.slot[k] = Slot { state: PREPARED, job: into(k as u64 + 1), moved: 0 };
    }
    let mut unsound = full;
    unsound.slot[work.random.index(4)].moved = 1;
    for number in TABLE_CALLS {
        call_one(work, number, &unsound, &into(1), 0, &memory[1..]);
        call_one(work, number, &unsound, &into(1), 4, &memory);
    }
    work.call(0x41, &(full, into(5), Rest(memory.clone())));
    let mut with_room = full;
    with_room.slot[3] = Slot::default();
    let meeting = Job { source: into(1).destination, ..into(1) };
    work.call(0x41, &(with_room, meeting, Rest(memory)));
}
