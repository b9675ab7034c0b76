//! Planes whose dimensions count up or down, strides at the ends of their range, sub-tensors of such planes, and words of
//! records: some at any time, and once a run each case.

use super::broken::{call_one, TABLE_CALLS};
use super::jobs::{lay_out, prepare_job};
use super::moving::move_drawn;
use super::numbers::draw_sub_config;
use super::planes::{draw_mirrored, good, mirror, Drawn, Scale};
use super::values::telling_fill;
use super::work::{Work, ADVANCE, MOVE};
use crate::cases::input::LEAST;
use crate::cases::signs::LARGEST;
use crate::helpers::{sub_part, sub_tensor as sub_tensor_of, SubConfig};
use crate::job::judge_job;
use crate::list::head;
use crate::moves::Config;
use crate::random::Random;
use crate::ready_made::copy;
use crate::record::{length_for, pack, VERSION};
use crate::tensor::{source_of, Tensor, ELEMENT_SIZES};
use crate::transfers::{fresh, Slot, DONE, PREPARED, RUNNING};
use crate::wire::{Counted, Memory, Rest};

/// A source of at most so many bytes is lent.
const LENT: u64 = 2_000;

/// A plane of this shape, compact, with elements of any size.
fn compact(random: &mut Random, shape: &[u32]) -> Tensor {
    let mut tensor = Tensor { rank: shape.len() as u8, element_size: random.pick(&ELEMENT_SIZES), ..Tensor::default() };
    tensor.shape[..shape.len()].copy_from_slice(shape);
    tensor
}

/// A copy of this plane, for which just enough is lent; nothing for one that is refused.
fn copied(tensor: Tensor) -> Drawn {
    let drawn = Drawn::of(tensor, copy(tensor.rank).config);
    Drawn { source: source_of(&tensor).span, ..drawn }
}

/// A plane with a stride at an end of the range in some dimension, which farther out has only such strides and zeros.
fn draw_end(random: &mut Random, d: usize, stride: i32, shape: u32) -> Tensor {
    let rank = random.between(d as u64 + 1, 4) as usize;
    let shapes: Vec<u32> = (0..rank).map(|e| if e < d { 1 } else { random.between(1, 3) as u32 }).collect();
    let counts_down = draw_mirrored(random, rank);
    let mut tensor = mirror(&compact(random, &shapes), &counts_down);
    for outer in 0..d {
        tensor.stride[outer] = random.pick(&[0, 0, LARGEST[0], LARGEST[1]]);
    }
    (tensor.shape[d], tensor.stride[d]) = (shape, stride);
    tensor
}

/// The calls that ask about a tensor record, but those that read its elements only where few are to be lent.
fn ask_all(work: &mut Work, drawn: &Drawn) {
    let Drawn { tensor, config, source, destination } = *drawn;
    work.call(0x01, &tensor);
    work.call(0x02, &(tensor, config));
    work.call(0x03, &(tensor, config, source, destination));
    let whole = SubConfig { offset: [0; 4], size: tensor.shape, rank: tensor.rank as u32 };
    work.call(0x06, &(tensor, whole, source));
    let (job, length) = lay_out(&mut work.random, drawn);
    work.call(0x21, &(length, job));
    if source > LENT || destination > LENT {
        return;
    }
    let bytes = Rest(work.random.bytes(source as usize));
    work.call(0x24, &(tensor, whole, bytes.clone()));
    work.call(0x25, &(tensor, whole, bytes));
    move_in_each_way(work, drawn);
    prepare_job(work, job, length);
}

/// All elements of a move, by themselves and within a memory, by both engines and as a step.
fn move_in_each_way(work: &mut Work, drawn: &Drawn) {
    move_drawn(work, drawn);
    let (job, length) = lay_out(&mut work.random, drawn);
    let memory = Memory(work.random.bytes(length as usize));
    work.by_both(ADVANCE, &(job, 0u64, u64::MAX, memory.clone()));
    let mut table = fresh(length).table;
    table.slot[0] = Slot { state: RUNNING, job, moved: 0 };
    work.call(0x43, &(table, 0u32, u64::MAX, memory));
}

/// A move of a plane that counts down in at least one dimension.
pub fn mirrored(work: &mut Work) {
    let random = &mut work.random;
    let drawn = good(random, Scale::Small);
    let mut counts_down = [false; 4];
    counts_down[random.index(drawn.dimensions())] = true;
    let drawn = Drawn { tensor: mirror(&drawn.tensor, &counts_down), ..drawn };
    match random.below(4) {
        0 => work.call(0x01, &drawn.tensor),
        1 => work.call(0x03, &(drawn.tensor, drawn.config, drawn.source, drawn.destination)),
        2 => move_drawn(work, &drawn),
        _ => move_in_each_way(work, &drawn),
    }
}

/// A stride at an end of the range, in any dimension, accepted or not.
pub fn at_an_end(work: &mut Work) {
    let random = &mut work.random;
    let (d, shape) = (random.index(4), random.pick(&[1, 1, 1, 2, 3, 65_535]));
    let stride = random.pick(&[LARGEST[0], LARGEST[1], LARGEST[1], LEAST]);
    let drawn = copied(draw_end(random, d, stride, shape));
    let Drawn { tensor, config, source, destination } = drawn;
    match random.below(5) {
        0 => work.call(0x01, &tensor),
        1 => work.call(0x03, &(tensor, config, source, destination)),
        2 => {
            let (job, length) = lay_out(random, &drawn);
            work.call(0x21, &(length, job));
        }
        3 => {
            let sub = draw_sub_config(random, &tensor);
            work.call(0x06, &(tensor, sub, source));
        }
        _ if source > LENT || destination > LENT => work.call(0x02, &(tensor, config)),
        _ => move_drawn(work, &drawn),
    }
}

/// A part of a plane that counts down in some dimensions, with units among the sizes, and a move that reads it.
pub fn sub_tensor(work: &mut Work) {
    let random = &mut work.random;
    let rank = random.between(1, 4) as usize;
    let shape: Vec<u32> = (0..rank).map(|_| random.between(1, 5) as u32).collect();
    let mut counts_down = draw_mirrored(random, rank);
    counts_down[random.index(rank)] = true;
    let tensor = mirror(&compact(random, &shape), &counts_down);
    let config = draw_part(random, &tensor);
    let source = random.bytes(source_of(&tensor).span as usize);
    for number in [0x24, 0x25] {
        work.call(number, &(tensor, config, Rest(source.clone())));
    }
    let sub = sub_tensor_of(&tensor, &config, source.len() as u64);
    let drawn = copied(sub.tensor);
    let part = sub_part(&tensor, &config, &source).to_vec();
    let destination = work.random.bytes(drawn.destination as usize);
    work.by_both(MOVE, &(drawn.tensor, drawn.config, Counted(part), Memory(destination)));
}

/// A part that is there, with a rank that it can have.
fn draw_part(random: &mut Random, tensor: &Tensor) -> SubConfig {
    let mut config = SubConfig::default();
    let rank = tensor.rank as usize;
    for d in 0..rank {
        let shape = tensor.shape[d] as u64;
        let offset = random.below(shape);
        let size = if random.chance(40) { 1 } else { random.between(1, shape - offset) };
        (config.offset[d], config.size[d]) = (offset as u32, size as u32);
    }
    let units = config.size[..rank].iter().filter(|&&size| size == 1).count();
    config.rank = random.between((rank - units).max(1) as u64, rank as u64) as u32;
    config
}

/// Both ends of the range at each dimension: of shape 1, and of more elements, which leave no room for a dimension
/// farther out.
pub fn every_end(work: &mut Work) {
    for d in 0..4 {
        for stride in [LARGEST[0], LARGEST[1], LEAST] {
            for shape in [1, 2] {
                let drawn = copied(draw_end(&mut work.random, d, stride, shape));
                ask_all(work, &drawn);
            }
        }
    }
}

/// A size one below its inner product at each dimension that has one, and the numbers beside 4: a shape besides, no byte
/// lent, and a byte too little.
pub fn every_fault(work: &mut Work) {
    for d in 0..3 {
        let random = &mut work.random;
        let rank = random.between(d as u64 + 2, 4) as usize;
        let mut tensor = compact(random, &vec![2; rank]);
        let inner_product = source_of(&tensor).stride[d] as i32;
        tensor.stride[d] = 1 - inner_product;
        ask_all(work, &copied(tensor));
    }
    let random = &mut work.random;
    let mut least = copied(compact(random, &[2, 3]));
    least.tensor.stride[random.index(2)] = LEAST;
    ask_all(work, &Drawn { source: 0, ..least.clone() });
    least.tensor.shape[work.random.index(2)] = 0;
    ask_all(work, &least);
    let mirrored = copied(mirror(&compact(&mut work.random, &[2, 3]), &[true, true, false, false]));
    ask_all(work, &Drawn { source: mirrored.source.saturating_sub(1), ..mirrored });
}

/// Planes of each rank, mirrored in each choice of their dimensions, and with each pair of signs side by side.
pub fn every_mirror(work: &mut Work) {
    for rank in 1..=4 {
        for choice in 1..1 << rank {
            let counts_down = [0, 1, 2, 3].map(|d| choice >> d & 1 == 1);
            let tensor = mirror(&compact(&mut work.random, &[2, 3, 2, 2][..rank]), &counts_down);
            move_in_each_way(work, &copied(tensor));
        }
    }
    for stride in [[-3, -1], [-3, 0], [-3, 1], [0, -1], [3, -1]] {
        let mut tensor = compact(&mut work.random, &[2, 3]);
        tensor.stride[..2].copy_from_slice(&stride);
        move_in_each_way(work, &copied(tensor));
    }
}

/// What a configuration does with a dimension that counts down, one thing each and all at once, and a unit dimension.
pub fn every_cut(work: &mut Work) {
    let plain = copy(2).config;
    let all = plain.with_offset([1, 1, 0, 0]).with_size([2, 5, 0, 0]).with_step([1, 2, 0, 0]);
    let cuts = [
        plain.with_offset([0, 2, 0, 0]),
        plain.with_size([0, 4, 0, 0]),
        plain.with_offset([0, 1, 0, 0]).with_size([0, 4, 0, 0]),
        plain.with_step([1, 2, 0, 0]),
        plain.with_perm([1, 0, 0, 0]),
        plain.with_pre([0, 1, 0, 0]),
        plain.with_post([0, 1, 0, 0]),
        all.with_perm([1, 0, 0, 0]).with_pre([1, 0, 0, 0]).with_post([0, 1, 0, 0]),
    ];
    for config in cuts {
        move_cut(work, &[4, 7], [0, -1], config);
    }
    move_cut(work, &[4, 7], [-15, -2], plain);
    move_cut(work, &[1, 7], [-7, -1], all.with_offset([0, 1, 0, 0]).with_size([1, 5, 0, 0]));
}

fn move_cut(work: &mut Work, shape: &[u32], stride: [i32; 2], config: Config) {
    let mut tensor = compact(&mut work.random, shape);
    tensor.stride[..2].copy_from_slice(&stride);
    let drawn = Drawn::of(tensor, config.with_fill(telling_fill(&mut work.random)));
    move_in_each_way(work, &drawn);
}

/// Parts of a plane that counts down: cut at either end and at both, and with units that are removed or kept.
pub fn every_part(work: &mut Work) {
    let parts = [
        ([0, 2, 0, 0], [4, 3, 0, 0], 2),
        ([0, 0, 0, 0], [4, 3, 0, 0], 2),
        ([1, 1, 0, 0], [2, 3, 0, 0], 2),
        ([1, 1, 0, 0], [1, 3, 0, 0], 1),
        ([1, 1, 0, 0], [1, 3, 0, 0], 2),
        ([2, 1, 0, 0], [1, 1, 0, 0], 1),
    ];
    for stride in [[-5, -1], [-5, 0], [0, -1]] {
        for (offset, size, rank) in parts {
            let mut tensor = compact(&mut work.random, &[4, 5]);
            tensor.stride[..2].copy_from_slice(&stride);
            let config = SubConfig { offset, size, rank };
            let source = source_of(&tensor).span;
            let bytes = Rest(work.random.bytes(source as usize));
            work.call(0x06, &(tensor, config, source));
            work.call(0x24, &(tensor, config, bytes.clone()));
            work.call(0x25, &(tensor, config, bytes));
        }
    }
}

/// Records with words from 2^31 on: read, written, judged by their fields, in a list and appended to one; and with such
/// a word past the rank.
pub fn every_word(work: &mut Work) {
    for stride in [[LEAST, LARGEST[1], 0], [-1, LARGEST[0], 0], [0, 0, LEAST], [0, 0, -1]] {
        let mut tensor = compact(&mut work.random, &[2, 3]);
        tensor.stride[..3].copy_from_slice(&stride);
        let config = copy(2).config;
        let record = pack(&tensor, &config);
        let room = work.random.bytes(length_for(&config));
        work.call(0x30, &Rest(record.clone()));
        work.call(0x31, &(tensor, config, Memory(room)));
        work.call(0x3b, &(VERSION, tensor, config));
        let list = [head(1).to_vec(), record.clone()].concat();
        let buffer = [list.clone(), work.random.bytes(record.len())].concat();
        work.call(0x34, &(0u64, Rest(list.clone())));
        work.call(0x38, &(tensor, config, list.len() as u64, Memory(buffer)));
    }
}

/// Tables with a transfer whose plane counts down, in each state, and with one that only the least number spoils.
pub fn every_slot(work: &mut Work) {
    let counts_down = [true, true, false, false];
    let tensor = mirror(&compact(&mut work.random, &[4, 5]), &counts_down);
    let (mut job, length) = lay_out(&mut work.random, &copied(tensor));
    let length = length.max(64);
    let memory = work.random.bytes(length as usize);
    let total = judge_job(length, &job).total;
    let mut table = fresh(length).table;
    for (state, moved, number) in [(PREPARED, 0, 0x42), (RUNNING, 3, 0x43), (DONE, total, 0x44)] {
        table.slot[0] = Slot { state, job, moved };
        call_one(work, number, &table, &job, 0, &memory);
        call_one(work, 0x45, &table, &job, 0, &memory);
    }
    job.tensor.stride[work.random.index(2)] = LEAST;
    table.slot[0] = Slot { state: PREPARED, job, moved: 0 };
    for number in TABLE_CALLS {
        call_one(work, number, &table, &job, 0, &memory);
    }
}
