//! Stretches of accepted moves whose rows have several elements: from anywhere in a row, to its end or past it.

use super::jobs::lay_out;
use super::planes::{good, Drawn, Scale};
use super::work::{Work, ADVANCE};
use crate::job::{judge_job, Job};
use crate::moves::{kept_counts, room};
use crate::random::Random;
use crate::transfers::{fresh, prepare, start, step, RUNNING};
use crate::wire::Memory;

/// A transfer is given up after so many steps.
const STEPS: usize = 8;

/// A job, and the length of its memory.
fn draw_job(random: &mut Random) -> (Job, u64) {
    let mut drawn = good(random, Scale::Rows);
    if random.chance(50) {
        drawn = with_one_thing(random, &drawn);
    }
    lay_out(random, &drawn)
}

/// The same elements side by side in source and destination, but for one thing at most: the rows are thinned, turned,
/// wider in the destination, padded on both sides, or read right to left.
fn with_one_thing(random: &mut Random, drawn: &Drawn) -> Drawn {
    let (mut tensor, mut config) = (drawn.tensor, drawn.config);
    let rank = drawn.dimensions();
    let last = rank - 1;
    let count = kept_counts(rank, &tensor, &config);
    (tensor.stride, config.dst_stride, config.dst_offset) = ([0; 4], [0; 4], [0; 4]);
    for d in 0..rank {
        (config.size[d], config.step[d], config.perm[d]) = (count[d] as u32, 1, d as u8);
    }
    match random.below(7) {
        0 => (config.offset[last], config.size[last], config.step[last]) = (0, 0, random.between(2, 3) as u32),
        1..=2 => config.perm[..rank].reverse(),
        3 => config.dst_stride[last] = random.between(2, 3) as u32,
        4 => (config.pre[last], config.post[last]) = (random.between(1, 2) as u8, random.between(1, 2) as u8),
        5 => tensor.stride[last] = -1,
        _ => {}
    }
    Drawn::of(tensor, config)
}

/// Some elements of a job.
pub fn advance(work: &mut Work) {
    let random = &mut work.random;
    let (job, length) = draw_job(random);
    let total = judge_job(length, &job).total;
    let from = if random.chance(20) { 0 } else { random.below(total) };
    let budget = draw_budget(random, &job, total.saturating_sub(from));
    let memory = random.bytes(length as usize);
    work.by_both(ADVANCE, &(job, from, budget, Memory(memory)));
}

/// A transfer, step by step.
pub fn transfer(work: &mut Work) {
    let (job, length) = draw_job(&mut work.random);
    let total = judge_job(length, &job).total;
    let mut memory = work.random.bytes(length as usize);
    let prepared = prepare(&fresh(length).table, &job, memory.len()).table;
    let mut table = start(&prepared, 0, memory.len()).table;
    for _ in 0..STEPS {
        let left = total.saturating_sub(table.slot[0].moved);
        let budget = draw_budget(&mut work.random, &job, left);
        work.call(0x43, &(table, 0u32, budget, Memory(memory.clone())));
        let stepped = step(&table, 0, budget, memory);
        (table, memory) = (stepped.table, stepped.memory.0);
        if table.slot[0].state != RUNNING {
            break;
        }
    }
}

/// A budget that ends within a row, some rows on, anywhere, or behind the last element.
fn draw_budget(random: &mut Random, job: &Job, left: u64) -> u64 {
    let answer = room(&job.tensor, &job.config).answer;
    let row = answer.extent[job.tensor.rank as usize - 1] as u64;
    match random.below(8) {
        0..=1 => random.between(1, row),
        2..=3 => random.between(row, 3 * row),
        4..=6 => random.between(1, left.max(1)),
        _ => left + random.pick(&[0, 1, 2, 1 << 40]),
    }
}
