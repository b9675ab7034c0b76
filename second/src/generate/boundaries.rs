//! Jobs and tables whose parts start on a boundary of their elements, or off it.

use super::broken::{call_all, call_one, in_any_state, TABLE_CALLS};
use super::jobs::{advance_job, prepare_job};
use super::planes::{few, good, Drawn, Scale};
use super::spoil::{spoil, Lent};
use super::values::any_u64;
use super::work::Work;
use crate::cases::boundaries::HELD;
use crate::cases::input::STATES;
use crate::job::{judge_job, Job, Part};
use crate::keeper::block_bytes;
use crate::random::Random;
use crate::ready_made::copy;
use crate::tensor::Tensor;
use crate::transfers::{fresh, Slot, Table, DONE, PREPARED};
use crate::wire::Rest;

/// How far behind a multiple of 4 the two parts start: the source and the destination.
type Past = (u64, u64);

/// A job with its parts so far behind multiples of 4, and the length of a memory in which there is room around them.
fn lay_out_past(random: &mut Random, drawn: &Drawn, past: Past) -> (Job, u64) {
    let source_first = random.chance(50);
    let (one, two) = if source_first { (drawn.source, drawn.destination) } else { (drawn.destination, drawn.source) };
    let (past_one, past_two) = if source_first { past } else { (past.1, past.0) };
    let first = Part { start: 4 * random.below(3) + past_one, length: one };
    let after = (first.start + one).next_multiple_of(4) + 4 * random.below(2);
    let second = Part { start: after + past_two, length: two };
    let (source, destination) = if source_first { (first, second) } else { (second, first) };
    let length = second.start + two + random.pick(&[0, 1, 4, 7]);
    (Job { source, destination, tensor: drawn.tensor, config: drawn.config }, length)
}

/// A move of any size, mostly of 2 or 4, with a length that is a multiple of it or some bytes more.
fn draw_move(random: &mut Random) -> Drawn {
    let drawn = if random.chance(50) { few(random) } else { good(random, Scale::Small) };
    let element_size = random.pick(&[1, 2, 2, 2, 3, 4, 4, 4]);
    let mut drawn = Drawn::of(Tensor { element_size, ..drawn.tensor }, drawn.config);
    drawn.source += random.pick(&[0, 0, 0, 1, 2, 3]);
    drawn.destination += random.pick(&[0, 0, 0, 1, 2, 3]);
    drawn
}

/// On the boundary, or beside it.
fn draw_past(random: &mut Random) -> u64 {
    random.pick(&[0, 0, 0, 0, 1, 2, 3])
}

fn draw_job(random: &mut Random) -> (Job, u64) {
    let mut drawn = draw_move(random);
    if random.chance(15) {
        let number = random.pick(&[1, 3, 4, 5, 6, 7, 8, 9, 11, 12, 13, 13, 13]);
        let d = random.index(drawn.dimensions());
        spoil(random, &mut drawn, number, d, Lent::Bytes);
    }
    let past = (draw_past(random), draw_past(random));
    let (mut job, mut length) = lay_out_past(random, &drawn, past);
    match random.below(12) {
        // The last part leaves the memory.
        0 => length = job.source.start.max(job.destination.start),
        // Both parts meet, the destination off a boundary or on it.
        1..=2 => job.destination.start = job.source.start + draw_past(random).min(drawn.source),
        _ => {}
    }
    (job, length)
}

/// A job, judged, advanced or prepared.
pub fn job(work: &mut Work) {
    let (job, length) = draw_job(&mut work.random);
    match work.random.below(8) {
        0 => work.call(0x21, &(length, job)),
        1 => judge_far(work, &job, length),
        2..=3 => advance_job(work, job, length),
        4..=5 => prepare_job(work, job, length),
        _ => prepare_beside(work, &job, length),
    }
}

/// Judges a job far behind the beginning of a memory, up to the end of one of the largest length.
fn judge_far(work: &mut Work, job: &Job, length: u64) {
    let most = u64::MAX - length;
    let base = match work.random.below(6) {
        0 => any_u64(&mut work.random).min(most),
        1..=2 => most - work.random.below(4),
        _ => work.random.pick(&[1 << 31, 1 << 32, 1 << 63, 3 << 62]) + work.random.below(4),
    };
    let after = |part: Part| Part { start: part.start + base, ..part };
    let job = Job { source: after(job.source), destination: after(job.destination), ..*job };
    let length = if work.random.chance(50) { u64::MAX } else { base + length };
    work.call(0x21, &(length, job));
}

/// A transfer of one byte, from the last one of a memory of that length into this one.
fn byte_into(start: u64, length: u64) -> Job {
    let tensor = Tensor { rank: 1, element_size: 1, shape: [1, 0, 0, 0], stride: [0; 4] };
    let part = |start: u64| Part { start, length: 1 };
    Job { source: part(length - 1), destination: part(start), tensor, config: copy(1).config }
}

/// Prepares a job beside another transfer, which has a byte of its source or of its destination, or of neither.
fn prepare_beside(work: &mut Work, job: &Job, length: u64) {
    let start = work.random.pick(&[job.source.start, job.destination.start, length]).min(length);
    // Two bytes more, for the other transfer.
    let length = length + 2;
    let mut table = fresh(length).table;
    table.slot[work.random.index(4)] = in_any_state(&mut work.random, byte_into(start, length), 1);
    let memory = work.random.bytes(length as usize);
    work.call(0x41, &(table, *job, Rest(memory)));
}

/// A table with a transfer whose parts start on boundaries or off them, in calls that take a table.
pub fn table(work: &mut Work) {
    let drawn = draw_move(&mut work.random);
    let past = (draw_past(&mut work.random), draw_past(&mut work.random));
    let (job, length) = lay_out_past(&mut work.random, &drawn, past);
    let total = elements_of(&job, length);
    let slot = in_any_state(&mut work.random, job, total);
    let (table, handle) = with_slot(&mut work.random, length, slot);
    let memory = work.random.bytes(table.length as usize);
    call_all(work, &table, &job, handle, &memory);
}

/// How many elements a job has, wherever its parts start.
fn elements_of(job: &Job, length: u64) -> u64 {
    let tensor = Tensor { element_size: 1, ..job.tensor };
    judge_job(length, &Job { tensor, ..*job }).total
}

/// A table with one transfer, in any of its slots. Its memory is long enough to have blocks.
fn with_slot(random: &mut Random, length: u64, slot: Slot) -> (Table, u32) {
    let mut table = fresh(length.max(64)).table;
    let handle = random.index(4);
    table.slot[handle] = slot;
    (table, handle as u32)
}

/// A copy of three elements.
fn three(element_size: u8) -> Drawn {
    let tensor = Tensor { rank: 1, element_size, shape: [3, 0, 0, 0], stride: [0; 4] };
    Drawn::of(tensor, copy(1).config)
}

/// Parts at each distance from a boundary: of either part, and of both. Parts whose length is no multiple, and jobs to
/// which another number applies besides.
pub fn every_start(work: &mut Work) {
    for (element_size, distances) in [(1, 1..2), (2, 0..3), (3, 0..4), (4, 0..4)] {
        for past in distances {
            for past in [(past, 0), (0, past), (past, past)] {
                let (job, length) = lay_out_past(&mut work.random, &three(element_size), past);
                ask(work, &job, length);
            }
        }
    }
    for element_size in HELD {
        for (longer, past) in [((1, 0), (0, 4)), ((0, 1), (4, 0)), ((1, 1), (1, 0))] {
            let mut drawn = three(element_size);
            (drawn.source, drawn.destination) = (drawn.source + longer.0, drawn.destination + longer.1);
            let (job, length) = lay_out_past(&mut work.random, &drawn, past);
            ask(work, &job, length);
        }
        every_pair(work, element_size);
    }
}

/// A job that 34 refuses, or a number before it: of the move, of a part that leaves the memory, and of parts that meet.
fn every_pair(work: &mut Work, element_size: u8) {
    let past = work.random.pick(&[(1, 0), (0, 1), (1, 1)]);
    for number in [1, 5, 9, 12, 13] {
        let mut drawn = three(element_size);
        spoil(&mut work.random, &mut drawn, number, 0, Lent::Bytes);
        let (job, length) = lay_out_past(&mut work.random, &drawn, past);
        ask(work, &job, length);
    }
    let (job, length) = lay_out_past(&mut work.random, &three(element_size), past);
    ask(work, &job, job.source.start.max(job.destination.start));
    let meeting = Job { source: Part { start: job.destination.start + 1, ..job.source }, ..job };
    ask(work, &meeting, length + 16);
}

fn ask(work: &mut Work, job: &Job, length: u64) {
    work.call(0x21, &(length, *job));
    advance_job(work, *job, length);
    prepare_job(work, *job, length);
}

/// A job off a boundary, with each number that a prepare gives before those of the job and behind them.
pub fn every_prepare(work: &mut Work) {
    for element_size in HELD {
        let (job, length) = lay_out_past(&mut work.random, &three(element_size), (1, 0));
        let length = length + 1;
        let memory = work.random.bytes(length as usize);
        let mut full = fresh(length).table;
        for (k, slot) in full.slot.iter_mut().enumerate() {
            *slot = Slot { state: PREPARED, job: byte_into(job.destination.start + k as u64, length), moved: 0 };
        }
        let mut one = full;
        one.slot[1..].fill(Slot::default());
        let mut unsound = one;
        unsound.slot[0].moved = 1;
        for table in [one, unsound, full] {
            work.call(0x41, &(table, job, Rest(memory.clone())));
        }
        work.call(0x41, &(one, job, Rest(memory[1..].to_vec())));
    }
}

/// Parts that are runs of blocks, of a memory of any length.
pub fn every_block(work: &mut Work) {
    for element_size in HELD {
        for length in [256, 512, 256 + 64, 512 + 64, 640 + 63] {
            let block = block_bytes(length);
            let part = |first: u64| Part { start: first * block, length: 12 * block };
            let Drawn { tensor, config, .. } = three(element_size);
            let (source, destination) = work.random.pick(&[(1, 21), (22, 5), (33, 13)]);
            let job = Job { source: part(source), destination: part(destination), tensor, config };
            prepare_job(work, job, length);
        }
    }
}

/// A slot in each state with either part off a boundary, in each call that takes a table.
pub fn every_slot(work: &mut Work) {
    for (state, _) in STATES {
        for past in [(1, 0), (0, 1)] {
            let element_size = work.random.pick(&HELD);
            let (job, length) = lay_out_past(&mut work.random, &three(element_size), past);
            let moved = if state == DONE { 3 } else { 0 };
            let (table, handle) = with_slot(&mut work.random, length, Slot { state, job, moved });
            let memory = work.random.bytes(table.length as usize);
            for number in TABLE_CALLS {
                call_one(work, number, &table, &job, handle, &memory);
            }
        }
    }
}

/// Jobs of either size far behind the beginning, on boundaries and off them.
pub fn every_far_start(work: &mut Work) {
    for element_size in HELD {
        for base in [1 << 32, 1 << 63, u64::MAX - 99] {
            for past in [(0, 0), (1, 0), (0, 1), (2, 2)] {
                let (job, _) = lay_out_past(&mut work.random, &three(element_size), past);
                let after = |part: Part| Part { start: part.start + base, ..part };
                let mut job = Job { source: after(job.source), destination: after(job.destination), ..job };
                let last =
                    if job.source.start < job.destination.start { &mut job.destination } else { &mut job.source };
                last.length = u64::MAX - last.start;
                work.call(0x21, &(u64::MAX, job));
            }
        }
    }
}
