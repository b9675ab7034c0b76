//! Runs that are given back, beside tables whose transfers have bytes in them, touch them, or lie apart.

use super::broken::{break_table, in_any_state};
use super::keeper::{good_length, WRONG_RUNS};
use super::numbers::start_beside;
use super::planes::{few, good, tiny, Scale};
use super::starts::mostly_on_boundary;
use super::values::any_u64;
use super::words::{any_word, bad_run, good_run, with_run};
use super::work::Work;
use crate::job::{judge_job, meets, Job, Part};
use crate::keeper::{block_bytes, bytes_of_run, BLOCKS};
use crate::random::Random;
use crate::ready_made::copy;
use crate::tensor::{Tensor, LIMIT};
use crate::transfers::{sound, Slot, Table, DONE, FREE, PREPARED, RUNNING};

/// A run whose blocks are taken, mostly, and a table around it; then some of it is spoiled.
pub fn give_back(work: &mut Work) {
    let random = &mut work.random;
    let length = good_length(random);
    let (mut first, mut n) = good_run(random);
    let mut table = draw_table(random, length, &bytes_of_run(length, first, n));
    let mut word = any_word(random) | with_run(first, n);
    match random.below(20) {
        0..=1 => (first, n) = bad_run(random),
        2..=3 => word &= !(1 << (first as u64 + random.below(n as u64))),
        4..=5 => break_table(random, &mut table),
        6 => table.length = random.pick(&[0, 1, 63, 63]),
        7 => table.length = any_u64(random),
        _ => {}
    }
    if random.chance(6) {
        break_table(random, &mut table);
    }
    work.call(0x51, &(table, word, first, n));
}

/// A sound table of transfers in any state. In half of the tables no part has bytes of the run; in the others one
/// transfer has, in one part or both.
fn draw_table(random: &mut Random, length: u64, run: &Part) -> Table {
    let mut table = Table { length, ..Table::default() };
    let count = random.pick(&[0, 1, 1, 2, 3, 4]);
    let held = random.below(2 * count);
    for k in 0..count {
        let wanted =
            if k == held { random.pick(&[(true, false), (false, true), (true, true)]) } else { (false, false) };
        for _ in 0..20 {
            let slot = draw_slot(random, length, run);
            let with_it = put(random, &table, slot);
            let met = (meets(&slot.job.source, run), meets(&slot.job.destination, run));
            if met == wanted && sound(&with_it) {
                table = with_it;
                break;
            }
        }
    }
    table
}

/// The table with a slot more, in any place that is free.
fn put(random: &mut Random, table: &Table, slot: Slot) -> Table {
    let mut table = *table;
    let free: Vec<usize> = (0..4).filter(|&k| table.slot[k].state == FREE).collect();
    table.slot[random.pick(&free)] = slot;
    table
}

fn draw_slot(random: &mut Random, length: u64, run: &Part) -> Slot {
    let drawn = match random.below(10) {
        0..=3 => tiny(random),
        4..=6 => few(random),
        _ => good(random, Scale::Small),
    };
    let mut part = |enough: u64| {
        let part_length = enough + random.pick(&[0, 0, 0, 1, 8]);
        let start = draw_start(random, length, run, part_length);
        Part { start: mostly_on_boundary(random, start, drawn.tensor.element_size), length: part_length }
    };
    let (source, destination) = (part(drawn.source), part(drawn.destination));
    let job = Job { source, destination, tensor: drawn.tensor, config: drawn.config };
    let total = judge_job(length, &job).total.max(1);
    in_any_state(random, job, total)
}

/// Where a part starts: beside the run or at its ends, within it, behind all blocks, or anywhere.
fn draw_start(random: &mut Random, length: u64, run: &Part, part: u64) -> u64 {
    match random.below(8) {
        0..=3 => start_beside(random, run, part),
        4 => run.start + random.below(run.length),
        5 => BLOCKS as u64 * block_bytes(length),
        _ => random.below(length.saturating_sub(part) + 1),
    }
}

/// A run in the midst of a memory whose length is no multiple of 64.
fn middle_run(random: &mut Random) -> (u64, u32, u32) {
    let length = 64 * random.between(4, 40) + random.between(1, 63);
    (length, random.between(8, 50) as u32, random.between(2, 6) as u32)
}

/// How many bytes a transfer copies.
const ELEMENTS: u64 = 4;

/// A transfer in this state; its parts may be longer than what it copies.
fn transfer(state: u8, source: Part, destination: Part) -> Slot {
    let tensor = Tensor { rank: 1, element_size: 1, shape: [ELEMENTS as u32, 0, 0, 0], stride: [0; 4] };
    let moved = [0, 0, ELEMENTS / 2, ELEMENTS][state as usize];
    Slot { state, job: Job { source, destination, tensor, config: copy(1).config }, moved }
}

/// Gives a run back with one transfer, of which one part is this one; the other lies at the memory's start.
fn with_part(work: &mut Work, (length, first, n): (u64, u32, u32), state: u8, is_source: bool, part: Part) {
    let start = Part { start: 0, length: ELEMENTS };
    let slot = if is_source { transfer(state, part, start) } else { transfer(state, start, part) };
    let table = put(&mut work.random, &Table { length, ..Table::default() }, slot);
    let word = any_word(&mut work.random) | with_run(first, n);
    work.call(0x51, &(table, word, first, n));
}

/// A transfer in each state, with either part at the run's first byte and its last, around it, with bytes in it that no
/// element has, and beside it.
pub fn every_hold(work: &mut Work) {
    for state in [PREPARED, RUNNING, DONE] {
        for is_source in [true, false] {
            let (length, first, n) = middle_run(&mut work.random);
            let Part { start, length: bytes } = bytes_of_run(length, first, n);
            let end = start + bytes;
            let places =
                [(start - 3, 4), (end - 1, 4), (start - 1, bytes + 2), (start - 8, 12), (start - 4, 4), (end, 4)];
            for (start, part) in places {
                with_part(work, (length, first, n), state, is_source, Part { start, length: part });
            }
        }
    }
}

/// Parts that other bounds of the blocks would take for bytes of the run, or would not: bounds rounded up, each bound
/// rounded by itself, and a last block up to the memory's end.
pub fn every_bound(work: &mut Work) {
    for state in [PREPARED, RUNNING, DONE] {
        for is_source in [true, false] {
            let bytes = work.random.between(8, 40);
            let (length, first, n) = (64 * bytes + 63, work.random.between(8, 30), work.random.between(1, 6));
            let end = first + n;
            let whole = Part { start: 0, length: ELEMENTS };
            let run = (length, first as u32, n as u32);
            for start in [first * bytes - 3, end * (bytes + 1) - 1, end * length / 64 - 1] {
                with_part(work, run, state, is_source, Part { start, ..whole });
            }
            let last = (length, BLOCKS - n as u32, n as u32);
            with_part(work, last, state, is_source, Part { start: 64 * bytes, ..whole });
        }
    }
}

/// Tables too short, unsound, and neither, with runs that there are and are not, and with blocks free and taken.
pub fn every_order(work: &mut Work) {
    for length in [63, 64, LIMIT + 1] {
        let sound = Table { length, ..Table::default() };
        let mut unsound = sound;
        unsound.slot[work.random.index(4)].moved = 1;
        for table in [sound, unsound] {
            for word in [0, u64::MAX] {
                let (wrong, right) = (work.random.pick(&WRONG_RUNS), good_run(&mut work.random));
                for (first, n) in [wrong, right, (62, 3)] {
                    work.call(0x51, &(table, word, first, n));
                }
            }
        }
    }
}

/// Each wrong run; and runs of which one block is not taken, or none is, or all and their neighbours are.
pub fn every_run(work: &mut Work) {
    let table = Table { length: good_length(&mut work.random), ..Table::default() };
    for (first, n) in WRONG_RUNS {
        work.call(0x51, &(table, u64::MAX, first, n));
    }
    for (first, n) in [(0, 64), (59, 5), (20, 5), (63, 1)] {
        let all = with_run(first, n);
        let without = |block: u32| all & !(1 << block);
        let words = [0, all, u64::MAX, !all, without(first), without(first + n / 2), without(first + n - 1)];
        let neighbours = [all | all << 1, all | all >> 1];
        for word in words.into_iter().chain(neighbours) {
            work.call(0x51, &(table, word, first, n));
        }
    }
}
