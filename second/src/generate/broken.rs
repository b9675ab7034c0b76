//! Tables that no history leads to: put together field by field.

use super::jobs::lay_out;
use super::planes::{good, Scale};
use super::starts::off_boundary;
use super::values::{any_u32, any_u64, any_u8, telling_fill};
use super::words::{any_run, any_word};
use super::work::Work;
use crate::job::{judge_job, Job, Part};
use crate::random::Random;
use crate::tensor::LIMIT;
use crate::transfers::{fresh, prepare, Slot, Table, DONE, FREE, PREPARED, RUNNING};
use crate::wire::{bytes_of, whole, Memory, Rest, Wire};

/// Changes one thing in a table. It may be sound all the same.
pub fn break_table(random: &mut Random, table: &mut Table) {
    let one = draw_slot(random, table);
    let other = draw_slot(random, table);
    match random.below(22) {
        0 => table.length = random.pick(&[LIMIT + 1, u64::MAX, 1 << 32, 1 << 63]),
        1 => table.length = table.length.wrapping_add(random.pick(&[1, u64::MAX])),
        2 | 18..=19 => table.slot[one].state = random.between(4, 255) as u8,
        3 => table.slot[one].state = random.below(4) as u8,
        4..=6 => break_moved(random, table, one),
        7 => set_byte(random, table, one),
        8..=10 => break_free_slot(random, table),
        11 => table.slot[one] = table.slot[other],
        12 => {
            let from = table.slot[other].job;
            share_part(random, &mut table.slot[one].job, &from);
        }
        13 => {
            let job = &mut table.slot[one].job;
            std::mem::swap(&mut job.source, &mut job.destination);
        }
        14 => table.slot.swap(one, other),
        15 => table.slot[one] = Slot::default(),
        16 => move_part(random, table, one),
        20..=21 => put_off(random, &mut table.slot[one].job),
        _ => table.slot[one].job.tensor.rank = any_u8(random),
    }
}

/// Mostly a slot that is not free.
fn draw_slot(random: &mut Random, table: &Table) -> usize {
    let used: Vec<usize> = (0..4).filter(|&slot| table.slot[slot].state != FREE).collect();
    if used.is_empty() || random.chance(20) {
        random.index(4)
    } else {
        random.pick(&used)
    }
}

/// Moved wrong by one, or where another state wants it.
fn break_moved(random: &mut Random, table: &mut Table, one: usize) {
    let slot = &mut table.slot[one];
    let total = judge_job(table.length, &slot.job).total;
    slot.moved = match random.below(10) {
        0 => slot.moved.wrapping_add(1),
        1 => slot.moved.wrapping_sub(1),
        2..=3 => total,
        4..=5 => total.wrapping_sub(1),
        6 => total.wrapping_add(1),
        7 => 0,
        8 => random.below(total),
        _ => any_u64(random),
    };
    if random.chance(30) {
        slot.state = random.between(1, 3) as u8;
    }
}

/// Any byte of a slot.
fn set_byte(random: &mut Random, table: &mut Table, one: usize) {
    let mut bytes = bytes_of(&table.slot[one]);
    let place = random.index(bytes.len());
    bytes[place] = bytes[place].wrapping_add(random.pick(&[1, 255, 128]));
    table.slot[one] = whole(&bytes).expect("as long as before");
}

/// A free slot with a byte that is not 0, in any of its fields behind the state, and most often in the fill.
fn break_free_slot(random: &mut Random, table: &mut Table) {
    let Some(free) = table.slot.iter().position(|slot| slot.state == FREE) else {
        return;
    };
    if random.chance(30) {
        table.slot[free].job.config.fill = 1 << (8 * random.below(4));
        return;
    }
    let mut fields = Vec::new();
    Slot::places("", &mut fields);
    let field = random.between(1, fields.len() as u64 - 1) as usize;
    let place: usize = fields[..field].iter().map(|(_, length)| length).sum();
    let mut bytes = bytes_of(&table.slot[free]);
    bytes[place + random.index(fields[field].1)] = any_u8(random).max(1);
    table.slot[free] = whole(&bytes).expect("as long as before");
}

/// Gives a job the place of another job's part: two sources are sound, all else is not.
fn share_part(random: &mut Random, job: &mut Job, other: &Job) {
    let start = random.pick(&[other.source.start, other.destination.start]);
    if random.chance(50) {
        job.source.start = start;
    } else {
        job.destination.start = start;
    }
}

/// A part that leaves the table's memory, just does not, or has shrunk or grown by a byte.
fn move_part(random: &mut Random, table: &mut Table, one: usize) {
    let length = table.length;
    let job = &mut table.slot[one].job;
    let part = if random.chance(50) { &mut job.source } else { &mut job.destination };
    match random.below(6) {
        0 => part.start = length.saturating_sub(part.length),
        1 => part.start = length.saturating_sub(part.length).saturating_add(1),
        2 => part.length = part.length.wrapping_add(1),
        3 => part.length = part.length.wrapping_sub(1),
        4 => part.start = any_u64(random),
        _ => part.start = 0,
    }
}

/// A part off a boundary, or both.
fn put_off(random: &mut Random, job: &mut Job) {
    let size = job.tensor.element_size;
    let (source, destination) = random.pick(&[(true, false), (false, true), (true, true)]);
    if source {
        job.source.start = off_boundary(random, job.source.start, size);
    }
    if destination {
        job.destination.start = off_boundary(random, job.destination.start, size);
    }
}

/// The calls that take a table.
pub const TABLE_CALLS: [u8; 6] = [0x41, 0x42, 0x43, 0x44, 0x45, 0x51];

/// Some of the calls that take a table, none of whose answers is kept.
pub fn call_all(work: &mut Work, table: &Table, job: &Job, handle: u32, memory: &[u8]) {
    for number in TABLE_CALLS {
        if work.random.chance(50) {
            call_one(work, number, table, job, handle, memory);
        }
    }
}

pub fn call_one(work: &mut Work, number: u8, table: &Table, job: &Job, handle: u32, memory: &[u8]) {
    let rest = Rest(memory.to_vec());
    let budget = any_u64(&mut work.random);
    let (word, run) = (any_word(&mut work.random), any_run(&mut work.random));
    match number {
        0x41 => work.call(number, &(*table, *job, rest)),
        0x43 => work.call(number, &(*table, handle, budget, Memory(memory.to_vec()))),
        0x45 => work.call(number, &(*table, handle)),
        0x51 => work.call(number, &(*table, word, run.0, run.1)),
        _ => work.call(number, &(*table, handle, rest)),
    }
}

/// A transfer with a fill, and a free slot with each byte of one, for each call that takes a table.
pub fn every_free_fill(work: &mut Work) {
    let mut drawn = good(&mut work.random, Scale::Small);
    drawn.config.fill = telling_fill(&mut work.random);
    let (job, length) = lay_out(&mut work.random, &drawn);
    // A give back refuses a table for fewer bytes with 17.
    let length = length.max(64);
    let memory = work.random.bytes(length as usize);
    let sound = prepare(&fresh(length).table, &job, memory.len()).table;
    for byte in 0..4 {
        let mut table = sound;
        table.slot[1 + work.random.index(3)].job.config.fill = 1 << (8 * byte);
        for number in TABLE_CALLS {
            call_one(work, number, &table, &job, 0, &memory);
        }
    }
}

/// Polls of tables over memories too long to be lent, with transfers whose numbers come near every limit, and of the
/// same tables with one thing changed.
pub fn wide_polls(work: &mut Work) {
    let table = draw_wide_table(&mut work.random);
    for _ in 0..12 {
        let mut table = table;
        if work.random.chance(70) {
            break_table(&mut work.random, &mut table);
        }
        let handle = if work.random.chance(75) { work.random.below(4) as u32 } else { any_u32(&mut work.random) };
        work.call(0x45, &(table, handle));
    }
    call_all(work, &table, &Job::default(), 0, &[]);
}

fn draw_wide_table(random: &mut Random) -> Table {
    let mut table = Table { length: random.pick(&[LIMIT, LIMIT, LIMIT, LIMIT, LIMIT + 1]), ..Table::default() };
    let mut next = 0;
    for slot in &mut table.slot {
        let scale = random.pick(&[Scale::Wide, Scale::Small]);
        let drawn = good(random, scale);
        let (mut job, length) = lay_out(random, &drawn);
        let after = |part: Part| Part { start: part.start.saturating_add(next), ..part };
        (job.source, job.destination) = (after(job.source), after(job.destination));
        let judged = judge_job(table.length, &job);
        if judged.status != 0 || random.chance(20) {
            continue;
        }
        // The next ones begin on a boundary of elements of any size.
        next = (next + length).next_multiple_of(4);
        *slot = in_any_state(random, job, judged.total);
    }
    table
}

/// A slot with this job, which has so many elements.
pub fn in_any_state(random: &mut Random, job: Job, total: u64) -> Slot {
    let some = random.below(total);
    let running = random.pick(&[0, total - 1, some]);
    let (state, moved) = random.pick(&[(PREPARED, 0), (RUNNING, running), (DONE, total)]);
    Slot { state, job, moved }
}
