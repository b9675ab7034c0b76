//! Histories of a table: calls one after another, each given the table and the memory that the one before handed back.

use super::broken::{break_table, call_all};
use super::jobs::{draw_budget, lay_out, misplace};
use super::moving::draw_at_extent_limit;
use super::numbers::start_beside;
use super::planes::{good, tiny, Drawn, Scale};
use super::spoil::{vary, Lent};
use super::starts::mostly_on_boundary;
use super::values::{any_u32, any_u64};
use super::work::Work;
use crate::job::{judge_job, Job, Part};
use crate::tensor::LIMIT;
use crate::transfers::{fresh, poll, prepare, release, sound, start, step, Slot, Table, DONE, FREE, PREPARED, RUNNING};
use crate::wire::{Memory, Rest, MEMORY_LIMIT};

/// A table and its memory, followed from call to call.
pub struct History<'a> {
    pub work: &'a mut Work,
    pub table: Table,
    memory: Vec<u8>,
    scale: Scale,
}

/// A history over a small memory.
pub fn short(work: &mut Work) {
    let length = work.random.pick(&[40, 60, 60, 80, 100, 100, 150, 200, 300]);
    let turns = work.random.between(20, 80);
    follow(work, length, turns, Scale::Small);
}

/// A history over a memory in which hardly anything has room.
pub fn narrow(work: &mut Work) {
    let length = work.random.pick(&[0, 1, 2, 3, 8]);
    follow(work, length, 12, Scale::Small);
}

/// A history with some thousand elements to a transfer.
pub fn large(work: &mut Work) {
    let length = work.random.between(10_000, MEMORY_LIMIT as u64);
    follow(work, length, 9, Scale::Large);
}

/// A table for a memory of any length.
pub fn fresh_table(work: &mut Work) {
    let length = match work.random.below(3) {
        0 => work.random.between(LIMIT - 1, LIMIT + 1),
        _ => any_u64(&mut work.random),
    };
    work.call(0x40, &length);
}

fn follow(work: &mut Work, length: u64, turns: u64, scale: Scale) {
    let mut history = History::begin(work, length, scale);
    for _ in 0..turns {
        history.turn();
    }
}

impl History<'_> {
    /// A fresh table.
    pub fn begin(work: &mut Work, length: u64, scale: Scale) -> History<'_> {
        work.call(0x40, &length);
        let memory = work.random.bytes(length as usize);
        History { work, table: fresh(length).table, memory, scale }
    }

    pub fn turn(&mut self) {
        let handle = self.draw_handle();
        match self.work.random.below(40) {
            0..=28 => self.go_on(handle),
            29..=30 => self.prepare(),
            31..=33 => self.refusable(handle),
            34..=35 => self.poll(handle),
            36 => self.with_other_memory(handle),
            _ => self.with_broken_table(),
        }
    }

    /// What the slot is ready for.
    pub fn go_on(&mut self, handle: u32) {
        let state = self.table.slot.get(handle as usize).map_or(FREE, |slot| slot.state);
        match state {
            FREE => self.prepare(),
            PREPARED => self.start(handle),
            RUNNING => self.step(handle),
            _ => self.release(handle),
        }
    }

    fn draw_handle(&mut self) -> u32 {
        match self.work.random.below(20) {
            0 => self.work.random.pick(&[4, 5, 255, 256, 257, 65_536, 1 << 31, u32::MAX]),
            1 => any_u32(&mut self.work.random),
            _ => self.work.random.below(4) as u32,
        }
    }

    /// Any of the calls, whether the slot is ready for it or not.
    fn refusable(&mut self, handle: u32) {
        match self.work.random.below(3) {
            0 => self.start(handle),
            1 => self.step(handle),
            _ => self.release(handle),
        }
    }

    fn prepare(&mut self) {
        let job = self.draw_job();
        self.prepare_job(job);
    }

    pub fn prepare_job(&mut self, job: Job) {
        self.work.call(0x41, &(self.table, job, Rest(self.memory.clone())));
        self.table = prepare(&self.table, &job, self.memory.len()).table;
    }

    fn start(&mut self, handle: u32) {
        self.work.call(0x42, &(self.table, handle, Rest(self.memory.clone())));
        self.table = start(&self.table, handle, self.memory.len()).table;
    }

    fn step(&mut self, handle: u32) {
        let left = poll(&self.table, handle).left;
        let budget = draw_budget(&mut self.work.random, left);
        self.work.call(0x43, &(self.table, handle, budget, Memory(self.memory.clone())));
        let stepped = step(&self.table, handle, budget, self.memory.clone());
        self.table = stepped.table;
        self.memory = stepped.memory.0;
    }

    fn release(&mut self, handle: u32) {
        self.work.call(0x44, &(self.table, handle, Rest(self.memory.clone())));
        self.table = release(&self.table, handle, self.memory.len()).table;
    }

    fn poll(&mut self, handle: u32) {
        self.work.call(0x45, &(self.table, handle));
    }

    /// A call with a memory that is not as long as the table's; the history goes on as if it had not been made.
    fn with_other_memory(&mut self, handle: u32) {
        let length = self.memory.len();
        let other = self.work.random.pick(&[length + 1, length.saturating_sub(1), 0, length + 2]);
        let memory = vec![7; other.min(MEMORY_LIMIT)];
        let mut table = self.table;
        if self.work.random.chance(20) {
            break_table(&mut self.work.random, &mut table);
        }
        let job = self.draw_job();
        call_all(self.work, &table, &job, handle, &memory);
    }

    /// Calls with a table that is put together wrongly. It is kept if it is sound all the same.
    fn with_broken_table(&mut self) {
        let mut table = self.table;
        for _ in 0..self.work.random.pick(&[1, 1, 2]) {
            break_table(&mut self.work.random, &mut table);
        }
        let handle = self.draw_handle();
        let job = self.draw_job();
        let memory = self.memory.clone();
        call_all(self.work, &table, &job, handle, &memory);
        if sound(&table) && table.length == self.table.length {
            self.table = table;
        }
    }

    fn draw_job(&mut self) -> Job {
        let drawn = self.draw_move();
        let mut job = self.search(&drawn, None);
        let length = self.table.length;
        let random = &mut self.work.random;
        match random.below(20) {
            0..=2 => misplace(random, &mut job, length),
            3..=9 => {
                if let Some(other) = self.draw_part() {
                    job = self.at_another(&drawn, other);
                }
            }
            _ => {}
        }
        job
    }

    /// A move that finds room in the memory beside others, if it can be had.
    fn draw_move(&mut self) -> Drawn {
        let random = &mut self.work.random;
        let most = self.table.length / 4;
        let mut drawn = good(random, self.scale);
        for _ in 0..10 {
            if drawn.source <= most && drawn.destination <= most {
                break;
            }
            drawn = if random.chance(30) { tiny(random) } else { good(random, self.scale) };
        }
        if random.chance(25) {
            vary(random, &mut drawn, Lent::Bytes);
        }
        drawn.source += random.pick(&[0, 0, 0, 1, 2]);
        drawn.destination += random.pick(&[0, 0, 0, 1, 2]);
        drawn
    }

    /// A part of a slot that is not free.
    fn draw_part(&mut self) -> Option<Part> {
        let slot = &self.table.slot[self.work.random.index(4)];
        if slot.state == FREE {
            return None;
        }
        Some(self.work.random.pick(&[slot.job.source, slot.job.destination]))
    }

    /// Places the two parts so that the table takes the job, if a few tries find such places; one part may be placed
    /// already.
    fn search(&mut self, drawn: &Drawn, placed: Option<(bool, u64)>) -> Job {
        let length = self.table.length;
        let mut job = Job { tensor: drawn.tensor, config: drawn.config, ..Job::default() };
        job.source.length = drawn.source;
        job.destination.length = drawn.destination;
        for _ in 0..30 {
            job.source.start = self.anywhere(length, drawn.source, drawn.tensor.element_size);
            job.destination.start = self.anywhere(length, drawn.destination, drawn.tensor.element_size);
            match placed {
                Some((true, start)) => job.source.start = start,
                Some((false, start)) => job.destination.start = start,
                None => {}
            }
            if prepare(&self.table, &job, self.memory.len()).status == 0 {
                break;
            }
        }
        job
    }

    /// Where a part of that length may start in the memory, mostly on a boundary.
    fn anywhere(&mut self, memory: u64, part: u64, element_size: u8) -> u64 {
        let start = self.work.random.below(memory.saturating_sub(part) + 1);
        mostly_on_boundary(&mut self.work.random, start, element_size)
    }

    /// Places the source or the destination so that it meets another slot's part, or just touches it.
    fn at_another(&mut self, drawn: &Drawn, other: Part) -> Job {
        let is_source = self.work.random.chance(50);
        let own = if is_source { drawn.source } else { drawn.destination };
        let start = start_beside(&mut self.work.random, &other, own);
        let start = mostly_on_boundary(&mut self.work.random, start, drawn.tensor.element_size);
        self.search(drawn, Some((is_source, start)))
    }
}

/// A memory that is too long for a step but not for the calls that leave it as it is. It has room for the largest
/// extent there is, as source and as destination.
pub fn beyond_steps(work: &mut Work) {
    let length = 2 * MEMORY_LIMIT as u64;
    let memory = Rest(work.random.bytes(length as usize));
    let mut table = fresh(length).table;
    let mut job = Job::default();
    for _ in 0..3 {
        let drawn = draw_at_extent_limit(work);
        (job, _) = lay_out(&mut work.random, &drawn);
        work.call(0x41, &(table, job, memory.clone()));
        table = prepare(&table, &job, memory.0.len()).table;
        if table.slot[0].state != FREE {
            break;
        }
    }
    for number in [0x42, 0x44] {
        work.call(number, &(table, 0u32, memory.clone()));
    }
    work.call(0x43, &(table, 0u32, 1u64, memory.clone()));
    table.slot[0] = Slot { state: DONE, job, moved: judge_job(length, &job).total };
    work.call(0x44, &(table, 0u32, memory));
}
