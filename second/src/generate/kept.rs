//! Histories in which a keeper says where transfers go: runs are asked for, named in jobs, and given back.

use super::histories::History;
use super::planes::{few, good, Drawn, Scale};
use super::starts::mostly_on_boundary;
use super::words::{any_number, any_run, with_run};
use super::work::Work;
use crate::job::{Job, Part};
use crate::keeper::{bytes_of_run, give_back, request};
use crate::transfers::FREE;

/// A history, the keeper's word, and the runs that were granted and not given back since.
struct Kept<'a> {
    history: History<'a>,
    word: u64,
    runs: Vec<(u32, u32)>,
}

/// A history over a memory whose blocks are all on boundaries, or one that has some bytes behind its blocks, or none, and
/// at times too short for any.
pub fn history(work: &mut Work) {
    let length = match work.random.below(5) {
        0..=2 => 256 * work.random.between(1, 4),
        _ => work.random.pick(&[63, 64, 127, 200, 320, 447, 640, 700, 1_000]),
    };
    let turns = work.random.between(10, 36);
    let mut kept = Kept { history: History::begin(work, length, Scale::Small), word: 0, runs: Vec::new() };
    for _ in 0..turns {
        kept.turn();
    }
    kept.count();
}

impl Kept<'_> {
    fn turn(&mut self) {
        let used = self.history.table.slot.iter().position(|slot| slot.state != FREE);
        match (self.history.work.random.below(20), used) {
            (0..=3, _) => self.request(),
            (4..=6, _) | (7..=13, None) => self.prepare(),
            (7..=13, Some(_)) => self.go_on(),
            (14..=17, _) => self.give_back_granted(),
            (18, _) => self.give_back_any(),
            _ => self.history.turn(),
        }
    }

    /// Asks for a run, and for the part that it is.
    fn request(&mut self) {
        let work = &mut self.history.work;
        let n = if work.random.chance(10) { any_number(&mut work.random) } else { work.random.between(1, 24) as u32 };
        work.call(0x50, &(self.word, n));
        let granted = request(self.word, n);
        if granted.status == 0 {
            work.call(0x54, &(self.history.table.length, granted.first, n));
            self.runs.push((granted.first, n));
            self.word = granted.word;
        }
    }

    /// A move from one granted run into another, or within one.
    fn prepare(&mut self) {
        if self.runs.is_empty() {
            return self.request();
        }
        let drawn = self.draw_move();
        let source = self.place(drawn.source, drawn.tensor.element_size);
        let destination = self.place(drawn.destination, drawn.tensor.element_size);
        self.history.prepare_job(Job { source, destination, tensor: drawn.tensor, config: drawn.config });
    }

    fn draw_move(&mut self) -> Drawn {
        let random = &mut self.history.work.random;
        match random.below(3) {
            0 => good(random, Scale::Small),
            _ => few(random),
        }
    }

    /// A part of that length in a granted run, if the run is long enough: from its first byte on, or from a later one.
    fn place(&mut self, length: u64, element_size: u8) -> Part {
        let random = &mut self.history.work.random;
        let (first, n) = random.pick(&self.runs);
        let run = bytes_of_run(self.history.table.length, first, n);
        if random.chance(40) {
            return Part { start: run.start, length };
        }
        let start = run.start + random.below(run.length.saturating_sub(length) + 1);
        Part { start: mostly_on_boundary(random, start, element_size), length }
    }

    /// The next thing for a slot that is not free.
    fn go_on(&mut self) {
        let used: Vec<u32> = (0..4).filter(|&slot| self.history.table.slot[slot as usize].state != FREE).collect();
        let handle = self.history.work.random.pick(&used);
        self.history.go_on(handle);
    }

    /// Gives back a run that was granted, or some of its blocks.
    fn give_back_granted(&mut self) {
        if self.runs.is_empty() {
            return self.request();
        }
        let random = &mut self.history.work.random;
        let (first, n) = random.pick(&self.runs);
        if random.chance(75) {
            return self.give_back(first, n);
        }
        let dropped = random.below(n as u64) as u32;
        let some = random.between(1, (n - dropped) as u64) as u32;
        self.give_back(first + dropped, some);
    }

    fn give_back_any(&mut self) {
        let (first, n) = any_run(&mut self.history.work.random);
        self.give_back(first, n);
    }

    fn give_back(&mut self, first: u32, n: u32) {
        let table = self.history.table;
        self.history.work.call(0x51, &(table, self.word, first, n));
        self.word = give_back(&table, self.word, first, n).word;
        let word = self.word;
        self.runs.retain(|&(first, n)| with_run(first, n) & !word == 0);
    }

    fn count(&mut self) {
        self.history.work.call(0x52, &self.word);
        self.history.work.call(0x53, &self.word);
    }
}
