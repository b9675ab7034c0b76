//! Which case a start is, worked out by hand.

use super::{cases_of_call, default, plane};
use crate::cases::boundaries::{cases, met};
use crate::job::{Job, Part};
use crate::tensor::Tensor;
use crate::transfers::{fresh, Slot, Table, DONE, PREPARED, RUNNING};
use crate::wire::{bytes_of, Memory, Rest};

fn of_call(number: u8, arguments: Vec<u8>) -> String {
    cases_of_call((cases, met), number, arguments)
}

/// Two elements of this size from one byte to another.
fn job(element_size: u8, from: u64, to: u64) -> Job {
    let tensor = Tensor { element_size, ..plane(&[2]) };
    let part = |start: u64| Part { start, length: 2 * element_size as u64 };
    Job { source: part(from), destination: part(to), tensor, config: default(&tensor) }
}

fn judged(job: Job) -> String {
    of_call(0x21, bytes_of(&(32u64, job)))
}

#[test]
fn refused_starts() {
    assert_eq!(judged(job(2, 1, 8)), "34 by a 2-byte source alone, 1 past");
    assert_eq!(judged(job(2, 0, 9)), "34 by a 2-byte destination alone, 1 past");
    assert_eq!(judged(job(2, 1, 9)), "34 by both 2-byte parts");
    assert_eq!(judged(job(4, 2, 16)), "34 by a 4-byte source alone, 2 past");
    assert_eq!(judged(job(4, 8, 19)), "34 by a 4-byte destination alone, 3 past");
    assert_eq!(judged(job(4, 1, 19)), "34 by both 4-byte parts");
    for number in [0x22, 0x27] {
        let advanced = of_call(number, bytes_of(&(job(4, 1, 16), 0u64, 1u64, Memory(vec![7; 32]))));
        assert_eq!(advanced, "34 by a 4-byte source alone, 1 past");
    }
}

#[test]
fn accepted_starts() {
    assert_eq!(
        (judged(job(2, 0, 8)), judged(job(4, 0, 16)), judged(job(1, 0, 4)), judged(job(3, 0, 6))),
        Default::default()
    );
    assert_eq!(
        (judged(job(2, 2, 8)), judged(job(2, 0, 6))),
        ("2-byte source at an odd multiple".into(), "2-byte destination at an odd multiple".into(),)
    );
    assert_eq!(judged(job(4, 12, 24)), "4-byte source at an odd multiple");
    assert_eq!(
        (judged(job(1, 3, 8)), judged(job(1, 0, 9))),
        ("1-byte source at an odd byte".into(), "1-byte destination at an odd byte".into(),)
    );
    assert_eq!(judged(job(3, 4, 12)), "3-byte source, 1 past");
    assert_eq!(judged(job(3, 5, 12)), "3-byte source at an odd byte; 3-byte source, 2 past");
    assert_eq!(judged(job(3, 0, 7)), "3-byte destination at an odd byte; 3-byte destination, 1 past");
}

#[test]
fn lengths() {
    let longer = |element_size: u8, source: u64, destination: u64| {
        let mut job = job(element_size, 0, 16);
        job.source.length += source;
        job.destination.length += destination;
        judged(job)
    };
    assert_eq!(longer(4, 3, 0), "4-byte source whose length is no multiple");
    assert_eq!(longer(2, 0, 1), "2-byte destination whose length is no multiple");
    assert_eq!((longer(4, 4, 0), longer(2, 0, 2), longer(1, 0, 1)), Default::default());
    assert_eq!((longer(3, 0, 0), longer(3, 1, 1)), ("3-byte destination, 1 past".into(), longer(3, 0, 0)));
}

#[test]
fn pairs() {
    let with = |change: fn(&mut Job)| {
        let mut job = job(2, 1, 8);
        change(&mut job);
        judged(job)
    };
    assert_eq!(with(|job| job.source.length = 3), "5 and 34");
    assert_eq!(with(|job| job.destination.length = 3), "13 and 34");
    assert_eq!(
        (with(|job| job.tensor.rank = 5), with(|job| job.config.step[0] = 0)),
        ("1 and 34".into(), "9 and 34".into())
    );
    assert_eq!(with(|job| job.destination.start = 29), "20 and 34");
    assert_eq!(with(|job| job.destination.start = 4), "34 by a 2-byte source alone, 1 past; 34 and 21");
    // On boundaries, or with elements that have none, there is no pair.
    assert_eq!(with(|job| (job.source.start, job.source.length) = (2, 3)), "");
    assert_eq!(with(|job| (job.tensor.element_size, job.destination.start) = (3, 29)), "");
    assert_eq!((with(|job| job.tensor.element_size = 0), with(|job| job.tensor.element_size = 5)), Default::default());
}

#[test]
fn far_starts() {
    let far = |element_size: u8, from: u64, length: u64| {
        let mut job = job(element_size, from, 0);
        job.source.length = length;
        of_call(0x21, bytes_of(&(u64::MAX, job)))
    };
    assert_eq!(far(4, 1 << 63, 8), "on a boundary from byte 2^63 on");
    assert_eq!(far(2, (1 << 63) + 1, 4), "34 by a 2-byte source alone, 1 past; 34 from byte 2^63 on");
    let (on, off) = ("on a boundary up to the end of 2^64 - 1 bytes", "34 up to the end of 2^64 - 1 bytes");
    assert!(far(2, u64::MAX - 5, 5).ends_with(on));
    assert!(far(2, u64::MAX - 4, 4).ends_with(off));
    assert!(!far(2, u64::MAX - 5, 4).ends_with(on));
    assert_eq!(far(3, 1 << 63, 6), "3-byte source, 2 past");
}

/// A table for 32 bytes with one transfer of a byte, from byte 30 into byte 8, in this slot.
fn table(slot: usize) -> Table {
    let mut table = fresh(32).table;
    let tensor = plane(&[1]);
    let part = |start: u64| Part { start, length: 1 };
    let job = Job { source: part(30), destination: part(8), tensor, config: default(&tensor) };
    table.slot[slot] = Slot { state: PREPARED, job, moved: 0 };
    table
}

#[test]
fn prepares() {
    let prepared =
        |table: Table, job: Job, memory: usize| of_call(0x41, bytes_of(&(table, job, Rest(vec![7; memory]))));
    let by_destination = "34 by a 2-byte destination alone, 1 past";
    assert_eq!(prepared(table(0), job(2, 0, 13), 32), by_destination);
    assert_eq!(prepared(table(0), job(2, 0, 5), 32), format!("{by_destination}; 34 and 22"));
    // Its own parts meet besides.
    assert_eq!(prepared(table(0), job(2, 4, 5), 32), format!("{by_destination}; 34 and 21"));
    assert_eq!(
        (prepared(table(0), job(2, 0, 13), 31), prepared(table(0), job(2, 0, 12), 31)),
        ("17 and 34".into(), "".into())
    );
    let mut unsound = table(0);
    unsound.slot[0].moved = 1;
    assert_eq!(prepared(unsound, job(2, 0, 13), 32), "18 and 34");
    let mut full = table(0);
    for k in 1..4 {
        full.slot[k] = full.slot[0];
        full.slot[k].job.destination.start = 8 + k as u64;
    }
    assert_eq!((prepared(full, job(2, 0, 13), 32), prepared(full, job(2, 0, 12), 32)), ("19 and 34".into(), "".into()));
}

#[test]
fn blocks() {
    let prepared = |length: u64, element_size: u8, from: u64, to: u64| {
        let memory = Rest(vec![7; length as usize]);
        of_call(0x41, bytes_of(&(fresh(length).table, job(element_size, from, to), memory)))
    };
    assert_eq!(prepared(256, 4, 8, 32), "4-byte parts at blocks of a multiple of 256 bytes");
    // Neither is block 0, and a byte of a block behind its first is none.
    assert_eq!((prepared(256, 4, 0, 32), prepared(512, 2, 8, 36)), Default::default());
    // Blocks of 5 bytes.
    assert!(prepared(320, 2, 5, 20).ends_with("34 by a 2-byte part at a block"));
    assert!(prepared(320, 4, 10, 20).ends_with("34 by a 4-byte part at a block"));
    assert_eq!(prepared(320, 2, 6, 11), "34 by a 2-byte destination alone, 1 past");
    assert_eq!(prepared(320, 2, 20, 40), "");
}

#[test]
fn slots() {
    let with = |state: u8, job: Job| {
        let mut table = table(0);
        table.slot[2] = Slot { state, job, moved: if state == DONE { 2 } else { 0 } };
        table
    };
    let polled = |table: Table| of_call(0x45, bytes_of(&(table, 0u32)));
    for (state, name) in [(PREPARED, "prepared"), (RUNNING, "running"), (DONE, "done")] {
        assert_eq!(polled(with(state, job(2, 0, 16))), "");
        let expected = format!("18 by a {name} slot whose source is off a boundary");
        assert_eq!(polled(with(state, job(2, 1, 16))), expected);
        let table = with(state, job(4, 0, 18));
        let expected = format!("18 by a {name} slot whose destination is off a boundary");
        for number in [0x42, 0x44] {
            assert_eq!(of_call(number, bytes_of(&(table, 0u32, Rest(vec![7; 32])))), expected);
        }
        assert_eq!(of_call(0x43, bytes_of(&(table, 0u32, 1u64, Memory(vec![7; 32])))), expected);
        assert_eq!(of_call(0x41, bytes_of(&(table, Job::default(), Rest(vec![7; 32])))), expected);
    }
    // Both parts are off, something else is wrong, or another slot's part is met.
    assert_eq!((polled(with(PREPARED, job(2, 1, 17))), polled(with(7, job(2, 1, 16)))), Default::default());
    assert_eq!((polled(with(PREPARED, job(2, 0, 7))), polled(with(PREPARED, job(2, 16, 17)))), Default::default());
    let mut long = with(DONE, job(2, 1, 16));
    long.length = 64;
    let given = of_call(0x51, bytes_of(&(long, 0u64, 0u32, 1u32)));
    assert_eq!(given, "18 by a done slot whose source is off a boundary");
}
