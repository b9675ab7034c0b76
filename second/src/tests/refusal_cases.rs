//! Which refusals are told apart, worked out by hand.

use super::{cases_of_call, default, four, plane};
use crate::cases::refusals::{cases, met};
use crate::helpers::SubConfig;
use crate::job::{Job, Part};
use crate::transfers::{fresh, Slot, Table, PREPARED};
use crate::wire::{bytes_of, Counted, Memory, Rest};

fn of_call(number: u8, arguments: Vec<u8>) -> String {
    cases_of_call((cases, met), number, arguments)
}

const WRAPS: &str = "8 by a sum that wraps";

#[test]
fn sums_that_wrap() {
    let tensor = plane(&[3, 4]);
    let judged = |offset: [u32; 2], size: [u32; 2]| {
        let config = default(&tensor).with_offset(four(&offset)).with_size(four(&size));
        of_call(0x03, bytes_of(&(tensor, config, 12u64, 12u64)))
    };
    // The sums are 2^32 and 2^32 + 1.
    assert_eq!((judged([0, 2], [0, u32::MAX - 1]), judged([2, 0], [0, 0])), (WRAPS.into(), String::new()));
    assert_eq!(judged([0, 2], [0, u32::MAX]), WRAPS);
    // 2^32 - 1 has 32 bits, and a sum that is above the shape in 32 bits too is 8 either way.
    assert_eq!((judged([0, 0], [0, u32::MAX]), judged([0, 2], [4, u32::MAX])), (String::new(), String::new()));
    let config = default(&tensor).with_offset(four(&[0, 1])).with_size(four(&[0, u32::MAX]));
    assert_eq!(of_call(0x02, bytes_of(&(tensor, config))), WRAPS);
    let lent = (Counted(vec![7; 12]), Memory(vec![7; 12]));
    assert_eq!(of_call(0x26, bytes_of(&(tensor, config, lent.0, lent.1))), WRAPS);
}

#[test]
fn sub_tensors() {
    let asked = |offset: [u32; 2], size: [u32; 2], rank: u32, source: u64| {
        let config = SubConfig { offset: four(&offset), size: four(&size), rank };
        of_call(0x06, bytes_of(&(plane(&[3, 4]), config, source)))
    };
    assert_eq!((asked([0, 0], [3, 4], 2, 12), asked([0, 0], [3, 5], 2, 12)), (String::new(), String::new()));
    assert_eq!(
        (asked([0, 0], [0, 4], 2, 12), asked([0, 1], [3, u32::MAX], 2, 12)),
        ("8 by size 0".into(), WRAPS.into())
    );
    assert_eq!((asked([3, 0], [1, 1], 2, 11), asked([3, 0], [1, 1], 2, 12)), ("5 and 7".into(), "7 and 8".into()));
    assert_eq!(asked([0, 4], [0, 1], 2, 12), "7 and 8");
    assert_eq!((asked([0, 0], [4, 1], 0, 12), asked([0, 0], [4, 1], 3, 12)), ("8 and 14".into(), "8 and 14".into()));
    // A rank of 0 would need that both are units; one above the plane's needs none.
    assert_eq!((asked([0, 0], [3, 1], 0, 12), asked([0, 0], [1, 1], 0, 12)), ("14 and 15".into(), String::new()));
    assert_eq!((asked([0, 0], [3, 4], 3, 12), asked([0, 0], [3, 4], 1, 12)), (String::new(), String::new()));
    let config = SubConfig { offset: [0; 4], size: four(&[3, 4]), rank: 0 };
    for number in [0x24, 0x25] {
        assert_eq!(of_call(number, bytes_of(&(plane(&[3, 4]), config, Rest(vec![7; 12])))), "14 and 15");
    }
}

/// A copy of four bytes.
fn job(from: u64, to: u64) -> Job {
    let tensor = plane(&[4]);
    let part = |start: u64| Part { start, length: 4 };
    Job { source: part(from), destination: part(to), tensor, config: default(&tensor) }
}

#[test]
fn jobs() {
    let step_0 = |from: u64, to: u64| {
        let job = job(from, to);
        Job { config: job.config.with_step([0; 4]), ..job }
    };
    let judged = |job: Job| of_call(0x21, bytes_of(&(20u64, job)));
    assert_eq!((judged(job(17, 0)), judged(job(0, 2)), judged(step_0(0, 4))), Default::default());
    assert_eq!(judged(step_0(17, 0)), "20 and one of 1 to 13");
    assert_eq!(
        (judged(step_0(0, 2)), judged(step_0(0, 3))),
        ("one of 1 to 13 and 21".into(), "one of 1 to 13 and 21".into())
    );
    let advanced = of_call(0x27, bytes_of(&(step_0(0, 17), 0u64, 1u64, Memory(vec![7; 20]))));
    assert_eq!(advanced, "20 and one of 1 to 13");
}

/// Transfers from the first four bytes of twenty, each into four of its own.
fn table(transfers: usize) -> Table {
    let mut table = fresh(20).table;
    for k in 0..transfers {
        table.slot[k] = Slot { state: PREPARED, job: job(0, 4 * k as u64 + 4), moved: 0 };
    }
    table
}

fn unsound(transfers: usize) -> Table {
    let mut table = table(transfers);
    table.slot[0].moved = 1;
    table
}

#[test]
fn prepares() {
    let prepared =
        |table: Table, job: Job, memory: usize| of_call(0x41, bytes_of(&(table, job, Rest(vec![7; memory]))));
    assert_eq!((prepared(table(1), job(0, 8), 20), prepared(table(1), job(0, 8), 19)), Default::default());
    assert_eq!(
        (prepared(unsound(1), job(0, 8), 20), prepared(unsound(1), job(0, 8), 19)),
        (String::new(), "17 and 18".into())
    );
    assert_eq!(prepared(unsound(4), job(0, 8), 20), "18 and 19");
    assert_eq!(
        (prepared(table(4), job(0, 8), 20), prepared(table(4), job(0, 17), 20)),
        (String::new(), "19 and 20".into())
    );
    // Its own parts meet, and one of them another's destination, or another's source alone.
    assert_eq!(
        (prepared(table(1), job(4, 6), 20), prepared(table(1), job(8, 10), 20)),
        ("21 and 22".into(), String::new())
    );
    assert_eq!(prepared(table(1), job(0, 2), 20), "21 and 22");
    assert_eq!((prepared(table(1), job(8, 4), 20), prepared(table(1), job(0, 8), 20)), Default::default());
}

#[test]
fn handles() {
    for number in [0x42, 0x44] {
        let asked = |table: Table, handle: u32, memory: usize| {
            of_call(number, bytes_of(&(table, handle, Rest(vec![7; memory]))))
        };
        assert_eq!((asked(unsound(1), 0, 19), asked(table(1), 0, 19)), ("17 and 18".into(), String::new()));
        assert_eq!((asked(unsound(1), 1, 20), asked(unsound(1), 4, 20)), ("18 and 23".into(), "18 and 23".into()));
        assert_eq!((asked(unsound(1), 0, 20), asked(table(1), 4, 20)), Default::default());
    }
    let polled = |table: Table, handle: u32| of_call(0x45, bytes_of(&(table, handle)));
    assert_eq!((polled(unsound(1), 4), polled(unsound(1), 1)), ("18 and 23".into(), String::new()));
    assert_eq!(polled(table(1), 4), "");
}
