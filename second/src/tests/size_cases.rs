//! Which case an element size is, worked out by hand.

use super::{cases_of_call, default, four, plane};
use crate::cases::list_shows::met as list_met;
use crate::cases::sizes::{cases, met};
use crate::helpers::SubConfig;
use crate::job::{Job, Part};
use crate::tensor::Tensor;
use crate::transfers::{fresh, prepare, start, Table};
use crate::wire::{bytes_of, Counted, Memory, Rest};

fn of_call(number: u8, arguments: Vec<u8>) -> String {
    cases_of_call((cases, met), number, arguments)
}

fn sized(element_size: u8, shape: &[u32]) -> Tensor {
    Tensor { element_size, ..plane(shape) }
}

#[test]
fn sizes_just_beside() {
    let helper = |size: u8| of_call(0x04, vec![size]);
    assert_eq!((helper(0), helper(5)), ("0 for 0".into(), "0 for 5".into()));
    assert_eq!((helper(3), helper(6)), (String::new(), String::new()));
    let by_itself = |size: u8, shape: &[u32]| of_call(0x01, bytes_of(&sized(size, shape)));
    assert_eq!((by_itself(0, &[2]), by_itself(5, &[2])), ("2 by 0".into(), "2 by 5".into()));
    assert_eq!((by_itself(6, &[2]), by_itself(3, &[2])), (String::new(), String::new()));
    // Example J, and the same with a size that there is not.
    assert_eq!(by_itself(3, &[0, 70_000]), "3 with 3-byte elements");
    assert_eq!(by_itself(4, &[2, 0]), "3 with 4-byte elements");
    assert_eq!((by_itself(5, &[0, 70_000]), by_itself(8, &[0])), ("2 and 3; 2 by 5".into(), "2 and 3".into()));
    // Shapes past the rank are no matter, and 1 comes first.
    assert_eq!(of_call(0x01, bytes_of(&Tensor { shape: four(&[2, 0]), ..sized(0, &[2]) })), "2 by 0");
    assert_eq!(of_call(0x01, bytes_of(&Tensor { rank: 5, ..sized(0, &[0]) })), "");
}

#[test]
fn lengths_just_enough_and_a_byte_short() {
    let judged = |size: u8, source: u64, destination: u64| {
        let tensor = sized(size, &[2, 2]);
        of_call(0x03, bytes_of(&(tensor, default(&tensor), source, destination)))
    };
    assert_eq!(judged(3, 12, 12), "just enough for 3-byte elements");
    assert_eq!(judged(3, 11, 12), "5 by a byte with 3-byte elements");
    assert_eq!(judged(3, 12, 11), "13 by a byte with 3-byte elements");
    assert_eq!((judged(3, 13, 12), judged(3, 12, 16)), (String::new(), String::new()));
    assert_eq!(
        (judged(3, 10, 12), judged(3, 12, 9), judged(5, 20, 20)),
        (String::new(), String::new(), "2 by 5".into())
    );
    assert_eq!(judged(4, 16, 16), "just enough for 4-byte elements");
    assert_eq!(judged(1, 3, 4), "5 by a byte with 1-byte elements");
    assert_eq!(judged(1, u64::MAX, u64::MAX), "");
    let tensor = sized(2, &[3]);
    let moved = |source: usize, destination: usize| {
        let bytes = (Counted(vec![7; source]), Memory(vec![7; destination]));
        of_call(0x20, bytes_of(&(tensor, default(&tensor), bytes.0, bytes.1)))
    };
    assert_eq!(moved(6, 6), "just enough for 2-byte elements");
    assert_eq!(moved(6, 5), "13 by a byte with 2-byte elements");
}

#[test]
fn sub_tensors_from_inside() {
    let asked = |size: u8, offset: u32, source: u64| {
        let config = SubConfig { offset: four(&[offset]), size: four(&[1]), rank: 1 };
        of_call(0x06, bytes_of(&(sized(size, &[3]), config, source)))
    };
    assert_eq!(asked(3, 1, 9), "3-byte sub-tensor from inside");
    assert_eq!(asked(1, 2, 3), "1-byte sub-tensor from inside");
    // It starts at byte 0, the source is longer or shorter, or it is refused.
    assert_eq!((asked(3, 0, 9), asked(3, 1, 10), asked(3, 1, 8)), (String::new(), String::new(), String::new()));
    assert_eq!((asked(3, 3, 9), asked(5, 1, 15)), (String::new(), "2 by 5".into()));
    let config = SubConfig { offset: four(&[1]), size: four(&[1]), rank: 1 };
    for number in [0x24, 0x25] {
        let lent = of_call(number, bytes_of(&(sized(2, &[3]), config, Rest(vec![7; 6]))));
        assert_eq!(lent, "2-byte sub-tensor from inside");
    }
}

/// Three elements of 3 bytes, with parts on boundaries of any size that would be long enough for elements of 5.
fn job() -> Job {
    let tensor = sized(3, &[3]);
    let part = |start: u64| Part { start, length: 15 };
    Job { source: part(0), destination: part(16), tensor, config: default(&tensor) }
}

/// The table of such a transfer, with another element size in its slot.
fn table(size: u8) -> Table {
    let mut table = prepare(&fresh(31).table, &job(), 31).table;
    table.slot[0].job.tensor.element_size = size;
    table
}

#[test]
fn jobs() {
    let with = |size: u8, shape: &[u32]| Job { tensor: sized(size, shape), ..job() };
    assert_eq!(of_call(0x21, bytes_of(&(31u64, with(5, &[3])))), "2 by 5");
    assert_eq!(of_call(0x22, bytes_of(&(with(3, &[0]), 0u64, 1u64, Memory(vec![7; 31])))), "3 with 3-byte elements");
    let prepared = |job: Job| of_call(0x41, bytes_of(&(fresh(31).table, job, Rest(vec![7; 31]))));
    assert_eq!((prepared(with(0, &[3])), prepared(with(3, &[3]))), ("2 by 0".into(), String::new()));
}

#[test]
fn slots() {
    let poll = |table: Table, handle: u32| of_call(0x45, bytes_of(&(table, handle)));
    assert_eq!((poll(table(3), 0), poll(table(4), 0)), ("3-byte slot".into(), "4-byte slot".into()));
    // A free slot, and no slot.
    assert_eq!((poll(table(3), 1), poll(table(3), 4)), (String::new(), String::new()));
    let (by_0, by_5) = ("18 by element size 0 of a slot", "18 by element size 5 of a slot");
    assert_eq!((poll(table(0), 0), poll(table(5), 0)), (by_0.into(), by_5.into()));
    assert_eq!(poll(table(6), 0), "");
    // Something else is wrong, too.
    let mut moved = table(5);
    moved.slot[0].moved = 1;
    assert_eq!(poll(moved, 0), "");
    assert_eq!(of_call(0x41, bytes_of(&(table(5), Job::default(), Rest(vec![7; 31])))), by_5);
    assert_eq!(of_call(0x42, bytes_of(&(table(2), 0u32, Rest(vec![7; 31])))), "2-byte slot");
}

#[test]
fn steps() {
    let running = start(&table(3), 0, 31).table;
    let step = |table: Table, budget: u64| of_call(0x43, bytes_of(&(table, 0u32, budget, Memory(vec![7; 31]))));
    assert_eq!((step(running, 2), step(running, 3)), ("3-byte elements kept".into(), "3-byte elements kept".into()));
    assert_eq!((step(running, 1), step(running, 0), step(table(3), 2)), (String::new(), String::new(), String::new()));
    // One element of padding, then one that is kept.
    let mut padded = running;
    padded.slot[0].job.config.pre[0] = 1;
    assert_eq!((step(padded, 2), step(padded, 3)), (String::new(), "3-byte elements kept".into()));
    assert_eq!(step(table(0), 2), "18 by element size 0 of a slot");
}

#[test]
fn rooms_in_lists() {
    let listed = |line: &str| list_met(&[], line).join("; ");
    let begin = "record 0 status 0 dim 0 rank 2 element 3 shape 2 3 room";
    assert_eq!(listed(&format!("{begin} 0 dim 0 span 18 need 18")), "record 0; room 0; room for 3-byte elements");
    assert_eq!(
        (listed(&format!("{begin} 6 dim 1")), listed("status 30")),
        ("record 0; room 6".into(), "list 30".into())
    );
}
