//! Which case a fill is, worked out by hand.

use super::{cases_of_call, default, four, plane};
use crate::cases::fills::{cases, met};
use crate::job::{Job, Part};
use crate::moves::Config;
use crate::tensor::Tensor;
use crate::transfers::{fresh, prepare, start, Table, DONE};
use crate::wire::{bytes_of, Counted, Memory, Rest};

fn of_call(number: u8, arguments: Vec<u8>) -> String {
    cases_of_call((cases, met), number, arguments)
}

/// A row of padding, then a row of two elements.
pub fn padded(element_size: u8, fill: u32) -> (Tensor, Config) {
    let tensor = Tensor { element_size, ..plane(&[1, 2]) };
    (tensor, default(&tensor).with_pre(four(&[1, 0])).with_fill(fill))
}

#[test]
fn padding() {
    let moved = |(tensor, config): (Tensor, Config)| {
        let (source, destination) = (Counted(vec![7; 8]), Memory(vec![7; 24]));
        of_call(0x20, bytes_of(&(tensor, config, source, destination)))
    };
    assert_eq!(moved(padded(1, 0x0403_0201)), "1-byte padding");
    assert_eq!(moved(padded(2, 0x0403_0200)), "2-byte padding");
    assert_eq!(moved(padded(3, 0x0403_0201)), "3-byte padding");
    assert_eq!(moved(padded(4, 0x0403_0201)), "4-byte padding");
    // A fourth byte of 0 would not show that it is left out, but it may be used.
    assert_eq!(
        (moved(padded(3, 0x0003_0201)), moved(padded(4, 0x0003_0201))),
        (String::new(), "4-byte padding".into())
    );
    // Two bytes that are the same.
    assert_eq!((moved(padded(4, 0x0102_0201)), moved(padded(1, 7))), (String::new(), String::new()));
    assert_eq!(moved(padded(1, 0)), "padding of fill 0");
    let (tensor, config) = padded(1, 7);
    assert_eq!(moved((tensor, config.with_dst_stride(four(&[3, 1])))), "padding and gaps");
    assert_eq!(moved((tensor, config.with_pre([0; 4]))), "fill without padding");
    assert_eq!(moved((tensor, config.with_step([0; 4]))), "");
}

/// Padding by four bytes that differ, in a memory that has just room.
fn job() -> Job {
    let (tensor, config) = padded(2, 0x0403_0201);
    Job { source: Part { start: 0, length: 4 }, destination: Part { start: 4, length: 8 }, tensor, config }
}

#[test]
fn padding_in_a_stretch() {
    let at = |from: u64, budget: u64| of_call(0x22, bytes_of(&(job(), from, budget, Memory(vec![7; 12]))));
    assert_eq!((at(1, 2), at(2, 2), at(1, 0)), ("2-byte padding".into(), "fill without padding".into(), String::new()));
    let table = start(&prepare(&fresh(12).table, &job(), 12).table, 0, 12).table;
    let step = of_call(0x43, bytes_of(&(table, 0u32, 1u64, Memory(vec![7; 12]))));
    assert_eq!(step, "2-byte padding; slot with a fill");
}

#[test]
fn unused_bytes_and_configurations() {
    let room = |size: u8, fill: u32| of_call(0x02, bytes_of(&padded(size, fill)));
    assert_eq!((room(1, 0x100), room(2, 0x1_0000)), ("unused byte of size 1".into(), "unused byte of size 2".into()));
    assert_eq!((room(3, 0x100_0000), room(3, 0x1_0000)), ("unused byte of size 3".into(), String::new()));
    assert_eq!((room(1, 255), room(2, 0x100), room(4, u32::MAX)), (String::new(), String::new(), String::new()));
    assert_eq!(of_call(0x21, bytes_of(&(12u64, job()))), "unused byte of size 2");
    let config = Config::default().with_fill(5);
    assert_eq!(of_call(0x17, bytes_of(&(2u8, config))), "fill dropped");
    assert_eq!(
        (of_call(0x18, bytes_of(&(config, [0u32; 4]))), of_call(0x1f, bytes_of(&(config, [0u8; 4])))),
        ("fill kept".into(), "fill kept".into())
    );
    let set = |fill: u32| of_call(0x0b, bytes_of(&(config, fill)));
    assert_eq!((set(6), set(0), set(5)), ("another fill".into(), "no fill".into(), String::new()));
}

#[test]
fn appends() {
    let (tensor, config) = padded(1, 0x11);
    let append = |tensor: Tensor, fill: u32, head: &[u8], room: usize| {
        let buffer = Memory([head, &vec![7; room]].concat());
        of_call(0x38, bytes_of(&(tensor, config.with_fill(fill), 7u64, buffer)))
    };
    let empty = b"RML\x01\0\0\0";
    assert_eq!((append(tensor, 1, empty, 131), append(tensor, 0, empty, 131)), ("27 by a fill".into(), String::new()));
    let alone = "27 by a fill; 27 by a fill whose used bytes are 0 and others not";
    let wider = Tensor { element_size: 2, ..tensor };
    let of_three = Tensor { element_size: 3, ..tensor };
    assert_eq!((append(tensor, 256, empty, 131), append(wider, 1 << 31, empty, 131)), (alone.into(), alone.into()));
    assert_eq!(
        (append(tensor, 257, empty, 131), append(wider, 256, empty, 131)),
        ("27 by a fill".into(), "27 by a fill".into())
    );
    assert_eq!(
        (append(of_three, 1 << 24, empty, 131), append(of_three, 1 << 16, empty, 131)),
        (alone.into(), "27 by a fill".into())
    );
    let odd = Tensor { element_size: 5, ..tensor };
    assert_eq!(append(odd, 1 << 24, empty, 131), "27 by a fill; 27 by a fill, element size that 2 refuses");
    assert_eq!(append(tensor, 1, empty, 130), "38 and 27 by a fill");
    assert_eq!(append(Tensor { rank: 1, ..tensor }, 1, empty, 131), "28 and 27 by a fill");
    // The list's own version can not be told from the fill.
    assert_eq!(append(tensor, 1, b"RML\x02\0\0\0", 131), "");
}

#[test]
fn slots() {
    let table = prepare(&fresh(12).table, &job(), 12).table;
    let prepared = of_call(0x41, bytes_of(&(fresh(12).table, job(), Rest(vec![7; 12]))));
    assert_eq!(prepared, "unused byte of size 2; fill kept");
    let poll = |table: Table| of_call(0x45, bytes_of(&(table, 0u32)));
    assert_eq!(poll(table), "slot with a fill");
    let mut filled = table;
    filled.slot[3].job.config.fill = 1;
    assert_eq!(poll(filled), "18 by the fill of a free slot");
    filled.slot[0].moved = 1;
    assert_eq!(poll(filled), "");
    let mut done = table;
    (done.slot[0].state, done.slot[0].moved) = (DONE, 4);
    assert_eq!(of_call(0x44, bytes_of(&(done, 0u32, Rest(vec![7; 12])))), "slot with a fill");
    let given_back = |table: Table| of_call(0x51, bytes_of(&(table, u64::MAX, 0u32, 1u32)));
    let mut free = fresh(64).table;
    assert_eq!(given_back(free), "");
    free.slot[3].job.config.fill = 1 << 24;
    assert_eq!((given_back(free), given_back(filled)), ("18 by the fill of a free slot".into(), String::new()));
}
