//! Which case a stretch or a row is, worked out by hand.

use super::{default, four, plane};
use crate::calls::Calls;
use crate::cases::stretches::{cases, met};
use crate::job::{Job, Part};
use crate::moves::{room, Config};
use crate::tensor::Tensor;
use crate::transfers::{fresh, prepare, start};
use crate::wire::{bytes_of, Counted, Memory};

/// The cases of a call, which has to be answered with status 0.
fn of_call(number: u8, arguments: Vec<u8>) -> Vec<String> {
    let answer = (Calls::all().find(number).unwrap().answer)(&arguments).unwrap();
    assert_eq!(answer[..2], [number, 0]);
    let met = met(&[vec![number], arguments].concat(), &answer);
    assert!(met.iter().all(|case| cases(number).contains(case)));
    met
}

/// A job with just the room it needs, the source before the destination, and the length of its memory.
fn job(tensor: Tensor, config: Config) -> (Job, u64) {
    let room = room(&tensor, &config);
    let (source, destination) =
        (Part { start: 0, length: room.span }, Part { start: room.span, length: room.answer.need });
    (Job { source, destination, tensor, config }, room.span + room.answer.need)
}

/// The cases of a stretch by where it begins and ends, without those of its rows.
fn stretch(tensor: Tensor, config: Config, from: u64, budget: u64) -> String {
    let (job, length) = job(tensor, config);
    let mut met = of_call(0x22, bytes_of(&(job, from, budget, Memory(vec![7; length as usize]))));
    met.retain(|case| !case.contains("-byte row"));
    met.join("; ")
}

/// The cases of the rows of a whole move.
fn rows(tensor: Tensor, config: Config) -> String {
    let room = room(&tensor, &config);
    let (source, destination) = (vec![7; room.span as usize], vec![7; room.answer.need as usize]);
    of_call(0x20, bytes_of(&(tensor, config, Counted(source), Memory(destination)))).join("; ")
}

#[test]
fn where_a_stretch_begins_and_ends() {
    // Rows of four: 0..3, 4..7, 8..11.
    let tensor = plane(&[3, 4]);
    let at = |from: u64, budget: u64| stretch(tensor, default(&tensor), from, budget);
    assert_eq!(at(0, 4), "");
    assert_eq!(at(4, 8), "past the end of a row");
    assert_eq!(at(5, 3), "begins in mid-row");
    assert_eq!(at(4, 1), "ends in mid-row");
    assert_eq!(at(5, 2), "begins in mid-row; ends in mid-row; mid-row to mid-row of one row");
    assert_eq!(at(3, 2), "begins in mid-row; ends in mid-row; past the end of a row");
    assert_eq!(at(11, 1), "begins in mid-row");
    assert_eq!(at(11, 2), "begins in mid-row; budget above what is left");
    // Nothing is moved.
    assert_eq!((at(5, 0), at(12, 1), at(u64::MAX, 1)), (String::new(), String::new(), String::new()));
}

#[test]
fn what_a_stretch_passes() {
    // Rows of two, planes of four, blocks of eight.
    let tensor = plane(&[2, 2, 2, 2]);
    let at = |from: u64, budget: u64| stretch(tensor, default(&tensor), from, budget);
    assert_eq!(at(4, 4), "past the end of a row");
    assert_eq!(at(2, 4), "past the end of a row; past the end of a layer");
    assert_eq!(at(6, 4), "past the end of a row; past the end of a layer; past the end of a slab");
    // A row of one element adds nothing that would have to be taken back.
    let narrow = plane(&[2, 2, 1]);
    assert_eq!(stretch(narrow, default(&narrow), 0, 4), "");
    let flat = plane(&[2, 1, 2]);
    assert_eq!(stretch(flat, default(&flat), 0, 4), "past the end of a row");
    // Example A is turned: its rows have two elements.
    let turned = plane(&[2, 3]);
    let config = default(&turned).with_perm([1, 0, 0, 0]);
    assert_eq!(stretch(turned, config, 1, 3), "begins in mid-row; past the end of a row");
}

#[test]
fn where_a_stretch_meets_padding() {
    // A row of padding, then 0 5 6 0: the elements 4 to 7.
    let tensor = plane(&[1, 2]);
    let config = default(&tensor).with_pre(four(&[1, 1])).with_post(four(&[0, 1]));
    let at = |from: u64, budget: u64| stretch(tensor, config, from, budget);
    assert_eq!(at(4, 2), "ends in mid-row; padding of a row to kept");
    assert_eq!(at(5, 3), "begins in mid-row; kept to padding of a row");
    assert_eq!(at(5, 2), "begins in mid-row; ends in mid-row; mid-row to mid-row of one row");
    assert_eq!(at(4, 4), "");
    assert_eq!(at(0, 4), "begins in a row of padding");
    assert_eq!(at(3, 3), "begins in mid-row; ends in mid-row; begins in a row of padding; past the end of a row");
}

#[test]
fn a_step_is_a_stretch_too() {
    let tensor = plane(&[3, 4]);
    let (job, length) = job(tensor, default(&tensor));
    let memory = vec![7; length as usize];
    let mut table = start(&prepare(&fresh(length).table, &job, memory.len()).table, 0, memory.len()).table;
    table.slot[0].moved = 5;
    let at = |budget: u64| of_call(0x43, bytes_of(&(table, 0u32, budget, Memory(memory.clone())))).join("; ");
    assert_eq!(at(3), "begins in mid-row");
    assert_eq!(at(9), "begins in mid-row; past the end of a row; budget above what is left");
    assert_eq!(at(0), "");
}

#[test]
fn how_the_elements_of_a_row_lie() {
    let tensor = plane(&[2, 3]);
    let config = default(&tensor);
    assert_eq!(rows(tensor, config), "1-byte row side by side");
    assert_eq!(rows(Tensor { element_size: 4, ..tensor }, config), "4-byte row side by side");
    assert_eq!(rows(tensor, config.with_dst_stride(four(&[0, 2]))), "1-byte row wider in the destination");
    assert_eq!(rows(tensor, config.with_step(four(&[1, 2]))), "1-byte row thinned");
    assert_eq!(rows(tensor, config.with_perm(four(&[1, 0]))), "1-byte row turned");
    // Gaps between rows do not count, nor does a step from one row to another.
    assert_eq!(rows(tensor, config.with_dst_stride(four(&[4, 1]))), "1-byte row side by side");
    assert_eq!(rows(tensor, config.with_step(four(&[2, 1]))), "1-byte row side by side");
    // Two things at once are neither, and so is a source whose rows have gaps without being turned.
    assert_eq!(rows(tensor, config.with_perm(four(&[1, 0])).with_dst_stride(four(&[0, 2]))), "");
    assert_eq!(rows(Tensor { stride: four(&[6, 2]), ..tensor }, config), "");
    // The other way round, one by one.
    assert_eq!(rows(Tensor { stride: four(&[0, -1]), ..tensor }, config), "1-byte row right to left");
    assert_eq!(rows(Tensor { stride: four(&[0, -2]), ..tensor }, config), "");
    assert_eq!(rows(Tensor { stride: four(&[-3, 0]), ..tensor }, config), "1-byte row side by side");
    // One kept element has no neighbour.
    assert_eq!(rows(tensor, config.with_step(four(&[1, 3]))), "");
}

#[test]
fn where_a_row_is_padded() {
    let tensor = Tensor { element_size: 2, ..plane(&[1, 1]) };
    let padded = |pre: u8, post: u8| rows(tensor, default(&tensor).with_pre([0, pre, 0, 0]).with_post([0, post, 0, 0]));
    assert_eq!(padded(1, 0), "2-byte row padded before");
    assert_eq!(padded(0, 2), "2-byte row padded behind");
    assert_eq!(padded(1, 1), "2-byte row padded on both sides");
    // A row that is all padding is none of them.
    assert_eq!(rows(tensor, default(&tensor).with_pre([1, 0, 0, 0])), "");
    // Of a row only what is moved counts: 0 5 6 0 from its second element on.
    let tensor = plane(&[2]);
    let (job, length) = job(tensor, default(&tensor).with_pre([1; 4]).with_post([1; 4]));
    let row = of_call(0x22, bytes_of(&(job, 1u64, 3u64, Memory(vec![7; length as usize]))));
    assert_eq!(row[2..], ["1-byte row side by side", "1-byte row padded behind"]);
}
