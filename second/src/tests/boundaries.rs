//! Parts on element boundaries: which starts are refused, with which numbers around it, and what it means for tables.

use super::{count_up, default, moved, plane};
use crate::job::{advance, judge_job, Job, Judged, Part};
use crate::keeper::{bytes_of_run, give_back, GivenBack};
use crate::plain;
use crate::tensor::Tensor;
use crate::transfers::{
    fresh, poll, prepare, release, start, step, Poll, Prepared, Slot, Table, DONE, PREPARED, RUNNING,
};

/// Two elements of this size from one byte to another.
fn job(element_size: u8, from: u64, to: u64) -> Job {
    let tensor = Tensor { element_size, ..plane(&[2]) };
    let part = |start: u64| Part { start, length: 2 * element_size as u64 };
    Job { source: part(from), destination: part(to), tensor, config: default(&tensor) }
}

fn judged(element_size: u8, from: u64, to: u64) -> u8 {
    judge_job(24, &job(element_size, from, to)).status
}

#[test]
fn starts_are_multiples_of_the_element_size() {
    assert_eq!((judged(2, 1, 6), judged(2, 2, 7), judged(2, 1, 7)), (34, 34, 34));
    assert_eq!((judged(2, 0, 6), judged(2, 2, 6), judged(2, 6, 2)), (0, 0, 0));
    let from = [0, 1, 2, 3, 4, 5, 6, 7, 8].map(|from| judged(4, from, 16));
    assert_eq!(from, [0, 34, 34, 34, 0, 34, 34, 34, 0]);
    let to = [8, 9, 10, 11, 12, 13, 14, 15, 16].map(|to| judged(4, 0, to));
    assert_eq!(to, [0, 34, 34, 34, 0, 34, 34, 34, 0]);
    assert_eq!(judge_job(24, &job(2, 1, 6)), Judged { status: 34, dimension: 0, total: 0 });
}

#[test]
fn elements_of_1_and_3_bytes_start_anywhere() {
    for from in 0..4 {
        for to in 10..14 {
            assert_eq!((judged(1, from, to), judged(3, from, to)), (0, 0));
        }
    }
    let memory: Vec<u8> = (0..14).collect();
    let done = advance(&job(3, 1, 8), 0, 2, memory);
    assert_eq!((done.status, done.count), (0, 2));
    assert_eq!(done.memory.0, [0, 1, 2, 3, 4, 5, 6, 7, 1, 2, 3, 4, 5, 6]);
}

#[test]
fn lengths_may_be_anything() {
    let mut longer = job(4, 0, 12);
    (longer.source.length, longer.destination.length) = (9, 11);
    assert_eq!(judge_job(24, &longer).status, 0);
    // Nor does a memory have to be a multiple.
    assert_eq!(judge_job(23, &longer).status, 0);
    longer.source.start = 1;
    assert_eq!(judge_job(24, &longer).status, 34);
}

#[test]
fn far_starts() {
    let at = |element_size: u8, from: u64| judge_job(u64::MAX, &job(element_size, from, 0)).status;
    assert_eq!((at(2, 1 << 63), at(2, (1 << 63) + 1), at(4, (1 << 63) + 2)), (0, 34, 34));
    // The last elements that there are.
    assert_eq!((at(4, u64::MAX - 11), at(4, u64::MAX - 8), at(2, u64::MAX - 5), at(2, u64::MAX - 4)), (0, 34, 0, 34));
    assert_eq!((at(4, u64::MAX - 7), at(3, u64::MAX - 6)), (20, 0));
}

#[test]
fn advances() {
    for from in [0, 1, 2, 5] {
        for advance in [advance, plain::advance] {
            let done = advance(&job(2, 1, 8), from, 1, count_up(12));
            assert_eq!((done.status, done.dimension, done.count, done.memory.0), (34, 0, 0, count_up(12)));
        }
    }
    assert_eq!(advance(&job(2, 2, 8), 1, 1, count_up(12)).memory.0[8..], [9, 10, 5, 6]);
}

#[test]
fn a_prepare_gives_34() {
    let table = fresh(16).table;
    for (from, to) in [(1, 6), (2, 7), (1, 7)] {
        let expected = Prepared { status: 34, dimension: 0, handle: 0, table };
        assert_eq!(prepare(&table, &job(2, from, to), 16), expected);
    }
    assert_eq!(prepare(&table, &job(3, 1, 7), 16).status, 0);
    assert_eq!(prepare(&table, &job(2, 2, 6), 16).table.slot[0].job, job(2, 2, 6));
}

#[test]
fn after_20_and_1_to_13_and_before_21() {
    let with = |change: fn(&mut Job)| {
        let mut job = job(2, 1, 8);
        change(&mut job);
        (judge_job(16, &job).status, prepare(&fresh(16).table, &job, 16).status)
    };
    assert_eq!(with(|_| {}), (34, 34));
    assert_eq!(with(|job| job.destination.start = 13), (20, 20));
    assert_eq!(with(|job| job.tensor.rank = 0), (1, 1));
    assert_eq!((with(|job| job.tensor.element_size = 0), with(|job| job.tensor.element_size = 5)), ((2, 2), (2, 2)));
    assert_eq!(with(|job| job.source.length = 3), (5, 5));
    assert_eq!(with(|job| job.config.dst_offset[0] = 65_536), (12, 12));
    assert_eq!(with(|job| job.destination.length = 3), (13, 13));
    // Both parts share a byte; on boundaries this is 21.
    assert_eq!(with(|job| job.destination.start = 3), (34, 34));
    assert_eq!(with(|job| (job.source.start, job.destination.start) = (2, 4)), (21, 21));
}

#[test]
fn around_a_prepare_s_own_numbers() {
    let table = prepare(&fresh(24).table, &job(1, 0, 8), 24).table;
    // Off a boundary, and into the other's part; then just the one and just the other.
    assert_eq!(prepare(&table, &job(2, 12, 7), 24).status, 34);
    assert_eq!((prepare(&table, &job(2, 12, 17), 24).status, prepare(&table, &job(2, 12, 6), 24).status), (34, 22));
    assert_eq!(prepare(&table, &job(2, 12, 7), 23).status, 17);
    let mut full = table;
    for to in [16, 18, 20] {
        full = prepare(&full, &job(1, 0, to), 24).table;
    }
    assert_eq!(prepare(&full, &job(2, 12, 7), 24).status, 19);
    full.slot[3].moved = 1;
    assert_eq!(prepare(&full, &job(2, 12, 7), 24).status, 18);
}

/// A table for 64 bytes with one transfer.
fn table_of(state: u8, job: Job) -> Table {
    let mut table = fresh(64).table;
    let moved = if state == DONE { 2 } else { 0 };
    table.slot[1] = Slot { state, job, moved };
    table
}

#[test]
fn a_table_with_such_a_slot_is_not_sound() {
    for state in [PREPARED, RUNNING, DONE] {
        let table = table_of(state, job(2, 2, 8));
        assert_eq!(poll(&table, 1), Poll { status: 0, state, left: if state == DONE { 0 } else { 2 } });
        assert_eq!(give_back(&table, 1 << 20, 20, 1), GivenBack { status: 0, word: 0 });
        for (from, to) in [(3, 8), (2, 9), (3, 9)] {
            let table = table_of(state, job(2, from, to));
            assert_eq!(poll(&table, 1), Poll { status: 18, state: 0, left: 0 });
            assert_eq!((start(&table, 1, 64).status, release(&table, 1, 64).status), (18, 18));
            let stepped = step(&table, 1, 1, vec![7; 64]);
            assert_eq!((stepped.status, stepped.table, stepped.memory.0), (18, table, vec![7; 64]));
            assert_eq!(prepare(&table, &job(1, 20, 24), 64).status, 18);
            assert_eq!(give_back(&table, 1 << 20, 20, 1), GivenBack { status: 18, word: 1 << 20 });
        }
        assert_eq!(poll(&table_of(state, job(3, 1, 8)), 1).status, 0);
    }
}

/// "Where the memory's length is a multiple of 256, every block starts at a multiple of 4."
#[test]
fn runs_of_blocks() {
    let from_block = |length: u64, element_size: u8, first: u32| {
        let part = |first: u32| bytes_of_run(length, first, 8);
        let job = Job { source: part(first), destination: part(40), ..job(element_size, 0, 0) };
        prepare(&fresh(length).table, &job, length as usize).status
    };
    for length in [256, 512, 768, 1_024] {
        for first in 0..30 {
            assert_eq!([1, 2, 3, 4].map(|size| from_block(length, size, first)), [0; 4]);
        }
    }
    // Blocks of 5 bytes and of 2.
    assert_eq!([1, 2, 3, 4].map(|first| from_block(320, 2, first)), [34, 0, 34, 0]);
    assert_eq!([1, 2, 3, 4].map(|first| from_block(383, 4, first)), [34, 34, 34, 0]);
    assert_eq!([1, 2, 3, 4].map(|first| from_block(130, 4, first)), [34, 0, 34, 0]);
    assert_eq!([1, 2, 3, 4].map(|first| from_block(320, 3, first)), [0; 4]);
}

#[test]
fn a_move_between_slices_knows_no_boundaries() {
    let tensor = Tensor { element_size: 2, ..plane(&[2]) };
    // The slices begin at an odd byte of what they are lent from.
    assert_eq!(moved(&tensor, &default(&tensor), &count_up(5)[1..]), [2, 3, 4, 5]);
}
