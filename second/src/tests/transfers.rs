//! Transfers: example L, and what the readings say of parts, handles, tables and polls.

use super::{default, four, plane};
use crate::job::{advance, judge_job, meets, Job, Judged, Part};
use crate::tensor::Tensor;
use crate::transfers::{
    fresh, poll, prepare, release, start, step, Poll, Prepared, Slot, Table, DONE, PREPARED, RUNNING,
};

fn part(start: u64, length: u64) -> Part {
    Part { start, length }
}

fn job(elements: u32, from: u64, to: u64) -> Job {
    let tensor = plane(&[elements]);
    let length = elements as u64;
    Job { source: part(from, length), destination: part(to, length), tensor, config: default(&tensor) }
}

/// Example L before its steps: two transfers prepared and started.
fn two_running() -> Table {
    let first = prepare(&fresh(8).table, &job(2, 0, 4), 8);
    assert_eq!((first.status, first.handle), (0, 0));
    let second = prepare(&first.table, &job(2, 2, 6), 8);
    assert_eq!((second.status, second.handle), (0, 1));
    let table = start(&second.table, 0, 8).table;
    start(&table, 1, 8).table
}

#[test]
fn l_alternates_two_transfers() {
    let mut table = two_running();
    let mut memory = vec![1, 2, 3, 4, 0, 0, 0, 0];
    for (handle, after) in [
        (1, [1, 2, 3, 4, 0, 0, 3, 0]),
        (0, [1, 2, 3, 4, 1, 0, 3, 0]),
        (1, [1, 2, 3, 4, 1, 0, 3, 4]),
        (0, [1, 2, 3, 4, 1, 2, 3, 4]),
    ] {
        let stepped = step(&table, handle, 1, memory);
        assert_eq!((stepped.status, stepped.count), (0, 1));
        assert_eq!(stepped.memory.0, after);
        (table, memory) = (stepped.table, stepped.memory.0);
    }
    let third = prepare(&table, &job(1, 2, 0), 8);
    assert_eq!(third, Prepared { status: 22, dimension: 0, handle: 0, table });
    assert_eq!(poll(&table, 0), Poll { status: 0, state: DONE, left: 0 });
    // A released slot is all zero and is taken again.
    let released = release(&table, 0, 8);
    assert_eq!((released.status, released.table.slot[0]), (0, Slot::default()));
    assert_eq!(release(&released.table, 0, 8).status, 23);
    assert_eq!(prepare(&released.table, &job(1, 2, 0), 8).handle, 0);
}

#[test]
fn a_part_never_wraps() {
    let at = |source: Part| judge_job(8, &Job { source, ..job(2, 0, 4) }).status;
    assert_eq!(at(part(8, 0)), 5);
    assert_eq!(at(part(9, 0)), 20);
    assert_eq!(at(part(6, 3)), 20);
    assert_eq!(at(part(u64::MAX, 3)), 20);
    assert_eq!(at(part(0, u64::MAX)), 20);
    assert_eq!(at(part(6, 2)), 0);
}

#[test]
fn parts_that_touch_do_not_meet() {
    assert!(!meets(&part(0, 4), &part(4, 4)));
    assert!(meets(&part(0, 5), &part(4, 4)));
    assert!(!meets(&part(2, 0), &part(0, 4)));
    assert!(!meets(&part(u64::MAX, 1), &part(0, u64::MAX)));
    assert!(meets(&part(u64::MAX, 5), &part(5, u64::MAX)));
}

#[test]
fn a_job_by_itself() {
    assert_eq!(judge_job(8, &job(2, 0, 4)), Judged { status: 0, dimension: 0, total: 2 });
    assert_eq!(judge_job(8, &job(2, 0, 1)).status, 21);
    let zero_rank = Job { tensor: Tensor::default(), ..job(2, 0, 1) };
    assert_eq!(judge_job(8, &zero_rank).status, 1);
    let done = advance(&job(2, 0, 4), 1, u64::MAX, vec![1, 2, 3, 4, 5, 6, 7, 8]);
    assert_eq!((done.count, done.memory.0), (1, vec![1, 2, 3, 4, 5, 2, 7, 8]));
    assert_eq!(advance(&job(2, 0, 4), 2, 5, vec![0; 8]).count, 0);
    assert_eq!(advance(&job(2, 0, 4), u64::MAX, u64::MAX, vec![0; 8]).count, 0);
}

#[test]
fn fresh_tables() {
    assert_eq!(fresh(2_147_483_647).table, Table { length: 2_147_483_647, ..Table::default() });
    let refused = fresh(2_147_483_648);
    assert_eq!((refused.status, refused.table), (17, Table::default()));
}

#[test]
fn refused_calls_hand_the_table_back() {
    let table = two_running();
    assert_eq!(prepare(&table, &job(2, 0, 4), 7), Prepared { status: 17, dimension: 0, handle: 0, table });
    let mut wrong = job(1, 0, 0);
    wrong.config.step[0] = 0;
    assert_eq!(prepare(&table, &wrong, 8), Prepared { status: 9, dimension: 0, handle: 0, table });
    assert_eq!((start(&table, 0, 8).status, start(&table, 0, 8).table), (24, table));
    let stepped = step(&table, 2, 1, vec![1; 8]);
    assert_eq!((stepped.status, stepped.count, stepped.table), (23, 0, table));
    assert_eq!(stepped.memory.0, [1; 8]);
    assert_eq!((release(&table, 0, 8).status, release(&table, 4, 8).status), (24, 23));
}

#[test]
fn prepare_keeps_entries_past_the_rank() {
    let mut junk = job(2, 0, 4);
    junk.tensor.shape = [2, 9, 9, 9];
    junk.config.pre = four(&[0, 8, 8, 8]);
    let prepared = prepare(&fresh(8).table, &junk, 8);
    assert_eq!(prepared.status, 0);
    assert_eq!(prepared.table.slot[0], Slot { state: PREPARED, job: junk, moved: 0 });
}

#[test]
fn budgets_end_a_step_in_mid_row() {
    let table = two_running();
    assert_eq!(step(&table, 0, 0, vec![1; 8]).table, table);
    let stepped = step(&table, 0, 1, vec![1; 8]).table;
    assert_eq!(poll(&stepped, 0), Poll { status: 0, state: RUNNING, left: 1 });
    let done = step(&stepped, 0, u64::MAX, vec![1; 8]);
    assert_eq!((done.count, done.table.slot[0].state, done.table.slot[0].moved), (1, DONE, 2));
}

#[test]
fn polls() {
    let mut table = two_running();
    assert_eq!(poll(&table, 1), Poll { status: 0, state: RUNNING, left: 2 });
    assert_eq!(poll(&table, 3), Poll::default());
    assert_eq!(poll(&table, 4).status, 23);
    // An unsound table gives 18 for any handle.
    table.slot[2].moved = 1;
    assert_eq!((poll(&table, 0).status, poll(&table, 4).status), (18, 18));
}

#[test]
fn unsound_tables() {
    let sound = two_running();
    let status = |change: fn(&mut Table)| {
        let mut table = sound;
        change(&mut table);
        poll(&table, 0).status
    };
    assert_eq!(status(|_| {}), 0);
    assert_eq!(status(|table| table.length = 2_147_483_648), 18);
    assert_eq!(status(|table| table.length = 7), 18);
    assert_eq!(status(|table| table.slot[0].state = 4), 18);
    assert_eq!(status(|table| table.slot[0].state = DONE), 18);
    assert_eq!(status(|table| table.slot[0].moved = 2), 18);
    assert_eq!(status(|table| table.slot[0].moved = 1), 0);
    assert_eq!(status(|table| table.slot[3].job.config.post[3] = 1), 18);
    assert_eq!(status(|table| table.slot[2] = table.slot[0]), 18);
    assert_eq!(status(|table| table.slot[1].job.source.start = 0), 0);
    assert_eq!(status(|table| table.slot[1].job.source.start = 5), 18);
    assert_eq!(status(|table| table.slot[1].job.destination.start = 1), 18);
}

#[test]
fn a_full_table_has_no_free_slot() {
    let mut table = fresh(8).table;
    for to in 1..5 {
        let prepared = prepare(&table, &job(1, 0, to), 8);
        assert_eq!((prepared.status, prepared.handle as u64), (0, to - 1));
        table = prepared.table;
    }
    // 19 comes before 20.
    assert_eq!(prepare(&table, &job(1, 100, 5), 8).status, 19);
}
