//! Fills: what padding is, and that moves and transfers look at nothing else of a fill.

use super::{default, four, moved, plane};
use crate::job::{advance, judge_job, Job, Part};
use crate::moves::{judge, move_plane, room, Config};
use crate::tensor::Tensor;
use crate::transfers::{fresh, poll, prepare, release, start, step, Slot, Table, DONE, PREPARED, RUNNING};

/// Example D with elements of this size: a row of padding, then two elements and one of padding.
fn d(element_size: u8) -> (Tensor, Config) {
    let tensor = Tensor { element_size, ..plane(&[1, 2]) };
    (tensor, default(&tensor).with_pre(four(&[1, 0])).with_post(four(&[0, 1])))
}

/// What D comes to with this fill.
fn d_moved(element_size: u8, fill: u32) -> Vec<u8> {
    let (tensor, config) = d(element_size);
    let source: Vec<u8> = (5..5 + 2 * element_size).collect();
    moved(&tensor, &config.with_fill(fill), &source)
}

#[test]
fn the_low_bytes_lowest_first() {
    let fill = 0x0403_0201;
    assert_eq!(d_moved(1, fill), [1, 1, 1, 5, 6, 1]);
    assert_eq!(d_moved(2, fill), [1, 2, 1, 2, 1, 2, 5, 6, 7, 8, 1, 2]);
    assert_eq!(d_moved(3, fill), [1, 2, 3, 1, 2, 3, 1, 2, 3, 5, 6, 7, 8, 9, 10, 1, 2, 3]);
    #[rustfmt::skip]
    assert_eq!(d_moved(4, fill), [
        1, 2, 3, 4, 1, 2, 3, 4, 1, 2, 3, 4,
        5, 6, 7, 8, 9, 10, 11, 12, 1, 2, 3, 4,
    ]);
}

#[test]
fn unused_bytes_change_nothing() {
    for fill in [0x80, 0xff80, 0x0100_0080, 0xffff_ff80] {
        assert_eq!(d_moved(1, fill), [128, 128, 128, 5, 6, 128]);
    }
    assert_eq!(d_moved(1, 0x0403_0200), [0, 0, 0, 5, 6, 0]);
    assert_eq!(d_moved(2, 0x0403_0000), d_moved(2, 0));
    assert_eq!(d_moved(2, 0xffff_0100)[..2], [0, 1]);
    assert_eq!(d_moved(3, 0x0400_0000), d_moved(3, 0));
    assert_eq!(d_moved(3, 0xff02_0100)[..4], [0, 1, 2, 0]);
}

#[test]
fn a_fill_goes_by_source_dimension_as_padding_does() {
    // G with a fill of 7.
    let g = plane(&[1, 2]);
    let config = default(&g).with_pre(four(&[1, 0])).with_perm(four(&[1, 0])).with_fill(7);
    assert_eq!(moved(&g, &config, &[5, 6]), [7, 5, 7, 6]);
    // Without padding there is nothing to fill.
    assert_eq!(moved(&g, &default(&g).with_fill(7), &[5, 6]), [5, 6]);
}

#[test]
fn gaps_and_what_is_around_stay() {
    // F's strides: a row of padding, a gap, a row; a place before it all and one behind.
    let tensor = plane(&[1, 2]);
    let config = default(&tensor).with_pre(four(&[1, 0])).with_dst_stride(four(&[3, 1])).with_fill(7);
    let mut destination = [9; 6];
    assert_eq!(move_plane(&tensor, &config, &[5, 6], &mut destination).need, 5);
    assert_eq!(destination, [7, 7, 9, 5, 6, 9]);
    let mut farther_in = [9; 7];
    let config = config.with_dst_offset(four(&[0, 1]));
    assert_eq!(move_plane(&tensor, &config, &[5, 6], &mut farther_in).need, 6);
    assert_eq!(farther_in, [9, 7, 7, 9, 5, 6, 9]);
    // A refused move leaves all of it.
    let mut short = [9; 5];
    assert_eq!(move_plane(&tensor, &config, &[5, 6], &mut short).status, 13);
    assert_eq!(short, [9; 5]);
}

#[test]
fn no_move_is_refused_for_its_fill() {
    for size in [1, 2, 3, 4] {
        let (tensor, config) = d(size);
        let lengths = (2 * size as u64, 6 * size as u64);
        for fill in [0, 1, 0x100, 0x1_0000, 0x100_0000, u32::MAX] {
            let filled = config.with_fill(fill);
            assert_eq!(room(&tensor, &filled), room(&tensor, &config));
            assert_eq!(judge(&tensor, &filled, lengths.0, lengths.1), room(&tensor, &config).answer);
            let part = |start: u64, length: u64| Part { start, length };
            let (source, destination) = (part(0, lengths.0), part(lengths.0, lengths.1));
            assert_eq!(judge_job(100, &Job { source, destination, tensor, config: filled }).total, 6);
        }
    }
}

/// D in a memory of 16 bytes: two elements of 2 bytes, then the room for six.
fn d_job() -> Job {
    let (tensor, config) = d(2);
    let (source, destination) = (Part { start: 0, length: 4 }, Part { start: 4, length: 12 });
    Job { source, destination, tensor, config: config.with_fill(0x0403_0201) }
}

/// Its source, then nines.
fn d_memory() -> Vec<u8> {
    vec![5, 6, 7, 8, 9, 9, 9, 9, 9, 9, 9, 9, 9, 9, 9, 9]
}

#[test]
fn a_stretch_fills_its_own_elements() {
    let at = |from: u64, budget: u64| advance(&d_job(), from, budget, d_memory()).memory.0;
    assert_eq!(at(2, 2), [5, 6, 7, 8, 9, 9, 9, 9, 1, 2, 5, 6, 9, 9, 9, 9]);
    assert_eq!(at(5, 9), [5, 6, 7, 8, 9, 9, 9, 9, 9, 9, 9, 9, 9, 9, 1, 2]);
    assert_eq!(at(0, 1), [5, 6, 7, 8, 1, 2, 9, 9, 9, 9, 9, 9, 9, 9, 9, 9]);
}

#[test]
fn a_slot_keeps_its_fill_until_it_is_released() {
    let prepared = prepare(&fresh(16).table, &d_job(), 16);
    assert_eq!((prepared.status, prepared.handle), (0, 0));
    let slot = |state: u8, moved: u64| Slot { state, job: d_job(), moved };
    assert_eq!(prepared.table.slot[0], slot(PREPARED, 0));
    let mut table = start(&prepared.table, 0, 16).table;
    assert_eq!(table.slot[0], slot(RUNNING, 0));
    let mut memory = d_memory();
    for (budget, moved, state) in [(1, 1, RUNNING), (3, 4, RUNNING), (2, 6, DONE)] {
        let stepped = step(&table, 0, budget, memory);
        assert_eq!((stepped.status, stepped.count), (0, budget));
        (table, memory) = (stepped.table, stepped.memory.0);
        assert_eq!(table.slot[0], slot(state, moved));
    }
    assert_eq!(memory, [5, 6, 7, 8, 1, 2, 1, 2, 1, 2, 5, 6, 7, 8, 1, 2]);
    assert_eq!(release(&table, 0, 16).table, fresh(16).table);
}

#[test]
fn a_release_leaves_the_fill_of_another_slot() {
    // The second one has the same source, and its destination behind the first one's.
    let second = Job { destination: Part { start: 16, length: 12 }, ..d_job() };
    let both = prepare(&prepare(&fresh(28).table, &d_job(), 28).table, &second, 28).table;
    let started = start(&both, 0, 28).table;
    let done = step(&started, 0, 6, vec![7; 28]).table;
    let released = release(&done, 0, 28).table;
    assert_eq!(released.slot, [Slot::default(), both.slot[1], Slot::default(), Slot::default()]);
}

#[test]
fn a_free_slot_has_no_fill() {
    for byte in 0..4 {
        let mut table: Table = prepare(&fresh(16).table, &d_job(), 16).table;
        assert_eq!(poll(&table, 0).status, 0);
        table.slot[2].job.config.fill = 1 << (8 * byte);
        assert_eq!((poll(&table, 0).status, prepare(&table, &d_job(), 16).status), (18, 18));
        assert_eq!((start(&table, 0, 16).status, release(&table, 0, 16).status), (18, 18));
        let stepped = step(&table, 0, 1, d_memory());
        assert_eq!((stepped.status, stepped.count, stepped.table), (18, 0, table));
        assert_eq!(stepped.memory.0, d_memory());
    }
}

#[test]
fn configurations_that_differ_in_fill_differ() {
    let (_, config) = d(1);
    assert_ne!(config.with_fill(1), config.with_fill(2));
    assert_eq!(config.with_fill(3).with_fill(0), config);
}
