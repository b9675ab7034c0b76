//! Elements of three bytes: all that counts in bytes counts three for each, and nothing is rounded up.

use super::{count_up, default, four, moved, plane, refused};
use crate::helpers::{sub_part, sub_tensor, SubConfig, SubTensor};
use crate::job::{Job, Part};
use crate::list::{append, start as start_list};
use crate::moves::{judge, move_plane, room};
use crate::record::{fields_fault, pack_as, read, write, Reading};
use crate::show::show;
use crate::show_list::show_list;
use crate::tensor::{source_of, Fault, Source, Tensor};
use crate::transfers::{fresh, poll, prepare, release, start, step, DONE};

/// A plane of pixels.
fn pixels(shape: &[u32]) -> Tensor {
    Tensor { element_size: 3, ..plane(shape) }
}

#[test]
fn sizes_are_1_to_4() {
    let by_itself = |element_size: u8| source_of(&Tensor { element_size, ..plane(&[2, 2]) });
    let spans = [1, 2, 3, 4].map(|size| (by_itself(size).status, by_itself(size).span));
    assert_eq!(spans, [(0, 4), (0, 8), (0, 12), (0, 16)]);
    for size in [0, 5, 6, 7, 8, 128, 253, 255] {
        assert_eq!(by_itself(size), Source { status: 2, ..Source::default() });
    }
}

#[test]
fn a_turn_keeps_pixels_whole() {
    let tensor = pixels(&[2, 2]);
    let turned = default(&tensor).with_perm(four(&[1, 0]));
    assert_eq!(moved(&tensor, &turned, &count_up(12)), [1, 2, 3, 7, 8, 9, 4, 5, 6, 10, 11, 12]);
}

#[test]
fn padding_is_the_low_three_bytes() {
    let tensor = pixels(&[2, 2]);
    let config = default(&tensor).with_pre(four(&[0, 1]));
    let rows = [[0x11, 0x22, 0x33, 1, 2, 3, 4, 5, 6], [0x11, 0x22, 0x33, 7, 8, 9, 10, 11, 12]].concat();
    assert_eq!(moved(&tensor, &config.with_fill(0x33_2211), &count_up(12)), rows);
    // The fourth byte is not looked at.
    assert_eq!(moved(&tensor, &config.with_fill(0x4433_2211), &count_up(12)), rows);
}

#[test]
fn lengths_are_three_times_the_elements() {
    let tensor = pixels(&[2, 2]);
    let config = default(&tensor);
    let judged = |source: u64, destination: u64| judge(&tensor, &config, source, destination);
    assert_eq!((judged(12, 12).status, judged(12, 12).element_size, judged(12, 12).need), (0, 3, 12));
    assert_eq!((judged(11, 12), judged(12, 11)), (refused(5, 0), refused(13, 0)));
    // Strides of (3,1) leave one element between the rows: 1 + 3 + 1 elements, and three more before the first row.
    let spaced = Tensor { stride: four(&[3, 1]), ..tensor };
    let answered = room(&spaced, &config.with_dst_stride(four(&[3, 1])).with_dst_offset(four(&[1, 0])));
    assert_eq!((answered.answer.status, answered.span, answered.answer.need), (0, 15, 24));
    assert_eq!((answered.answer.extent, answered.answer.stride), ([2, 2, 0, 0], [3, 1, 0, 0]));
}

#[test]
fn a_gap_is_three_bytes() {
    // F, with pixels: two rows of two and a gap of one.
    let tensor = pixels(&[2, 2]);
    let config = default(&tensor).with_dst_stride(four(&[3, 1]));
    let mut destination = [99; 16];
    assert_eq!(move_plane(&tensor, &config, &count_up(12), &mut destination).need, 15);
    assert_eq!(destination, [1, 2, 3, 4, 5, 6, 99, 99, 99, 7, 8, 9, 10, 11, 12, 99]);
    let mut short = [99; 14];
    assert_eq!(move_plane(&tensor, &config, &count_up(12), &mut short), refused(13, 0));
    assert_eq!(short, [99; 14]);
}

#[test]
fn a_sub_tensor_starts_at_a_whole_pixel() {
    // K, with pixels: element 6 of 12.
    let config = SubConfig { offset: four(&[1, 2]), size: four(&[1, 2]), rank: 1 };
    let sub = sub_tensor(&pixels(&[3, 4]), &config, 36);
    let tensor = Tensor { stride: four(&[1]), ..pixels(&[2]) };
    assert_eq!(sub, SubTensor { status: 0, dimension: 0, tensor, byte: 18 });
    let source = count_up(36);
    let part = sub_part(&pixels(&[3, 4]), &config, &source);
    assert_eq!(part, &source[18..]);
    assert_eq!(moved(&tensor, &default(&tensor), part), [19, 20, 21, 22, 23, 24]);
    assert_eq!(sub_tensor(&pixels(&[3, 4]), &config, 35), SubTensor { status: 5, ..SubTensor::default() });
}

/// Two pixels from this byte on to that one.
fn job(source: u64, destination: u64) -> Job {
    let tensor = pixels(&[2]);
    let part = |start: u64| Part { start, length: 6 };
    Job { source: part(source), destination: part(destination), tensor, config: default(&tensor) }
}

#[test]
fn transfers_move_pixel_by_pixel() {
    // L, with pixels, from byte 1 on: "3-byte elements may start anywhere".
    let mut table = prepare(&prepare(&fresh(25).table, &job(1, 13), 25).table, &job(7, 19), 25).table;
    for handle in [0, 1] {
        table = start(&table, handle, 25).table;
    }
    let mut memory: Vec<u8> = (0..=12).chain([99; 12]).collect();
    for (handle, to, bytes) in [(1, 19, [7, 8, 9]), (0, 13, [1, 2, 3]), (1, 22, [10, 11, 12]), (0, 16, [4, 5, 6])] {
        let mut expected = memory.clone();
        expected[to..to + 3].copy_from_slice(&bytes);
        let stepped = step(&table, handle, 1, memory);
        assert_eq!((stepped.status, stepped.count), (0, 1));
        (table, memory) = (stepped.table, stepped.memory.0);
        assert_eq!(memory, expected);
    }
    assert_eq!((poll(&table, 0).state, poll(&table, 1).state), (DONE, DONE));
    assert_eq!(release(&release(&table, 0, 25).table, 1, 25).table, fresh(25).table);
}

#[test]
fn a_table_has_slots_of_pixels() {
    let prepared = |job: Job| prepare(&fresh(30).table, &job, 30);
    let short = Part { start: 0, length: 5 };
    assert_eq!((prepared(job(0, 6)).status, prepared(Job { source: short, ..job(0, 6) }).status), (0, 5));
    assert_eq!(prepared(Job { destination: short, ..job(6, 0) }).status, 13);
    // Parts on boundaries of any size, and long enough for elements of 5 bytes.
    let part = |start: u64| Part { start, length: 10 };
    let mut table = prepared(Job { source: part(0), destination: part(12), ..job(0, 6) }).table;
    let polled = [1, 2, 3, 4, 5, 0].map(|size| {
        table.slot[0].job.tensor.element_size = size;
        poll(&table, 0).status
    });
    assert_eq!(polled, [0, 0, 0, 0, 18, 18]);
}

#[test]
fn a_record_of_pixels_has_a_fill_of_three_bytes() {
    let tensor = pixels(&[2, 2]);
    let config = default(&tensor).with_pre(four(&[0, 1]));
    let judged = |fill: u32| fields_fault(2, &tensor, &config.with_fill(fill));
    let refusal = Fault { status: 28, dimension: 0 };
    assert_eq!((judged(0x33_2211), judged(0x133_2211), judged(0x100_0000)), (Fault::default(), refusal, refusal));
    let filled = config.with_fill(0x33_2211);
    let mut bytes = [9; 135];
    assert_eq!(write(&tensor, &filled, &mut bytes), Fault::default());
    assert_eq!((&bytes[..7], &bytes[131..]), (&b"RMV\x02\0\x02\x03"[..], &[0x11, 0x22, 0x33, 0][..]));
    assert_eq!(read(&bytes), Reading { status: 0, dimension: 0, tensor, config: filled });
    // The fourth byte, with the others and by itself.
    for fill in [0x133_2211, 0x100_0000] {
        let other = config.with_fill(fill);
        assert_eq!(read(&pack_as(2, &tensor, &other)), Reading { status: 28, ..Reading::default() });
        let mut room = [9; 135];
        assert_eq!((write(&tensor, &other, &mut room), room), (refusal, [9; 135]));
    }
}

#[test]
fn programs_print_pixels() {
    let tensor = pixels(&[1, 2]);
    let config = default(&tensor).with_pre(four(&[0, 1])).with_fill(0x33_2211);
    let record = pack_as(2, &tensor, &config);
    let expected = "status 0 dim 0\nshape 1 3 stride 3 1\nneed 9\n11 22 33 01 02 03 04 05 06\n";
    assert_eq!(show(&[record.clone(), count_up(6)].concat()), expected);
    assert_eq!(show(&[record, count_up(5)].concat()), "status 5 dim 0\n");
    let buffer = start_list(vec![9; 138]).buffer.0;
    let appended = append(&tensor, &config.with_fill(0), 7, buffer);
    assert_eq!((appended.status, appended.length), (0, 138));
    let expected = "status 0 records 1\n\
        record 0 status 0 dim 0 rank 2 element 3 shape 1 2 room 0 dim 0 span 6 need 9\n";
    assert_eq!(show_list(&appended.buffer.0), expected);
}
