//! Destination offsets: planes joined along a dimension, and what 12 refuses.

use super::{count_up, default, plane, refused};
use crate::job::{judge_job, Job, Part};
use crate::moves::{judge, move_plane, room, Answer, Config, Room};
use crate::tensor::Tensor;

/// A copy with these destination strides and offsets.
fn placed(tensor: &Tensor, stride: [u32; 4], offset: [u32; 4]) -> Config {
    default(tensor).with_dst_stride(stride).with_dst_offset(offset)
}

/// The answer for a plane of bytes, with more room than any of these moves needs.
fn judged(shape: &[u32], stride: [u32; 4], offset: [u32; 4]) -> Answer {
    let tensor = plane(shape);
    judge(&tensor, &placed(&tensor, stride, offset), 1_000, 1 << 60)
}

/// The need of a move that has to be accepted.
fn need(shape: &[u32], stride: [u32; 4], offset: [u32; 4]) -> u64 {
    let answer = judged(shape, stride, offset);
    assert_eq!((answer.status, answer.dimension), (0, 0));
    answer.need
}

#[test]
fn two_planes_are_joined_along_the_last_dimension() {
    let tensor = plane(&[2, 2]);
    let half = |place: u32| placed(&tensor, [4, 1, 0, 0], [0, place, 0, 0]);
    let mut destination = [9; 8];
    assert_eq!(move_plane(&tensor, &half(0), &count_up(4), &mut destination).need, 6);
    assert_eq!(destination, [1, 2, 9, 9, 3, 4, 9, 9]);
    assert_eq!(move_plane(&tensor, &half(2), &[5, 6, 7, 8], &mut destination).need, 8);
    assert_eq!(destination, [1, 2, 5, 6, 3, 4, 7, 8]);
    // One place farther on it would run past the row.
    assert_eq!(move_plane(&tensor, &half(3), &[5, 6, 7, 8], &mut destination), refused(12, 1));
    assert_eq!(destination, [1, 2, 5, 6, 3, 4, 7, 8]);
}

#[test]
fn the_first_dimension_is_bounded_by_the_room_alone() {
    // Up to 65,535, whatever its stride is.
    assert_eq!(need(&[1], [0; 4], [65_535, 0, 0, 0]), 65_536);
    assert_eq!(judged(&[1], [0; 4], [65_536, 0, 0, 0]), refused(12, 0));
    assert_eq!(judged(&[1], [2_147_483_647, 0, 0, 0], [65_536, 0, 0, 0]), refused(12, 0));
    // At its own stride and above it.
    assert_eq!(need(&[1, 2], [2, 1, 0, 0], [2, 0, 0, 0]), 6);
    assert_eq!(need(&[1, 2], [2, 1, 0, 0], [9, 0, 0, 0]), 20);
    assert_eq!(need(&[1, 2], [0; 4], [65_535, 0, 0, 0]), 131_072);
    // The room refuses with 13.
    let tensor = plane(&[1]);
    let config = placed(&tensor, [0; 4], [3, 0, 0, 0]);
    assert_eq!(judge(&tensor, &config, 1, 4).status, 0);
    assert_eq!(judge(&tensor, &config, 1, 3), refused(13, 0));
}

#[test]
fn a_row_may_be_full() {
    // (4 + 3) x 1 is 7, in the last dimension of four.
    assert_eq!(need(&[1, 1, 2, 3], [0, 0, 7, 0], [0, 0, 0, 4]), 14);
    assert_eq!(judged(&[1, 1, 2, 3], [0, 0, 6, 0], [0, 0, 0, 4]), refused(12, 3));
    // (1 + 2) x 2 is 6: a row of 5 is too short, though its last element is in place 4.
    assert_eq!(need(&[2, 2], [6, 2, 0, 0], [0, 1, 0, 0]), 11);
    assert_eq!(judged(&[2, 2], [5, 2, 0, 0], [0, 1, 0, 0]), refused(12, 1));
    // The largest inner offset, in a row that is just as long.
    assert_eq!(need(&[1, 1], [65_536, 1, 0, 0], [0, 65_535, 0, 0]), 65_536);
    assert_eq!(judged(&[1, 1], [65_535, 1, 0, 0], [0, 65_535, 0, 0]), refused(12, 1));
    assert_eq!(judged(&[1, 1], [70_000, 1, 0, 0], [0, 65_536, 0, 0]), refused(12, 1));
}

#[test]
fn an_offset_below_its_stride_can_run_past_the_row() {
    // (1 + 1) x 2 is 4.
    assert_eq!(need(&[1, 1, 2], [4, 2, 1, 0], [0, 1, 0, 0]), 4);
    assert_eq!(judged(&[1, 1, 2], [3, 2, 1, 0], [0, 1, 0, 0]), refused(12, 1));
}

#[test]
fn an_inner_offset_needs_a_written_stride() {
    assert_eq!(judged(&[2, 2], [0; 4], [0, 1, 0, 0]), refused(12, 1));
    assert_eq!(judged(&[2, 2], [0, 1, 0, 0], [0, 1, 0, 0]), refused(12, 1));
    assert_eq!(need(&[2, 2], [3, 0, 0, 0], [0, 1, 0, 0]), 6);
}

#[test]
fn resolved_strides_decide() {
    // The outermost stride is 0 and comes to 4 x 2.
    let strides = [0, 4, 1, 0];
    assert_eq!(judged(&[2, 2, 2], strides, [0, 0, 2, 0]).stride, [8, 4, 1, 0]);
    assert_eq!(need(&[2, 2, 2], strides, [0, 0, 2, 0]), 16);
    assert_eq!(judged(&[2, 2, 2], strides, [0, 1, 2, 0]), refused(12, 1));
    // The stride of the dimension itself may be 0 as well: it comes to 2.
    assert_eq!(need(&[1, 1, 2], [4, 0, 0, 0], [0, 1, 0, 0]), 4);
    assert_eq!(judged(&[1, 1, 2], [4, 0, 0, 0], [0, 2, 0, 0]), refused(12, 1));
}

#[test]
fn the_lowest_dimension_is_named_over_both_cases() {
    let shape = [1, 1, 1];
    // Past the row in 1, above 65,535 in 0 or in 2.
    assert_eq!(judged(&shape, [0, 1, 1, 0], [65_536, 1, 0, 0]), refused(12, 0));
    assert_eq!(judged(&shape, [0, 70_000, 1, 0], [0, 1, 65_536, 0]), refused(12, 1));
    // Past the row in 2, above 65,535 in 1, where its row would have room.
    assert_eq!(judged(&shape, [70_000, 1, 1, 0], [0, 65_536, 1, 0]), refused(12, 1));
    assert_eq!(judged(&shape, [70_000, 1, 1, 0], [0, 65_535, 1, 0]), refused(12, 2));
    // Past the row in both.
    assert_eq!(judged(&shape, [1, 1, 1, 0], [0, 1, 1, 0]), refused(12, 1));
}

#[test]
fn the_product_does_not_wrap() {
    // (65,535 + 1) x 65,536 is 2^32.
    assert_eq!(judged(&[1, 1], [100_000, 65_536, 0, 0], [0, 65_535, 0, 0]), refused(12, 1));
    // (3 + 1) x 2^30 is 2^32 too.
    assert_eq!(judged(&[1, 1], [2_147_483_647, 1 << 30, 0, 0], [0, 3, 0, 0]), refused(12, 1));
    // The largest stride, with the largest offset and with the smallest that runs past the row.
    assert_eq!(judged(&[1, 1], [2_147_483_647, 2_147_483_647, 0, 0], [0, u32::MAX, 0, 0]), refused(12, 1));
    assert_eq!(judged(&[1, 1], [2_147_483_647, 2_147_483_647, 0, 0], [0, 1, 0, 0]), refused(12, 1));
}

#[test]
fn twelve_comes_between_11_and_13() {
    let tensor = plane(&[2, 2]);
    let at = |stride: [u32; 4], offset: [u32; 4], room: u64| judge(&tensor, &placed(&tensor, stride, offset), 4, room);
    assert_eq!(at([1, 1, 0, 0], [65_536, 3, 0, 0], 0), refused(11, 0));
    assert_eq!(at([4, 1, 0, 0], [0, 3, 0, 0], 0), refused(12, 1));
    assert_eq!(at([4, 1, 0, 0], [0, 2, 0, 0], 7), refused(13, 0));
    assert_eq!(at([4, 1, 0, 0], [0, 2, 0, 0], 8).status, 0);
}

#[test]
fn a_room_question_and_a_job_are_refused_alike() {
    let tensor = plane(&[2, 2]);
    let config = placed(&tensor, [4, 1, 0, 0], [0, 3, 0, 0]);
    assert_eq!(room(&tensor, &config), Room { answer: refused(12, 1), span: 0 });
    let part = |start: u64, length: u64| Part { start, length };
    let judged = judge_job(20, &Job { source: part(0, 4), destination: part(4, 16), tensor, config });
    assert_eq!((judged.status, judged.dimension, judged.total), (12, 1, 0));
}

#[test]
fn extents_are_taken_in_destination_order() {
    // (3,1) turned is (1,3), with padding (1,4): a row of 6 holds an offset of 2.
    let tensor = plane(&[3, 1]);
    let turned = default(&tensor).with_perm([1, 0, 0, 0]).with_post([1, 0, 0, 0]);
    let at = |offset: u32| turned.with_dst_stride([6, 1, 0, 0]).with_dst_offset([0, offset, 0, 0]);
    assert_eq!(judge(&tensor, &at(2), 3, 6).need, 6);
    assert_eq!(judge(&tensor, &at(3), 3, 9), refused(12, 1));
}
