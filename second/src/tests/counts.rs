//! Element counts: how large they get, what is looked at, the order of refusals, and which case a count is.

use super::plane;
use crate::calls::Calls;
use crate::cases::counts::{cases, met};
use crate::helpers::{element_count, Count};
use crate::tensor::Tensor;
use crate::wire::bytes_of;

fn counted(count: u64) -> Count {
    Count { status: 0, dimension: 0, count }
}

fn refused(status: u8, dimension: u8) -> Count {
    Count { status, dimension, count: 0 }
}

/// A plane of bytes; what stands past the rank stays.
fn ranked(rank: u8, shape: [u32; 4]) -> Tensor {
    Tensor { rank, ..plane(&shape) }
}

#[test]
fn four_shapes_of_65535_fit() {
    let largest = plane(&[65_535; 4]);
    assert_eq!(element_count(&largest, 0), counted(18_445_618_199_572_250_625));
    assert_eq!(element_count(&largest, 1), counted(281_462_092_005_375));
    assert_eq!(element_count(&largest, 2), counted(4_294_836_225));
    assert_eq!(element_count(&largest, 3), counted(65_535));
    // 2^32, of which nothing is left in 32 bits.
    assert_eq!(element_count(&plane(&[4, 32_768, 32_768]), 0), counted(4_294_967_296));
}

#[test]
fn every_shape_below_the_rank_is_looked_at() {
    assert_eq!(element_count(&plane(&[0, 4, 65_536]), 1), refused(3, 0));
    assert_eq!(element_count(&plane(&[2, 65_536, 0]), 1), refused(3, 1));
    assert_eq!(element_count(&plane(&[2, 4, 0]), 1), refused(3, 2));
    assert_eq!(element_count(&plane(&[1, 65_535, 1]), 0), counted(65_535));
}

#[test]
fn nothing_else_is_looked_at() {
    let odd = Tensor { element_size: 5, stride: [1, i32::MIN, 1, 0], ..plane(&[2, 4, 8]) };
    assert_eq!(element_count(&odd, 2), counted(8));
    assert_eq!(element_count(&ranked(2, [65_535, 65_535, 0, 0]), 0), counted(4_294_836_225));
    assert_eq!(element_count(&ranked(2, [65_535, 65_535, u32::MAX, u32::MAX]), 1), counted(65_535));
}

#[test]
fn a_start_is_below_the_rank() {
    let tensor = plane(&[2, 4, 8]);
    assert_eq!([0, 1, 2].map(|start| element_count(&tensor, start).count), [64, 32, 8]);
    for start in [3, 4, 255, 256, 257, 65_536, 1 << 31, u32::MAX] {
        assert_eq!(element_count(&tensor, start), refused(16, 0));
    }
}

#[test]
fn the_order_is_1_3_16() {
    let asked = |rank: u8, shape: u32, start: u32| element_count(&ranked(rank, [2, shape, 0, 0]), start);
    for rank in [0, 5, 255] {
        assert_eq!(asked(rank, 0, 256), refused(1, 0));
        assert_eq!(asked(rank, 0, 0), refused(1, 0));
    }
    assert_eq!(asked(2, 0, 2), refused(3, 1));
    assert_eq!(asked(2, 3, 2), refused(16, 0));
    assert_eq!(asked(2, 3, 1), counted(3));
}

/// The cases of a count.
fn cases_of(tensor: Tensor, start: u32) -> String {
    let line = [vec![0x05], bytes_of(&(tensor, start))].concat();
    let answer = (Calls::all().find(0x05).unwrap().answer)(&line[1..]).unwrap();
    let met = met(&line, &answer);
    assert!(met.iter().all(|case| cases(0x05).contains(case)));
    met.join("; ")
}

#[test]
fn cases_of_accepted_counts_are_told_apart() {
    let plain = ranked(3, [2, 4, 8, 3]);
    assert_eq!(cases_of(plain, 0), "rank 3 from 0; up to 2^32 - 1");
    let odd = Tensor { element_size: 5, ..plain };
    assert_eq!(cases_of(odd, 1), "rank 3 from 1; up to 2^32 - 1; element size that 2 refuses");
    let overlapping = Tensor { stride: [31, 0, 0, 0], ..plain };
    assert_eq!(cases_of(overlapping, 2), "rank 3 from 2; up to 2^32 - 1; strides that 4 refuses");
    let past = ranked(3, [2, 4, 8, 65_536]);
    assert_eq!(cases_of(past, 1), "rank 3 from 1; up to 2^32 - 1; bad shape past the rank");
    // 2^32; then what is beside 2^63, where strides of 0 come out above the limit.
    assert_eq!(cases_of(ranked(3, [4, 32_768, 32_768, 1]), 0), "rank 3 from 0; up to 2^63 - 1");
    let large = |shape: u32| cases_of(plane(&[shape, 65_535, 65_535, 65_535]), 0);
    assert_eq!(large(32_769), "rank 4 from 0; up to 2^63 - 1; strides that 4 refuses");
    assert_eq!(large(32_770), "rank 4 from 0; above 2^63 - 1; strides that 4 refuses");
    assert_eq!(large(65_535), "rank 4 from 0; above 2^63 - 1; the most; strides that 4 refuses");
}

#[test]
fn cases_of_refused_counts_are_told_apart() {
    let met = |rank: u8, shape: [u32; 3], start: u32| cases_of(ranked(rank, [shape[0], shape[1], shape[2], 2]), start);
    assert_eq!(met(3, [0, 2, 3], 1), "3 by 0; 3 before the start");
    assert_eq!(met(3, [2, 65_536, 3], 1), "3 by 65536; 3 at the start");
    assert_eq!(met(3, [2, 3, 65_537], 1), "3 behind the start");
    assert_eq!(met(3, [2, 0, 65_536], 2), "3 by 0; 3 by two shapes; 3 before the start");
    assert_eq!(met(3, [2, 3, 0], 3), "3 by 0; 3 and 16");
    assert_eq!(met(3, [2, 3, 4], 3), "rank 3 from 3");
    assert_eq!(met(3, [2, 3, 4], 4), "");
    assert_eq!(met(3, [2, 3, 4], 258), "16 below the rank in 8 bits");
    assert_eq!(met(3, [2, 3, 4], 259), "");
    assert_eq!(met(0, [2, 3, 0], 0), "1 of rank 0");
    assert_eq!(met(5, [2, 3, 4], 4), "");
    assert_eq!(met(5, [2, 3, 0], 4), "1 and 3");
    assert_eq!(met(5, [2, 3, 4], 5), "1 and 16");
}
