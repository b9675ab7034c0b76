//! "Marked examples": A to K and the run-only ones. L is with the transfers.

use super::{count_up, default, four, moved, plane, refused};
use crate::helpers::{element_count, sub_tensor, SubConfig};
use crate::moves::{judge, move_plane, Config};
use crate::tensor::Tensor;

#[test]
fn a_permutes() {
    let a = plane(&[2, 3]);
    let config = default(&a).with_perm([1, 0, 0, 0]);
    assert_eq!(moved(&a, &config, &count_up(6)), [1, 4, 2, 5, 3, 6]);
}

#[test]
fn b_cuts() {
    let b = plane(&[3, 4]);
    let config = default(&b).with_offset([1, 1, 0, 0]).with_size([2, 2, 0, 0]);
    assert_eq!(moved(&b, &config, &count_up(12)), [6, 7, 10, 11]);
}

#[test]
fn c_thins() {
    let c = plane(&[7]);
    let step = default(&c).with_step([3, 0, 0, 0]);
    assert_eq!(moved(&c, &step, &count_up(7)), [1, 4, 7]);
    assert_eq!(moved(&c, &step.with_size([6, 0, 0, 0]), &count_up(7)), [1, 4]);
    assert_eq!(moved(&c, &default(&c).with_step([9, 0, 0, 0]), &count_up(7)), [1]);
}

#[test]
fn d_pads() {
    let d = plane(&[1, 2]);
    let config = default(&d).with_pre([1, 0, 0, 0]).with_post([0, 1, 0, 0]);
    assert_eq!(moved(&d, &config, &[5, 6]), [0, 0, 0, 5, 6, 0]);
}

#[test]
fn e_has_a_destination_offset() {
    let e = plane(&[1, 2]);
    let config = default(&e).with_dst_offset([1, 0, 0, 0]).with_dst_stride([2, 1, 0, 0]);
    let mut destination = [1, 1, 1, 1];
    assert_eq!(move_plane(&e, &config, &[8, 9], &mut destination).status, 0);
    assert_eq!(destination, [1, 1, 8, 9]);
}

#[test]
fn f_leaves_the_gaps() {
    let f = plane(&[2, 2]);
    let config = default(&f).with_dst_stride([3, 1, 0, 0]);
    let mut destination = [7; 5];
    assert_eq!(move_plane(&f, &config, &count_up(4), &mut destination).status, 0);
    assert_eq!(destination, [1, 2, 7, 3, 4]);
    let mut short = [7; 4];
    assert_eq!(move_plane(&f, &config, &count_up(4), &mut short), refused(13, 0));
    assert_eq!(short, [7; 4]);
}

#[test]
fn g_pads_by_source_dimension() {
    let g = plane(&[1, 2]);
    let config = default(&g).with_pre([1, 0, 0, 0]).with_perm([1, 0, 0, 0]);
    assert_eq!(moved(&g, &config, &[5, 6]), [0, 5, 0, 6]);
}

#[test]
fn h_combines() {
    let h = plane(&[3, 4]);
    let config = default(&h).with_offset([0, 1, 0, 0]).with_step([2, 2, 0, 0]).with_perm([1, 0, 0, 0]);
    assert_eq!(moved(&h, &config, &count_up(12)), [2, 10, 4, 12]);
}

#[test]
fn i_has_elements_of_two_bytes() {
    let i = Tensor { element_size: 2, ..plane(&[3]) };
    assert_eq!(moved(&i, &default(&i).with_offset([1, 0, 0, 0]), &count_up(6)), [3, 4, 5, 6]);
}

#[test]
fn j_is_refused() {
    // "J then gives 3 at dimension 0", and 2 comes before it for a size that there is not.
    let j = |element_size: u8| {
        let tensor = Tensor { element_size, ..plane(&[0, 70_000]) };
        judge(&tensor, &default(&tensor), 100, 100)
    };
    assert_eq!((j(3), j(5), j(0)), (refused(3, 0), refused(2, 0), refused(2, 0)));
    let a = plane(&[2, 3]);
    assert_eq!(judge(&a, &default(&a).with_perm([0, 0, 0, 0]), 6, 6), refused(6, 1));
}

#[test]
fn k_points_to_a_sub_tensor() {
    let config = SubConfig { offset: four(&[1, 2]), size: four(&[1, 2]), rank: 1 };
    let sub = sub_tensor(&plane(&[3, 4]), &config, 12);
    assert_eq!((sub.status, sub.dimension, sub.byte), (0, 0, 6));
    let expected = Tensor { rank: 1, element_size: 1, shape: [2, 0, 0, 0], stride: [1, 0, 0, 0] };
    assert_eq!(sub.tensor, expected);
}

#[test]
fn the_count_of_2_4_8_from_1_is_32() {
    let count = element_count(&plane(&[2, 4, 8]), 1);
    assert_eq!((count.status, count.count), (0, 32));
}

#[test]
fn the_largest_extent() {
    let tensor = plane(&[65_535]);
    let config = default(&tensor).with_pre([255, 0, 0, 0]);
    let sized = |size: u32| -> Config { config.with_size([size, 0, 0, 0]) };
    let answer = judge(&tensor, &sized(65_280), 65_535, 65_535);
    assert_eq!((answer.status, answer.extent, answer.need), (0, [65_535, 0, 0, 0], 65_535));
    assert_eq!(judge(&tensor, &sized(65_281), 65_535, 65_535), refused(10, 0));
}

#[test]
fn permuted_2_4_8_becomes_8_2_4() {
    let tensor = plane(&[2, 4, 8]);
    let answer = judge(&tensor, &default(&tensor).with_perm([2, 0, 1, 0]), 64, 64);
    assert_eq!((answer.status, answer.extent, answer.stride), (0, [8, 2, 4, 0], [8, 4, 1, 0]));
    assert_eq!((answer.rank, answer.element_size, answer.need), (3, 1, 64));
}
