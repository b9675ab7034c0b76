//! How the paper is read where it is silent: widths, orders, and what a refused call hands back. Counts, transfers,
//! records and `rmvshow` have files of their own.

use super::{default, four, plane, refused};
use crate::helpers::{element_size, sub_part, sub_tensor, SubConfig, SubTensor};
use crate::moves::{judge, room, Config, Room};
use crate::ready_made::{all, concatenate, copy, pad_chw, pad_hwc, permute, slice, subsample, Made};
use crate::tensor::{source_of, Source, Tensor};

#[test]
fn a_refused_room_question_has_span_0() {
    let tensor = plane(&[2, 3]);
    let config = default(&tensor).with_step([1, 0, 0, 0]);
    assert_eq!(room(&tensor, &config), Room { answer: refused(9, 1), span: 0 });
    assert_eq!(room(&tensor, &default(&tensor)).span, 6);
}

#[test]
fn pads_take_no_rank() {
    let strides = [9, 8, 7, 6];
    let chw = pad_chw([1, 2, 3, 4], strides);
    assert_eq!((chw.pre, chw.post), ([0, 3, 1, 0], [0, 4, 2, 0]));
    let hwc = pad_hwc([1, 2, 3, 4], strides);
    assert_eq!((hwc.pre, hwc.post), ([3, 1, 0, 0], [4, 2, 0, 0]));
    assert_eq!((hwc.step, hwc.perm, hwc.dst_stride), ([1, 1, 1, 0], [0, 1, 2, 0], [9, 8, 7, 0]));
}

#[test]
fn ready_made_configurations_take_a_rank() {
    let four_32 = [5, 6, 7, 8];
    let wrong = Made { status: 1, config: Config::default() };
    for rank in [0, 5, 255] {
        assert_eq!(copy(rank), wrong);
        assert_eq!(slice(rank, four_32, four_32, four_32), wrong);
        assert_eq!(concatenate(rank, four_32, four_32), wrong);
        assert_eq!(subsample(rank, four_32, four_32), wrong);
        assert_eq!(permute(rank, [3, 2, 1, 0]), wrong);
        assert_eq!(all(rank, &Config { offset: four_32, ..Config::default() }), wrong);
    }
    let sliced = slice(2, four_32, [1, 2, 3, 4], [0, 9, 9, 9]).config;
    assert_eq!((sliced.offset, sliced.size), ([5, 6, 0, 0], [1, 2, 0, 0]));
    assert_eq!((sliced.dst_stride, sliced.step), ([0, 9, 0, 0], [1, 1, 0, 0]));
    let given = Config { step: four_32, post: [1, 2, 3, 4], ..Config::default() };
    let made = all(3, &given).config;
    assert_eq!((made.step, made.post, made.perm), ([5, 6, 7, 0], [1, 2, 3, 0], [0; 4]));
    // "the ready-made ones have 0", whatever the configuration has that is handed in.
    let filled = Config { fill: 5, ..given };
    assert_eq!(all(3, &filled).config, made);
    assert_eq!((copy(4).config.fill, pad_chw([1; 4], four_32).fill, pad_hwc([1; 4], four_32).fill), (0, 0, 0));
}

#[test]
fn each_of_nine_settings_sets_one_field() {
    let (wide, bytes) = ([9, 8, 7, 6], [5, 4, 3, 2]);
    let mut expected = Config::default();
    let mut config = Config::default().with_offset(wide).with_size(wide).with_step(wide);
    (expected.offset, expected.size, expected.step) = (wide, wide, wide);
    assert_eq!(config, expected);
    config = config.with_dst_offset(wide).with_dst_stride(wide);
    (expected.dst_offset, expected.dst_stride) = (wide, wide);
    assert_eq!(config, expected);
    config = config.with_fill(0x0403_0201);
    expected.fill = 0x0403_0201;
    assert_eq!(config, expected);
    config = config.with_perm(bytes).with_pre(bytes).with_post(bytes);
    (expected.perm, expected.pre, expected.post) = (bytes, bytes, bytes);
    assert_eq!(config, expected);
    assert_eq!(config.with_fill(0), Config { fill: 0, ..expected });
}

#[test]
fn a_sub_tensor_asks_for_the_span() {
    let config = SubConfig { offset: four(&[1]), size: four(&[1]), rank: 1 };
    let refusal = SubTensor { status: 5, ..SubTensor::default() };
    assert_eq!(sub_tensor(&plane(&[3]), &config, 2), refusal);
    assert_eq!(sub_part(&plane(&[3]), &config, &[1, 2]), &[] as &[u8]);
    assert_eq!(sub_part(&plane(&[3]), &config, &[1, 2, 3, 4]), &[2, 3, 4]);
}

#[test]
fn units_are_counted_by_size() {
    let at = |size: &[u32], rank: u32| {
        sub_tensor(&plane(&[3, 1, 4]), &SubConfig { offset: [0; 4], size: four(size), rank }, 12)
    };
    assert_eq!(at(&[1, 1, 2], 1).tensor.shape, [2, 0, 0, 0]);
    assert_eq!(at(&[2, 1, 2], 1).status, 15);
    // The first unit dimension goes first, with its stride.
    assert_eq!(at(&[1, 1, 2], 2).tensor.stride, [4, 1, 0, 0]);
    assert_eq!(at(&[1, 1, 1], 2).tensor.shape, [1, 1, 0, 0]);
    assert_eq!(at(&[1, 1, 2], 0).status, 14);
    assert_eq!(at(&[1, 1, 2], 4).status, 14);
    assert_eq!((at(&[1, 0, 2], 1).status, at(&[1, 0, 2], 1).dimension), (8, 1));
}

#[test]
fn element_sizes() {
    let sizes: Vec<u8> = (0..=9).map(element_size).collect();
    assert_eq!(sizes, [0, 1, 2, 3, 4, 0, 0, 0, 0, 0]);
    assert_eq!([128, 252, 253, 254, 255].map(element_size), [0; 5]);
}

#[test]
fn a_number_is_checked_over_all_dimensions_before_the_next() {
    let tensor = plane(&[3, 3]);
    let config = default(&tensor);
    let eight_at_0 = config.with_size([4, 0, 0, 0]);
    assert_eq!(judge(&tensor, &eight_at_0, 9, 9), refused(8, 0));
    assert_eq!(judge(&tensor, &eight_at_0.with_offset([0, 3, 0, 0]), 9, 9), refused(7, 1));
    // size + offset needs more than 32 bits
    let wraps = config.with_offset([2, 0, 0, 0]).with_size([u32::MAX, 0, 0, 0]);
    assert_eq!(judge(&tensor, &wraps, 9, 9), refused(8, 0));
}

#[test]
fn numbers_name_source_or_destination_dimensions() {
    let tensor = plane(&[65_535, 1]);
    let turned = default(&tensor).with_perm([1, 0, 0, 0]);
    assert_eq!(judge(&tensor, &turned.with_post([1, 0, 0, 0]), 65_535, 65_535), refused(10, 0));
    assert_eq!(judge(&tensor, &turned.with_dst_stride([65_534, 0, 0, 0]), 65_535, 65_535), refused(11, 0));
    assert_eq!(judge(&tensor, &turned.with_dst_offset([0, 1, 0, 0]), 65_535, 65_535), refused(12, 1));
    let three = plane(&[1, 1, 1]);
    assert_eq!(judge(&three, &default(&three).with_perm([2, 1, 2, 0]), 9, 9), refused(6, 2));
    assert_eq!(judge(&three, &default(&three).with_perm([0, 3, 0, 0]), 9, 9), refused(6, 1));
}

#[test]
fn a_zero_stride_may_come_out_above_the_limit() {
    let tensor = Tensor { stride: [0, 2_147_483_647, 0, 0], ..plane(&[1, 2]) };
    assert_eq!(source_of(&tensor), Source { status: 4, dimension: 0, ..Source::default() });
    let fits = Tensor { stride: [0, 2_147_483_647, 0, 0], ..plane(&[2, 1]) };
    let expected = [2_147_483_647, 2_147_483_647, 0, 0];
    assert_eq!(source_of(&fits), Source { status: 0, dimension: 0, stride: expected, span: 2_147_483_648 });
    // The first one met outward is named.
    let both = Tensor { stride: [1, -2_147_483_648, 0, 0], ..plane(&[2, 2]) };
    assert_eq!(source_of(&both).dimension, 1);
}

#[test]
fn entries_past_the_rank_are_not_looked_at() {
    let mut tensor = plane(&[2, 3]);
    (tensor.shape[3], tensor.stride[2]) = (0, i32::MIN);
    let mut config = default(&tensor);
    (config.offset[2], config.step[3], config.perm[2]) = (u32::MAX, 70_000, 0);
    let answer = judge(&tensor, &config, 6, 6);
    assert_eq!((answer.status, answer.extent, answer.stride), (0, [2, 3, 0, 0], [3, 1, 0, 0]));
}
