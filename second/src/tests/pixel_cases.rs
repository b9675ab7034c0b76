//! Which cases of a pixel are told apart, worked out by hand.

use super::{cases_of_call, count_up, default, four, plane};
use crate::cases::pixels::{cases, met};
use crate::moves::Config;
use crate::tensor::Tensor;
use crate::wire::{bytes_of, Rest};

/// The cases of a pixel.
fn of(tensor: Tensor, config: Config, coordinate: [u32; 4], source: Vec<u8>) -> String {
    cases_of_call((cases, met), 0x28, bytes_of(&(tensor, config, coordinate, Rest(source))))
}

/// Of example A with its source and a byte behind it, which is no case of itself.
fn of_a(coordinate: [u32; 4]) -> String {
    let tensor = plane(&[2, 3]);
    of(tensor, default(&tensor).with_perm([1, 0, 0, 0]), coordinate, count_up(7))
}

/// Of the same with a change.
fn changed(change: fn(&mut Tensor, &mut Config), coordinate: [u32; 4], source: u8) -> String {
    let mut tensor = plane(&[2, 3]);
    let mut config = default(&tensor).with_perm([1, 0, 0, 0]);
    change(&mut tensor, &mut config);
    of(tensor, config, coordinate, count_up(source))
}

#[test]
fn coordinates() {
    assert_eq!((of_a([0, 0, 0, 0]), of_a([1, 0, 7, 9])), (String::new(), "another by source dimension, rank 2".into()));
    assert_eq!(of_a([2, 0, 0, 0]), "last at 0 of rank 2; another by source dimension, rank 2");
    // (1,1) is the same element either way.
    assert_eq!(of_a([1, 1, 0, 0]), "last at 1 of rank 2");
    assert_eq!(of_a([1, 1, 65_536, u32::MAX]), "last at 1 of rank 2; any entries past rank 2");
    assert_eq!(of_a([3, 0, 0, 0]), "35 at 0 of rank 2; 35 just at the extent");
    assert_eq!((of_a([0, 3, 0, 0]), of_a([4, 2, 0, 0])), ("35 at 1 of rank 2".into(), "35 at 0 and farther in".into()));
    assert_eq!(of_a([u32::MAX, 0, 0, 0]), "35 at 0 of rank 2; 35 by 2^32 - 1");
    assert_eq!(of_a([258, 0, 0, 0]), "35 at 0 of rank 2; 35 below the extent in 8 bits");
    assert_eq!(
        (of_a([259, 0, 0, 0]), of_a([65_539, 0, 0, 0])),
        ("35 at 0 of rank 2".into(), "35 at 0 of rank 2".into())
    );
    assert_eq!(of_a([0, 65_537, 0, 0]), "35 at 1 of rank 2; 35 below the extent in 16 bits");
}

#[test]
fn numbers() {
    let inside = |change: fn(&mut Tensor, &mut Config)| changed(change, [0; 4], 7);
    assert_eq!((inside(|tensor, _| tensor.rank = 0), inside(|tensor, _| tensor.element_size = 5)), Default::default());
    assert_eq!(
        (inside(|tensor, _| tensor.shape[1] = 0), inside(|_, config| config.perm[1] = 2)),
        ("3 at 1".into(), "6 at 1".into())
    );
    assert_eq!(
        (inside(|_, config| config.step[0] = 0), inside(|_, config| config.dst_offset[1] = 1)),
        ("9 at 0".into(), "12 at 1".into())
    );
    assert_eq!((changed(|_, _| (), [0; 4], 5), changed(|_, _| (), [0; 4], 4)), ("5 by a byte".into(), String::new()));
}

#[test]
fn pairs() {
    let inside = |change: fn(&mut Tensor, &mut Config)| changed(change, [0; 4], 6);
    assert_eq!(inside(|tensor, _| (tensor.rank, tensor.element_size) = (5, 5)), "1 and 2");
    // Rank 4 would give 3 for the shapes of 0 past the second, and 3 is not the next number.
    assert_eq!(inside(|tensor, _| tensor.rank = 5), "");
    assert_eq!(inside(|tensor, _| (tensor.element_size, tensor.shape[1]) = (5, 0)), "2 and 3");
    assert_eq!(inside(|tensor, _| (tensor.shape[1], tensor.stride[0]) = (0, i32::MIN)), "3 at 1; 3 and 4");
    assert_eq!(changed(|tensor, _| tensor.stride[1] = i32::MIN, [0; 4], 5), "4 at 1; 4 and 5");
    assert_eq!(changed(|_, config| config.perm[1] = 1, [0; 4], 5), "5 by a byte; 5 and 6");
    assert_eq!(inside(|_, config| (config.perm[1], config.offset[0]) = (1, 2)), "6 at 1; 6 and 7");
    // An offset that is too large makes any size too large; it has to be another one.
    assert_eq!(inside(|_, config| (config.offset[1], config.size[1]) = (3, 1)), "7 at 1");
    assert_eq!(inside(|_, config| (config.offset[1], config.size[0]) = (3, 3)), "7 at 1; 7 and 8");
    assert_eq!(inside(|_, config| (config.size[1], config.step[0]) = (4, 0)), "8 at 1; 8 and 9");
    assert_eq!(
        inside(|_, config| (config.dst_stride[1], config.dst_offset[0]) = (1 << 31, 65_536)),
        "11 at 1; 11 and 12"
    );
    let outside = |change: fn(&mut Tensor, &mut Config)| changed(change, [0, 65_536, 0, 0], 6);
    assert_eq!(
        (outside(|tensor, _| tensor.rank = 5), outside(|_, config| config.perm[0] = 9)),
        ("1 and 35".into(), "6 at 0; 6 and 35".into())
    );
    assert_eq!(outside(|_, config| config.dst_offset[1] = 1), "12 at 1; 12 and 35");
    assert_eq!(changed(|_, _| (), [0, 65_536, 0, 0], 5), "5 by a byte; 5 and 35");
    // 65,535 may be inside for all that is known, and past the rank nothing counts.
    assert_eq!(
        (changed(|_, _| (), [65_535; 4], 5), changed(|_, _| (), [0, 0, 65_536, 0], 5)),
        ("5 by a byte".into(), "5 by a byte".into())
    );
    let long = plane(&[65_281, 1]);
    let config = default(&long).with_pre([255, 0, 0, 0]);
    let at = |config: Config| of(long, config, [0; 4], vec![7; 65_281]);
    assert_eq!((at(config), at(config.with_step([1, 0, 0, 0]))), ("10 at 0".into(), "9 at 1; 9 and 10".into()));
    assert_eq!(at(config.with_dst_stride([0, 1 << 31, 0, 0])), "10 at 0; 10 and 11");
}

/// A row of two elements of this size, one padded before and one behind; a byte more than they have is lent.
fn row(element_size: u8, fill: u32, c: u32, source: &[u8]) -> String {
    let tensor = Tensor { element_size, ..plane(&[2]) };
    let config = default(&tensor).with_pre([1, 0, 0, 0]).with_post([1, 0, 0, 0]).with_fill(fill);
    of(tensor, config, [c, 0, 0, 0], [source, &[99]].concat())
}

#[test]
fn padding() {
    assert_eq!(row(1, 0x0403_0201, 0, &[8, 9]), "1-byte padding before");
    assert_eq!((row(1, 0, 0, &[8, 9]), row(1, 7, 0, &[8, 9])), ("1-byte padding before, fill 0".into(), String::new()));
    assert_eq!(row(2, 0x0403_0201, 3, &[6, 7, 8, 9]), "last at 0 of rank 1; 2-byte padding behind");
    assert_eq!(
        row(4, 0x0403_0201, 0, &count_up(8)),
        "4-byte padding before; padding that is as an element of the source"
    );
    // The bytes of the fill stand in the source, but across two elements.
    assert_eq!(row(2, 0x0403_0201, 0, &[0, 1, 2, 3]), "2-byte padding before");
    let tensor = plane(&[1, 1, 1, 1]);
    let config = default(&tensor).with_perm([3, 2, 1, 0]).with_pre([1; 4]).with_fill(7);
    let at = |coordinate: [u32; 4]| of(tensor, config, coordinate, vec![1, 2]);
    assert!(at([1, 0, 1, 1]).ends_with("padding in dimension 1 alone"));
    assert!(at([1, 0, 1, 0]).ends_with("padding in several dimensions"));
}

#[test]
fn kept() {
    assert_eq!((row(1, 0, 1, &[0, 9]), row(1, 7, 1, &[0, 9])), ("1-byte zero kept".into(), String::new()));
    assert_eq!(
        (row(1, 9, 2, &[0, 9]), row(1, 8, 2, &[0, 9])),
        ("1-byte element kept that is as the fill".into(), String::new())
    );
    assert_eq!(row(3, 0x0403_0201, 1, &count_up(6)), "3-byte element kept that is as the fill");
    let two = Tensor { element_size: 2, ..plane(&[2]) };
    let at = |c: u32, source: u8| of(two, default(&two), [c, 0, 0, 0], count_up(source));
    assert_eq!(at(1, 4), "last at 0 of rank 1; 2-byte element at the end of the source");
    assert_eq!((at(1, 5), at(0, 4)), ("last at 0 of rank 1".into(), String::new()));
    let long = plane(&[7]);
    let cut = |offset: u32, step: u32, c: u32| {
        of(long, default(&long).with_offset(four(&[offset])).with_step(four(&[step])), [c, 0, 0, 0], count_up(8))
    };
    assert_eq!((cut(1, 1, 0), cut(0, 2, 1), cut(0, 2, 0)), ("cut before".into(), "thinned".into(), String::new()));
    // By (1,2,0) at (1,0,0) stands the source's (0,1,0); by (2,0,1), its inverse, it would be (0,0,1).
    let cube = plane(&[2, 2, 2]);
    let turned = |perm: [u8; 4]| of(cube, default(&cube).with_perm(perm), [1, 0, 0, 0], count_up(9));
    let by_source = "last at 0 of rank 3; another by source dimension, rank 3";
    assert_eq!(turned([1, 2, 0, 0]), format!("{by_source}; another by the inverse permutation, rank 3"));
    assert_eq!((turned([1, 0, 2, 0]), turned([0, 2, 1, 0])), (by_source.into(), "last at 0 of rank 3".into()));
}

#[test]
fn planes() {
    let with = |stride: i32, offset: u32, pre: u8, c: u32| {
        let tensor = Tensor { stride: four(&[stride]), ..plane(&[3]) };
        of(tensor, default(&tensor).with_offset(four(&[offset])).with_pre(four(&[pre])), [c, 0, 0, 0], count_up(4))
    };
    // Coordinate 1 of three is the middle one either way.
    assert_eq!(
        (with(-1, 0, 0, 0), with(1, 0, 0, 0), with(-1, 0, 0, 1)),
        ("counting down in rank 1".into(), String::new(), String::new())
    );
    assert_eq!(with(-1, 2, 0, 0), "cut before; counting down in rank 1; cut before, counting down");
    assert_eq!(with(-1, 0, 1, 0), "1-byte padding before, fill 0; padding, counting down");
    let row = plane(&[2]);
    let set = |offset: u32, stride: u32| {
        of(row, default(&row).with_dst_offset(four(&[offset])).with_dst_stride(four(&[stride])), [0; 4], count_up(3))
    };
    assert_eq!(
        (set(0, 1), set(1, 0), set(0, 2)),
        (String::new(), "destination offset".into(), "wider destination stride".into())
    );
    // 1 + (2 + 1) x 2^31 - 3 elements, and 1 + 65,536 x 2^31 - 65,536 of one byte, which is below 2^48.
    let both = "destination offset; wider destination stride; need of 2^32 and more";
    assert_eq!((set(2, i32::MAX as u32), set(65_535, i32::MAX as u32)), (both.into(), both.into()));
    let wide = Tensor { element_size: 4, ..row };
    let config = default(&wide).with_dst_offset(four(&[65_535])).with_dst_stride(four(&[i32::MAX as u32]));
    assert_eq!(of(wide, config, [0; 4], count_up(9)), format!("{both}; need of 2^48 and more"));
    let long = |source: usize| of(row, default(&row), [0; 4], vec![1; source]);
    assert_eq!((long(65_537), long(65_536)), ("source of more than 65536 bytes".into(), String::new()));
}
