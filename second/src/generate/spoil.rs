//! Puts faults into a move that would be accepted: every number of refusal, alone and in pairs, at any dimension.

use super::offsets::{put_offset, Bound};
use super::planes::Drawn;
use super::values::{any_stride, any_u32, any_u64, any_u8, around, either_way, WRONG_RANKS, WRONG_SIZES};
use crate::cases::offsets::without_offsets;
use crate::random::Random;
use crate::tensor::{check_tensor, inner_product, wide, EXTENT_LIMIT, LIMIT};

/// Whether the lent bytes are drawn too, so that lengths have to stay small.
#[derive(Clone, Copy, PartialEq)]
pub enum Lent {
    Bytes,
    NumbersOnly,
}

/// Leaves a third of the moves as they are, and spoils the others once or twice.
pub fn vary(random: &mut Random, drawn: &mut Drawn, lent: Lent) {
    match random.below(22) {
        0..=7 => {}
        8 => {
            drawn.source = around(random, drawn.source);
            drawn.destination = around(random, drawn.destination);
        }
        9..=11 => {
            let number = any_number(random);
            let d = random.index(drawn.dimensions());
            spoil(random, drawn, number, d, lent);
        }
        12..=16 => spoil_twice(random, drawn, lent),
        17..=18 => set_any_field(random, drawn, lent),
        19..=20 => spoil_crosswise(random, drawn, lent),
        _ => {
            set_any_field(random, drawn, lent);
            set_any_field(random, drawn, lent);
        }
    }
}

/// 10 is drawn more often, since it is hidden by 4 where the strides do not fit the larger shape.
fn any_number(random: &mut Random) -> u64 {
    random.pick(&[1, 2, 3, 4, 5, 6, 7, 8, 9, 10, 10, 10, 11, 12, 13])
}

/// Two faults, for the order of the numbers and of the dimensions: any two, the same twice, or neighbours.
fn spoil_twice(random: &mut Random, drawn: &mut Drawn, lent: Lent) {
    let one = any_number(random);
    let other = match random.below(8) {
        0..=2 => any_number(random),
        3 => one,
        _ => one % 13 + 1,
    };
    // The number that comes first mostly stands at the dimension that comes last, where it could be overlooked.
    let (a, b) = (random.index(drawn.dimensions()), random.index(drawn.dimensions()));
    let (first, last) = if random.chance(70) { (a.max(b), a.min(b)) } else { (a, b) };
    // A fault of the record may hide how the rest is to be spoiled, so it is put in second.
    spoil(random, drawn, one.max(other), last, lent);
    spoil(random, drawn, one.min(other), first, lent);
}

/// A number at one dimension and the next number at a lower one, for "each number over all dimensions before the next".
fn spoil_crosswise(random: &mut Random, drawn: &mut Drawn, lent: Lent) {
    let number = random.pick(&[6, 7, 8, 9, 11]);
    let rank = drawn.dimensions();
    let high = rank - 1 - random.index(rank.max(2) - 1);
    let low = random.index(high.max(1));
    spoil(random, drawn, number + 1, low, lent);
    spoil(random, drawn, number, high, lent);
}

/// Puts in the fault that this number is given for, at this dimension, as far as this move can have it.
pub fn spoil(random: &mut Random, drawn: &mut Drawn, number: u64, d: usize, lent: Lent) {
    let shape = drawn.tensor.shape[d];
    let config = &mut drawn.config;
    match number {
        1 => drawn.tensor.rank = random.pick(&WRONG_RANKS),
        2 => drawn.tensor.element_size = random.pick(&WRONG_SIZES),
        3 => drawn.tensor.shape[d] = random.pick(&[0, 65_536, 65_537, 1 << 31, u32::MAX]),
        4 => spoil_source_stride(random, drawn, d),
        5 => drawn.source = shorter(random, drawn.source),
        6 => spoil_permutation(random, drawn, d),
        7 => config.offset[d] = random.pick(&[shape, shape.saturating_add(1), any_above(shape), u32::MAX]),
        8 => {
            let left = shape.saturating_sub(config.offset[d]);
            let wrapping = 0u32.wrapping_sub(config.offset[d]).max(left);
            config.size[d] = random.pick(&[left.saturating_add(1), left.saturating_add(2), u32::MAX, wrapping]);
        }
        9 => config.step[d] = random.pick(&[0, 0, 65_536, 65_537, u32::MAX]),
        10 => spoil_extent(random, drawn, d, lent),
        11 => spoil_destination_stride(random, drawn, d),
        12 => spoil_destination_offset(random, drawn, d),
        _ => drawn.destination = shorter(random, drawn.destination),
    }
}

fn any_above(value: u32) -> u32 {
    value.saturating_mul(2)
}

fn shorter(random: &mut Random, enough: u64) -> u64 {
    let one_less = enough.saturating_sub(1);
    random.pick(&[one_less, one_less, one_less, 0, enough / 2])
}

fn spoil_source_stride(random: &mut Random, drawn: &mut Drawn, d: usize) {
    let Ok(resolved) = check_tensor(&drawn.tensor) else {
        return;
    };
    let tensor = &mut drawn.tensor;
    let inner_product = inner_product(tensor.rank as usize, d, &resolved, &wide(&tensor.shape));
    if random.chance(30) {
        tensor.shape[d] = tensor.shape[d].max(2);
    }
    let mut size = tensor.stride.map(i32::unsigned_abs);
    spoil_stride(random, inner_product, d, &mut size);
    for changed in 0..=d {
        tensor.stride[changed] = either_way(random, size[changed] as u64);
    }
}

/// One less than the inner product, or above the limit, or so wide that a zero stride farther out comes out above it.
fn spoil_stride(random: &mut Random, inner_product: u64, d: usize, stride: &mut [u32; 4]) {
    stride[d] = bad_stride(random, inner_product);
    if random.chance(30) {
        stride[d] = random.pick(&[LIMIT, LIMIT - 1, LIMIT / 2 + 1, LIMIT / 2]) as u32;
        stride[..d].fill(0);
    }
}

fn bad_stride(random: &mut Random, inner_product: u64) -> u32 {
    let above = random.pick(&[LIMIT + 1, LIMIT + 2, u32::MAX as u64]);
    if inner_product > 1 && random.chance(60) {
        (inner_product - 1).min(u32::MAX as u64) as u32
    } else {
        above as u32
    }
}

fn spoil_permutation(random: &mut Random, drawn: &mut Drawn, i: usize) {
    let rank = drawn.dimensions();
    // Another dimension, if there is one.
    let other = (i + random.between(1, rank.max(2) as u64 - 1) as usize) % rank;
    drawn.config.perm[i] = match random.below(6) {
        0 => rank as u8,
        1 => any_u8(random),
        _ => drawn.config.perm[other],
    };
}

/// A dimension just above the limit of extents, or just at it. Only for a source that can be lent.
fn spoil_extent(random: &mut Random, drawn: &mut Drawn, d: usize, lent: Lent) {
    if lent == Lent::Bytes {
        return;
    }
    let pre = random.pick(&[0, 1, 128, 255]);
    let post = random.pick(&[0, 1, 127, 255]);
    let at_limit = EXTENT_LIMIT - pre - post;
    let size = random.pick(&[at_limit, at_limit + 1, EXTENT_LIMIT]).min(EXTENT_LIMIT);
    drawn.config.pre[d] = pre as u8;
    drawn.config.post[d] = post as u8;
    drawn.config.step[d] = 1;
    drawn.config.offset[d] = 0;
    drawn.config.size[d] = random.pick(&[0, size]) as u32;
    drawn.tensor.shape[d] = size as u32;
    // Mostly turned, so that the source and the destination dimension differ.
    let rank = drawn.dimensions();
    if random.chance(70) {
        drawn.config.perm = [0, 1, 2, 3];
        drawn.config.perm[..rank].reverse();
    }
    let strides_fit = random.chance(70);
    if strides_fit {
        drawn.tensor.stride = [0; 4];
        drawn.config.dst_stride = [0; 4];
        drawn.config.dst_offset = [0; 4];
    }
    drawn.source = 1 << 60;
    drawn.destination = 1 << 60;
}

fn spoil_destination_stride(random: &mut Random, drawn: &mut Drawn, i: usize) {
    let answer = without_offsets(&drawn.tensor, &drawn.config);
    if answer.status != 0 {
        drawn.config.dst_stride[i] = any_u32(random);
        return;
    }
    let inner_product = inner_product(answer.rank as usize, i, &wide(&answer.stride), &wide(&answer.extent));
    spoil_stride(random, inner_product, i, &mut drawn.config.dst_stride);
}

/// Past the row, or above 65,535, in a row with room or without; the first dimension has no row around it.
fn spoil_destination_offset(random: &mut Random, drawn: &mut Drawn, i: usize) {
    match random.below(8) {
        0 => drawn.config.dst_offset[i] = random.pick(&[65_536, 65_537, 1 << 31, u32::MAX]),
        1..=4 if i > 0 => put_offset(random, drawn, i, Bound::Short),
        5 if i > 0 => put_offset(random, drawn, i, Bound::Wraps),
        _ => put_offset(random, drawn, i, Bound::TooLarge),
    }
}

/// A value that is a limit of something, in any one field.
fn set_any_field(random: &mut Random, drawn: &mut Drawn, lent: Lent) {
    let d = random.index(4);
    let value = any_u32(random);
    let byte = any_u8(random);
    let config = &mut drawn.config;
    match random.below(15) {
        0 => drawn.tensor.rank = byte,
        1 => drawn.tensor.element_size = byte,
        2 => drawn.tensor.shape[d] = value,
        3 => drawn.tensor.stride[d] = any_stride(random),
        4 => config.offset[d] = value,
        5 => config.size[d] = value,
        6 => config.step[d] = value,
        7 => config.dst_offset[d] = value,
        8 => config.dst_stride[d] = value,
        9 => config.perm[d] = byte,
        10 => config.pre[d] = byte,
        11 => config.post[d] = byte,
        12 => config.fill = value,
        _ if lent == Lent::Bytes => drawn.source = drawn.source.saturating_add(byte as u64),
        13 => drawn.source = any_u64(random),
        _ => drawn.destination = any_u64(random),
    }
}
