//! Single numbers: the values at which a mistake is likely, and any others.

use crate::random::Random;
use crate::tensor::{Tensor, ELEMENT_SIZES};

const EDGES: [u64; 22] = [
    0,
    1,
    2,
    3,
    4,
    5,
    254,
    255,
    256,
    257,
    65_534,
    65_535,
    65_536,
    65_537,
    2_147_483_646,
    2_147_483_647,
    2_147_483_648,
    2_147_483_649,
    4_294_967_294,
    4_294_967_295,
    32_767,
    32_768,
];

const WIDE_EDGES: [u64; 8] =
    [1 << 32, (1 << 32) + 1, (1 << 63) - 1, 1 << 63, (1 << 63) + 1, u64::MAX - 1, u64::MAX, 1 << 52];

pub fn any_u32(random: &mut Random) -> u32 {
    match random.below(10) {
        0..=3 => random.below(8) as u32,
        4..=7 => random.pick(&EDGES) as u32,
        _ => (random.any() >> random.between(32, 63)) as u32,
    }
}

pub fn any_u64(random: &mut Random) -> u64 {
    match random.below(10) {
        0..=5 => any_u32(random) as u64,
        6..=8 => random.pick(&WIDE_EDGES),
        _ => random.any() >> random.below(64),
    }
}

pub fn any_u8(random: &mut Random) -> u8 {
    match random.below(10) {
        0..=5 => random.below(6) as u8,
        6..=7 => random.pick(&[7, 8, 127, 128, 254, 255]),
        _ => random.any() as u8,
    }
}

/// Ranks that are refused.
pub const WRONG_RANKS: [u8; 7] = [0, 5, 6, 7, 8, 9, 255];

/// Mostly a rank, else any byte.
pub fn any_rank(random: &mut Random) -> u8 {
    match random.below(10) {
        0..=7 => random.between(1, 4) as u8,
        8 => random.pick(&WRONG_RANKS),
        _ => any_u8(random),
    }
}

/// Element sizes that are refused, most often those just beside the ones that are not.
pub const WRONG_SIZES: [u8; 10] = [0, 0, 5, 5, 6, 7, 8, 16, 128, 255];

/// Mostly an element size, else one that is refused.
fn any_element_size(random: &mut Random) -> u8 {
    if random.chance(60) {
        random.pick(&ELEMENT_SIZES)
    } else {
        random.pick(&WRONG_SIZES)
    }
}

pub fn any_u32s(random: &mut Random) -> [u32; 4] {
    [0; 4].map(|_| any_u32(random))
}

pub fn any_u8s(random: &mut Random) -> [u8; 4] {
    [0; 4].map(|_| any_u8(random))
}

/// A source stride: near 0 on either side, at an end of the range, or any word.
pub fn any_stride(random: &mut Random) -> i32 {
    match random.below(10) {
        0..=3 => random.between(0, 12) as i32 - 6,
        4..=5 => random.pick(&[i32::MAX, -i32::MAX, i32::MIN, i32::MIN + 2]),
        _ => any_u32(random) as i32,
    }
}

pub fn any_strides(random: &mut Random) -> [i32; 4] {
    [0; 4].map(|_| any_stride(random))
}

/// The stride of this size that counts up. The least number is the only one whose size is above the limit.
pub fn upward(size: u64) -> i32 {
    i32::try_from(size).unwrap_or(i32::MIN)
}

/// A stride of this size that counts up or down.
pub fn either_way(random: &mut Random, size: u64) -> i32 {
    let up = upward(size);
    random.pick(&[up, up.wrapping_neg()])
}

/// A fill: none, one byte of it, the low ones, or four that differ.
pub fn any_fill(random: &mut Random) -> u32 {
    match random.below(10) {
        0..=2 => 0,
        3 => (random.between(1, 255) << (8 * random.below(4))) as u32,
        4 => random.between(1, 255) as u32,
        5 => random.between(256, 65_535) as u32,
        6 => any_u32(random),
        _ => telling_fill(random),
    }
}

/// Four bytes that differ, rising or falling.
pub fn telling_fill(random: &mut Random) -> u32 {
    let lowest = random.any() as u8;
    let mut bytes = [0, 1, 2, 3].map(|place: u8| lowest.wrapping_add(37 * place));
    if random.chance(50) {
        bytes.reverse();
    }
    u32::from_le_bytes(bytes)
}

pub fn any_tensor(random: &mut Random) -> Tensor {
    Tensor {
        rank: any_rank(random),
        element_size: any_element_size(random),
        shape: any_u32s(random),
        stride: any_strides(random),
    }
}

/// A length around the one that is just enough.
pub fn around(random: &mut Random, enough: u64) -> u64 {
    match random.below(20) {
        0..=11 => enough,
        12..=14 => enough.saturating_add(random.between(1, 4)),
        15..=17 => enough.saturating_sub(1),
        18 => random.below(enough.max(1)),
        _ => 0,
    }
}
