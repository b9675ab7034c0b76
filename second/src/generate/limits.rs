//! Moves in which a number stands just at its limit or beside it, and moves with the largest numbers there are.

use super::offsets::{put_offset, Bound};
use super::planes::Drawn;
use super::spoil::{spoil, Lent};
use super::values::{around, either_way};
use crate::cases::offsets::without_offsets;
use crate::moves::room;
use crate::random::Random;
use crate::ready_made::copy;
use crate::tensor::{source_of, Tensor, ELEMENT_SIZES, EXTENT_LIMIT, LIMIT};

/// The limit, one less, or one more.
fn beside(random: &mut Random, limit: u64) -> u64 {
    (limit + random.below(3)).saturating_sub(1)
}

/// More than any move needs.
const ENOUGH: u64 = 1 << 56;

/// A plain copy of a small plane, turned or not.
fn small_copy(random: &mut Random, rank: usize) -> Drawn {
    let mut tensor = Tensor { rank: rank as u8, element_size: random.pick(&ELEMENT_SIZES), ..Tensor::default() };
    for d in 0..rank {
        tensor.shape[d] = random.between(1, 3) as u32;
    }
    let mut drawn = Drawn { tensor, config: copy(rank as u8).config, source: ENOUGH, destination: ENOUGH };
    if random.chance(50) {
        drawn.config.perm[..rank].reverse();
    }
    drawn
}

/// A plain copy of a small plane, but for one number.
pub fn at_limit(random: &mut Random) -> Drawn {
    let rank = random.between(1, 4) as usize;
    let mut drawn = small_copy(random, rank);
    let d = random.index(rank);
    match random.below(4) {
        0 => source_at_limit(random, &mut drawn, d),
        1 => cut_at_limit(random, &mut drawn, d),
        2 => destination_at_limit(random, &mut drawn, d),
        _ => {
            // Lengths at their limits.
            let room = room(&drawn.tensor, &drawn.config);
            drawn.source = beside(random, room.span);
            drawn.destination = beside(random, room.answer.need);
        }
    }
    drawn
}

fn source_at_limit(random: &mut Random, drawn: &mut Drawn, d: usize) {
    let inner_product = source_of(&drawn.tensor).stride[d] as u64;
    let tensor = &mut drawn.tensor;
    match random.below(4) {
        0 => tensor.shape[d] = beside(random, EXTENT_LIMIT) as u32,
        1 => tensor.shape[d] = beside(random, 1) as u32,
        _ => {
            let limit = random.pick(&[LIMIT, inner_product]);
            let size = beside(random, limit);
            tensor.stride[d] = either_way(random, size);
        }
    }
}

fn cut_at_limit(random: &mut Random, drawn: &mut Drawn, d: usize) {
    let shape = drawn.tensor.shape[d] as u64;
    let config = &mut drawn.config;
    match random.below(7) {
        0 => config.offset[d] = beside(random, shape) as u32,
        1 => {
            config.offset[d] = random.below(shape) as u32;
            config.size[d] = beside(random, shape - config.offset[d] as u64) as u32;
        }
        2 => config.step[d] = beside(random, EXTENT_LIMIT) as u32,
        3 => config.step[d] = beside(random, 1) as u32,
        _ => {
            config.pre[d] = random.pick(&[0, 1, 255]);
            config.post[d] = random.pick(&[0, 1, 255]);
            let padding = config.pre[d] as u64 + config.post[d] as u64;
            drawn.tensor.shape[d] = beside(random, EXTENT_LIMIT - padding).min(EXTENT_LIMIT) as u32;
        }
    }
}

fn destination_at_limit(random: &mut Random, drawn: &mut Drawn, i: usize) {
    let answer = room(&drawn.tensor, &drawn.config).answer;
    let inner_product = answer.stride[i] as u64;
    let config = &mut drawn.config;
    match random.below(6) {
        0 => config.dst_stride[i] = beside(random, LIMIT) as u32,
        1 => config.dst_stride[i] = beside(random, inner_product) as u32,
        // The first dimension's own stride is no bound of its offset.
        2 => config.dst_offset[0] = beside(random, answer.stride[0] as u64) as u32,
        3 => {
            config.dst_stride[i] = random.pick(&[65_535, 65_536, 65_537, 1 << 20, LIMIT as u32]);
            config.dst_offset[i] = beside(random, EXTENT_LIMIT) as u32;
        }
        _ => {
            let bound = random.pick(&[Bound::Limit, Bound::TooLarge, Bound::Full, Bound::Full, Bound::Short]);
            put_offset(random, drawn, i, bound);
        }
    }
}

/// A small plane with an offset at a bound, or with two.
pub fn offset_at_bound(random: &mut Random) -> Drawn {
    let two = random.chance(30);
    let i = if two { 2 + random.index(2) } else { random.pick(&[0, 1, 2, 3, 3]) };
    let rank = random.between(i as u64 + 1, 4) as usize;
    let mut drawn = small_copy(random, rank);
    // A row can end between two elements where the stride is more than 1.
    drawn.config.dst_stride[rank - 1] = random.pick(&[0, 1, 2, 3]);
    if two {
        let (inner, outer) = random.pick(&[(Bound::Short, Bound::TooLarge), (Bound::TooLarge, Bound::Short)]);
        put_offset(random, &mut drawn, i, inner);
        let farther_out = 1 + random.index(i - 1);
        put_offset(random, &mut drawn, farther_out, outer);
    } else {
        let bounds =
            [Bound::Limit, Bound::TooLarge, Bound::TooLarge, Bound::Full, Bound::Full, Bound::Short, Bound::Wraps];
        let bound = random.pick(&bounds);
        put_offset(random, &mut drawn, i, bound);
    }
    lend_around_need(random, &mut drawn);
    if random.chance(15) {
        let d = random.index(rank);
        spoil(random, &mut drawn, 11, d, Lent::NumbersOnly);
    }
    drawn
}

/// A source that is long enough, and a destination around the need; where the move is refused, around the need without
/// offsets.
fn lend_around_need(random: &mut Random, drawn: &mut Drawn) {
    let answer = room(&drawn.tensor, &drawn.config).answer;
    let plain = without_offsets(&drawn.tensor, &drawn.config);
    drawn.source = source_of(&drawn.tensor).span;
    drawn.destination = around(random, if answer.status == 0 { answer.need } else { plain.need });
}

/// The largest span and need there are, or nearly: every stride at its limit, which only unit dimensions without
/// offsets allow; or a row that is nearly as long as the limit.
pub fn extreme(random: &mut Random) -> Drawn {
    if random.chance(30) {
        return extreme_row(random);
    }
    let rank = random.between(1, 4) as usize;
    let mut tensor = Tensor { rank: rank as u8, element_size: random.pick(&ELEMENT_SIZES), ..Tensor::default() };
    let mut config = copy(rank as u8).config;
    for d in 0..rank {
        tensor.shape[d] = if d == 0 { random.pick(&[65_280, 65_534, 65_535]) } else { 1 };
        tensor.stride[d] = either_way(random, LIMIT);
        config.dst_stride[d] = LIMIT as u32;
        if d == 0 || random.chance(15) {
            config.dst_offset[d] = random.pick(&[0, 1, EXTENT_LIMIT, EXTENT_LIMIT, EXTENT_LIMIT - 1]) as u32;
        }
    }
    with_lengths(random, tensor, config)
}

/// The largest offset and extent in a row: (65,535 + 65,535) x 16,384 is just within the limit of strides.
fn extreme_row(random: &mut Random) -> Drawn {
    let tensor = Tensor { rank: 2, element_size: random.pick(&ELEMENT_SIZES), shape: [65_535; 4], stride: [0; 4] };
    let mut config = copy(2).config;
    let offset = random.pick(&[EXTENT_LIMIT, EXTENT_LIMIT, EXTENT_LIMIT - 1, EXTENT_LIMIT + 1]);
    let stride = random.pick(&[16_384, 16_384, 16_385]);
    let row = (offset + EXTENT_LIMIT) * stride;
    let outer = random.pick(&[row, row - 1, LIMIT]).min(LIMIT);
    config.dst_offset = [EXTENT_LIMIT as u32, offset as u32, 0, 0];
    config.dst_stride = [outer as u32, stride as u32, 0, 0];
    with_lengths(random, tensor, config)
}

/// Many elements: as many as the limit of strides allows in the inner dimensions, or just too many.
pub fn vast(random: &mut Random) -> Drawn {
    let shape = random.pick(&[
        [65_535, 65_535, 2, 0],
        [65_535, 32_768, 65_535, 0],
        [65_535, 32_769, 65_535, 0],
        [65_535, 32_767, 65_535, 1],
        [2, 65_535, 32_767, 65_535],
        [65_535, 3, 10_922, 65_535],
        [65_535, 65_535, 1, 32_768],
    ]);
    let rank = if shape[3] == 0 { 3 } else { 4 };
    let tensor = Tensor { rank, element_size: random.pick(&ELEMENT_SIZES), shape, ..Tensor::default() };
    let config = copy(rank).config;
    with_lengths(random, tensor, config)
}

fn with_lengths(random: &mut Random, tensor: Tensor, config: crate::moves::Config) -> Drawn {
    let mut drawn = Drawn::of(tensor, config);
    if random.chance(50) {
        drawn.source = beside(random, drawn.source);
        drawn.destination = beside(random, drawn.destination);
    }
    drawn
}
