//! Calls that move nothing: planes, helpers, ready-made configurations, settings.

use super::limits::{at_limit, extreme, vast};
use super::planes::{any_config, good, Drawn, Scale};
use super::spoil::{vary, Lent};
use super::values::{any_fill, any_rank, any_tensor, any_u32, any_u32s, any_u64, any_u8, any_u8s, around, WRONG_RANKS};
use super::work::Work;
use crate::helpers::SubConfig;
use crate::job::Part;
use crate::random::Random;
use crate::tensor::{source_of as source_of_tensor, Fault, Tensor, ELEMENT_SIZES, EXTENT_LIMIT};
use crate::wire::Rest;

/// A move at any scale, spoiled or not.
pub fn draw_numbers(random: &mut Random) -> Drawn {
    let mut drawn = match random.below(20) {
        0..=4 => return at_limit(random),
        5..=11 => good(random, Scale::Small),
        12 => extreme(random),
        13 => vast(random),
        _ => good(random, Scale::Wide),
    };
    vary(random, &mut drawn, Lent::NumbersOnly);
    drawn
}

fn draw_tensor(random: &mut Random) -> Tensor {
    match random.below(10) {
        0 => any_tensor(random),
        _ => draw_numbers(random).tensor,
    }
}

pub fn version(work: &mut Work) {
    work.call(0x00, &());
}

pub fn source_of(work: &mut Work) {
    let tensor = draw_tensor(&mut work.random);
    work.call(0x01, &tensor);
}

pub fn room(work: &mut Work) {
    let drawn = draw_numbers(&mut work.random);
    work.call(0x02, &(drawn.tensor, drawn.config));
}

pub fn judge(work: &mut Work) {
    let drawn = draw_numbers(&mut work.random);
    work.call(0x03, &(drawn.tensor, drawn.config, drawn.source, drawn.destination));
}

pub fn element_size(work: &mut Work) {
    let random = &mut work.random;
    let size = if random.chance(50) { random.pick(&ELEMENT_SIZES) } else { any_u8(random) };
    work.call(0x04, &size);
}

pub fn rank_is_bad(work: &mut Work) {
    let rank = any_u8(&mut work.random);
    work.call(0x07, &rank);
}

/// The records in which everything is 0.
pub fn zero(work: &mut Work) {
    let number = work.random.pick(&[0x08, 0x09]);
    work.call(number, &());
}

pub fn answer_refused(work: &mut Work) {
    let random = &mut work.random;
    let fault = Fault { status: random.between(0, 40) as u8, dimension: any_u8(random) };
    work.call(0x0a, &fault);
}

/// A record counted from each of its dimensions, from just behind them, and from farther off.
pub fn element_count(work: &mut Work) {
    let tensor = draw_counted(&mut work.random);
    for start in 0..=tensor.rank.min(4) {
        work.call(0x05, &(tensor, start as u32));
    }
    let random = &mut work.random;
    let rank = tensor.rank as u32;
    // A dimension again in 8 bits.
    let wraps = random.pick(&[256, 65_536, 1 << 31]) + random.below(rank as u64) as u32;
    let any = any_u32(random);
    let start = random.pick(&[rank + 1, wraps, wraps, u32::MAX, any]);
    work.call(0x05, &(tensor, start));
}

/// Shapes at their limits or between them, now and then a bad one, or a bad rank. Past the rank stands what 3 would
/// refuse.
fn draw_counted(random: &mut Random) -> Tensor {
    if random.chance(20) {
        return draw_tensor(random);
    }
    let rank = random.pick(&[1, 2, 3, 4, 4]);
    let past = random.pick(&[0, 65_536, u32::MAX]);
    let mut tensor = Tensor { rank, shape: [past; 4], ..any_tensor(random) };
    // Four shapes of 60,000 have a product above 2^63.
    let least = random.pick(&[1, 1, 60_000, EXTENT_LIMIT, EXTENT_LIMIT]);
    for d in 0..rank as usize {
        let any = random.between(least, EXTENT_LIMIT);
        tensor.shape[d] = random.pick(&[least, EXTENT_LIMIT, any]) as u32;
    }
    for _ in 0..random.pick(&[0, 0, 0, 0, 0, 1, 1, 2]) {
        tensor.shape[random.index(rank as usize)] = random.pick(&[0, 65_536]);
    }
    if random.chance(15) {
        tensor.rank = random.pick(&[0, 0, 5, 6, 255]);
    }
    tensor
}

/// "Four shapes of 65,535 multiply to 18,445,618,199,572,250,625", from each dimension on.
pub fn largest_count(work: &mut Work) {
    let tensor = Tensor { rank: 4, element_size: 1, shape: [EXTENT_LIMIT as u32; 4], stride: [0; 4] };
    for start in 0..4u32 {
        work.call(0x05, &(tensor, start));
    }
}

/// The calls of a sub-tensor: the numbers, and those over a source if it is short enough to be lent.
pub fn sub_tensor(work: &mut Work) {
    let random = &mut work.random;
    let tensor = draw_tensor(random);
    let config = draw_sub_config(random, &tensor);
    let source = if random.chance(5) { any_u64(random) } else { around(random, source_of_tensor(&tensor).span) };
    work.call(0x06, &(tensor, config, source));
    if source < 2_000 {
        let bytes = work.random.bytes(source as usize);
        for number in [0x24, 0x25] {
            work.call(number, &(tensor, config, Rest(bytes.clone())));
        }
    }
}

pub fn draw_sub_config(random: &mut Random, tensor: &Tensor) -> SubConfig {
    let mut config = SubConfig { offset: any_u32s(random), size: any_u32s(random), rank: 0 };
    let rank = tensor.rank.clamp(1, 4) as usize;
    for d in 0..rank {
        let shape = tensor.shape[d].max(1);
        config.offset[d] = if random.chance(50) { 0 } else { random.below(shape as u64) as u32 };
        let left = shape - config.offset[d];
        config.size[d] = match random.below(6) {
            0 => 1,
            1..=3 => left,
            _ => random.between(1, left as u64) as u32,
        };
    }
    let units = config.size[..rank].iter().filter(|&&size| size == 1).count();
    // Now and then no heed is paid to the unit dimensions (15).
    let lowest = if random.chance(40) { 1 } else { (rank - units).max(1) };
    config.rank = random.between(lowest as u64, rank as u64) as u32;
    for _ in 0..random.pick(&[0, 0, 0, 1, 2, 2]) {
        spoil_sub_config(random, tensor, &mut config);
    }
    config
}

fn spoil_sub_config(random: &mut Random, tensor: &Tensor, config: &mut SubConfig) {
    let d = random.index(tensor.rank.clamp(1, 4) as usize);
    let left = tensor.shape[d].saturating_sub(config.offset[d]);
    match random.below(13) {
        0 => config.offset[d] = tensor.shape[d],
        1 => config.offset[d] = any_u32(random),
        2 => config.size[d] = 0,
        3 => config.size[d] = left.saturating_add(1),
        4 => config.size[d] = any_u32(random),
        // size + offset is 0 in 32 bits
        5 => config.size[d] = 0u32.wrapping_sub(config.offset[d]),
        6..=8 => config.rank = random.pick(&[0, 0, tensor.rank as u32 + 1, 255, 256, 257, 258, u32::MAX]),
        _ => config.rank = 1,
    }
}

/// All ready-made configurations; the pads without a rank.
pub fn ready_made(work: &mut Work) {
    let random = &mut work.random;
    let rank = if random.chance(70) { any_rank(random) } else { random.pick(&WRONG_RANKS) };
    let (a, b, c) = (any_u32s(random), any_u32s(random), any_u32s(random));
    let bytes = any_u8s(random);
    let config = any_config(random);
    match random.below(8) {
        0 => work.call(0x10, &rank),
        1 => work.call(0x11, &(rank, a, b, c)),
        2 => work.call(0x12, &(rank, a, b)),
        3 => work.call(0x13, &(rank, a, b)),
        4 => work.call(0x14, &(rank, bytes)),
        5 => work.call(0x15, &(bytes, a)),
        6 => work.call(0x16, &(bytes, a)),
        _ => work.call(0x17, &(rank, config)),
    }
}

pub fn settings(work: &mut Work) {
    let random = &mut work.random;
    let config = any_config(random);
    let number = random.pick(&[0x0b, 0x0b, 0x18, 0x19, 0x1a, 0x1b, 0x1c, 0x1d, 0x1e, 0x1f]);
    let (entries, bytes, fill) = (any_u32s(random), any_u8s(random), any_fill(random));
    match number {
        0x0b => work.call(number, &(config, fill)),
        0x18..=0x1c => work.call(number, &(config, entries)),
        _ => work.call(number, &(config, bytes)),
    }
}

pub fn meets(work: &mut Work) {
    let random = &mut work.random;
    let a = Part { start: any_u64(random), length: any_u64(random) };
    let b = match random.below(4) {
        0 => Part { start: any_u64(random), length: any_u64(random) },
        _ => beside(random, &a),
    };
    // Now and then both end beyond 64 bits, or just not.
    let (a, b) = if random.chance(15) { (at_the_end(random), at_the_end(random)) } else { (a, b) };
    let (a, b) = if random.chance(50) { (a, b) } else { (b, a) };
    work.call(0x23, &(a, b));
}

fn at_the_end(random: &mut Random) -> Part {
    Part { start: u64::MAX - random.below(4), length: random.below(8) }
}

/// A part that meets another one, or touches it, or misses it by a byte.
pub fn beside(random: &mut Random, other: &Part) -> Part {
    let length = match random.below(4) {
        0 => other.length,
        1 => any_u64(random),
        _ => random.below(6),
    };
    Part { start: start_beside(random, other, length), length }
}

/// Where a part of that length has to start.
pub fn start_beside(random: &mut Random, other: &Part, length: u64) -> u64 {
    let end = other.start.saturating_add(other.length);
    let before = other.start.saturating_sub(length);
    random.pick(&[
        other.start,
        end.saturating_sub(1),
        before.saturating_add(1),
        end,
        end,
        before,
        before,
        end.saturating_add(1),
    ])
}
