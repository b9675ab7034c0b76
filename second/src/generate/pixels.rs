//! One element of a move that is not made: at coordinates inside, kept and padded, and outside; some at any time, and
//! once a run each case.

use super::planes::{good, mirror, Drawn, Scale};
use super::spoil::{spoil, vary, Lent};
use super::values::{any_u32s, telling_fill};
use super::work::Work;
use crate::cases::input::LEAST;
use crate::lines::DIGITS_LIMIT;
use crate::moves::{plan, Config, Plan};
use crate::random::Random;
use crate::ready_made::copy;
use crate::tensor::{source_of, Tensor, ELEMENT_SIZES, LIMIT};
use crate::wire::Rest;

const PIXEL: u8 = 0x28;

/// A source of at most this many bytes is lent, so that the line is not too long.
const SOURCE_LIMIT: u64 = 65_600;

/// Some elements of one move, which is then mostly spoiled for the last of them.
pub fn pixels(work: &mut Work) {
    let scale = work.random.pick(&[Scale::Small, Scale::Rows]);
    let mut drawn = good(&mut work.random, scale);
    for _ in 0..work.random.between(1, 3) {
        let coordinate = draw_coordinate(&mut work.random, &drawn.tensor, &drawn.config);
        ask(work, &drawn, coordinate);
    }
    let coordinate = draw_coordinate(&mut work.random, &drawn.tensor, &drawn.config);
    vary(&mut work.random, &mut drawn, Lent::Bytes);
    ask(work, &drawn, coordinate);
}

/// A move that is refused, with 5, with 12 and with any other number, and a coordinate above every extent.
pub fn refused_and_outside(work: &mut Work) {
    let random = &mut work.random;
    let good = good(random, Scale::Small);
    let mut coordinate = draw_coordinate(random, &good.tensor, &good.config);
    coordinate[random.index(good.dimensions())] = random.pick(&[65_536, u32::MAX]);
    let other = random.pick(&[1, 2, 3, 4, 6, 7, 8, 9, 11]);
    for number in [5, 12, other] {
        let mut drawn = good.clone();
        let d = work.random.index(drawn.dimensions());
        spoil(&mut work.random, &mut drawn, number, d, Lent::Bytes);
        ask(work, &drawn, coordinate);
    }
}

fn ask(work: &mut Work, drawn: &Drawn, coordinate: [u32; 4]) {
    let source = draw_source(&mut work.random, drawn);
    ask_of(work, drawn, coordinate, source);
}

fn ask_of(work: &mut Work, drawn: &Drawn, coordinate: [u32; 4], source: Vec<u8>) {
    work.call(PIXEL, &(drawn.tensor, drawn.config, coordinate, Rest(source)));
}

/// Any bytes; in every second source some elements are 0, and some are as padding is.
pub fn draw_source(random: &mut Random, drawn: &Drawn) -> Vec<u8> {
    let mut source = random.bytes(drawn.source.min(SOURCE_LIMIT) as usize);
    if random.chance(50) {
        return source;
    }
    let fill = drawn.config.fill.to_le_bytes();
    for element in source.chunks_mut(drawn.tensor.element_size.clamp(1, 4) as usize) {
        match random.below(3) {
            0 => element.fill(0),
            1 => element.copy_from_slice(&fill[..element.len()]),
            _ => {}
        }
    }
    source
}

/// A destination coordinate that there is, or one that is outside in one dimension or in several. Entries past the rank
/// are 0 or anything, and so are all of a move that is refused.
pub fn draw_coordinate(random: &mut Random, tensor: &Tensor, config: &Config) -> [u32; 4] {
    let mut coordinate = if random.chance(50) { [0; 4] } else { any_u32s(random) };
    let Ok(plan) = plan(tensor, config, None) else {
        return coordinate;
    };
    for i in 0..plan.rank {
        coordinate[i] = draw_inside(random, &plan, config, i);
    }
    if random.chance(20) {
        for _ in 0..random.pick(&[1, 1, 2, 3]) {
            let i = random.index(plan.rank);
            coordinate[i] = draw_outside(random, plan.extent[i]);
        }
    }
    coordinate
}

/// At either end, kept, or anywhere.
fn draw_inside(random: &mut Random, plan: &Plan, config: &Config, i: usize) -> u32 {
    let s = config.perm[i] as usize;
    let inside = match random.below(10) {
        0 => 0,
        1 => plan.extent[i] - 1,
        2..=6 => config.pre[s] as u64 + random.below(plan.count[s]),
        _ => random.below(plan.extent[i]),
    };
    inside as u32
}

/// At the extent, just above it, or far above; also such that a part of its bits would be inside.
fn draw_outside(random: &mut Random, extent: u64) -> u32 {
    let inside = random.below(extent);
    let far = random.pick(&[256 + inside, 65_536 + inside, 1 << 31, u32::MAX as u64]);
    random.pick(&[extent, extent, extent + 1, far, far]).max(extent) as u32
}

/// A plane of several elements in each dimension, compact, with elements of any size.
fn compact(random: &mut Random, rank: usize) -> Tensor {
    let mut tensor = Tensor { rank: rank as u8, element_size: random.pick(&ELEMENT_SIZES), ..Tensor::default() };
    tensor.shape[..rank].copy_from_slice(&[2, 3, 2, 4][..rank]);
    tensor
}

/// A copy of such a plane with its dimensions in the opposite order, for which just enough is lent.
fn reversed(random: &mut Random, rank: usize) -> Drawn {
    let tensor = compact(random, rank);
    let mut config = copy(rank as u8).config.with_fill(telling_fill(random));
    config.perm[..rank].reverse();
    Drawn::of(tensor, config)
}

/// The extents of an accepted move.
fn extents(drawn: &Drawn) -> [u32; 4] {
    plan(&drawn.tensor, &drawn.config, None).map_or([1; 4], |plan| plan.extent.map(|extent| extent as u32))
}

/// In each dimension of each rank the last coordinate, and those outside: there alone, and with another farther in.
/// Past the rank stands the largest number.
pub fn every_coordinate(work: &mut Work) {
    for rank in 1..=4 {
        for i in 0..rank {
            let drawn = reversed(&mut work.random, rank);
            let extent = extents(&drawn);
            let mut inside = [u32::MAX; 4];
            for j in 0..rank {
                inside[j] = work.random.below(extent[j] as u64) as u32;
            }
            let mut at = |entry: u32| {
                let mut coordinate = inside;
                coordinate[i] = entry;
                ask(work, &drawn, coordinate);
                if i + 1 < rank {
                    coordinate[i + 1] = extent[i + 1];
                    ask(work, &drawn, coordinate);
                }
            };
            for entry in [extent[i] - 1, extent[i], extent[i] + 1, 256 + inside[i], 65_536 + inside[i], u32::MAX] {
                at(entry);
            }
        }
    }
}

/// Puts in what this number is given for at this dimension.
fn put(drawn: &mut Drawn, number: u8, d: usize) {
    let (tensor, config) = (&mut drawn.tensor, &mut drawn.config);
    match number {
        1 => tensor.rank = 5,
        2 => tensor.element_size = 5,
        3 => tensor.shape[d] = 0,
        4 => tensor.stride[d] = LEAST,
        5 => drawn.source = drawn.source.saturating_sub(1),
        6 => config.perm[d] = 4,
        7 => config.offset[d] = tensor.shape[d],
        8 => config.size[d] = tensor.shape[d] + 1,
        9 => config.step[d] = 0,
        11 => config.dst_stride[d] = LIMIT as u32 + 1,
        _ => config.dst_offset[d] = 65_536,
    }
}

/// A plane with an extent that is one above the limit in this dimension; its line is a long one.
fn too_large(d: usize) -> Drawn {
    let mut tensor = Tensor { rank: 4, element_size: 1, shape: [1; 4], stride: [0; 4] };
    tensor.shape[d] = 65_026;
    let mut config = copy(4).config.with_perm([3, 2, 1, 0]);
    (config.pre[d], config.post[d]) = (255, 255);
    Drawn { source: source_of(&tensor).span, ..Drawn::of(tensor, config) }
}

/// A move that gives this number at this dimension.
fn refused(random: &mut Random, number: u8, d: usize) -> Drawn {
    if number == 10 {
        return too_large(d);
    }
    let mut drawn = reversed(random, 4);
    put(&mut drawn, number, d);
    drawn
}

/// Each number that names a dimension, at each.
pub fn every_number(work: &mut Work) {
    for number in [3, 4, 6, 7, 8, 9, 10, 11, 12] {
        for d in 0..4 {
            let drawn = refused(&mut work.random, number, d);
            ask(work, &drawn, [0; 4]);
        }
    }
}

/// Each number with the next in the order, which stands at a lower dimension, and with a coordinate outside.
pub fn every_pair(work: &mut Work) {
    for number in 1..=12 {
        let (high, low) = (3, work.random.index(3));
        let outside = work.random.pick(&[[65_536; 4], [u32::MAX; 4]]);
        let drawn = refused(&mut work.random, number, high);
        ask(work, &drawn, outside);
        if number < 12 {
            let mut both = refused(&mut work.random, if number == 9 { 10 } else { number }, high);
            put(&mut both, if number == 9 { 9 } else { number + 1 }, low);
            ask(work, &both, [0; 4]);
        }
    }
}

/// Padding by front and behind, of each element size, with a fill and without one; and in one dimension of four, and in
/// all. The last source of each size has nothing but what padding holds.
pub fn every_padding(work: &mut Work) {
    for element_size in ELEMENT_SIZES {
        let tensor = Tensor { rank: 2, element_size, shape: [2, 3, 0, 0], stride: [0; 4] };
        let padded = copy(2).config.with_perm([1, 0, 0, 0]).with_pre([1, 0, 0, 0]).with_post([0, 2, 0, 0]);
        for fill in [0, telling_fill(&mut work.random)] {
            let drawn = Drawn::of(tensor, padded.with_fill(fill));
            let elements = fill.to_le_bytes()[..element_size as usize].repeat(6);
            // Extents are 3 + 2 and 1 + 2.
            for coordinate in [[0, 0], [4, 1], [4, 0], [2, 2]] {
                let coordinate = [coordinate[0], coordinate[1], 9, 9];
                ask(work, &drawn, coordinate);
                ask_of(work, &drawn, coordinate, elements.clone());
            }
        }
    }
    let mut drawn = reversed(&mut work.random, 4);
    (drawn.config.pre, drawn.config.post) = ([1; 4], [1; 4]);
    for i in 0..4 {
        let mut coordinate = [1; 4];
        coordinate[i] = 0;
        ask(work, &drawn, coordinate);
        coordinate[i] = extents(&drawn)[i] - 1;
        ask(work, &drawn, coordinate);
    }
    ask(work, &drawn, [0; 4]);
}

/// Elements that are kept, of each size: zeros, such as the fill is, and the one at the end of the source; and elements
/// of a plane that is thinned and cut.
pub fn every_kept(work: &mut Work) {
    for element_size in ELEMENT_SIZES {
        let tensor = Tensor { rank: 2, element_size, shape: [2, 3, 0, 0], stride: [0; 4] };
        for fill in [0, telling_fill(&mut work.random)] {
            let padded = copy(2).config.with_pre([0, 1, 0, 0]).with_fill(fill);
            let elements = fill.to_le_bytes()[..element_size as usize].repeat(6);
            ask_of(work, &Drawn::of(tensor, padded), [1, 3, 0, 0], elements);
            ask(work, &Drawn::of(tensor, padded), [1, 3, 0, 0]);
        }
        let row = Tensor { rank: 1, shape: [9, 0, 0, 0], ..tensor };
        let thinned = copy(1).config.with_offset([1, 0, 0, 0]).with_step([3, 0, 0, 0]).with_pre([2, 0, 0, 0]);
        ask(work, &Drawn::of(row, thinned), [3, 0, 0, 0]);
    }
}

/// Bytes that all differ, so that another element is another answer; only for few elements.
fn counted(drawn: &Drawn) -> Vec<u8> {
    (0..drawn.source as u8).collect()
}

/// Planes of each rank from 2 on whose dimensions go round by one, in either direction, at the end of each dimension.
pub fn every_turn(work: &mut Work) {
    for rank in 2..=4 {
        for places in [1, rank - 1] {
            let mut drawn = reversed(&mut work.random, rank);
            drawn.config.perm = [0, 1, 2, 3];
            drawn.config.perm[..rank].rotate_left(places);
            for i in 0..rank {
                let mut coordinate = [0; 4];
                coordinate[i] = extents(&drawn)[i] - 1;
                ask_of(work, &drawn, coordinate, counted(&drawn));
            }
        }
    }
}

/// Planes of each rank that count down in one dimension and in all, as they are, cut and padded.
pub fn every_mirror(work: &mut Work) {
    for rank in 1..=4 {
        let plain = reversed(&mut work.random, rank);
        for choice in [1 << (rank - 1), (1 << rank) - 1] {
            let counts_down = [0, 1, 2, 3].map(|d| choice >> d & 1 == 1);
            let mut drawn = Drawn { tensor: mirror(&plain.tensor, &counts_down), ..plain.clone() };
            ask_of(work, &drawn, [0; 4], counted(&drawn));
            drawn.config.offset[rank - 1] = 1;
            ask_of(work, &drawn, [0; 4], counted(&drawn));
            drawn.config.pre[rank - 1] = 1;
            ask_of(work, &drawn, [0; 4], counted(&drawn));
        }
    }
}

/// Offsets and strides of the destination, which do not bear on an element's bytes, up to a need that no destination
/// has.
pub fn every_destination(work: &mut Work) {
    for (offset, stride) in [(0, 5), (1, 0), (3, LIMIT), (65_535, LIMIT)] {
        let tensor = Tensor { rank: 2, element_size: 4, shape: [2, 2, 0, 0], stride: [0; 4] };
        let config = copy(2).config.with_dst_offset([offset, 0, 0, 0]).with_dst_stride([stride as u32, 0, 0, 0]);
        let drawn = Drawn::of(tensor, config);
        ask(work, &drawn, [1, 0, 0, 0]);
        ask(work, &drawn, [1, 1, 0, 0]);
    }
}

/// The longest source that a line has room for, at its last element.
pub fn longest(work: &mut Work) {
    // 147 bytes of a line are the number and the other arguments.
    let length = DIGITS_LIMIT / 2 - 147;
    let tensor = Tensor { rank: 2, element_size: 1, shape: [3, length as u32 / 3, 0, 0], stride: [0; 4] };
    let drawn = Drawn::of(tensor, copy(2).config);
    let source = work.random.bytes(length);
    ask_of(work, &drawn, [2, tensor.shape[1] - 1, 0, 0], source);
}
