//! Whole moves over lent bytes.

use super::limits::offset_at_bound;
use super::numbers::draw_sub_config;
use super::planes::{good, Drawn, Scale};
use super::spoil::{vary, Lent};
use super::work::{Work, MOVE};
use crate::helpers::{sub_part, sub_tensor};
use crate::moves::Config;
use crate::random::Random;
use crate::ready_made::{concatenate, copy};
use crate::tensor::Tensor;
use crate::wire::{Counted, Memory, Rest, MEMORY_LIMIT};

/// A source of at most this many bytes is lent, so that the line is not too long.
const SOURCE_LIMIT: u64 = 65_600;

pub fn move_plane(work: &mut Work) {
    let mut drawn = good(&mut work.random, Scale::Small);
    vary(&mut work.random, &mut drawn, Lent::Bytes);
    move_drawn(work, &drawn);
}

pub fn large(work: &mut Work) {
    let mut drawn = good(&mut work.random, Scale::Large);
    drawn.source += work.random.below(3);
    drawn.destination = (drawn.destination + work.random.below(100)).min(MEMORY_LIMIT as u64);
    move_drawn(work, &drawn);
}

pub fn move_drawn(work: &mut Work, drawn: &Drawn) {
    let source = work.random.bytes(drawn.source.min(SOURCE_LIMIT) as usize);
    let destination = work.random.bytes(drawn.destination.min(MEMORY_LIMIT as u64) as usize);
    work.by_both(MOVE, &(drawn.tensor, drawn.config, Counted(source), Memory(destination)));
}

/// "size 65,280 with pre 255 is accepted, 65,281 gives 10", in any of the dimensions and with any step.
pub fn at_extent_limit(work: &mut Work) {
    let drawn = draw_at_extent_limit(work);
    move_drawn(work, &drawn);
}

/// Gives 10.
pub fn above_extent_limit(work: &mut Work) {
    let drawn = draw_above_extent_limit(work);
    move_drawn(work, &drawn);
}

pub fn draw_at_extent_limit(work: &mut Work) -> Drawn {
    let more = work.random.pick(&[0, 0, 1]);
    draw_extent(&mut work.random, more)
}

pub fn draw_above_extent_limit(work: &mut Work) -> Drawn {
    draw_extent(&mut work.random, 1)
}

/// An extent at the limit, or so many elements above it.
fn draw_extent(random: &mut Random, more: u32) -> Drawn {
    let rank = random.between(1, 3) as u8;
    let d = random.index(rank as usize);
    let mut tensor = Tensor { rank, element_size: 1, ..Tensor::default() };
    tensor.shape[..rank as usize].fill(1);
    let (pre, post) = random.pick(&[(255, 0), (0, 255), (255, 255), (100, 100), (1, 1)]);
    let count = 65_535 - pre as u32 - post as u32;
    let size = count + more;
    tensor.shape[d] = size + random.below(2) as u32;
    let mut config = Config { size: [0; 4], ..copy(rank).config };
    config.size[d] = size;
    config.pre[d] = pre;
    config.post[d] = post;
    if random.chance(50) {
        config.perm[..rank as usize].reverse();
    }
    let mut drawn = Drawn::of(tensor, config);
    drawn.source = tensor.shape[d] as u64;
    drawn.destination = random.pick(&[65_534, 65_535, 65_535, 65_536, 65_536, 100]);
    drawn
}

/// A small plane with an offset at a bound, judged or moved.
pub fn at_offset_bound(work: &mut Work) {
    let drawn = offset_at_bound(&mut work.random);
    if work.random.chance(50) {
        work.call(0x03, &(drawn.tensor, drawn.config, drawn.source, drawn.destination));
    } else {
        // Lines stay short: a move that needs more gives 13; `largest_offset` draws two with all the room they need.
        move_drawn(work, &Drawn { destination: drawn.destination.min(2_000), ..drawn });
    }
}

/// The largest offset of one byte: in the first dimension, and in the second in a row that it fills.
pub fn largest_offset(work: &mut Work) {
    for (rank, stride, offset) in [(1, [0; 4], [65_535, 0, 0, 0]), (2, [65_536, 1, 0, 0], [0, 65_535, 0, 0])] {
        let tensor = Tensor { rank, element_size: 1, shape: [1; 4], stride: [0; 4] };
        let config = concatenate(rank, offset, stride).config;
        move_drawn(work, &Drawn::of(tensor, config));
    }
}

/// "A move reads a sub-tensor from a part that starts inside the plane."
pub fn move_sub_tensor(work: &mut Work) {
    let random = &mut work.random;
    let plane = good(random, Scale::Small);
    let config = draw_sub_config(random, &plane.tensor);
    let source = random.bytes(plane.source as usize);
    work.call(0x25, &(plane.tensor, config, Rest(source.clone())));
    work.call(0x24, &(plane.tensor, config, Rest(source.clone())));
    let sub = sub_tensor(&plane.tensor, &config, plane.source);
    if sub.status != 0 {
        return;
    }
    let part = sub_part(&plane.tensor, &config, &source);
    let mut drawn = Drawn::of(sub.tensor, copy(sub.tensor.rank).config);
    if work.random.chance(50) {
        drawn.config.perm[..sub.tensor.rank as usize].reverse();
    }
    let destination = work.random.bytes(drawn.destination as usize);
    work.by_both(MOVE, &(drawn.tensor, drawn.config, Counted(part.to_vec()), Memory(destination)));
}
