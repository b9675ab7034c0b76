//! Planes joined along a dimension.

use super::planes::{draw_destination_strides, good, Scale};
use super::work::{Work, MOVE};
use crate::cases::offsets::without_offsets;
use crate::moves::{move_plane, room};
use crate::tensor::wide;
use crate::wire::{Counted, Memory};

/// Two planes joined along any dimension: each is moved to its place in one larger plane, the second over what the
/// first left.
pub fn join(work: &mut Work) {
    let random = &mut work.random;
    let mut first = good(random, Scale::Small);
    (first.config.dst_offset, first.config.dst_stride) = ([0; 4], [0; 4]);
    let rank = first.dimensions();
    let i = random.index(rank);
    let mut second = first.clone();
    second.config.post[first.config.perm[i] as usize] = random.below(3) as u8;
    second.config.dst_offset[i] = without_offsets(&first.tensor, &first.config).extent[i];
    let extent = wide(&without_offsets(&second.tensor, &second.config).extent);
    draw_destination_strides(random, rank, &extent, Scale::Small, &mut second.config);
    first.config.dst_stride = second.config.dst_stride;
    let need = room(&second.tensor, &second.config).answer.need;
    let mut memory = random.bytes(need as usize);
    for half in [first, second] {
        let source = work.random.bytes(half.source as usize);
        work.by_both(MOVE, &(half.tensor, half.config, Counted(source.clone()), Memory(memory.clone())));
        move_plane(&half.tensor, &half.config, &source, &mut memory);
    }
}
