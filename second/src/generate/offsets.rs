//! Puts a destination offset at a bound into a move, with the row around it.

use super::planes::Drawn;
use crate::cases::offsets::without_offsets;
use crate::moves::Config;
use crate::random::Random;
use crate::tensor::{wide, EXTENT_LIMIT};

/// What a destination offset is, and how long the row around it.
#[derive(Clone, Copy)]
pub enum Bound {
    /// Just at the limit of offsets, in a row that has room for it.
    Limit,
    /// Above the limit, in a row that has room for it.
    TooLarge,
    /// A small one, in a row that is full or a little longer.
    Full,
    /// A small one, in a row that is too short by a place or more, but long enough for the extents.
    Short,
    /// One with a product of 2^32, which is 0 in 32 bits, in a row that is too short.
    Wraps,
}

/// Puts an offset into a dimension, as far as this move can have it. The strides before it are made just long enough
/// for what lies in them, but for the row around the offset itself, so an inner dimension goes before an outer one.
pub fn put_offset(random: &mut Random, drawn: &mut Drawn, i: usize, bound: Bound) {
    match bound {
        Bound::Limit => place(random, drawn, i, EXTENT_LIMIT as u32, bound),
        Bound::TooLarge => {
            let offset = random.pick(&[65_536, 65_536, 65_537, 70_000]);
            place(random, drawn, i, offset, bound);
        }
        Bound::Full | Bound::Short => {
            let offset = random.pick(&[1, 1, 2, 3]);
            place(random, drawn, i, offset, bound);
        }
        Bound::Wraps => wrap(random, drawn, i),
    }
}

fn place(random: &mut Random, drawn: &mut Drawn, i: usize, offset: u32, bound: Bound) {
    drawn.config.dst_offset[i] = offset;
    let plain = without_offsets(&drawn.tensor, &drawn.config);
    // The first dimension has no row around it, and refused strides can't be lengthened.
    if i == 0 || plain.status != 0 {
        return;
    }
    let (extent, stride) = (wide(&plain.extent), plain.stride[i] as u64);
    let inner_product = extent[i] * stride;
    let reach = inner_product + offset as u64 * stride;
    let row = match bound {
        Bound::Short => random.pick(&[reach - 1, reach - 1, reach - stride, inner_product]),
        _ => reach + random.pick(&[0, 0, 0, 1, stride]),
    };
    write_rows(&mut drawn.config, &extent, i, row);
    // A stride of 0 stands for the inner product.
    if row == inner_product && random.chance(70) {
        drawn.config.dst_stride[i - 1] = 0;
    }
}

fn wrap(random: &mut Random, drawn: &mut Drawn, i: usize) {
    let plain = without_offsets(&drawn.tensor, &drawn.config);
    let extent = wide(&plain.extent);
    let stride = random.pick(&[1 << 16, 1 << 20, 1 << 24]);
    let sum = (1 << 32) / stride;
    if i == 0 || plain.status != 0 || plain.stride[i] as u64 > stride || extent[i] >= sum {
        return;
    }
    drawn.config.dst_stride[i] = stride as u32;
    drawn.config.dst_offset[i] = (sum - extent[i]) as u32;
    write_rows(&mut drawn.config, &extent, i, extent[i] * stride);
}

/// Writes the stride before a dimension, and those farther out just long enough for what lies in them.
fn write_rows(config: &mut Config, extent: &[u64; 4], i: usize, row: u64) {
    let mut row = row;
    for j in (0..i).rev() {
        config.dst_stride[j] = row.min(u32::MAX as u64) as u32;
        let offset = config.dst_offset[j].min(EXTENT_LIMIT as u32) as u64;
        row = row.saturating_mul(offset + extent[j]);
    }
}
