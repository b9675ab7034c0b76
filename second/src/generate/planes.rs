//! Draws records and configurations that a move accepts, at four scales.

use super::values::{any_fill, any_strides, any_u32s, any_u8s, upward};
use crate::moves::{extents, kept_counts, room, Config};
use crate::random::Random;
use crate::ready_made::copy;
use crate::tensor::{source_of, wide, Tensor, ELEMENT_SIZES, EXTENT_LIMIT, LIMIT};

#[derive(Clone, Copy, PartialEq)]
pub enum Scale {
    /// A few elements.
    Small,
    /// Several elements to a row, and more padding.
    Rows,
    /// Some thousand elements, in a destination of at most 65,536 bytes.
    Large,
    /// Numbers up to every limit, too large to be moved.
    Wide,
}

/// A move as it is drawn: record, configuration, and the lengths of what is lent.
#[derive(Clone)]
pub struct Drawn {
    pub tensor: Tensor,
    pub config: Config,
    pub source: u64,
    pub destination: u64,
}

impl Drawn {
    /// With lengths that are just enough.
    pub fn of(tensor: Tensor, config: Config) -> Drawn {
        let room = room(&tensor, &config);
        Drawn { tensor, config, source: room.span, destination: room.answer.need }
    }

    /// The rank, held within 1 to 4, so that a dimension can be drawn whatever the rank is.
    pub fn dimensions(&self) -> usize {
        self.tensor.rank.clamp(1, 4) as usize
    }
}

/// A move that is accepted at the scales that are moved, and mostly accepted at the wide one.
pub fn good(random: &mut Random, scale: Scale) -> Drawn {
    for _ in 0..40 {
        let drawn = draw(random, scale);
        let (source, destination) = match scale {
            Scale::Small => (300, 600),
            Scale::Rows => (800, 1_600),
            Scale::Large => (60_000, 65_536),
            Scale::Wide => (u64::MAX, u64::MAX),
        };
        if drawn.source <= source && drawn.destination <= destination && drawn.destination > 0 {
            return drawn;
        }
    }
    tiny(random)
}

/// A copy of at most three bytes.
pub fn tiny(random: &mut Random) -> Drawn {
    let shape = random.between(1, 3) as u32;
    let tensor = Tensor { rank: 1, element_size: 1, shape: [shape, 0, 0, 0], stride: [0; 4] };
    Drawn::of(tensor, copy(1).config)
}

/// A copy of at most three elements of any size.
pub fn few(random: &mut Random) -> Drawn {
    let drawn = tiny(random);
    let element_size = random.pick(&ELEMENT_SIZES);
    Drawn::of(Tensor { element_size, ..drawn.tensor }, drawn.config)
}

fn draw(random: &mut Random, scale: Scale) -> Drawn {
    let tensor = draw_tensor(random, scale);
    let config = draw_config(random, &tensor, scale);
    Drawn::of(tensor, config)
}

fn draw_tensor(random: &mut Random, scale: Scale) -> Tensor {
    let rank = random.between(1, 4) as usize;
    let mut tensor = Tensor { rank: rank as u8, element_size: random.pick(&ELEMENT_SIZES), ..Tensor::default() };
    // Entries at or past the rank: 0 or anything.
    if random.chance(25) {
        tensor.shape = any_u32s(random);
        tensor.stride = any_strides(random);
    }
    for d in 0..rank {
        tensor.shape[d] = draw_shape(random, rank, scale);
    }
    let mut written = [0; 4];
    let meant = draw_strides(random, rank, &wide(&tensor.shape), scale, &mut written);
    let counts_down = draw_mirrored(random, rank);
    for d in 0..rank {
        // A stride that counts down has to be written.
        let size = if counts_down[d] { meant[d] } else { written[d] };
        let stride = upward(size as u64);
        tensor.stride[d] = if counts_down[d] { stride.wrapping_neg() } else { stride };
    }
    tensor
}

/// The dimensions that count down: none, one, all, or some.
pub fn draw_mirrored(random: &mut Random, rank: usize) -> [bool; 4] {
    let mut counts_down = [false; 4];
    match random.below(10) {
        0..=4 => {}
        5..=6 => counts_down[random.index(rank)] = true,
        7 => counts_down[..rank].fill(true),
        _ => counts_down[..rank].iter_mut().for_each(|down| *down = random.chance(50)),
    }
    counts_down
}

/// The same plane with its rows, columns or layers in the opposite order in the dimensions that are to count down.
pub fn mirror(tensor: &Tensor, counts_down: &[bool; 4]) -> Tensor {
    let resolved = source_of(tensor).stride;
    let mut mirrored = *tensor;
    for d in (0..tensor.rank as usize).filter(|&d| counts_down[d]) {
        mirrored.stride[d] = upward(resolved[d] as u64).wrapping_neg();
    }
    mirrored
}

fn draw_shape(random: &mut Random, rank: usize, scale: Scale) -> u32 {
    let shape = match (scale, rank) {
        (Scale::Small, 1) => random.between(1, 20),
        (Scale::Small, _) => random.pick(&[1, 1, 2, 2, 3, 4, 5]),
        (Scale::Rows, 1) => random.between(6, 40),
        (Scale::Rows, _) => random.pick(&[2, 2, 3, 3, 4, 5, 7]),
        (Scale::Large, 1) => random.between(2_000, 40_000),
        (Scale::Large, 2) => random.between(20, 180),
        (Scale::Large, 3) => random.between(6, 30),
        (Scale::Large, _) => random.between(3, 12),
        (Scale::Wide, _) => match random.below(3) {
            0 => random.between(1, 4),
            1 => random.pick(&[1, 2, 255, 256, 32_768, 65_280, 65_534, 65_535]),
            _ => random.between(1, EXTENT_LIMIT) >> random.below(16),
        },
    };
    shape.max(1) as u32
}

/// Strides below the rank: 0, the inner product, or more. Hands back what each stands for.
pub fn draw_strides(random: &mut Random, rank: usize, shape: &[u64; 4], scale: Scale, into: &mut [u32; 4]) -> [u32; 4] {
    let mut meant = [0; 4];
    let mut inner_product: u64 = 1;
    for d in (0..rank).rev() {
        let widest = match scale {
            Scale::Small | Scale::Rows => 3,
            Scale::Large => 8,
            Scale::Wide => random.pick(&[1, 255, 65_536, LIMIT.saturating_sub(inner_product)]),
        };
        let gap = if random.chance(20) { random.between(1, widest) } else { 0 };
        let stride = (inner_product + gap).min(u32::MAX as u64);
        meant[d] = stride as u32;
        into[d] = if gap == 0 && random.chance(50) { 0 } else { meant[d] };
        inner_product = stride * shape[d];
    }
    meant
}

fn draw_config(random: &mut Random, tensor: &Tensor, scale: Scale) -> Config {
    let mut config = Config::default();
    if random.chance(25) {
        config = any_config(random);
    }
    config.fill = any_fill(random);
    let rank = tensor.rank as usize;
    for d in 0..rank {
        draw_cut(random, tensor.shape[d], d, &mut config);
        draw_padding(random, scale, d, &mut config);
        config.perm[d] = d as u8;
    }
    if random.chance(50) {
        shuffle(random, &mut config.perm[..rank]);
    }
    draw_destination(random, tensor, scale, &mut config);
    config
}

/// A configuration of any numbers.
pub fn any_config(random: &mut Random) -> Config {
    Config {
        offset: any_u32s(random),
        size: any_u32s(random),
        step: any_u32s(random),
        dst_offset: any_u32s(random),
        dst_stride: any_u32s(random),
        perm: any_u8s(random),
        pre: any_u8s(random),
        post: any_u8s(random),
        fill: any_fill(random),
    }
}

/// Offset, size and step of a dimension of that shape.
fn draw_cut(random: &mut Random, shape: u32, d: usize, config: &mut Config) {
    let shape = shape as u64;
    let offset = match random.below(10) {
        0..=2 => random.below(shape),
        3 => shape - 1,
        _ => 0,
    };
    let size = match random.below(10) {
        0..=4 => 0,
        5..=8 => random.between(1, shape - offset),
        _ => shape - offset,
    };
    let step = match random.below(10) {
        0..=5 => 1,
        6..=8 => random.between(2, 4),
        _ => random.pick(&[shape, shape + 1, shape.saturating_sub(1), EXTENT_LIMIT]).clamp(1, EXTENT_LIMIT),
    };
    config.offset[d] = offset as u32;
    config.size[d] = size as u32;
    config.step[d] = step as u32;
}

fn draw_padding(random: &mut Random, scale: Scale, d: usize, config: &mut Config) {
    let widest = match scale {
        Scale::Small | Scale::Rows => 2,
        Scale::Large => random.pick(&[2, 20]),
        Scale::Wide => 255,
    };
    let often = if scale == Scale::Rows { 60 } else { 25 };
    let mut padding = || if random.chance(often) { random.between(0, widest) as u8 } else { 0 };
    config.pre[d] = padding();
    config.post[d] = padding();
}

fn shuffle(random: &mut Random, entries: &mut [u8]) {
    for last in (1..entries.len()).rev() {
        entries.swap(last, random.index(last + 1));
    }
}

/// Destination offsets, and strides that leave room for them: mostly just enough.
fn draw_destination(random: &mut Random, tensor: &Tensor, scale: Scale, config: &mut Config) {
    let rank = tensor.rank as usize;
    let Ok(extent) = extents(rank, config, &kept_counts(rank, tensor, config)) else {
        return;
    };
    for i in 0..rank {
        config.dst_offset[i] = draw_destination_offset(random, scale);
    }
    draw_destination_strides(random, rank, &extent, scale, config);
}

fn draw_destination_offset(random: &mut Random, scale: Scale) -> u32 {
    if random.chance(75) {
        return 0;
    }
    let most = match scale {
        Scale::Small | Scale::Rows => 3,
        Scale::Large => random.pick(&[3, 40]),
        Scale::Wide => random.pick(&[3, 300, EXTENT_LIMIT]),
    };
    let some = random.between(1, most);
    random.pick(&[1, most, some, some]) as u32
}

/// Destination strides for these extents and the offsets that are there.
pub fn draw_destination_strides(
    random: &mut Random,
    rank: usize,
    extent: &[u64; 4],
    scale: Scale,
    config: &mut Config,
) {
    let mut reach = *extent;
    for i in 0..rank {
        reach[i] += config.dst_offset[i] as u64;
    }
    let meant = draw_strides(random, rank, &reach, scale, &mut config.dst_stride);
    // "an inner offset needs a written stride"
    for i in 1..rank {
        if config.dst_offset[i] > 0 {
            config.dst_stride[i - 1] = meant[i - 1];
        }
    }
}
