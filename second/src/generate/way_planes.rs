//! Draws a move of each way, over a plane that is large enough for it and not much larger.

use super::planes::{draw_mirrored, mirror, Drawn};
use super::values::telling_fill;
use crate::cases::way::Way;
use crate::moves::{room, Config, Room};
use crate::random::Random;
use crate::ready_made::copy;
use crate::tensor::{source_of, Tensor, ELEMENT_SIZES};

/// A plane with a source of at most so many bytes may become a layer among others.
const LAYER_LIMIT: u64 = 1_600;
/// Neither source nor destination becomes longer by one thing more.
const LENGTH_LIMIT: u64 = 8_000;

#[derive(Clone, Copy)]
struct Plane {
    tensor: Tensor,
    config: Config,
}

pub fn draw_way(random: &mut Random, way: Way) -> Drawn {
    // Pixels mostly have channels of a byte, and every second element mostly is one.
    let sizes: &[u8] = match way {
        Way::PutTogether | Way::TakenApart | Way::EverySecond => &[1, 1, 1, 2, 3, 4],
        _ => &ELEMENT_SIZES,
    };
    let element_size = random.pick(sizes);
    let mut plane = draw_plane(random, way, element_size);
    plane.config.fill = telling_fill(random);
    if plane.tensor.rank < 4 && source_of(&plane.tensor).span <= LAYER_LIMIT && random.chance(35) {
        plane = in_layers(random, plane);
    }
    if random.chance(20) {
        plane = with_one_thing_more(random, plane);
    }
    if random.chance(60) {
        let counts_down = draw_mirrored(random, plane.tensor.rank as usize);
        plane.tensor = mirror(&plane.tensor, &counts_down);
    }
    plane.config.dst_offset[0] = random.pick(&[0, 0, 0, 1]);
    let mut drawn = Drawn::of(plane.tensor, plane.config);
    // Half of the parts are just long enough.
    drawn.source += random.pick(&[0, 0, 1, 3]);
    drawn.destination += random.pick(&[0, 0, 1, 20]);
    drawn
}

fn draw_plane(random: &mut Random, way: Way, element_size: u8) -> Plane {
    let draw = match way {
        Way::Joined => joined,
        Way::Lines => lines,
        Way::ShortRows => short_rows,
        Way::PutTogether => put_together,
        Way::TakenApart => taken_apart,
        Way::Turned => turned,
        Way::EverySecond => every_second,
        Way::PaddedRows => padded_rows,
    };
    draw(random, element_size)
}

/// A number from first to last, often a power of two or one beside it.
fn draw_count(random: &mut Random, first: u64, last: u64) -> u64 {
    let beside = random.pick(&[16, 32, 64, 128]) + random.below(3) - 1;
    if random.chance(30) && (first..=last).contains(&beside) {
        return beside;
    }
    random.between(first, last)
}

/// A copy of a plane of this shape.
fn of_shape(element_size: u8, shape: &[u64]) -> Plane {
    let mut tensor = Tensor { rank: shape.len() as u8, element_size, ..Tensor::default() };
    for (d, &shape) in shape.iter().enumerate() {
        tensor.shape[d] = shape as u32;
    }
    Plane { tensor, config: copy(tensor.rank).config }
}

impl Plane {
    /// The same elements, cut from a dimension that is wider.
    fn crop(mut self, random: &mut Random, d: usize) -> Plane {
        let more = random.between(1, 9);
        self.config.offset[d] = random.between(0, more) as u32;
        self.config.size[d] = self.tensor.shape[d];
        self.tensor.shape[d] += more as u32;
        self
    }

    /// The same elements, each row of which is set into a wider one of the destination. Rows are not permuted.
    fn set(mut self, random: &mut Random) -> Plane {
        let last = self.tensor.rank as usize - 1;
        let more = random.between(1, 9);
        let row = if self.config.size[last] > 0 { self.config.size[last] } else { self.tensor.shape[last] };
        self.config.dst_stride[last - 1] = row + more as u32;
        self.config.dst_offset[last] = random.between(0, more) as u32;
        self
    }

    fn permute(mut self, perm: &[u8]) -> Plane {
        self.config.perm[..perm.len()].copy_from_slice(perm);
        self
    }
}

/// A plane as each layer of one that has a dimension more. Some layers are thinned, some have one of padding before them.
fn in_layers(random: &mut Random, Plane { tensor, config }: Plane) -> Plane {
    fn behind<T: Copy>(first: T, entries: [T; 4]) -> [T; 4] {
        [first, entries[0], entries[1], entries[2]]
    }
    let layers = random.between(2, 3) as u32;
    let step = random.pick(&[1, 1, 1, 2]);
    let padding = random.pick(&[0, 0, 0, 1]);
    let tensor = Tensor {
        rank: tensor.rank + 1,
        shape: behind(layers * step, tensor.shape),
        stride: behind(0, tensor.stride),
        ..tensor
    };
    let config = Config {
        offset: behind(0, config.offset),
        size: behind(0, config.size),
        step: behind(step, config.step),
        dst_offset: behind(0, config.dst_offset),
        dst_stride: behind(0, config.dst_stride),
        perm: behind(0, config.perm.map(|entry| entry + 1)),
        pre: behind(padding, config.pre),
        post: behind(0, config.post),
        ..config
    };
    Plane { tensor, config }
}

/// The same plane with padding, a crop, or gaps in source or destination in some dimension, if it can have that.
fn with_one_thing_more(random: &mut Random, plane: Plane) -> Plane {
    let mut more = plane;
    let d = random.index(plane.tensor.rank as usize);
    let some = random.between(1, 20) as u8;
    let gap = random.between(1, 3) as u32;
    match random.below(5) {
        0 => more.config.pre[d] = some,
        1 => more.config.post[d] = some,
        2 => more = plane.crop(random, d),
        3 => more.tensor.stride[d] = (source_of(&plane.tensor).stride[d] + gap) as i32,
        _ => more.config.dst_stride[d] = room(&plane.tensor, &plane.config).answer.stride[d] + gap,
    }
    let Room { answer, span } = room(&more.tensor, &more.config);
    if answer.status == 0 && answer.need.max(span) <= LENGTH_LIMIT {
        more
    } else {
        plane
    }
}

fn joined(random: &mut Random, element_size: u8) -> Plane {
    let rank = random.between(2, 4);
    let widest = [40, 9, 4][rank as usize - 2];
    let inner: Vec<u64> = (1..rank).map(|_| random.between(2, widest)).collect();
    let bytes = inner.iter().product::<u64>() * element_size as u64;
    let first = random.between(210, 500).div_ceil(bytes).max(2);
    let plane = of_shape(element_size, &[vec![first], inner].concat());
    if random.chance(50) {
        plane.crop(random, 0)
    } else {
        plane
    }
}

fn lines(random: &mut Random, element_size: u8) -> Plane {
    let (rows, bytes) = match random.below(9) {
        0 => (draw_count(random, 63, 140), random.between(16, 36)),
        1..=4 => (random.between(2, 7), draw_count(random, 127, 260)),
        _ => (random.between(2, 9), draw_count(random, 15, 127)),
    };
    let row = bytes.div_ceil(element_size as u64);
    let plane = of_shape(element_size, &[rows, row]);
    match random.below(4) {
        0 => plane.crop(random, 1),
        1 => plane.set(random),
        2 => plane.crop(random, 1).set(random),
        _ => {
            let wider = (row + random.between(1, 9)) as i32;
            Plane { tensor: Tensor { stride: [wider, 0, 0, 0], ..plane.tensor }, ..plane }
        }
    }
}

fn short_rows(random: &mut Random, element_size: u8) -> Plane {
    let rows = match random.below(10) {
        0..=2 => random.between(2, 15),
        3 => draw_count(random, 63, 140),
        _ => draw_count(random, 16, 50),
    };
    let row = if random.chance(15) { 1 } else { random.between(1, 15) };
    let some = random.between(2, 3);
    let mut plane = of_shape(element_size, &[rows, row]);
    match random.below(6) {
        0 => return of_shape(element_size, &[row, rows]).permute(&[1, 0]),
        1 => {
            plane.tensor.shape[1] = (row * some - random.below(some)) as u32;
            plane.config.step[1] = some as u32;
        }
        2 => plane.tensor.stride[1] = some as i32,
        3 => plane.config.dst_stride[1] = some as u32,
        4 => return plane.set(random),
        _ => return plane.crop(random, 1),
    }
    plane
}

/// (3,n) or (3,h,w) with the channel last, some of them with a fourth channel of padding.
fn put_together(random: &mut Random, element_size: u8) -> Plane {
    let mut plane = match random.below(7) {
        0 => {
            let (height, width) = (random.between(6, 12), random.between(3, 15));
            of_shape(element_size, &[3, height, width]).permute(&[1, 2, 0])
        }
        1 => of_shape(element_size, &[3, draw_count(random, 63, 140)]).permute(&[1, 0]),
        2..=3 => of_shape(element_size, &[3, draw_count(random, 15, 60)]).permute(&[1, 0]),
        _ => {
            let (height, width) = (random.between(2, 3), draw_count(random, 15, 50));
            let plane = of_shape(element_size, &[3, height, width]).permute(&[1, 2, 0]);
            if random.chance(30) {
                plane.crop(random, 2)
            } else {
                plane
            }
        }
    };
    match random.below(4) {
        0 => plane.config.pre[0] = 1,
        1 => plane.config.post[0] = 1,
        _ => {}
    }
    plane
}

/// (n,3) or (h,w,3) with the channel first.
fn taken_apart(random: &mut Random, element_size: u8) -> Plane {
    match random.below(7) {
        0 => {
            let (height, width) = (random.between(5, 9), random.between(8, 31));
            of_shape(element_size, &[height, width, 3]).permute(&[2, 0, 1])
        }
        1 => of_shape(element_size, &[draw_count(random, 63, 140), 3]).permute(&[1, 0]),
        2..=3 => of_shape(element_size, &[draw_count(random, 31, 90), 3]).permute(&[1, 0]),
        _ => {
            let (height, width) = (random.between(2, 4), draw_count(random, 31, 70));
            of_shape(element_size, &[height, width, 3]).permute(&[2, 0, 1])
        }
    }
}

/// A side of 16 or more, a multiple of 16, of 8 or of 4, or any, and some of 15.
fn draw_side(random: &mut Random) -> u64 {
    match random.below(4) {
        0 => random.pick(&[16, 32]),
        1 => random.pick(&[24, 24, 40]),
        2 => random.pick(&[20, 28]),
        _ => draw_count(random, 15, 35),
    }
}

fn turned(random: &mut Random, element_size: u8) -> Plane {
    let (rows, columns) = match random.below(12) {
        0 => (draw_count(random, 63, 80), random.between(16, 24)),
        1 => (random.between(16, 24), draw_count(random, 63, 80)),
        _ => (draw_side(random), draw_side(random)),
    };
    match random.below(8) {
        // The layers lie within the columns.
        0 => of_shape(element_size, &[columns, 2, rows]).permute(&[1, 2, 0]),
        1..=3 => of_shape(element_size, &[columns, rows]).permute(&[1, 0]).crop(random, 0).crop(random, 1),
        _ => of_shape(element_size, &[columns, rows]).permute(&[1, 0]),
    }
}

/// The last element of a row is read, or one is behind it.
fn every_second(random: &mut Random, element_size: u8) -> Plane {
    let (offset, behind) = (random.pick(&[0, 0, 1]), random.below(2));
    let row = offset + 2 * draw_count(random, 15, 66) - 1 + behind;
    let mut plane = match random.below(6) {
        0 => of_shape(element_size, &[row]),
        5 => of_shape(element_size, &[random.between(16, 20), row]),
        rows => of_shape(element_size, &[rows, row]),
    };
    let last = plane.tensor.rank as usize - 1;
    (plane.config.offset[last], plane.config.step[last]) = (offset as u32, 2);
    plane
}

fn padded_rows(random: &mut Random, element_size: u8) -> Plane {
    let mut plane = of_shape(element_size, &[random.between(3, 7), draw_count(random, 1, 34)]);
    let padding =
        |random: &mut Random| if random.chance(50) { random.between(1, 15) } else { draw_count(random, 16, 40) };
    (plane.config.pre[1], plane.config.post[1]) = (padding(random) as u8, padding(random) as u8);
    if random.chance(50) {
        (plane.config.pre[0], plane.config.post[0]) = (random.between(1, 2) as u8, random.between(1, 2) as u8);
    }
    plane
}
