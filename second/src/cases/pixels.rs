//! The cases of one pixel, which its number alone does not tell apart: the dimensions that numbers name, coordinates
//! just inside and outside, two numbers for one call, and where an element comes from beside what it holds. A long
//! comparison has to meet each.

use super::case::{case, holding, named, Case};
use super::input::{all_differ, counts_down, is_mirrored, rank_of};
use super::number::PIXEL;
use crate::moves::{plan, source_place, Config, Plan};
use crate::pixel::{pixel, Pixel};
use crate::record::has_unused_byte;
use crate::tensor::{inner_product, source_of, wide, Tensor, ELEMENT_SIZES, EXTENT_LIMIT};
use crate::wire::{begin, Rest, MEMORY_LIMIT};

/// All cases of the call of this number.
pub fn cases(number: u8) -> Vec<String> {
    named(&all(number, &[], &[]))
}

/// The cases that a call with these bytes is, by what it has to be answered.
pub fn met(bytes: &[u8], expected: &[u8]) -> Vec<String> {
    match (bytes, expected) {
        ([number, arguments @ ..], [_, answer @ ..]) => holding(&all(*number, arguments, answer)),
        _ => Vec::new(),
    }
}

/// A pixel that was asked for.
#[derive(Clone, Default)]
struct Asked {
    tensor: Tensor,
    config: Config,
    coordinate: [u32; 4],
    source: Vec<u8>,
}

impl Asked {
    fn of((tensor, config, coordinate, source): (Tensor, Config, [u32; 4], Rest)) -> Asked {
        Asked { tensor, config, coordinate, source: source.0 }
    }

    fn answer(&self) -> Pixel {
        pixel(&self.tensor, &self.config, &self.coordinate, &self.source)
    }

    /// What the whole move comes to, where 1 to 4 and 6 to 12 do not refuse it.
    fn plan(&self) -> Option<Plan> {
        plan(&self.tensor, &self.config, None).ok()
    }

    /// The rank, or a number of dimensions where 1 refuses it.
    fn dimensions(&self) -> usize {
        self.tensor.rank.clamp(1, 4) as usize
    }

    fn size(&self) -> usize {
        self.tensor.element_size.min(4) as usize
    }
}

/// Each case of the call of this number, and whether it is one with these arguments and this answer. The names are the
/// same for any.
fn all(number: u8, arguments: &[u8], answer: &[u8]) -> Vec<Case> {
    if number != PIXEL {
        return Vec::new();
    }
    let asked = Asked::of(begin(arguments));
    let given: Pixel = begin(answer);
    let accepted = if given.status == 0 { asked.plan() } else { None };
    [
        of_numbers(&asked, &given),
        of_pairs(&asked, &given),
        of_outside(&asked, &given),
        of_inside(&asked, accepted.as_ref()),
        of_padding(&asked, &given, accepted.as_ref()),
        of_kept(&asked, &given, accepted.as_ref()),
        of_planes(&asked, &given, accepted.as_ref()),
    ]
    .concat()
}

/// "1 to 12 as for a move", of which these name a dimension; and 5.
fn of_numbers(asked: &Asked, given: &Pixel) -> Vec<Case> {
    let mut all = Vec::new();
    for number in [3, 4, 6, 7, 8, 9, 10, 11, 12] {
        for d in 0..4 {
            let holds = (given.status, given.dimension) == (number, d);
            all.push((holds, format!("{number} at {d}")));
        }
    }
    let lacking = source_of(&asked.tensor).span.saturating_sub(asked.source.len() as u64);
    all.push(case(given.status == 5 && lacking == 1, "5 by a byte"));
    all
}

/// The same question with what this number looks at made good.
fn mended(asked: &Asked, number: u8) -> Asked {
    let mut mended = asked.clone();
    let (tensor, config) = (&mut mended.tensor, &mut mended.config);
    match number {
        1 => tensor.rank = asked.dimensions() as u8,
        2 => tensor.element_size = 1,
        3 => tensor.shape = tensor.shape.map(|shape| if (1..=65_535).contains(&shape) { shape } else { 1 }),
        4 => tensor.stride = [0; 4],
        5 => mended.source.resize((source_of(tensor).span as usize).max(asked.source.len()), 0),
        6 => config.perm = [0, 1, 2, 3],
        7 => config.offset = [0; 4],
        8 => config.size = [0; 4],
        9 => config.step = [1; 4],
        10 => (config.pre, config.post) = ([0; 4], [0; 4]),
        11 => config.dst_stride = [0; 4],
        _ => config.dst_offset = [0; 4],
    }
    mended
}

/// Two numbers that apply to one call: each with the next in the order, and each with 35, by a coordinate above every
/// extent that there is.
fn of_pairs(asked: &Asked, given: &Pixel) -> Vec<Case> {
    let far = asked.coordinate[..asked.dimensions()].iter().any(|&entry| entry as u64 > EXTENT_LIMIT);
    let mut all = Vec::new();
    for number in 1..=12 {
        let is_given = given.status == number;
        let next = if number == 12 { 35 } else { number + 1 };
        // A source is not lengthened to a span that no line has.
        let both = is_given && (number != 5 || source_of(&asked.tensor).span < 1 << 20);
        all.push((both && mended(asked, number).answer().status == next, format!("{number} and {next}")));
        if number < 12 {
            all.push((is_given && far, format!("{number} and 35")));
        }
    }
    all
}

/// "35 for a coordinate at or above its extent, naming the lowest dimension", one of the destination.
fn of_outside(asked: &Asked, given: &Pixel) -> Vec<Case> {
    let outside = if given.status == 35 { asked.plan() } else { None };
    let (rank, lowest) = (rank_of(&asked.tensor), given.dimension as usize & 3);
    let extent = outside.as_ref().map_or([0; 4], |plan| plan.extent);
    let farther_in = (lowest + 1..rank).any(|i| asked.coordinate[i] as u64 >= extent[i]);
    let at_fault = asked.coordinate[lowest] as u64;
    let by = |holds: bool| outside.is_some() && holds;
    let mut all = Vec::new();
    for of in 1..=4 {
        for i in 0..of {
            all.push((by((lowest, rank) == (i, of) && !farther_in), format!("35 at {i} of rank {of}")));
        }
    }
    for i in 0..3 {
        all.push((by(lowest == i && farther_in), format!("35 at {i} and farther in")));
    }
    let (in_8_bits, in_16_bits) = (at_fault % 256 < extent[lowest], at_fault % 65_536 < extent[lowest]);
    all.push(case(by(at_fault == extent[lowest]), "35 just at the extent"));
    all.push(case(by(at_fault == u32::MAX as u64), "35 by 2^32 - 1"));
    all.push(case(by(in_8_bits && !in_16_bits), "35 below the extent in 8 bits"));
    all.push(case(by(in_16_bits), "35 below the extent in 16 bits"));
    all
}

/// Accepted: the last coordinate of each dimension that has several, and "entries past the rank don't count".
fn of_inside(asked: &Asked, accepted: Option<&Plan>) -> Vec<Case> {
    let rank = accepted.map_or(0, |plan| plan.rank);
    let is_last = |plan: &Plan, i: usize| plan.extent[i] > 1 && asked.coordinate[i] as u64 == plan.extent[i] - 1;
    let mut all = Vec::new();
    for of in 1..=4 {
        for i in 0..of {
            let holds = rank == of && accepted.is_some_and(|plan| is_last(plan, i));
            all.push((holds, format!("last at {i} of rank {of}")));
        }
    }
    for of in 1..=3 {
        let holds = rank == of && asked.coordinate[of..].iter().all(|&entry| entry as u64 > EXTENT_LIMIT);
        all.push((holds, format!("any entries past rank {of}")));
    }
    all
}

/// The destination dimensions in which a coordinate is padding, and whether it stands before what is kept.
fn padded_in(asked: &Asked, plan: &Plan) -> Vec<(usize, bool)> {
    let mut padded = Vec::new();
    for i in 0..plan.rank {
        let s = asked.config.perm[i] as usize;
        let (c, pre) = (asked.coordinate[i] as u64, asked.config.pre[s] as u64);
        if c < pre || c >= pre + plan.count[s] {
            padded.push((i, c < pre));
        }
    }
    padded
}

/// "whether it is padding", by front and behind, of each element size, with a fill whose bytes tell and without one; in
/// one dimension alone; and where the source has the same bytes.
fn of_padding(asked: &Asked, given: &Pixel, accepted: Option<&Plan>) -> Vec<Case> {
    let padded = accepted.map_or(Vec::new(), |plan| padded_in(asked, plan));
    let (fill, size) = (asked.config.fill, asked.size());
    let mut all = Vec::new();
    for of in ELEMENT_SIZES {
        for (before, side) in [(true, "before"), (false, "behind")] {
            let holds = asked.tensor.element_size == of && !padded.is_empty() && padded.iter().all(|at| at.1 == before);
            let is_telling = all_differ(fill) && (of == 4 || has_unused_byte(fill, of));
            all.push((holds && is_telling, format!("{of}-byte padding {side}")));
            all.push((holds && fill == 0, format!("{of}-byte padding {side}, fill 0")));
        }
    }
    for i in 0..4 {
        let alone = padded.len() == 1 && padded[0].0 == i && rank_of(&asked.tensor) == 4;
        all.push((alone, format!("padding in dimension {i} alone")));
    }
    let in_source = asked.source.chunks_exact(size.max(1)).any(|element| element == &given.bytes[..size]);
    all.push(case(padded.len() > 1, "padding in several dimensions"));
    all.push(case(!padded.is_empty() && in_source, "padding that is as an element of the source"));
    all
}

/// An element of the source: one that holds what padding would, the last one there is, and one that another reading of
/// the coordinate would not find.
fn of_kept(asked: &Asked, given: &Pixel, accepted: Option<&Plan>) -> Vec<Case> {
    let wide_coordinate = wide(&asked.coordinate);
    let place = accepted.and_then(|plan| source_place(plan, &asked.config, &wide_coordinate));
    let (kept, size, rank) = (place.is_some(), asked.size(), rank_of(&asked.tensor));
    let as_fill = kept && given.bytes[..size] == asked.config.fill.to_le_bytes()[..size];
    let is_zero = given.bytes == [0; 4];
    let end = place.map_or(0, |place| (place + 1) * size as u64);
    let is_end = kept && end == asked.source.len() as u64 && end == source_of(&asked.tensor).span;
    let mut all = Vec::new();
    for of in ELEMENT_SIZES {
        let of_size = asked.tensor.element_size == of;
        all.push((of_size && as_fill && is_zero, format!("{of}-byte zero kept")));
        all.push((of_size && as_fill && !is_zero, format!("{of}-byte element kept that is as the fill")));
        all.push((of_size && is_end, format!("{of}-byte element at the end of the source")));
    }
    for of in 2..=4 {
        let holds = kept && rank == of && by_source_dimension(asked).answer() != *given;
        all.push((holds, format!("another by source dimension, rank {of}")));
    }
    for of in 3..=4 {
        let holds = kept && rank == of && by_inverse(asked).answer() != *given;
        all.push((holds, format!("another by the inverse permutation, rank {of}")));
    }
    let config = &asked.config;
    let behind_first = |i: usize| asked.coordinate[i] > config.pre[config.perm[i] as usize] as u32;
    let thinned = |i: usize| config.step[config.perm[i] as usize] > 1 && behind_first(i);
    all.push(case(kept && (0..rank).any(thinned), "thinned"));
    all.push(case(kept && config.offset[..rank].iter().any(|&offset| offset > 0), "cut before"));
    all
}

/// The same with its coordinate read by source dimension.
fn by_source_dimension(asked: &Asked) -> Asked {
    let mut other = asked.clone();
    for i in 0..rank_of(&asked.tensor) {
        other.coordinate[i] = asked.coordinate[asked.config.perm[i] as usize];
    }
    other
}

/// The same with "source i goes to perm[i]".
fn by_inverse(asked: &Asked) -> Asked {
    let mut other = asked.clone();
    for i in 0..rank_of(&asked.tensor) {
        other.config.perm[asked.config.perm[i] as usize] = i as u8;
    }
    other
}

/// What the plane and its destination are: a dimension that counts down, so that without its sign another element would
/// be found; offsets and strides of the destination; needs that no destination has ("13 is never given"); and a long
/// source.
fn of_planes(asked: &Asked, given: &Pixel, accepted: Option<&Plan>) -> Vec<Case> {
    let (tensor, config) = (&asked.tensor, &asked.config);
    let rank = accepted.map_or(0, |plan| plan.rank);
    let mut upward = asked.clone();
    upward.tensor.stride = tensor.stride.map(|stride| stride.saturating_abs());
    let tells = accepted.is_some() && upward.answer() != *given;
    let mut all = Vec::new();
    for of in 1..=4 {
        all.push((rank == of && tells, format!("counting down in rank {of}")));
    }
    let cut = |s: usize| counts_down(tensor, s) && config.offset[s] > 0;
    let wider = |plan: &Plan| (0..rank).any(|i| plan.stride[i] > inner_product(rank, i, &plan.stride, &plan.extent));
    let need = accepted.map_or(0, |plan| plan.need);
    all.push(case(tells && (0..rank).any(cut), "cut before, counting down"));
    all.push(case(accepted.is_some() && given.padding == 1 && is_mirrored(tensor), "padding, counting down"));
    all.push(case(config.dst_offset[..rank].iter().any(|&offset| offset > 0), "destination offset"));
    all.push(case(accepted.is_some_and(wider), "wider destination stride"));
    all.push(case(need >= 1 << 32, "need of 2^32 and more"));
    all.push(case(need >= 1 << 48, "need of 2^48 and more"));
    // A source is no memory that the call may change.
    all.push(case(accepted.is_some() && asked.source.len() > MEMORY_LIMIT, "source of more than 65536 bytes"));
    all
}
