//! The move: what the paper says under "The move", and the order of its numbers ("Move: 1 to 13").

use crate::tensor::{
    above_lowest, check_tensor, narrow, refuse, refuse_lowest, resolve_strides, span, wide, with_signs, Fault, Tensor,
    EXTENT_LIMIT,
};
use crate::wire::wire_struct;

wire_struct! {
    /// "A configuration has, per dimension: offset, size, step, pre and post padding, all by source dimension;
    /// permutation; destination offset and destination stride, by destination dimension." "Configurations gain a
    /// 32-bit fill", which has no dimension.
    #[derive(Copy)]
    Config {
        offset: [u32; 4], size: [u32; 4], step: [u32; 4], dst_offset: [u32; 4], dst_stride: [u32; 4],
        perm: [u8; 4], pre: [u8; 4], post: [u8; 4], fill: u32,
    }
}

wire_struct! {
    /// "The answer of a move: status, dimension, rank, element size, extents in destination order, resolved
    /// destination strides, need; entries past the rank are 0."
    #[derive(Copy)]
    Answer {
        status: u8, dimension: u8, rank: u8, element_size: u8, extent: [u32; 4], stride: [u32; 4], need: u64,
    }
}

wire_struct! {
    /// "A room question gives the same from record and configuration alone, with the source span besides."
    #[derive(Copy)]
    Room { answer: Answer, span: u64 }
}

/// All that an accepted move comes to.
#[derive(Clone, Debug)]
pub struct Plan {
    pub rank: usize,
    pub element_size: usize,
    /// Shapes and resolved strides of the source; those that count down are negative.
    pub shape: [u64; 4],
    pub source_stride: [i64; 4],
    pub span: u64,
    /// Kept counts, by source dimension.
    pub count: [u64; 4],
    /// Extents, by destination dimension.
    pub extent: [u64; 4],
    pub stride: [u64; 4],
    pub need: u64,
}

/// The lengths of the lent source and destination; a room question has none.
pub type Lengths = Option<(u64, u64)>;

/// The numbers 1 to 13 in their order; without lengths, neither 5 nor 13.
pub fn plan(tensor: &Tensor, config: &Config, lengths: Lengths) -> Result<Plan, Fault> {
    let resolved = check_tensor(tensor)?;
    let rank = tensor.rank as usize;
    let (shape, source_stride, span) = (wide(&tensor.shape), with_signs(tensor, &resolved), span(tensor, &resolved));
    // 5: "source shorter than the span"
    if lengths.is_some_and(|(source, _)| source < span) {
        return refuse(5, 0);
    }
    check_permutation(rank, config)?;
    check_cut(rank, tensor, config)?;
    let count = kept_counts(rank, tensor, config);
    let extent = extents(rank, config, &count)?;
    let stride = resolve_strides(11, rank, &extent, &config.dst_stride)?;
    // 12: "a destination offset", one rule with two cases, the lowest destination dimension being named
    refuse_lowest(12, rank, |i| offset_too_large(config, i) || runs_past_row(config, &extent, &stride, i))?;
    let element_size = tensor.element_size as usize;
    let need = need(rank, element_size, config, &extent, &stride);
    // 13: "destination shorter than need"
    if lengths.is_some_and(|(_, destination)| destination < need) {
        return refuse(13, 0);
    }
    Ok(Plan { rank, element_size, shape, source_stride, span, count, extent, stride, need })
}

/// 6: "permutation entry at or above the rank, or equal to an earlier one", the destination dimension being named.
fn check_permutation(rank: usize, config: &Config) -> Result<(), Fault> {
    refuse_lowest(6, rank, |i| {
        let entry = config.perm[i];
        entry as usize >= rank || config.perm[..i].contains(&entry)
    })
}

/// 7 to 9, each over all dimensions before the next: "offset not below shape; size + offset above shape",
/// "step 0 or above 65,535".
fn check_cut(rank: usize, tensor: &Tensor, config: &Config) -> Result<(), Fault> {
    refuse_lowest(7, rank, |d| config.offset[d] >= tensor.shape[d])?;
    refuse_lowest(8, rank, |d| config.size[d] as u64 + config.offset[d] as u64 > tensor.shape[d] as u64)?;
    refuse_lowest(9, rank, |d| config.step[d] == 0 || config.step[d] as u64 > EXTENT_LIMIT)
}

/// "Size 0 means shape - offset (MLI). Kept count = size/step rounded up." By source dimension, after 7 to 9.
pub fn kept_counts(rank: usize, tensor: &Tensor, config: &Config) -> [u64; 4] {
    let mut count = [0; 4];
    for s in 0..rank {
        let size = if config.size[s] == 0 { tensor.shape[s] - config.offset[s] } else { config.size[s] };
        count[s] = (size as u64).div_ceil(config.step[s] as u64);
    }
    count
}

/// "Destination dimension i is source dimension perm[i] (MLI): shape (2,4,8) with (2,0,1) becomes (8,2,4)."
fn source_dimension(config: &Config, i: usize) -> usize {
    config.perm[i] as usize
}

/// "Extent = pre + count + post", by source dimension, as 10 names it; handed back by destination dimension.
pub fn extents(rank: usize, config: &Config, count: &[u64; 4]) -> Result<[u64; 4], Fault> {
    let by_source = |s: usize| config.pre[s] as u64 + count[s] + config.post[s] as u64;
    // 10: "extent above 65,535"
    refuse_lowest(10, rank, |s| by_source(s) > EXTENT_LIMIT)?;
    let mut extent = [0; 4];
    for i in 0..rank {
        extent[i] = by_source(source_dimension(config, i));
    }
    Ok(extent)
}

/// 12, one case: destination offsets are "at most 65,535", that of the first dimension too.
pub fn offset_too_large(config: &Config, i: usize) -> bool {
    config.dst_offset[i] as u64 > EXTENT_LIMIT
}

/// 12, the other case: "for each dimension after the first, (destination offset + extent) x stride is at most the
/// stride before it; the first dimension is bounded by the room alone". Both strides are resolved ones. Nothing wraps:
/// an offset below 2^32, an extent and a stride within their limits have a product below 2^64.
pub fn runs_past_row(config: &Config, extent: &[u64; 4], stride: &[u64; 4], i: usize) -> bool {
    i > 0 && (config.dst_offset[i] as u64 + extent[i]) * stride[i] > stride[i - 1]
}

/// "Need: (1 + sum of (destination offset + extent - 1) x stride) x element size."
fn need(rank: usize, element_size: usize, config: &Config, extent: &[u64; 4], stride: &[u64; 4]) -> u64 {
    let mut elements = 1;
    for i in 0..rank {
        elements += (config.dst_offset[i] as u64 + extent[i] - 1) * stride[i];
    }
    elements * element_size as u64
}

impl Answer {
    pub fn accepted(plan: &Plan) -> Answer {
        Answer {
            status: 0,
            dimension: 0,
            rank: plan.rank as u8,
            element_size: plan.element_size as u8,
            extent: narrow(&plan.extent),
            stride: narrow(&plan.stride),
            need: plan.need,
        }
    }

    /// "Everything else in a refused answer is 0."
    pub fn refused(fault: Fault) -> Answer {
        Answer { status: fault.status, dimension: fault.dimension, ..Answer::default() }
    }
}

/// The call `judge`: a move by the two lengths.
pub fn judge(tensor: &Tensor, config: &Config, source: u64, destination: u64) -> Answer {
    match plan(tensor, config, Some((source, destination))) {
        Ok(plan) => Answer::accepted(&plan),
        Err(fault) => Answer::refused(fault),
    }
}

/// The call `room`. A refused room question has span 0.
pub fn room(tensor: &Tensor, config: &Config) -> Room {
    match plan(tensor, config, None) {
        Ok(plan) => Room { answer: Answer::accepted(&plan), span: plan.span },
        Err(fault) => Room { answer: Answer::refused(fault), span: 0 },
    }
}

/// The call `move_plane`; "nothing lent changes" when it is refused.
pub fn move_plane(tensor: &Tensor, config: &Config, source: &[u8], destination: &mut [u8]) -> Answer {
    match plan(tensor, config, Some((source.len() as u64, destination.len() as u64))) {
        Ok(plan) => {
            move_elements(&plan, config, source, destination, 0, u64::MAX);
            Answer::accepted(&plan)
        }
        Err(fault) => Answer::refused(fault),
    }
}

/// How many elements a move writes: one for each destination coordinate.
pub fn total(plan: &Plan) -> u64 {
    plan.extent[..plan.rank].iter().product()
}

/// Every destination coordinate, "in destination order with the last coordinate fastest". Only for moves whose
/// destination is lent, which holds at least one byte for each of them.
pub fn coordinates(plan: &Plan) -> Vec<[u64; 4]> {
    let to = |i: usize| if i < plan.rank { plan.extent[i] } else { 1 };
    let mut all = Vec::new();
    for a in 0..to(0) {
        for b in 0..to(1) {
            for c in 0..to(2) {
                for d in 0..to(3) {
                    all.push([a, b, c, d]);
                }
            }
        }
    }
    all
}

/// "At destination coordinate c, source dimension s = perm[i] has k = c[i] - pre[s]. If every k is from 0 to
/// count-1, the element is the source's at offset + k x step in each dimension"; else it is padding, and "demands 2 and
/// 3 read fill for zero". The element's place in the source, counted from its lowest one, or nothing for padding. Where
/// a dimension counts down, it does so from the end of the whole shape.
pub fn source_place(plan: &Plan, config: &Config, c: &[u64; 4]) -> Option<u64> {
    let mut place = 0;
    for i in 0..plan.rank {
        let s = source_dimension(config, i);
        let k = c[i] as i64 - config.pre[s] as i64;
        if k < 0 || k > plan.count[s] as i64 - 1 {
            return None;
        }
        let coordinate = config.offset[s] as u64 + k as u64 * config.step[s] as u64;
        place += above_lowest(plan.shape[s], plan.source_stride[s], coordinate);
    }
    Some(place)
}

/// "a 32-bit fill whose low bytes, as many as the element size, go into padded elements, lowest byte first": one byte
/// of a padded element. A fill's bytes above the element size are not looked at.
fn padded_byte(config: &Config, byte: usize) -> u8 {
    config.fill.to_le_bytes()[byte]
}

/// "Its place is the sum of (destination offset + c) x stride, in elements."
fn destination_place(plan: &Plan, config: &Config, c: &[u64; 4]) -> u64 {
    let mut place = 0;
    for i in 0..plan.rank {
        place += (config.dst_offset[i] as u64 + c[i]) * plan.stride[i];
    }
    place
}

/// Moves the elements from number `from` on, `budget` of them or what is left, and tells how many.
pub fn move_elements(
    plan: &Plan,
    config: &Config,
    source: &[u8],
    destination: &mut [u8],
    from: u64,
    budget: u64,
) -> u64 {
    let mut moved = 0;
    for (number, c) in coordinates(plan).iter().enumerate() {
        if (number as u64) < from || moved == budget {
            continue;
        }
        let to = destination_place(plan, config, c) as usize * plan.element_size;
        for byte in 0..plan.element_size {
            destination[to + byte] = match source_place(plan, config, c) {
                Some(place) => source[place as usize * plan.element_size + byte],
                None => padded_byte(config, byte),
            };
        }
        moved += 1;
    }
    moved
}
