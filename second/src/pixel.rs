//! One pixel: "A colour picker asks for one destination element before anything is moved."

use crate::helpers::{sub_part, SubConfig};
use crate::moves::{plan, Config, Plan};
use crate::tensor::{refuse_lowest, Fault, Tensor};
use crate::wire::wire_struct;

wire_struct! {
    /// "Answer its bytes (unused ones 0), and whether it is padding."
    #[derive(Copy)]
    Pixel { status: u8, dimension: u8, bytes: [u8; 4], padding: u8 }
}

/// Longer than any need, of which the largest is below 2^50.
const ANY_DESTINATION: u64 = u64::MAX;

/// The call `pixel`. "Everything else in a refused answer is 0."
pub fn pixel(tensor: &Tensor, config: &Config, coordinate: &[u32; 4], source: &[u8]) -> Pixel {
    match find(tensor, config, coordinate, source) {
        Ok(pixel) => pixel,
        Err(fault) => Pixel { status: fault.status, dimension: fault.dimension, ..Pixel::default() },
    }
}

/// "1 to 12 as for a move, then 35 ...; 13 is never given."
fn find(tensor: &Tensor, config: &Config, coordinate: &[u32; 4], source: &[u8]) -> Result<Pixel, Fault> {
    let lengths = Some((source.len() as u64, ANY_DESTINATION));
    let plan = plan(tensor, config, lengths)?;
    check_coordinate(&plan, coordinate)?;
    let size = plan.element_size;
    let mut pixel = Pixel::default();
    match comes_from(&plan, config, coordinate) {
        Some(place) => pixel.bytes[..size].copy_from_slice(&element_at(tensor, place, source)[..size]),
        None => {
            // "whose low bytes, as many as the element size, go into padded elements, lowest byte first"
            pixel.bytes[..size].copy_from_slice(&config.fill.to_le_bytes()[..size]);
            pixel.padding = 1;
        }
    }
    Ok(pixel)
}

/// 35: "a coordinate at or above its extent, naming the lowest dimension", which is one of the destination. Its
/// "entries past the rank don't count".
fn check_coordinate(plan: &Plan, coordinate: &[u32; 4]) -> Result<(), Fault> {
    refuse_lowest(35, plan.rank, |i| coordinate[i] as u64 >= plan.extent[i])
}

/// The coordinate in the source that an element comes from, or nothing for padding, whatever either of them holds. Of
/// source dimension s the coordinates of the destination are pre[s] padded ones, then those that are kept, each a step
/// farther from the offset on, and then padded ones again.
fn comes_from(plan: &Plan, config: &Config, coordinate: &[u32; 4]) -> Option<[u32; 4]> {
    let mut place = [0; 4];
    for i in 0..plan.rank {
        // "Destination dimension i is source dimension perm[i]."
        let s = config.perm[i] as usize;
        let mut kept = (0..plan.count[s] as u32).map(|k| config.offset[s] + k * config.step[s]);
        let behind_pre = coordinate[i].checked_sub(config.pre[s] as u32)?;
        place[s] = kept.nth(behind_pre as usize)?;
    }
    Some(place)
}

/// The source from this element on: it is the sub-tensor of a single element, which starts where the element does.
fn element_at<'a>(tensor: &Tensor, place: [u32; 4], source: &'a [u8]) -> &'a [u8] {
    sub_part(tensor, &SubConfig { offset: place, size: [1; 4], rank: tensor.rank as u32 }, source)
}
