//! The cases of a destination offset, which the number 12 alone does not tell apart. A long comparison has to meet each
//! in a move that is judged and in one that is made, by either engine.

use super::number::{JUDGE, MOVE_PLANE, PLAIN_MOVE};
use crate::moves::{offset_too_large, room, runs_past_row, Answer, Config};
use crate::tensor::{inner_product, wide, Tensor};
use crate::wire::{whole, Counted, Memory};

const TOO_LARGE: &str = "12 too large at";
const PAST: &str = "12 past the row at";
const FULL: &str = "row full at";
/// Cases that are told apart by dimension, and the first dimension that can have each. Each is met by itself: an offset
/// that is too large has room in its row, and one that runs past the row is not too large.
const BY_DIMENSION: [(&str, usize); 3] = [(TOO_LARGE, 0), (PAST, 1), (FULL, 1)];

const INNER: &str = "inner offset";
const WIDER: &str = "wider stride";
const FIRST: &str = "first offset at its stride or above";
const UNDER_ZERO: &str = "12 under stride 0";
const PAST_BEFORE_TOO_LARGE: &str = "12 past the row, too large farther in";
const TOO_LARGE_BEFORE_PAST: &str = "12 too large, past the row farther in";
const ELEVEN: &str = "11 and 12";
const THIRTEEN: &str = "12 and 13";
const OTHERS: [&str; 8] =
    [INNER, WIDER, FIRST, UNDER_ZERO, PAST_BEFORE_TOO_LARGE, TOO_LARGE_BEFORE_PAST, ELEVEN, THIRTEEN];

/// All cases of the call of this number.
pub fn cases(number: u8) -> Vec<String> {
    let mut cases = Vec::new();
    if ![JUDGE, MOVE_PLANE, PLAIN_MOVE].contains(&number) {
        return cases;
    }
    for (case, first) in BY_DIMENSION {
        cases.extend((first..4).map(|i| at(case, i)));
    }
    cases.extend(OTHERS.map(String::from));
    cases
}

fn at(case: &str, i: usize) -> String {
    format!("{case} {i}")
}

/// A move that was asked for, and the length of its destination.
struct Asked {
    tensor: Tensor,
    config: Config,
    destination: u64,
}

/// The cases that a call with these bytes is, by what it has to be answered.
pub fn met(bytes: &[u8], expected: &[u8]) -> Vec<String> {
    let (Some(asked), [_, status, dimension, ..]) = (asked(bytes), expected) else {
        return Vec::new();
    };
    match status {
        0 => accepted(&asked),
        11 => eleven(&asked),
        12 => twelve(&asked, *dimension as usize),
        _ => Vec::new(),
    }
}

fn asked(bytes: &[u8]) -> Option<Asked> {
    let (&number, arguments) = bytes.split_first()?;
    match number {
        JUDGE => {
            let (tensor, config, _, destination): (Tensor, Config, u64, u64) = whole(arguments)?;
            Some(Asked { tensor, config, destination })
        }
        MOVE_PLANE | PLAIN_MOVE => {
            let (tensor, config, _, room): (Tensor, Config, Counted, Memory) = whole(arguments)?;
            Some(Asked { tensor, config, destination: room.0.len() as u64 })
        }
        _ => None,
    }
}

/// What the move comes to without its destination offsets, which 12 can not refuse.
pub fn without_offsets(tensor: &Tensor, config: &Config) -> Answer {
    room(tensor, &config.with_dst_offset([0; 4])).answer
}

fn accepted(asked: &Asked) -> Vec<String> {
    let rank = asked.tensor.rank as usize;
    let plain = without_offsets(&asked.tensor, &asked.config);
    let (extent, stride) = (wide(&plain.extent), wide(&plain.stride));
    let offset = wide(&asked.config.dst_offset);
    let mut met = Vec::new();
    let mut count = |holds: bool, case: String| met.extend(holds.then_some(case));
    for i in 1..rank {
        let full = (offset[i] + extent[i]) * stride[i] == stride[i - 1];
        count(offset[i] > 0 && full, at(FULL, i));
    }
    count(offset[1..rank].iter().any(|&offset| offset > 0), INNER.to_string());
    count((0..rank).any(|i| stride[i] > inner_product(rank, i, &stride, &extent)), WIDER.to_string());
    count(offset[0] >= stride[0], FIRST.to_string());
    met
}

/// 11, where an offset is too large besides; rows are not known where strides are refused.
fn eleven(asked: &Asked) -> Vec<String> {
    let rank = asked.tensor.rank as usize;
    let both = (0..rank).any(|i| offset_too_large(&asked.config, i));
    both.then_some(ELEVEN.to_string()).into_iter().collect()
}

/// 12, with the dimension that it names.
fn twelve(asked: &Asked, lowest: usize) -> Vec<String> {
    let config = &asked.config;
    let plain = without_offsets(&asked.tensor, config);
    let (extent, stride) = (wide(&plain.extent), wide(&plain.stride));
    let past = |i: usize| runs_past_row(config, &extent, &stride, i);
    let only_too_large = |i: usize| offset_too_large(config, i) && !past(i);
    let only_past = |i: usize| past(i) && !offset_too_large(config, i);
    let farther_in = lowest + 1..asked.tensor.rank as usize;
    let mut met = Vec::new();
    let mut count = |holds: bool, case: String| met.extend(holds.then_some(case));
    if only_too_large(lowest) {
        count(true, at(TOO_LARGE, lowest));
        count(farther_in.clone().any(only_past), TOO_LARGE_BEFORE_PAST.to_string());
    }
    if only_past(lowest) {
        count(true, at(PAST, lowest));
        count(farther_in.clone().any(only_too_large), PAST_BEFORE_TOO_LARGE.to_string());
        count(lowest > 0 && config.dst_stride[lowest - 1] == 0, UNDER_ZERO.to_string());
    }
    // The destination is too short even for the move without its offsets.
    count(asked.destination < plain.need, THIRTEEN.to_string());
    met
}
