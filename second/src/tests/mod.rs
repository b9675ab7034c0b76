//! The examples of the paper and how it is read, with values typed in from the paper or worked out by hand.

mod block_cases;
mod boundaries;
mod boundary_cases;
mod counts;
mod coverage;
mod errors;
mod examples;
mod fill_cases;
mod fills;
mod framing;
mod keeper;
mod lists;
mod offsets;
mod pixel_cases;
mod pixel_shows;
mod pixels;
mod plain;
mod readings;
mod record_cases;
mod records;
mod refusal_cases;
mod sign_cases;
mod signs;
mod size_cases;
mod sizes;
mod stretches;
mod transfers;
mod versions;
mod ways;

use crate::calls::Calls;
use crate::cases::Topic;
use crate::moves::{move_plane, Answer, Config};
use crate::ready_made::copy;
use crate::tensor::Tensor;

/// Entries below the rank; the others are 0.
pub fn four<T: Copy + Default>(entries: &[T]) -> [T; 4] {
    let mut all = [T::default(); 4];
    all[..entries.len()].copy_from_slice(entries);
    all
}

/// A tensor of bytes with default strides.
pub fn plane(shape: &[u32]) -> Tensor {
    Tensor { rank: shape.len() as u8, element_size: 1, shape: four(shape), stride: [0; 4] }
}

/// "unmentioned fields are default"
pub fn default(tensor: &Tensor) -> Config {
    copy(tensor.rank).config
}

pub fn count_up(last: u8) -> Vec<u8> {
    (1..=last).collect()
}

/// Moves into a destination of zeros that is as long as the need; it has to be accepted.
pub fn moved(tensor: &Tensor, config: &Config, source: &[u8]) -> Vec<u8> {
    let need = crate::moves::room(tensor, config).answer.need;
    let mut destination = vec![0; need as usize];
    let answer = move_plane(tensor, config, source, &mut destination);
    assert_eq!(answer.status, 0);
    destination
}

/// The cases that a call with these arguments is.
pub fn cases_of_call((cases, met): Topic, number: u8, arguments: Vec<u8>) -> String {
    let answer = (Calls::all().find(number).unwrap().answer)(&arguments).unwrap();
    let met = met(&[vec![number], arguments].concat(), &answer);
    assert!(met.iter().all(|case| cases(number).contains(case)));
    met.join("; ")
}

pub fn refused(status: u8, dimension: u8) -> Answer {
    Answer { status, dimension, ..Answer::default() }
}
