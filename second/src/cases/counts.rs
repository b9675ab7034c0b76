//! The cases of a count, which its number alone does not tell apart. A long comparison has to meet each.

use super::case::{holding, named, Case};
use super::number::ELEMENT_COUNT;
use crate::helpers::Count;
use crate::tensor::{source_of, Tensor, EXTENT_LIMIT};
use crate::wire::whole;

/// Four shapes of 65,535, from the first on.
const FOUR_LARGEST: u64 = 18_445_618_199_572_250_625;

/// All cases of the call of this number.
pub fn cases(number: u8) -> Vec<String> {
    let mut cases = Vec::new();
    if number != ELEMENT_COUNT {
        return cases;
    }
    for rank in 1..=4 {
        cases.extend((0..=rank).map(|start| from(rank, start)));
    }
    let (tensor, answer) = Default::default();
    cases.extend(named(&others(&tensor, 0, &answer)));
    cases
}

/// A start below the rank, or just at it, where 16 refuses.
fn from(rank: usize, start: usize) -> String {
    format!("rank {rank} from {start}")
}

/// The cases that a call with these bytes is, by what it has to be answered.
pub fn met(bytes: &[u8], expected: &[u8]) -> Vec<String> {
    let (Some((&ELEMENT_COUNT, arguments)), Some((_, answer))) = (bytes.split_first(), expected.split_first()) else {
        return Vec::new();
    };
    let (Some((tensor, start)), Some(answer)) = (whole::<(Tensor, u32)>(arguments), whole::<Count>(answer)) else {
        return Vec::new();
    };
    let (rank, start) = (tensor.rank as usize, start as usize);
    let mut met = Vec::new();
    if [0, 16].contains(&answer.status) && start <= rank {
        met.push(from(rank, start));
    }
    met.extend(holding(&others(&tensor, start, &answer)));
    met
}

/// Each other case, and whether a count is one.
fn others(tensor: &Tensor, start: usize, answer: &Count) -> Vec<Case<&'static str>> {
    let Count { status, dimension, count } = *answer;
    let (rank, lowest) = (tensor.rank as usize, dimension as usize);
    let (accepted, one, three) = (status == 0, status == 1, status == 3);
    let (in_32_bits, in_63_bits) = (count <= u32::MAX as u64, count <= i64::MAX as u64);
    let by_itself = source_of(tensor).status;
    let bad = |d: usize| !(1..=EXTENT_LIMIT).contains(&(tensor.shape[d] as u64));
    vec![
        (accepted && in_32_bits, "up to 2^32 - 1"),
        (accepted && in_63_bits && !in_32_bits, "up to 2^63 - 1"),
        (accepted && !in_63_bits, "above 2^63 - 1"),
        (accepted && count == FOUR_LARGEST, "the most"),
        // What is not looked at.
        (accepted && by_itself == 2, "element size that 2 refuses"),
        (accepted && by_itself == 4, "strides that 4 refuses"),
        (accepted && (rank..4).any(bad), "bad shape past the rank"),
        // A rank of 0 has no shape below it.
        (one && rank == 0, "1 of rank 0"),
        (one && rank > 4 && (0..4).any(bad), "1 and 3"),
        (one && rank > 4 && start >= rank, "1 and 16"),
        (three && tensor.shape[lowest] == 0, "3 by 0"),
        (three && tensor.shape[lowest] == 65_536, "3 by 65536"),
        (three && (lowest + 1..rank).any(bad), "3 by two shapes"),
        (three && lowest < start && start < rank, "3 before the start"),
        (three && lowest == start, "3 at the start"),
        (three && lowest > start, "3 behind the start"),
        (three && start >= rank, "3 and 16"),
        (status == 16 && start % 256 < rank, "16 below the rank in 8 bits"),
    ]
}
