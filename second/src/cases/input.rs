//! What cases of several topics ask of an input: its tensor record, sizes that there are not, the bytes of a fill,
//! states of slots, and what counts down.

use super::number::{
    ADVANCE, JUDGE, JUDGE_JOB, MOVER_SUB_TENSOR, MOVE_PLANE, PLAIN_ADVANCE, PLAIN_MOVE, PREPARE, ROOM, SOURCE_OF,
    SUB_TENSOR,
};
use crate::job::Job;
use crate::tensor::{check_tensor, Tensor};
use crate::transfers::{Table, DONE, PREPARED, RUNNING};
use crate::wire::begin;

/// The states of a slot that is not free.
pub const STATES: [(u8, &str); 3] = [(PREPARED, "prepared"), (RUNNING, "running"), (DONE, "done")];

/// The tensor record that a call asks about, if its answer tells 2 to 4.
pub fn tensor_of(number: u8, arguments: &[u8]) -> Option<Tensor> {
    match number {
        SOURCE_OF | ROOM | JUDGE | SUB_TENSOR | MOVE_PLANE | MOVER_SUB_TENSOR | PLAIN_MOVE => Some(begin(arguments)),
        JUDGE_JOB => Some(begin::<(u64, Job)>(arguments).1.tensor),
        ADVANCE | PLAIN_ADVANCE => Some(begin::<Job>(arguments).tensor),
        PREPARE => Some(begin::<(Table, Job)>(arguments).1.tensor),
        _ => None,
    }
}

/// The numbers just beside the element sizes, which 2 refuses.
pub const BESIDE: [u8; 2] = [0, 5];

/// Whether the four bytes of a fill differ: other bytes of it, or the same ones in another order, are something else.
pub fn all_differ(fill: u32) -> bool {
    let bytes = fill.to_le_bytes();
    (0..4).all(|a| !bytes[..a].contains(&bytes[a]))
}

/// Whether the bytes of the fill that go into an element are all 0.
pub fn used_bytes_are_0(fill: u32, element_size: u8) -> bool {
    fill.to_le_bytes().iter().take(element_size as usize).all(|&byte| byte == 0)
}

/// The rank, held within 4.
pub fn rank_of(tensor: &Tensor) -> usize {
    tensor.rank.min(4) as usize
}

/// Whether a dimension counts down and has something to count.
pub fn counts_down(tensor: &Tensor, d: usize) -> bool {
    d < rank_of(tensor) && tensor.stride[d] < 0 && tensor.shape[d] > 1
}

/// Whether any dimension of a plane does.
pub fn is_mirrored(tensor: &Tensor) -> bool {
    (0..4).any(|d| counts_down(tensor, d))
}

/// "-2,147,483,648", whose size is above the limit.
pub const LEAST: i32 = i32::MIN;

/// Whether 4 refuses a plane for it.
pub fn is_least(tensor: &Tensor) -> bool {
    check_tensor(tensor).is_err_and(|fault| fault.status == 4 && tensor.stride[fault.dimension as usize] == LEAST)
}
