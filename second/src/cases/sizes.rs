//! The cases of an element size: a number just beside those that there are, and elements of each size where their bytes
//! are counted. Numbers of refusal alone do not tell them apart, and a long comparison has to meet each. Rows, padding
//! and records of each size are with the other cases of theirs.

use super::case::{case, met_by_status, named, Case};
use super::input::{tensor_of, BESIDE};
use super::moved::moved;
use super::number::{
    ELEMENT_SIZE, JUDGE, MOVER_SUB_TENSOR, MOVE_PLANE, PLAIN_MOVE, POLL, PREPARE, RELEASE, START, STEP, SUB_PART,
    SUB_TENSOR,
};
use crate::helpers::{sub_tensor, SubConfig};
use crate::moves::{room, Config};
use crate::tensor::{check_shapes, source_of, Tensor, ELEMENT_SIZES};
use crate::transfers::{sound, Table, FREE};
use crate::wire::{begin, Counted, Memory, Rest};

/// All cases of the call of this number.
pub fn cases(number: u8) -> Vec<String> {
    named(&all(number, &[], 0))
}

/// The cases that a call with these bytes is, by what it has to be answered.
pub fn met(bytes: &[u8], expected: &[u8]) -> Vec<String> {
    met_by_status(all, bytes, expected)
}

/// Each case of the call of this number, and whether it is one with these arguments and this status. The names are the
/// same for any.
fn all(number: u8, arguments: &[u8], status: u8) -> Vec<Case> {
    let mut all = tensor_of(number, arguments).map_or(Vec::new(), |tensor| of_tensor(&tensor, status));
    all.extend(match number {
        ELEMENT_SIZE => of_helper(begin(arguments), status),
        JUDGE => of_lengths(begin(arguments), status),
        MOVE_PLANE | PLAIN_MOVE => {
            let (tensor, config, source, room): (Tensor, Config, Counted, Memory) = begin(arguments);
            of_lengths((tensor, config, source.0.len() as u64, room.0.len() as u64), status)
        }
        SUB_TENSOR => of_sub_tensor(begin(arguments)),
        SUB_PART | MOVER_SUB_TENSOR => {
            let (tensor, config, source): (Tensor, SubConfig, Rest) = begin(arguments);
            of_sub_tensor((tensor, config, source.0.len() as u64))
        }
        PREPARE => of_table(&begin(arguments), status),
        START | RELEASE | POLL => [of_table(&begin(arguments), status), of_slot(begin(arguments), status)].concat(),
        STEP => [of_table(&begin(arguments), status), of_step(arguments, status)].concat(),
        _ => Vec::new(),
    });
    all
}

/// "or 0 for others": the numbers just beside the sizes.
fn of_helper(size: u8, answer: u8) -> Vec<Case> {
    BESIDE.map(|beside| (size == beside && answer == 0, format!("0 for {beside}"))).to_vec()
}

/// "2 no longer covers 3, so J then gives 3 at dimension 0." A size that there is not comes before the shapes.
fn of_tensor(tensor: &Tensor, status: u8) -> Vec<Case> {
    let size = tensor.element_size;
    let bad_shape = check_shapes(tensor, tensor.rank.min(4) as usize).is_err();
    let mut all = vec![case(status == 2 && bad_shape, "2 and 3")];
    all.extend(BESIDE.map(|beside| (status == 2 && size == beside, format!("2 by {beside}"))));
    all.extend(ELEMENT_SIZES.map(|of| (status == 3 && size == of, format!("3 with {of}-byte elements"))));
    all
}

/// "spans, need": what is lent is just enough, or short by a byte.
fn of_lengths((tensor, config, source, destination): (Tensor, Config, u64, u64), status: u8) -> Vec<Case> {
    let (span, need) = (source_of(&tensor).span, room(&tensor, &config).answer.need);
    let just_enough = status == 0 && (source, destination) == (span, need);
    let short_source = status == 5 && Some(source) == span.checked_sub(1);
    let short_destination = status == 13 && Some(destination) == need.checked_sub(1);
    let mut all = Vec::new();
    for size in ELEMENT_SIZES {
        let of_size = tensor.element_size == size;
        all.push((of_size && just_enough, format!("just enough for {size}-byte elements")));
        all.push((of_size && short_source, format!("5 by a byte with {size}-byte elements")));
        all.push((of_size && short_destination, format!("13 by a byte with {size}-byte elements")));
    }
    all
}

/// "It tells the byte offset": one above 0, in a source that is just long enough.
fn of_sub_tensor((tensor, config, source): (Tensor, SubConfig, u64)) -> Vec<Case> {
    let sub = sub_tensor(&tensor, &config, source);
    let inside = sub.status == 0 && sub.byte > 0 && source == source_of(&tensor).span;
    of_each_size(inside, tensor.element_size, "sub-tensor from inside")
}

/// "every other slot passes 20, 1 to 13": nothing but an element size is wrong with this table.
fn of_table(table: &Table, status: u8) -> Vec<Case> {
    let is_sound_without = |size: u8| {
        let mut table = *table;
        for slot in table.slot.iter_mut().filter(|slot| slot.state != FREE && slot.job.tensor.element_size == size) {
            slot.job.tensor.element_size = 1;
        }
        sound(&table)
    };
    BESIDE.map(|size| (status == 18 && is_sound_without(size), format!("18 by element size {size} of a slot"))).to_vec()
}

/// A slot with elements of each size in the calls that take a handle and move nothing.
fn of_slot((table, handle): (Table, u32), status: u8) -> Vec<Case> {
    let size = table.slot.get(handle as usize).map_or(0, |slot| slot.job.tensor.element_size);
    of_each_size(status == 0, size, "slot")
}

/// A step that moves two elements of the source: the second one does not stand at byte 0.
fn of_step(arguments: &[u8], status: u8) -> Vec<Case> {
    let moved = if status == 0 { moved(STEP, arguments) } else { None };
    let kept = moved.iter().flat_map(|moved| &moved.elements).filter(|element| element.is_kept).count();
    let size = moved.as_ref().map_or(0, |moved| moved.plan.element_size as u8);
    of_each_size(kept > 1, size, "elements kept")
}

/// The same case for each size, and whether it is one with elements of this size.
fn of_each_size(holds: bool, size: u8, name: &str) -> Vec<Case> {
    ELEMENT_SIZES.map(|of| (holds && size == of, format!("{of}-byte {name}"))).to_vec()
}
