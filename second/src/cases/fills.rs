//! The cases of a fill, in moves, configurations, appends and tables; those of records are in `records.rs`. Numbers
//! alone do not tell them apart, and a long comparison has to meet each.

use super::case::{case, met_by_status, named, Case};
use super::input::{all_differ, used_bytes_are_0};
use super::moved::{moved, Moved};
use super::number::{
    ADVANCE, ALL, APPEND, FIRST_SETTING, GIVE_BACK, JUDGE, JUDGE_JOB, LAST_SETTING, MOVE_PLANE, PLAIN_ADVANCE,
    PLAIN_MOVE, POLL, PREPARE, RELEASE, ROOM, START, STEP, WITH_FILL,
};
use crate::job::Job;
use crate::list::list_fault;
use crate::moves::{total, Config, Plan};
use crate::record::has_unused_byte;
use crate::tensor::{check_element_size, Tensor, ELEMENT_SIZES};
use crate::transfers::{sound, Table, FREE};
use crate::wire::{begin, Memory};

/// All cases of the call of this number.
pub fn cases(number: u8) -> Vec<String> {
    named(&all(number, &[], 0))
}

/// The cases that a call with these bytes is, by what it has to be answered.
pub fn met(bytes: &[u8], expected: &[u8]) -> Vec<String> {
    met_by_status(all, bytes, expected)
}

/// Each case of the call of this number, and whether it is one with these arguments and this status. The names are the
/// same for any.
fn all(number: u8, arguments: &[u8], status: u8) -> Vec<Case> {
    match number {
        ROOM | JUDGE => of_unused(&begin(arguments), status),
        JUDGE_JOB => {
            let (_, job): (u64, Job) = begin(arguments);
            of_unused(&(job.tensor, job.config), status)
        }
        MOVE_PLANE | PLAIN_MOVE | ADVANCE | PLAIN_ADVANCE => of_padding(number, arguments, status),
        WITH_FILL | ALL | FIRST_SETTING..=LAST_SETTING => of_configuration(number, arguments, status),
        APPEND => of_append(begin(arguments), status),
        PREPARE => of_prepare(arguments, status),
        STEP => [of_padding(number, arguments, status), of_slot(number, arguments, status)].concat(),
        START | RELEASE | POLL => of_slot(number, arguments, status),
        GIVE_BACK => vec![by_free_slot(&begin(arguments), status)],
        _ => Vec::new(),
    }
}

/// Nobody but a record refuses anything for an unused byte that is not 0. An element of 4 bytes leaves none unused.
fn of_unused((tensor, config): &(Tensor, Config), status: u8) -> Vec<Case> {
    let unused = status == 0 && has_unused_byte(config.fill, tensor.element_size);
    let smaller = ELEMENT_SIZES.into_iter().filter(|&size| size < 4);
    smaller.map(|size| (unused && tensor.element_size == size, format!("unused byte of size {size}"))).collect()
}

/// Padding by a fill whose four bytes differ. Elements of fewer than 4 bytes leave a byte unused that is not 0.
fn of_padding(number: u8, arguments: &[u8], status: u8) -> Vec<Case> {
    let moved = if status == 0 { moved(number, arguments) } else { None };
    let fill = moved.as_ref().map_or(0, |moved| moved.config.fill);
    let padded = moved.as_ref().is_some_and(is_padded);
    let has_gaps = moved.as_ref().is_some_and(|moved| has_gaps(&moved.plan));
    let mut all = Vec::new();
    for size in ELEMENT_SIZES {
        let of_size = moved.as_ref().is_some_and(|moved| moved.plan.element_size == size as usize);
        let is_telling = all_differ(fill) && (size == 4 || has_unused_byte(fill, size));
        all.push((padded && is_telling && of_size, format!("{size}-byte padding")));
    }
    all.push(case(padded && fill == 0, "padding of fill 0"));
    all.push(case(padded && fill != 0 && has_gaps, "padding and gaps"));
    all.push(case(!padded && fill != 0, "fill without padding"));
    all
}

fn is_padded(moved: &Moved) -> bool {
    moved.elements.iter().any(|element| !element.is_kept)
}

/// Whether something lies between the elements of the destination.
fn has_gaps(plan: &Plan) -> bool {
    let last: u64 = (0..plan.rank).map(|i| (plan.extent[i] - 1) * plan.stride[i]).sum();
    last + 1 > total(plan)
}

/// "the ready-made ones have 0, and a setting changes it"; "the others kept".
fn of_configuration(number: u8, arguments: &[u8], status: u8) -> Vec<Case> {
    match number {
        ALL => {
            let (_, given): (u8, Config) = begin(arguments);
            vec![case(status == 0 && given.fill != 0, "fill dropped")]
        }
        WITH_FILL => {
            let (config, fill): (Config, u32) = begin(arguments);
            let other = config.fill != 0 && config.fill != fill;
            vec![case(other && fill != 0, "another fill"), case(other && fill == 0, "no fill")]
        }
        _ => vec![case(begin::<Config>(arguments).fill != 0, "fill kept")],
    }
}

/// "Append gives 27, last, for a fill not 0." It asks nothing else of the fill, and nothing of the element size.
fn of_append((tensor, config, length, buffer): (Tensor, Config, u64, Memory), status: u8) -> Vec<Case> {
    let (size, fill) = (tensor.element_size, config.fill);
    let filled = fill != 0;
    // 27 of a list is the same answer.
    let sound_list = buffer.0.get(..length as usize).is_some_and(|list| list_fault(list) == 0);
    let by_fill = filled && status == 27 && sound_list;
    let bad_size = check_element_size(size).is_err();
    let others_alone = !bad_size && used_bytes_are_0(fill, size);
    let mut all = vec![
        case(by_fill, "27 by a fill"),
        case(by_fill && bad_size, "27 by a fill, element size that 2 refuses"),
        case(by_fill && others_alone, "27 by a fill whose used bytes are 0 and others not"),
    ];
    for before in [25, 26, 30, 38, 1, 28] {
        all.push((filled && status == before, format!("{before} and 27 by a fill")));
    }
    all
}

/// "keeps there all that it was given, unchanged"
fn of_prepare(arguments: &[u8], status: u8) -> Vec<Case> {
    let (table, job): (Table, Job) = begin(arguments);
    let mut all = of_unused(&(job.tensor, job.config), status);
    all.push(case(status == 0 && job.config.fill != 0, "fill kept"));
    all.push(by_free_slot(&table, status));
    all
}

/// A slot's fill in the calls that take a handle.
fn of_slot(number: u8, arguments: &[u8], status: u8) -> Vec<Case> {
    let (table, handle): (Table, u32) = begin(arguments);
    let filled = |slot: usize| status == 0 && table.slot.get(slot).is_some_and(|slot| slot.job.config.fill != 0);
    let own = handle as usize;
    let mut all = vec![by_free_slot(&table, status), case(filled(own), "slot with a fill")];
    if number == RELEASE {
        all.push(case((0..4).any(|slot| slot != own && filled(slot)), "another slot with a fill"));
    }
    all
}

/// "free slots are all zero", "and the sound table includes" the fill: nothing else is wrong with this one.
fn by_free_slot(table: &Table, status: u8) -> Case {
    let mut zeroed = *table;
    for slot in zeroed.slot.iter_mut().filter(|slot| slot.state == FREE) {
        slot.job.config.fill = 0;
    }
    case(status == 18 && sound(&zeroed), "18 by the fill of a free slot")
}
