//! Refusals that their number alone does not tell apart: 8 by a sum that would wrap, and two numbers that apply to one
//! call, so that the order shows. A long comparison has to meet each. Element sizes, counts, destination offsets,
//! boundaries, lists and records have such cases with their others.

use super::case::{case, met_by_status, named, Case};
use super::number::{
    ADVANCE, JUDGE, JUDGE_JOB, MOVER_SUB_TENSOR, MOVE_PLANE, PLAIN_ADVANCE, PLAIN_MOVE, POLL, PREPARE, RELEASE, ROOM,
    START, STEP, SUB_PART, SUB_TENSOR,
};
use crate::helpers::{sub_tensor, SubConfig};
use crate::job::{break_rule, judge_job, meets, Job};
use crate::moves::{judge, Config};
use crate::tensor::Tensor;
use crate::transfers::{sound, Table, FREE};
use crate::wire::{begin, Rest};

/// All cases of the call of this number.
pub fn cases(number: u8) -> Vec<String> {
    named(&all(number, &[], 0))
}

/// The cases that a call with these bytes is, by what it has to be answered.
pub fn met(bytes: &[u8], expected: &[u8]) -> Vec<String> {
    met_by_status(all, bytes, expected)
}

/// Each case of the call of this number, and whether it is one with these arguments and this status. The names are the
/// same for any.
fn all(number: u8, arguments: &[u8], status: u8) -> Vec<Case> {
    match number {
        ROOM | JUDGE | MOVE_PLANE | PLAIN_MOVE => of_move(begin(arguments), status),
        SUB_TENSOR => of_sub_tensor(begin(arguments)),
        SUB_PART | MOVER_SUB_TENSOR => {
            let (tensor, config, source): (Tensor, SubConfig, Rest) = begin(arguments);
            of_sub_tensor((tensor, config, source.0.len() as u64))
        }
        JUDGE_JOB => of_job(&begin::<(u64, Job)>(arguments).1, status),
        ADVANCE | PLAIN_ADVANCE => of_job(&begin(arguments), status),
        PREPARE => of_prepare(begin(arguments), status),
        START | STEP | RELEASE => of_turn(begin(arguments), status),
        POLL => of_poll(begin(arguments), status),
        _ => Vec::new(),
    }
}

/// "size + offset above shape", nowhere so if the sum had 32 bits.
fn wraps(tensor: &Tensor, offset: &[u32; 4], size: &[u32; 4]) -> bool {
    (0..tensor.rank.min(4) as usize).all(|d| size[d].wrapping_add(offset[d]) <= tensor.shape[d])
}

fn of_move((tensor, config): (Tensor, Config), status: u8) -> Vec<Case> {
    vec![case(status == 8 && wraps(&tensor, &config.offset, &config.size), "8 by a sum that wraps")]
}

/// "Sub-tensor: 1 to 5, 7, 8, 14, 15." A part by itself has no number, so that it is asked for here.
fn of_sub_tensor((tensor, config, source): (Tensor, SubConfig, u64)) -> Vec<Case> {
    let status = sub_tensor(&tensor, &config, source).status;
    let rank = tensor.rank.min(4) as usize;
    let (shape, offset, size) = (&tensor.shape[..rank], &config.offset[..rank], &config.size[..rank]);
    let bad_offset = (0..rank).any(|d| offset[d] >= shape[d]);
    let bad_size = (0..rank).any(|d| size[d] == 0 || size[d] as u64 + offset[d] as u64 > shape[d] as u64);
    let bad_rank = config.rank == 0 || config.rank as usize > rank;
    let is_empty = size.contains(&0);
    let units = size.iter().filter(|&&size| size == 1).count();
    vec![
        case(status == 8 && is_empty, "8 by size 0"),
        case(status == 8 && !is_empty && wraps(&tensor, &config.offset, &config.size), "8 by a sum that wraps"),
        case(status == 5 && bad_offset, "5 and 7"),
        case(status == 7 && bad_size, "7 and 8"),
        case(status == 8 && bad_rank, "8 and 14"),
        case(status == 14 && config.rank == 0 && units < rank, "14 and 15"),
    ]
}

/// "20, 1 to 13, 34, 21"; the pairs with 34 are in `boundaries.rs`.
fn of_job(job: &Job, status: u8) -> Vec<Case> {
    let by_itself = judge(&job.tensor, &job.config, job.source.length, job.destination.length).status;
    let own_parts_meet = meets(&job.source, &job.destination);
    let mut all = of_move((job.tensor, job.config), status);
    all.push(case(status == 20 && by_itself != 0, "20 and one of 1 to 13"));
    all.push(case((1..=13).contains(&status) && own_parts_meet, "one of 1 to 13 and 21"));
    all
}

/// "Prepare: 17 to 20, 1 to 13, 21, 22", and "34 after 13 and before 21".
fn of_prepare((table, job): (Table, Job), status: u8) -> Vec<Case> {
    let is_full = table.slot.iter().all(|slot| slot.state != FREE);
    let leaves = judge_job(table.length, &job).status == 20;
    let meets_another = table.slot.iter().any(|slot| slot.state != FREE && break_rule(&job, &slot.job));
    let mut all = of_job(&job, status);
    all.push(case(status == 17 && !sound(&table), "17 and 18"));
    all.push(case(status == 18 && is_full, "18 and 19"));
    all.push(case(status == 19 && leaves, "19 and 20"));
    all.push(case(status == 21 && meets_another, "21 and 22"));
    all
}

/// "Start, step, release: 17, 18, 23, 24." Where 23 applies, 24 always does.
fn of_turn((table, handle): (Table, u32), status: u8) -> Vec<Case> {
    let is_transfer = table.slot.get(handle as usize).is_some_and(|slot| slot.state != FREE);
    vec![case(status == 17 && !sound(&table), "17 and 18"), case(status == 18 && !is_transfer, "18 and 23")]
}

/// "Poll: 18; a handle above 3 gives 23."
fn of_poll((_, handle): (Table, u32), status: u8) -> Vec<Case> {
    vec![case(status == 18 && handle > 3, "18 and 23")]
}
