//! The cases of where parts start: on a boundary of their elements or off it, in jobs and in the slots of tables.
//! Numbers alone do not tell them apart, and a long comparison has to meet each.

use super::case::{case, met_by_status, named, Case};
use super::input::STATES;
use super::number::{ADVANCE, GIVE_BACK, JUDGE_JOB, PLAIN_ADVANCE, POLL, PREPARE, RELEASE, START, STEP};
use crate::job::{break_rule, judge_job, meets, Job, Part};
use crate::keeper::block_bytes;
use crate::tensor::check_element_size;
use crate::transfers::{sound, Table, FREE};
use crate::wire::begin;

/// The element sizes that 34 looks at: every byte is a multiple of 1, and "3-byte elements may start anywhere".
pub const HELD: [u8; 2] = [2, 4];

/// Some of the numbers before 34 that a job of few elements can be given.
const BEFORE: [u8; 5] = [1, 5, 9, 12, 13];

/// All cases of the call of this number.
pub fn cases(number: u8) -> Vec<String> {
    named(&all(number, &[], 0))
}

/// The cases that a call with these bytes is, by what it has to be answered.
pub fn met(bytes: &[u8], expected: &[u8]) -> Vec<String> {
    met_by_status(all, bytes, expected)
}

/// Each case of the call of this number, and whether it is one with these arguments and this status. The names are the
/// same for any.
fn all(number: u8, arguments: &[u8], status: u8) -> Vec<Case> {
    match number {
        JUDGE_JOB => {
            let (length, job): (u64, Job) = begin(arguments);
            [of_job(&job, status), of_far_starts(length, &job, status)].concat()
        }
        ADVANCE | PLAIN_ADVANCE => of_job(&begin(arguments), status),
        PREPARE => {
            let (table, job): (Table, Job) = begin(arguments);
            let parts = [of_job(&job, status), of_prepare(&table, &job, status)];
            [parts.concat(), of_blocks(&table, &job, status), of_table(&table, status)].concat()
        }
        START | STEP | RELEASE | POLL | GIVE_BACK => of_table(&begin(arguments), status),
        _ => Vec::new(),
    }
}

/// Whether a part starts off a boundary. Of a size that 2 refuses there are none.
fn is_off(job: &Job, part: &Part) -> bool {
    check_element_size(job.tensor.element_size).is_ok() && part.is_off_boundary(job.tensor.element_size)
}

/// Whether the source is off a boundary, and whether the destination is.
fn off_parts(job: &Job) -> (bool, bool) {
    (is_off(job, &job.source), is_off(job, &job.destination))
}

/// Whether 34 applies to a job, whatever else does.
fn is_34(job: &Job) -> bool {
    off_parts(job) != (false, false)
}

/// Both parts by their names.
fn both(job: &Job) -> [(&'static str, Part); 2] {
    [("source", job.source), ("destination", job.destination)]
}

fn of_job(job: &Job, status: u8) -> Vec<Case> {
    [of_refused(job, status), of_free_sizes(job, status), of_held_sizes(job, status), of_order(job, status)].concat()
}

/// "a source or destination part whose start isn't a multiple of the element size": which of them, and by how much.
fn of_refused(job: &Job, status: u8) -> Vec<Case> {
    let mut all = Vec::new();
    for size in HELD {
        let by = |off: (bool, bool)| status == 34 && job.tensor.element_size == size && off_parts(job) == off;
        for past in 1..size {
            let at = |part: Part| part.start % size as u64 == past as u64;
            let (source, destination) = (at(job.source), at(job.destination));
            all.push((by((true, false)) && source, format!("34 by a {size}-byte source alone, {past} past")));
            all.push((by((false, true)) && destination, format!("34 by a {size}-byte destination alone, {past} past")));
        }
        all.push((by((true, true)), format!("34 by both {size}-byte parts")));
    }
    all
}

/// "3-byte elements may start anywhere", and every byte is a multiple of 1.
fn of_free_sizes(job: &Job, status: u8) -> Vec<Case> {
    let mut all = Vec::new();
    for (name, part) in both(job) {
        let accepted = |size: u8| status == 0 && job.tensor.element_size == size;
        for size in [1, 3] {
            all.push((accepted(size) && part.start % 2 == 1, format!("{size}-byte {name} at an odd byte")));
        }
        for past in 1..3 {
            all.push((accepted(3) && part.start % 3 == past, format!("3-byte {name}, {past} past")));
        }
    }
    all
}

/// "whose start isn't a multiple of the element size": no multiple of more is asked for, and nothing of the length.
fn of_held_sizes(job: &Job, status: u8) -> Vec<Case> {
    let mut all = Vec::new();
    for (name, part) in both(job) {
        for size in HELD {
            let accepted = status == 0 && job.tensor.element_size == size;
            let (times, left) = (part.start / size as u64, part.length % size as u64);
            all.push((accepted && times % 2 == 1, format!("{size}-byte {name} at an odd multiple")));
            all.push((accepted && left != 0, format!("{size}-byte {name} whose length is no multiple")));
        }
    }
    all
}

/// "34 after 13 and before 21"
fn of_order(job: &Job, status: u8) -> Vec<Case> {
    let mut all = vec![case(status == 20 && is_34(job), "20 and 34")];
    all.extend(BEFORE.map(|before| (status == before && is_34(job), format!("{before} and 34"))));
    all.push(case(status == 34 && meets(&job.source, &job.destination), "34 and 21"));
    all
}

/// Starts of more than 63 bits, and parts that end where a memory of the largest length does.
fn of_far_starts(length: u64, job: &Job, status: u8) -> Vec<Case> {
    let held = HELD.contains(&job.tensor.element_size);
    let far = |part: &Part| part.start >= 1 << 63;
    let at_the_end = |part: &Part| length == u64::MAX && part.start.checked_add(part.length) == Some(length);
    let off =
        |is: &dyn Fn(&Part) -> bool| status == 34 && both(job).iter().any(|(_, part)| is_off(job, part) && is(part));
    let on = |is: &dyn Fn(&Part) -> bool| status == 0 && held && both(job).iter().any(|(_, part)| is(part));
    vec![
        case(off(&far), "34 from byte 2^63 on"),
        case(on(&far), "on a boundary from byte 2^63 on"),
        case(off(&at_the_end), "34 up to the end of 2^64 - 1 bytes"),
        case(on(&at_the_end), "on a boundary up to the end of 2^64 - 1 bytes"),
    ]
}

/// "Prepare: 17 to 20, 1 to 13, 21, 22", and "34 after 13 and before 21".
fn of_prepare(table: &Table, job: &Job, status: u8) -> Vec<Case> {
    let meets_another = table.slot.iter().any(|slot| slot.state != FREE && break_rule(job, &slot.job));
    let alone = meets_another && !meets(&job.source, &job.destination);
    let just_34 = judge_job(table.length, job).status == 34;
    let mut all: Vec<Case> =
        [17, 18, 19].map(|before| (status == before && just_34, format!("{before} and 34"))).into();
    all.push(case(status == 34 && alone, "34 and 22"));
    all
}

/// FORMAT: "Where the memory's length is a multiple of 256, every block starts at a multiple of 4".
fn of_blocks(table: &Table, job: &Job, status: u8) -> Vec<Case> {
    let block = block_bytes(table.length);
    let is_block = |part: &Part| block > 0 && part.start > 0 && part.start % block == 0;
    let both_are = is_block(&job.source) && is_block(&job.destination);
    let one_is_off = both(job).iter().any(|(_, part)| is_block(part) && is_off(job, part));
    let mut all = Vec::new();
    for size in HELD {
        let of_size = job.tensor.element_size == size;
        let accepted = status == 0 && both_are && table.length % 256 == 0;
        all.push((of_size && accepted, format!("{size}-byte parts at blocks of a multiple of 256 bytes")));
        all.push((of_size && status == 34 && one_is_off, format!("34 by a {size}-byte part at a block")));
    }
    all
}

/// "A table with such a slot is not sound": nothing else is wrong with this one, and of the slot just one part.
fn of_table(table: &Table, status: u8) -> Vec<Case> {
    let mut free_of_it = *table;
    let mut off = Vec::new();
    for slot in free_of_it.slot.iter_mut().filter(|slot| slot.state != FREE) {
        if judge_job(table.length, &slot.job).status == 34 {
            off.push((slot.state, off_parts(&slot.job)));
            slot.job.tensor.element_size = 1;
        }
    }
    let alone = status == 18 && off.len() == 1 && sound(&free_of_it);
    let mut all = Vec::new();
    for (state, name) in STATES {
        let by = |parts: (bool, bool)| alone && off[0] == (state, parts);
        all.push((by((true, false)), format!("18 by a {name} slot whose source is off a boundary")));
        all.push((by((false, true)), format!("18 by a {name} slot whose destination is off a boundary")));
    }
    all
}
