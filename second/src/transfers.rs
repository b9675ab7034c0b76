//! "Four transfers over one memory."

use crate::job::{break_rule, judge_job, move_some, plan_job, Job};
use crate::moves::total;
use crate::tensor::{Fault, LIMIT};
use crate::wire::{wire_struct, Memory};

pub const FREE: u8 = 0;
pub const PREPARED: u8 = 1;
pub const RUNNING: u8 = 2;
pub const DONE: u8 = 3;

wire_struct! {
    #[derive(Copy)]
    Slot { state: u8, job: Job, moved: u64 }
}

wire_struct! {
    #[derive(Copy)]
    Table { length: u64, slot: [Slot; 4] }
}

wire_struct! { Fresh { status: u8, table: Table } }
wire_struct! { Prepared { status: u8, dimension: u8, handle: u32, table: Table } }
wire_struct! { Changed { status: u8, table: Table } }
wire_struct! { Stepped { status: u8, count: u64, table: Table, memory: Memory } }
wire_struct! {
    /// "A poll says free, prepared with what is left, running with what is left, or done."
    #[derive(Copy)]
    Poll { status: u8, state: u8, left: u64 }
}

/// The call `fresh`: "A fresh table is made for a memory length of 0 to 2,147,483,647 and has four free slots."
/// "A refused fresh table has length 0 and free slots."
pub fn fresh(length: u64) -> Fresh {
    if length > LIMIT {
        return Fresh { status: 17, table: Table::default() };
    }
    Fresh { status: 0, table: Table { length, ..Table::default() } }
}

/// "A table is sound if its length is within the limit, free slots are all zero, every other slot passes 20, 1 to 13
/// and 21 for the table's length, no two slots break the rule just given", and what `sound_slot` says. One with a part
/// off an element boundary, which is 34, "is not sound" either.
pub fn sound(table: &Table) -> bool {
    table.length <= LIMIT
        && table.slot.iter().all(|slot| sound_slot(table.length, slot))
        && (0..4).all(|a| (0..4).all(|b| a == b || !slots_break_rule(&table.slot[a], &table.slot[b])))
}

/// "moved is 0 when prepared, below the total when running, the total when done". No other state is sound.
fn sound_slot(length: u64, slot: &Slot) -> bool {
    if slot.state == FREE {
        return *slot == Slot::default();
    }
    let judged = judge_job(length, &slot.job);
    judged.status == 0
        && match slot.state {
            PREPARED => slot.moved == 0,
            RUNNING => slot.moved < judged.total,
            DONE => slot.moved == judged.total,
            _ => false,
        }
}

/// "Slots that are not free may share source parts; no destination part meets another slot's source or destination."
fn slots_break_rule(a: &Slot, b: &Slot) -> bool {
    a.state != FREE && b.state != FREE && break_rule(&a.job, &b.job)
}

/// 17, 18: what every call over a memory asks first.
fn check_table(table: &Table, memory: usize) -> Result<(), Fault> {
    // 17: "memory length differs from the table's"
    if memory as u64 != table.length {
        return number(17);
    }
    if !sound(table) {
        return number(18);
    }
    Ok(())
}

/// 17, 18, 23, 24: the slot of a handle, which has to be in that state.
fn find(table: &Table, handle: u32, memory: usize, state: u8) -> Result<usize, Fault> {
    check_table(table, memory)?;
    // 23: "handle above 3 or slot free"
    if handle > 3 || table.slot[handle as usize].state == FREE {
        return number(23);
    }
    // 24: "slot not prepared (start), not running (step), not done (release)"
    if table.slot[handle as usize].state != state {
        return number(24);
    }
    Ok(handle as usize)
}

fn number<T>(status: u8) -> Result<T, Fault> {
    Err(Fault { status, dimension: 0 })
}

/// The call `prepare`. A refused one hands back the table that it was given.
pub fn prepare(table: &Table, job: &Job, memory: usize) -> Prepared {
    match place(table, job, memory) {
        Ok(handle) => {
            // "keeps there all that it was given, unchanged, answers the slot as the handle, and moves nothing"
            let mut table = *table;
            table.slot[handle] = Slot { state: PREPARED, job: *job, moved: 0 };
            Prepared { status: 0, dimension: 0, handle: handle as u32, table }
        }
        Err(fault) => Prepared { status: fault.status, dimension: fault.dimension, handle: 0, table: *table },
    }
}

/// "Prepare: 17 to 20, 1 to 13, 21, 22", and "34 after 13 and before 21". The slot that the job takes.
fn place(table: &Table, job: &Job, memory: usize) -> Result<usize, Fault> {
    check_table(table, memory)?;
    // 19: "no free slot"; "it takes the lowest free slot"
    let Some(handle) = table.slot.iter().position(|slot| slot.state == FREE) else {
        return number(19);
    };
    plan_job(table.length, job)?;
    // 22: "parts break the rule with another slot"
    if table.slot.iter().any(|slot| slot.state != FREE && break_rule(job, &slot.job)) {
        return number(22);
    }
    Ok(handle)
}

/// The call `start`: "Start makes it running."
pub fn start(table: &Table, handle: u32, memory: usize) -> Changed {
    match find(table, handle, memory, PREPARED) {
        Ok(handle) => {
            let mut table = *table;
            table.slot[handle].state = RUNNING;
            Changed { status: 0, table }
        }
        Err(fault) => Changed { status: fault.status, table: *table },
    }
}

/// The call `step`: "moves min(budget, left) further elements", "and reports how many". "With none left it is done."
pub fn step(table: &Table, handle: u32, budget: u64, mut memory: Vec<u8>) -> Stepped {
    match find(table, handle, memory.len(), RUNNING) {
        Ok(handle) => {
            let mut table = *table;
            let slot = &mut table.slot[handle];
            let plan = plan_job(table.length, &slot.job).expect("the table is sound");
            let count = move_some(&slot.job, &plan, &mut memory, slot.moved, budget);
            slot.moved += count;
            if slot.moved == total(&plan) {
                slot.state = DONE;
            }
            Stepped { status: 0, count, table, memory: Memory(memory) }
        }
        Err(fault) => Stepped { status: fault.status, count: 0, table: *table, memory: Memory(memory) },
    }
}

/// The call `release`: "Release frees a done slot and zeroes it."
pub fn release(table: &Table, handle: u32, memory: usize) -> Changed {
    match find(table, handle, memory, DONE) {
        Ok(handle) => {
            let mut table = *table;
            table.slot[handle] = Slot::default();
            Changed { status: 0, table }
        }
        Err(fault) => Changed { status: fault.status, table: *table },
    }
}

/// The call `poll`. "Poll: 18; a handle above 3 gives 23."
pub fn poll(table: &Table, handle: u32) -> Poll {
    if !sound(table) {
        return Poll { status: 18, ..Poll::default() };
    }
    if handle > 3 {
        return Poll { status: 23, ..Poll::default() };
    }
    let slot = &table.slot[handle as usize];
    let left = match slot.state {
        FREE | DONE => 0,
        _ => judge_job(table.length, &slot.job).total - slot.moved,
    };
    Poll { status: 0, state: slot.state, left }
}
