//! "Room in the working memory": which blocks of a memory are taken.

use crate::job::{meets, Part};
use crate::tensor::LIMIT;
use crate::transfers::{sound, Table, FREE};
use crate::wire::wire_struct;
use std::ops::Range;

/// "64 blocks from the memory's start"
pub const BLOCKS: u32 = 64;

wire_struct! {
    /// The run that a request gets, and the word with it taken.
    #[derive(Copy)]
    Granted { status: u8, first: u32, word: u64 }
}

wire_struct! {
    /// The word without the run that was given back.
    #[derive(Copy)]
    GivenBack { status: u8, word: u64 }
}

wire_struct! {
    /// The part of a memory that a run is.
    #[derive(Copy)]
    RunPart { status: u8, part: Part }
}

/// "one word that says which are taken, block 0 in the lowest bit"
pub fn is_taken(word: u64, block: u32) -> bool {
    (word >> block) & 1 == 1
}

/// "each a 64th of its length rounded down"
pub fn block_bytes(length: u64) -> u64 {
    length / 64
}

/// 31: "n outside 1 to 64"
pub fn bad_number(n: u32) -> bool {
    !(1..=BLOCKS).contains(&n)
}

/// 31: "or a run past the end". CALLS: "first + n is meant without wrapping".
pub fn past_the_end(first: u32, n: u32) -> bool {
    first as u64 + n as u64 > BLOCKS as u64
}

/// 31: "for n outside 1 to 64 or a run past the end"
fn check_run(first: u32, n: u32) -> Result<(), u8> {
    if bad_number(n) || past_the_end(first, n) {
        return Err(31);
    }
    Ok(())
}

/// The call `request`: "A request for n blocks, n from 1 to 64, gets the lowest run of n free neighbours, and is refused
/// exactly if there is no such run; any other n is refused too." "a refusal hands the word back unchanged"
pub fn request(word: u64, n: u32) -> Granted {
    match find(word, n) {
        Ok(first) => Granted { status: 0, first, word: run(first, n).fold(word, |word, block| word | 1 << block) },
        Err(status) => Granted { status, first: 0, word },
    }
}

/// 31, 32: where the run of a request begins.
fn find(word: u64, n: u32) -> Result<u32, u8> {
    if bad_number(n) {
        return Err(31);
    }
    // 32: "for no run"
    lowest_run(word, n).ok_or(32)
}

/// "the lowest run of n free neighbours"
fn lowest_run(word: u64, n: u32) -> Option<u32> {
    (0..=BLOCKS - n).find(|&first| run(first, n).all(|block| !is_taken(word, block)))
}

/// The blocks of a run that has passed 31.
fn run(first: u32, n: u32) -> Range<u32> {
    first..first + n
}

/// The call `give_back`: "Given back blocks are used again." "a refusal hands the word back unchanged"
pub fn give_back(table: &Table, word: u64, first: u32, n: u32) -> GivenBack {
    match check_give_back(table, word, first, n) {
        Ok(()) => GivenBack { status: 0, word: run(first, n).fold(word, |word, block| word & !(1 << block)) },
        Err(status) => GivenBack { status, word },
    }
}

/// "giving back has 17 for a table of length under 64 and 18 first; then 31 ..., 33 for a run that can't be given back,
/// in that order"
fn check_give_back(table: &Table, word: u64, first: u32, n: u32) -> Result<(), u8> {
    if table.length < 64 {
        return Err(17);
    }
    if !sound(table) {
        return Err(18);
    }
    check_run(first, n)?;
    // 33: "A run with a block not taken can't be given back, nor one with bytes of a slot that is not free"
    if !run(first, n).all(|block| is_taken(word, block)) || has_bytes_of_a_slot(table, first, n) {
        return Err(33);
    }
    Ok(())
}

/// "bytes of a slot that is not free": of its source or of its destination, whatever else its state is.
fn has_bytes_of_a_slot(table: &Table, first: u32, n: u32) -> bool {
    let run = bytes_of_run(table.length, first, n);
    let used = table.slot.iter().filter(|slot| slot.state != FREE);
    used.map(|slot| &slot.job).any(|job| meets(&run, &job.source) || meets(&run, &job.destination))
}

/// The bytes of a run that has passed 31: its blocks lie one after another "from the memory's start".
pub fn bytes_of_run(length: u64, first: u32, n: u32) -> Part {
    Part { start: first as u64 * block_bytes(length), length: n as u64 * block_bytes(length) }
}

/// The call `free_blocks`: "It tells how many blocks are free".
pub fn free_blocks(word: u64) -> u32 {
    (0..BLOCKS).filter(|&block| !is_taken(word, block)).count() as u32
}

/// The call `free_before_first_taken`: "how many lie free before the first taken one, 64 if none is taken".
pub fn free_before_first_taken(word: u64) -> u32 {
    (0..BLOCKS).take_while(|&block| !is_taken(word, block)).count() as u32
}

/// The call `part_of`. FORMAT: 17 where "the length is under 64 or above the limit", then 31.
pub fn part_of(length: u64, first: u32, n: u32) -> RunPart {
    match check_part(length, first, n) {
        Ok(()) => RunPart { status: 0, part: bytes_of_run(length, first, n) },
        Err(status) => RunPart { status, part: Part::default() },
    }
}

fn check_part(length: u64, first: u32, n: u32) -> Result<(), u8> {
    if !(64..=LIMIT).contains(&length) {
        return Err(17);
    }
    check_run(first, n)
}
