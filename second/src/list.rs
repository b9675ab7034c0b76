//! A list of moves: "mark `RML`, 16-bit version 1, 16-bit count, then that many 131-byte records".

use crate::moves::Config;
use crate::record::{self, Reading};
use crate::tensor::{refuse, Fault, Tensor};
use crate::wire::{wire_struct, Memory};
use std::ops::Range;

wire_struct! {
    /// "hands out one record at a time with its number"
    #[derive(Copy)]
    Numbered { number: u64, reading: Reading }
}

wire_struct! {
    /// What opening a list comes to, and its first two records.
    #[derive(Copy)]
    FirstTwo { status: u8, count: u64, first: Numbered, second: Numbered }
}

wire_struct! { Started { status: u8, buffer: Memory } }
wire_struct! { Appended { status: u8, dimension: u8, length: u64, buffer: Memory } }

/// The bytes before the first record: an "empty list of 7 bytes".
pub const HEAD: usize = 7;
const MARK: &[u8; 3] = b"RML";
const VERSION: u16 = 1;
/// "37 if it has 65,535 records"
const MOST: u16 = 65_535;

/// At which byte of the list each thing of its head starts.
pub mod at {
    pub const MARK: usize = 0;
    pub const VERSION: usize = 3;
    pub const COUNT: usize = 5;
}

/// "25 for under 7 bytes, 26, 27, then 30 where the length isn't 7 + 131 x count". How many records there are.
fn check_list(bytes: &[u8]) -> Result<u16, Fault> {
    if bytes.len() < HEAD {
        return refuse(25, 0);
    }
    if bytes[at::MARK..at::MARK + 3] != *MARK {
        return refuse(26, 0);
    }
    if two_bytes(bytes, at::VERSION) != VERSION {
        return refuse(27, 0);
    }
    let count = two_bytes(bytes, at::COUNT);
    // "The count makes nobody set memory aside; it must agree with the bytes."
    if bytes.len() != length_of(count) {
        return refuse(30, 0);
    }
    Ok(count)
}

/// A 16-bit number, little endian.
fn two_bytes(bytes: &[u8], start: usize) -> u16 {
    u16::from_le_bytes([bytes[start], bytes[start + 1]])
}

/// "7 + 131 x count"
pub fn length_of(count: u16) -> usize {
    HEAD + record::LENGTH * count as usize
}

/// Where a record stands, in a list that has it.
fn place_of(k: u64) -> Range<usize> {
    let start = HEAD + record::LENGTH * k as usize;
    start..start + record::LENGTH
}

/// The bytes of a record, in a list that has it.
pub fn record_bytes(bytes: &[u8], k: u64) -> &[u8] {
    &bytes[place_of(k)]
}

/// The call `list_fault`: what is wrong with a list.
pub fn list_fault(bytes: &[u8]) -> u8 {
    check_list(bytes).map_or_else(|fault| fault.status, |_| 0)
}

/// The call `record_count`. "A reader of a refused list has no records."
pub fn record_count(bytes: &[u8]) -> u64 {
    check_list(bytes).map_or(0, u64::from)
}

/// The call `record_at`. "Numbers start at 0." "A bad record's answer carries its number besides what demand 1 allows."
pub fn record_at(bytes: &[u8], k: u64) -> Numbered {
    if k >= record_count(bytes) {
        return past_the_last();
    }
    // "each record then as in 01"; "lists of version 1 hold only version 1 records", since each has 131 bytes
    Numbered { number: k, reading: record::read(record_bytes(bytes, k)) }
}

/// "39 past the last". There is no record that it could carry the number of.
fn past_the_last() -> Numbered {
    Numbered { number: 0, reading: Reading { status: 39, ..Reading::default() } }
}

/// The call `place_after`: the number after k. "The next is still read" behind a bad record; where there is no record
/// k, nothing is after it, and it is k itself.
pub fn place_after(bytes: &[u8], k: u64) -> u64 {
    if k < record_count(bytes) {
        k + 1
    } else {
        k
    }
}

/// "A list reader keeps the lent bytes and its place together."
pub struct ListReader<'a> {
    bytes: &'a [u8],
    place: u64,
}

impl<'a> ListReader<'a> {
    pub fn open(bytes: &'a [u8]) -> Self {
        ListReader { bytes, place: 0 }
    }

    /// "hands out one record at a time"
    pub fn next_record(&mut self) -> Numbered {
        let numbered = record_at(self.bytes, self.place);
        self.place = place_after(self.bytes, self.place);
        numbered
    }
}

/// The call `first_two`.
pub fn first_two(bytes: &[u8]) -> FirstTwo {
    let mut reader = ListReader::open(bytes);
    FirstTwo {
        status: list_fault(bytes),
        count: record_count(bytes),
        first: reader.next_record(),
        second: reader.next_record(),
    }
}

/// The call `start`. "A writer starts an empty list of 7 bytes (38 if the buffer is shorter)"; what lies behind them
/// stays.
pub fn start(mut buffer: Vec<u8>) -> Started {
    if buffer.len() < HEAD {
        return Started { status: 38, buffer: Memory(buffer) };
    }
    buffer[..HEAD].copy_from_slice(&head(0));
    Started { status: 0, buffer: Memory(buffer) }
}

/// The head of a list of so many records.
pub fn head(count: u16) -> [u8; HEAD] {
    let [r, m, l] = *MARK;
    let [v0, v1] = VERSION.to_le_bytes();
    let [c0, c1] = count.to_le_bytes();
    [r, m, l, v0, v1, c0, c1]
}

/// The call `append`: "only the count and the new 131 bytes change, and the new length is answered". A refused one has
/// length 0 and leaves the buffer.
pub fn append(tensor: &Tensor, config: &Config, length: u64, mut buffer: Vec<u8>) -> Appended {
    match check_append(tensor, config, length, &buffer) {
        Ok((count, record)) => {
            let end = length as usize;
            buffer[at::COUNT..HEAD].copy_from_slice(&(count + 1).to_le_bytes());
            buffer[end..end + record::LENGTH].copy_from_slice(&record);
            let length = length + record::LENGTH as u64;
            Appended { status: 0, dimension: 0, length, buffer: Memory(buffer) }
        }
        Err(fault) => Appended { status: fault.status, dimension: fault.dimension, length: 0, buffer: Memory(buffer) },
    }
}

/// "Append: those four for the list so far, 25 also where it is said to be longer than the buffer, 37 if it has 65,535
/// records, 38 if under 131 bytes remain, 1, 28", and 27 last. How many records the list has, and the bytes of the new
/// one. The records that it has are not looked at.
fn check_append(tensor: &Tensor, config: &Config, length: u64, buffer: &[u8]) -> Result<(u16, Vec<u8>), Fault> {
    if length > buffer.len() as u64 {
        return refuse(25, 0);
    }
    // "of which the caller says how many first bytes are the list so far"
    let (list, room) = buffer.split_at(length as usize);
    let count = check_list(list)?;
    if count == MOST {
        return refuse(37, 0);
    }
    if room.len() < record::LENGTH {
        return refuse(38, 0);
    }
    Ok((count, written(tensor, config)?))
}

/// "1, 28" of a version 1 record, which asks nothing of the fill; then "append gives 27, last, for a fill not 0".
fn written(tensor: &Tensor, config: &Config) -> Result<Vec<u8>, Fault> {
    record::check_fields(record::VERSION, tensor, config)?;
    if config.fill != 0 {
        return refuse(27, 0);
    }
    Ok(record::pack_as(record::VERSION, tensor, config))
}
