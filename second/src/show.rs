//! What the program `rmvshow` prints, and what `rmvpixel` shares with it.

use crate::moves::{judge, move_plane, Answer};
use crate::record::{self, Reading};
use crate::tensor::Fault;
use std::fmt::Write;

/// "up to 16,384 source bytes from standard input (the rest unread)"
pub const SOURCE_LIMIT: usize = 16_384;
/// "moves into 32,768 zeroed bytes"
pub const ROOM: usize = 32_768;

/// The record, and what is read of the source. "The program takes the record's length from its version, 131 if that
/// isn't 2", whatever its mark; of an input that ends earlier it takes what is there.
pub fn take(input: &[u8]) -> (Reading, &[u8]) {
    let (bytes, source) = input.split_at(input.len().min(record::length_in(input)));
    (record::read(bytes), &source[..source.len().min(SOURCE_LIMIT)])
}

/// The number that is told for these bytes of standard input.
pub fn number(input: &[u8]) -> u8 {
    let (reading, source) = take(input);
    if reading.status != 0 {
        return reading.status;
    }
    judge(&reading.tensor, &reading.config, source.len() as u64, ROOM as u64).status
}

/// The output for these bytes of standard input.
pub fn show(input: &[u8]) -> String {
    let (reading, source) = take(input);
    if reading.status != 0 {
        return first_line(Fault { status: reading.status, dimension: reading.dimension });
    }
    let mut room = vec![0; ROOM];
    let answer = move_plane(&reading.tensor, &reading.config, source, &mut room);
    let mut out = first_line(Fault { status: answer.status, dimension: answer.dimension });
    // "for a refusal only the first line"
    if answer.status == 0 {
        out += &accepted(&answer, &room);
    }
    out
}

/// Status and dimension.
pub fn first_line(fault: Fault) -> String {
    format!("status {} dim {}\n", fault.status, fault.dimension)
}

/// "in lower-case hexadecimal", with a blank between two bytes.
pub fn in_hexadecimal(bytes: &[u8]) -> String {
    let bytes: Vec<String> = bytes.iter().map(|byte| format!("{byte:02x}")).collect();
    bytes.join(" ")
}

/// "shape and stride show as many entries as the rank"; "prints the first of them, as many as the need, on one line in
/// lower-case hexadecimal"
fn accepted(answer: &Answer, room: &[u8]) -> String {
    let rank = answer.rank as usize;
    let mut out = String::from("shape");
    for entry in &answer.extent[..rank] {
        let _ = write!(out, " {entry}");
    }
    out += " stride";
    for entry in &answer.stride[..rank] {
        let _ = write!(out, " {entry}");
    }
    let _ = write!(out, "\nneed {}\n", answer.need);
    out + &in_hexadecimal(&room[..answer.need as usize]) + "\n"
}
