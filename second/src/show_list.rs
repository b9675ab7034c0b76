//! What the program `rmvlist` prints.

use crate::list::{list_fault, record_count, ListReader, Numbered};
use crate::moves::room;
use std::fmt::Write;

/// "a list of up to 1,000 records, 131,007 bytes"
pub const INPUT_LIMIT: usize = 131_007;

/// "An input that is longer than 131,007 bytes gets one line, whatever it holds"
pub const LONGER: &str = "input longer than 131007 bytes, which are 1000 records\n";

/// The output for these bytes of standard input.
pub fn show_list(input: &[u8]) -> String {
    if input.len() > INPUT_LIMIT {
        return LONGER.to_string();
    }
    let status = list_fault(input);
    // "A refused list prints its status alone"
    if status != 0 {
        return format!("status {status}\n");
    }
    let count = record_count(input);
    let mut out = format!("status 0 records {count}\n");
    let mut reader = ListReader::open(input);
    for _ in 0..count {
        out += &line(&reader.next_record());
    }
    out
}

/// "a line a record: its number, status and dimension. For a record that is not refused there follow rank, element
/// size, the shape with as many entries as the rank, and the room question's status and dimension, with span and need
/// where that status is 0."
fn line(numbered: &Numbered) -> String {
    let reading = &numbered.reading;
    let mut out = format!("record {} status {} dim {}", numbered.number, reading.status, reading.dimension);
    if reading.status == 0 {
        let tensor = &reading.tensor;
        let _ = write!(out, " rank {} element {} shape", tensor.rank, tensor.element_size);
        for entry in &tensor.shape[..tensor.rank as usize] {
            let _ = write!(out, " {entry}");
        }
        let room = room(tensor, &reading.config);
        let _ = write!(out, " room {} dim {}", room.answer.status, room.answer.dimension);
        if room.answer.status == 0 {
            let _ = write!(out, " span {} need {}", room.span, room.answer.need);
        }
    }
    out + "\n"
}
