//! The cases of `rmvlist`: each number that it prints, of a list, a record and a room question, and the longest inputs. A
//! long comparison has to meet each.

use super::case::holding;
use super::input::{is_least, is_mirrored};
use crate::list::{list_fault, record_bytes, record_count};
use crate::moves::room;
use crate::record::{self, version_in, VERSION_WITH_FILL};
use crate::show_list::{INPUT_LIMIT, LONGER};
use crate::tensor::{Tensor, ELEMENT_SIZES};
use std::fmt::Display;

/// The numbers that it can tell of a list.
const LIST: &[u8] = &[0, 25, 26, 27, 30];
/// Of a record: those of a record read, but for 25, since it always has its 131 bytes, and for 2, which only version 2
/// gives.
const RECORD: &[u8] = &[0, 26, 27, 1, 28];
/// Of a room question: 1 was given when the record was read.
const ROOM: &[u8] = &[0, 2, 3, 4, 6, 7, 8, 9, 10, 11, 12];

/// 27 for a record whose 131 bytes are those of version 2.
const VERSION_2: &str = "record of version 2";

/// A room question about a plane that counts down, and one about a stride whose size is above the limit.
const COUNTS_DOWN: &str = "room 0 of a plane that counts down";
const LEAST: &str = "room 4 by -2147483648";

/// The longest inputs, and those that are just longer.
const LONGEST_LIST: &str = "1000 records";
const LONGEST_INPUT: &str = "131007 bytes that are no list";
const LONGER_LIST: &str = "1001 records";
const BYTE_MORE: &str = "131008 bytes";

/// All numbers that it can tell, and of a record and a room question what they do not tell.
pub fn numbers() -> Vec<String> {
    let mut cases = [VERSION_2, COUNTS_DOWN, LEAST].map(String::from).to_vec();
    for (of, numbers) in [("list", LIST), ("record", RECORD), ("room", ROOM)] {
        cases.extend(numbers.iter().map(|number| format!("{of} {number}")));
    }
    cases.extend(ELEMENT_SIZES.map(room_for));
    cases
}

/// A room question that is answered with span and need.
fn room_for(size: impl Display) -> String {
    format!("room for {size}-byte elements")
}

/// All that a long comparison has to meet.
pub fn cases() -> Vec<String> {
    let longest = [LONGEST_LIST, LONGEST_INPUT, LONGER_LIST, BYTE_MORE].map(String::from);
    [numbers(), longest.to_vec()].concat()
}

/// The cases that an input is, by what has to be printed for it.
pub fn met(input: &[u8], expected: &str) -> Vec<String> {
    if expected == LONGER {
        let case = if input.len() == INPUT_LIMIT + 1 { BYTE_MORE } else { LONGER_LIST };
        return vec![case.to_string()];
    }
    let mut met = Vec::new();
    for line in expected.lines() {
        let words: Vec<&str> = line.split(' ').collect();
        match words[..] {
            ["status", number, ..] => met.push(format!("list {number}")),
            ["record", _, "status", number, ..] => met.push(format!("record {number}")),
            _ => met.push(line.to_string()),
        }
        let behind = |name: &str| words.iter().position(|&word| word == name).map(|place| words[place + 1]);
        if let (Some(size), Some(room)) = (behind("element"), behind("room")) {
            met.push(format!("room {room}"));
            met.extend((room == "0").then(|| room_for(size)));
        }
    }
    if (0..record_count(input)).any(|k| version_in(record_bytes(input, k)) == Some(VERSION_WITH_FILL)) {
        met.push(VERSION_2.to_string());
    }
    met.extend(signs_met(input));
    if input.len() == INPUT_LIMIT {
        let case = if list_fault(input) == 0 { LONGEST_LIST } else { LONGEST_INPUT };
        met.push(case.to_string());
    }
    met
}

/// By the records that are not refused.
fn signs_met(input: &[u8]) -> Vec<String> {
    let readings = (0..record_count(input)).map(|k| record::read(record_bytes(input, k)));
    let good: Vec<_> = readings.filter(|reading| reading.status == 0).collect();
    let answered = |number: u8, tells: fn(&Tensor) -> bool| {
        good.iter().any(|of| tells(&of.tensor) && room(&of.tensor, &of.config).answer.status == number)
    };
    holding(&[(answered(0, is_mirrored), COUNTS_DOWN), (answered(4, is_least), LEAST)])
}
