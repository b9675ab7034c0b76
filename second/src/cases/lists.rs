//! The cases of lists of moves that a number alone does not tell apart. A long comparison has to meet each.

use super::case::holding;
use super::number::{APPEND, FIRST_TWO, LIST_FAULT, RECORD_AT};
use crate::list::{length_of, list_fault, record_at, record_count, HEAD};
use crate::moves::Config;
use crate::record::{self, has_entry};
use crate::tensor::Tensor;
use crate::wire::{whole, Memory, Rest};

/// Something to append, the buffer, and how many of its first bytes are said to be the list so far. A list that is only
/// read is all of its bytes.
#[derive(Clone)]
pub struct Asked {
    pub tensor: Tensor,
    pub config: Config,
    pub length: u64,
    pub buffer: Vec<u8>,
}

/// The order of a list that is read, and of an append, whose 37 no line can have.
const READ_ORDER: &[u8] = &[25, 26, 27, 30];
pub const APPEND_ORDER: &[u8] = &[25, 26, 27, 30, 38, 1, 28];

/// Each number with each that comes behind it in an order.
pub fn pairs(order: &[u8]) -> Vec<(u8, u8)> {
    let mut pairs = Vec::new();
    for (place, &first) in order.iter().enumerate() {
        pairs.extend(order[place + 1..].iter().map(|&behind| (first, behind)));
    }
    pairs
}

/// Whether the case of this number holds, whatever comes before it in the order; not where the bytes that it asks for
/// are not there.
pub fn applies(asked: &Asked, number: u8) -> bool {
    let Asked { tensor, config, length, buffer } = asked;
    let (length, all) = (*length, buffer.len() as u64);
    match number {
        25 => length < HEAD as u64 || length > all,
        26 => buffer.get(..3).is_some_and(|mark| mark != b"RML"),
        27 => buffer.get(3..5).is_some_and(|version| version != [1, 0]),
        30 => count(buffer).is_some_and(|count| length != length_of(count) as u64),
        38 => all < length.saturating_add(record::LENGTH as u64),
        1 => !(1..=4).contains(&tensor.rank),
        _ => (tensor.rank.min(4) as usize..4).any(|d| has_entry(tensor, config, d)),
    }
}

/// The count that the head tells.
fn count(bytes: &[u8]) -> Option<u16> {
    Some(u16::from_le_bytes(bytes.get(5..7)?.try_into().ok()?))
}

const UNDER_HEAD: &str = "25 of bytes:";
const MARK_BYTE: &str = "26 by byte";
const LOW_VERSION: &str = "27 by the low byte";
const HIGH_VERSION: &str = "27 by the high byte";
const RECORD_LESS: &str = "30 a record less";
const BYTE_LESS: &str = "30 a byte less";
const BYTE_MORE: &str = "30 a byte more";
const RECORD_MORE: &str = "30 a record more";
const COUNT_0: &str = "30 with count 0";
const COUNT_MOST: &str = "30 with count 65535";
const IN_LIST: [&str; 8] =
    [LOW_VERSION, HIGH_VERSION, RECORD_LESS, BYTE_LESS, BYTE_MORE, RECORD_MORE, COUNT_0, COUNT_MOST];

const BAD_FIRST: &str = "bad first";
const BAD_BETWEEN: &str = "bad between";
const BAD_LAST: &str = "bad last";
const GOOD_BEHIND_BAD: &str = "good behind a bad one";
const HIGH_NUMBER: &str = "number above 255";
const AT_COUNT: &str = "39 at the count";
const BEHIND_COUNT: &str = "39 behind the count";
const WRAPS: &str = "39 where k x 131 wraps";
const OF_REFUSED: &str = "39 of a refused list";
const OF_RECORD: [&str; 9] =
    [BAD_FIRST, BAD_BETWEEN, BAD_LAST, GOOD_BEHIND_BAD, HIGH_NUMBER, AT_COUNT, BEHIND_COUNT, WRAPS, OF_REFUSED];

const COUNTS: [&str; 4] = ["no record", "1 record", "2 records", "more records"];
const BAD_THEN_GOOD: &str = "bad, then good";

const JUST_ROOM: &str = "just room";
const MORE_ROOM: &str = "more room";
const ROOM_BYTE_LESS: &str = "38 by a byte";
const NO_ROOM: &str = "38 with none left";
const FIRST_RECORD: &str = "first record";
const BEHIND_BAD: &str = "behind a bad one";
const COUNT_CARRIES: &str = "count carries";
const SAID_SHORT: &str = "25 said short";
const SAID_LONG: &str = "25 said long";
const IN_RECORD: &str = "30 within a record";
const PAST_RANK: &str = "28 at";
const OF_APPEND: [&str; 10] = [
    JUST_ROOM,
    MORE_ROOM,
    ROOM_BYTE_LESS,
    NO_ROOM,
    FIRST_RECORD,
    BEHIND_BAD,
    COUNT_CARRIES,
    SAID_SHORT,
    SAID_LONG,
    IN_RECORD,
];

/// All cases of the call of this number.
pub fn cases(number: u8) -> Vec<String> {
    let named = |names: &[&str]| -> Vec<String> { names.iter().map(|name| name.to_string()).collect() };
    match number {
        LIST_FAULT => {
            let mut cases: Vec<String> = (0..HEAD).map(|bytes| format!("{UNDER_HEAD} {bytes}")).collect();
            cases.extend((0..3).map(|byte| format!("{MARK_BYTE} {byte}")));
            cases.extend(named(&IN_LIST));
            cases.extend(pairs(READ_ORDER).into_iter().filter(can_meet).map(both));
            cases
        }
        RECORD_AT => named(&OF_RECORD),
        FIRST_TWO => [named(&COUNTS), named(&[BAD_THEN_GOOD])].concat(),
        APPEND => {
            let mut cases = named(&OF_APPEND);
            cases.extend((1..4).map(|d| format!("{PAST_RANK} {d}")));
            cases.extend(pairs(APPEND_ORDER).into_iter().map(both));
            cases
        }
        _ => Vec::new(),
    }
}

/// A list of under 7 bytes has no count that could be wrong besides.
fn can_meet(pair: &(u8, u8)) -> bool {
    *pair != (25, 30)
}

fn both((first, behind): (u8, u8)) -> String {
    format!("{first} and {behind}")
}

/// The cases that a call with these bytes is, by what it has to be answered.
pub fn met(bytes: &[u8], expected: &[u8]) -> Vec<String> {
    let Some((&number, arguments)) = bytes.split_first() else {
        return Vec::new();
    };
    match number {
        LIST_FAULT => list_met(arguments, expected[1]),
        RECORD_AT => whole(arguments).map_or(Vec::new(), |(k, bytes): (u64, Rest)| record_met(&bytes.0, k)),
        FIRST_TWO => first_two_met(arguments, expected[1]),
        APPEND => whole(arguments).map_or(Vec::new(), |(tensor, config, length, buffer)| {
            let buffer: Memory = buffer;
            append_met(&Asked { tensor, config, length, buffer: buffer.0 }, expected)
        }),
        _ => Vec::new(),
    }
}

/// The numbers behind this one that hold too.
fn pairs_met(asked: &Asked, order: &[u8], status: u8) -> Vec<String> {
    let all = pairs(order).into_iter();
    all.filter(|&(first, behind)| first == status && applies(asked, behind)).map(both).collect()
}

fn list_met(bytes: &[u8], status: u8) -> Vec<String> {
    let (tensor, config) = Default::default();
    let asked = Asked { tensor, config, length: bytes.len() as u64, buffer: bytes.to_vec() };
    let mut met: Vec<String> = pairs_met(&asked, READ_ORDER, status);
    match status {
        25 => met.push(format!("{UNDER_HEAD} {}", bytes.len())),
        26 => {
            let wrong: Vec<usize> = (0..3).filter(|&byte| bytes.get(byte) != Some(&b"RML"[byte])).collect();
            // One byte of the mark by itself.
            if let [byte] = wrong[..] {
                met.push(format!("{MARK_BYTE} {byte}"));
            }
        }
        27 => {
            let (low, high) = (bytes.get(3), bytes.get(4));
            met.extend(holding(&[(high == Some(&0), LOW_VERSION), (low == Some(&1), HIGH_VERSION)]));
        }
        30 => {
            let count = count(bytes).unwrap_or_default();
            let said = length_of(count) as i64;
            met.extend(holding(&[
                (bytes.len() as i64 == said - record::LENGTH as i64, RECORD_LESS),
                (bytes.len() as i64 == said - 1, BYTE_LESS),
                (bytes.len() as i64 == said + 1, BYTE_MORE),
                (bytes.len() as i64 == said + record::LENGTH as i64, RECORD_MORE),
                (count == 0, COUNT_0),
                (count == 65_535, COUNT_MOST),
            ]));
        }
        _ => {}
    }
    met
}

fn is_bad(bytes: &[u8], k: u64) -> bool {
    k < record_count(bytes) && record_at(bytes, k).reading.status != 0
}

fn record_met(bytes: &[u8], k: u64) -> Vec<String> {
    let count = record_count(bytes);
    if k >= count {
        let refused = list_fault(bytes) != 0;
        return holding(&[
            (refused, OF_REFUSED),
            (!refused && k == count, AT_COUNT),
            (!refused && k > count, BEHIND_COUNT),
            (!refused && k.checked_mul(record::LENGTH as u64).is_none(), WRAPS),
        ]);
    }
    let bad = is_bad(bytes, k);
    holding(&[
        (bad && k == 0 && count > 1, BAD_FIRST),
        (bad && k > 0 && k + 1 < count, BAD_BETWEEN),
        (bad && k > 0 && k + 1 == count, BAD_LAST),
        (!bad && k > 0 && is_bad(bytes, k - 1), GOOD_BEHIND_BAD),
        (k > 255, HIGH_NUMBER),
    ])
}

fn first_two_met(bytes: &[u8], status: u8) -> Vec<String> {
    if status != 0 {
        return Vec::new();
    }
    let count = record_count(bytes);
    let mut met = vec![COUNTS[count.min(3) as usize].to_string()];
    met.extend(holding(&[(count > 1 && is_bad(bytes, 0) && !is_bad(bytes, 1), BAD_THEN_GOOD)]));
    met
}

fn append_met(asked: &Asked, expected: &[u8]) -> Vec<String> {
    let (status, dimension) = (expected[1], expected[2]);
    let (length, all) = (asked.length, asked.buffer.len() as u64);
    let room = all.saturating_sub(length);
    let just = record::LENGTH as u64;
    let mut met = pairs_met(asked, APPEND_ORDER, status);
    match status {
        0 => {
            let list = asked.buffer.get(..length as usize).unwrap_or_default();
            let count = record_count(list);
            met.extend(holding(&[
                (room == just, JUST_ROOM),
                (room > just, MORE_ROOM),
                (count == 0, FIRST_RECORD),
                (count > 0 && is_bad(list, count - 1), BEHIND_BAD),
                (count % 256 == 255, COUNT_CARRIES),
            ]));
        }
        25 => {
            met.extend(holding(&[(length < HEAD as u64 && HEAD as u64 <= all, SAID_SHORT), (length > all, SAID_LONG)]))
        }
        30 => met.extend(holding(&[(length.saturating_sub(HEAD as u64) % just != 0, IN_RECORD)])),
        38 => met.extend(holding(&[(room == just - 1, ROOM_BYTE_LESS), (room == 0, NO_ROOM)])),
        28 => met.push(format!("{PAST_RANK} {dimension}")),
        _ => {}
    }
    met
}
