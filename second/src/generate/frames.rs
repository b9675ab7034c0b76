//! Lines that are no calls, between good ones, and the longest lines there may be.

use super::work::{Work, ADVANCE, MOVE};
use crate::calls::Calls;
use crate::lines::{hex, DIGITS_LIMIT};
use crate::moves::Config;
use crate::record;
use crate::tensor::Tensor;
use crate::transfers::Table;
use crate::wire::{Counted, Memory, MEMORY_LIMIT};

/// A line made from the last good one by damage, or a short line of any digits.
pub fn damaged(work: &mut Work) {
    let last = work.lines.last().cloned().unwrap_or_default();
    let line = if last.len() < 4_000 { last } else { b"0402".to_vec() };
    let damaged = damage(work, line);
    work.lines.push(damaged);
}

fn damage(work: &mut Work, mut line: Vec<u8>) -> Vec<u8> {
    let random = &mut work.random;
    match random.below(12) {
        0..=2 => {
            let character = random.pick(b"gGzZ xX-+.,:/@`\r\t\0\x7f\x80\xff");
            line.insert(random.index(line.len() + 1), character);
        }
        3 => line.truncate(line.len().saturating_sub(1)),
        4 => line.push(b'0'),
        5 => line.truncate(line.len().saturating_sub(2)),
        6 => line.extend(hex(&random.bytes(1))),
        7 => line.clear(),
        8..=9 => {
            let number = random.pick(&[0x0c, 0x0f, 0x29, 0x2f, 0x3c, 0x3f, 0x46, 0x4f, 0x55, 0x80, 0xfe, 0xff]);
            line.splice(..line.len().min(2), hex(&[number]));
        }
        10 => line = hex(&[random.any() as u8]),
        _ => line.truncate(random.index(line.len() + 1)),
    }
    line
}

/// The last line of the input, which has at least one character and no newline.
pub fn unfinished(work: &mut Work) -> Vec<u8> {
    match work.random.below(4) {
        0 => b"0402".to_vec(),
        1 => b"z".to_vec(),
        2 => b"0".to_vec(),
        _ => b"ff".to_vec(),
    }
}

/// For each call a line that is a byte too short, or too long, if it can be.
pub fn wrong_lengths(work: &mut Work) {
    for call in Calls::all().0 {
        let length = call.fixed_length();
        let takes_rest = call.takes.iter().any(|&(_, length)| length == usize::MAX);
        if length > 0 {
            work.line(call.number, length - 1);
        }
        if !takes_rest {
            work.line(call.number, length + 1);
        }
    }
}

/// The longest line that is a call, lines that are longer, and memories that are too long.
pub fn longest(work: &mut Work) {
    let mut line = hex(&[0x30]);
    line.resize(DIGITS_LIMIT, b'0');
    work.lines.push(line.clone());
    // One digit too many is met before an odd number, and before a character that comes later.
    let more = work.random.pick(&["0", "00", "0z", "000z"]);
    work.lines.push([&line, more.as_bytes()].concat());
    // A character that comes earlier is met first, also as the very first one beyond the limit.
    let place = work.random.pick(&[0, 1, DIGITS_LIMIT / 2, DIGITS_LIMIT]);
    line.extend(b"00");
    line[place] = b'g';
    work.lines.push(line);
    too_long_memories(work);
}

/// One byte more than a memory may have that the call could change, and for a move also just as many.
fn too_long_memories(work: &mut Work) {
    let (tensor, config) = (Tensor::default(), Config::default());
    let memory = Memory(vec![1; MEMORY_LIMIT + 1]);
    work.by_both(MOVE, &(tensor, config, Counted(vec![2; 3]), memory.clone()));
    work.by_both(MOVE, &(tensor, config, Counted(vec![2; 3]), Memory(vec![1; MEMORY_LIMIT])));
    work.call(0x43, &(Table::default(), 0u32, 1u64, memory.clone()));
    work.by_both(ADVANCE, &(crate::job::Job::default(), 0u64, 1u64, memory.clone()));
    let mut room = memory.clone();
    room.0.resize(MEMORY_LIMIT + record::LENGTH, 0);
    work.call(0x31, &(tensor, config, room));
    // More source bytes are named than there are.
    work.by_both(MOVE, &(tensor, config, u32::MAX));
}
