//! Lines of calls and answers: hexadecimal digits, and what is answered to a line that is no call.

use crate::calls::Calls;

/// CALLS: "more than 270,336 digits (135,168 bytes)" is too long.
pub const DIGITS_LIMIT: usize = 270_336;

/// The reasons that follow `ff`.
pub const NO_DIGITS: u8 = 1;
pub const TOO_LONG: u8 = 2;
pub const NO_CALL: u8 = 3;
pub const WRONG_LENGTH: u8 = 4;
pub const NO_NEWLINE: u8 = 5;

pub fn hex(bytes: &[u8]) -> Vec<u8> {
    let digits = b"0123456789abcdef";
    let mut line = Vec::with_capacity(2 * bytes.len());
    for byte in bytes {
        line.push(digits[(byte >> 4) as usize]);
        line.push(digits[(byte & 15) as usize]);
    }
    line
}

/// The bytes of a line. A character that is no digit, or one digit too many: "whichever was met first in the line (an
/// odd number is met at its end)".
pub fn unhex(line: &[u8]) -> Result<Vec<u8>, u8> {
    let mut bytes = Vec::with_capacity(line.len() / 2);
    let mut high = 0;
    for (place, &character) in line.iter().enumerate() {
        let digit = match character {
            b'0'..=b'9' => character - b'0',
            b'a'..=b'f' => character - b'a' + 10,
            b'A'..=b'F' => character - b'A' + 10,
            _ => return Err(NO_DIGITS),
        };
        if place == DIGITS_LIMIT {
            return Err(TOO_LONG);
        }
        if place % 2 == 1 {
            bytes.push(16 * high + digit);
        } else {
            high = digit;
        }
    }
    if line.len() % 2 == 1 {
        return Err(NO_DIGITS);
    }
    Ok(bytes)
}

/// The bytes that answer one line that ended in a newline.
fn answer_line(calls: &Calls, line: &[u8]) -> Vec<u8> {
    let bytes = match unhex(line) {
        Ok(bytes) => bytes,
        Err(reason) => return vec![0xff, reason],
    };
    // "no call has this number, or the line is empty"
    let Some(call) = bytes.first().and_then(|&number| calls.find(number)) else {
        return vec![0xff, NO_CALL];
    };
    (call.answer)(&bytes[1..]).unwrap_or(vec![0xff, WRONG_LENGTH])
}

/// The answers to all lines of an input, as bytes.
pub fn answers(calls: &Calls, input: &[u8]) -> Vec<Vec<u8>> {
    let mut all = Vec::new();
    for line in input.split_inclusive(|&character| character == b'\n') {
        all.push(match line.strip_suffix(b"\n") {
            Some(line) => answer_line(calls, line),
            // "the input ended within this line"; it "comes before all others"
            None => vec![0xff, NO_NEWLINE],
        });
    }
    all
}
