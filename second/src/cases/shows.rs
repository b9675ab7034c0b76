//! The cases of `rmvshow`: each number that it prints, and what its number alone does not tell of a longer record. A long
//! comparison has to meet each.

use super::case::{case, holding, named, Case};
use super::input::{is_least, is_mirrored};
use crate::moves::{plan, total};
use crate::record::{at, length_in, Reading, LENGTH, LENGTH_WITH_FILL, MARK};
use crate::show::{take, SOURCE_LIMIT};
use crate::tensor::{source_of, ELEMENT_SIZES};

/// The numbers that it can tell: those of a record read, then those of a move. 10 can't be provoked: it needs a shape
/// above 65,025, but no more than 16,384 bytes of the source are read, so that 5 comes before it.
const NUMBERS: &[u8] = &[0, 25, 26, 27, 1, 28, 2, 3, 4, 5, 6, 7, 8, 9, 11, 12, 13];

/// All that a long comparison has to meet.
pub fn cases() -> Vec<String> {
    let mut cases: Vec<String> = NUMBERS.iter().map(u8::to_string).collect();
    cases.extend(named(&of_version_2(&[], 0)));
    cases.extend(named(&of_signs(&[], 0)));
    cases
}

/// The cases that an input is, by the number that has to be told for it.
pub fn met(input: &[u8], number: u8) -> Vec<String> {
    let mut met = vec![number.to_string()];
    met.extend(holding(&of_version_2(input, number)));
    met.extend(holding(&of_signs(input, number)));
    met
}

/// A plane that counts down, and the stride whose size is above the limit.
fn of_signs(input: &[u8], number: u8) -> Vec<Case> {
    let tensor = take(input).0.tensor;
    vec![
        case(number == 0 && is_mirrored(&tensor), "counts down"),
        case(number == 4 && is_least(&tensor), "4 by -2147483648"),
    ]
}

/// Each case of an input whose record is longer, and whether this is one.
fn of_version_2(input: &[u8], number: u8) -> Vec<Case> {
    let two = is_version_2(input);
    let (reading, _) = take(input);
    let mut all = Vec::new();
    for size in ELEMENT_SIZES {
        let padded = two && number == 0 && reading.tensor.element_size == size && pads(&reading);
        all.push((padded, format!("{size}-byte padding")));
    }
    let is_whole = input.len() >= LENGTH_WITH_FILL;
    for refused in [26, 1, 2, 28, 5] {
        all.push((two && is_whole && number == refused, format!("{refused} of version 2")));
    }
    let span = source_of(&reading.tensor).span as usize;
    let not_read = span == SOURCE_LIMIT + 1 && input.len() >= LENGTH_WITH_FILL + span;
    all.push(case(two && number == 0 && span == SOURCE_LIMIT, "source just read behind version 2"));
    all.push(case(two && number == 5 && not_read, "source not read behind version 2"));
    all.extend(of_cut(input, number));
    all
}

fn is_version_2(input: &[u8]) -> bool {
    length_in(input) == LENGTH_WITH_FILL
}

/// A longer record that is cut short: one with its mark is 27 after 131 bytes, and 25 elsewhere.
fn of_cut(input: &[u8], number: u8) -> Vec<Case> {
    let (two, length) = (is_version_2(input), input.len());
    let marked = input.starts_with(MARK);
    let between = LENGTH + 1..LENGTH_WITH_FILL;
    let is_between = between.contains(&length);
    // A version of 258, say, is not 2: 131 bytes are read.
    let low_byte_alone = !two && input.get(at::VERSION) == Some(&2);
    let mut all = vec![
        case(two && number == 27 && length == LENGTH, "version 2 cut after 131 bytes"),
        case(two && number == 25 && length < LENGTH, "version 2 cut before"),
        case(two && !marked && number == 25 && is_between, "version 2 cut behind another mark"),
        case(low_byte_alone && number == 27 && is_between, "version 2 in its low byte alone"),
    ];
    for cut in between {
        all.push((two && marked && number == 25 && length == cut, format!("version 2 cut after {cut} bytes")));
    }
    all
}

/// Whether an element of this move is padding.
fn pads(reading: &Reading) -> bool {
    plan(&reading.tensor, &reading.config, None)
        .is_ok_and(|plan| plan.count[..plan.rank].iter().product::<u64>() < total(&plan))
}
