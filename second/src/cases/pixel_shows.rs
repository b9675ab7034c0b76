//! The cases of `rmvpixel`: each number that it prints, what its arguments are, and what its number alone does not tell
//! of a pixel. A long comparison has to meet each.

use super::case::{case, holding, named, Case};
use super::input::is_mirrored;
use crate::moves::room;
use crate::record::{at, length_in, Reading};
use crate::show::{take, ROOM, SOURCE_LIMIT};
use crate::show_pixel::{number, Run, NO_COORDINATE};
use crate::tensor::{source_of, ELEMENT_SIZES};

/// The numbers that it can tell: those of a record read, then those of a pixel. 10 can't be provoked, as in `rmvshow`.
const NUMBERS: &[u8] = &[0, 25, 26, 27, 1, 28, 2, 3, 4, 5, 6, 7, 8, 9, 11, 12, 35];

/// The largest number that an argument can be.
pub const LARGEST: &str = "4294967295";

/// What an argument can be that is no number.
type NoNumber = (&'static str, fn(&str) -> bool);
const NO_NUMBERS: [NoNumber; 6] = [
    ("an empty argument", |word| word.is_empty()),
    ("letters", |word| word.contains(|character: char| character.is_alphabetic())),
    ("a sign", |word| number(word.trim_start_matches(['+', '-'])).is_some() && word.len() > 1),
    ("a blank", |word| number(word.trim()).is_some()),
    ("4294967296", |word| word == "4294967296"),
    ("eleven digits", |word| word.len() == 11 && number(&word[1..]).is_some() && word.starts_with('0')),
];

/// All that a long comparison has to meet.
pub fn cases() -> Vec<String> {
    let mut cases: Vec<String> = NUMBERS.iter().map(u8::to_string).collect();
    cases.extend(named(&all(&Run::default(), "")));
    cases
}

/// The cases that a run is, by what has to be printed for it.
pub fn met(run: &Run, expected: &str) -> Vec<String> {
    let mut met = Vec::new();
    if expected != NO_COORDINATE {
        // `status N dim D` comes first.
        met.push(expected.split(' ').nth(1).unwrap_or("nothing").to_string());
    }
    met.extend(holding(&all(run, expected)));
    met
}

fn all(run: &Run, expected: &str) -> Vec<Case> {
    let reading = take(&run.input).0;
    let mut all = of_no_coordinate(run, expected, &reading);
    all.extend(of_numbers(run, expected, &reading));
    all.extend(of_pixel(run, expected, &reading));
    all
}

/// Arguments that are no coordinate: one thing is wrong with them.
fn of_no_coordinate(run: &Run, expected: &str, reading: &Reading) -> Vec<Case> {
    let given = expected == NO_COORDINATE;
    let words = &run.words;
    let bad: Vec<usize> = (0..words.len()).filter(|&place| number(&words[place]).is_none()).collect();
    let one_bad = given && words.len() <= 4 && bad.len() == 1;
    let (is_read, rank) = (reading.status == 0, reading.tensor.rank as usize);
    let mut all = vec![
        case(given && words.is_empty(), "no argument"),
        case(given && words.len() == 5 && bad.is_empty(), "five numbers"),
        case(one_bad && is_read && bad[0] >= rank, "no number past the rank"),
        case(given && !bad.is_empty() && !is_read, "no number and no record"),
    ];
    for (name, is) in NO_NUMBERS {
        all.push(case(one_bad && is(&words[bad[0]]), name));
    }
    let too_few = given && bad.is_empty() && !words.is_empty() && words.len() < rank;
    for of in 2..=4 {
        all.push((too_few && rank == of, format!("too few numbers for rank {of}")));
    }
    let refused = too_few && room(&reading.tensor, &reading.config).answer.status != 0;
    all.push(case(refused, "too few numbers for a move that is refused"));
    all
}

/// Arguments that are numbers.
fn of_numbers(run: &Run, expected: &str, reading: &Reading) -> Vec<Case> {
    let (words, rank) = (&run.words, reading.tensor.rank as usize);
    let accepted = expected.starts_with("status 0 ");
    let (below, past) = words.split_at(rank.min(words.len()));
    let is_padded_with_zeros = |word: &String| word.len() == 10 && word.starts_with('0') && number(word) > Some(0);
    let at_fault = expected.strip_prefix("status 35 dim ").and_then(|d| below.get(d.trim().parse::<usize>().ok()?));
    let rank_byte = run.input.get(at::RANK).map_or(0, |&rank| rank as usize);
    let refused_record = expected.starts_with("status ") && reading.status != 0;
    let mut all = vec![
        case(refused_record && words.len() < rank_byte, "fewer numbers than the rank of a record that is refused"),
        case(accepted && past.iter().any(|word| word == LARGEST), "4294967295 past the rank"),
        case(at_fault.is_some_and(|word| word == LARGEST), "35 by 4294967295"),
        case(accepted && below.iter().any(is_padded_with_zeros), "ten digits with zeros before"),
    ];
    for of in 1..=3 {
        all.push((accepted && rank == of && !past.is_empty(), format!("more numbers than rank {of}")));
    }
    all
}

/// What is printed of a pixel: a plane's bytes or padding, and what the lengths of source and destination are to it.
fn of_pixel(run: &Run, expected: &str, reading: &Reading) -> Vec<Case> {
    let accepted = expected.starts_with("status 0 ");
    let padded = accepted && expected.ends_with(" padding\n");
    let kept = accepted && !padded;
    let (tensor, config) = (&reading.tensor, &reading.config);
    let span = source_of(tensor).span as usize;
    let mut all = Vec::new();
    for of in ELEMENT_SIZES {
        let of_size = tensor.element_size == of;
        all.push((kept && of_size, format!("{of}-byte element")));
        all.push((padded && of_size && config.fill != 0, format!("{of}-byte padding")));
    }
    all.push(case(padded && config.fill == 0, "padding of fill 0"));
    all.push(case(kept && is_mirrored(tensor), "counts down"));
    all.push(case(accepted && room(tensor, config).answer.need > ROOM as u64, "more needed than rmvshow has"));
    all.push(case(accepted && span == SOURCE_LIMIT, "source just read"));
    let not_read = span == SOURCE_LIMIT + 1 && run.input.len() >= length_in(&run.input) + span;
    all.push(case(expected.starts_with("status 5 ") && not_read, "source not read"));
    all
}
