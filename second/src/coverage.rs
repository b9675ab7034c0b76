//! Counts what a comparison meets and tells what it did not: each call with everything that it can give, with arguments
//! of a wrong length, with each state of a slot if it takes a table, and with each of its cases (`cases/`); each reason
//! for which a line is no call; and each case of `rmvshow`, `rmvlist` and `rmvpixel`.

use crate::calls::{Call, Calls, Gives};
use crate::cases::{self, list_shows, pixel_shows, shows};
use crate::lines::{unhex, NO_CALL, NO_DIGITS, NO_NEWLINE, TOO_LONG, WRONG_LENGTH};
use crate::show_pixel::Run;
use crate::transfers::{DONE, FREE, PREPARED, RUNNING};

/// The reasons behind `ff`; ff04 is counted with the call that the line names.
const REASONS: [&str; 6] = [
    "ff01 by a character",
    "ff01 by an odd number of digits",
    "ff02",
    "ff03 by a number",
    "ff03 by an empty line",
    "ff05",
];
const LENGTH: &str = "ff04";

const STATES: [&str; 5] = ["slot free", "slot prepared", "slot running", "slot done", "slot in no state"];

/// Lines of the listing are broken before this column.
const WIDTH: usize = 120;

/// A call, or what else is counted, with how often each of its cases was met.
struct Group {
    name: String,
    cases: Vec<(String, usize)>,
}

pub struct Coverage {
    groups: Vec<Group>,
    unlisted: Vec<String>,
}

impl Coverage {
    /// All that has to be met, and nothing met yet.
    pub fn new(calls: &Calls) -> Coverage {
        let mut coverage = Coverage { groups: Vec::new(), unlisted: Vec::new() };
        for call in &calls.0 {
            coverage.add(&name(call), all_cases(calls, call));
        }
        coverage.add("no call", REASONS.map(String::from).to_vec());
        coverage.add("rmvshow", shows::cases());
        coverage.add("rmvlist", list_shows::cases());
        coverage.add("rmvpixel", pixel_shows::cases());
        coverage
    }

    fn add(&mut self, name: &str, cases: Vec<String>) {
        let cases = cases.into_iter().map(|case| (case, 0)).collect();
        self.groups.push(Group { name: name.to_string(), cases });
    }

    fn meet(&mut self, name: &str, case: &str) {
        let group = self.groups.iter_mut().find(|group| group.name == name);
        match group.and_then(|group| group.cases.iter_mut().find(|listed| listed.0 == case)) {
            Some((_, often)) => *often += 1,
            None => self.unlisted.push(format!("{name}: {case}")),
        }
    }

    /// Counts a line by what it has to be answered.
    pub fn call(&mut self, calls: &Calls, line: &[u8], expected: &[u8]) {
        let call = byte_at(line, 0).and_then(|number| calls.find(number));
        match (call, expected) {
            (Some(call), [0xff, WRONG_LENGTH]) => self.meet(&name(call), LENGTH),
            (Some(call), [number, answer @ ..]) if *number == call.number => {
                self.meet(&name(call), &given(calls, call, line, answer));
                for place in call.state_places() {
                    self.meet(&name(call), state(byte_at(line, 1 + place)));
                }
                if !cases::cases(call.number).is_empty() {
                    let bytes = unhex(line).expect("it is a call");
                    for case in cases::met(&bytes, expected) {
                        self.meet(&name(call), &case);
                    }
                }
            }
            _ => self.meet("no call", reason(line, expected)),
        }
    }

    /// Counts a run of `rmvshow` by what it is given and has to print: `status N dim D` comes first.
    pub fn show(&mut self, input: &[u8], expected: &str) {
        let number = expected.split(' ').nth(1).and_then(|number| number.parse().ok());
        for case in shows::met(input, number.unwrap_or(u8::MAX)) {
            self.meet("rmvshow", &case);
        }
    }

    /// Counts a run of `rmvlist` by what it is given and has to print.
    pub fn list(&mut self, input: &[u8], expected: &str) {
        for case in list_shows::met(input, expected) {
            self.meet("rmvlist", &case);
        }
    }

    /// Counts a run of `rmvpixel` by what it is given and has to print.
    pub fn pixel(&mut self, run: &Run, expected: &str) {
        for case in pixel_shows::met(run, expected) {
            self.meet("rmvpixel", &case);
        }
    }

    /// What was met and stands in no list, each once.
    pub fn unlisted(&self) -> Vec<String> {
        let mut unlisted = self.unlisted.clone();
        unlisted.sort();
        unlisted.dedup();
        unlisted
    }

    /// What stands in a list and was not met.
    pub fn missing(&self) -> Vec<String> {
        let mut missing = Vec::new();
        for group in &self.groups {
            for (case, _) in group.cases.iter().filter(|(_, often)| *often == 0) {
                missing.push(format!("{}: {case}", group.name));
            }
        }
        missing
    }

    pub fn print(&self) {
        for group in &self.groups {
            let mut line = format!("  {}:", group.name);
            for (case, often) in &group.cases {
                let entry = format!("  {case} x{often}");
                if line.len() + entry.len() > WIDTH {
                    println!("{line}");
                    line = "     ".to_string();
                }
                line += &entry;
            }
            println!("{line}");
        }
    }
}

fn name(call: &Call) -> String {
    format!("{:02x} {}", call.number, call.name)
}

/// All cases of a call.
fn all_cases(calls: &Calls, call: &Call) -> Vec<String> {
    let mut cases = can_give(calls, call);
    if !call.takes_any_length() {
        cases.push(LENGTH.to_string());
    }
    if !call.state_places().is_empty() {
        cases.extend(STATES.map(String::from));
    }
    cases.extend(cases::cases(call.number));
    cases
}

/// The list of a call.
fn can_give(calls: &Calls, call: &Call) -> Vec<String> {
    match call.gives {
        Gives::OneKind => vec!["made".to_string()],
        Gives::First(bytes) | Gives::Behind(_, bytes) => bytes.iter().map(u8::to_string).collect(),
        Gives::FirstTwo(pairs) => pairs.iter().map(|(name, _)| name.to_string()).collect(),
        Gives::SameAs(number) => can_give(calls, other(calls, number)),
    }
}

/// What a call gives with this answer, named as in its list.
fn given(calls: &Calls, call: &Call, line: &[u8], answer: &[u8]) -> String {
    match call.gives {
        Gives::OneKind => "made".to_string(),
        Gives::First(_) => answer[0].to_string(),
        Gives::Behind(place, _) => answer[place].to_string(),
        Gives::FirstTwo(pairs) => {
            let listed = pairs.iter().find(|(_, pair)| answer.starts_with(pair));
            listed.map_or(format!("{:?}", &answer[..2]), |(name, _)| name.to_string())
        }
        Gives::SameAs(number) => {
            let other = other(calls, number);
            let bytes = unhex(line).expect("it is a call");
            let answer = (other.answer)(&bytes[1..]).expect("both take the same arguments");
            given(calls, other, line, &answer[1..])
        }
    }
}

fn other(calls: &Calls, number: u8) -> &Call {
    calls.find(number).expect("the call that a list names")
}

fn state(state: Option<u8>) -> &'static str {
    STATES[match state {
        Some(FREE) => 0,
        Some(PREPARED) => 1,
        Some(RUNNING) => 2,
        Some(DONE) => 3,
        _ => 4,
    }]
}

/// One byte of a line, if there are digits for it.
fn byte_at(line: &[u8], place: usize) -> Option<u8> {
    unhex(line.get(2 * place..2 * place + 2)?).ok()?.pop()
}

/// Which reason a line that is no call is answered.
fn reason(line: &[u8], expected: &[u8]) -> &'static str {
    match expected[1] {
        NO_DIGITS if line.iter().any(|character| !character.is_ascii_hexdigit()) => REASONS[0],
        NO_DIGITS => REASONS[1],
        TOO_LONG => REASONS[2],
        NO_CALL if !line.is_empty() => REASONS[3],
        NO_CALL => REASONS[4],
        NO_NEWLINE => REASONS[5],
        _ => "a reason that the page does not have",
    }
}
