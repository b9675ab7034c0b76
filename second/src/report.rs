//! Counts what was compared and tells where it differs.

use crate::calls::Calls;
use crate::coverage::Coverage;
use crate::lines::hex;
use crate::show_pixel::Run;
use crate::wire::Place;
use std::process::{ExitCode, ExitStatus};

/// At most so many differences are printed.
const PRINTED: usize = 10;
/// Lines are cut to so many characters.
const SHOWN: usize = 300;
/// From so many comparisons on, everything has to have been met.
pub const ENOUGH: usize = 20_000;

pub struct Report {
    pub calls: Calls,
    coverage: Coverage,
    compared: usize,
    differ: usize,
    failed: bool,
}

impl Report {
    pub fn new(calls: Calls) -> Report {
        let coverage = Coverage::new(&calls);
        Report { calls, coverage, compared: 0, differ: 0, failed: false }
    }

    /// Something that keeps the comparison from being made.
    pub fn trouble(&mut self, what: &str) {
        println!("{what}");
        self.failed = true;
    }

    /// Compares the answer to one line.
    pub fn call(&mut self, line: &[u8], expected: &[u8], got: &[u8]) {
        self.compared += 1;
        self.coverage.call(&self.calls, line, expected);
        let expected_line = hex(expected);
        if expected_line == got {
            return;
        }
        self.differ += 1;
        if self.differ <= PRINTED {
            let call = self.calls.find(expected[0]);
            let name = call.map_or("no call", |call| call.name);
            println!("{name} ({:02x}) differs", expected[0]);
            print_difference(line, &expected_line, got);
            let byte = first_difference(&expected_line, got) / 2;
            if let Some(call) = call {
                println!("  at byte {byte}, in: {}", field_at(&call.places, byte));
            }
        }
    }

    /// Compares the output of one run of `rmvshow`.
    pub fn show(&mut self, input: &[u8], expected: &str, got: &[u8], ended: ExitStatus) {
        self.coverage.show(input, expected);
        self.printed("rmvshow", input, expected, got, ended);
    }

    /// Compares the output of one run of `rmvlist`.
    pub fn list(&mut self, input: &[u8], expected: &str, got: &[u8], ended: ExitStatus) {
        self.coverage.list(input, expected);
        self.printed("rmvlist", input, expected, got, ended);
    }

    /// Compares the output of one run of `rmvpixel`.
    pub fn pixel(&mut self, run: &Run, expected: &str, got: &[u8], ended: ExitStatus) {
        self.coverage.pixel(run, expected);
        self.printed(&format!("rmvpixel {:?}", run.words), &run.input, expected, got, ended);
    }

    /// A program has to end well whatever it prints.
    fn printed(&mut self, program: &str, input: &[u8], expected: &str, got: &[u8], ended: ExitStatus) {
        self.compared += 1;
        if expected.as_bytes() == got && ended.success() {
            return;
        }
        self.differ += 1;
        if self.differ <= PRINTED {
            let byte = first_difference(expected.as_bytes(), got);
            println!("{program} differs: it ended with {ended}, and what it printed is as expected up to byte {byte}");
            print_difference(&hex(input), expected.as_bytes(), got);
        }
    }

    /// Prints what was met, what was not, and the last line.
    pub fn finish(mut self, count: usize) -> ExitCode {
        println!("what each call was expected to give, and how often:");
        self.coverage.print();
        for case in self.coverage.unlisted() {
            self.trouble(&format!("expected, but in no list: {case}"));
        }
        if count >= ENOUGH {
            for case in self.coverage.missing() {
                self.trouble(&format!("never expected: {case}"));
            }
        }
        println!("{} compared, {} differ", self.compared, self.differ);
        if self.failed || self.differ > 0 || self.compared != count {
            return ExitCode::FAILURE;
        }
        ExitCode::SUCCESS
    }
}

fn first_difference(a: &[u8], b: &[u8]) -> usize {
    a.iter().zip(b).position(|(x, y)| x != y).unwrap_or(a.len().min(b.len()))
}

/// The name of the field that this byte of an answer lies in.
fn field_at(places: &[Place], byte: usize) -> String {
    let mut left = byte;
    for (name, length) in places {
        if left < *length {
            return format!("{name} (its byte {left})");
        }
        left -= length;
    }
    "behind the last field".to_string()
}

fn print_difference(input: &[u8], expected: &[u8], got: &[u8]) {
    // A long answer is shown from a little before the first difference on.
    let from = first_difference(expected, got);
    let from = if from < SHOWN / 2 { 0 } else { (from - SHOWN / 4) & !1 };
    println!("  input    {}", cut(input, 0));
    println!("  expected {}", cut(expected, from));
    println!("  got      {}", cut(got, from));
}

fn cut(text: &[u8], from: usize) -> String {
    let from = from.min(text.len());
    let to = text.len().min(from + SHOWN);
    let middle = String::from_utf8_lossy(&text[from..to]).escape_debug().to_string();
    let before = if from > 0 { format!("[{from} before] ") } else { String::new() };
    let after = if to < text.len() { format!(" [{} after]", text.len() - to) } else { String::new() };
    format!("{before}{middle}{after}")
}
