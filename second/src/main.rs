//! An independent second program: it works out from the paper what every call answers, and compares. See README.md.

// Loops over dimensions are written as the paper writes them, by their number.
#![allow(clippy::needless_range_loop)]

mod calls;
mod cases;
mod compare;
mod coverage;
mod generate;
mod helpers;
mod job;
mod keeper;
mod lines;
mod list;
mod moves;
mod pixel;
mod plain;
mod random;
mod ready_made;
mod record;
mod report;
mod show;
mod show_list;
mod show_pixel;
mod tensor;
#[cfg(test)]
mod tests;
mod transfers;
mod wire;

use std::io::{Read, Write};
use std::process::ExitCode;

const USAGE: &str = "usage:
  second compare --calls N --seed S -- COMMAND [WORD..]
      draws N calls and compares the answers of `COMMAND WORD.. rmvcalls`, and what `COMMAND WORD.. rmvshow`,
      `COMMAND WORD.. rmvlist` and `COMMAND WORD.. rmvpixel NUMBER..` print
  second answer
      answers the calls on standard input as rmvcalls should
  second show
      prints for the record on standard input what rmvshow should
  second list
      prints for the list of records on standard input what rmvlist should
  second pixel [WORD..]
      prints for these arguments and the record on standard input what rmvpixel should";

fn main() -> ExitCode {
    let words: Vec<String> = std::env::args().skip(1).collect();
    let words: Vec<&str> = words.iter().map(String::as_str).collect();
    match words.as_slice() {
        ["compare", "--calls", count, "--seed", seed, "--", command @ ..] if !command.is_empty() => {
            match (count.parse(), seed.parse()) {
                (Ok(count), Ok(seed)) => compare::compare(count, seed, command),
                _ => usage(),
            }
        }
        ["answer"] => {
            let mut out = Vec::new();
            for answer in lines::answers(&calls::Calls::all(), &input()) {
                out.extend(lines::hex(&answer));
                out.push(b'\n');
            }
            print(&out)
        }
        ["show"] => print(show::show(&input()).as_bytes()),
        ["list"] => print(show_list::show_list(&input()).as_bytes()),
        ["pixel", words @ ..] => {
            let words = words.iter().map(|word| word.to_string()).collect();
            print(show_pixel::show_pixel(&show_pixel::Run { words, input: input() }).as_bytes())
        }
        _ => usage(),
    }
}

fn usage() -> ExitCode {
    eprintln!("{USAGE}");
    ExitCode::from(2)
}

fn input() -> Vec<u8> {
    let mut bytes = Vec::new();
    if let Err(error) = std::io::stdin().read_to_end(&mut bytes) {
        eprintln!("standard input can't be read: {error}");
    }
    bytes
}

fn print(bytes: &[u8]) -> ExitCode {
    match std::io::stdout().write_all(bytes) {
        Ok(()) => ExitCode::SUCCESS,
        Err(_) => ExitCode::FAILURE,
    }
}
