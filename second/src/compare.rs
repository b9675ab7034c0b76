//! Runs the programs to be checked and compares all that they answer with what this program expects.

use crate::calls::Calls;
use crate::generate;
use crate::lines::answers;
use crate::report::Report;
use crate::show::show;
use crate::show_list::show_list;
use crate::show_pixel::show_pixel;
use std::io::{Read, Write};
use std::process::{Child, Command, ExitCode, ExitStatus, Stdio};

/// How many of so many comparisons are runs of a program that takes a process for each.
pub struct Runs {
    pub shows: usize,
    pub lists: usize,
    pub pixels: usize,
}

impl Runs {
    /// One in a hundred is a run of `rmvshow` and one a run of `rmvlist`, and one in two hundred a run of `rmvpixel`.
    pub fn of(count: usize) -> Runs {
        Runs { shows: count / 100, lists: count / 100, pixels: count / 200 }
    }

    pub fn all(&self) -> usize {
        self.shows + self.lists + self.pixels
    }
}

/// `count` comparisons in all.
pub fn compare(count: usize, seed: u64, command: &[&str]) -> ExitCode {
    let mut report = Report::new(Calls::all());
    let runs = Runs::of(count);
    let made = compare_calls(&mut report, count - runs.all(), seed, command)
        .and_then(|()| compare_shows(&mut report, runs.shows, seed, command))
        .and_then(|()| compare_lists(&mut report, runs.lists, seed, command))
        .and_then(|()| compare_pixels(&mut report, runs.pixels, seed, command));
    if let Err(trouble) = made {
        report.trouble(&trouble);
    }
    report.finish(count)
}

/// All calls in one process.
fn compare_calls(report: &mut Report, count: usize, seed: u64, command: &[&str]) -> Result<(), String> {
    let input = generate::calls(count, seed);
    let expected = answers(&report.calls, &input);
    let (output, status) = run(command, "rmvcalls", &[], &input)?;
    if !status.success() {
        report.trouble(&format!("rmvcalls ended with {status}"));
    }
    // Behind the newline of the last answer there is nothing.
    let written = output.iter().filter(|&&character| character == b'\n').count();
    if written != expected.len() || !output.ends_with(b"\n") {
        report.trouble(&format!("rmvcalls wrote {written} whole lines for {} calls", expected.len()));
    }
    let mut got = output.split(|&character| character == b'\n');
    for (line, answer) in input.split(|&character| character == b'\n').zip(&expected) {
        report.call(line, answer, got.next().unwrap_or_default());
    }
    Ok(())
}

/// One process for each.
fn compare_shows(report: &mut Report, count: usize, seed: u64, command: &[&str]) -> Result<(), String> {
    for input in generate::show_inputs(count, seed) {
        let (output, ended) = run(command, "rmvshow", &[], &input)?;
        report.show(&input, &show(&input), &output, ended);
    }
    Ok(())
}

/// One process for each.
fn compare_lists(report: &mut Report, count: usize, seed: u64, command: &[&str]) -> Result<(), String> {
    for input in generate::list_inputs(count, seed) {
        let (output, ended) = run(command, "rmvlist", &[], &input)?;
        report.list(&input, &show_list(&input), &output, ended);
    }
    Ok(())
}

/// One process for each.
fn compare_pixels(report: &mut Report, count: usize, seed: u64, command: &[&str]) -> Result<(), String> {
    for drawn in generate::pixel_runs(count, seed) {
        let (output, ended) = run(command, "rmvpixel", &drawn.words, &drawn.input)?;
        report.pixel(&drawn, &show_pixel(&drawn), &output, ended);
    }
    Ok(())
}

/// The standard output of a program for these arguments and this standard input, and how it ended.
fn run(command: &[&str], program: &str, words: &[String], input: &[u8]) -> Result<(Vec<u8>, ExitStatus), String> {
    let name = format!("{} {program}", command.join(" "));
    let mut child = Command::new(command[0])
        .args(&command[1..])
        .arg(program)
        .args(words)
        .stdin(Stdio::piped())
        .stdout(Stdio::piped())
        .spawn()
        .map_err(|error| format!("{name} can't be started: {error}"))?;
    let output = exchange(&mut child, input).map_err(|error| format!("{name} can't be read: {error}"))?;
    let status = child.wait().map_err(|error| format!("{name} can't be waited for: {error}"))?;
    Ok((output, status))
}

/// Feeds a program from a thread of its own, so that neither side waits for the other.
fn exchange(child: &mut Child, input: &[u8]) -> std::io::Result<Vec<u8>> {
    let stdin = child.stdin.take();
    let mut output = Vec::new();
    std::thread::scope(|scope| {
        scope.spawn(move || {
            // A program may end before it has read everything; what it wrote then tells. The pipe is closed at the end.
            let _ = stdin.map(|mut stdin| stdin.write_all(input));
        });
        match &mut child.stdout {
            Some(stdout) => stdout.read_to_end(&mut output),
            None => Ok(0),
        }
    })?;
    Ok(output)
}
