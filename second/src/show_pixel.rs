//! What the program `rmvpixel` prints.

use crate::pixel::pixel;
use crate::show::{first_line, in_hexadecimal, take};
use crate::tensor::Fault;

/// A run of the program: its arguments, and the bytes of standard input.
#[derive(Clone, Debug, Default, PartialEq)]
pub struct Run {
    pub words: Vec<String>,
    pub input: Vec<u8>,
}

/// "it prints one line, whatever the input holds"
pub const NO_COORDINATE: &str = "give a number from 0 to 4294967295 for each dimension of the plane\n";

/// The output of a run.
pub fn show_pixel(run: &Run) -> String {
    let Some(numbers) = numbers(&run.words) else {
        return NO_COORDINATE.to_string();
    };
    let (reading, source) = take(&run.input);
    if reading.status != 0 {
        return first_line(Fault { status: reading.status, dimension: reading.dimension });
    }
    // "where the record is read and its rank is above how many numbers there are"
    if reading.tensor.rank as usize > numbers.len() {
        return NO_COORDINATE.to_string();
    }
    // "Numbers past the rank do not count", and neither do those that are not there.
    let mut coordinate = [0; 4];
    coordinate[..numbers.len()].copy_from_slice(&numbers);
    let pixel = pixel(&reading.tensor, &reading.config, &coordinate, source);
    let mut out = first_line(Fault { status: pixel.status, dimension: pixel.dimension });
    if pixel.status == 0 {
        // "its bytes, as many as the element size, ... and behind them the word `padding` if it is padding"
        out += &in_hexadecimal(&pixel.bytes[..reading.tensor.element_size as usize]);
        out += if pixel.padding == 1 { " padding\n" } else { "\n" };
    }
    out
}

/// "Where there is no argument, or more than four, or one that is no such number", there are none.
fn numbers(words: &[String]) -> Option<Vec<u32>> {
    if !(1..=4).contains(&words.len()) {
        return None;
    }
    words.iter().map(|word| number(word)).collect()
}

/// "A number is 1 to 10 decimal digits, at most 4,294,967,295."
pub fn number(word: &str) -> Option<u32> {
    if !(1..=10).contains(&word.len()) || !word.bytes().all(|character| character.is_ascii_digit()) {
        return None;
    }
    word.parse().ok()
}
