//! Runs of `rmvpixel`: a coordinate as arguments, and a record with source bytes.

use super::pixels::{draw_coordinate, draw_source};
use super::planes::{good, Scale};
use super::records::{clear_tail, clear_unused};
use super::shows;
use super::values::any_u32;
use crate::cases::pixel_shows::{cases, met, LARGEST};
use crate::random::Random;
use crate::record::pack;
use crate::show::take;
use crate::show_pixel::{show_pixel, Run};

/// The runs to compare, one process each.
pub fn pixel_runs(count: usize, seed: u64) -> Vec<Run> {
    // Other numbers than those that draw the calls.
    let mut random = Random::new(seed ^ 0x5049_584c);
    let wanted = cases();
    (0..count).map(|place| draw_at(&mut random, &wanted, place)).collect()
}

/// At two of three places a run that is the case whose turn it is.
fn draw_at(random: &mut Random, wanted: &[String], place: usize) -> Run {
    let mut run = draw(random);
    if place % 3 < 2 {
        let wanted = &wanted[(place / 3 * 2 + place % 3) % wanted.len()];
        // So many draws find any of them.
        for _ in 0..5_000 {
            if met(&run, &show_pixel(&run)).contains(wanted) {
                break;
            }
            run = draw(random);
        }
    }
    run
}

fn draw(random: &mut Random) -> Run {
    let input = if random.chance(50) { shows::draw(random) } else { draw_accepted(random) };
    let mut words = draw_words(random, &input);
    if random.chance(20) {
        spoil(random, &mut words);
    }
    Run { words, input }
}

/// A record of a move that is accepted, and its source.
fn draw_accepted(random: &mut Random) -> Vec<u8> {
    let mut drawn = good(random, Scale::Rows);
    clear_tail(&mut drawn.tensor, &mut drawn.config);
    clear_unused(&drawn.tensor, &mut drawn.config);
    [pack(&drawn.tensor, &drawn.config), draw_source(random, &drawn)].concat()
}

/// A number for each dimension, mostly, or some more or fewer.
fn draw_words(random: &mut Random, input: &[u8]) -> Vec<String> {
    let reading = take(input).0;
    let mut coordinate = draw_coordinate(random, &reading.tensor, &reading.config);
    if random.chance(10) {
        coordinate[random.index(4)] = u32::MAX;
    }
    let rank = reading.tensor.rank.clamp(1, 4) as usize;
    let count = if random.chance(60) { rank } else { random.between(1, 4) as usize };
    let write = |&entry: &u32| if random.chance(10) { format!("{entry:010}") } else { entry.to_string() };
    coordinate[..count].iter().map(write).collect()
}

/// Makes arguments no coordinate: none, one too many, or one that is no number.
fn spoil(random: &mut Random, words: &mut Vec<String>) {
    match random.below(10) {
        0 => words.clear(),
        1 => words.resize(5, any_u32(random).to_string()),
        2 => words.resize(random.between(5, 7) as usize, LARGEST.to_string()),
        _ => {
            let place = random.index(words.len());
            words[place] = no_number(random, &words[place]);
        }
    }
}

/// Something like this number that is none.
fn no_number(random: &mut Random, word: &str) -> String {
    match random.below(14) {
        0..=1 => String::new(),
        2 => random.pick(&["x", "a", "one", "0x1", "1e0", "1_0", "1u", "padding", "\u{663}"]).to_string(),
        3 => format!("{word}{}", random.pick(&["a", "h", ".", ",", ":", "/", ";"])),
        4..=5 => format!("{}{word}", random.pick(&["+", "-"])),
        6 => format!(" {word}"),
        7 => format!("{word}{}", random.pick(&[" ", "\t", "\n", "\r"])),
        8..=9 => "4294967296".to_string(),
        10 => random.pick(&["4294967297", "5000000000", "9999999999"]).to_string(),
        11..=12 => format!("{word:0>11}"),
        _ => random.pick(&["42949672950", "18446744073709551616", "00000000000000000000001", "-1"]).to_string(),
    }
}
