//! What a long comparison has to meet of a call beyond each number that it gives, and of the programs `rmvshow`,
//! `rmvlist` and `rmvpixel`. A file with a plural name has the cases of a topic: all of them, and those that an input
//! is. The others are what these stand on: what a case is (`case.rs`), the numbers of calls (`number.rs`), what several
//! topics ask of an input (`input.rs`), what a call moves (`moved.rs`, `piece.rs`), and the ways of a move (`way.rs`).

pub mod blocks;
pub mod boundaries;
mod case;
pub mod counts;
pub mod fills;
pub mod input;
pub mod list_shows;
pub mod lists;
mod moved;
mod number;
pub mod offsets;
pub mod piece;
pub mod pixel_shows;
pub mod pixels;
pub mod records;
pub mod refusals;
pub mod shows;
pub mod signs;
pub mod sizes;
pub mod stretches;
pub mod way;
pub mod ways;

/// All cases of a call by its number, and those that a call is by its bytes and what it has to be answered.
pub type Topic = (fn(u8) -> Vec<String>, fn(&[u8], &[u8]) -> Vec<String>);

const TOPICS: &[Topic] = &[
    (sizes::cases, sizes::met),
    (signs::cases, signs::met),
    (counts::cases, counts::met),
    (offsets::cases, offsets::met),
    (lists::cases, lists::met),
    (stretches::cases, stretches::met),
    (fills::cases, fills::met),
    (records::cases, records::met),
    (refusals::cases, refusals::met),
    (boundaries::cases, boundaries::met),
    (blocks::cases, blocks::met),
    (pixels::cases, pixels::met),
    (ways::cases, ways::met),
];

/// What the numbers that a call gives do not tell apart.
pub fn cases(number: u8) -> Vec<String> {
    TOPICS.iter().flat_map(|(cases, _)| cases(number)).collect()
}

/// Those of them that a call with these bytes is.
pub fn met(bytes: &[u8], expected: &[u8]) -> Vec<String> {
    TOPICS.iter().flat_map(|(_, met)| met(bytes, expected)).collect()
}
