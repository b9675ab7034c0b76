//! The cases of moves of each way (`way.rs`), made as a whole and in stretches that begin and end inside. The number 0
//! alone does not tell them apart, and a long comparison has to meet each.

use super::case::holding;
use super::number::{is_move, is_stretch};
use super::piece::Piece;
use super::way::{Way, WAYS};
use crate::tensor::ELEMENT_SIZES;

const BEGINS_IN_ROW: &str = "begins in mid-row";
const ENDS_IN_ROW: &str = "ends in mid-row";
const BEGINS_IN_LAYER: &str = "begins in mid-layer";
const ENDS_IN_LAYER: &str = "ends in mid-layer";
const SOURCE_FIRST: &str = "source before destination";
const SOURCE_LAST: &str = "source behind destination";
/// Of a stretch of each way, in the calls that have a beginning and a budget.
const OF_STRETCH: [&str; 6] = [BEGINS_IN_ROW, ENDS_IN_ROW, BEGINS_IN_LAYER, ENDS_IN_LAYER, SOURCE_FIRST, SOURCE_LAST];

const ELEMENTS: &str = "mirrored elements";
const ROWS: &str = "mirrored rows";
const LAYERS: &str = "mirrored layers";
const THROUGHOUT: &str = "mirrored throughout";

fn of_size(size: usize, case: &str) -> String {
    format!("{size}-byte {case}")
}

/// Of a plane that would be moved this way if every dimension counted up: what counts down.
fn of_mirrored() -> Vec<String> {
    let sizes = ELEMENT_SIZES.into_iter().flat_map(|size| [ELEMENTS, ROWS].map(|case| of_size(size.into(), case)));
    sizes.chain([LAYERS, THROUGHOUT].map(String::from)).collect()
}

fn in_mirrored(case: &str) -> String {
    format!("mirrored, {case}")
}

/// All cases of the call of this number.
pub fn cases(number: u8) -> Vec<String> {
    let of = |way: &Way| [cases_of_way(number, *way), mirrored_cases_of_way(number, *way)].concat();
    WAYS.iter().flat_map(of).collect()
}

/// The cases that a call with these bytes is, by what it has to be answered.
pub fn met(bytes: &[u8], expected: &[u8]) -> Vec<String> {
    let (Some((&number, arguments)), [_, 0, ..]) = (bytes.split_first(), expected) else {
        return Vec::new();
    };
    let Some(piece) = Piece::of_call(number, arguments) else {
        return Vec::new();
    };
    WAYS.iter().flat_map(|way| met_by_piece(number, *way, &piece)).collect()
}

/// All cases of one way, where nothing is mirrored.
pub fn cases_of_way(number: u8, way: Way) -> Vec<String> {
    let mut cases = Vec::new();
    if is_move(number) || is_stretch(number) {
        cases.extend(way.details());
    }
    if is_stretch(number) {
        cases.extend(OF_STRETCH.map(String::from));
    }
    named(way, cases)
}

/// All cases of one way, where something is mirrored.
pub fn mirrored_cases_of_way(number: u8, way: Way) -> Vec<String> {
    let mut cases = Vec::new();
    if is_move(number) || is_stretch(number) {
        cases.extend(of_mirrored());
    }
    if is_stretch(number) {
        cases.extend(OF_STRETCH.map(in_mirrored));
    }
    named(way, cases)
}

/// The cases of one way that a call is which moves this piece. One that is mirrored has cases of its own.
pub fn met_by_piece(number: u8, way: Way, piece: &Piece) -> Vec<String> {
    let Some(details) = way.met(piece) else {
        return Vec::new();
    };
    let stretch = if is_stretch(number) { stretch_met(piece) } else { Vec::new() };
    let is_mirrored = piece.sides().iter().any(|side| side.is_mirrored());
    let met = if is_mirrored {
        [mirrored_met(piece), stretch.iter().map(|case| in_mirrored(case)).collect()].concat()
    } else {
        [details, stretch].concat()
    };
    named(way, met)
}

/// The elements of a row alone, the rows alone, the layers alone, or all of several dimensions.
fn mirrored_met(piece: &Piece) -> Vec<String> {
    let sides = piece.sides();
    let mirrored = sides.iter().filter(|side| side.is_mirrored()).count();
    let alone = |before: usize| mirrored == 1 && piece.side(before).is_mirrored();
    let of = |case: &str| of_size(piece.plan.element_size, case);
    holding(&[
        (alone(0), of(ELEMENTS)),
        (alone(1), of(ROWS)),
        (alone(2), LAYERS.to_string()),
        (mirrored > 1 && mirrored == sides.len(), THROUGHOUT.to_string()),
    ])
}

fn named(way: Way, cases: Vec<String>) -> Vec<String> {
    cases.iter().map(|case| format!("{}, {case}", way.name())).collect()
}

/// In mid-row, or between two rows of a layer.
fn stretch_met(piece: &Piece) -> Vec<String> {
    let (row, layer) = (piece.count(1), piece.count(2));
    let in_row = |number: u64| number % row > 0;
    let in_layer = |number: u64| number % row == 0 && number % layer > 0;
    holding(&[
        (in_row(piece.first), BEGINS_IN_ROW),
        (in_row(piece.end), ENDS_IN_ROW),
        (in_layer(piece.first), BEGINS_IN_LAYER),
        (in_layer(piece.end), ENDS_IN_LAYER),
        (piece.source_first, SOURCE_FIRST),
        (!piece.source_first, SOURCE_LAST),
    ])
}
