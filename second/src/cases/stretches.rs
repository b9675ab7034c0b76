//! The cases of elements that are moved: where in its rows a stretch begins and ends, and how the elements of a row lie
//! in source and destination. The number 0 alone does not tell them apart, and a long comparison has to meet each.

use super::case::holding;
use super::moved::{moved, Element, Moved};
use super::number::{is_stretch, ADVANCE, MOVE_PLANE, PLAIN_ADVANCE, PLAIN_MOVE};
use crate::tensor::ELEMENT_SIZES;

const BEGINS: &str = "begins in mid-row";
const ENDS: &str = "ends in mid-row";
const WITHIN: &str = "mid-row to mid-row of one row";
const PADDING_TO_KEPT: &str = "padding of a row to kept";
const KEPT_TO_PADDING: &str = "kept to padding of a row";
const PADDED_ROW: &str = "begins in a row of padding";
const ROW_END: &str = "past the end of a row";
const LAYER_END: &str = "past the end of a layer";
const SLAB_END: &str = "past the end of a slab";
const MORE: &str = "budget above what is left";
/// Of a stretch, in the calls that have a beginning and a budget.
const OF_STRETCH: [&str; 10] =
    [BEGINS, ENDS, WITHIN, PADDING_TO_KEPT, KEPT_TO_PADDING, PADDED_ROW, ROW_END, LAYER_END, SLAB_END, MORE];

const SIDE_BY_SIDE: &str = "side by side";
const WIDER: &str = "wider in the destination";
const THINNED: &str = "thinned";
const TURNED: &str = "turned";
const BEFORE: &str = "padded before";
const BEHIND: &str = "padded behind";
const BOTH: &str = "padded on both sides";
const RIGHT_TO_LEFT: &str = "right to left";
/// Of rows, in a move by itself and in one within a memory, by either engine, with elements of each size. Wider,
/// thinned, turned and right to left are each met by itself.
const OF_ROW: [&str; 8] = [SIDE_BY_SIDE, WIDER, THINNED, TURNED, BEFORE, BEHIND, BOTH, RIGHT_TO_LEFT];

/// All cases of the call of this number.
pub fn cases(number: u8) -> Vec<String> {
    let mut cases = Vec::new();
    if is_stretch(number) {
        cases.extend(OF_STRETCH.map(String::from));
    }
    if tells_rows(number) {
        for size in ELEMENT_SIZES {
            cases.extend(OF_ROW.map(|case| of_size(size.into(), case)));
        }
    }
    cases
}

fn tells_rows(number: u8) -> bool {
    [MOVE_PLANE, PLAIN_MOVE, ADVANCE, PLAIN_ADVANCE].contains(&number)
}

fn of_size(size: usize, case: &str) -> String {
    format!("{size}-byte row {case}")
}

/// The cases that a call with these bytes is, by what it has to be answered.
pub fn met(bytes: &[u8], expected: &[u8]) -> Vec<String> {
    let (Some((&number, arguments)), [_, 0, ..]) = (bytes.split_first(), expected) else {
        return Vec::new();
    };
    let Some(moved) = moved(number, arguments) else {
        return Vec::new();
    };
    let mut met = Vec::new();
    if is_stretch(number) {
        met.extend(stretch_met(&moved));
    }
    if tells_rows(number) {
        met.extend(rows_met(&moved).iter().map(|case| of_size(moved.plan.element_size, case)));
    }
    met
}

fn stretch_met(moved: &Moved) -> Vec<String> {
    let (Some(first), Some(end)) = (moved.elements.first(), moved.elements.last()) else {
        return Vec::new();
    };
    let extent = &moved.plan.extent[..moved.plan.rank];
    let last = moved.last();
    let begins = first.coordinate[last] > 0;
    let ends = end.coordinate[last] + 1 < extent[last];
    // Whether a coordinate so many dimensions before the last changes. Each one farther in has more than one value, so
    // that something is taken back.
    let passes = |before: usize| {
        last.checked_sub(before).is_some_and(|i| {
            first.coordinate[..=i] != end.coordinate[..=i] && extent[i + 1..].iter().all(|&extent| extent > 1)
        })
    };
    let beside_kept = |element: &Element| !element.is_kept && !moved.in_row_of_padding(element);
    holding(&[
        (begins, BEGINS),
        (ends, ENDS),
        (begins && ends && first.coordinate[..last] == end.coordinate[..last], WITHIN),
        (beside_kept(first) && end.is_kept, PADDING_TO_KEPT),
        (first.is_kept && beside_kept(end), KEPT_TO_PADDING),
        (moved.in_row_of_padding(first), PADDED_ROW),
        (passes(1), ROW_END),
        (passes(2), LAYER_END),
        (passes(3), SLAB_END),
        (moved.spare, MORE),
    ])
}

/// The cases of all rows that were moved, each once.
fn rows_met(moved: &Moved) -> Vec<String> {
    let last = moved.last();
    let s = moved.config.perm[last] as usize;
    let (source, step, destination) = (moved.plan.source_stride[s], moved.config.step[s], moved.plan.stride[last]);
    let rows = || moved.elements.chunk_by(|a, b| a.coordinate[..last] == b.coordinate[..last]);
    // Two kept neighbours: from the one to the other is what a row adds.
    let run = rows().any(|row| row.windows(2).any(|two| two[0].is_kept && two[1].is_kept));
    // A row with something kept, by whether the first and the last that was moved of it are padding.
    let padded = |before: bool, behind: bool| {
        let ends = |row: &[Element]| (row[0].is_kept, row[row.len() - 1].is_kept);
        rows().any(|row| row.iter().any(|element| element.is_kept) && ends(row) == (!before, !behind))
    };
    holding(&[
        (run && (source, step, destination) == (1, 1, 1), SIDE_BY_SIDE),
        (run && (source, step) == (1, 1) && destination > 1, WIDER),
        (run && (source, destination) == (1, 1) && step > 1, THINNED),
        (run && (step, destination) == (1, 1) && source > 1 && s != last, TURNED),
        (padded(true, false), BEFORE),
        (padded(false, true), BEHIND),
        (padded(true, true), BOTH),
        (run && (source, step, destination) == (-1, 1, 1), RIGHT_TO_LEFT),
    ])
}
