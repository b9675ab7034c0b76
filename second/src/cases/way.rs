//! The ways of a move: shapes in which many elements can be moved at once, of planes that are large enough for it. They
//! are told apart by how the elements of a row, the rows of a layer and the layers lie in source and destination, and how
//! many there are. The shape is that of the whole move; how much of it has to be moved at once is said with each way.

use super::case::holding;
use super::input::all_differ;
use super::piece::Piece;
use crate::moves::total;
use crate::tensor::ELEMENT_SIZES;

/// So many bytes, elements or rows can be moved at once, and so many bytes of a long run; what is behind them is a tail.
const BLOCK: u64 = 16;
const LONG_BLOCK: u64 = 128;

#[derive(Clone, Copy)]
pub enum Way {
    Joined,
    Lines,
    ShortRows,
    PutTogether,
    TakenApart,
    Turned,
    EverySecond,
    PaddedRows,
}

pub const WAYS: [Way; 8] = [
    Way::Joined,
    Way::Lines,
    Way::ShortRows,
    Way::PutTogether,
    Way::TakenApart,
    Way::Turned,
    Way::EverySecond,
    Way::PaddedRows,
];

impl Way {
    pub fn name(self) -> &'static str {
        match self {
            Way::Joined => "joined",
            Way::Lines => "lines",
            Way::ShortRows => "short rows",
            Way::PutTogether => "pixels put together",
            Way::TakenApart => "pixels taken apart",
            Way::Turned => "turned",
            Way::EverySecond => "every second",
            Way::PaddedRows => "padded rows",
        }
    }

    /// All shapes that are told apart.
    pub fn details(self) -> Vec<String> {
        match self {
            Way::Joined => joined_details(),
            Way::Lines => line_details(),
            Way::ShortRows => with(of_each_size(&OF_SHORT), &[ONE_ELEMENT, MORE_ROWS]),
            Way::PutTogether => with(of_each_size(&PUT_TOGETHER.concat()), &[SHORT_JOINED]),
            Way::TakenApart => with(of_each_size(&TAKEN_APART), &[SHORT_JOINED]),
            Way::Turned => turned_details(),
            Way::EverySecond => of_each_size(&[TO_THE_END, BYTE_BEHIND]),
            Way::PaddedRows => of_each_size(&OF_PADDED),
        }
    }

    /// Those of them that this piece is, or nothing if it is not moved this way.
    pub fn met(self, piece: &Piece) -> Option<Vec<String>> {
        match self {
            Way::Joined => joined(piece),
            Way::Lines => lines(piece),
            Way::ShortRows => short_rows(piece),
            Way::PutTogether => put_together(piece),
            Way::TakenApart => taken_apart(piece),
            Way::Turned => turned(piece),
            Way::EverySecond => every_second(piece),
            Way::PaddedRows => padded_rows(piece),
        }
    }
}

fn of_size(size: usize, detail: &str) -> String {
    format!("{size}-byte {detail}")
}

fn of_each_size<S: AsRef<str>>(details: &[S]) -> Vec<String> {
    let of = |size: u8| details.iter().map(move |detail| of_size(size.into(), detail.as_ref()));
    ELEMENT_SIZES.into_iter().flat_map(of).collect()
}

fn with(mut details: Vec<String>, others: &[&str]) -> Vec<String> {
    details.extend(others.iter().map(|other| other.to_string()));
    details
}

/// A run of joined rows has so many bytes at least, and a tail.
const RUN: u64 = 200;
const LAYERS: &str = "layers";
const TAIL_OF_128: &str = "whole 128s and a tail";

fn of_rank(rank: usize) -> String {
    format!("of rank {rank}")
}

fn joined_details() -> Vec<String> {
    let mut shapes: Vec<String> = (2..=4).map(of_rank).collect();
    shapes.push(LAYERS.to_string());
    with(of_each_size(&shapes), &[TAIL_OF_128])
}

/// Rows, and layers, go on where the last one ended: all that is moved is one run. Or rows do, but not layers, and more
/// than one layer is moved.
fn joined(piece: &Piece) -> Option<Vec<String>> {
    let (rank, size, joined) = (piece.plan.rank, piece.plan.element_size, piece.joined());
    let is_layers = joined == 2 && rank > 2 && piece.passes(piece.count(2));
    let is_all = joined == rank && rank > 1;
    if !(is_layers || is_all) || piece.side(joined - 1).is_padded() {
        return None;
    }
    let run = piece.most_of(piece.count(joined)) * size as u64;
    if run < RUN || run % BLOCK == 0 {
        return None;
    }
    let shape = if is_all { of_rank(rank) } else { LAYERS.to_string() };
    let cases = [(true, of_size(size, &shape)), (run % LONG_BLOCK < BLOCK, TAIL_OF_128.to_string())];
    Some(holding(&cases))
}

const CUT: &str = "cut";
const SET: &str = "set";
const CUT_AND_SET: &str = "cut and set";
const OF_LINES: [&str; 3] = [CUT, SET, CUT_AND_SET];
/// There are more rows than this.
const ROWS: u64 = 64;
const MORE_ROWS: &str = "more than 64";

fn of_tail(least: u64, tail: u64) -> String {
    format!("{least} bytes and tail {tail}")
}

fn line_details() -> Vec<String> {
    let mut details = with(of_each_size(&OF_LINES), &[MORE_ROWS]);
    for least in [BLOCK, LONG_BLOCK] {
        details.extend((0..BLOCK).map(|tail| of_tail(least, tail)));
    }
    details
}

/// Rows whose elements lie side by side are cut from wider rows, or set into wider ones. At least two are moved.
fn lines(piece: &Piece) -> Option<Vec<String>> {
    let (row, rows, size) = (piece.row(), piece.rows(), piece.plan.element_size);
    let bytes = row.kept * size as u64;
    if piece.joined() != 1 || row.is_padded() || rows.is_padded() || bytes < BLOCK || piece.band() < 2 {
        return None;
    }
    let kind = match (rows.source > row.kept, rows.destination > row.kept) {
        (true, false) => CUT,
        (false, true) => SET,
        _ => CUT_AND_SET,
    };
    let least = if bytes < LONG_BLOCK { BLOCK } else { LONG_BLOCK };
    let cases = [
        (true, of_size(size, kind)),
        (true, of_tail(least, bytes % BLOCK)),
        (piece.band() > ROWS, MORE_ROWS.to_string()),
    ];
    Some(holding(&cases))
}

const PERMUTED: &str = "permuted";
const THINNED: &str = "thinned";
const STRIDED: &str = "strided";
const WITH_GAPS: &str = "with gaps";
const IN_FEW_ROWS: &str = "in few rows";
const OF_SHORT: [&str; 6] = [PERMUTED, THINNED, STRIDED, WITH_GAPS, CUT, IN_FEW_ROWS];
const ONE_ELEMENT: &str = "of one element";

/// Rows of few elements that are not joined, for one reason or another. Many of them are moved, or there are few.
fn short_rows(piece: &Piece) -> Option<Vec<String>> {
    let (row, rows, size) = (piece.row(), piece.rows(), piece.plan.element_size);
    let band = piece.band();
    if row.kept >= BLOCK || row.is_padded() || rows.is_padded() || piece.joined() > 1 || band < 2 {
        return None;
    }
    let s = piece.config.perm[piece.plan.rank - 1] as usize;
    let kind = match row.adds() {
        _ if s + 1 < piece.plan.rank => PERMUTED,
        _ if piece.config.step[s] > 1 => THINNED,
        (2.., _) => STRIDED,
        (_, 2..) => WITH_GAPS,
        _ if rows.destination > row.kept => WITH_GAPS,
        _ => CUT,
    };
    let cases = [
        (band >= BLOCK, of_size(size, kind)),
        (rows.kept < BLOCK, of_size(size, IN_FEW_ROWS)),
        (band >= BLOCK && row.kept == 1, ONE_ELEMENT.to_string()),
        (band > ROWS, MORE_ROWS.to_string()),
    ];
    Some(holding(&cases))
}

/// By whether the planes have rows, and whether each pixel gets a fourth channel, which is padding.
const PUT_TOGETHER: [[&str; 2]; 2] = [["(3,n)", "(3,n) and a fourth"], ["(3,h,w)", "(3,h,w) and a fourth"]];
const SHORT_JOINED: &str = "short rows joined";

/// Three planes of channels become pixels: a row is a pixel, and the rows of a layer are pixels that lie side by side in
/// each plane. A block of them is moved, and there is a tail. Where a layer has fewer, layers go on where the last one
/// ended.
fn put_together(piece: &Piece) -> Option<Vec<String>> {
    let (row, rows, layers) = (piece.row(), piece.rows(), piece.layers());
    let pixel = row.extent();
    let is_pixel = row.kept == 3 && row.source > 1 && row.destination == 1 && pixel <= 4;
    if !is_pixel || rows.adds() != (1, pixel) || rows.is_padded() {
        return None;
    }
    if rows.kept < BLOCK {
        let goes_on = layers.adds() == (rows.kept, rows.kept * pixel) && !layers.is_padded();
        let is_block = piece.most_of(piece.count(3)) >= BLOCK * pixel;
        return (goes_on && is_block).then_some(vec![SHORT_JOINED.to_string()]);
    }
    let (has_rows, has_fourth) = (piece.plan.rank > 2, pixel > 3);
    let detail = of_size(piece.plan.element_size, PUT_TOGETHER[has_rows as usize][has_fourth as usize]);
    (rows.kept % BLOCK > 0 && piece.band() >= BLOCK).then_some(vec![detail])
}

/// So many pixels are taken apart at least.
const PIXELS: u64 = 32;
/// By whether the pixels have rows.
const TAKEN_APART: [&str; 2] = ["(n,3)", "(h,w,3)"];

/// Pixels become three planes of channels: a row is one channel of pixels that lie side by side. Elements of more than
/// one channel are moved, enough of one row, and there is a tail. Where a row has fewer, rows go on where the last one
/// ended.
fn taken_apart(piece: &Piece) -> Option<Vec<String>> {
    let (row, rows) = (piece.row(), piece.rows());
    let is_channel = |before: &usize| {
        let side = piece.side(*before);
        side.source == 1 && side.kept == 3 && !side.is_padded()
    };
    let channel = (1..piece.plan.rank).find(is_channel)?;
    if row.adds() != (3, 1) || row.is_padded() || !piece.passes(piece.count(channel)) {
        return None;
    }
    let has_rows = channel > 1;
    if row.kept < PIXELS {
        let goes_on = has_rows && rows.adds() == (3 * row.kept, row.kept) && !rows.is_padded();
        let is_enough = piece.most_of(piece.count(2)) >= PIXELS;
        return (goes_on && is_enough).then_some(vec![SHORT_JOINED.to_string()]);
    }
    let detail = of_size(piece.plan.element_size, TAKEN_APART[has_rows as usize]);
    (row.kept % BLOCK > 0 && piece.most_of(row.kept) >= PIXELS).then_some(vec![detail])
}

const OF_SIDES: [&str; 2] = ["rows", "columns"];
const MULTIPLES: [&str; 4] = ["of 16s", "of 8s", "of 4s", "of no 4s"];
const CROPPED: &str = "cropped";

fn turned_details() -> Vec<String> {
    let of = |side: &str| MULTIPLES.map(|multiple| format!("{side} {multiple}"));
    with(of_each_size(&OF_SIDES.map(of).concat()), &[LAYERS, CROPPED])
}

/// What a side of a layer is a multiple of.
fn multiple(side: u64) -> &'static str {
    let place = [16, 8, 4].iter().position(|of| side % of == 0);
    MULTIPLES[place.unwrap_or(3)]
}

/// Rows and columns of a layer are exchanged: from row to row one element is added in the source. A block of rows with a
/// block of columns is moved.
fn turned(piece: &Piece) -> Option<Vec<String>> {
    let (row, rows) = (piece.row(), piece.rows());
    let is_exchanged = row.source > 1 && row.destination == 1 && rows.source == 1;
    let is_block = row.kept >= BLOCK && piece.band() >= BLOCK;
    if !is_exchanged || !is_block || row.is_padded() || rows.is_padded() {
        return None;
    }
    let is_cropped = |before: usize| {
        let s = piece.config.perm[piece.plan.rank - 1 - before] as usize;
        piece.plan.count[s] < piece.tensor.shape[s] as u64
    };
    let of = |side: &str, kept: u64| of_size(piece.plan.element_size, &format!("{side} {}", multiple(kept)));
    let cases = [
        (true, of(OF_SIDES[0], rows.kept)),
        (true, of(OF_SIDES[1], row.kept)),
        (piece.passes(piece.count(2)), LAYERS.to_string()),
        (is_cropped(0) && is_cropped(1), CROPPED.to_string()),
    ];
    Some(holding(&cases))
}

const TO_THE_END: &str = "to the source's end";
const BYTE_BEHIND: &str = "with a byte behind";

/// A row has a step of 2, and a block of one is moved. The source ends with the last element that is read, or a single
/// byte is behind it; and this element is moved.
fn every_second(piece: &Piece) -> Option<Vec<String>> {
    let row = piece.row();
    let s = piece.config.perm[piece.plan.rank - 1] as usize;
    let is_second = piece.config.step[s] == 2 && row.adds() == (2, 1) && !row.is_padded();
    if !is_second || piece.most_of(row.kept) < BLOCK {
        return None;
    }
    let is_to_the_last = piece.end == total(&piece.plan);
    let of = |behind: u64, detail: &str| {
        let holds = is_to_the_last && piece.read_to() + behind == piece.source;
        (holds, of_size(piece.plan.element_size, detail))
    };
    Some(holding(&[of(0, TO_THE_END), of(1, BYTE_BEHIND)]))
}

/// So many rows with something kept are moved at least.
const PADDED_ROWS: u64 = 3;
const NARROW: &str = "narrow";
const WIDE_BEFORE: &str = "wide before";
const WIDE_BEHIND: &str = "wide behind";
const IN_PADDED_LAYERS: &str = "in padded layers";
const OF_PADDED: [&str; 4] = [NARROW, WIDE_BEFORE, WIDE_BEHIND, IN_PADDED_LAYERS];

/// Rows have padding before and behind, of fewer columns than a block or more, by a fill whose four bytes differ. In
/// padded layers the first and the last rows are padding, and more than one layer is moved.
fn padded_rows(piece: &Piece) -> Option<Vec<String>> {
    let (row, rows) = (piece.row(), piece.rows());
    let is_enough = piece.band() >= rows.pre + rows.post + PADDED_ROWS;
    if row.pre == 0 || row.post == 0 || !is_enough || !all_differ(piece.config.fill) {
        return None;
    }
    let of = |holds: bool, detail: &str| (holds, of_size(piece.plan.element_size, detail));
    let cases = [
        of(row.pre < BLOCK && row.post < BLOCK, NARROW),
        of(row.pre >= BLOCK, WIDE_BEFORE),
        of(row.post >= BLOCK, WIDE_BEHIND),
        of(rows.pre > 0 && rows.post > 0 && piece.passes(piece.count(2)), IN_PADDED_LAYERS),
    ];
    Some(holding(&cases))
}
