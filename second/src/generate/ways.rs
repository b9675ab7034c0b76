//! Moves of each way: whole ones, and stretches of them that begin and end inside.

use super::jobs::lay_out;
use super::moving::move_drawn;
use super::planes::Drawn;
use super::way_planes::draw_way;
use super::work::{Work, ADVANCE, MOVE};
use crate::cases::piece::Piece;
use crate::cases::way::{Way, WAYS};
use crate::cases::ways::{cases_of_way, met_by_piece, mirrored_cases_of_way};
use crate::job::Job;
use crate::moves::room;
use crate::random::Random;
use crate::transfers::{fresh, Slot, RUNNING};
use crate::wire::Memory;

const STEP: u8 = 0x43;

/// The calls that move, by the first engine; a whole move and an `advance` are made by both.
const CALLS: [u8; 3] = [MOVE[0], ADVANCE[0], STEP];

/// More draws than any case of a way needs.
const DRAWS: usize = 6_000;

/// A move between two slices, or a stretch of it within a memory.
struct Asked {
    drawn: Drawn,
    job: Job,
    length: u64,
    from: u64,
    budget: u64,
}

/// A move of any way.
pub fn any_way(work: &mut Work) {
    let (way, number) = (work.random.pick(&WAYS), work.random.pick(&CALLS));
    let asked = ask(&mut work.random, way);
    call(work, number, &asked);
}

/// Moves of each way, until each case of it was met by each call.
pub fn every_way(work: &mut Work) {
    every_case_of(work, cases_of_way);
}

/// The same of what is mirrored.
pub fn every_mirrored_way(work: &mut Work) {
    every_case_of(work, mirrored_cases_of_way);
}

fn every_case_of(work: &mut Work, cases: fn(u8, Way) -> Vec<String>) {
    for number in CALLS {
        for way in WAYS {
            every_case(work, number, way, cases(number, way));
        }
    }
}

/// Only what meets a case for the first time is called for.
fn every_case(work: &mut Work, number: u8, way: Way, mut missing: Vec<String>) {
    for _ in 0..DRAWS {
        if missing.is_empty() {
            break;
        }
        let asked = ask(&mut work.random, way);
        let met = piece(number, &asked).map_or(Vec::new(), |piece| met_by_piece(number, way, &piece));
        if met.iter().any(|case| missing.contains(case)) {
            missing.retain(|case| !met.contains(case));
            call(work, number, &asked);
        }
    }
}

fn ask(random: &mut Random, way: Way) -> Asked {
    let drawn = draw_way(random, way);
    let (job, length) = lay_out(random, &drawn);
    let (from, budget) = draw_stretch(random, &drawn);
    Asked { drawn, job, length, from, budget }
}

/// What a call moves.
fn piece(number: u8, asked: &Asked) -> Option<Piece> {
    if number == MOVE[0] {
        Piece::of_move(&asked.drawn.tensor, &asked.drawn.config, asked.drawn.source)
    } else {
        Piece::of_job(&asked.job, asked.from, asked.budget)
    }
}

fn call(work: &mut Work, number: u8, asked: &Asked) {
    if number == MOVE[0] {
        return move_drawn(work, &asked.drawn);
    }
    let memory = Memory(work.random.bytes(asked.length as usize));
    if number == ADVANCE[0] {
        return work.by_both(ADVANCE, &(asked.job, asked.from, asked.budget, memory));
    }
    let mut table = fresh(asked.length).table;
    table.slot[0] = Slot { state: RUNNING, job: asked.job, moved: asked.from };
    work.call(STEP, &(table, 0u32, asked.budget, memory));
}

/// Most of a move: where its elements begin, and how many they are.
fn draw_stretch(random: &mut Random, drawn: &Drawn) -> (u64, u64) {
    let extent = &room(&drawn.tensor, &drawn.config).answer.extent[..drawn.dimensions()];
    let total = extent.iter().map(|&extent| extent as u64).product();
    let (before, behind) = (draw_left(random, extent), draw_left(random, extent));
    if before + behind < total {
        (before, total - before - behind)
    } else {
        (0, total + behind)
    }
}

/// How much is left at the beginning or at the end of a move: some elements of a row, some rows of a layer, both, a part
/// of everything, or nothing.
fn draw_left(random: &mut Random, extent: &[u32]) -> u64 {
    let of = |before: usize| extent.len().checked_sub(1 + before).map_or(1, |i| extent[i] as u64);
    let (row, rows) = (of(0), of(1));
    let elements = random.between(1, row.saturating_sub(1).clamp(1, 9));
    let lines = row * random.between(1, rows.saturating_sub(1).clamp(1, 3));
    match random.below(8) {
        0..=2 => elements,
        3..=4 => lines,
        5 => lines + elements,
        6 => random.below(extent.iter().map(|&extent| extent as u64).product::<u64>() / 3),
        _ => 0,
    }
}
