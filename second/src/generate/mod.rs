//! Draws the calls to compare: the same ones for the same seed.

mod boundaries;
mod broken;
mod faulty_records;
mod frames;
mod give_backs;
mod histories;
mod jobs;
mod joins;
mod keeper;
mod kept;
mod limits;
mod list_shows;
mod lists;
mod moving;
mod numbers;
mod offsets;
mod pixel_shows;
mod pixels;
mod planes;
mod records;
mod refusals;
mod shows;
mod signs;
mod sizes;
mod spoil;
mod starts;
mod stretches;
mod values;
mod way_planes;
mod ways;
mod words;
pub mod work;

use crate::random::Random;
pub use list_shows::list_inputs;
pub use pixel_shows::pixel_runs;
pub use shows::show_inputs;
use work::Work;

/// A kind of call or of several calls, and how often it is drawn.
type Kind = (u64, fn(&mut Work));

const KINDS: &[Kind] = &[
    (1, numbers::version),
    (12, numbers::source_of),
    (28, numbers::room),
    (56, numbers::judge),
    (4, numbers::element_size),
    (2, numbers::rank_is_bad),
    (2, numbers::zero),
    (2, numbers::answer_refused),
    (10, numbers::element_count),
    (22, numbers::sub_tensor),
    (18, numbers::ready_made),
    (10, numbers::settings),
    (8, numbers::meets),
    (36, jobs::judge_job),
    (32, jobs::advance),
    (16, jobs::prepare),
    (32, boundaries::job),
    (8, boundaries::table),
    (64, moving::move_plane),
    (4, moving::move_sub_tensor),
    (24, moving::at_offset_bound),
    (6, joins::join),
    (32, pixels::pixels),
    (12, pixels::refused_and_outside),
    (24, signs::mirrored),
    (12, signs::at_an_end),
    (8, signs::sub_tensor),
    (24, stretches::advance),
    (4, stretches::transfer),
    (60, ways::any_way),
    (22, records::read),
    (16, records::write),
    (4, records::lengths),
    (8, records::fields),
    (14, lists::read),
    (4, lists::start),
    (18, lists::append),
    (2, lists::history),
    (2, histories::fresh_table),
    (3, histories::short),
    (1, histories::narrow),
    (2, broken::wide_polls),
    (8, keeper::request),
    (3, keeper::counts),
    (4, keeper::part_of),
    (12, give_backs::give_back),
    (1, kept::history),
    (8, frames::damaged),
];

/// The whole input of `rmvcalls`: `count` lines, the last of which has no newline.
pub fn calls(count: usize, seed: u64) -> Vec<u8> {
    let mut work = Work { random: Random::new(seed), lines: Vec::new() };
    let all: u64 = KINDS.iter().map(|kind| kind.0).sum();
    let mut once_drawn = false;
    while work.lines.len() + 1 < count {
        if !once_drawn && work.lines.len() > count / 2 {
            once_drawn = true;
            once(&mut work);
        }
        seldom(&mut work);
        let mut number = work.random.below(all);
        for &(often, draw) in KINDS {
            if number < often {
                draw(&mut work);
                break;
            }
            number -= often;
        }
    }
    work.lines.truncate(count.saturating_sub(1));
    let mut input = Vec::new();
    for line in &work.lines {
        input.extend_from_slice(line);
        input.push(b'\n');
    }
    if count > 0 {
        input.extend(frames::unfinished(&mut work));
    }
    input
}

/// What is drawn once in a run: two numbers for one call, lines of wrong lengths, the longest lines, the largest
/// numbers, elements of each size, records and lists spoiled in every way, fills where none may be, what the room
/// keeper tells apart, moves of each way, parts on boundaries and off them, strides of either sign, and pixels of each
/// kind.
fn once(work: &mut Work) {
    refusals::every_wrap(work);
    refusals::every_sub_tensor_pair(work);
    refusals::every_job_pair(work);
    refusals::every_table_pair(work);
    frames::wrong_lengths(work);
    frames::longest(work);
    moving::above_extent_limit(work);
    moving::largest_offset(work);
    numbers::largest_count(work);
    jobs::above_extent_limit(work);
    histories::beyond_steps(work);
    sizes::every_size(work);
    sizes::every_row(work);
    faulty_records::every_fill(work);
    faulty_records::every_length(work);
    faulty_records::every_pair(work);
    faulty_records::every_beginning(work);
    broken::every_free_fill(work);
    lists::every_fault(work);
    lists::every_record(work);
    lists::every_pair(work);
    lists::every_fill(work);
    lists::long(work);
    keeper::every_request(work);
    give_backs::every_order(work);
    give_backs::every_hold(work);
    give_backs::every_bound(work);
    keeper::every_wrong_run(work);
    give_backs::every_run(work);
    keeper::every_count(work);
    ways::every_way(work);
    boundaries::every_start(work);
    boundaries::every_prepare(work);
    boundaries::every_block(work);
    boundaries::every_slot(work);
    boundaries::every_far_start(work);
    signs::every_end(work);
    signs::every_fault(work);
    signs::every_mirror(work);
    signs::every_cut(work);
    signs::every_part(work);
    signs::every_word(work);
    signs::every_slot(work);
    ways::every_mirrored_way(work);
    pixels::every_coordinate(work);
    pixels::every_number(work);
    pixels::every_pair(work);
    pixels::every_padding(work);
    pixels::every_kept(work);
    pixels::every_turn(work);
    pixels::every_mirror(work);
    pixels::every_destination(work);
    pixels::longest(work);
}

/// Long lines.
fn seldom(work: &mut Work) {
    match work.random.below(800) {
        0..=11 => moving::large(work),
        12..=13 => moving::at_extent_limit(work),
        14 => jobs::advance_at_extent_limit(work),
        15..=16 => histories::large(work),
        _ => {}
    }
}
