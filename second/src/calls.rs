//! The calls of CALLS.md: number, name, what it can give, arguments and answer of each. A new call is one more line.

use crate::helpers::{self, Count, SubConfig, SubTensor};
use crate::job::{self, Advanced, Job, Judged, Part};
use crate::keeper::{self, GivenBack, Granted, RunPart};
use crate::list::{self, Appended, FirstTwo, Numbered, Started};
use crate::moves::{self, Answer, Config, Room};
use crate::pixel::{self, Pixel};
use crate::plain;
use crate::ready_made::{self, Made, Padding};
use crate::record::{self, Reading};
use crate::tensor::{self, Fault, Source, Tensor};
use crate::transfers::{self, Changed, Fresh, Poll, Prepared, Stepped, Table, DONE, FREE, PREPARED, RUNNING};
use crate::wire::{whole, wire_struct, Counted, Memory, Place, Rest, Wire, MEMORY_LIMIT};

/// The whole answer to these arguments, or nothing if they are not as long as the call's.
type Work = dyn Fn(&[u8]) -> Option<Vec<u8>>;

/// What a call can give. A long comparison has to meet all of it, and a call must not give anything else.
#[derive(Clone, Copy)]
pub enum Gives {
    /// Nothing is refused and there is nothing to tell apart: the call has only to be made.
    OneKind,
    /// The first byte of the answer: the number of refusal, or the whole answer of a call that has none.
    First(&'static [u8]),
    /// The number of refusal where another field comes before it: the byte behind so many of the answer.
    Behind(usize, &'static [u8]),
    /// The first two bytes of the answer, with a name for each pair.
    FirstTwo(&'static [(&'static str, [u8; 2])]),
    /// The answer has no field for the number of refusal: it is the one that this call gives to the same arguments.
    SameAs(u8),
}

pub struct Call {
    pub number: u8,
    pub name: &'static str,
    pub gives: Gives,
    pub answer: Box<Work>,
    /// The fields of the arguments.
    pub takes: Vec<Place>,
    /// The fields of the answer.
    pub places: Vec<Place>,
}

impl Call {
    /// How many bytes the arguments have without what is left of the line.
    pub fn fixed_length(&self) -> usize {
        self.takes.iter().map(|&(_, length)| length).filter(|&length| length != usize::MAX).sum()
    }

    /// Whether no arguments have a wrong length.
    pub fn takes_any_length(&self) -> bool {
        (self.answer)(&[]).is_some() && (self.answer)(&[0; MEMORY_LIMIT + 1]).is_some()
    }

    /// At which bytes of the arguments the states of slots stand.
    pub fn state_places(&self) -> Vec<usize> {
        let mut states = Vec::new();
        let mut place = 0;
        for (name, length) in self.takes.iter().take_while(|&&(_, length)| length != usize::MAX) {
            if name.ends_with(".state") {
                states.push(place);
            }
            place += length;
        }
        states
    }
}

pub struct Calls(pub Vec<Call>);

impl Calls {
    pub fn find(&self, number: u8) -> Option<&Call> {
        self.0.iter().find(|call| call.number == number)
    }
}

wire_struct! { Moved { answer: Answer, destination: Memory } }
wire_struct! { Written { fault: Fault, room: Memory } }

type Four = [u32; 4];

/// `sub_part` takes the same arguments and is refused in the same cases.
const MOVER_SUB_TENSOR: u8 = 0x25;
/// `record_count` takes the same bytes and has no field for what is wrong with them.
const LIST_FAULT: u8 = 0x32;
/// `place_after` takes the same arguments and goes on from the records that there are.
const RECORD_AT: u8 = 0x34;

/// "Order.": the numbers of refusal that a call gives, behind 0.
const SOURCE: Gives = Gives::First(&[0, 1, 2, 3, 4]);
/// "A room question ... never gives 5 or 13."
const ROOM: Gives = Gives::First(&[0, 1, 2, 3, 4, 6, 7, 8, 9, 10, 11, 12]);
/// "Move: 1 to 13."
const MOVE: Gives = Gives::First(&[0, 1, 2, 3, 4, 5, 6, 7, 8, 9, 10, 11, 12, 13]);
/// "1 to 12 as for a move, then 35 ...; 13 is never given."
const PIXEL: Gives = Gives::First(&[0, 1, 2, 3, 4, 5, 6, 7, 8, 9, 10, 11, 12, 35]);
/// "Sub-tensor: 1 to 5, 7, 8, 14, 15."
const SUB_TENSOR: Gives = Gives::First(&[0, 1, 2, 3, 4, 5, 7, 8, 14, 15]);
/// "count is then 1, 3, 16"
const COUNT: Gives = Gives::First(&[0, 1, 3, 16]);
/// "1 with all fields 0 answers a wrong one"
const MADE: Gives = Gives::First(&[0, 1]);
/// CALLS: "20, 1 to 13, 34, 21".
const JOB: Gives = Gives::First(&[0, 20, 1, 2, 3, 4, 5, 6, 7, 8, 9, 10, 11, 12, 13, 34, 21]);
/// "25 for a length that is neither, 26, 27 where the version isn't that length's, 1, then for version 2 also 2; 28"
const READ: Gives = Gives::First(&[0, 25, 26, 27, 1, 2, 28]);
/// "Write does the same, 25 being a room not of the version written."
const WRITE: Gives = Gives::First(&[0, 25, 1, 2, 28]);
/// What is behind 27 in both.
const FIELDS: Gives = Gives::First(&[0, 1, 2, 28]);
/// How long a record is, 131 or 135: the lowest byte of the number.
const LENGTHS: Gives = Gives::First(&[131, 135]);
/// "25 for under 7 bytes, 26, 27, then 30 where the length isn't 7 + 131 x count"
const LIST: Gives = Gives::First(&[0, 25, 26, 27, 30]);
/// "each record then as in 01; 39 past the last", behind the number of the record. 25 can't be provoked, since a record
/// of a list always has its 131 bytes, nor can 2, which only version 2 gives.
const RECORD_OF_LIST: Gives = Gives::Behind(8, &[0, 39, 26, 27, 1, 28]);
/// "38 if the buffer is shorter"
const LIST_START: Gives = Gives::First(&[0, 38]);
/// "Append: those four for the list so far, ... 37 if it has 65,535 records, 38 if under 131 bytes remain, 1, 28", and
/// 27 again, last, for a fill. 37 can't be provoked through a line: such a list has 8,585,092 bytes.
const APPEND: Gives = Gives::First(&[0, 25, 26, 27, 30, 38, 1, 28]);
/// 17: "above the limit for a fresh one".
const FRESH: Gives = Gives::First(&[0, 17]);
/// "Prepare: 17 to 20, 1 to 13, 21, 22", and "34 after 13 and before 21".
const PREPARE: Gives = Gives::First(&[0, 17, 18, 19, 20, 1, 2, 3, 4, 5, 6, 7, 8, 9, 10, 11, 12, 13, 34, 21, 22]);
/// "Start, step, release: 17, 18, 23, 24."
const TURN: Gives = Gives::First(&[0, 17, 18, 23, 24]);
/// "Poll: 18; a handle above 3 gives 23." "A poll says free, prepared with what is left, running with what is left, or
/// done."
const POLL: Gives = Gives::FirstTwo(&[
    ("free", [0, FREE]),
    ("prepared", [0, PREPARED]),
    ("running", [0, RUNNING]),
    ("done", [0, DONE]),
    ("18", [18, 0]),
    ("23", [23, 0]),
]);
/// "31 for n outside 1 to 64 ..., 32 for no run"
const REQUEST: Gives = Gives::First(&[0, 31, 32]);
/// "giving back has 17 ... and 18 first; then 31 ..., 33 for a run that can't be given back"
const GIVE_BACK: Gives = Gives::First(&[0, 17, 18, 31, 33]);
/// FORMAT: 17 of a length that is too small or too large, and 31 of a run.
const PART_OF: Gives = Gives::First(&[0, 17, 31]);
/// How many of 64 blocks: the lowest byte of the number.
const BLOCKS: Gives = Gives::First(&UP_TO_64);
/// Two things that are no refusals: no and yes.
const NO_YES: Gives = Gives::First(&[0, 1]);
/// "1, 2, 4, or 0 for others", and "3 for 3"
const SIZES: Gives = Gives::First(&[0, 1, 2, 3, 4]);

/// 0 to 64.
const UP_TO_64: [u8; 65] = {
    let mut numbers = [0; 65];
    let mut k = 0;
    while k < 65 {
        numbers[k] = k as u8;
        k += 1;
    }
    numbers
};

/// A call that takes `A` and answers `R`.
fn call<A: Wire + 'static, R: Wire + 'static>(number: u8, name: &'static str, gives: Gives, work: fn(A) -> R) -> Call {
    let mut takes = Vec::new();
    A::places("", &mut takes);
    let mut places = vec![("number of the call".to_string(), 1)];
    R::places("", &mut places);
    let answer = move |arguments: &[u8]| {
        let mut out = vec![number];
        work(whole(arguments)?).write(&mut out);
        Some(out)
    };
    Call { number, name, gives, answer: Box::new(answer), takes, places }
}

impl Calls {
    pub fn all() -> Calls {
        let mut calls = Vec::new();
        calls.extend(plane_calls());
        calls.extend(ready_made_calls());
        calls.extend(setting_calls());
        calls.extend(mover_calls());
        calls.extend(plain_calls());
        calls.extend(record_calls());
        calls.extend(list_calls());
        calls.extend(table_calls());
        calls.extend(keeper_calls());
        Calls(calls)
    }
}

fn plane_calls() -> Vec<Call> {
    vec![
        call(0x00, "version", Gives::OneKind, |_: ()| -> u16 { 7 }),
        call(0x01, "source_of", SOURCE, |tensor: Tensor| -> Source { tensor::source_of(&tensor) }),
        call(0x02, "room", ROOM, |(tensor, config): (Tensor, Config)| -> Room { moves::room(&tensor, &config) }),
        call(0x03, "judge", MOVE, |(tensor, config, source, destination): (Tensor, Config, u64, u64)| -> Answer {
            moves::judge(&tensor, &config, source, destination)
        }),
        call(0x04, "element_size", SIZES, helpers::element_size),
        call(0x05, "element_count", COUNT, |(tensor, start): (Tensor, u32)| -> Count {
            helpers::element_count(&tensor, start)
        }),
        call(0x06, "sub_tensor", SUB_TENSOR, |(tensor, config, source): (Tensor, SubConfig, u64)| -> SubTensor {
            helpers::sub_tensor(&tensor, &config, source)
        }),
        call(0x07, "rank_is_bad", NO_YES, |rank: u8| -> u8 { tensor::check_rank(rank).is_err() as u8 }),
        call(0x08, "Tensor::zero", Gives::OneKind, |_: ()| Tensor::default()),
        call(0x09, "Config::zero", Gives::OneKind, |_: ()| Config::default()),
        call(0x0a, "Answer::refused", Gives::OneKind, Answer::refused),
    ]
}

fn ready_made_calls() -> Vec<Call> {
    vec![
        call(0x10, "copy", MADE, ready_made::copy),
        call(0x11, "slice", MADE, |(rank, offset, size, dst_stride): (u8, Four, Four, Four)| -> Made {
            ready_made::slice(rank, offset, size, dst_stride)
        }),
        call(0x12, "concatenate", MADE, |(rank, dst_offset, dst_stride): (u8, Four, Four)| -> Made {
            ready_made::concatenate(rank, dst_offset, dst_stride)
        }),
        call(0x13, "subsample", MADE, |(rank, step, dst_stride): (u8, Four, Four)| -> Made {
            ready_made::subsample(rank, step, dst_stride)
        }),
        call(0x14, "permute", MADE, |(rank, perm): (u8, [u8; 4])| -> Made { ready_made::permute(rank, perm) }),
        call(0x15, "pad_chw", Gives::OneKind, |(padding, dst_stride): (Padding, Four)| -> Config {
            ready_made::pad_chw(padding, dst_stride)
        }),
        call(0x16, "pad_hwc", Gives::OneKind, |(padding, dst_stride): (Padding, Four)| -> Config {
            ready_made::pad_hwc(padding, dst_stride)
        }),
        call(0x17, "all", MADE, |(rank, config): (u8, Config)| -> Made { ready_made::all(rank, &config) }),
    ]
}

fn setting_calls() -> Vec<Call> {
    vec![
        call(0x18, "with_offset", Gives::OneKind, |(config, entries): (Config, Four)| config.with_offset(entries)),
        call(0x19, "with_size", Gives::OneKind, |(config, entries): (Config, Four)| config.with_size(entries)),
        call(0x1a, "with_step", Gives::OneKind, |(config, entries): (Config, Four)| config.with_step(entries)),
        call(0x1b, "with_dst_offset", Gives::OneKind, |(config, entries): (Config, Four)| {
            config.with_dst_offset(entries)
        }),
        call(0x1c, "with_dst_stride", Gives::OneKind, |(config, entries): (Config, Four)| {
            config.with_dst_stride(entries)
        }),
        call(0x1d, "with_perm", Gives::OneKind, |(config, entries): (Config, [u8; 4])| config.with_perm(entries)),
        call(0x1e, "with_pre", Gives::OneKind, |(config, entries): (Config, [u8; 4])| config.with_pre(entries)),
        call(0x1f, "with_post", Gives::OneKind, |(config, entries): (Config, [u8; 4])| config.with_post(entries)),
        call(0x0b, "with_fill", Gives::OneKind, |(config, fill): (Config, u32)| config.with_fill(fill)),
    ]
}

fn mover_calls() -> Vec<Call> {
    vec![
        call(0x20, "move_plane", MOVE, |(tensor, config, source, room): (Tensor, Config, Counted, Memory)| -> Moved {
            let mut destination = room;
            let answer = moves::move_plane(&tensor, &config, &source.0, &mut destination.0);
            Moved { answer, destination }
        }),
        call(0x21, "judge_job", JOB, |(length, job): (u64, Job)| -> Judged { job::judge_job(length, &job) }),
        call(0x22, "advance", JOB, |(job, from, budget, memory): (Job, u64, u64, Memory)| -> Advanced {
            job::advance(&job, from, budget, memory.0)
        }),
        call(0x23, "meets", NO_YES, |(a, b): (Part, Part)| -> u8 { job::meets(&a, &b) as u8 }),
        call(
            0x24,
            "sub_part",
            Gives::SameAs(MOVER_SUB_TENSOR),
            |(tensor, config, source): (Tensor, SubConfig, Rest)| -> Rest {
                Rest(helpers::sub_part(&tensor, &config, &source.0).to_vec())
            },
        ),
        call(
            MOVER_SUB_TENSOR,
            "mover::sub_tensor",
            SUB_TENSOR,
            |(tensor, config, source): (Tensor, SubConfig, Rest)| -> SubTensor {
                helpers::sub_tensor(&tensor, &config, source.0.len() as u64)
            },
        ),
        call(0x28, "pixel", PIXEL, |(tensor, config, coordinate, source): (Tensor, Config, Four, Rest)| -> Pixel {
            pixel::pixel(&tensor, &config, &coordinate, &source.0)
        }),
    ]
}

/// "It is proved to give the same status, answer and memory as the first on all inputs, refused ones included."
fn plain_calls() -> Vec<Call> {
    vec![
        call(
            0x26,
            "plain::move_plane",
            MOVE,
            |(tensor, config, source, room): (Tensor, Config, Counted, Memory)| -> Moved {
                let mut destination = room;
                let answer = plain::move_plane(&tensor, &config, &source.0, &mut destination.0);
                Moved { answer, destination }
            },
        ),
        call(0x27, "plain::advance", JOB, |(job, from, budget, memory): (Job, u64, u64, Memory)| -> Advanced {
            plain::advance(&job, from, budget, memory.0)
        }),
    ]
}

fn record_calls() -> Vec<Call> {
    vec![
        call(0x30, "record::read", READ, |bytes: Rest| -> Reading { record::read(&bytes.0) }),
        call(0x31, "record::write", WRITE, |(tensor, config, room): (Tensor, Config, Memory)| -> Written {
            let mut room = room;
            let fault = record::write(&tensor, &config, &mut room.0);
            Written { fault, room }
        }),
        call(0x39, "length_in", LENGTHS, |bytes: Rest| -> u64 { record::length_in(&bytes.0) as u64 }),
        call(0x3a, "length_for", LENGTHS, |config: Config| -> u64 { record::length_for(&config) as u64 }),
        call(0x3b, "fields_fault", FIELDS, |(version, tensor, config): (u16, Tensor, Config)| -> Fault {
            record::fields_fault(version, &tensor, &config)
        }),
    ]
}

fn list_calls() -> Vec<Call> {
    vec![
        call(LIST_FAULT, "list_fault", LIST, |bytes: Rest| -> u8 { list::list_fault(&bytes.0) }),
        call(0x33, "record_count", Gives::SameAs(LIST_FAULT), |bytes: Rest| -> u64 { list::record_count(&bytes.0) }),
        call(RECORD_AT, "record_at", RECORD_OF_LIST, |(k, bytes): (u64, Rest)| -> Numbered {
            list::record_at(&bytes.0, k)
        }),
        call(0x35, "place_after", Gives::SameAs(RECORD_AT), |(k, bytes): (u64, Rest)| -> u64 {
            list::place_after(&bytes.0, k)
        }),
        call(0x36, "first_two", LIST, |bytes: Rest| -> FirstTwo { list::first_two(&bytes.0) }),
        call(0x37, "list::start", LIST_START, |buffer: Memory| -> Started { list::start(buffer.0) }),
        call(0x38, "append", APPEND, |(tensor, config, length, buffer): (Tensor, Config, u64, Memory)| -> Appended {
            list::append(&tensor, &config, length, buffer.0)
        }),
    ]
}

fn table_calls() -> Vec<Call> {
    vec![
        call(0x40, "fresh", FRESH, |length: u64| -> Fresh { transfers::fresh(length) }),
        call(0x41, "prepare", PREPARE, |(table, job, memory): (Table, Job, Rest)| -> Prepared {
            transfers::prepare(&table, &job, memory.0.len())
        }),
        call(0x42, "start", TURN, |(table, handle, memory): (Table, u32, Rest)| -> Changed {
            transfers::start(&table, handle, memory.0.len())
        }),
        call(0x43, "step", TURN, |(table, handle, budget, memory): (Table, u32, u64, Memory)| -> Stepped {
            transfers::step(&table, handle, budget, memory.0)
        }),
        call(0x44, "release", TURN, |(table, handle, memory): (Table, u32, Rest)| -> Changed {
            transfers::release(&table, handle, memory.0.len())
        }),
        call(0x45, "poll", POLL, |(table, handle): (Table, u32)| -> Poll { transfers::poll(&table, handle) }),
    ]
}

fn keeper_calls() -> Vec<Call> {
    vec![
        call(0x50, "request", REQUEST, |(word, n): (u64, u32)| -> Granted { keeper::request(word, n) }),
        call(0x51, "give_back", GIVE_BACK, |(table, word, first, n): (Table, u64, u32, u32)| -> GivenBack {
            keeper::give_back(&table, word, first, n)
        }),
        call(0x52, "free_blocks", BLOCKS, keeper::free_blocks),
        call(0x53, "free_before_first_taken", BLOCKS, keeper::free_before_first_taken),
        call(0x54, "part_of", PART_OF, |(length, first, n): (u64, u32, u32)| -> RunPart {
            keeper::part_of(length, first, n)
        }),
    ]
}
