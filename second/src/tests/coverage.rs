//! What a long comparison has to meet.

use super::{default, plane};
use crate::calls::{Calls, Gives};
use crate::cases::{lists, offsets};
use crate::compare::Runs;
use crate::coverage::Coverage;
use crate::generate;
use crate::lines::answers;
use crate::report::ENOUGH;
use crate::show::show;
use crate::show_list::show_list;
use crate::show_pixel::{show_pixel, Run, NO_COORDINATE};
use crate::wire::bytes_of;

/// What a run of so many comparisons meets.
fn drawn(count: usize, seed: u64) -> Coverage {
    let calls = Calls::all();
    let mut coverage = Coverage::new(&calls);
    let runs = Runs::of(count);
    let input = generate::calls(count - runs.all(), seed);
    for (line, answer) in input.split(|&character| character == b'\n').zip(answers(&calls, &input)) {
        coverage.call(&calls, line, &answer);
    }
    for input in generate::show_inputs(runs.shows, seed) {
        coverage.show(&input, &show(&input));
    }
    for input in generate::list_inputs(runs.lists, seed) {
        coverage.list(&input, &show_list(&input));
    }
    for run in generate::pixel_runs(runs.pixels, seed) {
        coverage.pixel(&run, &show_pixel(&run));
    }
    coverage
}

#[test]
fn a_run_that_is_long_enough_meets_everything() {
    for seed in [2, 3] {
        let coverage = drawn(ENOUGH, seed);
        assert_eq!(coverage.missing(), [] as [&str; 0]);
        assert_eq!(coverage.unlisted(), [] as [&str; 0]);
    }
}

/// Some of what has to be met.
const SOME_CASES: [&str; 90] = [
    "00 version: made",
    "02 room: 12",
    "03 judge: 12 too large at 0",
    "03 judge: 13 by a byte with 3-byte elements",
    "03 judge: 8 by a sum that wraps",
    "04 element_size: 0 for 5",
    "05 element_count: the most",
    "06 sub_tensor: 3-byte sub-tensor from inside",
    "06 sub_tensor: 8 by a sum that wraps",
    "20 move_plane: 12 past the row at 3",
    "20 move_plane: 3 with 3-byte elements",
    "20 move_plane: 3-byte row thinned",
    "20 move_plane: 2-byte padding",
    "20 move_plane: joined, 3-byte of rank 4",
    "20 move_plane: lines, 128 bytes and tail 13",
    "20 move_plane: short rows, 2-byte permuted",
    "20 move_plane: every second, 1-byte to the source's end",
    "21 judge_job: on a boundary from byte 2^63 on",
    "21 judge_job: 3-byte source, 2 past",
    "22 advance: past the end of a slab",
    "22 advance: 13 and 34",
    "22 advance: padded rows, 4-byte wide behind",
    "22 advance: turned, begins in mid-row",
    "24 sub_part: 15",
    "24 sub_part: 14 and 15",
    "26 plain::move_plane: ff04",
    "26 plain::move_plane: 12 past the row at 3",
    "26 plain::move_plane: 3-byte row thinned",
    "26 plain::move_plane: pixels put together, 1-byte (3,h,w) and a fourth",
    "27 plain::advance: past the end of a slab",
    "27 plain::advance: 2-byte padding",
    "27 plain::advance: pixels taken apart, ends in mid-layer",
    "41 prepare: 22",
    "41 prepare: 21 and 22",
    "41 prepare: 34 by a 4-byte destination alone, 3 past",
    "41 prepare: ff04",
    "43 step: slot in no state",
    "43 step: begins in mid-row",
    "43 step: 3-byte elements kept",
    "43 step: turned, 4-byte columns of no 4s",
    "43 step: lines, source behind destination",
    "44 release: 17 and 18",
    "45 poll: running",
    "45 poll: 18 by a done slot whose source is off a boundary",
    "no call: ff02",
    "rmvshow: 13",
    "rmvshow: version 2 cut after 133 bytes",
    "rmvshow: 3-byte padding",
    "30 record::read: 27 of 135 bytes, version 1",
    "30 record::read: version 2: 28 by byte 3 of size 3",
    "31 record::write: 25 of 131 bytes, version 2",
    "33 record_count: 30",
    "34 record_at: 39 where k x 131 wraps",
    "35 place_after: 39",
    "36 first_two: 2 records",
    "38 append: 38 and 1",
    "38 append: 27 by a fill whose used bytes are 0 and others not",
    "38 append: 28 and 27 by a fill",
    "39 length_in: version 2 behind another mark",
    "45 poll: 18 by the fill of a free slot",
    "50 request: 32 but for a run round the end",
    "50 request: the lowest of several",
    "51 give_back: 33 by the source of a done slot",
    "51 give_back: 18 by the fill of a free slot",
    "52 free_blocks: 64",
    "53 free_before_first_taken: 63",
    "54 part_of: 31 from a block with which the sum would wrap",
    "rmvlist: room 12",
    "rmvlist: 1000 records",
    "rmvlist: record of version 2",
    "rmvlist: room for 3-byte elements",
    "01 source_of: 4 by -2147483648 at 3",
    "06 sub_tensor: unit dimension removed, counting down",
    "20 move_plane: 2 of 3 dimensions count down",
    "26 plain::move_plane: turned, 3-byte mirrored elements",
    "22 advance: 2-byte row right to left",
    "34 record_at: stride -1",
    "41 prepare: 4 by a negative stride and 5",
    "43 step: lines, mirrored, begins in mid-row",
    "51 give_back: 18 by -2147483648 of a slot",
    "rmvshow: counts down",
    "28 pixel: ff04",
    "28 pixel: 35 at 3 of rank 4",
    "28 pixel: 12 and 35",
    "28 pixel: 5 and 6",
    "28 pixel: last at 0 of rank 1",
    "28 pixel: 3-byte zero kept",
    "28 pixel: 2-byte padding behind, fill 0",
    "rmvpixel: 35",
    "rmvpixel: eleven digits",
];

#[test]
fn what_was_not_met_is_named() {
    let calls = Calls::all();
    let mut coverage = Coverage::new(&calls);
    let missing = coverage.missing();
    for case in SOME_CASES {
        assert!(missing.contains(&case.to_string()), "{case}");
    }
    coverage.call(&calls, b"00", &[0, 1, 0]);
    coverage.call(&calls, b"41", &[0xff, 4]);
    coverage.show(&[], "status 13 dim 0\n");
    coverage.list(&[], "status 25\n");
    coverage.pixel(&Run::default(), NO_COORDINATE);
    let met = ["00 version: made", "41 prepare: ff04", "rmvshow: 13", "rmvlist: list 25", "rmvpixel: no argument"];
    let left: Vec<String> = missing.into_iter().filter(|case| !met.contains(&case.as_str())).collect();
    assert_eq!(coverage.missing(), left);
    assert_eq!(coverage.unlisted(), [] as [&str; 0]);
}

#[test]
fn a_number_that_a_call_can_not_give_is_named() {
    let calls = Calls::all();
    let mut coverage = Coverage::new(&calls);
    // "never gives 5 or 13"
    coverage.call(&calls, b"02", &[0x02, 5]);
    coverage.call(&calls, b"0405", &[0x04, 5]);
    // A move between slices has no parts that start anywhere.
    coverage.call(&calls, b"20", &[0x20, 34]);
    coverage.call(&calls, b"26", &[0x26, 34]);
    // The element size is not looked at.
    coverage.call(&calls, b"05", &[0x05, 2]);
    coverage.call(&calls, b"30", &[0xff, 4]);
    coverage.call(&calls, b"350000000000000000", &[0x35, 0, 0, 0, 0, 0, 0, 0, 0]);
    // A record of a list always has its 131 bytes, and so is never one in which the element size is looked at.
    coverage.call(&calls, b"340000000000000000", &[0x34, 0, 0, 0, 0, 0, 0, 0, 0, 25]);
    coverage.call(&calls, b"340000000000000000", &[0x34, 0, 0, 0, 0, 0, 0, 0, 0, 2]);
    // A request is given nothing back, and a run that is given back is not looked for.
    coverage.call(&calls, b"50", &[0x50, 33]);
    coverage.call(&calls, b"51", &[0x51, 32]);
    coverage.show(&[], "status 10 dim 0\n");
    coverage.show(&[], "status 10 dim 0\n");
    coverage.list(&[], "status 0 records 1\nrecord 0 status 25 dim 0\n");
    // "13 is never given."
    coverage.call(&calls, b"28", &[0x28, 13]);
    coverage.pixel(&Run::default(), "status 13 dim 0\n");
    let unlisted = [
        "02 room: 5",
        "04 element_size: 5",
        "05 element_count: 2",
        "20 move_plane: 34",
        "26 plain::move_plane: 34",
        "28 pixel: 13",
        "30 record::read: ff04",
        "34 record_at: 2",
        "34 record_at: 25",
        "50 request: 33",
        "51 give_back: 32",
        "rmvlist: record 25",
        "rmvpixel: 13",
        "rmvshow: 10",
    ];
    assert_eq!(coverage.unlisted(), unlisted);
}

#[test]
fn cases_of_destination_offsets_are_told_apart() {
    let tensor = plane(&[2, 2]);
    let met = |stride: [u32; 2], offset: [u32; 2], room: u64| {
        let config = default(&tensor).with_dst_stride([stride[0], stride[1], 0, 0]);
        let config = config.with_dst_offset([offset[0], offset[1], 0, 0]);
        let line = [vec![0x03], bytes_of(&(tensor, config, 4u64, room))].concat();
        let answer = (Calls::all().find(0x03).unwrap().answer)(&line[1..]).unwrap();
        offsets::met(&line, &answer).join("; ")
    };
    assert_eq!(met([0, 0], [0, 0], 4), "");
    assert_eq!(met([4, 1], [0, 2], 8), "row full at 1; inner offset; wider stride");
    assert_eq!(met([5, 1], [0, 2], 9), "inner offset; wider stride");
    assert_eq!(met([0, 1], [2, 0], 8), "first offset at its stride or above");
    assert_eq!(met([4, 1], [0, 3], 8), "12 past the row at 1");
    assert_eq!(met([0, 0], [0, 1], 3), "12 past the row at 1; 12 under stride 0; 12 and 13");
    assert_eq!(met([70_000, 1], [0, 65_536], 70_002), "12 too large at 1");
    assert_eq!(met([0, 0], [65_536, 1], 4), "12 too large at 0; 12 too large, past the row farther in");
    assert_eq!(met([1, 1], [65_536, 0], 4), "11 and 12");
    assert_eq!(met([4, 1], [0, 2], 7), "");
}

/// The cases of a call with these bytes.
fn list_met(line: &[u8]) -> String {
    let answer = (Calls::all().find(line[0]).unwrap().answer)(&line[1..]).unwrap();
    lists::met(line, &answer).join("; ")
}

#[test]
fn cases_of_lists_are_told_apart() {
    let list = |bytes: &[u8]| list_met(&[&[0x32], bytes].concat());
    assert_eq!(list(b"RML\x01\0\0\0"), "");
    assert_eq!(list(b"RM"), "25 of bytes: 2");
    assert_eq!(list(b"RMV\x01\0\0"), "25 and 26; 25 of bytes: 6");
    assert_eq!(list(b"RMV\x01\0\0\0"), "26 by byte 2");
    assert_eq!(list(b"rMV\x02\0\x01\0"), "26 and 27; 26 and 30");
    assert_eq!(list(b"RML\x01\x01\0\0"), "27 by the high byte");
    assert_eq!(list(b"RML\x02\0\0\0\0"), "27 and 30; 27 by the low byte");
    assert_eq!(list(b"RML\x01\0\x01\0"), "30 a record less");
    assert_eq!(list(b"RML\x01\0\xff\xff"), "30 with count 65535");
    assert_eq!(list(b"RML\x01\0\0\0\0"), "30 a byte more; 30 with count 0");
}

#[test]
fn cases_of_records_in_lists_are_told_apart() {
    let good = super::records::record_a();
    let bad = [&[0], &good[1..]].concat();
    let list = |records: &[&Vec<u8>]| {
        let head = [b"RML\x01\0".to_vec(), vec![records.len() as u8, 0]].concat();
        records.iter().fold(head, |bytes, &record| [bytes, record.clone()].concat())
    };
    let at = |k: u64, bytes: &[u8]| list_met(&[&[0x34], &k.to_le_bytes()[..], bytes].concat());
    let three = list(&[&good, &bad, &good]);
    assert_eq!(
        (at(0, &three), at(1, &three), at(2, &three)),
        (String::new(), "bad between".to_string(), "good behind a bad one".to_string())
    );
    assert_eq!((at(0, &list(&[&bad, &good])), at(1, &list(&[&good, &bad]))), ("bad first".into(), "bad last".into()));
    assert_eq!((at(3, &three), at(4, &three)), ("39 at the count".to_string(), "39 behind the count".to_string()));
    assert_eq!(at(u64::MAX, &three), "39 behind the count; 39 where k x 131 wraps");
    assert_eq!(at(0, &three[..399]), "39 of a refused list");
    let two = |bytes: &[u8]| list_met(&[&[0x36], bytes].concat());
    assert_eq!((two(&list(&[])), two(&list(&[&bad]))), ("no record".to_string(), "1 record".to_string()));
    assert_eq!((two(&list(&[&bad, &good])), two(&three)), ("2 records; bad, then good".into(), "more records".into()));
    assert_eq!(two(&three[1..]), "");
}

#[test]
fn cases_of_appends_are_told_apart() {
    let tensor = plane(&[2, 2]);
    let with_rank = |rank: u8, length: u64, buffer: &[u8]| {
        let tensor = crate::tensor::Tensor { rank, ..tensor };
        list_met(&[&[0x38], &bytes_of(&(tensor, default(&tensor), length))[..], buffer].concat())
    };
    let met = |length: u64, buffer: &[u8]| with_rank(2, length, buffer);
    let empty = |room: usize| [b"RML\x01\0\0\0".to_vec(), vec![0; room]].concat();
    assert_eq!(
        (met(7, &empty(131)), met(7, &empty(132))),
        ("just room; first record".to_string(), "more room; first record".to_string())
    );
    let bad = [b"RML\x01\0\x01\0".to_vec(), vec![0; 262]].concat();
    assert_eq!(met(138, &bad), "just room; behind a bad one");
    assert_eq!((met(7, &empty(130)), met(7, &empty(0))), ("38 by a byte".to_string(), "38 with none left".to_string()));
    assert_eq!(with_rank(5, 7, &empty(100)), "38 and 1");
    assert_eq!(with_rank(1, 7, &empty(100)), "38 and 28");
    assert_eq!(
        (with_rank(0, 7, &empty(131)), with_rank(1, 7, &empty(131))),
        ("1 and 28".to_string(), "28 at 1".to_string())
    );
    assert_eq!(met(6, &empty(131)), "25 and 30; 25 said short");
    assert_eq!(met(139, &empty(131)), "25 and 30; 25 and 38; 25 said long");
    assert_eq!((met(8, &empty(262)), met(138, &empty(262))), ("30 within a record".to_string(), String::new()));
    assert_eq!(met(8, &empty(131)), "30 and 38; 30 within a record");
}

/// An answer that has a number of refusal is told apart by it; only `Answer::refused` hands back the number that it was
/// given.
#[test]
fn no_number_of_refusal_is_passed_over() {
    for call in Calls::all().0 {
        // Behind the number of the call.
        let before = call.places[1..].iter().take_while(|(name, _)| !name.ends_with("status"));
        let place: usize = before.map(|&(_, length)| length.min(1_000)).sum();
        let has_number = call.places.iter().any(|(name, _)| name.ends_with("status"));
        let is_counted = match call.gives {
            Gives::First(_) | Gives::FirstTwo(_) => place == 0,
            Gives::Behind(bytes, _) => place == bytes,
            Gives::OneKind | Gives::SameAs(_) => false,
        };
        assert!(!has_number || is_counted || call.name == "Answer::refused", "{}", call.name);
    }
}
