//! Lines, as CALLS.md has them.

use crate::calls::Calls;
use crate::lines::{answers, hex, DIGITS_LIMIT};
use crate::wire::{bytes_of, Wire};

fn answer(input: &[u8]) -> Vec<String> {
    let lines = answers(&Calls::all(), input);
    lines.iter().map(|line| String::from_utf8(hex(line)).unwrap()).collect()
}

#[test]
fn the_examples_of_the_page() {
    assert_eq!(answer(b"0403\n0405\nzz\n"), ["0403", "0400", "ff01"]);
    assert_eq!(answer(b"00\n"), ["000700"]);
}

#[test]
fn lines_that_are_no_calls() {
    assert_eq!(
        answer(b"\n0\n040\n04 2\n04\n040202\n0c\nFF\n"),
        ["ff03", "ff01", "ff01", "ff01", "ff04", "ff04", "ff03", "ff03"]
    );
    assert_eq!(answer(b"0402\nzz"), ["0402", "ff05"]);
    assert_eq!(answer(b"0402"), ["ff05"]);
    assert_eq!(answer(b""), [] as [&str; 0]);
    assert_eq!(answer(b"0czz\n0f0F\n"), ["ff01", "ff03"]);
}

#[test]
fn too_long_lines() {
    let mut line = vec![b'0'; DIGITS_LIMIT + 1];
    line.push(b'\n');
    assert_eq!(answer(&line), ["ff02"]);
    assert_eq!(answer(&line[1..]), ["ff04"]);
    line[DIGITS_LIMIT] = b'z';
    assert_eq!(answer(&line), ["ff01"]);
    line[DIGITS_LIMIT] = b'0';
    line.insert(DIGITS_LIMIT + 1, b'z');
    assert_eq!(answer(&line), ["ff02"]);
}

#[test]
fn records_are_as_long_as_the_page_says() {
    use crate::{helpers, job, list, moves, pixel, ready_made, record, tensor, transfers};
    fn length<T: Wire + Default>() -> usize {
        bytes_of(&T::default()).len()
    }
    assert_eq!((length::<tensor::Tensor>(), length::<moves::Config>()), (34, 96));
    assert_eq!((length::<tensor::Fault>(), length::<tensor::Source>()), (2, 26));
    assert_eq!((length::<moves::Answer>(), length::<moves::Room>()), (44, 52));
    assert_eq!((length::<ready_made::Made>(), length::<helpers::Count>()), (97, 10));
    assert_eq!((length::<helpers::SubConfig>(), length::<helpers::SubTensor>()), (36, 44));
    assert_eq!((length::<job::Part>(), length::<job::Job>()), (16, 162));
    assert_eq!((length::<record::Reading>(), length::<transfers::Slot>()), (132, 171));
    assert_eq!((length::<list::Numbered>(), length::<list::FirstTwo>()), (140, 289));
    assert_eq!((length::<transfers::Table>(), length::<transfers::Poll>()), (692, 10));
    assert_eq!(length::<pixel::Pixel>(), 7);
}

#[test]
fn every_call_has_its_own_number() {
    let mut numbers: Vec<u8> = Calls::all().0.iter().map(|call| call.number).collect();
    numbers.sort();
    let expected = (0..=0x0b).chain(0x10..=0x1f).chain(0x20..=0x28).chain(0x30..=0x3b).chain(0x40..=0x45);
    let expected: Vec<u8> = expected.chain(0x50..=0x54).collect();
    assert_eq!(numbers, expected);
}

#[test]
fn the_same_seed_draws_the_same_calls() {
    assert_eq!(crate::generate::calls(300, 7), crate::generate::calls(300, 7));
    assert_eq!(answer(&crate::generate::calls(300, 7)).len(), 300);
    assert_eq!(crate::generate::show_inputs(5, 7), crate::generate::show_inputs(5, 7));
    assert_eq!(crate::generate::list_inputs(8, 7), crate::generate::list_inputs(8, 7));
    assert_eq!(crate::generate::pixel_runs(8, 7), crate::generate::pixel_runs(8, 7));
}

#[test]
fn the_small_calls() {
    assert_eq!(answer(b"0700\n0701\n0704\n0705\n07ff\n"), ["0701", "0700", "0700", "0701", "0701"]);
    assert_eq!(answer(b"08\n09\n"), [format!("08{}", "00".repeat(34)), format!("09{}", "00".repeat(96))]);
    assert_eq!(answer(b"0a0c03\n"), [format!("0a0c03{}", "00".repeat(42))]);
    let post_to_fill = |fill: &str| format!("{}05060708{fill}", "00".repeat(88));
    let set = answer(format!("0b{}01020304\n", post_to_fill("090a0b0c")).as_bytes());
    assert_eq!(set, [format!("0b{}", post_to_fill("01020304"))]);
}

#[test]
fn calls_of_lists() {
    let zeros = "00".repeat(130);
    // 25 is 19, 26 is 1a, 30 is 1e, 38 is 26, 39 is 27.
    assert_eq!(answer(b"32\n32524d4c01000000\n32524d5601000000\n32524d4c01000100\n"), ["3219", "3200", "321a", "321e"]);
    assert_eq!(answer(b"33524d4c01000000\n"), ["330000000000000000"]);
    let past = format!("00000000000000002700{zeros}");
    assert_eq!(answer(b"340500000000000000524d4c01000000\n"), [format!("34{past}")]);
    assert_eq!(answer(b"3405000000000000\n350500000000000000\n"), ["ff04", "350500000000000000"]);
    assert_eq!(answer(b"36524d4c01000000\n"), [format!("36000000000000000000{past}{past}")]);
    assert_eq!(answer(b"37010203040506\n3701020304050607\n"), ["3726010203040506", "3700524d4c01000000"]);
    // A list of 0 records and no room; the rank is 0 besides.
    let append = format!("38{}0700000000000000524d4c01000000\n", zeros);
    assert_eq!(answer(append.as_bytes()), ["3826000000000000000000524d4c01000000"]);
}

#[test]
fn calls_of_records() {
    // 131 is 83, 135 is 87, in 8 bytes.
    let of = |low: &str| format!("{low}00000000000000");
    assert_eq!(answer(b"39\n39524d5602\n39524d560200\n"), [of("3983"), of("3983"), of("3987")]);
    let config = |fill: &str| format!("3a{}{fill}\n", "00".repeat(92));
    assert_eq!(answer(config("00000000").as_bytes()), [of("3a83")]);
    assert_eq!(answer(config("00000001").as_bytes()), [of("3a87")]);
    assert_eq!(answer(config("000000").as_bytes()), ["ff04"]);
    // Version, rank and element size; nothing past the rank of 4, and no fill. 28 is 1c.
    let fields = |begin: &str| format!("3b{begin}{}\n", "00".repeat(32 + 96));
    assert_eq!(answer(fields("02000405").as_bytes()), ["3b0200"]);
    assert_eq!(answer(fields("02000404").as_bytes()), ["3b1c00"]);
    assert_eq!(answer(fields("01000405").as_bytes()), ["3b0000"]);
    assert_eq!(answer(fields("0200").as_bytes()), ["ff04"]);
}

#[test]
fn calls_of_the_keeper() {
    // Three blocks of none taken; 65, which is 41, is refused by 31, which is 1f; and 64 by 32, which is 20.
    assert_eq!(answer(b"50000000000000000003000000\n"), ["5000000000000700000000000000"]);
    assert_eq!(answer(b"50010200000000008041000000\n"), ["501f000000000102000000000080"]);
    assert_eq!(answer(b"50010200000000008040000000\n"), ["5020000000000102000000000080"]);
    assert_eq!(answer(b"520000000000000000\n530020000000000080\n"), ["5240000000", "530d000000"]);
    // 6,400 bytes: two blocks from block 3 on are 200 bytes from byte 300 on. 17 is 11.
    let two = "0300000002000000";
    assert_eq!(answer(format!("540019000000000000{two}\n").as_bytes()), ["54002c01000000000000c800000000000000"]);
    assert_eq!(answer(format!("543f00000000000000{two}\n").as_bytes()), [format!("5411{}", "00".repeat(16))]);
    // A table of no transfers for 64 bytes; 33 is 21.
    let table = format!("5140{}", "00".repeat(7 + 684));
    let back = |word: &str| answer(format!("{table}{word}00000000000000{two}\n").as_bytes());
    assert_eq!((back("ff"), back("ef")), (vec!["5100e700000000000000".into()], vec!["5121ef00000000000000".into()]));
    assert_eq!(answer(format!("{table}{two}\n5200\n").as_bytes()), ["ff04", "ff04"]);
}
