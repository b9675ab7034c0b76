//! What `rmvpixel` prints, and which case a run is, worked out by hand.

use super::records::record_a;
use super::{count_up, default, four, plane};
use crate::cases::pixel_shows::{cases, met};
use crate::record::pack;
use crate::show_pixel::{number, show_pixel, Run};
use crate::tensor::Tensor;

const WORDS: &str = "give a number from 0 to 4294967295 for each dimension of the plane\n";

fn run(words: &[&str], input: &[u8]) -> Run {
    Run { words: words.iter().map(|word| word.to_string()).collect(), input: input.to_vec() }
}

fn shown(words: &[&str], input: &[u8]) -> String {
    show_pixel(&run(words, input))
}

/// Example A with its source.
fn a() -> Vec<u8> {
    [record_a(), count_up(6)].concat()
}

/// Example D of this element size with this fill, and its source of 1, 2 and so on.
fn d(element_size: u8, fill: u32) -> Vec<u8> {
    let tensor = Tensor { element_size, ..plane(&[1, 2]) };
    let config = default(&tensor).with_pre(four(&[1, 0])).with_post(four(&[0, 1])).with_fill(fill);
    [pack(&tensor, &config), count_up(2 * element_size)].concat()
}

#[test]
fn the_examples_of_the_page() {
    assert_eq!(shown(&["2", "1"], &a()), "status 0 dim 0\n06\n");
    assert_eq!(shown(&["0", "0"], &d(1, 0)), "status 0 dim 0\n00 padding\n");
    assert_eq!(shown(&[], &a()), WORDS);
}

#[test]
fn bytes_of_each_size() {
    assert_eq!(shown(&["1", "1"], &d(2, 0)), "status 0 dim 0\n03 04\n");
    assert_eq!(shown(&["1", "0"], &d(3, 0)), "status 0 dim 0\n01 02 03\n");
    assert_eq!(shown(&["0", "2"], &d(3, 0x00cc_bbaa)), "status 0 dim 0\naa bb cc padding\n");
    assert_eq!(shown(&["1", "2"], &d(4, 0x0102_0304)), "status 0 dim 0\n04 03 02 01 padding\n");
}

#[test]
fn refusals() {
    assert_eq!(
        (shown(&["3", "0"], &a()), shown(&["2", "2"], &a())),
        ("status 35 dim 0\n".into(), "status 35 dim 1\n".into())
    );
    assert_eq!(shown(&["4294967295", "9"], &a()), "status 35 dim 0\n");
    assert_eq!(shown(&["2", "1"], &a()[..136]), "status 5 dim 0\n");
    // What there is of the record is read as a record, and 2 is no number of a record of version 1.
    assert_eq!(
        (shown(&["2"], &a()[..130]), shown(&["2"], &[])),
        ("status 25 dim 0\n".into(), "status 25 dim 0\n".into())
    );
    let with = |place: usize, value: u8| {
        let mut bytes = a();
        bytes[place] = value;
        bytes
    };
    assert_eq!(
        (shown(&["0"], &with(0, 0)), shown(&["0"], &with(3, 3))),
        ("status 26 dim 0\n".into(), "status 27 dim 0\n".into())
    );
    assert_eq!(
        (shown(&["0"], &with(5, 5)), shown(&["0"], &with(15, 1))),
        ("status 1 dim 0\n".into(), "status 28 dim 2\n".into())
    );
    assert_eq!(
        (shown(&["0", "0"], &with(6, 5)), shown(&["0"], &with(6, 5))),
        ("status 2 dim 0\n".into(), WORDS.into())
    );
}

#[test]
fn how_many_numbers() {
    // One too few, and one more.
    assert_eq!((shown(&["2"], &a()), shown(&["2", "1", "9"], &a())), (WORDS.into(), "status 0 dim 0\n06\n".into()));
    assert_eq!(shown(&["2", "1", "4294967295", "4294967295"], &a()), "status 0 dim 0\n06\n");
    assert_eq!(shown(&["2", "1", "0", "0", "0"], &a()), WORDS);
    // Past the rank there has to be a number too.
    assert_eq!((shown(&["2", "1", "x"], &a()), shown(&["2", "1", ""], &a())), (WORDS.into(), WORDS.into()));
    // Whatever the input holds.
    assert_eq!(
        (shown(&[], &[]), shown(&["x"], &[]), shown(&["1"; 5], &[])),
        (WORDS.into(), WORDS.into(), WORDS.into())
    );
}

#[test]
fn numbers() {
    assert_eq!((number("0"), number("4294967295"), number("0000000012")), (Some(0), Some(u32::MAX), Some(12)));
    assert_eq!((number("4294967296"), number("9999999999")), (None, None));
    for word in ["", "00000000001", "+1", "-1", "-0", " 1", "1 ", "1\n", "0x1", "1.0", "a", "\u{663}"] {
        assert_eq!(number(word), None, "{word}");
    }
    assert_eq!(
        (shown(&["0000000002", "01"], &a()), shown(&["00000000002", "1"], &a())),
        ("status 0 dim 0\n06\n".into(), WORDS.into())
    );
}

#[test]
fn a_destination_is_not_asked_for() {
    // rmvshow has 32,768 bytes, and here 1 + 4 x 16,384 are needed.
    let tensor = plane(&[5]);
    let config = default(&tensor).with_dst_stride(four(&[16_384]));
    let input = [pack(&tensor, &config), count_up(5)].concat();
    assert_eq!(
        (shown(&["4"], &input), shown(&["5"], &input)),
        ("status 0 dim 0\n05\n".into(), "status 35 dim 0\n".into())
    );
    // Of the source no more than 16,384 bytes are read.
    let copied = |elements: u32| [pack(&plane(&[elements]), &default(&plane(&[1]))), vec![1; 20_000]].concat();
    assert_eq!(shown(&["16383"], &copied(16_384)), "status 0 dim 0\n01\n");
    assert_eq!(shown(&["16383"], &copied(16_385)), "status 5 dim 0\n");
}

/// The cases that a run is.
fn cases_of(words: &[&str], input: &[u8]) -> String {
    let run = run(words, input);
    let met = met(&run, &show_pixel(&run));
    assert!(met.iter().all(|case| cases().contains(case)), "{met:?}");
    met.join("; ")
}

#[test]
fn cases_of_arguments_are_told_apart() {
    let a = a();
    assert_eq!(
        (cases_of(&[], &a), cases_of(&["0"; 5], &a), cases_of(&["0"; 6], &a)),
        ("no argument".into(), "five numbers".into(), "".into())
    );
    assert_eq!((cases_of(&["", "1"], &a), cases_of(&["x", "1"], &a)), ("an empty argument".into(), "letters".into()));
    assert_eq!((cases_of(&["+2", "1"], &a), cases_of(&["-", "1"], &a)), ("a sign".into(), "".into()));
    assert_eq!((cases_of(&["2 ", "1"], &a), cases_of(&["2 1"], &a)), ("a blank".into(), "".into()));
    assert_eq!(
        (cases_of(&["4294967296", "1"], &a), cases_of(&["4294967297", "1"], &a)),
        ("4294967296".into(), "".into())
    );
    assert_eq!(
        (cases_of(&["2", "00000000001"], &a), cases_of(&["2", "42949672950"], &a)),
        ("eleven digits".into(), "".into())
    );
    assert_eq!(cases_of(&["2", "1", "x"], &a), "no number past the rank; letters");
    assert_eq!(cases_of(&["", "x"], &[]), "no number and no record");
    assert_eq!(cases_of(&["2"], &a), "too few numbers for rank 2");
    let mut refused = a.clone();
    refused[6] = 5;
    assert_eq!(cases_of(&["2"], &refused), "too few numbers for rank 2; too few numbers for a move that is refused");
}

#[test]
fn cases_of_pixels_are_told_apart() {
    let a = a();
    assert_eq!(cases_of(&["2", "1"], &a), "0; 1-byte element");
    assert_eq!(cases_of(&["2", "1", "7"], &a), "0; more numbers than rank 2; 1-byte element");
    assert_eq!(
        cases_of(&["0000000002", "1", "4294967295"], &a),
        "0; 4294967295 past the rank; ten digits with zeros before; more numbers than rank 2; 1-byte element"
    );
    assert_eq!(
        (cases_of(&["3", "1"], &a), cases_of(&["4294967295", "1"], &a)),
        ("35".into(), "35; 35 by 4294967295".into())
    );
    assert_eq!(cases_of(&["2", "4294967295"], &a), "35; 35 by 4294967295");
    assert_eq!(
        (cases_of(&["0", "0"], &d(3, 7)), cases_of(&["0", "0"], &d(3, 0))),
        ("0; 3-byte padding".into(), "0; padding of fill 0".into())
    );
    // The record says rank 2, and is cut short.
    let fewer = "25; fewer numbers than the rank of a record that is refused";
    assert_eq!((cases_of(&["1"], &a[..130]), cases_of(&["1", "1"], &a[..130])), (fewer.into(), "25".into()));
    let tensor = Tensor { stride: four(&[-1]), ..plane(&[3]) };
    let down = [pack(&tensor, &default(&tensor)), count_up(3)].concat();
    assert_eq!(cases_of(&["0"], &down), "0; 1-byte element; counts down");
    let far = [pack(&plane(&[2]), &default(&plane(&[2])).with_dst_stride(four(&[32_768]))), count_up(2)].concat();
    assert_eq!(cases_of(&["0"], &far), "0; 1-byte element; more needed than rmvshow has");
    let copied =
        |elements: u32, lent: usize| [pack(&plane(&[elements]), &default(&plane(&[1]))), vec![1; lent]].concat();
    assert_eq!(cases_of(&["0"], &copied(16_384, 16_384)), "0; 1-byte element; source just read");
    assert_eq!(
        (cases_of(&["0"], &copied(16_385, 16_385)), cases_of(&["0"], &copied(16_385, 16_384))),
        ("5; source not read".into(), "5".into())
    );
}
