//! Lists of moves, and what `rmvlist` prints for them.

use super::records::record_a;
use super::{default, plane};
use crate::list::{
    append, first_two, list_fault, place_after, record_at, record_count, start, Appended, FirstTwo, ListReader,
    Numbered,
};
use crate::moves::Config;
use crate::record::{read, Reading};
use crate::show_list::show_list;
use crate::tensor::Tensor;

/// Mark, version and count, then the records.
fn list(count: u16, records: &[Vec<u8>]) -> Vec<u8> {
    let mut bytes = vec![b'R', b'M', b'L', 1, 0];
    bytes.extend([(count % 256) as u8, (count / 256) as u8]);
    bytes.extend(records.concat());
    bytes
}

/// Example A with other bytes at some places.
fn a_with(changes: &[(usize, u8)]) -> Vec<u8> {
    let mut bytes = record_a();
    for &(place, value) in changes {
        bytes[place] = value;
    }
    bytes
}

/// The example of FORMAT: example A; its permutation goes on past the rank; element size 5.
fn three() -> Vec<u8> {
    list(3, &[record_a(), a_with(&[(121, 2), (122, 3)]), a_with(&[(6, 5)])])
}

fn a() -> (Tensor, Config) {
    let tensor = plane(&[2, 3]);
    (tensor, default(&tensor).with_perm([1, 0, 0, 0]))
}

/// An answer that has nothing but its number and the two of a refusal.
fn refused(number: u64, status: u8, dimension: u8) -> Numbered {
    Numbered { number, reading: Reading { status, dimension, ..Reading::default() } }
}

#[test]
fn a_list_is_refused_in_order() {
    assert_eq!(list_fault(&three()), 0);
    assert_eq!(list_fault(b"RML\x01\0\0\0"), 0);
    for length in 0..7 {
        assert_eq!(list_fault(&three()[..length]), 25);
        assert_eq!(list_fault(&b"RMV\x02\0\x03"[..length.min(6)]), 25);
    }
    let with = |changes: &[(usize, u8)]| {
        let mut bytes = three();
        for &(place, value) in changes {
            bytes[place] = value;
        }
        list_fault(&bytes)
    };
    assert_eq!((with(&[(0, b'r')]), with(&[(1, b'N')]), with(&[(2, b'V')])), (26, 26, 26));
    assert_eq!(with(&[(2, b'V'), (3, 2), (5, 4)]), 26);
    // Version 257 is 01 01, and version 256 is 00 01.
    assert_eq!((with(&[(4, 1)]), with(&[(3, 0), (4, 1)]), with(&[(3, 2)])), (27, 27, 27));
    assert_eq!(with(&[(3, 2), (5, 4)]), 27);
    // "30 where the length isn't 7 + 131 x count", on either side.
    for (count, high) in [(0, 0), (1, 0), (2, 0), (4, 0), (255, 255), (3, 1), (0, 3)] {
        assert_eq!(with(&[(5, count), (6, high)]), 30);
    }
    assert_eq!(list_fault(&three()[..399]), 30);
    assert_eq!(list_fault(&[three(), vec![0]].concat()), 30);
    assert_eq!(list_fault(&[three(), record_a()].concat()), 30);
}

#[test]
fn a_refused_list_has_no_records() {
    assert_eq!((record_count(&three()), record_count(&list(0, &[]))), (3, 0));
    for bytes in [three()[..399].to_vec(), list(65_535, &[record_a()]), record_a(), Vec::new()] {
        assert_eq!(record_count(&bytes), 0);
        assert_eq!(record_at(&bytes, 0), refused(0, 39, 0));
        assert_eq!((place_after(&bytes, 0), place_after(&bytes, 9)), (0, 9));
        let two = first_two(&bytes);
        assert_eq!((two.count, two.first, two.second), (0, refused(0, 39, 0), refused(0, 39, 0)));
        assert_eq!(two.status, list_fault(&bytes));
    }
}

#[test]
fn numbers_start_at_0_and_a_bad_record_has_its_own() {
    let (tensor, config) = a();
    let good = Numbered { number: 0, reading: Reading { status: 0, dimension: 0, tensor, config } };
    assert_eq!(record_at(&three(), 0), good);
    assert_eq!(record_at(&three(), 1), refused(1, 28, 2));
    let third = Tensor { element_size: 5, ..tensor };
    let behind = Numbered { number: 2, reading: Reading { status: 0, dimension: 0, tensor: third, config } };
    assert_eq!(record_at(&three(), 2), behind);
    // "39 past the last", without a number; nothing wraps.
    for k in [3, 4, 65_536, 1 << 32, u64::MAX / 131 + 1, u64::MAX] {
        assert_eq!(record_at(&three(), k), refused(0, 39, 0));
    }
    assert_eq!([0, 1, 2, 3, 4, u64::MAX].map(|k| place_after(&three(), k)), [1, 2, 3, 3, 4, u64::MAX]);
}

#[test]
fn each_record_is_refused_as_by_itself() {
    let records = [a_with(&[(2, b'L')]), a_with(&[(4, 1)]), a_with(&[(5, 5)]), a_with(&[(5, 1)]), record_a()];
    let bytes = list(5, &records);
    assert_eq!(
        [0, 1, 2, 3].map(|k| record_at(&bytes, k)),
        [refused(0, 26, 0), refused(1, 27, 0), refused(2, 1, 0), refused(3, 28, 1)]
    );
    assert_eq!(record_at(&bytes, 4), Numbered { number: 4, reading: read(&record_a()) });
}

#[test]
fn a_reader_goes_on_behind_a_bad_record_and_stays_at_the_end() {
    let bytes = three();
    let mut reader = ListReader::open(&bytes);
    let numbers: Vec<(u64, u8)> =
        (0..5).map(|_| reader.next_record()).map(|read| (read.number, read.reading.status)).collect();
    assert_eq!(numbers, [(0, 0), (1, 28), (2, 0), (0, 39), (0, 39)]);
    let two = FirstTwo { status: 0, count: 3, first: record_at(&bytes, 0), second: refused(1, 28, 2) };
    assert_eq!(first_two(&bytes), two);
    let one = list(1, &[a_with(&[(2, b'L')])]);
    assert_eq!(first_two(&one), FirstTwo { status: 0, count: 1, first: refused(0, 26, 0), second: refused(0, 39, 0) });
}

#[test]
fn a_start_writes_seven_bytes() {
    for length in 0..7 {
        let started = start(vec![9; length]);
        assert_eq!((started.status, started.buffer.0), (38, vec![9; length]));
    }
    assert_eq!(start(vec![9; 7]).buffer.0, b"RML\x01\0\0\0");
    let longer = start(vec![9; 9]);
    assert_eq!((longer.status, longer.buffer.0), (0, b"RML\x01\0\0\0\x09\x09".to_vec()));
}

/// Appends example A to these bytes.
fn appended(length: u64, buffer: &[u8]) -> Appended {
    let (tensor, config) = a();
    append(&tensor, &config, length, buffer.to_vec())
}

/// The number of a refused append, which leaves the buffer and answers length 0.
fn number(rank: u8, length: u64, buffer: &[u8]) -> u8 {
    let (tensor, config) = a();
    let appended = append(&Tensor { rank, ..tensor }, &config, length, buffer.to_vec());
    assert_eq!((appended.length, &appended.buffer.0[..]), (0, buffer));
    appended.status
}

#[test]
fn an_append_changes_the_count_and_its_own_bytes() {
    // One record in a buffer with just room for another, and with two bytes more.
    for behind in [vec![], vec![7, 7]] {
        let buffer = [list(1, &[a_with(&[(2, b'L')])]), vec![9; 131], behind.clone()].concat();
        let Appended { status, dimension, length, buffer } = appended(138, &buffer);
        assert_eq!((status, dimension, length), (0, 0, 269));
        // The record that was there is bad, and stays.
        let records = [a_with(&[(2, b'L')]), record_a(), behind];
        assert_eq!(buffer.0, list(2, &records));
    }
}

#[test]
fn an_append_is_refused_in_order() {
    let full = three();
    let room = [three(), vec![9; 131]].concat();
    // 25: under 7 bytes, or longer than the buffer.
    assert_eq!((number(2, 6, &room), number(2, 0, &[]), number(2, 532, &room)), (25, 25, 25));
    assert_eq!((number(2, u64::MAX, &room), number(2, (1 << 32) + 400, &room)), (25, 25));
    let with = |bytes: &[u8], changes: &[(usize, u8)]| {
        let mut bytes = bytes.to_vec();
        for &(place, value) in changes {
            bytes[place] = value;
        }
        bytes
    };
    assert_eq!(number(2, 532, &with(&room, &[(0, 0)])), 25);
    assert_eq!(number(2, 6, &with(&room, &[(0, 0)])), 25);
    assert_eq!(number(2, 400, &with(&room, &[(0, 0), (3, 2)])), 26);
    assert_eq!(number(2, 400, &with(&room, &[(4, 1), (5, 4)])), 27);
    // 30 comes before 38, also where the length is what is wrong.
    assert_eq!(number(2, 400, &with(&full, &[(5, 4)])), 30);
    assert_eq!((number(2, 401, &room), number(2, 399, &room), number(2, 269, &room)), (30, 30, 30));
    assert_eq!((number(2, 531, &room), number(0, 399, &room)), (30, 30));
    // 38 comes before 1.
    assert_eq!((number(2, 400, &full), number(2, 400, &room[..530]), number(0, 400, &room[..530])), (38, 38, 38));
    // Rank 0 has entries past it too.
    assert_eq!((number(0, 400, &room), number(5, 400, &room), number(1, 400, &room)), (1, 1, 28));
    assert_eq!(appended(400, &room).length, 531);
}

#[test]
fn an_append_names_the_dimension_of_28() {
    let buffer = [list(0, &[]), vec![9; 131]].concat();
    let (tensor, config) = a();
    let append = |tensor: Tensor| append(&tensor, &config, 7, buffer.clone());
    let past = |d: usize| {
        let mut tensor = tensor;
        tensor.stride[d] = 1;
        append(tensor)
    };
    assert_eq!((past(2).status, past(2).dimension, past(2).length), (28, 2, 0));
    assert_eq!((past(3).status, past(3).dimension, past(3).buffer.0), (28, 3, buffer.clone()));
    let one = append(Tensor { rank: 1, ..tensor });
    assert_eq!((one.status, one.dimension), (28, 1));
    // "1, 28", and no number of a move: nobody asks for the element size.
    assert_eq!(append(Tensor { element_size: 5, ..tensor }).status, 0);
}

#[test]
fn the_count_has_two_bytes() {
    let records = vec![record_a(); 255];
    let buffer = [list(255, &records), vec![9; 131]].concat();
    let next = appended(33_412, &buffer);
    assert_eq!((next.status, next.length), (0, 33_543));
    assert_eq!(next.buffer.0, list(256, &vec![record_a(); 256]));
    assert_eq!(record_count(&next.buffer.0), 256);
}

/// 37, which no line can have: a list of 65,535 records has 8,585,092 bytes.
#[test]
fn a_full_list_takes_no_more() {
    let zeros = |count: usize| vec![0; 131 * count];
    let room = [list(65_535, &[zeros(65_535)]), vec![9; 131]].concat();
    assert_eq!(room.len(), 8_585_092 + 131);
    assert_eq!(number(2, 8_585_092, &room), 37);
    // 30 comes before it, and it comes before 38 and 1.
    assert_eq!((number(2, 8_585_091, &room), number(2, 8_585_093, &room)), (30, 30));
    assert_eq!((number(2, 8_585_092, &room[..8_585_092]), number(0, 8_585_092, &room)), (37, 37));
    assert_eq!(number(1, 8_585_092, &room[..8_585_092]), 37);
    // One record fewer takes one.
    let before = [list(65_534, &[zeros(65_534)]), vec![9; 131]].concat();
    let last = appended(8_584_961, &before);
    assert_eq!((last.status, last.length), (0, 8_585_092));
    assert_eq!(last.buffer.0[..7], *b"RML\x01\0\xff\xff");
    assert_eq!(last.buffer.0[8_584_961..], record_a());
    assert_eq!((record_count(&last.buffer.0), record_at(&last.buffer.0, 65_534).number), (65_535, 65_534));
    assert_eq!(number(2, 8_584_961, &before[..8_585_091]), 38);
}

#[test]
fn lists_round_trip() {
    let (tensor, config) = a();
    let fields =
        [(tensor, config), (Tensor { element_size: 5, ..tensor }, config), (plane(&[7]), default(&plane(&[7])))];
    let mut buffer = start(vec![9; 500]).buffer.0;
    let mut length = 7;
    for (tensor, config) in &fields {
        let appended = append(tensor, config, length, buffer);
        assert_eq!(appended.status, 0);
        (buffer, length) = (appended.buffer.0, appended.length);
    }
    assert_eq!((length, &buffer[400..]), (400, &[9; 100][..]));
    let list = &buffer[..400];
    assert_eq!((list_fault(list), record_count(list)), (0, 3));
    for (k, (tensor, config)) in fields.into_iter().enumerate() {
        let reading = Reading { status: 0, dimension: 0, tensor, config };
        assert_eq!(record_at(list, k as u64), Numbered { number: k as u64, reading });
    }
}

#[test]
fn rmvlist_prints_the_example() {
    let expected = "status 0 records 3\n\
        record 0 status 0 dim 0 rank 2 element 1 shape 2 3 room 0 dim 0 span 6 need 6\n\
        record 1 status 28 dim 2\n\
        record 2 status 0 dim 0 rank 2 element 5 shape 2 3 room 2 dim 0\n";
    assert_eq!(show_list(&three()), expected);
    assert_eq!(show_list(&list(0, &[])), "status 0 records 0\n");
    assert_eq!(show_list(&three()[..399]), "status 30\n");
    assert_eq!((show_list(&[]), show_list(&record_a())), ("status 25\n".to_string(), "status 26\n".to_string()));
}

#[test]
fn rmvlist_asks_the_room_question_of_each_record() {
    // Permutation (0,0); strides (4,1) with destination offset (0,1), and with (0,3), which runs past the row; elements
    // of 4 bytes and of 3.
    let set_off = |offset: u8| a_with(&[(87 + 4, offset), (103, 4), (107, 1)]);
    let records = [a_with(&[(119, 0)]), set_off(1), set_off(3), a_with(&[(6, 4)]), a_with(&[(6, 3)])];
    let expected = "status 0 records 5\n\
        record 0 status 0 dim 0 rank 2 element 1 shape 2 3 room 6 dim 1\n\
        record 1 status 0 dim 0 rank 2 element 1 shape 2 3 room 0 dim 0 span 6 need 11\n\
        record 2 status 0 dim 0 rank 2 element 1 shape 2 3 room 12 dim 1\n\
        record 3 status 0 dim 0 rank 2 element 4 shape 2 3 room 0 dim 0 span 24 need 24\n\
        record 4 status 0 dim 0 rank 2 element 3 shape 2 3 room 0 dim 0 span 18 need 18\n";
    assert_eq!(show_list(&list(5, &records)), expected);
}

#[test]
fn rmvlist_takes_1000_records() {
    let longest = list(1_000, &vec![record_a(); 1_000]);
    assert_eq!(longest.len(), 131_007);
    let printed = show_list(&longest);
    assert!(printed.starts_with("status 0 records 1000\nrecord 0 status 0 dim 0 rank 2 "));
    assert_eq!(printed.lines().count(), 1_001);
    let last = "record 999 status 0 dim 0 rank 2 element 1 shape 2 3 room 0 dim 0 span 6 need 6";
    assert_eq!(printed.lines().last(), Some(last));
    let longer = "input longer than 131007 bytes, which are 1000 records\n";
    assert_eq!(show_list(&list(1_001, &vec![record_a(); 1_001])), longer);
    assert_eq!(show_list(&[longest, vec![0]].concat()), longer);
    assert_eq!((show_list(&[0; 131_007]), show_list(&[0; 131_008])), ("status 26\n".to_string(), longer.to_string()));
}
