//! Which case a record is, worked out by hand, and which an input of `rmvshow` that begins with a longer one.

use super::cases_of_call;
use super::fill_cases::padded;
use crate::cases::records::{cases, met};
use crate::cases::shows::met as show_met;
use crate::moves::Config;
use crate::record::{pack_as, LENGTH, LENGTH_WITH_FILL};
use crate::show::number;
use crate::wire::{bytes_of, Memory, Rest};

fn of_call(number: u8, arguments: Vec<u8>) -> String {
    cases_of_call((cases, met), number, arguments)
}

/// The cases of a record of version 2 that is read, cut or lengthened to so many bytes.
fn read(length: usize, changes: &[(usize, u8)]) -> String {
    let (tensor, config) = padded(1, 0x11);
    let mut bytes = pack_as(2, &tensor, &config);
    for &(place, value) in changes {
        bytes[place] = value;
    }
    bytes.resize(length, 0);
    of_call(0x30, bytes_of(&Rest(bytes)))
}

#[test]
fn records_that_are_read() {
    assert_eq!((read(130, &[]), read(133, &[(0, 0)])), ("25 of 130 bytes".into(), "25 of 133 bytes; 25 and 26".into()));
    assert_eq!(read(LENGTH, &[]), "27 of 131 bytes, version 2");
    assert_eq!(read(LENGTH_WITH_FILL, &[(3, 1)]), "27 of 135 bytes, version 1");
    assert_eq!(read(LENGTH_WITH_FILL, &[(3, 1), (5, 0)]), "27 of 135 bytes, version 1; 27 and 1 of 135 bytes");
    assert_eq!(read(LENGTH_WITH_FILL, &[(4, 1)]), "27 of 135 bytes, version 258");
    assert_eq!(read(LENGTH_WITH_FILL, &[(0, 0)]), "26 of 135 bytes");
    assert_eq!(read(LENGTH_WITH_FILL, &[(0, 0), (3, 1)]), "26 and 27 of 135 bytes");
    assert_eq!(read(LENGTH, &[(3, 1), (6, 5)]), "version 1: element size that 2 refuses");
    assert_eq!(read(LENGTH, &[(3, 1)]), "");
}

#[test]
fn fields_of_version_2() {
    let read = |changes: &[(usize, u8)]| read(LENGTH_WITH_FILL, changes).replace("version 2: ", "");
    assert_eq!((read(&[]), read(&[(6, 2)]), read(&[(6, 4)])), ("size 1".into(), String::new(), String::new()));
    assert_eq!(read(&[(6, 2), (131, 0), (132, 1)]), "lowest byte 0; size 2");
    assert_eq!((read(&[(6, 3)]), read(&[(6, 3), (133, 1)])), (String::new(), "size 3".into()));
    assert_eq!((read(&[(5, 5)]), read(&[(5, 5), (6, 5)])), ("1".into(), "1 and 2".into()));
    assert_eq!(read(&[(5, 5), (134, 1)]), "1 and 28 by an unused byte");
    assert_eq!(read(&[(5, 5), (131, 0)]), "1; 1 and 28 by fill 0");
    assert_eq!((read(&[(6, 6)]), read(&[(6, 6), (129, 1)])), ("2".into(), "2 and 28 past the rank".into()));
    assert_eq!(read(&[(6, 6), (131, 0)]), "2; 2 and 28 by fill 0");
    assert_eq!((read(&[(6, 0)]), read(&[(6, 5)])), ("2; 2 by 0".into(), "2; 2 by 5".into()));
    assert_eq!(read(&[(129, 1)]), "28 past the rank");
    assert_eq!(read(&[(129, 1), (134, 1)]), "28 past the rank and by an unused byte");
    assert_eq!(read(&[(129, 1), (131, 0)]), "28 past the rank; 28 past the rank and by fill 0");
    assert_eq!(
        (read(&[(132, 1)]), read(&[(133, 1)])),
        ("28 by byte 1 of size 1".into(), "28 by byte 2 of size 1".into())
    );
    assert_eq!(
        (read(&[(6, 2), (134, 1)]), read(&[(132, 1), (133, 1)])),
        ("28 by byte 3 of size 2".into(), String::new())
    );
    assert_eq!(
        (read(&[(6, 3), (134, 1)]), read(&[(6, 4), (134, 1)])),
        ("28 by byte 3 of size 3".into(), "size 4".into())
    );
    assert_eq!(read(&[(131, 0), (132, 1)]), "28 where the used bytes are 0; 28 by byte 1 of size 1");
    assert_eq!(read(&[(6, 2), (131, 0)]), "28 by fill 0, size 2");
}

#[test]
fn records_that_are_written() {
    let written = |size: u8, fill: u32, length: usize| {
        let (tensor, config) = padded(size, fill);
        of_call(0x31, bytes_of(&(tensor, config, Memory(vec![7; length]))))
    };
    assert_eq!(
        (written(1, 0, 135), written(1, 1, 131)),
        ("25 of 135 bytes, version 1".into(), "25 of 131 bytes, version 2".into())
    );
    assert_eq!(written(5, 1, 134), "25 of 134 bytes, version 2; version 2: 25 and 2");
    assert_eq!(written(1, 256, 130), "version 2: 25 and 28");
    assert_eq!(
        (written(5, 0, 131), written(5, 1, 135)),
        ("version 1: element size that 2 refuses".into(), "version 2: 2; version 2: 2 by 5".into())
    );
    assert_eq!(written(1, 256, 135), "version 2: 28 where the used bytes are 0; version 2: 28 by byte 1 of size 1");
    let fields = |version: u16, size: u8, fill: u32| {
        let (tensor, config) = padded(size, fill);
        of_call(0x3b, bytes_of(&(version, tensor, config)))
    };
    assert_eq!(fields(258, 1, 256), "taken by version 258 alone");
    assert_eq!(fields(1, 2, 257), "version 1 with a fill");
    assert_eq!((fields(2, 4, u32::MAX), fields(258, 4, 1)), ("version 2: size 4".into(), String::new()));
}

#[test]
fn lengths_of_records() {
    let length = |bytes: &[u8]| of_call(0x39, bytes.to_vec());
    assert_eq!((length(&[]), length(b"RMV\x02")), ("no byte".into(), "4 bytes, the last one 2".into()));
    assert_eq!(
        (length(b"RMV\x02\0"), length(b"RML\x02\0\0")),
        ("5 bytes of version 2".into(), "version 2 behind another mark".into())
    );
    assert_eq!((length(b"RMV\x02\x01"), length(b"RMV\0\x02")), ("version 258".into(), "version 512".into()));
    let of_fill = |fill: u32| of_call(0x3a, bytes_of(&Config::default().with_fill(fill)));
    assert_eq!(
        (of_fill(256), of_fill(0x0100_0001), of_fill(0)),
        ("lowest byte 0; highest byte 0".into(), String::new(), String::new())
    );
}

#[test]
fn records_in_lists() {
    let (tensor, config) = padded(1, 0x11);
    let list =
        [b"RML\x01\0\x02\0".to_vec(), pack_as(2, &tensor, &config)[..131].to_vec(), pack_as(1, &tensor, &config)];
    let at = |k: u64| of_call(0x34, bytes_of(&(k, Rest(list.concat()))));
    assert_eq!((at(0), at(1), at(2)), ("27 of version 2".into(), "good behind version 2".into(), String::new()));
}

#[test]
fn inputs_of_rmvshow() {
    let (tensor, config) = padded(1, 0x11);
    let record = pack_as(2, &tensor, &config);
    let met = |bytes: &[u8]| show_met(bytes, number(bytes)).join("; ");
    assert_eq!(met(&[&record[..], &[5, 6]].concat()), "0; 1-byte padding");
    assert_eq!((met(&record), met(&record[..130])), ("5; 5 of version 2".into(), "25; version 2 cut before".into()));
    assert_eq!(
        (met(&record[..131]), met(&record[..133])),
        ("27; version 2 cut after 131 bytes".into(), "25; version 2 cut after 133 bytes".into())
    );
    let with = |place: usize, value: u8, length: usize| {
        let mut bytes = record.clone();
        bytes[place] = value;
        met(&bytes[..length])
    };
    assert_eq!((with(131, 0, 135), with(6, 5, 135)), ("28; 28 of version 2".into(), "2; 2 of version 2".into()));
    assert_eq!(
        (with(0, 0, 135), with(0, 0, 132)),
        ("26; 26 of version 2".into(), "25; version 2 cut behind another mark".into())
    );
    assert_eq!((with(4, 1, 132), with(4, 1, 135)), ("27; version 2 in its low byte alone".into(), "27".into()));
    assert_eq!(met(&pack_as(1, &tensor, &config)), "5");
}
