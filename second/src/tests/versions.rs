//! Records of version 2, beside those of version 1: read, written, appended to lists, and printed by `rmvshow` and
//! `rmvlist`.

use super::records::record_a;
use super::{default, four, plane};
use crate::list::{append, first_two, record_at, Appended};
use crate::moves::Config;
use crate::record::{fields_fault, length_for, length_in, read, write, Reading};
use crate::show::show;
use crate::show_list::show_list;
use crate::tensor::{Fault, Tensor};

/// Example D with a zero point of 128, as a record: mark, version, rank, element size, the groups, and the fill.
fn record_d() -> Vec<u8> {
    let mut bytes = vec![b'R', b'M', b'V', 2, 0, 2, 1];
    for group in [[1u32, 2], [0, 0], [0, 0], [0, 0], [1, 1], [0, 0], [0, 0]] {
        for entry in four(&group) {
            bytes.extend(entry.to_le_bytes());
        }
    }
    bytes.extend([0, 1, 0, 0]);
    bytes.extend([1, 0, 0, 0]);
    bytes.extend([0, 1, 0, 0]);
    bytes.extend([128, 0, 0, 0]);
    bytes
}

fn d() -> (Tensor, Config) {
    let tensor = plane(&[1, 2]);
    (tensor, default(&tensor).with_pre(four(&[1, 0])).with_post(four(&[0, 1])).with_fill(128))
}

/// D with other bytes at some places.
fn d_with(changes: &[(usize, u8)]) -> Vec<u8> {
    let mut bytes = record_d();
    for &(place, value) in changes {
        bytes[place] = value;
    }
    bytes
}

/// Status and dimension of what is read; a refused reading has nothing else.
fn status(bytes: &[u8]) -> (u8, u8) {
    let reading = read(bytes);
    if reading.status != 0 {
        let refusal = Reading { status: reading.status, dimension: reading.dimension, ..Reading::default() };
        assert_eq!(reading, refusal);
    }
    (reading.status, reading.dimension)
}

fn with(changes: &[(usize, u8)]) -> (u8, u8) {
    status(&d_with(changes))
}

/// Status and dimension of what is written into a room of nines, and the room; a refused one is as it was.
fn written(tensor: &Tensor, config: &Config, length: usize) -> (u8, u8, Vec<u8>) {
    let mut room = vec![9; length];
    let Fault { status, dimension } = write(tensor, config, &mut room);
    assert_eq!(status != 0, room == vec![9; length]);
    (status, dimension, room)
}

#[test]
fn a_record_with_a_fill_has_135_bytes() {
    let (tensor, config) = d();
    assert_eq!(record_d().len(), 135);
    assert_eq!(read(&record_d()), Reading { status: 0, dimension: 0, tensor, config });
    assert_eq!(written(&tensor, &config, 135), (0, 0, record_d()));
    // Version 1 is the same without the last four bytes, and reads as fill 0.
    let shorter = d_with(&[(3, 1)])[..131].to_vec();
    let black = config.with_fill(0);
    assert_eq!(read(&shorter), Reading { status: 0, dimension: 0, tensor, config: black });
    assert_eq!(written(&tensor, &black, 131), (0, 0, shorter));
}

#[test]
fn the_fill_has_the_last_four_bytes_lowest_first() {
    let mut bytes = record_d();
    // Rank 4 has nothing past it, and elements of 4 bytes use all of a fill.
    (bytes[5], bytes[6]) = (4, 4);
    bytes[131..].copy_from_slice(&[131, 132, 133, 134]);
    let Reading { status, tensor, config, .. } = read(&bytes);
    assert_eq!((status, config.fill), (0, 0x8685_8483));
    assert_eq!((config.perm, config.pre, config.post), ([0, 1, 0, 0], [1, 0, 0, 0], [0, 1, 0, 0]));
    assert_eq!(written(&tensor, &config, 135), (0, 0, bytes));
}

#[test]
fn lengths_and_versions_go_together() {
    for length in [0, 5, 130, 132, 133, 134] {
        assert_eq!(status(&record_d()[..length]), (25, 0));
        assert_eq!(status(&d_with(&[(3, 1)])[..length]), (25, 0));
    }
    assert_eq!((status(&[record_d(), vec![0]].concat()), status(&[0; 262])), ((25, 0), (25, 0)));
    // 131 bytes of version 2, 135 of version 1; 258 is 02 01, and 512 is 00 02.
    assert_eq!(status(&record_d()[..131]), (27, 0));
    assert_eq!((with(&[(3, 1)]), with(&[(3, 3)]), with(&[(3, 0)])), ((27, 0), (27, 0), (27, 0)));
    assert_eq!((with(&[(4, 1)]), with(&[(3, 0), (4, 2)])), ((27, 0), (27, 0)));
    // 25, 26, 27, 1 is the order.
    assert_eq!(status(&d_with(&[(0, 0)])[..134]), (25, 0));
    assert_eq!((with(&[(2, b'L')]), with(&[(2, b'L'), (3, 1)])), ((26, 0), (26, 0)));
    assert_eq!(with(&[(3, 1), (5, 0)]), (27, 0));
}

#[test]
fn version_2_looks_at_the_element_size() {
    assert_eq!((with(&[(5, 0)]), with(&[(5, 5)])), ((1, 0), (1, 0)));
    assert_eq!((with(&[(6, 0)]), with(&[(6, 5)]), with(&[(6, 8)])), ((2, 0), (2, 0), (2, 0)));
    // 1 comes before 2, and 2 before both cases of 28.
    assert_eq!(with(&[(5, 5), (6, 5)]), (1, 0));
    assert_eq!((with(&[(6, 5), (7 + 8, 1)]), with(&[(6, 5), (131, 0)])), ((2, 0), (2, 0)));
    assert_eq!(with(&[(6, 5), (134, 1)]), (2, 0));
    // Version 1 does not look at it.
    assert_eq!(status(&d_with(&[(3, 1), (6, 5)])[..131]), (0, 0));
}

#[test]
fn version_2_has_a_fill_that_fits_its_elements() {
    // A fill of 0, whatever the size.
    for size in [1, 2, 3, 4] {
        assert_eq!(with(&[(6, size), (131, 0)]), (28, 0));
    }
    // Bytes 1 to 3 of the fill, by which it is too long for 1, and those too long for 2 and 3; 4 has none.
    let of_size = |size: u8| [132, 133, 134].map(|place| with(&[(6, size), (place, 1)]).0);
    assert_eq!((of_size(1), of_size(2)), ([28, 28, 28], [0, 28, 28]));
    assert_eq!((of_size(3), of_size(4)), ([0, 0, 28], [0, 0, 0]));
    // The used bytes may be 0 one by one, but not all of them, whatever the others are.
    let without_lowest = |size: u8| [132, 133, 134].map(|place| with(&[(6, size), (131, 0), (place, 1)]).0);
    assert_eq!((without_lowest(1), without_lowest(2)), ([28, 28, 28], [0, 28, 28]));
    assert_eq!((without_lowest(3), without_lowest(4)), ([0, 0, 28], [0, 0, 0]));
}

#[test]
fn the_old_cases_of_28_come_first() {
    assert_eq!((with(&[(7 + 12, 1)]), with(&[(129, 1)])), ((28, 3), (28, 2)));
    // Together with a fill of 0, and with one that is too long.
    assert_eq!((with(&[(129, 1), (131, 0)]), with(&[(129, 1), (134, 1)])), ((28, 2), (28, 2)));
    assert_eq!(with(&[(5, 1)]), (28, 1));
    assert_eq!((with(&[(131, 0)]), with(&[(5, 0), (131, 0)])), ((28, 0), (1, 0)));
}

#[test]
fn what_is_written_decides_the_room() {
    let (tensor, config) = d();
    for length in [0, 130, 131, 132, 133, 134, 136] {
        assert_eq!(written(&tensor, &config, length).0, 25);
    }
    for length in [0, 130, 132, 134, 135, 136] {
        assert_eq!(written(&tensor, &config.with_fill(0), length).0, 25);
    }
    // A fill whose used byte is 0 is not 0: it is of version 2, which refuses it.
    let unused = config.with_fill(0x100);
    assert_eq!((written(&tensor, &unused, 131).0, written(&tensor, &unused, 135).0), (25, 28));
}

#[test]
fn write_refuses_as_read_does() {
    let (tensor, config) = d();
    let number = |tensor: Tensor, config: Config| {
        let (status, dimension, _) = written(&tensor, &config, length_for(&config));
        (status, dimension)
    };
    let sized = |element_size: u8| Tensor { element_size, ..tensor };
    let ranked = |rank: u8| Tensor { rank, ..tensor };
    assert_eq!((number(ranked(0), config), number(Tensor { rank: 5, ..sized(5) }, config)), ((1, 0), (1, 0)));
    assert_eq!((number(sized(5), config), number(Tensor { rank: 1, ..sized(5) }, config)), ((2, 0), (2, 0)));
    assert_eq!((number(ranked(1), config), number(ranked(1), config.with_fill(u32::MAX))), ((28, 1), (28, 1)));
    assert_eq!((number(tensor, config.with_fill(256)), number(sized(2), config.with_fill(65_536))), ((28, 0), (28, 0)));
    assert_eq!(
        (number(sized(2), config.with_fill(65_535)), number(sized(4), config.with_fill(1 << 24))),
        ((0, 0), (0, 0))
    );
    // Fill 0 is of version 1, which does not look at the element size.
    assert_eq!(number(sized(5), config.with_fill(0)), (0, 0));
    // 25 comes first.
    assert_eq!((written(&ranked(0), &config, 131).0, written(&sized(5), &config, 134).0), (25, 25));
}

#[test]
fn what_reads_is_written_back() {
    let records = [
        record_a(),
        record_d(),
        d_with(&[(6, 2), (132, 1)]),
        d_with(&[(6, 4), (131, 0), (134, 1)]),
        d_with(&[(3, 1), (6, 5)])[..131].to_vec(),
    ];
    for bytes in records {
        let Reading { status, tensor, config, .. } = read(&bytes);
        assert_eq!((status, length_in(&bytes), length_for(&config)), (0, bytes.len(), bytes.len()));
        assert_eq!(written(&tensor, &config, bytes.len()), (0, 0, bytes));
    }
}

#[test]
fn a_version_tells_the_length() {
    assert_eq!((length_in(&[]), length_in(b"RMV\x02"), length_in(b"RMV\x02\0")), (131, 131, 135));
    assert_eq!((length_in(&record_a()), length_in(&record_d()), length_in(&[2, 2, 2, 2, 0])), (131, 135, 135));
    for version in [[0, 0], [1, 0], [3, 0], [2, 1], [0, 2], [2, 2]] {
        assert_eq!(length_in(&[b"RMV", &version[..], &[7; 130]].concat()), 131);
    }
    let (_, config) = d();
    assert_eq!([0, 1, 0x100, 0x8000_0000].map(|fill| length_for(&config.with_fill(fill))), [131, 135, 135, 135]);
}

#[test]
fn any_version_but_2_is_judged_as_1() {
    let (tensor, config) = d();
    let odd = Tensor { element_size: 5, ..tensor };
    for version in [0, 1, 3, 256, 258, 512, 65_535] {
        let fault = |tensor: &Tensor, config: &Config| fields_fault(version, tensor, config).status;
        assert_eq!((fault(&tensor, &config), fault(&odd, &config.with_fill(0)), fault(&odd, &config)), (0, 0, 0));
        assert_eq!(fault(&tensor, &config.with_fill(u32::MAX)), 0);
        assert_eq!(fields_fault(version, &Tensor { rank: 1, ..odd }, &config), Fault { status: 28, dimension: 1 });
        assert_eq!(fault(&Tensor { rank: 0, ..odd }, &config), 1);
    }
    assert_eq!((fields_fault(2, &tensor, &config).status, fields_fault(2, &odd, &config).status), (0, 2));
    assert_eq!(fields_fault(2, &tensor, &config.with_fill(0)), Fault { status: 28, dimension: 0 });
}

/// A list of these records of 131 bytes.
fn list(records: &[&[u8]]) -> Vec<u8> {
    let head = vec![b'R', b'M', b'L', 1, 0, records.len() as u8, 0];
    [head, records.concat()].concat()
}

#[test]
fn a_list_has_no_record_of_version_2() {
    let bytes = list(&[&record_d()[..131], &record_a()]);
    let bad = record_at(&bytes, 0);
    assert_eq!((bad.number, bad.reading), (0, Reading { status: 27, ..Reading::default() }));
    assert_eq!(record_at(&bytes, 1).reading, read(&record_a()));
    assert_eq!((first_two(&bytes).first.reading.status, first_two(&bytes).second.reading.status), (27, 0));
    let expected = "status 0 records 2\n\
        record 0 status 27 dim 0\n\
        record 1 status 0 dim 0 rank 2 element 1 shape 2 3 room 0 dim 0 span 6 need 6\n";
    assert_eq!(show_list(&bytes), expected);
}

/// Appends these fields to an empty list with so many bytes behind it; a refused append leaves it.
fn appended(tensor: Tensor, config: Config, room: usize) -> (u8, u8) {
    let buffer = [list(&[]), vec![9; room]].concat();
    let Appended { status, dimension, length, buffer: left } = append(&tensor, &config, 7, buffer.clone());
    assert_eq!((status != 0, status != 0), (length == 0, left.0 == buffer));
    (status, dimension)
}

#[test]
fn an_append_takes_no_fill() {
    let (tensor, config) = d();
    assert_eq!(appended(tensor, config.with_fill(0), 131), (0, 0));
    // Also with room for the longer record.
    assert_eq!((appended(tensor, config, 131), appended(tensor, config, 135)), ((27, 0), (27, 0)));
    // It comes last: behind 38, 1 and 28.
    assert_eq!(appended(tensor, config, 130), (38, 0));
    assert_eq!(appended(Tensor { rank: 5, ..tensor }, config, 131), (1, 0));
    assert_eq!(appended(Tensor { rank: 1, ..tensor }, config, 131), (28, 1));
    // Nothing else is asked of a fill, nor of the element size.
    let odd = Tensor { element_size: 5, ..tensor };
    assert_eq!((appended(odd, config, 131), appended(tensor, config.with_fill(256), 131)), ((27, 0), (27, 0)));
    assert_eq!(appended(odd, config.with_fill(0), 131), (0, 0));
}

#[test]
fn rmvshow_prints_padding() {
    let expected = "status 0 dim 0\nshape 2 3 stride 3 1\nneed 6\n80 80 80 05 06 80\n";
    assert_eq!(show(&[record_d(), vec![5, 6]].concat()), expected);
    assert_eq!(show(&[record_d(), vec![5, 6, 7]].concat()), expected);
    assert_eq!(show(&[record_d(), vec![5]].concat()), "status 5 dim 0\n");
    // Elements of two bytes, and a fill of 01 02.
    let wider = d_with(&[(6, 2), (131, 1), (132, 2)]);
    let expected = "status 0 dim 0\nshape 2 3 stride 3 1\nneed 12\n01 02 01 02 01 02 05 06 07 08 01 02\n";
    assert_eq!(show(&[wider, vec![5, 6, 7, 8]].concat()), expected);
    // Strides of 4: the gap is one of the zeroed bytes.
    let with_gap = d_with(&[(103, 4), (107, 1)]);
    let expected = "status 0 dim 0\nshape 2 3 stride 4 1\nneed 7\n80 80 80 00 05 06 80\n";
    assert_eq!(show(&[with_gap, vec![5, 6]].concat()), expected);
}

#[test]
fn rmvshow_takes_the_length_from_the_version() {
    // Without the last four bytes: version 1 takes them for the source.
    let black = "status 0 dim 0\nshape 2 3 stride 3 1\nneed 6\n00 00 00 80 00 00\n";
    assert_eq!(show(&d_with(&[(3, 1)])), black);
    // Cut short.
    assert_eq!((show(&record_d()), show(&record_d()[..131])), ("status 5 dim 0\n".into(), "status 27 dim 0\n".into()));
    for length in [5, 130, 132, 133, 134] {
        assert_eq!(show(&record_d()[..length]), "status 25 dim 0\n");
    }
    // Whatever its mark.
    let other = d_with(&[(0, 0)]);
    assert_eq!((show(&other[..131]), show(&other[..134])), ("status 26 dim 0\n".into(), "status 25 dim 0\n".into()));
    // Versions 258 and 512 have 131 bytes.
    for bytes in [d_with(&[(4, 1)]), d_with(&[(3, 0), (4, 2)])] {
        assert_eq!((show(&bytes), show(&bytes[..133])), ("status 27 dim 0\n".into(), "status 27 dim 0\n".into()));
    }
    // 2 comes before 28 in version 2.
    assert_eq!(show(&d_with(&[(6, 5), (131, 0)])), "status 2 dim 0\n");
    assert_eq!(show(&d_with(&[(131, 0)])), "status 28 dim 0\n");
}

#[test]
fn rmvshow_reads_16384_bytes_behind_either_version() {
    // One dimension, read as it is.
    let copied = |elements: u16| {
        let [low, high] = elements.to_le_bytes();
        let fields = [(5, 1), (7, low), (8, high), (11, 0), (75, 0), (120, 0), (123, 0), (128, 0)];
        show(&[d_with(&fields), vec![1; 20_000]].concat())
    };
    assert!(copied(16_384).starts_with("status 0 dim 0\nshape 16384 stride 1\nneed 16384\n01 01 "));
    assert_eq!((copied(16_385), copied(16_388)), ("status 5 dim 0\n".to_string(), "status 5 dim 0\n".to_string()));
}
