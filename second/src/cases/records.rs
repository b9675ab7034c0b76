//! The cases of records of both versions, and of their fields and lengths by themselves. Numbers alone do not tell them
//! apart, and a long comparison has to meet each.

use super::case::{case, holding, named, Case};
use super::input::{used_bytes_are_0, BESIDE};
use super::number::{FIELDS_FAULT, LENGTH_FOR, LENGTH_IN, READ, RECORD_AT, WRITE};
use crate::list::{record_bytes, record_count};
use crate::moves::Config;
use crate::record::{
    fields_fault, has_entry, has_unused_byte, unpack, version_for, version_in, LENGTH, LENGTH_WITH_FILL, MARK, VERSION,
    VERSION_WITH_FILL,
};
use crate::tensor::{check_element_size, check_rank, Tensor, ELEMENT_SIZES};
use crate::wire::{begin, Memory, Rest};

/// All cases of the call of this number.
pub fn cases(number: u8) -> Vec<String> {
    named(&all(number, &[], &[]))
}

/// The cases that a call with these bytes is, by what it has to be answered.
pub fn met(bytes: &[u8], expected: &[u8]) -> Vec<String> {
    match (bytes, expected) {
        ([number, arguments @ ..], [_, answer @ ..]) => holding(&all(*number, arguments, answer)),
        _ => Vec::new(),
    }
}

/// Each case of the call of this number, and whether it is one with these arguments and this answer. The names are the
/// same for any.
fn all(number: u8, arguments: &[u8], answer: &[u8]) -> Vec<Case> {
    let status = begin(answer);
    match number {
        READ => of_read(arguments, status),
        WRITE => of_write(begin(arguments), status),
        RECORD_AT => of_record_at(begin(arguments), begin(answer)),
        LENGTH_IN => of_length_in(arguments),
        LENGTH_FOR => of_length_for(&begin(arguments)),
        FIELDS_FAULT => of_fields_fault(begin(arguments), status),
        _ => Vec::new(),
    }
}

/// "25 for a length that is neither, 26, 27 where the version isn't that length's", then the fields.
fn of_read(bytes: &[u8], status: u8) -> Vec<Case> {
    let (tensor, config) = match bytes.len() {
        LENGTH | LENGTH_WITH_FILL => unpack(bytes),
        _ => Default::default(),
    };
    let fields = Fields { version: version_in(bytes).unwrap_or_default(), tensor, config, status };
    let mut all = before_fields(bytes, &fields);
    all.extend(of_fields(&fields));
    all.extend(of_fill_0(&fields));
    all
}

/// 25, 26 and 27 of a record that is read.
fn before_fields(bytes: &[u8], fields: &Fields) -> Vec<Case> {
    let &Fields { version, status, .. } = fields;
    let (length, longer) = (bytes.len(), bytes.len() == LENGTH_WITH_FILL);
    let mut all = Vec::new();
    for wrong in [130, 132, 133, 134, 136] {
        all.push((status == 25 && length == wrong, format!("25 of {wrong} bytes")));
    }
    for (of, versions) in [(LENGTH, [0, 2, 257, 258]), (LENGTH_WITH_FILL, [1, 3, 258, 512])] {
        for wrong in versions {
            let holds = status == 27 && length == of && version == wrong;
            all.push((holds, format!("27 of {of} bytes, version {wrong}")));
        }
    }
    let other_mark = length >= MARK.len() && !bytes.starts_with(MARK);
    let bad_rank = check_rank(fields.tensor.rank).is_err();
    all.push(case(status == 25 && other_mark, "25 and 26"));
    all.push(case(status == 26 && longer && version == VERSION_WITH_FILL, "26 of 135 bytes"));
    all.push(case(status == 26 && longer && version == VERSION, "26 and 27 of 135 bytes"));
    all.push(case(status == 27 && longer && bad_rank, "27 and 1 of 135 bytes"));
    all
}

/// "Write does the same, 25 being a room not of the version written." Fill 0 is never written as version 2.
fn of_write((tensor, config, room): (Tensor, Config, Memory), status: u8) -> Vec<Case> {
    let version = version_for(&config);
    let mut all = Vec::new();
    for (of, lengths) in [(VERSION, [130, 132, 135]), (VERSION_WITH_FILL, [131, 134, 136])] {
        for wrong in lengths {
            let holds = status == 25 && version == of && room.0.len() == wrong;
            all.push((holds, format!("25 of {wrong} bytes, version {of}")));
        }
    }
    for behind in [1, 2, 28] {
        let both = status == 25 && fields_fault(VERSION_WITH_FILL, &tensor, &config).status == behind;
        all.push((both && version == VERSION_WITH_FILL, format!("version 2: 25 and {behind}")));
    }
    all.extend(of_fields(&Fields { version, tensor, config, status }));
    all
}

/// Any version but 2 is judged as version 1 is.
fn of_fields_fault((version, tensor, config): (u16, Tensor, Config), status: u8) -> Vec<Case> {
    let not_2 = status == 0 && fields_fault(VERSION_WITH_FILL, &tensor, &config).status != 0;
    let mut all = Vec::new();
    for other in [0, 1, 3, 258, 512] {
        all.push((not_2 && version == other, format!("taken by version {other} alone")));
    }
    all.push(case(status == 0 && version == VERSION && config.fill != 0, "version 1 with a fill"));
    let fields = Fields { version, tensor, config, status };
    all.extend(of_fields(&fields));
    all.extend(of_fill_0(&fields));
    all
}

/// The fields of a record of this version, and the number that is given for them.
struct Fields {
    version: u16,
    tensor: Tensor,
    config: Config,
    status: u8,
}

impl Fields {
    /// Whether it is of version 2 and gets this number.
    fn two(&self, number: u8) -> bool {
        self.version == VERSION_WITH_FILL && self.status == number
    }

    fn bad_size(&self) -> bool {
        check_element_size(self.tensor.element_size).is_err()
    }

    /// Whether an entry past the rank is not 0.
    fn past(&self) -> bool {
        (self.tensor.rank.min(4) as usize..4).any(|d| has_entry(&self.tensor, &self.config, d))
    }

    /// Whether a byte of the fill that its elements leave unused is not 0.
    fn unused(&self) -> bool {
        !self.bad_size() && has_unused_byte(self.config.fill, self.tensor.element_size)
    }
}

/// "1, then for version 2 also 2; 28, at dimension 0 and after its old cases, covers a version 2 fill ... with unused
/// bytes not 0." The dimension tells which 28 came first.
fn of_fields(fields: &Fields) -> Vec<Case> {
    let (bad_size, past, unused) = (fields.bad_size(), fields.past(), fields.unused());
    let version_1 = fields.version == VERSION && fields.status == 0;
    let mut all = vec![
        case(fields.two(1) && !bad_size && !unused, "version 2: 1"),
        case(fields.two(1) && bad_size, "version 2: 1 and 2"),
        case(fields.two(1) && unused, "version 2: 1 and 28 by an unused byte"),
        case(fields.two(2) && !past, "version 2: 2"),
        case(fields.two(2) && past, "version 2: 2 and 28 past the rank"),
        case(fields.two(28) && past && !unused, "version 2: 28 past the rank"),
        case(fields.two(28) && past && unused, "version 2: 28 past the rank and by an unused byte"),
        case(version_1 && bad_size, "version 1: element size that 2 refuses"),
    ];
    for size in BESIDE {
        let holds = fields.two(2) && fields.tensor.element_size == size;
        all.push((holds, format!("version 2: 2 by {size}")));
    }
    all.extend(of_unused_bytes(fields));
    all.extend(of_accepted(fields));
    all
}

/// 28 by a byte that an element size leaves unused, each by itself.
fn of_unused_bytes(fields: &Fields) -> Vec<Case> {
    let (size, fill) = (fields.tensor.element_size, fields.config.fill);
    let refused = fields.two(28) && !fields.past() && fields.unused();
    let mut all = vec![case(refused && used_bytes_are_0(fill, size), "version 2: 28 where the used bytes are 0")];
    let bytes = fill.to_le_bytes();
    for of in ELEMENT_SIZES {
        let alone = bytes[of as usize..].iter().filter(|&&byte| byte != 0).count() == 1;
        for place in of as usize..4 {
            let holds = refused && size == of && alone && bytes[place] != 0;
            all.push((holds, format!("version 2: 28 by byte {place} of size {of}")));
        }
    }
    all
}

/// Version 2 with each element size.
fn of_accepted(fields: &Fields) -> Vec<Case> {
    let bytes = fields.config.fill.to_le_bytes();
    let mut all = vec![case(fields.two(0) && bytes[0] == 0, "version 2: lowest byte 0")];
    for of in ELEMENT_SIZES {
        // Its highest used byte is not 0, so that a smaller size would refuse it.
        let holds = fields.two(0) && fields.tensor.element_size == of && bytes[of as usize - 1] != 0;
        all.push((holds, format!("version 2: size {of}")));
    }
    all
}

/// "28 ... covers a version 2 fill of 0".
fn of_fill_0(fields: &Fields) -> Vec<Case> {
    let past = fields.past();
    let two = |number: u8| fields.two(number) && fields.config.fill == 0;
    let mut all = vec![
        case(two(1), "version 2: 1 and 28 by fill 0"),
        case(two(2) && !past, "version 2: 2 and 28 by fill 0"),
        case(two(28) && past, "version 2: 28 past the rank and by fill 0"),
    ];
    for of in ELEMENT_SIZES {
        let holds = two(28) && !past && fields.tensor.element_size == of;
        all.push((holds, format!("version 2: 28 by fill 0, size {of}")));
    }
    all
}

/// "135 if there are at least 5 and their version is 2, else 131", whatever the mark.
fn of_length_in(bytes: &[u8]) -> Vec<Case> {
    let version = version_in(bytes);
    let (two, marked) = (version == Some(VERSION_WITH_FILL), bytes.starts_with(MARK));
    vec![
        case(bytes.is_empty(), "no byte"),
        case(bytes.len() == 4 && bytes[3] == 2, "4 bytes, the last one 2"),
        case(two && bytes.len() == 5, "5 bytes of version 2"),
        case(two && bytes.len() > LENGTH_WITH_FILL, "more bytes than version 2 has"),
        case(two && !marked, "version 2 behind another mark"),
        case(version == Some(258), "version 258"),
        case(version == Some(512), "version 512"),
    ]
}

/// "131 if its fill is 0, else 135".
fn of_length_for(config: &Config) -> Vec<Case> {
    let [lowest, .., highest] = config.fill.to_le_bytes();
    vec![
        case(config.fill != 0 && lowest == 0, "lowest byte 0"),
        case(config.fill != 0 && highest == 0, "highest byte 0"),
    ]
}

/// "Lists of version 1 hold only version 1 records." The answer begins with the record's number and its status.
fn of_record_at((k, list): (u64, Rest), (_, status): (u64, u8)) -> Vec<Case> {
    let there = k < record_count(&list.0);
    let two = |k: u64| there && version_in(record_bytes(&list.0, k)) == Some(VERSION_WITH_FILL);
    vec![
        case(status == 27 && two(k), "27 of version 2"),
        case(status == 0 && k > 0 && two(k - 1), "good behind version 2"),
    ]
}
