//! Lists of moves: read, appended to, and spoiled in each way.

use super::planes::{good, Scale};
use super::records::{clear_tail, draw_fields, record_of, set_tail_entry};
use super::values::{any_fill, any_u64, any_u8, telling_fill, WRONG_RANKS};
use super::work::Work;
use crate::cases::lists::{applies, pairs, Asked, APPEND_ORDER};
use crate::list::{append as append_record, at, head, record_count, start as start_list, HEAD};
use crate::moves::Config;
use crate::random::Random;
use crate::ready_made::copy;
use crate::record::{self, pack, LENGTH};
use crate::tensor::Tensor;
use crate::wire::{Memory, Rest, MEMORY_LIMIT};

/// The records of a list, good and bad ones.
fn draw_records(random: &mut Random) -> Vec<Vec<u8>> {
    let count = random.pick(&[0, 1, 1, 2, 2, 3, 3, 4, 5, 6]);
    (0..count).map(|_| draw_one(random)).collect()
}

/// The 131 bytes of a record, which now and then are the first ones of a longer one.
fn draw_one(random: &mut Random) -> Vec<u8> {
    let wanted = random.chance(60);
    let mut record = Vec::new();
    // So many draws find either.
    for _ in 0..100 {
        let (tensor, mut config) = draw_fields(random);
        if random.chance(80) {
            config.fill = 0;
        }
        record = record_of(random, &tensor, &config);
        record.resize(LENGTH, 0);
        if (record::read(&record).status == 0) == wanted {
            break;
        }
    }
    record
}

/// These records behind their head.
fn list_of(records: &[Vec<u8>]) -> Vec<u8> {
    [head(records.len() as u16).to_vec(), records.concat()].concat()
}

/// A list of so many records, each of which can be told from the others.
fn long_list(count: u16) -> Vec<u8> {
    let tensor = |k: u16| Tensor { rank: 1, element_size: 1, shape: [k as u32 + 1, 0, 0, 0], stride: [0; 4] };
    let records: Vec<Vec<u8>> = (0..count).map(|k| pack(&tensor(k), &copy(1).config)).collect();
    list_of(&records)
}

/// A list of so many records, and the same with one more.
pub fn draw_two_lists(random: &mut Random, count: usize) -> (Vec<u8>, Vec<u8>) {
    let records: Vec<Vec<u8>> = (0..=count).map(|_| draw_one(random)).collect();
    (list_of(&records[..count]), list_of(&records))
}

/// Leaves half of the lists as they are, and spoils the others once or twice.
pub fn draw_list(random: &mut Random) -> Vec<u8> {
    let mut list = list_of(&draw_records(random));
    for _ in 0..random.pick(&[0, 0, 0, 1, 1, 2]) {
        let number = random.pick(&[25, 26, 27, 30, 30]);
        spoil_list(random, &mut list, number);
    }
    list
}

/// Puts in the fault that this number is given for, as far as these bytes can have it.
pub fn spoil_list(random: &mut Random, list: &mut Vec<u8>, number: u8) {
    match number {
        25 => list.truncate(random.index(HEAD)),
        30 if random.chance(50) => match random.below(6) {
            0 => list.push(any_u8(random)),
            1 => list.truncate(list.len().saturating_sub(1)),
            2 => list.extend(draw_one(random)),
            3 if list.len() >= HEAD + LENGTH => list.truncate(list.len() - LENGTH),
            4 => list.truncate(list.len().min(HEAD)),
            _ => {
                let more = random.between(2, 300) as usize;
                list.extend(random.bytes(more));
            }
        },
        _ => spoil_head(random, list, number),
    }
}

/// 26, 27 or 30 by what the head says.
fn spoil_head(random: &mut Random, list: &mut [u8], number: u8) {
    let set = |list: &mut [u8], place: usize, value: u8| {
        if let Some(byte) = list.get_mut(place) {
            *byte = value;
        }
    };
    match number {
        26 => match random.below(4) {
            // The mark of a record.
            0 => set(list, at::MARK + 2, b'V'),
            _ => set(list, at::MARK + random.index(3), random.pick(b"rmlRMLV\0\xff")),
        },
        27 => {
            let [low, high] = random.pick(&[0u16, 2, 3, 255, 256, 257, 513, 65_281, 65_535]).to_le_bytes();
            set(list, at::VERSION, low);
            set(list, at::VERSION + 1, high);
        }
        _ => {
            let Some(&[low, high]) = list.get(at::COUNT..HEAD) else {
                return;
            };
            let count = u16::from_le_bytes([low, high]);
            let turned = u16::from_be_bytes([low, high]);
            let (more, less) = (count.wrapping_add(1), count.wrapping_sub(1));
            let [low, high] = random.pick(&[more, more, less, less, 0, 65_535, turned, count ^ 256]).to_le_bytes();
            set(list, at::COUNT, low);
            set(list, at::COUNT + 1, high);
        }
    }
}

/// A record's number: below the count, at it, a little or far above it; one that would be small again in 8, 16 or 32
/// bits, or whose place would be in 64.
fn draw_number(random: &mut Random, count: u64) -> u64 {
    let small = random.below(count.max(1));
    match random.below(12) {
        0..=4 => small,
        5..=6 => count.saturating_sub(1),
        7 => count,
        8 => count + 1,
        9 => small + random.pick(&[1 << 8, 1 << 16, 1 << 32, 1 << 63]),
        10 => random.pick(&[u64::MAX, u64::MAX / 131 + 1, u64::MAX / 131 + 2, u64::MAX / 131, u64::MAX - 1]),
        _ => any_u64(random),
    }
}

/// A list, spoiled or not, looked at by some of the calls that read.
pub fn read(work: &mut Work) {
    let list = draw_list(&mut work.random);
    for number in [0x32, 0x33, 0x36] {
        if work.random.chance(40) {
            work.call(number, &Rest(list.clone()));
        }
    }
    // A list without records has only one answer.
    let count = record_count(&list);
    let often = if count > 0 { 75 } else { 20 };
    for number in [0x34, 0x34, 0x35] {
        if work.random.chance(often) {
            let k = draw_number(&mut work.random, count);
            work.call(number, &(k, Rest(list.clone())));
        }
    }
}

/// A buffer for a list, of any bytes.
pub fn start(work: &mut Work) {
    let random = &mut work.random;
    let mut buffer = match random.below(3) {
        0 => draw_list(random),
        _ => {
            let length = random.pick(&[0, 1, 2, 3, 4, 5, 6, 6, 7, 7, 8, 20, 138, 200]);
            random.bytes(length)
        }
    };
    if random.chance(30) {
        buffer.truncate(random.index(HEAD + 2));
    }
    work.call(0x37, &Memory(buffer));
}

/// Fields that a record of version 1 can have.
fn draw_good_fields(random: &mut Random) -> (Tensor, Config) {
    let mut drawn = good(random, Scale::Wide);
    drawn.config.fill = 0;
    if random.chance(20) {
        // Nobody asks what the move would come to.
        drawn.tensor.element_size = any_u8(random);
    }
    clear_tail(&mut drawn.tensor, &mut drawn.config);
    (drawn.tensor, drawn.config)
}

/// An append that is accepted, into a buffer that is just long enough or longer.
fn draw_append(random: &mut Random) -> Asked {
    let (tensor, config) = draw_good_fields(random);
    let mut buffer = list_of(&draw_records(random));
    let length = buffer.len() as u64;
    let more = random.pick(&[0, 0, 0, 1, 2, 130, 131, 200]);
    buffer.extend(random.bytes(LENGTH + more));
    Asked { tensor, config, length, buffer }
}

/// An append with at most two faults, and now and then with a fill besides. What it leaves is read back now and then.
pub fn append(work: &mut Work) {
    let random = &mut work.random;
    let mut asked = match random.below(10) {
        0..=2 => draw_append(random),
        3..=5 => {
            let number = random.pick(&[25, 26, 27, 30, 38, 38, 1, 28, 28]);
            let mut asked = draw_append(random);
            spoil_append(random, &mut asked, number);
            asked
        }
        _ => {
            let pair = random.pick(&pairs(APPEND_ORDER));
            draw_pair(random, pair)
        }
    };
    if random.chance(20) {
        asked.config.fill = any_fill(random);
    }
    call_append(work, &asked);
}

fn call_append(work: &mut Work, asked: &Asked) {
    let Asked { tensor, config, length, buffer } = asked;
    work.call(0x38, &(*tensor, *config, *length, Memory(buffer.clone())));
    let appended = append_record(tensor, config, *length, buffer.clone());
    if appended.status == 0 && work.random.chance(15) {
        let list = appended.buffer.0[..appended.length as usize].to_vec();
        work.call(0x34, &(record_count(&list).saturating_sub(1), Rest(list)));
    }
}

/// An append in which both numbers apply, so that the first has to be given.
fn draw_pair(random: &mut Random, (first, behind): (u8, u8)) -> Asked {
    let mut asked = draw_append(random);
    // So many draws find any pair.
    for _ in 0..500 {
        spoil_append(random, &mut asked, behind);
        spoil_append(random, &mut asked, first);
        if applies(&asked, first) && applies(&asked, behind) {
            break;
        }
        asked = draw_append(random);
    }
    asked
}

/// Puts in the fault that this number is given for.
fn spoil_append(random: &mut Random, asked: &mut Asked, number: u8) {
    let all = asked.buffer.len() as u64;
    match number {
        25 => match random.below(6) {
            0..=1 => asked.length = random.below(HEAD as u64),
            2 => asked.length = all + 1,
            3 => asked.length = random.pick(&[all + LENGTH as u64, u64::MAX, u64::MAX - 130, u64::MAX - 131, 1 << 63]),
            // The list as it is, small again in 32 bits.
            4 => asked.length += 1 << 32,
            _ => {
                asked.buffer.truncate(random.index(HEAD));
                asked.length = asked.buffer.len() as u64;
            }
        },
        30 if random.chance(60) => {
            let (length, record) = (asked.length, LENGTH as u64);
            let within = length + random.between(1, 130);
            let (byte_less, record_less) = (length.saturating_sub(1), length.saturating_sub(record));
            let said = random.pick(&[length + 1, byte_less, within, length + record, record_less, all]);
            asked.length = said.max(HEAD as u64).min(all);
        }
        38 => {
            let room = random.pick(&[130, 130, 130, 0, 0, 1, 7, 129]);
            asked.buffer.truncate((asked.length as usize).saturating_add(room));
        }
        1 => asked.tensor.rank = random.pick(&WRONG_RANKS),
        28 => {
            asked.tensor.rank = random.between(1, 3) as u8;
            clear_tail(&mut asked.tensor, &mut asked.config);
            for _ in 0..random.between(1, 2) {
                set_tail_entry(random, &mut asked.tensor, &mut asked.config);
            }
        }
        _ => spoil_head(random, &mut asked.buffer, number),
    }
}

/// A list from its start on, each call given the buffer and the length that the one before handed back; then every
/// record is read back.
pub fn history(work: &mut Work) {
    let records = work.random.below(5) as usize;
    let length = HEAD + LENGTH * records + work.random.pick(&[0, 0, 1, 130]);
    let bytes = work.random.bytes(length);
    work.call(0x37, &Memory(bytes.clone()));
    let mut buffer = start_list(bytes).buffer.0;
    let mut length = HEAD as u64;
    // Where all are accepted, the last one finds no room.
    for _ in 0..records + 1 {
        let random = &mut work.random;
        let (tensor, config) = if random.chance(80) { draw_good_fields(random) } else { draw_fields(random) };
        work.call(0x38, &(tensor, config, length, Memory(buffer.clone())));
        let appended = append_record(&tensor, &config, length, buffer);
        buffer = appended.buffer.0;
        if appended.status == 0 {
            length = appended.length;
        }
    }
    let list = Rest(buffer[..length as usize].to_vec());
    for number in [0x32, 0x33, 0x36] {
        work.call(number, &list);
    }
    for k in 0..=record_count(&list.0) {
        work.call(0x34, &(k, list.clone()));
        work.call(0x35, &(k, list.clone()));
    }
}

/// A list of two records, spoiled in every way, each for `list_fault` and one more call.
pub fn every_fault(work: &mut Work) {
    let list = list_of(&[draw_one(&mut work.random), draw_one(&mut work.random)]);
    let mut spoiled: Vec<Vec<u8>> = (0..HEAD).map(|length| list[..length].to_vec()).collect();
    let lengths = [HEAD, HEAD + LENGTH, list.len() - 1];
    spoiled.extend(lengths.map(|length| list[..length].to_vec()));
    spoiled.push([&list[..], &[0]].concat());
    spoiled.push([&list[..], &list[HEAD..HEAD + LENGTH]].concat());
    let with = |length: usize, changes: &[(usize, u8)]| {
        let mut bytes = list[..length].to_vec();
        for &(place, value) in changes {
            bytes[place] = value;
        }
        bytes
    };
    let all = list.len();
    // The mark, the version and the count, a byte at a time.
    let bytes = [(0, b'r'), (1, b'N'), (2, b'V'), (3, 2), (3, 0), (4, 1), (5, 0), (5, 1), (5, 3), (6, 1)];
    spoiled.extend(bytes.map(|change| with(all, &[change])));
    spoiled.push(with(all, &[(5, 255), (6, 255)]));
    spoiled.push(with(all, &[(5, 0), (6, 2)]));
    // Two at once.
    spoiled.extend([with(6, &[(2, b'V')]), with(6, &[(3, 2)]), with(all, &[(0, 0), (3, 0)])]);
    spoiled.extend([with(all, &[(1, 0), (5, 3)]), with(all, &[(4, 1), (5, 1)])]);
    for bytes in spoiled {
        work.call(0x32, &Rest(bytes.clone()));
        let k = work.random.below(3);
        match work.random.pick(&[0x33, 0x34, 0x35, 0x36]) {
            number @ (0x34 | 0x35) => work.call(number, &(k, Rest(bytes))),
            number => work.call(number, &Rest(bytes)),
        }
    }
}

/// Records that are bad in every way between two good ones, each read, and the first two of what is left from each on.
pub fn every_record(work: &mut Work) {
    let (tensor, config) = draw_good_fields(&mut work.random);
    let good = pack(&tensor, &config);
    let with = |place: usize, value: u8| {
        let mut record = good.clone();
        record[place] = value;
        record
    };
    let past = pack(&Tensor { rank: 1, ..tensor }, &Config { pre: [0, 0, 1, 0], ..copy(1).config });
    let version_2 = with(record::at::VERSION, 2);
    let bad = [with(record::at::MARK, 0), with(record::at::VERSION + 1, 1), with(record::at::RANK, 5), past, version_2];
    let records = [&[good.clone()], &bad[..], &[good]].concat();
    let list = Rest(list_of(&records));
    for k in 0..records.len() as u64 + 2 {
        work.call(0x34, &(k, list.clone()));
        work.call(0x35, &(k, list.clone()));
    }
    for first in 0..=records.len() {
        let rest = Rest(list_of(&records[first..]));
        work.call(0x34, &(0u64, rest.clone()));
        work.call(0x36, &rest);
    }
}

/// Each pair of numbers of an append, and an entry past each rank at each dimension.
pub fn every_pair(work: &mut Work) {
    for pair in pairs(APPEND_ORDER) {
        let asked = draw_pair(&mut work.random, pair);
        call_append(work, &asked);
    }
    for (rank, d) in [(1, 1), (1, 2), (1, 3), (2, 2), (2, 3), (3, 3)] {
        let mut asked = draw_append(&mut work.random);
        asked.tensor.rank = rank;
        clear_tail(&mut asked.tensor, &mut asked.config);
        asked.config.step[d] = 1;
        call_append(work, &asked);
    }
}

/// A fill by itself and with each number that comes before it: one whose bytes differ, also with an element size that
/// nobody asks for, and one whose used bytes are 0.
pub fn every_fill(work: &mut Work) {
    let faults = [25, 26, 30, 38, 1, 28];
    for number in faults.map(Some).into_iter().chain([None]) {
        let telling = telling_fill(&mut work.random);
        let used_are_0 = [(1, 0x4433_2200), (2, 0x4433_0000), (3, 0x4400_0000)];
        for (element_size, fill) in [(1, telling), (5, telling)].into_iter().chain(used_are_0) {
            let mut asked = draw_append(&mut work.random);
            (asked.tensor.element_size, asked.config.fill) = (element_size, fill);
            if let Some(number) = number {
                spoil_append(&mut work.random, &mut asked, number);
            }
            call_append(work, &asked);
        }
    }
}

/// Counts that need their high byte; the longest list that a line can hold, and the longest buffer.
pub fn long(work: &mut Work) {
    let longest = Rest(long_list(1_031));
    for number in [0x32, 0x33, 0x36] {
        work.call(number, &longest);
    }
    for k in [256, 1_030, 1_031] {
        work.call(0x34, &(k as u64, longest.clone()));
    }
    work.call(0x35, &(1_030u64, longest));
    for (count, all) in [(255, 34_000), (256, 34_000), (499, MEMORY_LIMIT), (500, MEMORY_LIMIT)] {
        let (tensor, config) = draw_good_fields(&mut work.random);
        let mut buffer = long_list(count);
        let length = buffer.len() as u64;
        buffer.resize(all, 0xa5);
        call_append(work, &Asked { tensor, config, length, buffer });
    }
    // One byte more than a buffer may have.
    let (tensor, config) = draw_good_fields(&mut work.random);
    let buffer = Memory([long_list(0), vec![7; MEMORY_LIMIT + 1 - HEAD]].concat());
    work.call(0x37, &buffer);
    work.call(0x38, &(tensor, config, HEAD as u64, buffer));
}
