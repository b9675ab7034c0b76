//! Which way a move is made, and which case of it, worked out by hand.

use super::{cases_of_call, default, four, plane};
use crate::cases::ways::{cases, met};
use crate::job::{Job, Part};
use crate::moves::{room, Config};
use crate::tensor::Tensor;
use crate::transfers::{fresh, Slot, RUNNING};
use crate::wire::{bytes_of, Counted, Memory};

fn of_call(number: u8, arguments: Vec<u8>) -> String {
    cases_of_call((cases, met), number, arguments)
}

/// The cases of a whole move, for which so many bytes more than the span are lent.
fn with_more(more: u64, tensor: Tensor, config: Config) -> String {
    let room = room(&tensor, &config);
    let (source, destination) = (vec![7; (room.span + more) as usize], vec![7; room.answer.need as usize]);
    of_call(0x20, bytes_of(&(tensor, config, Counted(source), Memory(destination))))
}

fn whole(tensor: Tensor, config: Config) -> String {
    with_more(0, tensor, config)
}

fn copied(shape: &[u32]) -> String {
    whole(plane(shape), default(&plane(shape)))
}

fn permuted(shape: &[u32], perm: &[u8]) -> String {
    whole(plane(shape), default(&plane(shape)).with_perm(four(perm)))
}

/// The cases of a move of this shape of which so much is cut out, from the first element on.
fn cropped(shape: &[u32], size: &[u32]) -> String {
    whole(plane(shape), default(&plane(shape)).with_size(four(size)))
}

fn sized(element_size: u8, shape: &[u32]) -> Tensor {
    Tensor { element_size, ..plane(shape) }
}

/// A job whose parts lie side by side, and the length of its memory.
fn job(tensor: Tensor, config: Config, source_first: bool) -> (Job, u64) {
    let room = room(&tensor, &config);
    let (span, need) = (room.span, room.answer.need);
    let (source, destination) = if source_first { (0, span) } else { (need, 0) };
    let part = |start: u64, length: u64| Part { start, length };
    (Job { source: part(source, span), destination: part(destination, need), tensor, config }, span + need)
}

/// The cases of a stretch.
fn stretch(tensor: Tensor, config: Config, from: u64, budget: u64) -> String {
    let (job, length) = job(tensor, config, true);
    of_call(0x22, bytes_of(&(job, from, budget, Memory(vec![7; length as usize]))))
}

#[test]
fn rows_that_are_joined() {
    // 204 bytes, 261 (two times 128 and 5), 210 and 210.
    assert_eq!(copied(&[4, 51]), "joined, 1-byte of rank 2");
    assert_eq!(copied(&[3, 87]), "joined, 1-byte of rank 2; joined, whole 128s and a tail");
    assert_eq!(copied(&[2, 3, 5, 7]), "joined, 1-byte of rank 4");
    let wide = sized(3, &[2, 5, 7]);
    assert_eq!(whole(wide, default(&wide)), "joined, 3-byte of rank 3");
    // Too few bytes, a multiple of 16, a single dimension.
    assert_eq!((copied(&[3, 66]), copied(&[13, 16]), copied(&[210])), (String::new(), String::new(), String::new()));
    // A crop of the first dimension leaves one run, one of the second a run for each layer: 210 bytes.
    assert_eq!(cropped(&[9, 51], &[4]), "joined, 1-byte of rank 2");
    assert_eq!(cropped(&[2, 8, 30], &[0, 7]), "joined, 1-byte layers");
    // Padding ends a run, but in the first dimension only at its ends, where none may be for this case.
    let tensor = plane(&[4, 51]);
    assert_eq!(whole(tensor, default(&tensor).with_pre(four(&[1]))), "");
    assert_eq!(whole(tensor, default(&tensor).with_pre(four(&[0, 1]))), "");
    assert_eq!(whole(tensor, default(&tensor).with_dst_stride(four(&[0, 2]))), "");
}

#[test]
fn lines() {
    assert_eq!(cropped(&[2, 20], &[0, 17]), "lines, 1-byte cut; lines, 16 bytes and tail 1");
    assert_eq!(cropped(&[2, 130], &[0, 129]), "lines, 1-byte cut; lines, 128 bytes and tail 1");
    let more = "lines, 1-byte cut; lines, 16 bytes and tail 0; lines, more than 64";
    assert_eq!(cropped(&[65, 20], &[0, 16]), more);
    assert_eq!(cropped(&[64, 20], &[0, 16]), more.strip_suffix("; lines, more than 64").unwrap());
    let tensor = sized(3, &[2, 17]);
    let set = default(&tensor).with_dst_stride(four(&[18, 1]));
    assert_eq!(whole(tensor, set), "lines, 3-byte set; lines, 16 bytes and tail 3");
    let both = set.with_size(four(&[0, 16]));
    assert_eq!(whole(tensor, both), "lines, 3-byte cut and set; lines, 16 bytes and tail 0");
    // One row, rows that are joined, and padding.
    assert_eq!((cropped(&[1, 20], &[0, 17]), copied(&[2, 20])), (String::new(), String::new()));
    let tensor = plane(&[2, 20]);
    let set = default(&tensor).with_dst_stride(four(&[30, 1]));
    assert_eq!(whole(tensor, set), "lines, 1-byte set; lines, 16 bytes and tail 4");
    assert_eq!(whole(tensor, set.with_post(four(&[0, 1]))), "");
    assert_eq!(whole(tensor, set.with_post(four(&[1, 0]))), "");
}

#[test]
fn short_rows() {
    let tensor = plane(&[16, 4]);
    let config = default(&tensor);
    assert_eq!(whole(tensor, config.with_step(four(&[1, 2]))), "short rows, 1-byte thinned");
    assert_eq!(whole(Tensor { stride: four(&[0, 2]), ..tensor }, config), "short rows, 1-byte strided");
    assert_eq!(whole(tensor, config.with_dst_stride(four(&[0, 2]))), "short rows, 1-byte with gaps");
    assert_eq!(whole(tensor, config.with_dst_stride(four(&[5, 1]))), "short rows, 1-byte with gaps");
    assert_eq!(whole(tensor, config.with_size(four(&[0, 3]))), "short rows, 1-byte cut");
    assert_eq!(
        whole(tensor, config.with_step(four(&[1, 4]))),
        "short rows, 1-byte thinned; short rows, of one element"
    );
    assert_eq!(permuted(&[4, 16], &[1, 0]), "short rows, 1-byte permuted");
    assert_eq!(permuted(&[4, 65], &[1, 0]), "short rows, 1-byte permuted; short rows, more than 64");
    let wide = sized(4, &[4, 15]);
    assert_eq!(whole(wide, default(&wide).with_perm(four(&[1, 0]))), "short rows, 4-byte in few rows");
    // Rows that are joined, that are padded, and a single one.
    assert_eq!(whole(tensor, config), "");
    assert_eq!(whole(tensor, config.with_step(four(&[1, 2])).with_pre(four(&[0, 1]))), "");
    assert_eq!(cropped(&[16, 4], &[1, 3]), "");
}

#[test]
fn pixels_put_together() {
    let short = "short rows, 1-byte permuted";
    assert_eq!(permuted(&[3, 17], &[1, 0]), format!("{short}; pixels put together, 1-byte (3,n)"));
    assert_eq!(permuted(&[3, 2, 17], &[1, 2, 0]), format!("{short}; pixels put together, 1-byte (3,h,w)"));
    // No tail, no block, two channels, another order of rows and columns.
    assert_eq!(permuted(&[3, 16], &[1, 0]), short);
    assert_eq!(permuted(&[3, 15], &[1, 0]), "short rows, 1-byte in few rows");
    assert_eq!((permuted(&[2, 17], &[1, 0]), permuted(&[3, 17, 17], &[2, 1, 0])), (short.into(), short.into()));
    // A fourth channel before or behind the three, and a fifth.
    let tensor = sized(2, &[3, 17]);
    let config = default(&tensor).with_perm(four(&[1, 0]));
    let fourth = "pixels put together, 2-byte (3,n) and a fourth";
    assert_eq!(whole(tensor, config.with_pre(four(&[1]))), fourth);
    assert_eq!(whole(tensor, config.with_post(four(&[1]))), fourth);
    assert_eq!(whole(tensor, config.with_post(four(&[2]))), "");
    // Four rows of five pixels, which are joined, or cut from wider rows.
    let few = "short rows, 1-byte in few rows";
    assert_eq!(permuted(&[3, 4, 5], &[1, 2, 0]), format!("{few}; pixels put together, short rows joined"));
    let tensor = plane(&[3, 4, 6]);
    assert_eq!(whole(tensor, default(&tensor).with_perm(four(&[1, 2, 0])).with_size(four(&[0, 0, 5]))), few);
}

#[test]
fn pixels_taken_apart() {
    assert_eq!(permuted(&[33, 3], &[1, 0]), "pixels taken apart, 1-byte (n,3)");
    assert_eq!(permuted(&[2, 33, 3], &[2, 0, 1]), "pixels taken apart, 1-byte (h,w,3)");
    assert_eq!(permuted(&[2, 2, 33, 3], &[0, 3, 1, 2]), "pixels taken apart, 1-byte (h,w,3)");
    let wide = sized(4, &[33, 3]);
    assert_eq!(whole(wide, default(&wide).with_perm(four(&[1, 0]))), "pixels taken apart, 4-byte (n,3)");
    // No tail, too few, and two channels.
    assert_eq!((permuted(&[48, 3], &[1, 0]), permuted(&[31, 3], &[1, 0])), (String::new(), String::new()));
    assert_eq!(permuted(&[33, 2], &[1, 0]), "");
    // Four rows of nine pixels, which are joined.
    let few = "short rows, 1-byte in few rows";
    assert_eq!(permuted(&[4, 9, 3], &[2, 0, 1]), format!("{few}; pixels taken apart, short rows joined"));
    assert_eq!(permuted(&[3, 9, 3], &[2, 0, 1]), few);
}

#[test]
fn turned_layers() {
    assert_eq!(permuted(&[16, 17], &[1, 0]), "turned, 1-byte rows of no 4s; turned, 1-byte columns of 16s");
    assert_eq!(permuted(&[20, 24], &[1, 0]), "turned, 1-byte rows of 8s; turned, 1-byte columns of 4s");
    let square = "turned, 1-byte rows of 16s; turned, 1-byte columns of 16s";
    assert_eq!(permuted(&[2, 16, 16], &[0, 2, 1]), format!("{square}; turned, layers"));
    assert_eq!(permuted(&[16, 2, 16], &[1, 2, 0]), format!("{square}; turned, layers"));
    let tensor = plane(&[18, 18]);
    let config = default(&tensor).with_perm(four(&[1, 0]));
    assert_eq!(whole(tensor, config.with_size(four(&[16, 16]))), format!("{square}; turned, cropped"));
    // A side that is too short, and padding.
    assert_eq!(permuted(&[15, 16], &[1, 0]), "short rows, 1-byte permuted");
    assert_eq!(permuted(&[16, 15], &[1, 0]), "");
    assert_eq!(whole(tensor, config.with_pre(four(&[1]))), "");
}

#[test]
fn every_second_element() {
    let second = |size: u8, shape: &[u32], more: u64| {
        let tensor = sized(size, shape);
        let last = shape.len() - 1;
        let mut config = default(&tensor);
        config.step[last] = 2;
        with_more(more, tensor, config)
    };
    // Elements 0 to 30 of 31; of 32, one of which is behind; and of 33, the last of which is read too.
    assert_eq!(second(1, &[31], 0), "every second, 1-byte to the source's end");
    assert_eq!(second(1, &[32], 0), "every second, 1-byte with a byte behind");
    assert_eq!(second(1, &[33], 0), "every second, 1-byte to the source's end");
    assert_eq!(second(1, &[31], 1), "every second, 1-byte with a byte behind");
    assert_eq!((second(1, &[32], 1), second(1, &[30], 0)), (String::new(), String::new()));
    assert_eq!(second(2, &[2, 31], 0), "every second, 2-byte to the source's end");
    assert_eq!(
        (second(2, &[32], 0), second(2, &[31], 1)),
        (String::new(), "every second, 2-byte with a byte behind".into())
    );
}

#[test]
fn padded_rows() {
    let tensor = plane(&[3, 2]);
    let config = default(&tensor).with_fill(0x0403_0201);
    let padded = |pre: u8, post: u8| whole(tensor, config.with_pre(four(&[0, pre])).with_post(four(&[0, post])));
    assert_eq!(
        (padded(1, 15), padded(1, 0), padded(0, 1)),
        ("padded rows, 1-byte narrow".into(), String::new(), String::new())
    );
    assert_eq!(padded(16, 1), "padded rows, 1-byte wide before");
    assert_eq!(padded(16, 40), "padded rows, 1-byte wide before; padded rows, 1-byte wide behind");
    // Two rows, and a fill of which two bytes are the same.
    let both = |config: Config| config.with_pre(four(&[0, 1])).with_post(four(&[0, 1]));
    assert_eq!(whole(plane(&[2, 2]), both(config)), "");
    assert_eq!(whole(tensor, both(config.with_fill(0x0403_0101))), "");
    // Two layers of a row of padding, three rows, and a row of padding.
    let layers = sized(2, &[2, 3, 2]);
    let config = default(&layers).with_fill(0x0403_0201).with_pre(four(&[0, 1, 1])).with_post(four(&[0, 1, 1]));
    assert_eq!(whole(layers, config), "padded rows, 2-byte narrow; padded rows, 2-byte in padded layers");
}

#[test]
fn stretches_begin_and_end_inside() {
    // Four rows of 17: 0..16, 17..33, 34..50, 51..67.
    let tensor = plane(&[4, 20]);
    let config = default(&tensor).with_size(four(&[0, 17]));
    let at = |from: u64, budget: u64| stretch(tensor, config, from, budget);
    let lines = |rest: &[&str]| {
        let all = [&["1-byte cut", "16 bytes and tail 1"], rest, &["source before destination"]].concat();
        all.iter().map(|case| format!("lines, {case}")).collect::<Vec<_>>().join("; ")
    };
    assert_eq!(at(0, 68), lines(&[]));
    assert_eq!(at(1, 60), lines(&["begins in mid-row", "ends in mid-row"]));
    assert_eq!(at(17, 34), lines(&["begins in mid-layer", "ends in mid-layer"]));
    assert_eq!(at(17, u64::MAX), lines(&["begins in mid-layer"]));
    // One whole row and two that are not, and nothing.
    assert_eq!((at(1, 40), at(68, 1), at(u64::MAX, 1)), (String::new(), String::new(), String::new()));
}

#[test]
fn a_stretch_moves_enough_at_once() {
    let begin_of = |met: String| met.split("; ").next().unwrap().to_string();
    // 240 bytes in one run; 16 or 15 whole rows of a turned layer; 32 or 31 pixels of a channel.
    let joined = plane(&[4, 60]);
    let run = |from: u64| begin_of(stretch(joined, default(&joined), from, u64::MAX));
    assert_eq!((run(5), run(41)), ("joined, 1-byte of rank 2".into(), String::new()));
    let square = plane(&[16, 17]);
    let turned = |from: u64| begin_of(stretch(square, default(&square).with_perm(four(&[1, 0])), from, u64::MAX));
    assert_eq!((turned(16), turned(17)), ("turned, 1-byte rows of no 4s".into(), String::new()));
    let pixels = plane(&[33, 3]);
    let apart =
        |from: u64, budget: u64| begin_of(stretch(pixels, default(&pixels).with_perm(four(&[1, 0])), from, budget));
    let channels = "pixels taken apart, 1-byte (n,3)".to_string();
    assert_eq!((apart(1, 33), apart(2, 33), apart(0, 33)), (channels.clone(), String::new(), String::new()));
    assert_eq!(apart(2, 64), channels);
    // The last element is moved, or not.
    let second = plane(&[41]);
    let every = |budget: u64| stretch(second, default(&second).with_step(four(&[2])), 1, budget);
    let places = "every second, begins in mid-row; every second, source before destination";
    assert_eq!(every(20), format!("every second, 1-byte to the source's end; {places}"));
    assert_eq!(every(19), places.replace("mid-row;", "mid-row; every second, ends in mid-row;"));
}

#[test]
fn a_step_and_a_source_behind() {
    let tensor = plane(&[4, 20]);
    let (job, length) = job(tensor, default(&tensor).with_size(four(&[0, 17])), false);
    let memory = Memory(vec![7; length as usize]);
    let behind =
        "lines, 1-byte cut; lines, 16 bytes and tail 1; lines, ends in mid-layer; lines, source behind destination";
    assert_eq!(of_call(0x27, bytes_of(&(job, 0u64, 34u64, memory.clone()))), behind);
    let mut table = fresh(length).table;
    table.slot[0] = Slot { state: RUNNING, job, moved: 17 };
    let stepped = of_call(0x43, bytes_of(&(table, 0u32, 34u64, memory.clone())));
    assert_eq!(stepped, behind.replace("lines, ends", "lines, begins in mid-layer; lines, ends"));
    // A refused step, a step of a free slot.
    let refused = |handle: u32, moved: u64| {
        let mut table = table;
        table.slot[0].moved = moved;
        of_call(0x43, bytes_of(&(table, handle, 34u64, memory.clone())))
    };
    assert_eq!((refused(0, 68), refused(1, 17), refused(4, 17)), (String::new(), String::new(), String::new()));
}

#[test]
fn what_is_mirrored() {
    let mirrored =
        |shape: &[u32], stride: &[i32], config: Config| whole(Tensor { stride: four(stride), ..plane(shape) }, config);
    let plain = default(&plane(&[1, 1]));
    assert_eq!(mirrored(&[4, 51], &[0, -1], plain), "joined, 1-byte mirrored elements");
    assert_eq!(mirrored(&[4, 51], &[-51, 0], plain), "joined, 1-byte mirrored rows");
    assert_eq!(mirrored(&[4, 51], &[-51, -1], plain), "joined, mirrored throughout");
    // A single kept coordinate has no order.
    assert_eq!(mirrored(&[2, 20], &[-20, 0], plain.with_size(four(&[1, 17]))), "");
    assert_eq!(mirrored(&[2, 20], &[-20, 0], plain.with_size(four(&[0, 17]))), "lines, 1-byte mirrored rows");
    // The rows of what is turned are the columns of the source.
    let turned = plain.with_perm(four(&[1, 0]));
    assert_eq!(mirrored(&[16, 16], &[-16, 0], turned), "turned, 1-byte mirrored elements");
    assert_eq!(mirrored(&[16, 16], &[0, -1], turned), "turned, 1-byte mirrored rows");
    // Layers alone, and with rows, which is neither.
    let cube = default(&plane(&[1, 1, 1]));
    assert_eq!(mirrored(&[2, 4, 51], &[-204, 0, 0], cube), "joined, mirrored layers");
    assert_eq!(mirrored(&[2, 4, 51], &[-204, -51, 0], cube), "");
    assert_eq!(mirrored(&[2, 4, 51], &[-204, -51, -1], cube), "joined, mirrored throughout");
    let lines = Tensor { stride: four(&[0, -1]), ..plane(&[2, 20]) };
    let cut = "lines, 1-byte mirrored elements; lines, mirrored, begins in mid-row";
    let behind = "lines, mirrored, source before destination";
    assert_eq!(
        stretch(Tensor { shape: four(&[4, 20]), ..lines }, plain.with_size(four(&[0, 17])), 3, 65),
        format!("{cut}; {behind}")
    );
}
