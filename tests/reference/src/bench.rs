//! The bench pieces of the rules, run against this reader.

mod broken;
mod channels;
mod fill;

use crate::calls::{decode, inspect, settle, Limits, UNLIMITED};
use crate::picture;
use crate::record::Record;

/// A Huffman segment of one table: codes given as (length, symbol), shortest first.
fn huffman(class_and_id: u8, codes: &[(usize, u8)]) -> Vec<u8> {
    let mut counts = [0; 16];
    codes.iter().for_each(|&(length, _)| counts[length - 1] += 1);
    let mut bytes = vec![255, 196];
    bytes.extend((19 + codes.len() as u16).to_be_bytes());
    bytes.push(class_and_id);
    bytes.extend(counts);
    bytes.extend(codes.iter().map(|&(_, symbol)| symbol));
    bytes
}

/// File F with other codes and another scan.
fn file(dc: &[(usize, u8)], ac: &[(usize, u8)], scan: &[u8]) -> Vec<u8> {
    let mut bytes = vec![255, 216, 255, 219, 0, 67, 0];
    bytes.extend([1; 64]);
    bytes.extend([255, 192, 0, 11, 8, 0, 8, 0, 8, 1, 1, 17, 0]);
    bytes.extend(huffman(0, dc));
    bytes.extend(huffman(16, ac));
    bytes.extend([255, 218, 0, 8, 1, 1, 0, 0, 63, 0]);
    bytes.extend(scan);
    bytes.extend([255, 217]);
    bytes
}

const ZERO: &[(usize, u8)] = &[(1, 0)];
const END_AND_RUN: &[(usize, u8)] = &[(1, 0), (2, 240)];

fn f() -> Vec<u8> {
    file(ZERO, ZERO, &[63])
}

fn number(file: &[u8]) -> u8 {
    inspect(file, 1, &Limits::NONE, UNLIMITED).0.number
}

/// F's head, then these bytes.
fn one(scan: &[u8]) -> Vec<u8> {
    [&f()[..138], scan].concat()
}

/// F's head, two blocks wide with a restart between them, then these bytes.
fn two(scan: &[u8]) -> Vec<u8> {
    let mut file = f_behind(&[255, 221, 0, 4, 0, 1]);
    file[79] = 16;
    file.truncate(144);
    file.extend(scan);
    file
}

/// Refused by the scan with this number, block and place: inspect and settle take the work too,
/// decode with the header's record says 8, and no buffer changes.
fn refuses(file: &[u8], record: &Record, why: (u8, u64, u64)) {
    let price = 2 * file.len() as u64 + 1 + record.work;
    let (answer, own) = inspect(file, 1, &Limits::NONE, price + 9);
    assert_eq!((answer.number, answer.block, answer.place), why, "{file:?}");
    assert_eq!((answer.left, own), (9, Record::default()));
    assert_eq!(inspect(file, 1, &Limits::NONE, price).0.left, 0);
    let (mut output, mut scratch) = ([5; 900], [6; 900]);
    let (answer, length) = settle(file, &Limits::NONE, price + 9, &mut output);
    assert_eq!((answer.number, answer.block, answer.place), why);
    assert_eq!((answer.left, length), (9, 0));
    let answer = decode(file, record, &mut output, &mut scratch, price + 9);
    assert_eq!((answer.number, answer.left), (8, 9));
    assert_eq!((answer.block, answer.place), (0, 0));
    assert!(output == [5; 900] && scratch == [6; 900]);
}

fn settled(file: &[u8]) -> Vec<u8> {
    let mut buffer = vec![0; 1000];
    let (answer, length) = settle(file, &Limits::NONE, UNLIMITED, &mut buffer);
    assert_eq!(answer.number, 0);
    buffer.truncate(length as usize);
    buffer
}

#[test]
fn file_f() {
    let f = f();
    assert_eq!(f.len(), 141);
    let (answer, record) = inspect(&f, 1, &Limits::NONE, 3483);
    assert_eq!((answer.number, answer.left), (0, 0));
    let wanted = Record {
        width: 8,
        height: 8,
        channels: 1,
        across: [1, 0, 0, 0],
        down: [1, 0, 0, 0],
        ids: [1, 0, 0, 0],
        quantizers: [7, 0, 0, 0],
        dc_tables: [89, 0, 0, 0],
        ac_tables: [111, 0, 0, 0],
        first_coded: 138,
        blocks: 1,
        scratch: 64,
        output: 64,
        work: 3200,
        colour: 1,
        ..Record::default()
    };
    assert_eq!(record, wanted);
    let (mut output, mut scratch) = ([9; 65], [7; 66]);
    let answer = decode(&f, &record, &mut output, &mut scratch, 3484);
    assert_eq!((answer.number, answer.left), (0, 1));
    assert_eq!((output[..64].to_vec(), output[64]), (vec![128; 64], 9));
    assert_eq!((scratch[..64].to_vec(), &scratch[64..]), (vec![128; 64], &[7, 7][..]));
}

#[test]
fn budgets_of_f() {
    let f = f();
    let at = |budget| {
        let (answer, record) = inspect(&f, 1, &Limits::NONE, budget);
        (answer.number, answer.left, record == Record::default())
    };
    assert_eq!(at(282), (2, 282, true));
    assert_eq!(at(283), (2, 0, true));
    assert_eq!(at(3482), (2, 3199, true));
    assert_eq!(at(3483), (0, 0, false));
}

#[test]
fn limits_of_f() {
    let f = f();
    let at = |input, side, output| {
        let (answer, _) = inspect(&f, 0, &Limits { input, side, output }, 4000);
        (answer.number, answer.left)
    };
    assert_eq!(at(140, 0, 0), (1, 4000));
    assert_eq!(at(141, 7, 64), (6, 3717));
    assert_eq!(at(141, 8, 63), (6, 3717));
    assert_eq!(at(141, 8, 64), (0, 517));
}

#[test]
fn program_on_f() {
    let mut wanted = b"P5\n8 8\n255\n".to_vec();
    wanted.extend([128; 64]);
    assert_eq!(wanted.len(), 75);
    assert_eq!(picture::written(&f(), &picture::PROGRAM), wanted);
    assert_eq!(picture::written(&[], &picture::PROGRAM), b"refused 4\n");
    assert_eq!(picture::written(&[0; 65_537], &picture::PROGRAM), b"refused 1\n");
}

#[test]
fn program_on_a_wide_picture() {
    let mut wide = f();
    (wide[76], wide[77]) = (0, 1);
    (wide[78], wide[79]) = (32, 1);
    assert_eq!(picture::written(&wide, &picture::PROGRAM), b"refused 6\n");
    // Its one block is there, then 217 where a bit of the next is wanted.
    (wide[78], wide[79]) = (32, 0);
    assert_eq!(picture::written(&wide, &picture::PROGRAM), b"refused 10\n");
}

#[test]
fn empty_file() {
    let at = |budget| {
        let (answer, _) = inspect(&[], 0, &Limits::NONE, budget);
        (answer.number, answer.left)
    };
    assert_eq!(at(0), (2, 0));
    assert_eq!(at(1), (4, 0));
}

#[test]
fn p1_to_p4_settled() {
    assert_eq!(settled(&f()), f());
    let with = |scan: u8| file(ZERO, END_AND_RUN, &[scan]);
    assert_eq!(settled(&with(79)), with(63));
    assert_eq!(settled(&with(84)), with(63));
    // DC 0, then 10 10 10 10 and the end code.
    assert_eq!(number(&file(ZERO, END_AND_RUN, &[0b0101_0101, 0b0011_1111])), 4);
}

/// Refused 4 by the header: inspect and settle take 2n+1 and nothing for the scan.
fn header_refuses(file: &[u8]) {
    let price = 2 * file.len() as u64 + 1;
    let (answer, record) = inspect(file, 1, &Limits::NONE, price + 5000);
    assert_eq!((answer.number, answer.left, record), (4, 5000, Record::default()));
    let mut buffer = [3; 1000];
    let (answer, length) = settle(file, &Limits::NONE, price + 5000, &mut buffer);
    assert_eq!((answer.number, answer.left, length), (4, 5000, 0));
    assert_eq!(buffer, [3; 1000]);
}

#[test]
fn p5_a_symbol_with_two_codes() {
    for scan in [63, 159] {
        let file = file(&[(1, 0), (2, 0)], ZERO, &[scan]);
        assert_eq!(file.len(), 142);
        header_refuses(&file);
    }
}

const DC_CARELESS: [&[(usize, u8)]; 8] = [
    &[(2, 0), (2, 0)],
    &[(1, 0), (2, 1), (3, 0)],
    &[(1, 0), (2, 1), (16, 1)],
    &[(1, 0), (2, 11), (3, 11)],
    &[(1, 0), (2, 12)],
    &[(1, 0), (2, 15)],
    &[(1, 0), (2, 16)],
    &[(1, 0), (2, 255)],
];
const DC_CAREFUL: [&[(usize, u8)]; 2] = [&[(1, 0), (2, 11)], &[(1, 0), (2, 11), (3, 1)]];
const AC_CARELESS: [&[(usize, u8)]; 11] = [
    &[(1, 0), (2, 0)],
    &[(2, 0), (2, 0)],
    &[(1, 0), (2, 240), (16, 240)],
    &[(1, 0), (2, 1), (3, 2), (4, 1)],
    &[(1, 0), (2, 16)],
    &[(1, 0), (2, 224)],
    &[(1, 0), (2, 11)],
    &[(1, 0), (2, 15)],
    &[(1, 0), (2, 251)],
    &[(1, 0), (2, 239)],
    &[(1, 0), (2, 255)],
];
const AC_CAREFUL: [&[(usize, u8)]; 5] = [
    &[(1, 0), (2, 240)],
    &[(1, 0), (2, 250)],
    &[(1, 0), (2, 10)],
    &[(1, 0), (2, 241)],
    &[(1, 0), (2, 1), (3, 17), (4, 234)],
];

#[test]
fn careless_tables_in_use() {
    DC_CARELESS.iter().for_each(|dc| header_refuses(&file(dc, ZERO, &[63])));
    AC_CARELESS.iter().for_each(|ac| header_refuses(&file(ZERO, ac, &[63])));
    DC_CAREFUL.iter().for_each(|dc| assert_eq!(number(&file(dc, ZERO, &[63])), 0));
    AC_CAREFUL.iter().for_each(|ac| assert_eq!(number(&file(ZERO, ac, &[63])), 0));
}

/// F with these bytes before its Huffman segments.
fn f_behind(bytes: &[u8]) -> Vec<u8> {
    let mut file = f();
    file.splice(84..84, bytes.iter().copied());
    file
}

/// F with this table before its own one of that class, in the same segment.
fn f_with_two(class_and_id: u8, codes: &[(usize, u8)]) -> Vec<u8> {
    let table = huffman(class_and_id, codes)[4..].to_vec();
    let mut file = f();
    let at = if class_and_id < 16 { 84 } else { 106 };
    file[at + 3] += table.len() as u8;
    file.splice(at + 4..at + 4, table);
    file
}

#[test]
fn careless_tables_unused_or_replaced() {
    let each = |codes: &[(usize, u8)], class: u8, test: &dyn Fn(&[u8])| {
        // Ids 1 and 3 are never used; the table of id 0 is replaced by F's own.
        for id in [0, 1, 3] {
            test(&f_behind(&huffman(class + id, codes)));
            test(&f_with_two(class + id, codes));
        }
    };
    let accepted = |file: &[u8]| assert_eq!(number(file), 0);
    DC_CARELESS.iter().for_each(|codes| each(codes, 0, &header_refuses));
    AC_CARELESS.iter().for_each(|codes| each(codes, 16, &header_refuses));
    DC_CAREFUL.iter().for_each(|codes| each(codes, 0, &accepted));
    AC_CAREFUL.iter().for_each(|codes| each(codes, 16, &accepted));
}

#[test]
fn careless_tables_among_other_faults() {
    let careless = huffman(1, &[(1, 0), (2, 12)]);
    // Unsupported before the table, then behind it.
    let unsupported = [255, 220, 0, 4, 0, 8];
    assert_eq!(number(&f_behind(&[&unsupported[..], &careless].concat())), 5);
    assert_eq!(number(&f_behind(&[&careless[..], &unsupported].concat())), 4);
    // The segment runs past the end of the file.
    let mut cut = f_behind(&careless);
    cut.truncate(84 + careless.len() - 1);
    assert_eq!(number(&cut), 3);
    // Behind the table the file is cut.
    let cut = f_behind(&[&careless[..], &[255, 254, 255, 255]].concat());
    assert_eq!(number(&cut), 4);
}

#[test]
fn careless_tables_in_decode() {
    let careful = file(&[(1, 0), (2, 11)], END_AND_RUN, &[63]);
    let (_, record) = inspect(&careful, 0, &Limits::NONE, UNLIMITED);
    let at = |place: usize, symbol: u8| {
        let mut file = careful.clone();
        file[place] = symbol;
        let (mut output, mut scratch) = ([5; 64], [6; 64]);
        let answer = decode(&file, &record, &mut output, &mut scratch, 3487 + 9);
        let kept = output == [5; 64] && scratch == [6; 64];
        (answer.number, answer.left, kept)
    };
    // The second symbol of the DC table stands at 106, that of the AC table at 129.
    assert_eq!(at(106, 11), (0, 9, false));
    assert_eq!(at(106, 12), (8, 9, true));
    assert_eq!(at(106, 0), (8, 9, true));
    assert_eq!(at(129, 250), (0, 9, false));
    assert_eq!(at(129, 251), (8, 9, true));
    assert_eq!(at(129, 224), (8, 9, true));
    assert_eq!(at(129, 0), (8, 9, true));
}

#[test]
fn largest_tables() {
    // The first code has one bit, the next 250 nine, the rest sixteen.
    let codes = |symbols: &[u8]| -> Vec<(usize, u8)> {
        let length = |place| if place == 0 { 1 } else { [9, 16][usize::from(place > 250)] };
        symbols.iter().enumerate().map(|(place, &symbol)| (length(place), symbol)).collect()
    };
    let dc: Vec<u8> = (0..=11).collect();
    let ac: Vec<u8> =
        (0..=255).filter(|s| [0, 240].contains(s) || (1..=10).contains(&(s % 16))).collect();
    assert_eq!(ac.len(), 162);
    assert_eq!(number(&file(&codes(&dc), &codes(&ac), &[63])), 0);
    header_refuses(&file(&codes(&[&dc[..], &[11]].concat()), ZERO, &[63]));
    header_refuses(&file(ZERO, &codes(&[&ac[..], &[250]].concat()), &[63]));
    let all: Vec<u8> = (0..=255).collect();
    header_refuses(&file(ZERO, &codes(&all), &[63]));
    header_refuses(&file(ZERO, &codes(&[&all[..], &[0]].concat()), &[63]));
}

#[test]
fn settle_room_and_price() {
    let f = f();
    let at = |budget, room: usize| {
        let mut buffer = vec![3; room];
        let (answer, length) = settle(&f, &Limits::NONE, budget, &mut buffer);
        (answer.number, answer.left, length, buffer.iter().all(|&byte| byte == 3))
    };
    assert_eq!(at(3482, 0), (2, 3199, 0, true));
    assert_eq!(at(3483, 140), (7, 0, 141, true));
    assert_eq!(at(3483, 141), (0, 0, 141, false));
    // AC lists no end code, but 15 places and 240: the block ends at place 64 with zeros.
    let no_end = file(ZERO, &[(1, 0xe1), (2, 240)], &[0b0011_0101, 0b0111_1111]);
    assert_eq!(number(&no_end), 0);
    let (answer, length) = settle(&no_end, &Limits::NONE, UNLIMITED, &mut []);
    assert_eq!((answer.number, length), (9, 0));
}

/// The samples of a file with one block whose first value alone is not 0.
fn first_value(value: i32) -> u8 {
    let size = 32 - value.unsigned_abs().leading_zeros();
    let field = if value < 0 { value + (1 << size) - 1 } else { value } as u32;
    // The DC code 0, the field, the end code 0, then ones.
    let bits = field << 1;
    let used = size + 2;
    let padded = (bits << (16 - used)) | ((1 << (16 - used)) - 1);
    let scan =
        if used > 8 { vec![(padded >> 8) as u8, padded as u8] } else { vec![(padded >> 8) as u8] };
    let stuffed: Vec<u8> =
        scan.iter().flat_map(|&b| if b == 255 { vec![255, 0] } else { vec![b] }).collect();
    let file = file(&[(1, size as u8)], ZERO, &stuffed);
    let (_, record) = inspect(&file, 0, &Limits::NONE, UNLIMITED);
    let (mut output, mut scratch) = ([0; 64], [0; 64]);
    assert_eq!(decode(&file, &record, &mut output, &mut scratch, UNLIMITED).number, 0);
    assert!(output.iter().all(|&sample| sample == output[0]));
    output[0]
}

#[test]
fn p6_to_p10_in_files() {
    let values = [4, 5, -5, 1012, 1013, -1020, -1021];
    assert_eq!(values.map(first_value), [128, 129, 127, 254, 255, 1, 0]);
}

#[test]
fn predictions_at_the_edge() {
    // Two blocks side by side: -2047, then -1 is taken; then -2 is not.
    let two = |codes: &[(usize, u8)], scan: &[u8]| {
        let mut file = file(codes, ZERO, scan);
        file[79] = 16;
        file
    };
    // Codes: 0 for 11, 10 for 1, 110 for 2. Eleven zeros mean -2047; field 0 of one bit -1.
    let codes: &[(usize, u8)] = &[(1, 11), (2, 1), (3, 2)];
    let taken = two(codes, &[0, 0b0000_0100, 0b0111_1111]);
    assert_eq!(number(&taken), 0);
    // 110 and field 01 mean -2.
    let refused = two(codes, &[0, 0b0000_0110, 0b0101_1111]);
    assert_eq!(number(&refused), 4);
}

#[test]
fn decode_order_of_refusals() {
    let f = f();
    let (_, own) = inspect(&f, 0, &Limits::NONE, UNLIMITED);
    let at = |record: &Record, rooms: (usize, usize), budget| {
        let (mut output, mut scratch) = (vec![5; rooms.0], vec![6; rooms.1]);
        let answer = decode(&f, record, &mut output, &mut scratch, budget);
        (answer.number, answer.left)
    };
    assert_eq!(at(&own, (63, 64), 0), (7, 0));
    assert_eq!(at(&own, (64, 63), 9), (7, 9));
    assert_eq!(at(&own, (64, 64), 3482), (2, 3482));
    assert_eq!(at(&own, (64, 64), 3483), (0, 0));
    let zero = Record::default();
    assert_eq!(at(&zero, (0, 0), 282), (2, 282));
    assert_eq!(at(&zero, (0, 0), 283), (8, 0));
    let heavy = Record { work: u64::MAX - 282, ..own.clone() };
    assert_eq!(at(&heavy, (64, 64), UNLIMITED), (2, UNLIMITED));
    let heavy = Record { work: u64::MAX - 283, ..own.clone() };
    assert_eq!(at(&heavy, (64, 64), UNLIMITED), (8, 0));
    let coloured = Record { colour: 1, ..own };
    assert_eq!(at(&coloured, (64, 64), 4000), (0, 517));
}

/// F with the bytes from `at` on replaced, then tested.
fn changed(at: usize, bytes: &[u8]) -> u8 {
    let mut file = f();
    file[at..at + bytes.len()].copy_from_slice(bytes);
    number(&file)
}

#[test]
fn header_refusals_of_f() {
    assert_eq!(changed(0, &[254]), 4);
    assert_eq!(changed(2, &[254]), 4);
    assert_eq!(changed(3, &[217]), 4);
    assert_eq!(changed(3, &[220]), 5);
    assert_eq!(changed(3, &[220, 255, 255]), 3);
    assert_eq!(changed(4, &[0, 1]), 3);
    assert_eq!(changed(4, &[0, 140]), 3);
    assert_eq!(changed(6, &[4]), 4);
    assert_eq!(changed(6, &[16]), 4);
    assert_eq!(changed(70, &[0]), 4);
    assert_eq!(changed(75, &[7]), 5);
    // The body is that of one channel.
    assert_eq!([2, 3, 4].map(|count| changed(80, &[count])), [4, 4, 4]);
    assert_eq!([0, 5, 255].map(|count| changed(80, &[count])), [5, 5, 5]);
    assert_eq!(changed(82, &[0x44]), 0);
    assert_eq!(changed(82, &[0x51]), 5);
    assert_eq!(changed(83, &[1]), 4);
    assert_eq!(changed(83, &[4]), 5);
    assert_eq!(changed(89, &[2]), 4);
    assert_eq!(changed(132, &[3]), 5);
    assert_eq!(changed(133, &[2]), 4);
    assert_eq!(changed(134, &[0x40]), 5);
    assert_eq!(changed(134, &[0x10]), 4);
    assert_eq!(changed(136, &[62]), 5);
}

#[test]
fn cuts_of_f() {
    // Cut inside a segment 3; at a segment's end or inside a marker 4. In the scan 3 where the
    // block's byte is missing, 4 where the final marker is.
    let whole = f();
    let ends = [2, 71, 84, 106, 128];
    let four = |length: usize| {
        !(2..=138).contains(&length) || ends.iter().any(|&end| length == end || length == end + 1)
    };
    for length in 0..141 {
        let wanted = if four(length) { 4 } else { 3 };
        assert_eq!(number(&whole[..length]), wanted, "cut to {length}");
    }
}
