//! Worked pieces of the rules on a file of 141 bytes, one grey block of 8 by 8: its record, its
//! prices and the order of refusals, all known in advance.

use tillsparrow::*;

/// A Huffman segment of one table: codes given as (length, symbol), shortest first.
fn huffman(class_and_id: u8, codes: &[(usize, u8)]) -> Vec<u8> {
    let mut counts = [0; 16];
    codes.iter().for_each(|&(length, _)| counts[length - 1] += 1);
    let mut bytes = vec![255, 196, 0, 19 + codes.len() as u8, class_and_id];
    bytes.extend(counts);
    bytes.extend(codes.iter().map(|&(_, symbol)| symbol));
    bytes
}

fn file(ac: &[(usize, u8)], scan: &[u8]) -> Vec<u8> {
    let mut bytes = vec![255, 216, 255, 219, 0, 67, 0];
    bytes.extend([1; 64]);
    bytes.extend([255, 192, 0, 11, 8, 0, 8, 0, 8, 1, 1, 17, 0]);
    bytes.extend(huffman(0, &[(1, 0)]));
    bytes.extend(huffman(16, ac));
    bytes.extend([255, 218, 0, 8, 1, 1, 0, 0, 63, 0]);
    bytes.extend(scan);
    bytes.extend([255, 217]);
    bytes
}

fn small() -> Vec<u8> {
    file(&[(1, 0)], &[63])
}

fn record() -> Record {
    Record {
        width: 8,
        height: 8,
        channels: 1,
        across: [1, 0, 0, 0],
        down: [1, 0, 0, 0],
        ids: [1, 0, 0, 0],
        quants: [7, 0, 0, 0],
        dcs: [89, 0, 0, 0],
        acs: [111, 0, 0, 0],
        start: 138,
        blocks: 1,
        scratch: 64,
        output: 64,
        work: 3200,
        colour: 1,
        ..Record::default()
    }
}

#[test]
fn the_record_is_known() {
    let file = small();
    assert_eq!(file.len(), 141);
    let seen = inspect(&file, Colour::RedGreenBlue, Limits::NONE, 3483);
    assert_eq!(seen, Ok(Inspected { record: record(), left: 0 }));
    let coded = Record { colour: 0, ..record() };
    let seen = inspect(&file, Colour::AsCoded, Limits::default(), 3500);
    assert_eq!(seen, Ok(Inspected { record: coded, left: 17 }));
}

#[test]
fn inspect_takes_its_price_in_two_steps() {
    let file = small();
    let at = |budget| {
        let refused = inspect(&file, Colour::AsCoded, Limits::NONE, budget).unwrap_err();
        assert_eq!(has_comment(&file, 0, Limits::NONE, budget), Err(refused));
        assert_eq!(settle(&file, Limits::NONE, budget, &mut [0; 200]), Err(refused));
        assert_eq!(refused.needed, None);
        (refused.number, refused.left)
    };
    assert_eq!([0, 282, 283, 3482].map(at), [(2, 0), (2, 282), (2, 0), (2, 3199)]);
}

#[test]
fn decode_refuses_in_order() {
    let file = small();
    let at = |record: Record, rooms: (usize, usize), budget| {
        let (mut output, mut scratch) = (vec![5; rooms.0], vec![6; rooms.1]);
        match decode(&file, &record, &mut output, &mut scratch, budget) {
            Ok(left) => (0, left),
            Err(refused) => (refused.number, refused.left),
        }
    };
    let own = record();
    assert_eq!(at(own, (63, 64), 0), (7, 0));
    assert_eq!(at(own, (64, 63), 9), (7, 9));
    assert_eq!(at(own, (64, 64), 3482), (2, 3482));
    assert_eq!(at(own, (64, 64), 3483), (0, 0));
    assert_eq!(at(Record::default(), (0, 0), 282), (2, 282));
    assert_eq!(at(Record::default(), (0, 0), 283), (8, 0));
    let heavy = |work| Record { work, ..own };
    assert_eq!(at(heavy(u64::MAX - 282), (64, 64), u64::MAX), (2, u64::MAX));
    assert_eq!(at(heavy(u64::MAX - 283), (64, 64), u64::MAX), (8, 0));
    assert_eq!(at(Record { output: u64::MAX, ..own }, (64, 64), 1), (7, 1));
}

/// A table that lists a symbol twice is refused where it is read, though the block takes the first
/// of its two codes alone; its neighbour, which lists another symbol there, is accepted.
#[test]
fn a_table_lists_a_symbol_once() {
    let (careful, careless) = (file(&[(1, 0), (2, 1)], &[63]), file(&[(1, 0), (2, 0)], &[63]));
    let seen = inspect(&careful, Colour::RedGreenBlue, Limits::NONE, 3485).unwrap();
    assert_eq!((seen.record.start, seen.left), (139, 0));
    assert_eq!(settled(&careful), Ok(careful.clone()));
    let refused =
        Refused { number: Refused::MALFORMED, left: 17, block: 0, place: 0, needed: None };
    let mut room = [3; 200];
    assert_eq!(inspect(&careless, Colour::RedGreenBlue, Limits::NONE, 302), Err(refused));
    assert_eq!(has_comment(&careless, 0, Limits::NONE, 302), Err(refused));
    assert_eq!(settle(&careless, Limits::NONE, 302, &mut room), Err(refused));
    assert_eq!(read(&careless).unwrap_err().number, 4);
    let (mut output, mut scratch) = ([3; 64], [3; 64]);
    let drawn = decode(&careless, &seen.record, &mut output, &mut scratch, 3485).unwrap_err();
    assert_eq!((drawn.number, drawn.left), (8, 0));
    assert!(room.iter().chain(&output).chain(&scratch).all(|&byte| byte == 3));
}

/// Two blocks beside each other.
fn wide(ac: &[(usize, u8)], scan: &[u8]) -> Vec<u8> {
    let mut bytes = file(ac, scan);
    bytes[79] = 16;
    bytes
}

/// The same with a restart due between them.
fn due(mut bytes: Vec<u8>) -> Vec<u8> {
    bytes.splice(2..2, [255, 221, 0, 4, 0, 1]);
    bytes
}

/// Such a file has 150 bytes with this scan.
const TWO: [u8; 4] = [63, 255, 208, 63];

fn restarted(scan: &[u8]) -> Vec<u8> {
    due(wide(&[(1, 0)], scan))
}

fn price_of(file: &[u8]) -> u64 {
    2 * file.len() as u64 + 1 + 2 * 3136 + 128
}

fn record_of(file: &[u8]) -> Record {
    inspect(file, Colour::RedGreenBlue, Limits::NONE, price_of(file)).unwrap().record
}

/// Fill bytes before a restart and before the end are in no record and in no picture, and
/// settling leaves them out. Each costs 2, as every byte does.
#[test]
fn fill_stands_before_a_marker() {
    let plain = restarted(&TWO);
    let record = record_of(&plain);
    assert_eq!((plain.len(), record.start, record.interval), (150, 144, 1));
    for (first, last) in [(1, 0), (0, 1), (2, 3), (1000, 2000)] {
        let fill = [255; 2000];
        let scan = [&TWO[..1], &fill[..first], &TWO[1..], &fill[..last]].concat();
        let filled = restarted(&scan);
        let price = price_of(&plain) + 2 * (first + last) as u64;
        let seen = inspect(&filled, Colour::RedGreenBlue, Limits::NONE, price);
        assert_eq!(seen, Ok(Inspected { record, left: 0 }));
        assert_eq!(has_comment(&filled, 0, Limits::NONE, price), Ok((false, 0)));
        let (mut output, mut scratch, mut room) = ([3; 128], [3; 128], [3; 150]);
        assert_eq!(decode(&filled, &record, &mut output, &mut scratch, price), Ok(0));
        assert_eq!((output, scratch), ([128; 128], [128; 128]));
        let made = settle(&filled, Limits::NONE, price, &mut room);
        assert_eq!(made, Ok(Settled { length: 150, left: 0 }));
        assert_eq!(room[..], plain[..]);
    }
}

/// The number of a refusal, and the block and the place that it names.
type Named = (u64, u64, u64);

/// Every call that reads as inspect does refuses the scan by this number, names this block and this
/// place and takes the whole price. Decode, whose record would be right but for the scan, refuses 8
/// and names nothing. No buffer is written. `plain` is an accepted file with the same head.
fn breaks(name: &str, plain: &[u8], scan: &[u8], (number, block, place): Named) {
    let record = inspect(plain, Colour::AsCoded, Limits::NONE, u64::MAX).unwrap().record;
    let file = [&plain[..record.start as usize], scan].concat();
    let price = 2 * file.len() as u64 + 1 + record.work;
    let refused = Refused { number, left: 17, block, place, needed: None };
    let (mut output, mut scratch, mut room) = ([3; 128], [3; 128], [3; 400]);
    for colour in [Colour::RedGreenBlue, Colour::AsCoded] {
        assert_eq!(inspect(&file, colour, Limits::NONE, price + 17), Err(refused), "{name}");
    }
    assert_eq!(has_comment(&file, 0, Limits::NONE, price + 17), Err(refused), "{name}");
    assert_eq!(settle(&file, Limits::NONE, price + 17, &mut room), Err(refused), "{name}");
    let unlimited = Refused { left: u64::MAX - price, ..refused };
    assert_eq!(read(&file), Err(unlimited), "{name}");
    assert_eq!(read_within(&file, Limits::NONE), Err(unlimited), "{name}");
    assert_eq!(settled(&file), Err(unlimited), "{name}");
    assert_eq!(comments(&file), Err(unlimited), "{name}");
    let unnamed = Refused { number: 8, left: 17, block: 0, place: 0, needed: None };
    let drawn = decode(&file, &record, &mut output, &mut scratch, price + 17);
    assert_eq!(drawn, Err(unnamed), "{name}");
    assert!(room.iter().chain(&output).chain(&scratch).all(|&byte| byte == 3), "{name}");
    assert!(refused.scan_broke() && !unnamed.scan_broke(), "{name}");
}

/// A 255 before a 255 where a bit is wanted is no fill; fill wants the marker that is due behind
/// it, and nothing stands behind the last one.
#[test]
fn a_stray_255_is_refused() {
    let strays: [(&str, &[u8], Named); 6] = [
        ("before the first block", &[255, 255, 63, 255, 208, 63, 255, 217], (10, 0, 144)),
        ("before the second block", &[63, 255, 208, 255, 255, 63, 255, 217], (10, 1, 145)),
        ("as fill with a 0", &[63, 255, 255, 0, 255, 208, 63, 255, 217], (4, 1, 145)),
        ("as fill before another restart", &[63, 255, 255, 209, 63, 255, 217], (4, 1, 145)),
        ("as fill, and no marker", &[63, 255, 208, 63, 255, 255], (4, 2, 148)),
        ("behind the last marker", &[63, 255, 208, 63, 255, 217, 255], (4, 2, 148)),
    ];
    for (name, stray, named) in strays {
        breaks(name, &restarted(&TWO), stray, named);
    }
}

/// The code 0 ends a block; 10 is fifteen zeros and a level, which fits into a block three times.
const FAR: &[(usize, u8)] = &[(1, 0), (2, 0xf1)];

/// The bytes ran out (3), a bare 255 (10), no code (11) or another fault (4): in the first block,
/// whose place is that of the first coded byte.
#[test]
fn the_first_block_says_why_it_broke() {
    let cases: [(&str, &[u8], u64); 10] = [
        ("no byte", &[], 3),
        ("one 255, which is the last byte", &[255], 3),
        ("eight ones", &[255, 0], 3),
        ("eight ones, and a 255 as the last byte", &[255, 0, 255], 3),
        ("the end in place of a block", &[255, 217], 10),
        ("eight ones and the end", &[255, 0, 255, 217], 10),
        ("a restart that is not due", &[255, 208, 63, 255, 217], 10),
        ("sixteen ones", &[255, 0, 255, 0], 11),
        ("fifteen ones and a zero", &[255, 0, 254], 11),
        ("a zero and sixteen ones, in the AC table", &[127, 255, 0, 255, 0, 255, 217], 11),
    ];
    for (name, scan, number) in cases {
        breaks(name, &small(), scan, (number, 0, 138));
    }
    let far = file(FAR, &[63]);
    breaks("a level at place 64", &far, &[0b0101_1011, 0b0110_1111, 255, 217], (4, 0, 139));
    // Of the level's six bits the last is wanting.
    let six = file(&[(1, 0), (2, 6)], &[63]);
    breaks("a level, and no byte", &six, &[0b0101_1111], (3, 0, 139));
    breaks("a level, and a 255 as the last byte", &six, &[0b0101_1111, 255], (3, 0, 139));
    breaks("a level and the end", &six, &[0b0101_1111, 255, 217], (10, 0, 139));
}

/// Behind a restart: the place is the one before the padding, the fill and the marker.
#[test]
fn a_block_behind_a_restart_says_why_it_broke() {
    let cases: [(&str, &[u8], u64); 12] = [
        ("no byte", &[63, 255, 208], 3),
        ("a 255 as the last byte", &[63, 255, 208, 255], 3),
        ("fill, and no byte", &[63, 255, 255, 255, 208], 3),
        ("the end in place of a block", &[63, 255, 208, 255, 217], 10),
        ("the restart twice", &[63, 255, 208, 255, 208, 63, 255, 217], 10),
        ("sixteen ones", &[63, 255, 208, 255, 0, 255, 0, 255, 217], 11),
        ("fill and sixteen ones", &[63, 255, 255, 208, 255, 0, 255, 0, 255, 217], 11),
        ("another restart", &[63, 255, 209, 63, 255, 217], 4),
        ("a 0 in the padding", &[62, 255, 208, 63, 255, 217], 4),
        ("no restart", &[63, 63, 255, 217], 4),
        ("the bytes ran out before the restart", &[63], 4),
        ("the bytes ran out in the restart", &[63, 255], 4),
    ];
    for (name, scan, number) in cases {
        breaks(name, &restarted(&TWO), scan, (number, 1, 145));
    }
    let far = due(wide(FAR, &TWO));
    let scan = [63, 255, 208, 0b0101_1011, 0b0110_1111, 255, 217];
    breaks("a level at place 64", &far, &scan, (4, 1, 146));
}

/// A block that begins within a byte: its place is behind that byte, and behind its stuffed 0.
#[test]
fn a_block_within_a_byte_says_why_it_broke() {
    let plain = wide(&[(1, 0)], &[15]);
    breaks("six ones", &plain, &[63], (3, 1, 139));
    breaks("six ones and the end", &plain, &[63, 255, 217], (10, 1, 139));
    breaks("sixteen ones", &plain, &[63, 255, 0, 255, 0, 255, 217], (11, 1, 139));
    // The end code is 101, and its last bit is the first of a byte that is 255.
    let odd = wide(&[(1, 240), (3, 1), (3, 0)], &[0b0101_0101]);
    breaks("seven ones", &odd, &[0b0100_1010, 255, 0], (3, 1, 143));
    breaks("seven ones and the end", &odd, &[0b0100_1010, 255, 0, 255, 217], (10, 1, 143));
    let scan = [0b0100_1010, 255, 0, 255, 0, 255, 0, 255, 217];
    breaks("sixteen ones behind a stuffed 0", &odd, &scan, (11, 1, 143));
}

/// At the end every fault is 4, also where the bytes ran out, and names the block count.
#[test]
fn the_end_names_the_block_count() {
    let cases: [(&str, &[u8]); 7] = [
        ("the bytes ran out", &[63]),
        ("the bytes ran out in the marker", &[63, 255]),
        ("the bytes ran out behind fill", &[63, 255, 255, 255]),
        ("a 0 in the padding", &[62, 255, 217]),
        ("a restart", &[63, 255, 208]),
        ("a stuffed 0", &[63, 255, 0]),
        ("a byte behind the end", &[63, 255, 217, 0]),
    ];
    for (name, scan) in cases {
        breaks(name, &small(), scan, (4, 1, 139));
        let twice = [&TWO[..3], scan].concat();
        breaks(name, &restarted(&TWO), &twice, (4, 2, 148));
    }
}

/// No other refusal names a block or a place.
#[test]
fn elsewhere_nothing_is_named() {
    let (file, ac) = (small(), [(1, 0xe1), (2, 240)]);
    let progressive = [&file[..72], &[194], &file[73..]].concat();
    let seen = |file: &[u8], limits, budget| {
        let refused = inspect(file, Colour::RedGreenBlue, limits, budget).unwrap_err();
        assert_eq!(has_comment(file, 0, limits, budget), Err(refused));
        assert_eq!(settle(file, limits, budget, &mut [0; 400]), Err(refused));
        refused
    };
    let (side, input) = (Limits { side: 7, ..Limits::NONE }, Limits { input: 140, ..Limits::NONE });
    let none = Limits::NONE;
    let (mut output, mut scratch) = ([0; 64], [0; 64]);
    let mut drawn = |record: &Record, room: usize, budget| {
        decode(&file, record, &mut output[..room], &mut scratch, budget).unwrap_err()
    };
    let refused = [
        (1, seen(&file, input, u64::MAX)),
        (2, seen(&file, none, 282)),
        (2, seen(&file, none, 3482)),
        (3, seen(&file[..100], none, u64::MAX)),
        (3, seen(&file[..137], none, u64::MAX)),
        (4, seen(&file[1..], none, u64::MAX)),
        (4, seen(b"", none, u64::MAX)),
        (5, seen(&progressive, none, u64::MAX)),
        (6, seen(&file, side, u64::MAX)),
        (7, settle(&file, none, u64::MAX, &mut [0; 140]).unwrap_err()),
        (7, drawn(&record(), 63, u64::MAX)),
        (2, drawn(&record(), 64, 3482)),
        (8, drawn(&Record::default(), 64, u64::MAX)),
        (9, settled(&self::file(&ac, &[0b0011_0101, 0b0111_1111])).unwrap_err()),
    ];
    for (number, refused) in refused {
        assert_eq!((refused.number, refused.block, refused.place), (number, 0, 0));
        assert!(!refused.scan_broke());
    }
}

#[test]
fn samples_go_to_the_front_of_the_buffers() {
    let (mut output, mut scratch) = ([9; 65], [7; 66]);
    assert_eq!(decode(&small(), &record(), &mut output, &mut scratch, 3484), Ok(1));
    assert_eq!((&output[..64], output[64]), (&[128; 64][..], 9));
    assert_eq!((&scratch[..64], &scratch[64..]), (&[128; 64][..], &[7, 7][..]));
}

#[test]
fn settled_files_are_known() {
    assert_eq!(settled(&small()), Ok(small()));
    let runs: &[(usize, u8)] = &[(1, 0), (2, 240)];
    assert_eq!(settled(&file(runs, &[79])), Ok(file(runs, &[63])));
    assert_eq!(settled(&file(runs, &[84])), Ok(file(runs, &[63])));
}

/// Two blocks, each written as three runs of zeros and the end code.
#[test]
fn a_settled_file_may_be_shorter() {
    let runs: &[(usize, u8)] = &[(1, 0), (2, 240)];
    assert_eq!(settled(&wide(runs, &[84, 84])), Ok(wide(runs, &[15])));
}

/// A block that ends in runs of zeros: where the table has a long end code, the settled file is
/// longer than the file, and where it has none, settling is refused 9.
#[test]
fn a_settled_file_may_be_longer() {
    let scan = [0b0011_0101, 0b0111_1111];
    let ends: &[(usize, u8)] = &[(1, 0xe1), (2, 240), (16, 0)];
    let longer = file(ends, &[0b0011_1000, 0, 0b0001_1111]);
    assert_eq!(settled(&file(ends, &scan)), Ok(longer.clone()));
    let mut room = vec![3; longer.len() - 1];
    let refused = settle(&file(ends, &scan), Limits::NONE, 4000, &mut room).unwrap_err();
    assert_eq!((refused.number, refused.needed), (7, Some(longer.len() as u64)));
    assert_eq!(refused.left, 4000 - 2 * (longer.len() as u64 - 1) - 1 - 3200);
    let none = file(&[(1, 0xe1), (2, 240)], &scan);
    assert_eq!(read(&none).unwrap().samples.len(), 64);
    let refused = settle(&none, Limits::NONE, u64::MAX, &mut room).unwrap_err();
    assert_eq!((refused.number, refused.needed), (9, None));
    assert!(room.iter().all(|&byte| byte == 3));
}
