//! Why and where a scan broke. Places count from the file's start: the scan of `one` starts at
//! 138, that of `two` at 144.

use super::*;
use crate::answer;
use crate::cases::Case;
use crate::header;

/// Refused with this number by the scan, at this block and place. Its header is sound.
fn breaks(file: &[u8], number: u8, block: u64, place: u64) {
    let record = header::read(file, 1).expect("the header is sound");
    refuses(file, &record, (number, block, place));
}

/// File F with these codes and so many blocks side by side, then these bytes alone.
fn wide(dc: &[(usize, u8)], ac: &[(usize, u8)], blocks: u8, scan: &[u8]) -> Vec<u8> {
    let mut file = file(dc, ac, scan);
    file.truncate(file.len() - 2);
    file[79] = 8 * blocks;
    file
}

/// The same with a restart before each block but the first.
fn restarted(dc: &[(usize, u8)], ac: &[(usize, u8)], blocks: u8, scan: &[u8]) -> Vec<u8> {
    let mut file = wide(dc, ac, blocks, scan);
    file.splice(84..84, [255, 221, 0, 4, 0, 1]);
    file
}

#[test]
fn bytes_run_out() {
    breaks(&one(&[]), 3, 0, 138);
    breaks(&two(&[]), 3, 0, 144);
    breaks(&two(&[63, 255, 208]), 3, 1, 145);
    for fill in [1, 2, 3, 1000] {
        let scan = [&[63][..], &vec![255; fill], &[255, 208]].concat();
        breaks(&two(&scan), 3, 1, 145);
    }
    // Inside a field: a block has thirteen bits, eleven of them the first value's.
    let long = |scan: &[u8]| wide(&[(1, 11)], ZERO, 2, scan);
    breaks(&long(&[0]), 3, 0, 138);
    breaks(&long(&[0, 2]), 3, 1, 140);
    breaks(&long(&[0, 2, 0]), 3, 1, 140);
    breaks(&long(&[0, 2, 0, 63]), 4, 2, 142);
    assert_eq!(number(&[&long(&[0, 2, 0, 63])[..], &[255, 217]].concat()), 0);
}

#[test]
fn a_255_as_the_very_last_byte() {
    breaks(&one(&[255]), 3, 0, 138);
    breaks(&two(&[63, 255, 208, 255]), 3, 1, 145);
    let long = |scan: &[u8]| wide(&[(1, 11)], ZERO, 1, scan);
    breaks(&long(&[0, 255]), 3, 0, 138);
    // With its 0 it is data; the four ones behind the field are no code, and there are no more.
    breaks(&long(&[0, 255, 0]), 3, 0, 138);
    // Where a marker is wanted it is no reason of its own.
    breaks(&two(&[63, 255]), 4, 1, 145);
    breaks(&one(&[63, 255]), 4, 1, 139);
}

#[test]
fn a_bare_255() {
    for next in 1..=255 {
        breaks(&one(&[255, next]), 10, 0, 138);
        breaks(&one(&[255, next, 0]), 10, 0, 138);
        breaks(&two(&[63, 255, 208, 255, next]), 10, 1, 145);
        breaks(&two(&[63, 255, 255, 208, 255, next, 255, 217]), 10, 1, 145);
        breaks(&wide(&[(1, 11)], ZERO, 1, &[0, 255, next]), 10, 0, 138);
    }
    // 255 255 is never the end of the file, nor fill.
    breaks(&one(&[255, 255]), 10, 0, 138);
    breaks(&one(&[255, 255, 217]), 10, 0, 138);
    breaks(&one(&[255, 255, 0, 63]), 10, 0, 138);
}

#[test]
fn sixteen_bits_are_always_read() {
    // F's only code is 0. A 1 and fifteen bits more fill two bytes.
    breaks(&one(&[0x80, 0]), 11, 0, 138);
    breaks(&one(&[0x80, 0, 255]), 11, 0, 138);
    breaks(&one(&[0x80, 0, 255, 217]), 11, 0, 138);
    breaks(&one(&[255, 0, 255, 0]), 11, 0, 138);
    breaks(&one(&[0x80, 255, 0]), 11, 0, 138);
    breaks(&one(&[0x80]), 3, 0, 138);
    breaks(&one(&[0x80, 255]), 3, 0, 138);
    breaks(&one(&[255, 0]), 3, 0, 138);
    breaks(&one(&[255, 0, 255]), 3, 0, 138);
    breaks(&one(&[0x80, 255, 217]), 10, 0, 138);
    breaks(&one(&[255, 0, 255, 255]), 10, 0, 138);
    // Behind the first symbol's bit two bytes hold fifteen bits.
    breaks(&one(&[0x40, 0]), 3, 0, 138);
    breaks(&one(&[0x40, 0, 255]), 3, 0, 138);
    breaks(&one(&[0x40, 0, 255, 1]), 10, 0, 138);
    breaks(&one(&[0x40, 0, 255, 0]), 11, 0, 138);
    breaks(&one(&[0x40, 0, 0]), 11, 0, 138);
    // Behind a restart.
    breaks(&two(&[63, 255, 208, 0x80, 0]), 11, 1, 145);
    breaks(&two(&[63, 255, 208, 0x80]), 3, 1, 145);
    breaks(&two(&[63, 255, 255, 208, 0x80, 255, 217]), 10, 1, 145);
    // So it is 217 that breaks a scan with a block too few: the padding is no code.
    breaks(&wide(ZERO, ZERO, 2, &[63, 255, 217]), 10, 1, 139);
}

#[test]
fn codes_of_sixteen_bits() {
    // The code behind 0 is 1 and fifteen zeros: a 1 in its last place is no code.
    let codes = &[(1, 0), (16, 1)];
    let open = |scan: &[u8]| wide(codes, ZERO, 1, scan);
    breaks(&open(&[0x80, 1]), 11, 0, 139);
    breaks(&open(&[0x80, 0]), 3, 0, 139);
    // The field 1, the end code and padding; then the end is missing.
    breaks(&open(&[0x80, 0, 0xbf]), 4, 1, 142);
    assert_eq!(number(&file(codes, ZERO, &[0x80, 0, 0xbf])), 0);
}

/// Runs of 15 and a value of one bit; three of them reach place 49.
const LONG_RUNS: &[(usize, u8)] = &[(1, 0xf1), (2, 0)];

#[test]
fn what_a_symbol_alone_tells() {
    // The fourth run is past the block's end. Its bit ends the byte; the value's would follow.
    for behind in [&[][..], &[0], &[255], &[255, 0], &[255, 255], &[255, 217]] {
        let scan = [&[0b0010_1010][..], behind].concat();
        breaks(&wide(ZERO, LONG_RUNS, 1, &scan), 4, 0, 139);
        let scan = [&[0b0101_1111, 255, 208, 0b0010_1010][..], behind].concat();
        breaks(&restarted(ZERO, LONG_RUNS, 2, &scan), 4, 1, 146);
    }
    // A fourth 240: the code's second bit stands in the next byte.
    let runs = |scan: &[u8]| wide(ZERO, END_AND_RUN, 1, scan);
    breaks(&runs(&[0b0101_0101, 0b0011_1111]), 4, 0, 139);
    breaks(&runs(&[0b0101_0101]), 3, 0, 139);
    breaks(&runs(&[0b0101_0101, 255, 217]), 10, 0, 139);
}

#[test]
fn predictions_out_of_range() {
    // As in `predictions_at_the_edge`: -2047, then -2, whose field stands in the third byte.
    let codes: &[(usize, u8)] = &[(1, 11), (2, 1), (3, 2)];
    let two = |scan: &[u8]| wide(codes, ZERO, 2, scan);
    breaks(&two(&[0, 0b0000_0110, 0b0101_1111]), 4, 1, 142);
    breaks(&two(&[0, 0b0000_0110, 0b0101_1111, 255, 217]), 4, 1, 142);
    breaks(&two(&[0, 0b0000_0110]), 3, 1, 142);
    breaks(&two(&[0, 0b0000_0110, 255]), 3, 1, 142);
    breaks(&two(&[0, 0b0000_0110, 255, 217]), 10, 1, 142);
}

#[test]
fn places_with_bits_unread() {
    // F's blocks have two bits: four of them share a byte, the fifth begins behind it.
    let blocks = |scan: &[u8]| wide(ZERO, ZERO, 6, scan);
    breaks(&blocks(&[0b1111_1111, 0]), 3, 0, 138);
    breaks(&blocks(&[0b0011_1111]), 3, 1, 139);
    breaks(&blocks(&[0b0000_1111]), 3, 2, 139);
    breaks(&blocks(&[0b0000_0011, 255, 217]), 10, 3, 139);
    breaks(&blocks(&[0b0000_0001, 0, 0]), 11, 3, 139);
    breaks(&blocks(&[0]), 3, 4, 139);
    breaks(&blocks(&[0, 255, 217]), 10, 4, 139);
    breaks(&blocks(&[0, 0x80, 0]), 11, 4, 139);
    breaks(&blocks(&[0, 0b0011_1111]), 3, 5, 140);
    breaks(&blocks(&[0, 0b0000_1111]), 4, 6, 140);
    breaks(&blocks(&[0, 0b0000_1110, 255, 217]), 4, 6, 140);
}

#[test]
fn places_behind_a_stuffed_zero() {
    // A block of nine bits, whose end code 01 ends in the first bit of the 255.
    let (dc, ac) = (&[(1, 6)], &[(2, 1), (2, 0)]);
    let two = |scan: &[u8]| wide(dc, ac, 2, &[&[64, 255, 0][..], scan].concat());
    breaks(&two(&[]), 3, 1, 142);
    breaks(&two(&[255]), 3, 1, 142);
    breaks(&two(&[255, 217]), 10, 1, 142);
    breaks(&two(&[0]), 3, 1, 142);
    breaks(&two(&[0, 0]), 11, 1, 142);
    // The 255 without its 0 belongs to the block that wants its first bit.
    breaks(&wide(dc, ac, 2, &[64, 255]), 3, 0, 139);
    breaks(&wide(dc, ac, 2, &[64, 255, 217]), 10, 0, 139);
    // As padding before a restart and before the end.
    let two = |scan: &[u8]| restarted(dc, ac, 2, &[&[64, 255, 0][..], scan].concat());
    breaks(&two(&[]), 4, 1, 148);
    breaks(&two(&[255, 208]), 3, 1, 148);
    breaks(&two(&[255, 255, 208, 255, 1]), 10, 1, 148);
    breaks(&two(&[255, 208, 0x80, 0]), 11, 1, 148);
    breaks(&two(&[255, 208, 64, 255, 0]), 4, 2, 153);
    // A block of sixteen bits that ends with a 255: no bit of it is left.
    let whole = |scan: &[u8]| wide(ZERO, &[(1, 240), (2, 0xea)], 2, scan);
    breaks(&whole(&[0x0b, 255, 0]), 3, 1, 142);
    breaks(&whole(&[0x0b, 255, 0, 255, 217]), 10, 1, 142);
    breaks(&whole(&[0x0b, 255, 0, 0x80, 0]), 11, 1, 142);
    breaks(&whole(&[0x0b, 255]), 3, 0, 139);
}

#[test]
fn faults_of_a_restart() {
    // The padding, the marker and fill are 4, also where the bytes run out in them.
    for scan in [&[][..], &[255], &[255, 255], &[255, 255, 255], &[63], &[0], &[255, 0]] {
        breaks(&two(&[&[63], scan].concat()), 4, 1, 145);
        breaks(&two(&[&[63], scan, &[63, 255, 217]].concat()), 4, 1, 145);
    }
    breaks(&two(&[63, 255, 209, 63, 255, 217]), 4, 1, 145);
    breaks(&two(&[63, 255, 217]), 4, 1, 145);
    breaks(&two(&[62]), 4, 1, 145);
    breaks(&two(&[62, 255, 208, 63, 255, 217]), 4, 1, 145);
    breaks(&two(&[31, 255, 255, 208, 63, 255, 217]), 4, 1, 145);
    // Not due: there a bit is wanted.
    breaks(&wide(ZERO, ZERO, 2, &[63, 255, 208, 63, 255, 217]), 10, 1, 139);
}

#[test]
fn faults_right_behind_a_restart() {
    // The first block is 0 and the end code 10, then padding.
    let runs = |scan: &[u8]| restarted(ZERO, LONG_RUNS, 3, &[&[0b0101_1111], scan].concat());
    for fill in 0..3 {
        let fill = vec![255; fill];
        let behind = |scan: &[u8]| runs(&[&fill[..], &[255, 208], scan].concat());
        breaks(&behind(&[]), 3, 1, 146);
        breaks(&behind(&[255, 217]), 10, 1, 146);
        breaks(&behind(&[0x80, 0]), 11, 1, 146);
        breaks(&behind(&[0b0010_1010]), 4, 1, 146);
        let third = 146 + fill.len() as u64 + 3;
        breaks(&behind(&[0b0101_1111]), 4, 2, third);
        breaks(&behind(&[0b0101_1111, 255, 255, 209]), 3, 2, third);
        breaks(&behind(&[0b0101_1111, 255, 209, 0b0010_1010]), 4, 2, third);
    }
}

#[test]
fn faults_at_the_final_marker() {
    for scan in [&[][..], &[255], &[255, 255], &[255, 216], &[255, 208], &[0], &[255, 0, 255, 217]]
    {
        breaks(&one(&[&[63], scan].concat()), 4, 1, 139);
        breaks(&two(&[&[63, 255, 208, 63], scan].concat()), 4, 2, 148);
        breaks(&two(&[&[63, 255, 255, 208, 63], scan].concat()), 4, 2, 149);
    }
    breaks(&one(&[62, 255, 217]), 4, 1, 139);
    breaks(&one(&[62]), 4, 1, 139);
    breaks(&one(&[63, 255, 217, 0]), 4, 1, 139);
    breaks(&one(&[63, 255, 255, 217, 255, 217]), 4, 1, 139);
    breaks(&wide(&[(1, 6)], &[(2, 1), (2, 0)], 1, &[64, 255, 0, 255]), 4, 1, 142);
}

/// Two MCUs of four blocks, two of them of the first channel, and these bytes. A block is a 0,
/// six bits, and the end code 0. The scan starts at 149, with an interval at 155.
fn colour(interval: bool, scan: &[u8]) -> Vec<u8> {
    let mut bytes = f()[..71].to_vec();
    bytes.extend([255, 192, 0, 17, 8, 0, 8, 0, 32, 3, 1, 0x21, 0, 2, 17, 0, 3, 17, 0]);
    if interval {
        bytes.extend([255, 221, 0, 4, 0, 1]);
    }
    bytes.extend(huffman(0, &[(1, 6)]));
    bytes.extend(huffman(16, END_AND_RUN));
    bytes.extend([255, 218, 0, 12, 3, 1, 0, 2, 0, 3, 0, 0, 63, 0]);
    bytes.extend(scan);
    bytes
}

#[test]
fn every_block_of_an_mcu() {
    let faults: [(u8, &[u8]); 4] =
        [(3, &[]), (10, &[255, 217]), (11, &[0x80, 0]), (4, &[0b0100_0001, 0b0101_0100])];
    for block in 0..8 {
        for (number, fault) in faults {
            let plain = [&vec![64; block], fault].concat();
            breaks(&colour(false, &plain), number, block as u64, 149 + block as u64);
            let before = vec![64; block.min(4)];
            let behind = vec![64; block.max(4) - 4];
            let restart: &[u8] = if block < 4 { &[] } else { &[255, 208] };
            let scan = [&before, restart, &behind, fault].concat();
            // Right behind the restart the place is the one before it.
            let place = 155 + block as u64 + if block > 4 { 2 } else { 0 };
            breaks(&colour(true, &scan), number, block as u64, place);
        }
    }
    breaks(&colour(false, &[64; 8]), 4, 8, 157);
    let whole = [&[64; 4][..], &[255, 208], &[64; 4]].concat();
    breaks(&colour(true, &whole), 4, 8, 165);
    assert_eq!(number(&colour(true, &[&whole[..], &[255, 217]].concat())), 0);
}

/// Inspect's number; that neither it nor settle names a block.
fn unnamed(file: &[u8], limits: &Limits, budget: u64) -> u8 {
    let (answer, _) = inspect(file, 1, limits, budget);
    let (settled, _) = settle(file, limits, budget, &mut []);
    assert_eq!((answer.block, answer.place), (0, 0));
    assert_eq!((settled.block, settled.place), (0, 0));
    answer.number
}

#[test]
fn nothing_else_names_a_block() {
    let f = f();
    let limit = |input, side, output| Limits { input, side, output };
    assert_eq!(unnamed(&f, &Limits::NONE, UNLIMITED), 0);
    assert_eq!(unnamed(&[], &Limits::NONE, UNLIMITED), 4);
    assert_eq!(unnamed(&f[..100], &Limits::NONE, UNLIMITED), 3);
    assert_eq!(unnamed(&f[..128], &Limits::NONE, UNLIMITED), 4);
    assert_eq!(unnamed(&f_behind(&[255, 220, 0, 4, 0, 8]), &Limits::NONE, UNLIMITED), 5);
    // The same for a scan that is broken, where another number comes before it.
    for file in [&f[..], &one(&[]), &one(&[255, 217]), &one(&[0x80, 0]), &one(&[63])] {
        let price = 2 * file.len() as u64 + 1;
        assert_eq!(unnamed(file, &limit(137, 8, 64), UNLIMITED), 1);
        assert_eq!(unnamed(file, &Limits::NONE, price - 1), 2);
        assert_eq!(unnamed(file, &Limits::NONE, price + 3199), 2);
        assert_eq!(unnamed(file, &limit(141, 7, 64), UNLIMITED), 6);
        assert_eq!(unnamed(file, &limit(141, 8, 63), UNLIMITED), 6);
    }
    // Settle's own: no room, no end code.
    let (answer, _) = settle(&f, &Limits::NONE, UNLIMITED, &mut []);
    assert_eq!((answer.number, answer.block, answer.place), (7, 0, 0));
    let no_end = file(ZERO, &[(1, 0xe1), (2, 240)], &[0b0011_0101, 0b0111_1111]);
    let (answer, _) = settle(&no_end, &Limits::NONE, UNLIMITED, &mut []);
    assert_eq!((answer.number, answer.block, answer.place), (9, 0, 0));
}

#[test]
fn lines_name_block_and_place() {
    let file = two(&[63, 255, 208, 255, 217]);
    let record = header::read(&file, 0).unwrap();
    let line = |job: u64, file: &[u8]| {
        let record = (job == 4).then(|| record.clone());
        let (limits, file) = (Limits::NONE, file.to_vec());
        let (room, scratch_room) = (0, 0);
        let budget = 10_000;
        answer::line(&Case { job, colour: 0, limits, budget, room, scratch_room, file, record })
    };
    // 10,000 less 2 x 149 + 1 and 3136 x 2 + 128.
    let zeros = " 0".repeat(46);
    assert_eq!(line(1, &file), format!("1 10 3301 1 145{zeros}"));
    assert_eq!(line(3, &file), "3 10 3301 1 145 0 1");
    assert_eq!(line(2, &file), "2 8 9701 1 1");
    assert_eq!(line(4, &file), "4 7 10000 1 1");
    assert_eq!(line(1, &file[..100]), format!("1 3 9799 0 0{zeros}"));
    let whole = two(&[63, 255, 208, 63, 255, 217]);
    assert_eq!(line(3, &whole), "3 7 3299 0 0 150 1");
    let numbers: String = record.numbers().iter().map(|number| format!(" {number}")).collect();
    assert_eq!(line(1, &whole), format!("1 0 3299 0 0{numbers}"));
}
