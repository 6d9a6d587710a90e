//! Sampling by channel and one to four channels: the frame's rules, the record, where each sample
//! comes from, predictors, prices and the program.

use super::*;
use crate::answer;
use crate::calls::Answer;
use crate::cases::Case;
use crate::header;
use crate::layout;

/// An id and a sampling byte, by channel.
type Components<'a> = &'a [(u8, u8)];

const TWO: Components = &[(1, 0x11), (2, 0x11)];
const FOUR: Components = &[(1, 0x11), (2, 0x11), (3, 0x11), (4, 0x11)];
/// The new cameras' chroma.
const TALL: Components = &[(1, 0x22), (2, 0x12), (3, 0x12)];

/// A frame segment of this count, with quantizer 0 in every channel.
fn frame(width: u16, height: u16, count: u8, components: Components) -> Vec<u8> {
    let mut body = vec![8];
    body.extend(height.to_be_bytes());
    body.extend(width.to_be_bytes());
    body.push(count);
    components.iter().for_each(|&(id, sampling)| body.extend([id, sampling, 0]));
    let length = body.len() as u16 + 2;
    [&[255, 192][..], &length.to_be_bytes(), &body].concat()
}

/// A scan segment of these ids, with the tables 0 in every channel.
fn scan_header(ids: &[u8]) -> Vec<u8> {
    let mut bytes = vec![255, 218];
    bytes.extend((6 + 2 * ids.len() as u16).to_be_bytes());
    bytes.push(ids.len() as u8);
    ids.iter().for_each(|&id| bytes.extend([id, 0]));
    bytes.extend([0, 63, 0]);
    bytes
}

/// A file with these two segments and an interval. All 64 of the quantizer are 8, so that a level
/// of 1 alone makes its block's samples one brighter. The DC codes are the categories in four
/// bits; the only AC code is 0, the end.
fn made(frame: &[u8], interval: u8, scan_header: &[u8], coded: &[u8]) -> Vec<u8> {
    let dc: Vec<(usize, u8)> = (0..12).map(|category| (4, category)).collect();
    let mut bytes = vec![255, 216, 255, 219, 0, 67, 0];
    bytes.extend([8; 64]);
    bytes.extend(frame);
    bytes.extend(huffman(0, &dc));
    bytes.extend(huffman(16, ZERO));
    bytes.extend([255, 221, 0, 4, 0, interval]);
    bytes.extend(scan_header);
    bytes.extend(coded);
    bytes.extend([255, 217]);
    bytes
}

/// Blocks with these differences, padded with ones.
fn coded(differences: &[i32]) -> Vec<u8> {
    let mut bits = String::new();
    for &difference in differences {
        let size = (32 - difference.unsigned_abs().leading_zeros()) as usize;
        let field = if difference < 0 { difference + (1 << size) - 1 } else { difference };
        bits += &format!("{size:04b}");
        if size > 0 {
            bits += &format!("{field:0size$b}");
        }
        bits += "0";
    }
    while !bits.len().is_multiple_of(8) {
        bits += "1";
    }
    let mut bytes = Vec::new();
    for byte in bits.as_bytes().chunks(8) {
        let byte = byte.iter().fold(0, |byte, &bit| 2 * byte + (bit - b'0'));
        bytes.push(byte);
        if byte == 255 {
            bytes.push(0);
        }
    }
    bytes
}

/// A file of these components whose blocks have these differences.
fn shaped(width: u16, height: u16, components: Components, differences: &[i32]) -> Vec<u8> {
    let ids: Vec<u8> = components.iter().map(|&(id, _)| id).collect();
    let frame = frame(width, height, ids.len() as u8, components);
    made(&frame, 0, &scan_header(&ids), &coded(differences))
}

/// The header's number for a frame of this count and these components, 0 where it is taken.
fn frame_number(count: u8, components: Components) -> u8 {
    let ids: Vec<u8> = components.iter().map(|&(id, _)| id).collect();
    let file = made(&frame(8, 8, count, components), 0, &scan_header(&ids), &[]);
    header::read(&file, 0).err().unwrap_or(0)
}

/// The number for channels of these sampling bytes, with ids from 1.
fn sampling_number(sampling: &[u8]) -> u8 {
    let components: Vec<(u8, u8)> = (1..).zip(sampling.iter().copied()).collect();
    frame_number(sampling.len() as u8, &components)
}

/// The picture, with this colour choice.
fn pixels(file: &[u8], colour: u64) -> Vec<u8> {
    let (answer, record) = inspect(file, colour, &Limits::NONE, UNLIMITED);
    assert_eq!((answer.number, record.colour), (0, colour));
    let mut output = vec![0; record.output as usize];
    let mut scratch = vec![0; record.scratch as usize];
    assert_eq!(decode(file, &record, &mut output, &mut scratch, UNLIMITED).number, 0);
    output
}

#[test]
fn a_record_of_four_channels() {
    let components = &[(9, 0x21), (7, 0x12), (0, 0x11), (255, 0x13)];
    let file = shaped(33, 25, components, &[0; 3 * 2 * 8]);
    let (answer, record) = inspect(&file, 1, &Limits::NONE, UNLIMITED);
    // An MCU has 16 x 24 pixels and 2 + 2 + 1 + 3 blocks; there are 3 x 2 of them.
    let wanted = Record {
        width: 33,
        height: 25,
        channels: 4,
        across: [2, 1, 1, 1],
        down: [1, 2, 1, 3],
        ids: [9, 7, 0, 255],
        quantizers: [7, 0, 0, 0],
        dc_tables: [98, 0, 0, 0],
        ac_tables: [131, 0, 0, 0],
        first_coded: 170,
        blocks: 48,
        scratch: 3072,
        output: 3300,
        work: 153_828,
        colour: 1,
        ..Record::default()
    };
    assert_eq!((answer.number, record), (0, wanted));
    let line = answer::inspect_line(&file, 1, &Limits::NONE, UNLIMITED);
    assert_eq!(line.split(' ').count(), 5 + 46);
    assert!(line.contains(" 0 0 33 25 4 2 1 1 1 1 2 1 3 9 7 0 255 0 0 0 0 "), "{line}");
}

#[test]
fn how_many_channels() {
    let any: Vec<(u8, u8)> = (1..=255).map(|id| (id, 0x11)).collect();
    for count in 0..=255u8 {
        let right = &any[..count.into()];
        let wanted = if (1..=4).contains(&count) { 0 } else { 5 };
        assert_eq!(frame_number(count, right), wanted, "{count}");
    }
    // A body of another length is 4 for 1 to 4 channels alone.
    for length in 0..=6 {
        for count in 0..=6 {
            let wanted = match count {
                0 | 5 | 6 => 5,
                _ if usize::from(count) == length => 0,
                _ => 4,
            };
            assert_eq!(frame_number(count, &any[..length]), wanted, "{count} in {length}");
        }
    }
}

#[test]
fn factors_of_every_channel() {
    for channels in 1..=4 {
        for channel in 0..channels {
            for byte in 0..=255u8 {
                let mut sampling = vec![0x11; channels];
                sampling[channel] = byte;
                let (across, down) = (usize::from(byte / 16), usize::from(byte % 16));
                let factors = (1..=4).contains(&across) && (1..=4).contains(&down);
                let blocks = across * down + channels - 1;
                let taken = factors && (channels == 1 || blocks <= 10);
                let wanted = if taken { 0 } else { 5 };
                assert_eq!(sampling_number(&sampling), wanted, "{sampling:x?}");
            }
        }
    }
}

#[test]
fn ten_blocks_and_eleven() {
    for ten in [
        &[0x33, 0x11][..],
        &[0x42, 0x21],
        &[0x12, 0x24],
        &[0x42, 0x11, 0x11],
        &[0x22, 0x22, 0x21],
        &[0x13, 0x41, 0x31],
        &[0x22, 0x11, 0x11, 0x22],
        &[0x14, 0x12, 0x21, 0x12],
        &[0x11, 0x13, 0x31, 0x13],
    ] {
        assert_eq!(sampling_number(ten), 0, "{ten:x?}");
    }
    for more in [
        &[0x33, 0x12][..],
        &[0x42, 0x31],
        &[0x44, 0x44],
        &[0x33, 0x11, 0x11],
        &[0x42, 0x21, 0x11],
        &[0x22, 0x22, 0x13],
        &[0x22, 0x22, 0x11, 0x21],
        &[0x42, 0x11, 0x11, 0x11],
        &[0x21, 0x13, 0x31, 0x13],
        &[0x44, 0x44, 0x44, 0x44],
    ] {
        assert_eq!(sampling_number(more), 5, "{more:x?}");
    }
}

#[test]
fn ids_all_differ() {
    for channels in 1..=4 {
        for a in 0..channels {
            for b in 0..a {
                let mut components = FOUR[..channels].to_vec();
                components[a].0 = components[b].0;
                assert_eq!(frame_number(channels as u8, &components), 5, "{a} {b}");
            }
        }
        assert_eq!(frame_number(channels as u8, &FOUR[..channels]), 0);
    }
    let same = &[(0, 0x11), (0, 0x11), (0, 0x11), (0, 0x11)];
    assert_eq!(frame_number(4, same), 5);
    assert_eq!(frame_number(1, &same[..1]), 0);
}

#[test]
fn which_test_of_the_frame_comes_first() {
    let number = |frame: &[u8]| {
        let file = made(frame, 0, &scan_header(&[1, 2]), &[]);
        header::read(&file, 0).err().unwrap_or(0)
    };
    // Everything is wrong in the last group, and the body is too short or too long: 4.
    let wrong = &[(1, 0x00), (1, 0x55), (1, 0x44)];
    assert_eq!(number(&frame(0, 0, 2, wrong)), 4);
    assert_eq!(number(&frame(0, 0, 4, wrong)), 4);
    assert_eq!(number(&frame(0, 0, 3, wrong)), 5);
    // The count comes before the length of the body.
    assert_eq!(number(&frame(0, 0, 5, wrong)), 5);
    assert_eq!(number(&frame(0, 0, 0, wrong)), 5);
    // A second frame is 4, whatever it holds.
    let twice = [frame(8, 8, 2, TWO), frame(8, 8, 5, wrong)].concat();
    assert_eq!(number(&twice), 4);
}

#[test]
fn a_single_channel_counts_as_one_by_one() {
    for byte in [0x11, 0x21, 0x12, 0x22, 0x33, 0x42, 0x34, 0x44] {
        let file = shaped(17, 9, &[(1, byte)], &[0; 6]);
        let (answer, record) = inspect(&file, 1, &Limits::NONE, UNLIMITED);
        assert_eq!(answer.number, 0, "{byte:x}");
        assert_eq!((record.across, record.down), ([1, 0, 0, 0], [1, 0, 0, 0]));
        assert_eq!((record.blocks, record.output), (6, 153));
    }
}

#[test]
fn the_scan_names_every_channel() {
    let number = |header: &[u8]| {
        let file = made(&frame(8, 8, 4, FOUR), 0, header, &coded(&[0; 4]));
        inspect(&file, 1, &Limits::NONE, UNLIMITED).0.number
    };
    assert_eq!(number(&scan_header(&[1, 2, 3, 4])), 0);
    for fewer in [&[1][..], &[1, 2], &[1, 2, 3], &[1, 2, 3, 4, 5]] {
        assert_eq!(number(&scan_header(fewer)), 5);
    }
    for order in [[2, 1, 3, 4], [1, 2, 4, 3], [4, 2, 3, 1], [1, 2, 3, 3], [1, 2, 3, 5]] {
        assert_eq!(number(&scan_header(&order)), 4);
    }
    let changed = |at: usize, value: u8| {
        let mut header = scan_header(&[1, 2, 3, 4]);
        header[at] = value;
        number(&header)
    };
    // The count beside a body of four.
    assert_eq!([0, 1, 3, 5].map(|count| changed(4, count)), [5; 4]);
    // The tables of each channel: none above 3, and those that are there.
    for channel in 0..4 {
        let at = 6 + 2 * channel;
        assert_eq!([0x40, 0x04, 0xff].map(|ids| changed(at, ids)), [5; 3]);
        assert_eq!([0x10, 0x01, 0x30, 0x03].map(|ids| changed(at, ids)), [4; 4]);
    }
    // Ids run over all channels before table ids do.
    let mut header = scan_header(&[1, 2, 3, 9]);
    header[6] = 0x40;
    assert_eq!(number(&header), 4);
}

#[test]
fn a_quantizer_for_every_channel() {
    for channel in 0..4 {
        let with = |id: u8| {
            let mut frame = frame(8, 8, 4, FOUR);
            frame[12 + 3 * channel] = id;
            let file = made(&frame, 0, &scan_header(&[1, 2, 3, 4]), &coded(&[0; 4]));
            number(&file)
        };
        assert_eq!([0, 1, 3, 4, 255].map(with), [0, 4, 4, 5, 5]);
    }
}

#[test]
fn a_tall_chroma_beside_luma() {
    // Four blocks of luma, brighter by 1 to 4; two of each chroma, by 5 and 6, by 7 and 8.
    let file = shaped(16, 16, TALL, &[1, 1, 1, 1, 5, 1, 7, 1]);
    let (_, record) = inspect(&file, 0, &Limits::NONE, UNLIMITED);
    assert_eq!((record.across, record.down), ([2, 1, 1, 0], [2, 2, 2, 0]));
    assert_eq!((record.blocks, record.work), (8, 3136 * 8 + 768));
    let output = pixels(&file, 0);
    let pixel = |x: usize, y: usize| output[3 * (16 * y + x)..][..3].to_vec();
    // Both ends of the MCU.
    assert_eq!(pixel(0, 0), [129, 133, 135]);
    assert_eq!(pixel(15, 15), [132, 134, 136]);
    assert_eq!(pixel(15, 0), [130, 133, 135]);
    assert_eq!(pixel(0, 15), [131, 134, 136]);
    // Chroma goes on to its second block where luma does.
    assert_eq!(pixel(0, 7), [129, 133, 135]);
    assert_eq!(pixel(0, 8), [131, 134, 136]);
}

#[test]
fn a_wide_chroma_beside_luma() {
    let file = shaped(16, 16, &[(1, 0x22), (2, 0x21), (3, 0x21)], &[1, 1, 1, 1, 5, 1, 7, 1]);
    let output = pixels(&file, 0);
    let pixel = |x: usize, y: usize| output[3 * (16 * y + x)..][..3].to_vec();
    assert_eq!(pixel(0, 0), [129, 133, 135]);
    assert_eq!(pixel(15, 15), [132, 134, 136]);
    assert_eq!(pixel(15, 0), [130, 134, 136]);
    assert_eq!(pixel(0, 15), [131, 133, 135]);
    assert_eq!(pixel(7, 0), [129, 133, 135]);
    assert_eq!(pixel(8, 0), [130, 134, 136]);
}

#[test]
fn two_beside_three() {
    // The second channel's two blocks meet between pixels 11 and 12: 11 x 2 / 3 is 7.
    let file = shaped(24, 8, &[(1, 0x31), (2, 0x21)], &[1, 1, 1, 5, 1]);
    let output = pixels(&file, 1);
    let row: Vec<(u8, u8)> = output[..48].chunks(2).map(|pixel| (pixel[0], pixel[1])).collect();
    let wanted = |x: usize| (129 + x as u8 / 8, if x < 12 { 133 } else { 134 });
    assert_eq!(row, (0..24).map(wanted).collect::<Vec<_>>());
    // The product comes before the rounding: 2 / 3 of a pixel alone would be none.
    assert!(output.chunks(48).all(|line| line == &output[..48]));
}

#[test]
fn the_largest_factors_in_two_channels() {
    // 1 x 4 and 4 x 1: an MCU has 32 x 32 pixels, of which each channel has four blocks.
    let file = shaped(33, 32, &[(1, 0x14), (2, 0x41)], &[1, 1, 1, 1, 9, 1, 1, 1].repeat(2));
    let (_, record) = inspect(&file, 0, &Limits::NONE, UNLIMITED);
    assert_eq!((record.blocks, record.output), (16, 2112));
    let output = pixels(&file, 1);
    let pixel = |x: usize, y: usize| output[2 * (33 * y + x)..][..2].to_vec();
    assert_eq!(pixel(0, 0), [129, 137]);
    assert_eq!(pixel(31, 0), [129, 140]);
    assert_eq!(pixel(0, 31), [132, 137]);
    assert_eq!(pixel(31, 31), [132, 140]);
    // The second MCU's levels go on from the first one's.
    assert_eq!(pixel(32, 0), [133, 149]);
    assert_eq!(pixel(32, 31), [136, 149]);
}

#[test]
fn a_finer_channel_behind_the_first() {
    let file = shaped(16, 16, &[(1, 0x11), (2, 0x22), (3, 0x11)], &[1, 5, 1, 1, 1, 9]);
    let output = pixels(&file, 0);
    let pixel = |x: usize, y: usize| output[3 * (16 * y + x)..][..3].to_vec();
    assert_eq!(pixel(0, 0), [129, 133, 137]);
    assert_eq!(pixel(8, 0), [129, 134, 137]);
    assert_eq!(pixel(0, 8), [129, 135, 137]);
    assert_eq!(pixel(15, 15), [129, 136, 137]);
}

#[test]
fn two_and_four_channels_are_not_converted() {
    let two = shaped(8, 8, TWO, &[1, 2]);
    let four = shaped(8, 8, FOUR, &[1, 2, 3, 4]);
    for colour in [0, 1] {
        assert_eq!(pixels(&two, colour), [129, 130].repeat(64));
        assert_eq!(pixels(&four, colour), [129, 130, 131, 132].repeat(64));
    }
    let three = shaped(8, 8, &FOUR[..3], &[1, 2, 3]);
    assert_eq!(pixels(&three, 0), [129, 130, 131].repeat(64));
    assert_eq!(pixels(&three, 1), layout::colour(129, 130, 131).repeat(64));
}

#[test]
fn four_predictors_and_a_restart() {
    let ids = [1, 2, 3, 4];
    let restarted = |interval: u8, coded: &[u8]| {
        made(&frame(24, 8, 4, FOUR), interval, &scan_header(&ids), coded)
    };
    let output = |file: &[u8]| {
        let output = pixels(file, 1);
        [0, 8, 16].map(|x| output[4 * x..4 * x + 4].to_vec())
    };
    // Each channel goes on from its own last level.
    let plain = restarted(0, &coded(&[1, 2, 3, 4, 10, 20, 30, 40, 1, 1, 1, 1]));
    let first = [129, 130, 131, 132].to_vec();
    assert_eq!(output(&plain), [first.clone(), vec![139, 150, 161, 172], vec![140, 151, 162, 173]]);
    // Behind a restart every one of them is 0.
    let one = |differences: &[i32]| coded(differences);
    let pieces = [one(&[1, 2, 3, 4, 10, 20, 30, 40]), vec![255, 208], one(&[1, 1, 1, 1])].concat();
    let twos = restarted(2, &pieces);
    let third = [129, 129, 129, 129].to_vec();
    assert_eq!(output(&twos), [first.clone(), vec![139, 150, 161, 172], third.clone()]);
    let each = [one(&[1, 2, 3, 4]), vec![255, 208], one(&[10, 20, 30, 40]), vec![255, 209]];
    let ones = restarted(1, &[each.concat(), one(&[1, 1, 1, 1])].concat());
    assert_eq!(output(&ones), [first, vec![138, 148, 158, 168], third]);
    for file in [plain, twos, ones] {
        assert_eq!(settled(&file), file);
    }
}

#[test]
fn every_block_of_four_channels() {
    // 2 x 1, 1 x 2, 1 x 1, 1 x 3: two MCUs of eight blocks, each block a byte.
    let components = &[(1, 0x21), (2, 0x12), (3, 0x11), (4, 0x13)];
    let whole = shaped(32, 24, components, &[4, -4].repeat(8));
    let record = inspect(&whole, 1, &Limits::NONE, UNLIMITED).1;
    assert_eq!((record.blocks, whole.len() as u64), (16, record.first_coded + 16 + 2));
    for block in 0..16 {
        let place = record.first_coded + block;
        let broken = |rest: &[u8]| [&whole[..place as usize], rest].concat();
        refuses_at(&broken(&[]), &record, (3, block, place));
        refuses_at(&broken(&[255, 217]), &record, (10, block, place));
        refuses_at(&broken(&[255, 0, 255, 0]), &record, (11, block, place));
    }
    let place = record.first_coded + 16;
    refuses_at(&whole[..place as usize], &record, (4, 16, place));
}

/// Inspect and settle refuse the scan so, at the price of both.
fn refuses_at(file: &[u8], record: &Record, why: (u8, u64, u64)) {
    let price = 2 * file.len() as u64 + 1 + record.work;
    let named = |answer: Answer| (answer.number, answer.block, answer.place);
    let (answer, _) = inspect(file, 1, &Limits::NONE, price + 9);
    assert_eq!((named(answer), answer.left), (why, 9));
    let (answer, _) = settle(file, &Limits::NONE, price + 9, &mut []);
    assert_eq!((named(answer), answer.left), (why, 9));
}

#[test]
fn limits_and_prices_of_four_channels() {
    let file = shaped(9, 8, FOUR, &[0; 8]);
    let n = file.len() as u64;
    let at = |side, output, budget| {
        let limits = Limits { input: n, side, output };
        let (answer, _) = inspect(&file, 0, &limits, budget);
        (answer.number, answer.left)
    };
    // Two MCUs of four blocks; 9 x 8 x 4 bytes of output and 512 of scratch.
    let work = 3136 * 8 + 288;
    assert_eq!(at(9, 512, 2 * n + 1 + work), (0, 0));
    assert_eq!(at(9, 512, 2 * n + work), (2, work - 1));
    assert_eq!(at(8, 512, 2 * n + 1 + work), (6, work));
    assert_eq!(at(9, 511, 2 * n + 1 + work), (6, work));
    let (_, record) = inspect(&file, 0, &Limits::NONE, UNLIMITED);
    let rooms = |output: usize, scratch: usize| {
        decode(&file, &record, &mut vec![0; output], &mut vec![0; scratch], UNLIMITED).number
    };
    assert_eq!([rooms(288, 512), rooms(287, 512), rooms(288, 511)], [0, 7, 7]);
}

#[test]
fn the_largest_pictures() {
    let measured = |components: Components| {
        let count = components.len() as u8;
        let ids: Vec<u8> = components.iter().map(|&(id, _)| id).collect();
        let file = made(&frame(65535, 65535, count, components), 0, &scan_header(&ids), &[]);
        let record = header::read(&file, 1).expect("the header is sound");
        let (answer, _) = inspect(&file, 1, &Limits::NONE, 2 * file.len() as u64 + record.work);
        assert_eq!((answer.number, answer.left), (2, record.work - 1));
        (record.blocks, record.work)
    };
    assert_eq!(measured(FOUR), (268_435_456, 858_992_934_916));
    assert_eq!(measured(&FOUR[..3]), (201_326_592, 644_244_701_187));
    assert_eq!(measured(&FOUR[..2]), (134_217_728, 429_496_467_458));
    assert_eq!(measured(&FOUR[..1]), (67_108_864, 214_748_233_729));
}

#[test]
fn the_program_and_two_or_four_channels() {
    let program = |file: &[u8]| picture::written(file, &picture::PROGRAM);
    let three = shaped(8, 8, &FOUR[..3], &[0; 3]);
    assert!(program(&three).starts_with(b"P6\n8 8\n255\n"));
    for components in [TWO, FOUR] {
        let blocks = components.len();
        let whole = shaped(8, 8, components, &vec![0; blocks]);
        assert_eq!(program(&whole), b"refused 5\n");
        // What inspect refuses comes first.
        assert_eq!(program(&[&whole[..], &[0]].concat()), b"refused 4\n");
        assert_eq!(program(&whole[..whole.len() - 3]), b"refused 3\n");
        assert_eq!(program(&shaped(8, 8, components, &vec![0; blocks - 1])), b"refused 10\n");
        assert_eq!(program(&shaped(60_000, 8, components, &[])), b"refused 6\n");
        let mut sixteen_ones = whole[..whole.len() - 2 - coded(&vec![0; blocks]).len()].to_vec();
        sixteen_ones.extend([255, 0, 255, 0]);
        assert_eq!(program(&sixteen_ones), b"refused 11\n");
        let mut long = whole.clone();
        long.resize(65_537, 0);
        assert_eq!(program(&long), b"refused 1\n");
    }
}

#[test]
fn records_with_other_factors() {
    let components = &[(1, 0x22), (2, 0x12), (3, 0x21)];
    let file = shaped(16, 16, components, &[1, 1, 1, 1, 5, 1, 7, 1]);
    let (_, own) = inspect(&file, 1, &Limits::NONE, UNLIMITED);
    let price = 2 * file.len() as u64 + 1 + own.work;
    let tried = |record: &Record| {
        let (mut output, mut scratch) = ([5; 2000], [6; 2000]);
        let answer = decode(&file, record, &mut output, &mut scratch, price + 9);
        assert_eq!(answer.number == 8, output == [5; 2000] && scratch == [6; 2000]);
        (answer.number, answer.left)
    };
    assert_eq!(tried(&own), (0, 9));
    for channel in 0..4 {
        for change in [1, 2, 1 << 32, u64::MAX] {
            let (mut across, mut down) = (own.clone(), own.clone());
            across.across[channel] = own.across[channel].wrapping_add(change);
            down.down[channel] = own.down[channel].wrapping_add(change);
            assert_eq!([tried(&across), tried(&down)], [(8, 9); 2]);
        }
    }
    // The other way round: as many blocks, and the same lengths.
    for (a, b) in [(1, 2), (2, 1)] {
        let mut other = own.clone();
        other.across.swap(a, b);
        other.down.swap(a, b);
        assert_eq!((other.blocks, tried(&other)), (own.blocks, (8, 9)));
    }
}

#[test]
fn job_4_reads_46_numbers() {
    let file = shaped(16, 8, &[(1, 0x11), (2, 0x21)], &[1, 2, 3]);
    let (_, own) = inspect(&file, 1, &Limits::NONE, UNLIMITED);
    let limits = Limits { input: 0, side: 0, output: 0 };
    let budget = 2 * file.len() as u64 + 1 + own.work;
    let (room, scratch_room) = (own.output, own.scratch);
    let answered = |record: Record| {
        let (file, record) = (file.clone(), Some(record));
        let case = Case { job: 4, colour: 0, limits, budget, room, scratch_room, file, record };
        let bytes = case.bytes();
        assert_eq!(bytes.len(), 72 + case.file.len() + 8 * 46);
        let mut lines = Vec::new();
        assert!(answer::all(&mut &bytes[..], &mut lines).unwrap());
        // A number less is a cut case.
        let mut cut = Vec::new();
        assert!(!answer::all(&mut &bytes[..bytes.len() - 8], &mut cut).unwrap());
        String::from_utf8(lines).unwrap()
    };
    let [output, scratch] = [pixels(&file, 1), [[129; 64], [130; 64], [133; 64]].concat()];
    let sums = format!("{} {}", answer::adler(&output), answer::adler(&scratch));
    assert_eq!(answered(own.clone()), format!("4 0 0 {sums}\n"));
    for number in 3..11 {
        let mut numbers = own.numbers();
        numbers[number] += 1;
        let line = answered(Record::from_numbers(&numbers));
        assert!(line.starts_with("4 8 0 "), "{line}");
    }
}
