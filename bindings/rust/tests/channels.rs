//! Files of one to four channels, each channel with a sampling of its own. They are made here from
//! their blocks, so that all of them can be had: what is drawn is held to the rule's own words, in
//! every shape there is.

mod files;

use files::with_comment;
use tillsparrow::*;

/// The factors of a channel: its blocks across and down in an MCU.
type Factors = (usize, usize);

/// What stands at places 0, 1, 3 and 6 of a block; the last three are 4 to 7, or -7 to -4.
type Block = [i32; 4];

/// A picture: the factors of its channels as the frame has them, its sides, MCUs between restarts.
#[derive(Clone, Debug)]
struct Shape {
    factors: Vec<Factors>,
    width: usize,
    height: usize,
    interval: usize,
}

/// Every step of the quantizer, so that a level is seen in the samples.
const STEP: u8 = 20;

impl Shape {
    /// Two MCUs and a part of a third across, one and a part of a second down.
    fn new(factors: &[Factors]) -> Shape {
        let mut shape = Shape { factors: factors.to_vec(), width: 0, height: 0, interval: 0 };
        let (across, down) = shape.most();
        (shape.width, shape.height) = (16 * across + 3, 8 * down + 5);
        shape
    }

    /// The factors that count: a single channel's are 1 and 1.
    fn counted(&self) -> Vec<Factors> {
        match self.factors.len() {
            1 => vec![(1, 1)],
            _ => self.factors.clone(),
        }
    }

    fn most(&self) -> Factors {
        let counted = self.counted();
        let (across, down) = (counted.iter().map(|each| each.0), counted.iter().map(|each| each.1));
        (across.max().unwrap(), down.max().unwrap())
    }

    /// MCUs across and down.
    fn mcus(&self) -> Factors {
        let up = |side: usize, most: usize| (side + 8 * most - 1) / (8 * most);
        (up(self.width, self.most().0), up(self.height, self.most().1))
    }

    /// The channel of each block of an MCU.
    fn order(&self) -> Vec<usize> {
        let of = |(c, (across, down)): (usize, Factors)| vec![c; across * down];
        self.counted().into_iter().enumerate().flat_map(of).collect()
    }

    fn blocks(&self) -> usize {
        self.mcus().0 * self.mcus().1 * self.order().len()
    }

    /// The picture of these samples of all blocks, channels as they are coded: a channel's sample of
    /// a pixel is in the pixel's MCU, at the place there times the channel's factor by the largest.
    fn drawn(&self, samples: &[u8]) -> Vec<u8> {
        let ((most_across, most_down), counted) = (self.most(), self.counted());
        let (in_row, in_mcu) = (self.mcus().0, self.order().len());
        let mut picture = Vec::new();
        for (y, x) in (0..self.height).flat_map(|y| (0..self.width).map(move |x| (y, x))) {
            let mcu = y / (8 * most_down) * in_row + x / (8 * most_across);
            let mut first = mcu * in_mcu;
            for &(across, down) in &counted {
                let u = x % (8 * most_across) * across / most_across;
                let v = y % (8 * most_down) * down / most_down;
                let block = first + v / 8 * across + u / 8;
                picture.push(samples[64 * block + v % 8 * 8 + u % 8]);
                first += across * down;
            }
        }
        picture
    }

    fn file(&self, blocks: &[Block]) -> Vec<u8> {
        self.with_ids(blocks, &[1, 2, 3, 4, 5][..self.factors.len()])
    }

    fn with_ids(&self, blocks: &[Block], ids: &[u8]) -> Vec<u8> {
        let mut file = vec![255, 216, 255, 219, 0, 67, 0];
        file.extend([STEP; 64]);
        file.extend([255, 192, 0, 8 + 3 * ids.len() as u8, 8]);
        file.extend([self.height >> 8, self.height, self.width >> 8, self.width].map(|n| n as u8));
        file.push(ids.len() as u8);
        for (&id, &(across, down)) in ids.iter().zip(&self.factors) {
            file.extend([id, (16 * across + down) as u8, 0]);
        }
        // The first levels: twelve categories of four bits each. The others: 00 ends the block; 010,
        // 011 and 100 are a level of three bits behind no zero, one and two.
        file.extend([255, 196, 0, 31, 0, 0, 0, 0, 12, 0, 0, 0, 0, 0, 0, 0, 0, 0, 0, 0, 0]);
        file.extend(0..12);
        file.extend([255, 196, 0, 23, 16, 0, 1, 3, 0, 0, 0, 0, 0, 0, 0, 0, 0, 0, 0, 0, 0]);
        file.extend([0, 3, 16 + 3, 32 + 3]);
        file.extend([255, 221, 0, 4, (self.interval >> 8) as u8, self.interval as u8]);
        file.extend([255, 218, 0, 6 + 2 * ids.len() as u8, ids.len() as u8]);
        file.extend(ids.iter().flat_map(|&id| [id, 0]));
        file.extend([0, 63, 0]);
        file.extend(self.scan(blocks));
        file
    }

    fn scan(&self, blocks: &[Block]) -> Vec<u8> {
        let (mut bits, mut before, order) = (Bits::default(), [0; 5], self.order());
        for (i, block) in blocks.iter().enumerate() {
            let (mcu, c) = (i / order.len(), order[i % order.len()]);
            if self.interval > 0 && i > 0 && i % (self.interval * order.len()) == 0 {
                bits.marker(208 + (mcu / self.interval - 1) as u8 % 8);
                before = [0; 5];
            }
            bits.level(0, 4, block[0] - before[c]);
            before[c] = block[0];
            for (zeros, &level) in block[1..].iter().enumerate() {
                bits.put(zeros as u32 + 2, 3);
                bits.field(level, 3);
            }
            bits.put(0, 2);
        }
        bits.marker(217);
        bits.bytes
    }
}

/// Bits, highest first, with a 0 behind each 255 and ones before a marker.
#[derive(Default)]
struct Bits {
    bytes: Vec<u8>,
    value: u32,
    count: u32,
}

impl Bits {
    fn put(&mut self, value: u32, count: u32) {
        for i in (0..count).rev() {
            self.value = 2 * self.value + (value >> i) % 2;
            self.count += 1;
            if self.count == 8 {
                self.bytes.push(self.value as u8);
                if self.value == 255 {
                    self.bytes.push(0);
                }
                (self.value, self.count) = (0, 0);
            }
        }
    }

    fn field(&mut self, level: i32, size: u32) {
        self.put((level + if level < 0 { (1 << size) - 1 } else { 0 }) as u32, size);
    }

    /// The category, whose code is its own number, and the field.
    fn level(&mut self, first: u32, length: u32, level: i32) {
        let size = 32 - level.unsigned_abs().leading_zeros();
        self.put(first + size, length);
        self.field(level, size);
    }

    fn marker(&mut self, code: u8) {
        while self.count > 0 {
            self.put(1, 1);
        }
        self.bytes.extend([255, code]);
    }
}

/// So many blocks, no two alike, the same in every run.
fn blocks(count: usize) -> Vec<Block> {
    let mut state = 7_u64;
    let mut next = |below: i32| {
        state =
            state.wrapping_mul(6_364_136_223_846_793_005).wrapping_add(1_442_695_040_888_963_407);
        (state >> 33) as i32 % below
    };
    let mut level = move || [-7, -6, -5, -4, 4, 5, 6, 7][next(8) as usize];
    (0..count).map(|i| [i as i32 * 37 % 91 - 45, level(), level(), level()]).collect()
}

/// The samples of all blocks, as a file of one channel has them, in which they stand below each other.
fn samples_of(blocks: &[Block]) -> Vec<u8> {
    let column = Shape { factors: vec![(1, 1)], width: 8, height: 8 * blocks.len(), interval: 0 };
    read(&column.file(blocks)).unwrap().samples
}

/// The shapes of several channels with up to ten blocks in an MCU.
fn shapes() -> Vec<Vec<Factors>> {
    let each = || (1..=4).flat_map(|across| (1..=4).map(move |down| (across, down)));
    let with_more = |shape: &Vec<Factors>| -> Vec<Vec<Factors>> {
        let sum: usize = shape.iter().map(|(across, down)| across * down).sum();
        let fits = each().filter(|(across, down)| sum + across * down <= 10);
        fits.map(|more| [&shape[..], &[more]].concat()).collect()
    };
    let one: Vec<Vec<Factors>> = each().map(|factors| vec![factors]).collect();
    let two: Vec<_> = one.iter().flat_map(with_more).collect();
    let three: Vec<_> = two.iter().flat_map(with_more).collect();
    let four = three.iter().flat_map(with_more).collect();
    [two, three, four].concat()
}

fn inspected(file: &[u8], colour: Colour) -> Record {
    inspect(file, colour, Limits::NONE, u64::MAX).unwrap().record
}

/// The four numbers of a field over channels, 0 behind the last.
fn four(numbers: impl IntoIterator<Item = usize>) -> [u64; 4] {
    let mut all = [0; 4];
    all.iter_mut().zip(numbers).for_each(|(place, number)| *place = number as u64);
    all
}

/// Red, green and blue by the rule.
fn coloured(samples: &[u8]) -> Vec<u8> {
    let whole = |sum: i32| (sum + 32768).div_euclid(65536).clamp(0, 255) as u8;
    let of = |pixel: &[u8]| {
        let [y, cb, cr] =
            [i32::from(pixel[0]), i32::from(pixel[1]) - 128, i32::from(pixel[2]) - 128];
        let [red, blue] = [65536 * y + 91881 * cr, 65536 * y + 116_130 * cb];
        [red, 65536 * y - 22554 * cb - 46802 * cr, blue].map(whole)
    };
    samples.chunks_exact(3).flat_map(of).collect()
}

/// The record, the price, the samples of the blocks and the picture of every shape; and each file is
/// in its settled form.
#[test]
fn every_shape_is_drawn_by_the_rule() {
    let mut counts = [0; 5];
    for factors in shapes() {
        let shape = Shape::new(&factors);
        let (blocks, channels) = (blocks(shape.blocks()), factors.len());
        let (file, samples) = (shape.file(&blocks), samples_of(&blocks));
        let record = inspected(&file, Colour::AsCoded);
        let wanted = Record {
            width: shape.width as u64,
            height: shape.height as u64,
            channels: channels as u64,
            across: four(factors.iter().map(|each| each.0)),
            down: four(factors.iter().map(|each| each.1)),
            ids: four(1..=channels),
            blocks: blocks.len() as u64,
            scratch: 64 * blocks.len() as u64,
            output: (shape.width * shape.height * channels) as u64,
            work: (3136 * blocks.len() + shape.width * shape.height * channels) as u64,
            ..record
        };
        assert_eq!(record, wanted, "{factors:?}");
        assert_eq!([record.qids, record.dcids, record.acids], [[0; 4]; 3], "{factors:?}");
        let (mut output, mut scratch) =
            (vec![0; record.output as usize], vec![0; record.scratch as usize]);
        let price = 2 * file.len() as u64 + 1 + record.work;
        assert_eq!(decode(&file, &record, &mut output, &mut scratch, price), Ok(0), "{factors:?}");
        assert!(scratch == samples, "{factors:?}: the samples of the blocks");
        assert!(output == shape.drawn(&samples), "{factors:?}: the picture");

        let chosen = inspected(&file, Colour::RedGreenBlue);
        assert_eq!(chosen, Record { colour: 1, ..record }, "{factors:?}");
        let picture = read(&file).unwrap();
        assert_eq!(picture, read_inspected(&file, &chosen).unwrap(), "{factors:?}");
        let converted = if channels == 3 { coloured(&output) } else { output };
        assert!(picture.samples == converted, "{factors:?}: the picture in colour");
        assert_eq!(picture.pixel(3, 4).unwrap().len(), channels, "{factors:?}");
        assert_eq!(settled(&file), Ok(file), "{factors:?}");
        counts[channels] += 1;
    }
    assert_eq!(counts, [0, 0, 110, 515, 1339]);
    let sum: usize = counts.iter().sum();
    println!("held: {sum} shapes of two, three and four channels drawn by the rule's own words");
}

/// Whatever its sampling byte says, a single channel has its blocks one by one.
#[test]
fn a_single_channel_counts_as_one_by_one() {
    for (across, down) in (1..=4).flat_map(|across| (1..=4).map(move |down| (across, down))) {
        let shape = Shape { width: 19, height: 13, ..Shape::new(&[(across, down)]) };
        let blocks = blocks(6);
        let file = shape.file(&blocks);
        let record = inspected(&file, Colour::RedGreenBlue);
        assert_eq!((record.across, record.down), ([1, 0, 0, 0], [1, 0, 0, 0]));
        assert_eq!((record.blocks, record.sampling()), (6, "1x1".to_string()));
        assert_eq!(read(&file).unwrap().samples, shape.drawn(&samples_of(&blocks)));
    }
}

/// Two, three and four channels that cameras and printers write, and odd ones.
fn some() -> Vec<Shape> {
    let every: [&[Factors]; 7] = [
        &[(2, 1), (1, 1)],
        &[(3, 1), (2, 2)],
        &[(2, 2), (1, 2), (1, 2)],
        &[(1, 2), (1, 1), (1, 1)],
        &[(1, 1), (1, 1), (1, 1), (1, 1)],
        &[(2, 2), (1, 1), (1, 1), (2, 2)],
        &[(1, 3), (1, 2), (4, 1), (1, 1)],
    ];
    every.map(Shape::new).to_vec()
}

/// Each channel has a predictor of its own, and a restart makes all of them 0: with restarts other
/// bytes stand for the same picture.
#[test]
fn a_restart_is_one_for_every_channel() {
    for plain in some() {
        let blocks = blocks(plain.blocks());
        let file = plain.file(&blocks);
        for interval in [1, 2, 3] {
            let shape = Shape { interval, ..plain.clone() };
            let restarted = shape.file(&blocks);
            let record = inspected(&restarted, Colour::RedGreenBlue);
            assert_eq!(
                record,
                Record { interval: interval as u64, ..inspected(&file, Colour::RedGreenBlue) }
            );
            assert!(restarted[record.start as usize..] != file[record.start as usize..]);
            assert_eq!(read(&restarted), read(&file), "{shape:?}");
            assert_eq!(settled(&restarted).as_ref(), Ok(&restarted), "{shape:?}");
        }
    }
}

#[test]
fn notes_are_read_in_every_shape() {
    for shape in some() {
        let file = shape.file(&blocks(shape.blocks()));
        let noted = with_comment(&file, b"tray 7, row B");
        assert_eq!(comments(&noted).unwrap(), [b"tray 7, row B"]);
        assert_eq!(comment(&noted, 0), b"tray 7, row B");
        assert!(!has_comment(&noted, 1, Limits::NONE, u64::MAX).unwrap().0);
        assert_eq!(settled(&noted).as_ref(), Ok(&noted));
        assert_eq!(read(&noted), read(&file));
    }
}

/// A record with any of its numbers changed is not the file's, those behind its last channel too.
#[test]
fn a_changed_record_is_not_the_files() {
    for shape in some() {
        let file = shape.file(&blocks(shape.blocks()));
        let record = inspected(&file, Colour::AsCoded);
        let (mut output, mut scratch) =
            (vec![5; record.output as usize + 1], vec![6; record.scratch as usize + 1]);
        for at in 0..46 {
            // SAFETY: a record is 46 numbers of 64 bits and nothing else, whatever they are.
            let mut numbers: [u64; 46] = unsafe { std::mem::transmute(record) };
            numbers[at] += if at == 45 { 2 } else { 1 };
            // SAFETY: as above.
            let changed: Record = unsafe { std::mem::transmute(numbers) };
            let refused = decode(&file, &changed, &mut output, &mut scratch, u64::MAX).unwrap_err();
            assert_eq!(refused.number, Refused::NOT_ITS_RECORD, "{shape:?}: number {at}");
        }
        assert!(output.iter().all(|&byte| byte == 5) && scratch.iter().all(|&byte| byte == 6));
    }
}

/// Every way in refuses the file 5, at the price of its header.
fn unsupported(name: &str, file: &[u8]) {
    let left = u64::MAX - 2 * file.len() as u64 - 1;
    let refused = Refused { number: Refused::UNSUPPORTED, left, block: 0, place: 0, needed: None };
    for colour in [Colour::AsCoded, Colour::RedGreenBlue] {
        assert_eq!(inspect(file, colour, Limits::NONE, u64::MAX), Err(refused), "{name}");
    }
    assert_eq!(read(file), Err(refused), "{name}");
    assert_eq!(settled(file), Err(refused), "{name}");
    assert_eq!(comments(file), Err(refused), "{name}");
    assert_eq!(refused.to_string(), "refused 5: a form of JPEG that is not read");
}

/// No channel or five, a factor of 0 or 5 in any channel, eleven blocks in an MCU, an id twice.
#[test]
fn a_frame_is_refused_for_its_channels() {
    let made = |factors: &[Factors]| Shape { width: 8, height: 8, ..Shape::new(factors) };
    let of = |factors: &[Factors]| made(factors).file(&blocks(made(factors).order().len()));
    unsupported("no channel", &made(&[(1, 1)]).with_ids(&[], &[]));
    unsupported("five channels", &of(&[(1, 1); 5]));
    for channels in 1..=4 {
        for c in 0..channels {
            for wrong in [(0, 1), (1, 0), (5, 1), (1, 5), (15, 15), (0, 0)] {
                let mut file = of(&[(1, 1); 4][..channels]);
                let at = 71 + 10 + 3 * c + 1;
                assert_eq!(file[at], 17);
                file[at] = 16 * wrong.0 + wrong.1;
                unsupported("a factor", &file);
            }
        }
        for (one, other) in [(0, 1), (0, 2), (1, 2), (0, 3), (1, 3), (2, 3)] {
            if other < channels {
                let (shape, mut ids) = (made(&[(1, 1); 4][..channels]), [7, 255, 0, 1]);
                ids[other] = ids[one];
                unsupported("an id twice", &shape.with_ids(&blocks(channels), &ids[..channels]));
            }
        }
    }
    let ten_and_eleven: [[&[Factors]; 2]; 4] = [
        [&[(4, 2), (2, 1)], &[(4, 2), (3, 1)]],
        [&[(2, 2), (2, 2), (1, 2)], &[(2, 2), (2, 2), (1, 3)]],
        [&[(2, 2), (2, 1), (1, 2), (2, 1)], &[(2, 2), (3, 1), (1, 2), (2, 1)]],
        [&[(1, 1), (1, 1), (1, 4), (4, 1)], &[(1, 2), (1, 1), (1, 4), (4, 1)]],
    ];
    for [ten, eleven] in ten_and_eleven {
        assert!(read(&of(ten)).is_ok(), "{ten:?}");
        unsupported("eleven blocks", &of(eleven));
    }
    // Any ids that differ may stand, 0 among them.
    let ids = made(&[(1, 1); 4]).with_ids(&blocks(4), &[7, 255, 0, 1]);
    assert_eq!(inspected(&ids, Colour::AsCoded).ids, [7, 255, 0, 1]);
}

/// The scan's header names as many channels as the frame, in the frame's order.
#[test]
fn a_scan_names_the_channels_of_the_frame() {
    let shape = Shape::new(&[(1, 1); 4]);
    let file = shape.file(&blocks(shape.blocks()));
    let start = inspected(&file, Colour::AsCoded).start as usize;
    assert_eq!(file[start - 11..start], [1, 0, 2, 0, 3, 0, 4, 0, 0, 63, 0]);
    let with = |at: usize, byte| {
        let mut changed = file.clone();
        changed[start - at] = byte;
        read(&changed).unwrap_err().number
    };
    assert_eq!((with(12, 3), with(12, 1), with(12, 5)), (5, 5, 5));
    assert_eq!((with(5, 3), with(11, 2)), (4, 4));
    assert_eq!((with(4, 0x40), with(4, 0x10), with(4, 0x01)), (5, 4, 4));
}

/// Cut anywhere in its scan, a file names the block in which it ends, and at the end the block count.
#[test]
fn a_broken_scan_names_its_block_among_all_channels() {
    let shape = Shape { interval: 1, ..Shape::new(&[(2, 2), (1, 1), (1, 1), (2, 2)]) };
    let file = shape.file(&blocks(shape.blocks()));
    let record = inspected(&file, Colour::AsCoded);
    assert_eq!(record.blocks, 6 * 10);
    let mut next = 0;
    for length in record.start as usize..file.len() - 1 {
        let refused = read(&file[..length]).unwrap_err();
        assert!(refused.scan_broke() && refused.block >= next, "cut to {length}: {refused:?}");
        assert!(refused.number == 3 || refused.number == 4, "cut to {length}: {refused:?}");
        next = refused.block;
    }
    assert_eq!(next, 60);
}
