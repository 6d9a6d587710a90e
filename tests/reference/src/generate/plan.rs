//! The head of a valid file: segments in a random order, and what the scan needs to know.

use super::sampling::{self, Factors};
use super::tables::{self, Manner, Table};
use crate::random::Random;

/// How a segment's length is written.
#[derive(Clone, Copy, Debug)]
pub enum Length {
    True,
    Given(u16),
    /// As if the segment ended so many bytes after the file's last.
    ToEnd(i64),
}

#[derive(Clone, Debug)]
pub struct Segment {
    /// Bytes before the marker: fill, or something worse.
    pub before: Vec<u8>,
    pub code: u8,
    pub length: Length,
    pub body: Vec<u8>,
}

impl Segment {
    pub fn new(code: u8, body: Vec<u8>) -> Segment {
        Segment { before: Vec::new(), code, length: Length::True, body }
    }
}

/// What the writer of the scan needs.
#[derive(Clone)]
pub struct Shape {
    pub width: u64,
    pub height: u64,
    /// By channel; a single one counts as 1 x 1.
    pub factors: Factors,
    pub interval: u64,
    /// By channel.
    pub dc: Vec<Table>,
    pub ac: Vec<Table>,
    pub manner: Manner,
}

impl Shape {
    /// An MCU's width and height in pixels.
    fn mcu_size(&self) -> (u64, u64) {
        let (mut across, mut down) = (1, 1);
        for &(h, v) in &self.factors {
            (across, down) = (across.max(h), down.max(v));
        }
        (8 * across, 8 * down)
    }

    pub fn mcus(&self) -> u64 {
        let (width, height) = self.mcu_size();
        self.width.div_ceil(width) * self.height.div_ceil(height)
    }

    /// How many restarts the scan has.
    pub fn restarts(&self) -> u64 {
        (self.mcus() - 1).checked_div(self.interval).unwrap_or(0)
    }

    /// The channels of an MCU's blocks in order.
    pub fn mcu(&self) -> Vec<usize> {
        let mut list = Vec::new();
        for (channel, (across, down)) in self.factors.iter().enumerate() {
            list.extend(vec![channel; (across * down) as usize]);
        }
        list
    }
}

/// A head that makes a valid file together with a scan of its shape.
#[derive(Clone)]
pub struct Plan {
    pub segments: Vec<Segment>,
    pub shape: Shape,
}

/// A table on its way into a segment.
#[derive(Clone)]
enum Definition {
    Quantizer(u8, [u8; 64]),
    Huffman(u8, u8, Table),
}

/// What the frame and the scan name, by channel.
struct Names {
    ids: Vec<u8>,
    quantizers: Vec<u8>,
    dc: Vec<u8>,
    ac: Vec<u8>,
}

/// A random valid head.
pub fn plan(random: &mut Random) -> Plan {
    let channels = random.pick(&[1, 1, 1, 2, 2, 3, 3, 3, 3, 3, 4, 4, 4, 4]);
    let factors = sampling::factors(random, channels);
    shaped(random, factors)
}

/// A valid head whose channels have these factors.
pub fn shaped(random: &mut Random, factors: Factors) -> Plan {
    let manner = manner(random);
    let names = names(random, factors.len());
    let definitions = definitions(random, manner, &names);
    let table = |class: u8, id: u8| standing(&definitions, class, id);
    let dc: Vec<Table> = names.dc.iter().map(|&id| table(0, id)).collect();
    let ac: Vec<Table> = names.ac.iter().map(|&id| table(1, id)).collect();
    let ends = ac.iter().all(|table| table.lists(0));
    let mut shape = Shape { width: 1, height: 1, factors, interval: 0, dc, ac, manner };
    (shape.width, shape.height) = size(random, &shape, ends);
    let mut segments = grouped(random, definitions);
    let frame = frame(random, &shape, &names);
    insert(random, &mut segments, frame);
    restart_intervals(random, &mut segments, &mut shape);
    skipped(random, &mut segments);
    segments.push(scan(&names));
    fill(random, &mut segments);
    Plan { segments, shape }
}

/// Any number of 255 before some of the markers.
fn fill(random: &mut Random, segments: &mut [Segment]) {
    for segment in segments {
        if random.chance(1, 8) {
            let most = random.pick(&[1, 2, 3, 3, 40]);
            segment.before = vec![255; random.between(1, most) as usize];
        }
    }
}

fn manner(random: &mut Random) -> Manner {
    let even = random.chance(1, 4);
    let mild = even || random.chance(1, 3);
    let short = !even && random.chance(1, 12);
    Manner { mild, even, short, length: random.pick(&[2, 4, 9, 40, 1000]) }
}

fn names(random: &mut Random, channels: usize) -> Names {
    let mut ids: Vec<u8> = (1..=channels as u8).collect();
    if random.chance(1, 2) {
        ids.clear();
        while ids.len() < channels {
            let id = random.byte();
            if !ids.contains(&id) {
                ids.push(id);
            }
        }
    }
    let most = random.pick(&[0, 1, 3]);
    let mut choose = || (0..channels).map(|_| random.between(0, most) as u8).collect();
    Names { ids, quantizers: choose(), dc: choose(), ac: choose() }
}

/// Needed tables once or twice, and some that are never used, in any order.
fn definitions(random: &mut Random, manner: Manner, names: &Names) -> Vec<Definition> {
    let mut list = Vec::new();
    for id in 0..4 {
        let wanted = |random: &mut Random, named: &[u8]| match named.contains(&id) {
            true => random.pick(&[1, 1, 1, 1, 2]),
            false => random.pick(&[0, 0, 0, 0, 0, 1]),
        };
        for _ in 0..wanted(random, &names.quantizers) {
            list.push(Definition::Quantizer(id, tables::quantizer(random, manner)));
        }
        for _ in 0..wanted(random, &names.dc) {
            list.push(Definition::Huffman(0, id, tables::dc_table(random, manner)));
        }
        for _ in 0..wanted(random, &names.ac) {
            list.push(Definition::Huffman(1, id, tables::ac_table(random, manner)));
        }
    }
    random.shuffle(&mut list);
    list
}

/// The last Huffman table of a class and id.
fn standing(definitions: &[Definition], class: u8, id: u8) -> Table {
    let found = definitions.iter().rev().find_map(|definition| match definition {
        Definition::Huffman(a, b, table) if (*a, *b) == (class, id) => Some(table.clone()),
        _ => None,
    });
    found.expect("every named table is defined")
}

/// Segments of one or more tables each.
fn grouped(random: &mut Random, definitions: Vec<Definition>) -> Vec<Segment> {
    let mut segments: Vec<Segment> = Vec::new();
    for definition in definitions {
        let (code, bytes) = match definition {
            Definition::Quantizer(id, values) => (219, [&[id][..], &values].concat()),
            Definition::Huffman(class, id, table) => {
                (196, [&[16 * class + id][..], &table.bytes()].concat())
            }
        };
        match segments.last_mut() {
            Some(last) if last.code == code && random.chance(2, 3) => last.body.extend(bytes),
            _ => segments.push(Segment::new(code, bytes)),
        }
    }
    segments
}

fn insert(random: &mut Random, segments: &mut Vec<Segment>, segment: Segment) {
    let at = random.below(segments.len() + 1);
    segments.insert(at, segment);
}

/// A size of few blocks, or of many where the blocks can be short.
fn size(random: &mut Random, shape: &Shape, ends: bool) -> (u64, u64) {
    let per_mcu = shape.mcu().len() as u64;
    let most = match (shape.manner.short, ends) {
        (true, _) => random.pick(&[100, 400, 1000, 4000]),
        (false, true) => random.pick(&[1, 6, 12, 24, 60]),
        (false, false) => random.pick(&[1, 6, 12]),
    };
    let mcus = (most / per_mcu).max(1);
    let across = random.between(1, mcus);
    let down = random.between(1, (mcus / across).max(1));
    let (across, down) = if random.chance(1, 2) { (across, down) } else { (down, across) };
    let mut side = |count: u64, mcu: u64| {
        let last = random.between(1, mcu);
        mcu * (count - 1) + random.pick(&[1, mcu - 1, mcu, last, last])
    };
    let (width, height) = shape.mcu_size();
    (side(across, width), side(down, height))
}

fn frame(random: &mut Random, shape: &Shape, names: &Names) -> Segment {
    let mut body = vec![8];
    body.extend((shape.height as u16).to_be_bytes());
    body.extend((shape.width as u16).to_be_bytes());
    body.push(shape.factors.len() as u8);
    // A single channel has any factors and counts as 1 x 1.
    let alone = (random.between(1, 4), random.between(1, 4));
    let told = match &shape.factors[..] {
        [_] if random.chance(1, 2) => &[alone],
        factors => factors,
    };
    for (channel, &factors) in told.iter().enumerate() {
        body.extend([names.ids[channel], sampling::byte(factors), names.quantizers[channel]]);
    }
    Segment::new(random.pick(&[192, 192, 193]), body)
}

fn scan(names: &Names) -> Segment {
    let mut body = vec![names.ids.len() as u8];
    for channel in 0..names.ids.len() {
        body.extend([names.ids[channel], 16 * names.dc[channel] + names.ac[channel]]);
    }
    body.extend([0, 63, 0]);
    Segment::new(218, body)
}

/// None, one or several, before or after the frame; the last one counts.
fn restart_intervals(random: &mut Random, segments: &mut Vec<Segment>, shape: &mut Shape) {
    let count = random.pick(&[0, 0, 1, 1, 1, 2, 3]);
    for _ in 0..count {
        let some = random.between(1, shape.mcus() + 1).min(65535);
        let interval = random.pick(&[1, 1, 2, 3, some, some, 0, 65535]) as u16;
        insert(random, segments, Segment::new(221, interval.to_be_bytes().to_vec()));
    }
    let last = segments.iter().rev().find(|segment| segment.code == 221);
    shape.interval =
        last.map_or(0, |segment| 256 * u64::from(segment.body[0]) + u64::from(segment.body[1]));
}

/// Segments that every reader passes over, sometimes with markers inside.
fn skipped(random: &mut Random, segments: &mut Vec<Segment>) {
    for _ in 0..random.pick(&[0, 0, 0, 1, 1, 2, 4]) {
        let code = if random.chance(1, 3) { 254 } else { random.between(224, 239) as u8 };
        let length = random.pick(&[0, 1, 2, 5, 14, 30]);
        let mut body: Vec<u8> = (0..length).map(|_| random.byte()).collect();
        if random.chance(1, 4) {
            body.extend(random.pick(&[[255, 217], [255, 218], [255, 255], [255, 0]]));
        }
        insert(random, segments, Segment::new(code, body));
    }
}
