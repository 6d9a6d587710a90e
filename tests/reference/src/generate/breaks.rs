//! Breaks a whole scan at a chosen block: its bytes end there, or there stands what is no data.

use super::coder::Coded;
use super::faults;
use super::plan::Shape;
use crate::random::Random;

/// Ones: what is left of a symbol and a field of any length, then sixteen that are no code.
pub const ONES: &[u8] = &[255, 0, 255, 0, 255, 0, 255, 0, 255, 0, 255, 0];

/// What stands behind the cut, or is put in.
const TAILS: [&[u8]; 16] = [
    ONES,
    ONES,
    &[],
    &[],
    &[],
    &[],
    &[],
    &[255],
    &[255, 255],
    &[255, 217],
    &[255, 255, 217],
    &[255, 208],
    &[255, 255, 208],
    &[255, 215],
    &[255, 1],
    &[255, 254],
];

/// Where a scan breaks, and with what.
pub struct Break {
    pub at: usize,
    pub tail: &'static [u8],
    /// Whether the bytes behind the break are left out.
    pub cut: bool,
}

impl Break {
    /// One for a whole scan of this shape, and the block at which it comes; the end counts as
    /// one more.
    pub fn of(coded: &Coded, shape: &Shape, random: &mut Random) -> (usize, Break) {
        let wanted = block(coded, shape, random);
        let has_bytes = |&block: &usize| bytes_of(coded, block).0 < bytes_of(coded, block).1;
        // A block may lie wholly in a byte that was taken before it; the end never does.
        let block = (wanted..coded.begins.len()).find(has_bytes).expect("the end has bytes");
        let (from, to) = bytes_of(coded, block);
        let at = place(&coded.bytes, from, to, random);
        let tail = random.pick(&TAILS);
        (block, Break { at, tail, cut: tail.is_empty() || random.chance(1, 2) })
    }

    /// The broken scan.
    pub fn bytes(&self, coded: &Coded) -> Vec<u8> {
        let rest = if self.cut { &[] } else { &coded.bytes[self.at..] };
        [&coded.bytes[..self.at], self.tail, rest].concat()
    }
}

/// The block to break: one where a fault is worth trying, the end, or one that begins behind a
/// stuffed 0, with bits of the 255 left or none.
fn block(coded: &Coded, shape: &Shape, random: &mut Random) -> usize {
    let behind = |block: usize| &coded.bytes[..coded.start(block)];
    let stuffed = |left: bool| {
        let all = (0..coded.begins.len()).filter(|&block| behind(block).ends_with(&[255, 0]));
        all.filter(|&block| (coded.begins[block].1 > 0) == left).collect()
    };
    let found: Vec<usize> = match random.below(8) {
        0 => vec![coded.begins.len() - 1],
        1 => stuffed(true),
        2 => stuffed(false),
        _ => Vec::new(),
    };
    if found.is_empty() {
        return faults::target(shape, random) as usize;
    }
    random.pick(&found)
}

/// Where the bytes start and end that are taken for this block, its restart among them.
fn bytes_of(coded: &Coded, block: usize) -> (usize, usize) {
    let last = block + 1 == coded.begins.len();
    let end = if last { coded.bytes.len() } else { coded.start(block + 1) };
    (coded.start(block), end)
}

/// A place among these bytes: before the first or the last of them, behind a 255, behind a
/// restart, or any.
fn place(bytes: &[u8], from: usize, to: usize, random: &mut Random) -> usize {
    let any = random.between(from as u64, to as u64 - 1) as usize;
    let behind_255 = |&at: &usize| bytes[at - 1] == 255;
    let behind_restart = |&at: &usize| matches!(bytes[at - 2..at], [255, 208..=215]);
    let found: Vec<usize> = match random.below(5) {
        0 => (from + 1..to).filter(behind_255).collect(),
        1 => (from + 2..to).filter(behind_restart).collect(),
        _ => Vec::new(),
    };
    if found.is_empty() {
        return random.pick(&[from, to - 1, any]);
    }
    random.pick(&found)
}
