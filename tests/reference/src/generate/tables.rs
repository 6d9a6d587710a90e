//! Random quantizers and Huffman tables, and the codes to write with.

use crate::random::Random;

/// How a file's blocks are to look.
#[derive(Clone, Copy)]
pub struct Manner {
    /// Small values and quantizers, so that few samples are clamped.
    pub mild: bool,
    /// First values spread evenly over all samples, so that all colours come up.
    pub even: bool,
    /// Short blocks only, for pictures of many blocks.
    pub short: bool,
    /// A block goes on after each value unless one chance in this many comes true.
    pub length: u64,
}

/// A Huffman table as it stands in a segment.
#[derive(Clone, Debug)]
pub struct Table {
    pub counts: [u8; 16],
    pub symbols: Vec<u8>,
}

impl Table {
    fn new(random: &mut Random, symbols: Vec<u8>) -> Table {
        Table { counts: counts(random, symbols.len()), symbols }
    }

    pub fn bytes(&self) -> Vec<u8> {
        [&self.counts[..], &self.symbols].concat()
    }

    /// Every code, as symbol, length and bits.
    pub fn codes(&self) -> Vec<(u8, u32, u32)> {
        let (mut list, mut bits) = (Vec::new(), 0);
        let mut symbols = self.symbols.iter();
        for (i, &count) in self.counts.iter().enumerate() {
            bits <<= 1;
            for &symbol in symbols.by_ref().take(count.into()) {
                list.push((symbol, i as u32 + 1, bits));
                bits += 1;
            }
        }
        list
    }

    pub fn lists(&self, symbol: u8) -> bool {
        self.symbols.contains(&symbol)
    }

    /// The lowest sixteen bits that start with no code. Codes ascend, so that all above start
    /// with none either.
    pub fn unused(&self) -> u32 {
        let codes = self.codes();
        let (_, length, bits) = codes.last().expect("a table has a symbol");
        (bits + 1) << (16 - length)
    }
}

/// Counts for so many symbols (1 to 256) that fit, in one of several shapes.
pub fn counts(random: &mut Random, total: usize) -> [u8; 16] {
    let shape = random.below(5);
    let mut counts = [0; 16];
    let (mut next, mut left) = (0u64, total as u64);
    for length in 1..=16u32 {
        next *= 2;
        let here = (1u64 << length) - 1 - next;
        let mut count = match shape {
            0 => 1,
            1 => left * u64::from(here >= left),
            2 => random.between(0, 3),
            3 => random.between(0, here.min(left)),
            _ => random.between(0, left) * u64::from(random.chance(1, 6)),
        };
        if length == 16 {
            count = left;
        }
        count = count.min(here).min(left).min(255);
        // 256 symbols cannot all stand at one length.
        if left == 256 && length >= 10 {
            count = count.max(1);
        }
        while (1u64 << 16) - 1 < ((next + count) << (16 - length)) + (left - count) {
            count -= 1;
        }
        counts[length as usize - 1] = count as u8;
        next += count;
        left -= count;
    }
    assert_eq!(left, 0);
    counts
}

pub fn quantizer(random: &mut Random, manner: Manner) -> [u8; 64] {
    if manner.even {
        return [random.pick(&[1, 1, 2]); 64];
    }
    match random.below(if manner.mild { 2 } else { 4 }) {
        0 => [1; 64],
        1 => std::array::from_fn(|_| random.between(1, 12) as u8),
        2 => [random.between(1, 255) as u8; 64],
        _ => std::array::from_fn(|_| random.between(1, 255) as u8),
    }
}

/// A DC table.
pub fn dc_table(random: &mut Random, manner: Manner) -> Table {
    let most = if manner.mild { 6 } else { 11 };
    let mut symbols = match random.below(5) {
        _ if manner.even => (0..=11).collect(),
        0 => vec![0],
        1 => (0..=11).collect(),
        2 => vec![random.between(0, most) as u8],
        _ => (0..=most as u8).filter(|_| random.chance(1, 2)).collect(),
    };
    if symbols.is_empty() || manner.short {
        symbols.push(0);
    }
    finish(random, manner, symbols)
}

/// An AC table with which every block can be ended.
pub fn ac_table(random: &mut Random, manner: Manner) -> Table {
    let mut symbols = ac_symbols(random, manner);
    if manner.short {
        symbols.push(0);
    }
    if !finishes(&symbols)[1] {
        symbols.push(if random.chance(2, 3) { 0 } else { 1 });
    }
    finish(random, manner, symbols)
}

fn ac_symbols(random: &mut Random, manner: Manner) -> Vec<u8> {
    let most = if manner.mild { 3 } else { 10 };
    let size = random.between(1, most) as u8;
    let any = |random: &mut Random| (16 * random.between(0, 15) + random.between(1, most)) as u8;
    match random.below(9) {
        0 => vec![0],
        1 => vec![0, 240, size, 16 + size],
        2 => (0..=255)
            .filter(|s| [0, 240].contains(s) || (1..=most as u8).contains(&(s % 16)))
            .collect(),
        // No end code: steps of 1, 3, 7 or 9 places reach place 64 exactly.
        3 => vec![16 * random.pick(&[0, 2, 6, 8]) + size],
        // No end code: 15 places, then three times 16.
        4 => vec![0xe0 + size, 240],
        5 => vec![size, 240, 0xf0 + size],
        6 => (0..16).map(|run| 16 * run + size).collect(),
        _ => {
            let mut symbols: Vec<u8> = (0..random.between(1, 20)).map(|_| any(random)).collect();
            symbols.extend([0, 240].iter().filter(|_| random.chance(2, 3)));
            symbols
        }
    }
}

/// From which places a block can be ended with these symbols.
pub fn finishes(symbols: &[u8]) -> [bool; 65] {
    let mut can = [false; 65];
    can[64] = true;
    for place in (1..64).rev() {
        can[place] = symbols.iter().any(|&symbol| match step(symbol, place) {
            Some(next) => can[next],
            None => symbol == 0,
        });
    }
    can
}

/// Where a symbol other than the end code leads from a place, if it may stand there.
pub fn step(symbol: u8, place: usize) -> Option<usize> {
    let (run, size) = ((symbol / 16) as usize, symbol % 16);
    if symbol == 240 {
        return (place <= 48).then_some(place + 16);
    }
    ((1..=10).contains(&size) && place + run < 64).then_some(place + run + 1)
}

/// All symbols that a table of this class (0 for DC, 1 for AC) may list: those that some place
/// of a block takes.
pub fn usable(class: u8) -> Vec<u8> {
    let taken = |symbol: u8| match class {
        0 => symbol <= 11,
        _ => symbol == 0 || step(symbol, 1).is_some(),
    };
    (0..=255).filter(|&symbol| taken(symbol)).collect()
}

/// Lists each symbol once, mixes the order and gives codes.
fn finish(random: &mut Random, manner: Manner, mut symbols: Vec<u8>) -> Table {
    symbols.sort_unstable();
    symbols.dedup();
    random.shuffle(&mut symbols);
    if manner.short || random.chance(1, 3) {
        // Frequent symbols first: smaller files.
        symbols.sort_by_key(|&symbol| if symbol == 0 { 0 } else { 1 });
    }
    Table::new(random, symbols)
}

#[cfg(test)]
mod tests {
    use super::*;
    use crate::huffman;

    #[test]
    fn tables_fit_and_use_every_length() {
        let mut random = Random::new(1);
        let mut used = [false; 16];
        let mut largest = [0; 2];
        for round in 0..4000 {
            let manner = Manner {
                mild: round % 2 == 0,
                even: round % 7 == 0,
                short: round % 5 == 0,
                length: 4,
            };
            let pair = [dc_table(&mut random, manner), ac_table(&mut random, manner)];
            for (class, table) in pair.iter().enumerate() {
                assert!(huffman::fits(&table.counts));
                assert!(huffman::may_list(class as u8, &table.symbols));
                assert_eq!(huffman::total(&table.counts), table.symbols.len());
                assert_eq!(table.codes().len(), table.symbols.len());
                largest[class] = largest[class].max(table.symbols.len());
                (0..16).for_each(|i| used[i] |= table.counts[i] > 0);
            }
        }
        assert_eq!(used, [true; 16]);
        assert_eq!(largest, [12, 162]);
        assert_eq!([usable(0).len(), usable(1).len()], largest);
    }

    #[test]
    fn every_total_gets_counts() {
        let mut random = Random::new(2);
        for total in 1..=256 {
            (0..20).for_each(|_| assert_eq!(huffman::total(&counts(&mut random, total)), total));
        }
    }
}
