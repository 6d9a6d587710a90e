//! Huffman tables: the tests on counts and symbols, and the codes both ways.

/// One table's codes in T.81 Annex C order.
pub struct Codes {
    /// Per length 1..=16: the first code, how many, and the first one's place in `symbols`.
    first: [u32; 17],
    count: [u32; 17],
    place: [usize; 17],
    symbols: Vec<u8>,
}

/// "After each length L the next code is at most 2^L - 1", for all sixteen lengths.
pub fn fits(counts: &[u8]) -> bool {
    let mut next: u64 = 0;
    for length in 1..=16 {
        next = 2 * next + u64::from(counts[length - 1]);
        if next > (1 << length) - 1 {
            return false;
        }
    }
    true
}

/// How many symbols the sixteen counts announce.
pub fn total(counts: &[u8]) -> usize {
    counts[..16].iter().map(|&count| usize::from(count)).sum()
}

/// Whether a table of this class may list these symbols: each one once, and only those that
/// can be read in a scan.
pub fn may_list(class: u8, symbols: &[u8]) -> bool {
    let mut listed = [false; 256];
    symbols.iter().all(|&symbol| {
        let twice = std::mem::replace(&mut listed[usize::from(symbol)], true);
        !twice && readable(class, symbol)
    })
}

/// DC: the categories 0 to 11. AC: the end code, 240, and every run with a size of 1 to 10.
fn readable(class: u8, symbol: u8) -> bool {
    match class {
        0 => symbol <= 11,
        _ => symbol == 0 || symbol == 240 || (1..=10).contains(&(symbol % 16)),
    }
}

impl Codes {
    /// The codes of the table whose 16 counts start at `offset`, which the header has tested.
    pub fn at(file: &[u8], offset: u64) -> Codes {
        let offset = offset as usize;
        let counts = &file[offset..offset + 16];
        let symbols = file[offset + 16..offset + 16 + total(counts)].to_vec();
        let mut codes = Codes { first: [0; 17], count: [0; 17], place: [0; 17], symbols };
        let (mut next, mut place) = (0, 0);
        for length in 1..=16 {
            let count = u32::from(counts[length - 1]);
            next *= 2;
            codes.first[length] = next;
            codes.count[length] = count;
            codes.place[length] = place;
            next += count;
            place += count as usize;
        }
        codes
    }

    /// The symbol of a code of this length, if it is one.
    pub fn symbol(&self, length: usize, code: u32) -> Option<u8> {
        let from_first = code.checked_sub(self.first[length])?;
        if from_first >= self.count[length] {
            return None;
        }
        Some(self.symbols[self.place[length] + from_first as usize])
    }

    /// The code of a symbol, if the table lists it: its length and bits.
    pub fn code(&self, symbol: u8) -> Option<(u32, u32)> {
        let place = self.symbols.iter().position(|&listed| listed == symbol)?;
        let mut length = 16;
        while self.place[length] > place {
            length -= 1;
        }
        Some((length as u32, self.first[length] + (place - self.place[length]) as u32))
    }
}

#[cfg(test)]
mod tests {
    use super::*;

    fn table(counts: [u8; 16], symbols: &[u8]) -> Codes {
        let mut bytes = counts.to_vec();
        bytes.extend(symbols);
        Codes::at(&bytes, 0)
    }

    #[test]
    fn all_ones_is_never_a_code() {
        let mut counts = [0; 16];
        counts[0] = 1;
        assert!(fits(&counts));
        counts[0] = 2;
        assert!(!fits(&counts));
        assert!(fits(&[1; 16]));
        let mut counts = [1; 16];
        counts[15] = 2;
        assert!(!fits(&counts));
    }

    #[test]
    fn symbols_that_may_be_listed() {
        let alone = |class| (0..=255).filter(|&symbol| may_list(class, &[symbol])).collect();
        let (dc, ac): (Vec<u8>, Vec<u8>) = (alone(0), alone(1));
        assert_eq!(dc, (0..=11).collect::<Vec<u8>>());
        assert_eq!(ac.len(), 162);
        for symbol in [0, 1, 10, 17, 26, 240, 241, 250] {
            assert!(ac.contains(&symbol), "{symbol}");
        }
        for symbol in [11, 15, 16, 27, 32, 224, 239, 251, 255] {
            assert!(!ac.contains(&symbol), "{symbol}");
        }
        for (class, all) in [(0, dc), (1, ac)] {
            assert!(may_list(class, &all));
            for &symbol in &all {
                assert!(!may_list(class, &[&all[..], &[symbol]].concat()));
                assert!(!may_list(class, &[&[symbol], &all[..]].concat()));
            }
        }
    }

    #[test]
    fn annex_c_order() {
        let mut counts = [0; 16];
        counts[1] = 2;
        counts[3] = 2;
        let codes = table(counts, &[7, 8, 9, 6]);
        assert_eq!(codes.symbol(2, 0), Some(7));
        assert_eq!(codes.symbol(2, 1), Some(8));
        assert_eq!(codes.symbol(2, 2), None);
        assert_eq!(codes.symbol(4, 8), Some(9));
        assert_eq!(codes.symbol(4, 9), Some(6));
        assert_eq!(codes.code(7), Some((2, 0)));
        assert_eq!(codes.code(8), Some((2, 1)));
        assert_eq!(codes.code(9), Some((4, 8)));
        assert_eq!(codes.code(6), Some((4, 9)));
        assert_eq!(codes.code(1), None);
    }
}
