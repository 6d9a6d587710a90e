//! The scan's bits and the fields made of them.

/// The bytes ran out where a bit is wanted.
pub const RAN_OUT: u8 = 3;
/// A 255 is followed by neither 0 nor the end where a bit is wanted.
pub const BARE: u8 = 10;

/// A place in the coded bytes.
pub struct Bits<'a> {
    file: &'a [u8],
    /// The first byte not yet taken.
    at: usize,
    /// The byte taken last, and how many of its bits are unread.
    current: u8,
    unread: u32,
}

impl<'a> Bits<'a> {
    /// The first bit of the byte at `at`.
    pub fn new(file: &'a [u8], at: usize) -> Bits<'a> {
        Bits { file, at, current: 0, unread: 0 }
    }

    /// The first byte not yet taken: behind the current one and its stuffed 0, whether or not
    /// bits of it are unread.
    pub fn place(&self) -> u64 {
        self.at as u64
    }

    /// "A data byte 255 must be followed by 0, which is skipped." As the very last byte it
    /// counts as ran out.
    fn take_byte(&mut self) -> Result<(), u8> {
        let byte = *self.file.get(self.at).ok_or(RAN_OUT)?;
        self.at += 1;
        if byte == 255 {
            if *self.file.get(self.at).ok_or(RAN_OUT)? != 0 {
                return Err(BARE);
            }
            self.at += 1;
        }
        self.current = byte;
        self.unread = 8;
        Ok(())
    }

    /// "Bits come highest first." The fault is its number.
    pub fn bit(&mut self) -> Result<u32, u8> {
        if self.unread == 0 {
            self.take_byte()?;
        }
        self.unread -= 1;
        Ok(u32::from(self.current >> self.unread) & 1)
    }

    /// A field of `n` bits.
    pub fn field(&mut self, n: u32) -> Result<u32, u8> {
        let mut value = 0;
        for _ in 0..n {
            value = 2 * value + self.bit()?;
        }
        Ok(value)
    }

    /// "The unread bits of the current byte are all ones", then any number of 255 as fill, then
    /// 255 and `code`. What is wrong here has no reason of its own, also where bytes ran out.
    pub fn marker(&mut self, code: u8) -> Option<()> {
        while self.unread > 0 {
            if self.bit() != Ok(1) {
                return None;
            }
        }
        // Of 255s in a row the last one is the marker's own.
        while self.file.get(self.at..self.at + 2)? == [255, 255] {
            self.at += 1;
        }
        if self.file.get(self.at..self.at + 2)? != [255, code] {
            return None;
        }
        self.at += 2;
        Some(())
    }

    /// Whether every byte of the file has been taken.
    pub fn at_end(&self) -> bool {
        self.at == self.file.len()
    }
}

/// "An n-bit field v means 0 if n = 0, v + 1 - 2^n if v < 2^(n-1), else v."
pub fn meaning(n: u32, v: u32) -> i32 {
    if n == 0 {
        0
    } else if v < 1 << (n - 1) {
        v as i32 + 1 - (1 << n)
    } else {
        v as i32
    }
}

#[cfg(test)]
mod tests {
    use super::*;

    #[test]
    fn p11_fields_of_eleven_bits() {
        assert_eq!(meaning(11, 0), -2047);
        assert_eq!(meaning(11, 1023), -1024);
        assert_eq!(meaning(11, 1024), 1024);
        assert_eq!(meaning(11, 2047), 2047);
        assert_eq!(meaning(0, 0), 0);
        assert_eq!((meaning(1, 0), meaning(1, 1)), (-1, 1));
    }

    #[test]
    fn stuffing_is_skipped() {
        let mut bits = Bits::new(&[255, 0, 128], 0);
        assert_eq!(bits.field(9), Ok(511));
        assert_eq!(bits.field(7), Ok(0));
        assert_eq!(bits.bit(), Err(RAN_OUT));
    }

    #[test]
    fn bare_255_and_cuts_are_faults() {
        for next in 1..=255 {
            assert_eq!(Bits::new(&[255, next], 0).bit(), Err(BARE));
        }
        assert_eq!(Bits::new(&[255, 0], 0).bit(), Ok(1));
        assert_eq!(Bits::new(&[255], 0).bit(), Err(RAN_OUT));
        assert_eq!(Bits::new(&[], 0).bit(), Err(RAN_OUT));
        // A field of no bits wants none.
        assert_eq!(Bits::new(&[], 0).field(0), Ok(0));
        assert_eq!(Bits::new(&[255, 217], 0).field(0), Ok(0));
    }

    #[test]
    fn the_place_is_behind_the_current_byte() {
        let mut bits = Bits::new(&[7, 7, 255, 0, 7], 1);
        assert_eq!(bits.place(), 1);
        for bit in 0..24 {
            bits.bit().unwrap();
            assert_eq!(bits.place(), [2, 4, 5][bit / 8], "bit {bit}");
        }
        assert_eq!(bits.bit(), Err(RAN_OUT));
    }

    #[test]
    fn fill_is_never_bits() {
        assert_eq!(Bits::new(&[255, 255, 0], 0).bit(), Err(BARE));
        assert_eq!(Bits::new(&[255, 255, 217], 0).bit(), Err(BARE));
        assert_eq!(Bits::new(&[255, 255], 0).bit(), Err(BARE));
        let mut bits = Bits::new(&[0x3f, 255, 255, 0], 0);
        assert_eq!(bits.field(8), Ok(0x3f));
        assert_eq!(bits.bit(), Err(BARE));
    }

    /// Whether 217 is met as the last byte once so many bits are read.
    fn ends(bytes: &[u8], read: u32) -> bool {
        let mut bits = Bits::new(bytes, 0);
        bits.field(read).unwrap();
        bits.marker(217).is_some() && bits.at_end()
    }

    #[test]
    fn fill_stands_between_padding_and_marker() {
        for read in 2..=8 {
            assert!(ends(&[0x3f, 255, 255, 217], read));
            assert!(ends(&[0x3f, 255, 255, 255, 255, 217], read));
        }
        assert!(!ends(&[0x3f, 255, 255, 217], 1));
        assert!(!ends(&[0x3e, 255, 255, 217], 2));
        // Padding that fills a byte with ones has its stuffed 0.
        assert!(ends(&[255, 0, 255, 255, 217], 3));
        assert!(ends(&[255, 0, 255, 255, 217], 8));
        // A marker stands behind all fill, and nothing between them.
        for tail in [&[][..], &[0], &[7], &[216], &[208], &[0, 255, 217], &[7, 255, 217]] {
            for fill in 0..4 {
                assert!(!ends(&[&[0x3f][..], &vec![255; fill], tail].concat(), 2));
            }
        }
        assert!(!ends(&[0x3f, 255, 255, 217, 255], 2));
        assert!(!ends(&[0x3f, 255, 255, 217, 255, 217], 2));
    }

    #[test]
    fn padding_is_ones_and_less_than_a_byte() {
        let mut bits = Bits::new(&[0x3f, 255, 217], 0);
        bits.field(2).unwrap();
        assert!(bits.marker(217).is_some() && bits.at_end());
        let mut bits = Bits::new(&[0x3e, 255, 217], 0);
        bits.field(2).unwrap();
        assert!(bits.marker(217).is_none());
        let mut bits = Bits::new(&[0x3f, 255, 0, 255, 217], 0);
        bits.field(8).unwrap();
        assert!(bits.marker(217).is_none());
    }
}
