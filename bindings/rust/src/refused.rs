//! A refusal: its number, what it means, where the scan broke and what is left of the budget.

use std::error::Error;
use std::fmt::{self, Write};

/// Why a call did not do what was asked. Every lent buffer is as it was.
#[derive(Clone, Copy, Debug, PartialEq, Eq, Hash)]
pub struct Refused {
    /// 1 to 11; the constants of this type name them.
    pub number: u64,
    /// What is left of the budget.
    pub left: u64,
    /// Where the scan broke, the number of the block in which it did, counted from 0, or the block
    /// count where the final marker is wrong; else 0.
    pub block: u64,
    /// Where the scan broke, the place in the file of the first byte not yet taken when the
    /// reading of that block began, before any restart; else 0, which no place in a scan is.
    pub place: u64,
    /// The bytes of the settled file, where [`settle`](crate::settle) is refused for want of
    /// room; else none.
    pub needed: Option<u64>,
}

impl Refused {
    /// More bytes than the limit on input.
    pub const TOO_LONG: u64 = 1;
    /// The price is above the budget.
    pub const OVER_BUDGET: u64 = 2;
    /// The header is cut short, or the bytes ran out in a block of the scan.
    pub const CUT_SHORT: u64 = 3;
    /// A rule of the format is broken, in header, tables or scan; also by a Huffman
    /// table, used or not, that lists a symbol twice or a symbol that no block takes.
    pub const MALFORMED: u64 = 4;
    /// A form of JPEG that is not read.
    pub const UNSUPPORTED: u64 = 5;
    /// A side, or the samples, above a limit.
    pub const TOO_LARGE: u64 = 6;
    /// A lent buffer is too short.
    pub const SHORT_ROOM: u64 = 7;
    /// The record is not the file's.
    pub const NOT_ITS_RECORD: u64 = 8;
    /// Settling: a block wants an end-of-block code, and its table has none.
    pub const NO_END_CODE: u64 = 9;
    /// In a block of the scan, a 255 that is followed by neither 0 nor the end.
    pub const BARE_255: u64 = 10;
    /// In a block of the scan, sixteen bits that are no code of its table.
    pub const NO_CODE: u64 = 11;

    /// Whether it was the scan, the coded data behind the header, that broke: with 3, 4, 10 or 11.
    /// Then [`block`](Refused::block) and [`place`](Refused::place) say where, and else both are 0.
    ///
    /// ```
    /// let file = std::fs::read("../../docs/tray.jpg")?;
    /// let cut = |length| tillsparrow::read(&file[..length]).unwrap_err();
    /// assert!(cut(2000).number == 3 && cut(2000).scan_broke());
    /// assert!(cut(200).number == 3 && !cut(200).scan_broke()); // the header is longer than that
    /// # Ok::<(), Box<dyn std::error::Error>>(())
    /// ```
    pub fn scan_broke(&self) -> bool {
        self.place != 0
    }

    /// What the number means, for people. 3 and 4 mean one thing in the header and another in the
    /// scan.
    pub fn meaning(&self) -> &'static str {
        match self.number {
            Refused::TOO_LONG => "more bytes than the limit on input",
            Refused::OVER_BUDGET => "the price is above the budget",
            Refused::CUT_SHORT if self.scan_broke() => "the bytes ran out",
            Refused::CUT_SHORT => "the header is cut short",
            Refused::MALFORMED if self.scan_broke() => "the scan breaks a rule of the format",
            Refused::MALFORMED => "a rule of the format is broken, in header or tables",
            Refused::UNSUPPORTED => "a form of JPEG that is not read",
            Refused::TOO_LARGE => "a side, or the samples, above a limit",
            Refused::SHORT_ROOM => "a lent buffer is too short",
            Refused::NOT_ITS_RECORD => "the record is not the file's",
            Refused::NO_END_CODE => "a block wants an end-of-block code, and its table has none",
            Refused::BARE_255 => "a 255 is followed by neither 0 nor the end",
            Refused::NO_CODE => "no code of the table matches",
            _ => "a number that this crate does not know",
        }
    }

    /// The line for people of a file that has `length` bytes: as [`to_string`](ToString::to_string)
    /// gives it, and where the scan broke with the length behind the place.
    ///
    /// ```
    /// let file = std::fs::read("../../docs/tray.jpg")?;
    /// let cut = &file[..2000];
    /// let refused = tillsparrow::read(cut).unwrap_err();
    /// assert_eq!(refused.line_for(cut.len()), format!("{refused} of 2000"));
    /// # Ok::<(), Box<dyn std::error::Error>>(())
    /// ```
    pub fn line_for(&self, length: usize) -> String {
        match self.scan_broke() {
            true => format!("{self} of {}", Grouped(length as u64)),
            false => self.to_string(),
        }
    }
}

/// One line: the number, its meaning and, where they are known, the block and the place at which
/// the scan broke, or the room that is needed.
impl fmt::Display for Refused {
    fn fmt(&self, page: &mut fmt::Formatter<'_>) -> fmt::Result {
        write!(page, "refused {}: {}", self.number, self.meaning())?;
        let (block, place) = (Grouped(self.block), Grouped(self.place));
        match self.needed {
            // The rule may be one of the restart before the block, or of the end behind the last.
            _ if self.scan_broke() && self.number == Refused::MALFORMED => {
                write!(page, " at block {block}, whose reading began at byte {place}")
            }
            _ if self.scan_broke() => {
                write!(page, " in block {block}, which begins at byte {place}")
            }
            Some(needed) => write!(page, "; {needed} bytes are needed"),
            None => Ok(()),
        }
    }
}

impl Error for Refused {}

/// A number as people read it: from 10,000 on its digits stand in groups of three.
struct Grouped(u64);

impl fmt::Display for Grouped {
    fn fmt(&self, page: &mut fmt::Formatter<'_>) -> fmt::Result {
        let digits = self.0.to_string();
        for (at, digit) in digits.chars().enumerate() {
            if self.0 >= 10_000 && at > 0 && (digits.len() - at) % 3 == 0 {
                page.write_char(',')?;
            }
            page.write_char(digit)?;
        }
        Ok(())
    }
}

#[cfg(test)]
mod tests {
    use super::*;

    fn line(number: u64, needed: Option<u64>) -> String {
        Refused { number, left: 5, block: 0, place: 0, needed }.to_string()
    }

    fn broken(number: u64, block: u64, place: u64) -> Refused {
        Refused { number, left: 5, block, place, needed: None }
    }

    #[test]
    fn a_line_has_number_and_meaning() {
        assert_eq!(line(5, None), "refused 5: a form of JPEG that is not read");
        assert_eq!(line(3, None), "refused 3: the header is cut short");
        assert_eq!(line(4, None), "refused 4: a rule of the format is broken, in header or tables");
        let room = "refused 7: a lent buffer is too short";
        assert_eq!(line(7, None), room);
        assert_eq!(line(7, Some(141)), format!("{room}; 141 bytes are needed"));
    }

    #[test]
    fn a_line_says_where_the_scan_broke() {
        let lines = [
            "refused 3: the bytes ran out in block 1207, which begins at byte 31,337",
            "refused 10: a 255 is followed by neither 0 nor the end in block 0, which begins at byte 138",
            "refused 11: no code of the table matches in block 1,000,000, which begins at byte 10,000",
            "refused 4: the scan breaks a rule of the format at block 9999, whose reading began at byte 12,345,678,901",
        ];
        let refused = [
            broken(3, 1207, 31_337),
            broken(10, 0, 138),
            broken(11, 1_000_000, 10_000),
            broken(4, 9999, 12_345_678_901),
        ];
        assert_eq!(refused.map(|refused| refused.to_string()), lines);
        assert!(refused.iter().all(Refused::scan_broke));
        assert_eq!(refused[0].line_for(31_352), format!("{} of 31,352", lines[0]));
        assert_eq!(refused[1].line_for(141), format!("{} of 141", lines[1]));
    }

    /// The length is told behind a place alone.
    #[test]
    fn a_line_without_a_place_has_no_length() {
        for number in 1..=11 {
            let refused = broken(number, 0, 0);
            assert!(!refused.scan_broke());
            assert_eq!(refused.line_for(31_352), refused.to_string());
        }
    }

    #[test]
    fn each_number_has_one_line_of_its_own() {
        let lines: Vec<String> = (1..=12).map(|number| line(number, None)).collect();
        for (at, line) in lines.iter().enumerate() {
            assert!(line.starts_with(&format!("refused {}: ", at + 1)));
            let meaning = &line[line.find(": ").unwrap()..];
            assert!(!line.contains('\n'));
            assert_eq!(lines.iter().filter(|other| other.ends_with(meaning)).count(), 1, "{line}");
        }
    }

    /// The constants are the numbers of the header for C, all of them.
    #[test]
    fn the_numbers_are_those_of_the_header() {
        let header = std::fs::read_to_string("../../include/tillsparrow.h").unwrap();
        let body = header.split("enum tillsparrow_number {").nth(1).unwrap();
        let lines = body.split('}').next().unwrap().lines();
        let named: Vec<(&str, u64)> = lines
            .filter_map(|line| line.trim().strip_prefix("TILLSPARROW_")?.split_once(" = "))
            .map(|(name, rest)| (name, rest.split([',', ' ']).next().unwrap().parse().unwrap()))
            .collect();
        let ours = [
            ("ACCEPTED", 0),
            ("TOO_LONG", Refused::TOO_LONG),
            ("OVER_BUDGET", Refused::OVER_BUDGET),
            ("CUT_SHORT", Refused::CUT_SHORT),
            ("MALFORMED", Refused::MALFORMED),
            ("UNSUPPORTED", Refused::UNSUPPORTED),
            ("TOO_LARGE", Refused::TOO_LARGE),
            ("SHORT_ROOM", Refused::SHORT_ROOM),
            ("NOT_ITS_RECORD", Refused::NOT_ITS_RECORD),
            ("NO_END_CODE", Refused::NO_END_CODE),
            ("BARE_255", Refused::BARE_255),
            ("NO_CODE", Refused::NO_CODE),
        ];
        assert_eq!(named, ours);
    }
}
