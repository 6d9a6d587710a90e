//! The record that inspect gives and decode takes back.

/// How many numbers a record has when written flat.
pub const NUMBERS: usize = 46;

/// A frame has 1 to 4 channels; what a record has by channel is 0 behind the last.
pub const MOST_CHANNELS: usize = 4;

/// Every field is a whole number, so that a given record may hold any value.
#[derive(Clone, Debug, Default, PartialEq, Eq)]
pub struct Record {
    pub width: u64,
    pub height: u64,
    pub channels: u64,
    /// The factors of each channel; a single one has 1 x 1.
    pub across: [u64; MOST_CHANNELS],
    pub down: [u64; MOST_CHANNELS],
    pub ids: [u64; MOST_CHANNELS],
    pub quantizer_ids: [u64; MOST_CHANNELS],
    pub dc_ids: [u64; MOST_CHANNELS],
    pub ac_ids: [u64; MOST_CHANNELS],
    /// Offset of a quantizer's 64 bytes; absent is 0.
    pub quantizers: [u64; 4],
    /// Offset of a DC table's 16 counts; absent is 0.
    pub dc_tables: [u64; 4],
    /// Offset of an AC table's 16 counts; absent is 0.
    pub ac_tables: [u64; 4],
    pub interval: u64,
    pub first_coded: u64,
    pub blocks: u64,
    pub scratch: u64,
    pub output: u64,
    pub work: u64,
    /// The colour choice as given: 0 or 1.
    pub colour: u64,
}

impl Record {
    /// The fields in the order of the case format.
    pub fn numbers(&self) -> [u64; NUMBERS] {
        let mut list = vec![self.width, self.height, self.channels];
        list.extend(self.across);
        list.extend(self.down);
        list.extend(self.ids);
        list.extend(self.quantizer_ids);
        list.extend(self.dc_ids);
        list.extend(self.ac_ids);
        list.extend(self.quantizers);
        list.extend(self.dc_tables);
        list.extend(self.ac_tables);
        list.extend([self.interval, self.first_coded, self.blocks]);
        list.extend([self.scratch, self.output, self.work, self.colour]);
        list.try_into().expect("a record has 46 numbers")
    }

    /// The record whose fields are these numbers.
    pub fn from_numbers(list: &[u64; NUMBERS]) -> Record {
        let four = |at: usize| [list[at], list[at + 1], list[at + 2], list[at + 3]];
        Record {
            width: list[0],
            height: list[1],
            channels: list[2],
            across: four(3),
            down: four(7),
            ids: four(11),
            quantizer_ids: four(15),
            dc_ids: four(19),
            ac_ids: four(23),
            quantizers: four(27),
            dc_tables: four(31),
            ac_tables: four(35),
            interval: list[39],
            first_coded: list[40],
            blocks: list[41],
            scratch: list[42],
            output: list[43],
            work: list[44],
            colour: list[45],
        }
    }
}

#[cfg(test)]
mod tests {
    use super::*;

    #[test]
    fn numbers_there_and_back() {
        let mut list = [0; NUMBERS];
        for (i, number) in list.iter_mut().enumerate() {
            *number = 1000 + i as u64;
        }
        assert_eq!(Record::from_numbers(&list).numbers(), list);
    }

    #[test]
    fn numbers_stand_in_their_order() {
        let record = Record {
            width: 1,
            height: 2,
            channels: 3,
            across: [4, 5, 6, 7],
            down: [8, 9, 10, 11],
            ids: [12, 13, 14, 15],
            quantizer_ids: [16, 17, 18, 19],
            dc_ids: [20, 21, 22, 23],
            ac_ids: [24, 25, 26, 27],
            quantizers: [28, 29, 30, 31],
            dc_tables: [32, 33, 34, 35],
            ac_tables: [36, 37, 38, 39],
            interval: 40,
            first_coded: 41,
            blocks: 42,
            scratch: 43,
            output: 44,
            work: 45,
            colour: 46,
        };
        assert_eq!(record.numbers(), std::array::from_fn(|place| place as u64 + 1));
    }
}
