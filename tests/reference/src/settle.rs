//! The settled file: the head as it is, then the one scan the rules choose.

use crate::huffman::Codes;
use crate::layout;
use crate::record::{Record, MOST_CHANNELS};
use crate::scan::{self, Levels};

/// Writes bits highest first, with a 0 after every 255.
#[derive(Default)]
struct Writer {
    bytes: Vec<u8>,
    started: u32,
    filled: u32,
}

impl Writer {
    fn bits(&mut self, length: u32, value: u32) {
        for place in (0..length).rev() {
            self.started = 2 * self.started + (value >> place & 1);
            self.filled += 1;
            if self.filled == 8 {
                self.finish_byte();
            }
        }
    }

    /// "0 follows every 255, padded bytes too."
    fn finish_byte(&mut self) {
        self.bytes.push(self.started as u8);
        if self.started == 255 {
            self.bytes.push(0);
        }
        (self.started, self.filled) = (0, 0);
    }

    /// "Padding is ones", only up to the end of a started byte; then the marker, without fill.
    fn marker(&mut self, code: u8) {
        while self.filled != 0 {
            self.bits(1, 1);
        }
        self.bytes.extend([255, code]);
    }
}

/// The state of the settled scan.
struct Settled<'a> {
    record: &'a Record,
    dc: Vec<Codes>,
    ac: Vec<Codes>,
    writer: Writer,
    predictors: [i32; MOST_CHANNELS],
    /// Some block needs an end code that its table does not list: number 9.
    end_missing: bool,
}

/// The settled form of an accepted file, or `None` where an end code is missing.
pub fn settled(file: &[u8], record: &Record) -> Option<Vec<u8>> {
    let mut settled = Settled::new(file, record);
    let mut each = |block, channel, levels: &Levels| settled.block(block, channel, levels);
    scan::read(file, record, &mut each).expect("an accepted file is read again");
    settled.writer.marker(217);
    if settled.end_missing {
        return None;
    }
    // "Keep all bytes before the first coded byte."
    let mut bytes = file[..record.first_coded as usize].to_vec();
    bytes.extend(settled.writer.bytes);
    Some(bytes)
}

impl<'a> Settled<'a> {
    fn new(file: &[u8], record: &'a Record) -> Settled<'a> {
        let table = |offsets: &[u64; 4], id: u64| Codes::at(file, offsets[id as usize]);
        let channels = 0..record.channels as usize;
        let dc = channels.clone().map(|channel| table(&record.dc_tables, record.dc_ids[channel]));
        let ac = channels.map(|channel| table(&record.ac_tables, record.ac_ids[channel]));
        Settled {
            record,
            dc: dc.collect(),
            ac: ac.collect(),
            writer: Writer::default(),
            predictors: [0; MOST_CHANNELS],
            end_missing: false,
        }
    }

    /// "Per block: the restart where due; the smallest category; ..."
    fn block(&mut self, block: u64, channel: usize, levels: &Levels) {
        let per_mcu = layout::blocks_per_mcu(self.record);
        let (mcu, block_in_mcu) = (block / per_mcu, block % per_mcu);
        if block_in_mcu == 0 {
            if let Some(code) = layout::restart_before(self.record, mcu) {
                self.writer.marker(code);
                self.predictors = [0; MOST_CHANNELS];
            }
        }
        let difference = levels[0] - self.predictors[channel];
        self.predictors[channel] = levels[0];
        let category = size_of(difference);
        put_symbol(&mut self.writer, &self.dc[channel], category as u8);
        self.writer.bits(category, field_of(category, difference));
        self.rest(channel, levels);
    }

    /// "Before each nonzero value one 240 for each full 16 zeros, then run and size."
    fn rest(&mut self, channel: usize, levels: &Levels) {
        let (writer, codes) = (&mut self.writer, &self.ac[channel]);
        let mut zeros = 0;
        for &value in &levels[1..] {
            if value == 0 {
                zeros += 1;
                continue;
            }
            for _ in 0..zeros / 16 {
                put_symbol(writer, codes, 240);
            }
            let size = size_of(value);
            put_symbol(writer, codes, (zeros % 16 * 16 + size) as u8);
            writer.bits(size, field_of(size, value));
            zeros = 0;
        }
        // "If place 63 is zero, the end code."
        if levels[63] == 0 {
            match codes.code(0) {
                Some((length, code)) => writer.bits(length, code),
                None => self.end_missing = true,
            }
        }
    }
}

/// The end code is the only symbol that can be missing.
fn put_symbol(writer: &mut Writer, codes: &Codes, symbol: u8) {
    let (length, code) = codes.code(symbol).expect("the file itself used this symbol");
    writer.bits(length, code);
}

/// The smallest size whose fields can mean the value.
fn size_of(value: i32) -> u32 {
    32 - value.unsigned_abs().leading_zeros()
}

/// The field of `size` bits that means the value.
fn field_of(size: u32, value: i32) -> u32 {
    if value < 0 {
        (value + (1 << size) - 1) as u32
    } else {
        value as u32
    }
}

#[cfg(test)]
mod tests {
    use super::*;
    use crate::bits::meaning;

    #[test]
    fn fields_mean_their_values() {
        for value in -2047..=2047 {
            let size = size_of(value);
            assert!(size <= 11);
            assert_eq!(meaning(size, field_of(size, value)), value);
        }
    }

    #[test]
    fn a_padded_255_is_stuffed() {
        let mut writer = Writer::default();
        writer.bits(3, 7);
        writer.marker(217);
        assert_eq!(writer.bytes, [255, 0, 255, 217]);
        let mut writer = Writer::default();
        writer.marker(217);
        assert_eq!(writer.bytes, [255, 217]);
    }
}
