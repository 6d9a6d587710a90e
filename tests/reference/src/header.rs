//! From SOI to SOS: the record of a file, or the refusal number 3, 4 or 5.

use crate::huffman;
use crate::layout;
use crate::record::{Record, MOST_CHANNELS};

const CUT_SHORT: u8 = 3;
const MALFORMED: u8 = 4;
const UNSUPPORTED: u8 = 5;

/// What has been met so far.
struct Header<'a> {
    file: &'a [u8],
    record: Record,
    frame_seen: bool,
}

/// A segment: its marker code and where its body starts and ends.
struct Segment {
    code: u8,
    start: usize,
    end: usize,
}

/// The record of the file's header with this colour choice.
pub fn read(file: &[u8], colour: u64) -> Result<Record, u8> {
    // "The file opens 255 216, else 4."
    if !file.starts_with(&[255, 216]) {
        return Err(MALFORMED);
    }
    let mut header = Header { file, record: Record::default(), frame_seen: false };
    let mut at = 2;
    loop {
        let segment = next_segment(file, at)?;
        at = segment.end;
        if header.step(&segment)? {
            break;
        }
    }
    let mut record = header.record;
    record.first_coded = at as u64;
    record.colour = colour;
    layout::measure(&mut record);
    Ok(record)
}

/// The tests on a marker and its length, in the order written.
fn next_segment(file: &[u8], mut at: usize) -> Result<Segment, u8> {
    loop {
        if file.len() - at < 2 || file[at] != 255 {
            return Err(MALFORMED);
        }
        // "A second 255 is fill: move one byte."
        if file[at + 1] != 255 {
            break;
        }
        at += 1;
    }
    let code = file[at + 1];
    // "217: 4 always in a standalone header", before the length test.
    if code == 217 {
        return Err(MALFORMED);
    }
    if file.len() - at < 4 {
        return Err(CUT_SHORT);
    }
    let length = two_bytes(file, at + 2) as usize;
    if length < 2 || length > file.len() - (at + 2) {
        return Err(CUT_SHORT);
    }
    Ok(Segment { code, start: at + 4, end: at + 2 + length })
}

fn two_bytes(file: &[u8], at: usize) -> u64 {
    256 * u64::from(file[at]) + u64::from(file[at + 1])
}

/// `Err(number)` where a test fails.
fn require(holds: bool, number: u8) -> Result<(), u8> {
    if holds {
        Ok(())
    } else {
        Err(number)
    }
}

impl Header<'_> {
    /// "Marker codes decide the next step." True after the scan segment.
    fn step(&mut self, segment: &Segment) -> Result<bool, u8> {
        let body = &self.file[segment.start..segment.end];
        match segment.code {
            192 | 193 => self.frame(body)?,
            196 => self.huffman_tables(segment)?,
            218 => {
                self.scan(body)?;
                return Ok(true);
            }
            219 => self.quantizers(segment)?,
            221 => self.restart_interval(body)?,
            224..=239 | 254 => {}
            _ => return Err(UNSUPPORTED),
        }
        Ok(false)
    }

    /// One or more times: an id 0..3, compared whole, and 64 nonzero bytes.
    fn quantizers(&mut self, segment: &Segment) -> Result<(), u8> {
        require(segment.start < segment.end, MALFORMED)?;
        let mut at = segment.start;
        while at < segment.end {
            let id = self.file[at] as usize;
            require(id <= 3, MALFORMED)?;
            require(segment.end - at >= 65, MALFORMED)?;
            let values = &self.file[at + 1..at + 65];
            require(values.iter().all(|&value| value != 0), MALFORMED)?;
            self.record.quantizers[id] = (at + 1) as u64;
            at += 65;
        }
        Ok(())
    }

    /// One or more times: class and id, 16 counts, 1 to 256 symbols inside the segment. A
    /// table is tested when it is read, whether the scan uses it or not.
    fn huffman_tables(&mut self, segment: &Segment) -> Result<(), u8> {
        require(segment.start < segment.end, MALFORMED)?;
        let mut at = segment.start;
        while at < segment.end {
            let (class, id) = (self.file[at] / 16, (self.file[at] % 16) as usize);
            require(class <= 1 && id <= 3, MALFORMED)?;
            require(segment.end - at >= 17, MALFORMED)?;
            let counts = &self.file[at + 1..at + 17];
            let symbols = huffman::total(counts);
            require((1..=256).contains(&symbols), MALFORMED)?;
            require(segment.end - at >= 17 + symbols, MALFORMED)?;
            require(huffman::fits(counts), MALFORMED)?;
            let listed = &self.file[at + 17..at + 17 + symbols];
            require(huffman::may_list(class, listed), MALFORMED)?;
            if class == 0 {
                self.record.dc_tables[id] = (at + 1) as u64;
            } else {
                self.record.ac_tables[id] = (at + 1) as u64;
            }
            at += 17 + symbols;
        }
        Ok(())
    }

    /// "Restart interval: body 2, else 4; the last one counts; 0 is none."
    fn restart_interval(&mut self, body: &[u8]) -> Result<(), u8> {
        require(body.len() == 2, MALFORMED)?;
        self.record.interval = two_bytes(body, 0);
        Ok(())
    }

    /// Frame: 4 for a second one, then the groups 5, 4, 5.
    fn frame(&mut self, body: &[u8]) -> Result<(), u8> {
        require(!self.frame_seen, MALFORMED)?;
        require(body.len() >= 6, UNSUPPORTED)?;
        let channels = body[5] as usize;
        require(body[0] == 8 && (1..=MOST_CHANNELS).contains(&channels), UNSUPPORTED)?;
        require(body.len() == 6 + 3 * channels, MALFORMED)?;
        self.record.height = two_bytes(body, 1);
        self.record.width = two_bytes(body, 3);
        require(self.record.width > 0 && self.record.height > 0, UNSUPPORTED)?;
        self.record.channels = channels as u64;
        for (channel, component) in body[6..].chunks(3).enumerate() {
            self.component(channel, component)?;
        }
        self.components_together()?;
        self.frame_seen = true;
        Ok(())
    }

    /// A channel's id, factors (across in the high nibble, down in the low one) and quantizer.
    fn component(&mut self, channel: usize, bytes: &[u8]) -> Result<(), u8> {
        let (across, down) = (u64::from(bytes[1] / 16), u64::from(bytes[1] % 16));
        require((1..=4).contains(&across) && (1..=4).contains(&down), UNSUPPORTED)?;
        require(bytes[2] <= 3, UNSUPPORTED)?;
        self.record.ids[channel] = u64::from(bytes[0]);
        self.record.across[channel] = across;
        self.record.down[channel] = down;
        self.record.quantizer_ids[channel] = u64::from(bytes[2]);
        Ok(())
    }

    /// Several channels have at most 10 blocks in an MCU and no id twice. A single one counts
    /// as 1 x 1, and nothing is asked of it.
    fn components_together(&mut self) -> Result<(), u8> {
        let channels = self.record.channels as usize;
        if channels == 1 {
            (self.record.across[0], self.record.down[0]) = (1, 1);
            return Ok(());
        }
        require(layout::blocks_per_mcu(&self.record) <= 10, UNSUPPORTED)?;
        let ids = &self.record.ids[..channels];
        let twice = |channel: usize| ids[..channel].contains(&ids[channel]);
        require(!(1..channels).any(twice), UNSUPPORTED)
    }

    /// Scan: each test runs over all channels before the next.
    fn scan(&mut self, body: &[u8]) -> Result<(), u8> {
        require(self.frame_seen, MALFORMED)?;
        let channels = self.record.channels as usize;
        require(body.len() == 4 + 2 * channels, UNSUPPORTED)?;
        require(body[0] as usize == channels, UNSUPPORTED)?;
        require(body.ends_with(&[0, 63, 0]), UNSUPPORTED)?;
        for channel in 0..channels {
            let id = u64::from(body[1 + 2 * channel]);
            require(id == self.record.ids[channel], MALFORMED)?;
        }
        for channel in 0..channels {
            let (dc, ac) = (body[2 + 2 * channel] / 16, body[2 + 2 * channel] % 16);
            require(dc <= 3 && ac <= 3, UNSUPPORTED)?;
            self.record.dc_ids[channel] = u64::from(dc);
            self.record.ac_ids[channel] = u64::from(ac);
        }
        require((0..channels).all(|channel| self.tables_stand(channel)), MALFORMED)
    }

    /// Needed tables, quantizers too, are those that stand when SOS is met.
    fn tables_stand(&self, channel: usize) -> bool {
        let record = &self.record;
        record.quantizers[record.quantizer_ids[channel] as usize] != 0
            && record.dc_tables[record.dc_ids[channel] as usize] != 0
            && record.ac_tables[record.ac_ids[channel] as usize] != 0
    }
}
