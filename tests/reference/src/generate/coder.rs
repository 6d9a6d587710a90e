//! A writer of scans: valid ones, and ones with a single chosen fault. Many have fill before
//! their markers.

use super::faults::{self, Fault};
use super::plan::Shape;
use super::tables;
use crate::random::Random;
use crate::record::MOST_CHANNELS;

/// A table ready for writing.
struct Ready {
    /// The code of each symbol: length and bits.
    codes: Vec<Option<(u32, u32)>>,
    listed: Vec<u8>,
    finishes: [bool; 65],
    /// Sixteen bits that start with no code: these, and all above.
    unused: u32,
}

struct Coder<'a> {
    shape: &'a Shape,
    random: &'a mut Random,
    dc: Vec<Ready>,
    ac: Vec<Ready>,
    bytes: Vec<u8>,
    started: u32,
    filled: u32,
    predictors: [i32; MOST_CHANNELS],
    /// The fault still to come, and the block from which on it may.
    fault: Option<Fault>,
    fault_from: u64,
    block: u64,
    /// As in `Coded`.
    begins: Vec<(usize, u32)>,
    /// One marker in so many has fill before it; none if it is 0.
    fill_one_in: u64,
    /// Where a fault ends the file before its time.
    cut: Option<usize>,
    /// A byte that undoes the fault if it stands here by chance.
    undone_by: Option<(usize, u8)>,
}

/// A scan as it was written.
pub struct Coded {
    /// The coded bytes with their end.
    pub bytes: Vec<u8>,
    /// Whether the fault came about.
    pub came: bool,
    /// Where each block begins, and then the end: before its restart, behind so many whole bytes
    /// and so many bits of the next one.
    pub begins: Vec<(usize, u32)>,
}

impl Coded {
    /// The first byte that holds no bit of what stands before this block.
    pub fn start(&self, block: usize) -> usize {
        let (whole, bits) = self.begins[block];
        match self.bytes.get(whole) {
            _ if bits == 0 => whole,
            // Behind its stuffed 0.
            Some(255) => whole + 2,
            _ => whole + 1,
        }
    }
}

/// A scan of this shape, with this fault if it can come about.
pub fn scan(shape: &Shape, random: &mut Random, fault: Option<Fault>) -> Coded {
    let fault_from = faults::target(shape, random);
    let fill_one_in = random.pick(&[0, 0, 1, 3]);
    let mut coder = Coder {
        dc: shape.dc.iter().map(Ready::new).collect(),
        ac: shape.ac.iter().map(Ready::new).collect(),
        shape,
        random,
        bytes: Vec::new(),
        started: 0,
        filled: 0,
        predictors: [0; MOST_CHANNELS],
        fault,
        fault_from,
        block: 0,
        begins: Vec::new(),
        fill_one_in,
        cut: None,
        undone_by: None,
    };
    coder.blocks();
    coder.end();
    let came = coder.fault != fault && !coder.undone();
    coder.bytes.truncate(coder.cut.unwrap_or(usize::MAX));
    Coded { bytes: coder.bytes, came, begins: coder.begins }
}

impl Ready {
    fn new(table: &tables::Table) -> Ready {
        let mut codes = vec![None; 256];
        for (symbol, length, bits) in table.codes() {
            codes[symbol as usize] = Some((length, bits));
        }
        let listed = table.symbols.clone();
        Ready { codes, listed, finishes: tables::finishes(&table.symbols), unused: table.unused() }
    }

    fn lists(&self, symbol: u8) -> bool {
        self.codes[symbol as usize].is_some()
    }
}

/// The category or size of a value.
fn category(value: i32) -> u8 {
    (32 - value.unsigned_abs().leading_zeros()) as u8
}

impl Coder<'_> {
    /// Whether this fault is due now; it comes once.
    fn due(&mut self, fault: Fault) -> bool {
        let due = self.wanted(fault);
        if due {
            self.fault = None;
        }
        due
    }

    fn wanted(&self, fault: Fault) -> bool {
        self.fault == Some(fault) && self.block >= self.fault_from
    }

    /// Whether by chance the fault is none.
    fn undone(&self) -> bool {
        self.undone_by.is_some_and(|(at, byte)| self.bytes.get(at) == Some(&byte))
    }

    fn bit(&mut self, bit: u32) {
        // Padding starts no byte, so this is a bit of a block.
        let may_fill = self.filled == 0 && self.wanted(Fault::FillInBlock);
        if may_fill && self.random.chance(1, 6) && self.due(Fault::FillInBlock) {
            self.bytes.push(255);
            self.fill();
        }
        self.started = 2 * self.started + bit;
        self.filled += 1;
        if self.filled < 8 {
            return;
        }
        self.bytes.push(self.started as u8);
        if self.started == 255 {
            self.behind_255();
        }
        (self.started, self.filled) = (0, 0);
    }

    /// The 0 behind a 255 of the data, or a fault there.
    fn behind_255(&mut self) {
        if self.due(Fault::Stuffing) {
            let other = self.random.pick(&[1, 255, 208, 217, 128]);
            self.bytes.push(other);
        } else if self.due(Fault::Bare) {
            self.undone_by = Some((self.bytes.len(), 0));
        } else {
            // Fill before this byte: the last 255 and the 0 look like it.
            if self.due(Fault::FillInBlock) {
                self.fill();
            }
            self.bytes.push(0);
        }
    }

    fn bits(&mut self, length: u32, value: u32) {
        (0..length).rev().for_each(|place| self.bit(value >> place & 1));
    }

    fn symbol(&mut self, dc: bool, channel: usize, symbol: u8) {
        let ready = if dc { &self.dc[channel] } else { &self.ac[channel] };
        let (length, bits) = ready.codes[symbol as usize].expect("only listed symbols are written");
        let unused = ready.unused;
        let wanted = self.wanted(Fault::NoCode) || self.wanted(Fault::NoCodeThenEnd);
        if wanted && self.random.chance(1, 2) {
            self.no_code(unused);
        }
        self.bits(length, bits);
    }

    /// Bits that are no code, where such a fault is due; then the end of the file or a bare 255
    /// where that belongs to it.
    fn no_code(&mut self, unused: u32) {
        let any = self.random.between(unused.into(), 65535) as u32;
        let code = self.random.pick(&[unused, 65535, any]);
        if self.due(Fault::NoCode) {
            self.bits(16, code);
        } else if self.due(Fault::NoCodeThenEnd) {
            // Whole bytes behind the started one: the sixteenth bit is among them or not.
            let more = self.random.pick(&[0, 1, 1, 2, 2]);
            let count = (8 - self.filled) % 8 + 8 * more;
            let behind = self.random.between(0, 255) as u32;
            (0..count).for_each(|place| self.bit((code << 8 | behind) >> (23 - place) & 1));
            self.break_off();
        }
    }

    /// Ends the file at the end of a started byte, or puts a bare 255 there.
    fn break_off(&mut self) {
        while self.filled != 0 {
            let any = self.random.between(0, 1) as u32;
            self.bit(any);
        }
        let bare = self.random.pick(&[&[1][..], &[255], &[208], &[217], &[255, 217]]);
        match self.random.below(3) {
            0 => self.cut = Some(self.bytes.len()),
            1 => {
                self.bytes.push(255);
                self.cut = Some(self.bytes.len());
            }
            _ => {
                self.bytes.push(255);
                self.bytes.extend(bare);
            }
        }
    }

    /// A field, often at an edge.
    fn field(&mut self, size: u32) -> u32 {
        let ones = (1u32 << size) - 1;
        let any = self.random.between(0, ones.into()) as u32;
        let top = if size > 0 { 1 << (size - 1) } else { 0 };
        self.random.pick(&[any, any, any, any, any, any, ones, ones, 0, top])
    }

    /// Ones up to the end of a started byte. True where a fault puts fill behind it.
    fn padding(&mut self) -> bool {
        if self.filled == 0 {
            return false;
        }
        let before_fill = self.due(Fault::FillPadding);
        // The bit that is a 0; there is no bit 8.
        let wrong = match before_fill || self.due(Fault::Padding) {
            true => self.random.between(self.filled.into(), 7) as u32,
            false => 8,
        };
        while self.filled != 0 {
            self.bit(u32::from(self.filled != wrong));
        }
        if self.bytes.ends_with(&[255, 0]) && self.due(Fault::FillUnstuffed) {
            self.bytes.pop();
            return true;
        }
        before_fill
    }

    /// One byte of fill or more.
    fn fill(&mut self) {
        let tens = self.random.between(10, 99);
        let hundreds = self.random.between(100, 400);
        let mut count = self.random.pick(&[1, 1, 1, 1, 1, 2, 2, 2, 3, 3, 3, 3, tens, hundreds]);
        if self.random.chance(1, 2000) {
            count = self.random.between(65_534, 65_538);
        }
        // Much of it only while the scan is short, so that files stay small.
        if self.bytes.len() > 3000 {
            count = count.min(3);
        }
        self.bytes.extend(vec![255; count as usize]);
    }

    /// Padding, now and then fill, then a marker.
    fn marker(&mut self, code: u8) {
        let wanted = self.padding();
        if self.due(Fault::PaddingByte) {
            self.bytes.extend([255, 0]);
        }
        let by_custom = self.fill_one_in > 0 && self.random.chance(1, self.fill_one_in);
        if wanted || by_custom {
            self.fill();
        }
        if !self.in_place_of(code) {
            self.bytes.extend([255, code]);
        }
    }

    /// Fill and behind it something else than this marker, where such a fault is due.
    fn in_place_of(&mut self, code: u8) -> bool {
        let data = self.random.between(1, 191) as u8;
        match self.fault.filter(|&fault| self.wanted(fault)) {
            Some(Fault::FillThenByte) => {
                self.fill();
                // With the 0 it looks like a 255 of the data.
                let byte = self.random.pick(&[0, data]);
                self.bytes.extend([255, byte, 255, code]);
            }
            Some(Fault::FillThenCode) => {
                self.fill();
                let restart = 208 + (code % 8 + self.random.between(1, 7) as u8) % 8;
                let end = if code == 217 { 216 } else { 217 };
                let other = self.random.pick(&[restart, restart, end, 254, 0, data]);
                self.bytes.extend([255, other]);
            }
            Some(Fault::FillThenBlock) if code != 217 => {
                self.fill();
                self.bytes.push(255);
                self.undone_by = Some((self.bytes.len(), code));
            }
            Some(Fault::FillCut) => {
                self.fill();
                self.cut = Some(self.bytes.len());
            }
            _ => return false,
        }
        self.fault = None;
        true
    }

    fn blocks(&mut self) {
        for mcu in 0..self.shape.mcus() {
            for (place, channel) in self.shape.mcu().into_iter().enumerate() {
                if self.block > 0 && self.due(Fault::EarlyEnd) {
                    return;
                }
                self.begins.push((self.bytes.len(), self.filled));
                if place == 0 {
                    self.restart(mcu);
                }
                self.block(channel);
                self.block += 1;
            }
        }
    }

    fn restart(&mut self, mcu: u64) {
        let interval = self.shape.interval;
        if mcu == 0 || mcu.checked_rem(interval) != Some(0) {
            if mcu > 0 && self.due(Fault::RestartNotDue) {
                let code = 208 + self.random.between(0, 7) as u8;
                self.marker(code);
            }
            return;
        }
        let number = (mcu / interval - 1) % 8;
        if self.due(Fault::RestartMissing) {
            return;
        }
        let wrong =
            if self.due(Fault::RestartNumber) { self.random.pick(&[1, 7, 2, 4]) } else { 0 };
        self.marker(208 + ((number + wrong) % 8) as u8);
        if !self.due(Fault::Carried) {
            self.predictors = [0; MOST_CHANNELS];
        }
    }

    fn end(&mut self) {
        self.begins.push((self.bytes.len(), self.filled));
        if self.due(Fault::ExtraBlock) {
            self.block(0);
        }
        if self.due(Fault::RestartAfterLast) {
            let interval = self.shape.interval.max(1);
            self.marker(208 + ((self.shape.mcus() / interval + 7) % 8) as u8);
        }
        self.marker(217);
        if self.due(Fault::NoEnd) {
            let kept = self.bytes.len() - self.random.between(1, 2) as usize;
            self.bytes.truncate(kept);
        }
        if self.due(Fault::AfterEnd) {
            let after = self.random.pick(&[&[0][..], &[255], &[255, 217], &[10], &[217]]);
            self.bytes.extend(after);
        }
        if self.due(Fault::FillAfterEnd) {
            self.fill();
            let then = self.random.pick(&[&[][..], &[217], &[255, 217], &[0]]);
            self.bytes.extend(then);
        }
    }

    fn block(&mut self, channel: usize) {
        self.first(channel);
        let mut place = 1;
        while place < 64 {
            let symbol = self.next_symbol(channel, place);
            self.symbol(false, channel, symbol);
            if symbol == 0 {
                break;
            }
            // The symbol alone is at fault: its field may be missing.
            if tables::step(symbol, place).is_none() && self.random.chance(1, 2) {
                self.break_off();
            }
            if symbol != 240 {
                let size = u32::from(symbol % 16);
                // Often ones as the block's last bits: the next one may begin behind a 255.
                let last = place + usize::from(symbol / 16) == 63;
                let ones = last && self.random.chance(1, 2);
                let field = if ones { (1 << size) - 1 } else { self.field(size) };
                self.bits(size, field);
            }
            place += usize::from(symbol / 16) + 1;
        }
    }

    /// A symbol that may stand here, or a faulty one where it is time for it.
    fn next_symbol(&mut self, channel: usize, place: usize) -> u8 {
        if let Some(symbol) = self.faulty_symbol(channel, place) {
            return symbol;
        }
        let ready = &self.ac[channel];
        let manner = self.shape.manner;
        let length = if manner.short { 2 } else { manner.length };
        if ready.lists(0) && self.random.chance(1, length) {
            return 0;
        }
        let may = |symbol: u8| tables::step(symbol, place).is_some_and(|next| ready.finishes[next]);
        for _ in 0..4 {
            let symbol = ready.listed[self.random.below(ready.listed.len())];
            if may(symbol) {
                return symbol;
            }
        }
        // Nothing may stand here with a way to the end: end, or after a fault go on anyhow.
        let last = if ready.lists(0) { 0 } else { ready.listed[0] };
        ready.listed.iter().copied().find(|&symbol| may(symbol)).unwrap_or(last)
    }

    fn faulty_symbol(&mut self, channel: usize, place: usize) -> Option<u8> {
        let fault = self.fault?;
        let wrong = |&symbol: &u8| {
            let (run, size) = (symbol / 16, symbol % 16);
            match fault {
                Fault::RunPast => size > 0 && place + usize::from(run) >= 64,
                Fault::SkipPast => symbol == 240 && place > 48,
                _ => false,
            }
        };
        if self.block < self.fault_from {
            return None;
        }
        let found: Vec<u8> = self.ac[channel].listed.iter().copied().filter(wrong).collect();
        if found.is_empty() {
            return None;
        }
        self.fault = None;
        Some(self.random.pick(&found))
    }

    /// The first symbol and its field, often towards the edges -2048 and 2047.
    fn first(&mut self, channel: usize) {
        let predictor = self.predictors[channel];
        let difference = self.difference(channel, predictor);
        self.predictors[channel] = (predictor + difference).clamp(-2048, 2047);
        let size = category(difference);
        self.symbol(true, channel, size);
        let field = if difference < 0 { difference + (1 << size) - 1 } else { difference } as u32;
        let beyond = self.predictors[channel] != predictor + difference;
        if beyond && self.random.chance(1, 2) {
            self.broken_field(size.into(), field);
        } else {
            self.bits(size.into(), field);
        }
    }

    /// The whole field or its first bits up to the end of a byte, then no more data.
    fn broken_field(&mut self, size: u32, field: u32) {
        let part = (8 - self.filled) % 8;
        let kept = if part < size && self.random.chance(2, 3) { part } else { size };
        self.bits(kept, field >> (size - kept));
        self.break_off();
    }

    /// A difference whose category the table lists.
    fn difference(&mut self, channel: usize, predictor: i32) -> i32 {
        if let Some(difference) = self.steered(channel, predictor) {
            return difference;
        }
        let size = self.random.pick(&self.dc[channel].listed);
        if size == 0 {
            return 0;
        }
        let low = 1u64 << (size - 1);
        let amount = self.random.between(low, 2 * low - 1) as i32;
        let sign = self.random.pick(&[1, -1]);
        // From any prediction one of the two signs stays within -2048..2047.
        let fits = |difference: &i32| (-2048..=2047).contains(&(predictor + difference));
        [sign * amount, -sign * amount].into_iter().find(fits).expect("one sign fits")
    }

    /// A difference past the edge where that fault is due, to an even spread, or towards
    /// the edges.
    fn steered(&mut self, channel: usize, predictor: i32) -> Option<i32> {
        let (ready, manner) = (&self.dc[channel], self.shape.manner);
        let lists =
            |difference: &i32| difference.abs() <= 2047 && ready.lists(category(*difference));
        if self.wanted(Fault::Beyond) {
            let past = [2048 - predictor, -2049 - predictor].into_iter().find(lists);
            if past.is_some() {
                self.fault = None;
                return past;
            }
        }
        let even = self.random.between(0, 2047) as i32 - 1024 - predictor;
        if manner.even && lists(&even) {
            return Some(even);
        }
        let edge = self.random.pick(&[-2048, 2047]);
        let towards = (edge - predictor).clamp(-2047, 2047);
        let steer = self.fault == Some(Fault::Beyond) || !manner.mild;
        (steer && self.random.chance(1, 3) && lists(&towards)).then_some(towards)
    }
}
